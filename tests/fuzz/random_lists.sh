# Lists that OpenSSH's ssh-keygen makes from random specification files, of every sort of entry and
# in every shape of serials: both programs say the same of keys and certificates.

make_asked
RANDOM=4711

# make_list SORT AUTHORITY [-u]
make_list() {
  lines "$1" >spec
  "$openssh" -q -k ${3:-} -f made.krl -s "$2" -z $((RANDOM % 100 + 1)) \
    spec >"$scratch/error" 2>&1 ||
    judge "OpenSSH makes the list $1 $2" "  $(cat "$scratch/error")"
}
for sort in dense sparse clustered ranges mixed ends top ids keys authority both; do
  for round in 1 2; do
    make_list $sort ca-one.pub
    same "a list of $sort serials or keys, $round"
    make_list dense ca-two.pub -u
    same "the list of $sort with a second authority, $round"
    make_list mixed ca-three.pub -u
    make_list $sort ca-two.pub -u
    same "the list of $sort with three authorities, $round"
  done
done
