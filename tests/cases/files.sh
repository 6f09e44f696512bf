# Files: missing, unreadable, too long, or without a key; names with control bytes; outputs that
# take nothing.

line ssh-ed25519 "$G" >g.pub
line ssh-ed25519 "$A" >a
bytes "$H" "$(section "$G")" >r.krl
mkdir -p folder
: >empty
printf '# nothing\n\n \t\r\n' >comments
listed="256 $(fingerprint "$G") no comment (ED25519)"$'\n'

# fails NAME OUTPUT FAULT WORD..: the run ends with this fault line.
fails() {
  expect "$1" 255 "$2" "ssh-keygen: $3"$'\n' "${@:4}"
}
fails 'a missing file' $'g.pub: REVOKED\n' 'none: file 1 Open' -Q -f r.krl g.pub none
fails 'a missing file, the first' '' 'none: file 1 Open' -Q -f r.krl none g.pub
fails 'a missing list' '' 'none: file 1 Open' -Q -f none g.pub
fails 'a missing file to list' '' 'none: file 1 Open' -l -f none
# If there are two faults, that of the list is reported first, then that of the first file.
fails 'a missing list and a missing file' '' 'none.krl: file 1 Open' -Q -f none.krl none
fails 'a list that is none and a missing file' '' 'a: krl 1 Magic' -Q -f a none
fails 'the same, the contents too' '' 'a: krl 1 Magic' -Q -l -f a none
fails 'a list that is none and a file without a key' '' 'a: krl 1 Magic' -Q -f a empty
fails 'two files with faults' '' 'empty: file 5 NoKeys' -Q -f r.krl empty none
fails 'a path through a file' '' 'g.pub/x: file 1 Open' -l -f g.pub/x
fails 'a folder for a file' $'a: ok\n' 'folder: file 2 Read' -Q -f r.krl a folder
fails 'a folder for a list' '' 'folder: krl 13 Read' -Q -f folder g.pub
fails 'a folder to list' '' 'folder: file 2 Read' -l -f folder
fails 'a folder for standard input' '' '-: file 2 Read' -l -f - <folder
fails 'an empty key file' $'g.pub: REVOKED\n' 'empty: file 5 NoKeys' -Q -f r.krl g.pub empty g.pub
fails 'an empty file to list' '' 'empty: file 5 NoKeys' -l -f empty
fails 'empty standard input' '' '-: file 5 NoKeys' -l -f -
fails 'a file of comments' '' 'comments: file 5 NoKeys' -l -f comments
# A hyphen means standard input as the file to list and as a file of -k. Otherwise it is a name.
fails 'a hyphen is a name in a query' '' '-: file 1 Open' -Q -f r.krl - <g.pub
fails 'a hyphen is a name of a list' '' '-: file 1 Open' -Q -f - g.pub <r.krl
fails 'a hyphen is a name of a list to update' '' '-: file 1 Open' -k -u -f - empty <r.krl
fails 'a hyphen is a name of an authority' '' '-: file 1 Open' -k -f made.krl -s - empty <g.pub
printf 'serial: 7\n' >spec
cp a ./-
expect 'an authority in a file of this name' 0 '' '' -k -f made.krl -s - -z 1 spec <g.pub
judge 'it is the authority' "$(
  differs 'the list' "${H}01$(string "$(string "$A")$(words '')20000000080000000000000007")" \
    "$(digits made.krl)"
)"
expect 'a list of this name' 0 '' '' -k -f - -z 1 empty <g.pub
judge 'it is made' "$(differs 'the list' "$H" "$(digits ./-)")"
rm ./- made.krl

# Root may read what no one else may, so root asks as nobody, whom the scratch folder lets in.
touch closed && chmod 000 closed
cp "$binary" built && chmod 755 "$scratch" built
ask=(./built)
[ "$(id -u)" != 0 ] || ask=(setpriv --reuid=65534 --regid=65534 --clear-groups ./built)
program=${ask[0]} fails 'a file without leave to read' '' 'closed: file 1 Open' "${ask[@]:1}" \
  -l -f closed

control=$'a\tb\x1b\x7f'
cp g.pub "$control"
expect 'a name with control bytes' 1 'a\x09b\x1b\x7f: REVOKED'$'\n' '' -Q -f r.krl "$control"
fails 'a missing name with control bytes' '' 'no\x0ane: file 1 Open' -Q -f r.krl $'no\nne'
fails 'a missing list with control bytes' '' '\x01: file 1 Open' -Q -f $'\x01' g.pub
# However long the name is, a fault is one whole line.
for length in 200 255 256 257 300 1000 5000; do
  long=$(repeat $length n)
  fails "a missing file whose name has $length bytes" '' "$long: file 1 Open" -l -f "$long"
  fails "a missing list whose name has $length bytes" '' "$long: file 1 Open" -Q -f "$long"
done
cp g.pub 'Zoë x'
expect 'a name in UTF-8 with a blank' 1 $'Zoë x: REVOKED\n' '' -Q -f r.krl 'Zoë x'

# The greatest length: one section of one key of zero bytes fills the list to the limit.
zeros=$((67108864 - 44 - 9))
{
  bytes "$H" 02 "$(printf %08x $((zeros + 4)))" "$(printf %08x $zeros)"
  head -c $zeros /dev/zero
} >most.krl
expect 'a list of the greatest length' 0 $'a: ok\n' '' -Q -f most.krl a
{ cat most.krl && printf '\0'; } >more.krl
fails 'a list of one byte more' '' 'more.krl: krl 12 TooLong' -Q -f more.krl a

# without_end DIGITS DIGITS: the first bytes, and then the others again and again.
without_end() {
  bytes "$(repeat 20000 "$2")" >piece
  bytes "$1" && while cat piece; do :; done 2>/dev/null
}
# endless NAME DIGITS DIGITS: a list that repeats the second digits without end is refused once it
# is too long.
endless() {
  fails "$1 without end" '' '/dev/stdin: krl 12 TooLong' -Q -f /dev/stdin < <(without_end "$2" "$3")
}
endless 'a reserved string' "${H:0:72}ffffffff" 00
endless 'a comment' "${H:0:80}ffffffff" 00
endless 'a key' "${H}02fffffffffffffffb" 00
endless 'empty sections of keys' "$H" 0200000000
endless 'sections of certificates with nothing in them' "$H" 01000000080000000000000000
endless 'one authority and no serials' "$H" 010000000e000000014100000000"2000000000"
limit=16777216
{ cat g.pub && head -c $((limit - 81)) /dev/zero | tr '\0' '#'; } >most.pub
expect 'a key file of the greatest length' 0 "$listed" '' -l -f most.pub
printf '\n' >>most.pub
fails 'a key file of one byte more' '' 'most.pub: file 3 TooLong' -l -f most.pub
fails 'standard input of a hundred megabytes' '' '-: file 3 TooLong' -l -f - \
  < <(head -c 100000000 /dev/zero)

# full NAME STATUS ERROR WORD..: the device of the run's output is full.
full() {
  local name=$1 status=$2 error=$3 got
  shift 3
  "$program" "$@" >/dev/full 2>"$scratch/error"
  got=$?
  judge "$name" "$(
    differs 'exit status' "$status" $got
    differs 'standard error' "$error" "$(cat "$scratch/error")"
  )"
}
fault='ssh-keygen: output: output 1 Write after 0 bytes'
full 'a listing on a full device' 255 "$fault" -l -f g.pub
full 'a query on a full device' 255 "$fault" -Q -f r.krl g.pub a
full 'a query of no revoked key on a full device' 255 "$fault" -Q -f r.krl a
full 'a missing file, reported to a full device' 255 "$fault" -Q -f r.krl g.pub none
full 'nothing to write on a full device' 0 '' -Q -f r.krl
full 'help on a full device' 255 "$fault" -h
expect 'a file whose name has no bytes' 255 '' $'ssh-keygen: : file 1 Open\n' \
  -k -u -f r.krl -s none ''
expect 'the same in a query' 255 '' $'ssh-keygen: : file 1 Open\n' -Q -f r.krl ''
expect 'the same of a list' 255 '' $'ssh-keygen: : file 1 Open\n' -k -u -f '' -s none g.pub
expect 'the same of an authority' 255 '' $'ssh-keygen: : file 1 Open\n' -k -u -f r.krl -s '' g.pub
judge 'the list is as it was' "$(differs 'the list' "$H$(section "$G")" "$(digits r.krl)")"

# A listing that is written in several pieces: 2,000 lines of 76 bytes.
for _ in {1..2000}; do cat g.pub; done >many
for _ in {1..2000}; do printf %s "$listed"; done >wanted
expect 'a long listing' 0 "$(cat wanted)"$'\n' '' -l -f many

# cut_off NAME SIZE: the output takes SIZE times 1,024 bytes and no more, as a file does at the
# greatest size that is allowed.
cut_off() {
  local got
  (trap '' XFSZ && ulimit -f "$2" && "$program" -l -f many >cut 2>"$scratch/error")
  got=$?
  judge "$1" "$(
    differs 'exit status' 255 $got
    differs 'standard error' "ssh-keygen: output: output 1 Write after $(($2 * 1024)) bytes" \
      "$(cat "$scratch/error")"
    cmp <(head -c $(($2 * 1024)) wanted) cut 2>&1
  )"
}
cut_off 'an output that fails in the first piece' 1
cut_off 'an output that fails in the second piece' 100

# A run that the system ends gives no answer: the old list is unchanged, and is updated afterwards.
printf 'serial: 5\n' >spec
(ulimit -f 0 && "$binary" -k -u -f r.krl -s none spec) >"$scratch/output" 2>&1
judge 'a signal for a file that is too long' "$(differs 'exit status' 153 $?)"
judge 'the list after it' "$(differs 'the list' "$H$(section "$G")" "$(digits r.krl)")"
expect 'an update after it' 0 '' '' -k -u -f r.krl -s none spec
# A stack of 160 KiB is enough for a query, and one of 192 KiB for an update, whose two readers have
# batches of 64 KiB there.
(ulimit -s 160 && "$binary" -Q -l -f r.krl g.pub a) >"$scratch/output" 2>&1
judge 'a query with a small stack' "$(differs 'exit status' 1 $?)"
(ulimit -s 192 && "$binary" -k -u -f r.krl -s a g.pub) >"$scratch/output" 2>&1
judge 'an update with a small stack' "$(differs 'exit status' 0 $?)"
