# The words of the command: which sets of options run, and how all others are refused.

usage=$'ssh-keygen: usage 1 Usage\n'
line ssh-ed25519 "$G" >g.pub
bytes "$H" "$(section "$G")" >r.krl

expect 'no words' 2 '' "$usage"
expect 'a list for a query is missing' 2 '' "$usage" -Q
expect 'a list for a query of files is missing' 2 '' "$usage" -Q g.pub
expect 'a file to list is missing' 2 '' "$usage" -l
expect 'neither a listing nor a query' 2 '' "$usage" -f g.pub
expect 'a listing takes no further file' 2 '' "$usage" -l -f g.pub g.pub
expect 'contents are printed by no hash' 2 '' "$usage" -Q -l -E md5 -f r.krl
expect 'a query takes no hash' 2 '' "$usage" -Q -E md5 -f r.krl g.pub
expect 'a hash of another name' 2 '' "$usage" -l -E sha1 -f g.pub
expect 'an empty hash' 2 '' "$usage" -l -E '' -f g.pub
expect 'making without a list' 2 '' "$usage" -k g.pub
expect 'making and asking' 2 '' "$usage" -k -Q -f r.krl
expect 'making and listing' 2 '' "$usage" -k -l -f r.krl
expect 'keys and certificates' 2 '' "$usage" -l -L -f g.pub
expect 'certificates and a query' 2 '' "$usage" -Q -L -f r.krl
expect 'making takes no hash' 2 '' "$usage" -k -E md5 -f made.krl
expect 'a query updates nothing' 2 '' "$usage" -Q -u -f r.krl
expect 'a query takes no authority' 2 '' "$usage" -Q -s none -f r.krl
expect 'a listing takes no version' 2 '' "$usage" -l -z 1 -f g.pub
for version in '' +1 0x1 1a 18446744073709551616 000000000000000000001; do
  expect "the version '$version'" 2 '' "$usage" -k -f made.krl -z "$version"
done
judge 'nothing is made of a misuse' "$(ls made.krl 2>/dev/null)"

# makes NAME DIGITS WORD..: a list is made, with these bytes but for its date.
makes() {
  local name=$1 digits=$2
  shift 2
  expect "$name" 0 '' '' -k -f made.krl "$@"
  judge "$name: the list" "$(differs 'the list' "$digits" "$(digits made.krl)")"
}
five=01000000150000000000000000200000000800000000000000 && five+=05
head=${H:0:24}
rest=${H:40}
printf 'serial: 5\n' >five
printf 'serial: 6\n' >six
makes 'a list of one serial' "${head}0000000000000001$rest$five" -s none -z 1 five
makes 'a list of no file' "${head}0000000000000000$rest"
makes 'an authority for all in capitals' "${head}0000000000000000$rest$five" -s NONE five
exec <five
makes 'a list of standard input' "${head}0000000000000014$rest$five" \
  -z 00000000000000000020 -s none -
exec </dev/null
six=010000001a000000000000000022 && six+=0000000d00000000000000050000000103
makes 'an update' "${head}0000000000000015$rest$six" -u -s none six
makes 'an update with a version' "${head}ffffffffffffffff$rest$six" \
  -u -z 18446744073709551615 -s none
makes 'an update asked for twice' "${head}0000000000000003$rest$six" -u -u -z 3 -s none
makes 'a list of which all but the files is said twice' "${head}0000000000000002$rest$five" \
  -k -s none.pub -s none -z x -z 2 -f other.krl -f made.krl five
judge 'the first of two lists is not made' "$(ls other.krl 2>/dev/null)"
# A file between two uses of -s would get the authority of the second one. OpenSSH takes the second
# -s for a file.
for words in '-s g.pub five -s none six' '-s none five -s none' '-snone - -us none six' \
  'six -s none -s g.pub five -z 1 -sg.pub -- six'; do
  expect "a second -s after a file: $words" 2 '' "$usage" -k -f made.krl $words
done
judge 'a second -s after a file makes no list' "$(
  differs 'the list' "${head}0000000000000002$rest$five" "$(digits made.krl)"
)"
makes 'a file before two uses of -s' "${head}0000000000000000$rest$five" \
  five -s g.pub -s none
cp five ./-s
makes 'files called as an option after two hyphens' "${head}0000000000000000$rest$five" \
  -s g.pub -snone -- five -s five
rm ./-s
makes 'the list that there was' "${head}ffffffffffffffff$rest$six" \
  -u -z 18446744073709551615 -s none six
expect 'an update past the greatest version' 255 '' \
  $'ssh-keygen: made.krl: run 2 VersionFull\n' -k -u -f made.krl -s none six
expect 'a line without an authority' 255 '' $'ssh-keygen: six: line 1: spec 4 NoAuthority\n' \
  -k -f made.krl six
expect 'a specification file that is not there' 255 '' $'ssh-keygen: none: file 1 Open\n' \
  -k -f made.krl -s none none
judge 'a refused list is not written' "$(
  differs 'the list' "${head}ffffffffffffffff$rest$six" "$(digits made.krl)"
)"
expect 'an update of a list that is not there' 255 '' $'ssh-keygen: new.krl: file 1 Open\n' \
  -k -u -f new.krl -s none six
judge 'nothing is made of it' "$(ls new.krl 2>/dev/null)"
expect 'a list in a folder that is not there' 255 '' $'ssh-keygen: no/l: file 1 Open\n' -k -f no/l
expect 'a full device' 255 '' $'ssh-keygen: /dev/full: output 1 Write after 0 bytes\n' \
  -k -f /dev/full
rm made.krl
expect 'a file name that is not UTF-8' 2 '' "$usage" -l -f $'\xff'
expect 'a word that is not UTF-8' 2 '' "$usage" $'-\xc0'

help=$(
  cat <<'END'
Lists keys and certificates; makes, prints and asks key revocation lists

Usage: ssh-keygen -l [-E hash] -f file
       ssh-keygen -L [-E hash] -f file
       ssh-keygen -k -f krl [-u] [-s ca_public] [-z version] [file ...]
       ssh-keygen -Q [-l] -f krl [file ...]

Arguments:
  [file]...  Key files, or with -k specification files

Options:
  -l              List keys; with -Q print what the list holds
  -L              List certificates
  -k              Make a key revocation list
  -Q              Ask a key revocation list about keys
  -f <file>       The key file, or the revocation list
  -E <hash>       The hash of fingerprints: md5 or sha256
  -u              Add to the list that there is
  -s <ca_public>  The authority's key file, or none for all
  -z <version>    The list's version
      --version   Print the program's name and version
  -h, --help      Print help

Examples:
  ssh-keygen -l -f key.pub                      the fingerprints of keys
  ssh-keygen -L -f key-cert.pub                 what certificates say
  ssh-keygen -k -f list.krl -s ca.pub lines     a list made of specification files
  ssh-keygen -Q -f list.krl key.pub             whether keys are revoked
END
)
for words in '-h' '--help' '-Q -h' '-h -Z'; do
  expect "help by $words" 0 "${help//ssh-keygen/${program##*/}}"$'\n' '' $words
done
# called NAME: the help names the command so, whatever folder it is in.
mkdir links
called() {
  ln -sf "$binary" "links/$1"
  judge "help of a command called $1" "$(
    differs help "${help//ssh-keygen/$1}" "$("links/$1" -h 2>&1)"
    differs 'help by the PATH' "${help//ssh-keygen/$1}" "$(PATH=$PWD/links:$PATH "$1" -h 2>&1)"
  )"
}
for name in krl-keygen ssh-keygen 'a name' é; do
  called "$name"
done
for name in '' links/; do
  judge "help of a command called '$name'" "$(
    differs help "${help//ssh-keygen/krl-keygen}" \
      "$(bash -c 'exec -a "$0" "$1" -h' "$name" "$binary" 2>&1)"
  )"
done
judge 'a command that is called by a name with an escape' "$(
  differs 'the first form of use' 'Usage: a\x1bb -l [-E hash] -f file' \
    "$(bash -c 'exec -a "$0" "$1" -h' $'a\eb' "$binary" 2>&1 | grep ^Usage)"
)"
judge 'an unknown option of a command called krl-keygen' "$(
  differs 'the first form of use' 'Usage: krl-keygen -l [-E hash] -f file' \
    "$(links/krl-keygen -Z 2>&1 | grep ^Usage)"
)"
judge 'a fault of a command called krl-keygen' \
  "$(differs 'standard error' 'ssh-keygen: none: file 1 Open' \
  "$(links/krl-keygen -l -f none 2>&1)")"

version=$("$program" --version 2>/dev/null)
judge 'the version has three numbers, and may have a commit' "$(
  commit='[0-9a-f]{12}(-dirty)?'
  [[ $version =~ ^krl-keygen\ [0-9]+[.][0-9]+[.][0-9]+(\ [(]$commit[)])?$ ]] ||
    echo "  it says $version"
)"
for words in '--version' '-Q --version' '--version -Z'; do
  expect "the version by $words" 0 "$version"$'\n' '' $words
done
for name in krl-keygen ssh-keygen; do
  judge "the version of a command called $name" \
    "$(differs 'standard output' "$version" "$("links/$name" --version)")"
done
expect_text 'a version with a value' 2 error --version=1
expect_text 'the version by a letter' 2 error -V
expect_text 'an unknown option' 2 error -Z
# OpenSSH's ssh-keygen has -q and -v; here a refusal lists the options that there are.
forms=$(sed -n '/^Usage: /,/^$/p' <<<"$help")
for words in '-q -k -f made.krl five' '-v -l -f g.pub' '-qlf g.pub'; do
  # shellcheck disable=SC2086
  expect_text "an option of OpenSSH that is not here: $words" 2 error $words
  judge "the options that there are, after $words" \
    "$(differs 'forms of use' "${forms//ssh-keygen/${program##*/}}" "$(sed -n '/^Usage: /,/^$/p' \
      <<<"$got_error")")"
done
expect_text 'an unknown long option' 2 error --nothing
expect_text 'an option without its value' 2 error -l -f
expect_text 'a second time without its value' 2 error -l -f g.pub -f

# The report of a refused argument has no control characters, and no argument begins a line of it.
# says_plainly NAME WORD..: the arguments are refused with such a report.
says_plainly() {
  local name=$1 said
  shift
  run "$@"
  said=$(tr -d '\n -~' <"$scratch/error" | od -An -tx1)
  judge "$name" "$(
    differs 'exit status' 2 "$got_status"
    differs 'standard output' '' "$got_output"
    differs 'bytes that are no letters' '' "$said"
    ! grep -n '^fake' "$scratch/error" || echo '  a word begins a line'
    [ -z "${wanted:-}" ] || grep -qF -- "$wanted" "$scratch/error" ||
      echo "  it does not say $wanted"
  )"
}
for letter in $'\e' $'\r' $'\n' $'\x7f' $'\u9b'; do
  shown=$(printf %s "$letter" | od -An -v -tx1 | sed 's/ /\\x/g')
  wanted="'--x${shown}fake.pub: ok$shown'" says_plainly "an option with $shown" \
    -Q -f r.krl "--x${letter}fake.pub: ok$letter"
  says_plainly "letters of options with $shown" "-l${letter}fake"
  says_plainly "a value with $shown for help" "--help=${letter}fake"
  says_plainly "a file name with $shown beside an option" -l --no "${letter}fake" \
    -f "a${letter}fake"
done
# A pattern matches such files too: --x.. is taken for an option.
touch -- $'--x\nfake.pub (bob@desk): ok\n'
says_plainly 'a file name that a pattern gives' -Q -f r.krl *
rm -- --x*
expect 'a word with the byte 0x9b alone' 2 '' "$usage" -Q -f r.krl $'--x\x9b'

expect 'a question asked twice, of the last of two lists' 1 $'g.pub: REVOKED\n' '' \
  -Q -f none.krl -Q -f r.krl g.pub
for words in '-E md5 -E sha256' '-l -E sha256 -E md5'; do
  expect "the last of two hashes: $words" 0 "$("$openssh" -l $words -f g.pub)"$'\n' '' \
    -l $words -f g.pub
done
expect 'the last of two hashes is none' 2 '' "$usage" -l -E md5 -E sha1 -f g.pub
expect 'the last of two versions is none' 2 '' "$usage" -k -f made.krl -z 1 -z x
judge 'nothing is made of it' "$(ls made.krl 2>/dev/null)"

expect 'options in one word' 1 $'g.pub: REVOKED\n' '' -Qfr.krl g.pub
expect 'files before the options' 1 $'g.pub: REVOKED\n' '' g.pub -f r.krl -Q
cp g.pub ./-x
expect 'a file name with a hyphen' 1 $'-x: REVOKED\n' '' -Q -f r.krl -- -x
