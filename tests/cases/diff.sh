# krl diff: each kind of line, the names of CAs, what OpenSSH prints of both lists, and lists that are
# not read.

program=$krl
g=$(line ssh-ed25519 "$G")
f=$(fingerprint "$G")
a="  ca: $(line ssh-ed25519 "$A") # $(fingerprint "$A")"
b="  ca: $(line ssh-ed25519 "$B") # $(fingerprint "$B")"

# under CA TYPE CONTENT: a section of certificates with one subsection.
under() {
  printf 01
  string "$(string "$1")" 00000000 "$2" "$(string "$3")"
}
# made NAME DIGITS..: a list.
made() {
  bytes "$H" "${@:2}" >"$1.krl"
}
made none
made hundred "$(under '' 20 0000000000000064)"
made hundreds "$(under '' 21 00000000000000640000000000000065)"
made pieces "$(under '' 20 0000000000000064)" "$(under '' 20 0000000000000065)"
made wide "$(under '' 21 0000000000000032ffffffffffffffff)"
made in_a "$(under "$A" 20 0000000000000007)" "$(under "$A" 23 "$(words bob)")"
made in_b "$(under "$B" 20 0000000000000007)" "$(under "$B" 23 "$(words bob 'a b#')")"
made in_both "$(under "$A" 20 0000000000000007)" "$(under "$A" 23 "$(words bob)")" \
  "$(under "$B" 20 0000000000000008)"
made quoted "$(under "$A" 20 0000000000000007)" "$(under "$A" 23 "$(words '"bob"' 'a, b' "'")")"
made key "$(section "$G")"
made sha1 "03$(string "$(string "$(repeat 20 ab)")")"
made sha256 "05$(string "$(string "$(bytes "$G" | sha256sum | cut -c1-64)")")"
echo "$g a comment" >plain

# changes NAME LINES OLD NEW, and alike NAME OLD NEW: what differs, or that nothing does.
changes() {
  expect "$1" 1 "$2" '' diff "$3" "$4"
}
alike() {
  expect "$1" 0 '' '' diff "$2" "$3"
}
alike 'a list and itself' hundreds.krl hundreds.krl
alike 'lists without entries' none.krl none.krl
alike 'a range and its numbers' hundreds.krl pieces.krl
alike 'a key in a list of each form' key.krl plain
changes 'a serial number that is removed' $'  ca: all\n- serial: 101\n' hundreds.krl hundred.krl
changes 'a serial number that is added' $'  ca: all\n+ serial: 101\n' hundred.krl hundreds.krl
changes 'ranges around numbers' $'  ca: all\n+ serial: 50-99\n+ serial: 102-18446744073709551615\n' \
  pieces.krl wide.krl
changes 'each CA has its own numbers' "$b
+ serial: 7
+ id-hex: 61206223
+ id: bob
$a
- serial: 7
- id: bob
" in_a.krl in_b.krl
changes 'key IDs that no id: line gives' "$a
+ id-hex: 22626f6222
+ id: '
+ id-hex: 612c2062
$a
- id: bob
" in_a.krl quoted.krl
changes 'a CA that only one list has' "$b"$'\n+ serial: 8\n' in_a.krl in_both.krl
changes 'a CA whose numbers are the same' "$b"$'\n- serial: 8\n' in_both.krl in_a.krl
changes 'a key, and its SHA-256' "+ hash: $f
- key: $g # $f
" key.krl sha256.krl
changes 'hashes' "+ hash: SHA1:$(bytes "$(repeat 20 ab)" | base64 | tr -d =)
- hash: $f
" sha256.krl sha1.krl
changes 'a list without entries' "- key: $g # $f"$'\n' plain none.krl
printf '' >empty
changes 'an empty file' $'  ca: all\n+ serial: 100\n' empty hundred.krl

none='"cas":0,"serials":"0","ids":0,"keys":0,"hashes":0'
expect 'lists that name the same, as JSON' 0 \
  '{"status":"done","added":{'"$none"'},"removed":{'"$none"$'}}\n' '' \
  diff --json pieces.krl hundreds.krl
some='"cas":1,"serials":"1","ids":1,"keys":0,"hashes":0'
ca=$(fingerprint "$A")
expect 'changes as JSON' 1 '{"change":"added","key":"'"$f"'"}
{"change":"removed","ca":"'"$ca"'","serial":["7","7"]}
{"change":"removed","ca":"'"$ca"'","id":"bob"}
{"status":"done","added":{'"${none/\"keys\":0/\"keys\":1}"'},"removed":{'"$some"'}}
' '' diff --json in_a.krl plain

# The names that texts give to CAs. A key has none, also where it is that of a CA.
made all_and_b "$(under '' 20 0000000000000007)" "$(under "$B" 20 0000000000000009)" \
  "$(under "$B" 23 "$(words bob 'until 2026-11-15')")" "$(section "$A")"
A_key=${a#*: } B_key=${b#*: }
printf '@users: %s of a # until 2001-02-03\n@users id: x\n' "${A_key% \# *}" >of-a
printf '@zed: %s\n@hosts: %s\n@i: %s\n' "$B_key" "$B_key" "$B_key" >of-b
printf '@nobody: %s\n@nobody serial: 7\n' "$g" >of-none
by_a="  @users: $A_key" by_b="  @hosts: $B_key"
# by_names NAME LINES WORD..: what differs, by names.
by_names() {
  expect "$1" 1 "$2" '' diff "${@:3}"
}
gone_of_a="- serial: 7
- id: bob
"
by_names 'no name of these CAs' "  ca: all
+ serial: 7
$b
+ serial: 9
+ id: bob
+ id-hex: 756e74696c20323032362d31312d3135
+ key: $A_key
$a
$gone_of_a" --names of-none in_a.krl all_and_b.krl
by_names 'the name of the CA of an old list' "  ca: all
+ serial: 7
$b
+ serial: 9
+ id: bob
+ id-hex: 756e74696c20323032362d31312d3135
+ key: $A_key
$by_a
- @users serial: 7
- @users id: bob
" --names of-a in_a.krl all_and_b.krl
by_names 'the first of the names of the CA of a new list' "  ca: all
+ serial: 7
$by_b
+ @hosts serial: 9
+ @hosts id: bob
+ @hosts id-hex: 756e74696c20323032362d31312d3135
+ key: $A_key
$a
$gone_of_a" in_a.krl --names of-b all_and_b.krl
both="  ca: all
- serial: 7
$by_b
- @hosts serial: 9
- @hosts id: bob
- @hosts id-hex: 756e74696c20323032362d31312d3135
- key: $A_key
"
by_names 'the names of two texts' "$by_a
+ @users serial: 7
+ @users id: bob
$both" --names of-a --names of-b all_and_b.krl in_a.krl
by_names 'the same, one of them on standard input' "$by_a
+ @users serial: 7
+ @users id: bob
$both" all_and_b.krl in_a.krl --names - --names of-a <of-b
by_names 'a CA on both sides' "  ca: all
+ serial: 7
$by_b
+ @hosts serial: 9
+ @hosts id-hex: 756e74696c20323032362d31312d3135
+ key: $A_key
$by_b
- @hosts serial: 7
- @hosts id-hex: 61206223
" --names of-b in_b.krl all_and_b.krl
expect 'lists that name the same, with names' 0 '' '' diff --names of-a --names of-b in_a.krl in_a.krl
expect 'an old list on standard input, and a text with names' 1 "$by_a
- @users serial: 7
- @users id: bob
" '' diff --names of-a - none.krl <in_a.krl
expect 'names in JSON' 1 '{"change":"added","ca":"all","serial":["7","7"]}
{"change":"added","ca":"'"$(fingerprint "$B")"'","serial":["9","9"]}
{"change":"added","ca":"'"$(fingerprint "$B")"'","id":"bob"}
{"change":"added","ca":"'"$(fingerprint "$B")"'","id":"until 2026-11-15"}
{"change":"added","key":"'"$ca"'"}
{"change":"removed","ca":"'"$ca"'","name":"users","serial":["7","7"]}
{"change":"removed","ca":"'"$ca"'","name":"users","id":"bob"}
{"status":"done","added":{"cas":2,"serials":"2","ids":2,"keys":1,"hashes":0},"removed":{'"$some"'}}
' '' diff --json --names of-a in_a.krl all_and_b.krl
for words in '--names - - key.krl' '--names - key.krl -' '--names - --names - key.krl in_a.krl'; do
  # shellcheck disable=SC2086
  expect_text "standard input twice: diff $words" 2 error diff $words <of-a
done
printf '@users: %s\n' "$g" >of-other
printf '@hosts serial: 5\n' >uses-b
while IFS='|' read -r words said <&3; do
  for json in '' --json; do
    # shellcheck disable=SC2086
    expect "names that are refused: $words $json" 255 '' "krl: $said"$'\n' \
      diff $json $words key.krl in_a.krl <uses-b
  done
done 3<<'ROWS'
--names of-a --names of-other|of-other: line 1: the name "users" has another key: of-a, line 1 [text 15 OtherKey]
--names uses-b --names of-b|uses-b: line 1: no CA is named "hosts" above: did you mean "hosts" (of-b, line 2)? [text 16 UnknownName]
--names of-a --names -|-: line 1: no CA is named "hosts" above [text 16 UnknownName]
--names missing|missing: No such file or directory [file 1 Open]
--names of-a --names missing|missing: No such file or directory [file 1 Open]
ROWS
by_names 'a text that uses a name of the one before it' "$by_b
- @hosts serial: 8
" --names of-b --names uses-b in_both.krl in_a.krl

# Standard input.
expect 'a new list on standard input' 1 "+ key: $g # $f"$'\n' '' diff none.krl - <key.krl
expect 'an old list on standard input' 1 "- key: $g # $f"$'\n' '' diff - none.krl <key.krl
expect_text 'standard input as both lists' 2 error diff - -

# Lists that are not read, and outputs that fail. Nothing is printed.
bytes "${H:0:80}00000001" >cut.krl
short=$'truncated, in its header or within a section [krl 3 EndsEarly]\n'
gone=$'No such file or directory [file 1 Open]\n'
expect 'a new list that is truncated' 255 '' "krl: cut.krl: $short" diff key.krl cut.krl
expect 'an old list that is truncated' 255 '' "krl: cut.krl: $short" diff cut.krl key.krl
expect 'a new list that is missing' 255 '' "krl: no.krl: $gone" diff --json key.krl no.krl
expect 'the old list is read first' 255 '' "krl: no.krl: $gone" diff no.krl cut.krl
{ echo "$g" && echo garbage; } >wrong
expect 'a file that is no list' 255 '' \
  $'krl: wrong: line 2: no key type stands there [line 1 NoKey]\n' diff wrong key.krl
if [ -e /dev/full ]; then
  "$program" diff key.krl none.krl >/dev/full 2>"$scratch/error"
  judge 'changes onto a full device' "$(
    differs 'exit status' 255 $?
    differs 'standard error' 1 "$(grep -c 'output 1 Write after 0 bytes' "$scratch/error")"
  )"
fi
for words in '' key.krl 'key.krl none.krl plain' '--json --json key.krl plain' \
  '-q key.krl plain' '--names of-a key.krl' '--names of-a' 'key.krl plain --names'; do
  # shellcheck disable=SC2086
  run diff $words
  judge "the words 'diff $words'" "$(
    differs 'exit status' 2 "$got_status"
    differs 'standard output' '' "$got_output"
  )"
done
expect_text 'help' 0 output diff -h
expect_text 'help of the program' 0 output help diff

# The names that OpenSSH prints of lists that it makes, each serial number on a line of its own, and
# the changes of one list to the other.
theirs() {
  "$openssh" -Q -l -f "$1" | sed -nE '
    s/^# Wildcard CA$/CA all/p
    s/^# CA key [^ ]+ /CA /p
    s/^hash: (SHA256:.{43}) # .*/key \1/p
    s/^hash: SHA256:([0-9a-f]{64})$/sha256 \1/p
    /^(serial|id): /p' | named
}
named() {
  awk '/^CA /{ authority = $2; next }
    /^serial: /{ split($2, ends, "-")
      last = ends[2] ? ends[2] : ends[1]
      for (n = ends[1]; n <= last; n++) print authority, "serial", n
      next }
    /^id: /{ print authority, $0; next }
    { print }' | sort
}
# ours MARK OLD NEW: those after one of the two marks.
ours() {
  local mark word text
  "$program" diff "$2" "$3" | while read -r mark word text; do
    case $mark in
      ca:) echo "CA ${text##* }" ;;
      "$1")
        case $word in
          key:) echo "key ${text##* }" ;;
          hash:) echo "sha256 $(printf '%s=' "${text#*:}" | basenc -d --base64 | od -An -v -tx1 |
            tr -d ' \n')" ;;
          *) echo "$word $text" ;;
        esac
        ;;
    esac
  done | sed 's/^CA $/CA all/' | named
}

RANDOM=1414
for name in key-one key-two key-three ca-one ca-two; do
  "$openssh" -q -t ed25519 -N '' -C "of $name" -f $name
done
lines_of() {
  local i lo
  for ((i = 0; i < $1; i++)); do
    echo "serial: $((RANDOM % $2 + 1))"
    lo=$((RANDOM % $2 + 1))
    # OpenSSH takes no range of one serial number.
    [ $((RANDOM % 3)) != 0 ] || echo "serial: $lo-$((lo + 1 + RANDOM % 20))"
    echo "id: id $((RANDOM % 40))"
  done
}
# list_made NAME: a list of OpenSSH's.
list_made() {
  local key
  lines_of 20 200 >spec
  for key in key-one key-two key-three; do
    [ $((RANDOM % 2)) != 0 ] || echo "key: $(cat $key.pub)"
    [ $((RANDOM % 2)) != 0 ] || echo "sha256: $(cat $key.pub)"
  done >>spec
  "$openssh" -q -k -f "$1" -s ca-one.pub spec 2>"$scratch/error"
  if [ $((RANDOM % 2)) = 0 ]; then
    lines_of 10 100 >spec
    "$openssh" -q -k -u -f "$1" -s ca-two.pub spec 2>"$scratch/error"
  fi
  lines_of 5 60 >spec
  "$openssh" -q -k -u -f "$1" -s none spec 2>"$scratch/error"
}
for round in 1 2 3 4; do
  list_made old.krl
  list_made new.krl
  judge "the changes between OpenSSH's lists, $round" "$(
    [ "$(theirs old.krl | wc -l)" -gt 30 ] || echo '  too few names'
    asks 0 diff <(comm -13 <(theirs old.krl) <(theirs new.krl)) <(ours + old.krl new.krl)
    asks 0 diff <(comm -23 <(theirs old.krl) <(theirs new.krl)) <(ours - old.krl new.krl)
  )"
  alike "a list and what OpenSSH makes of it again, $round" new.krl new.krl
done
