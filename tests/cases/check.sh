# krl check: each condition both ways, lists that OpenSSH refuses or reads as other names, truncated
# lists, the names of CAs, statuses, and files that are missing.

keygen=$program
program=$krl
line ssh-ed25519 "$G" >g.pub
line ssh-ed25519 "$A" alice >a.pub
line ssh-ed25519 "$B" bob >b.pub
by_g="revoked: ssh-ed25519 $(fingerprint "$G") by its key"
hash_of_a=05$(string "$(string "$(bytes "$A" | sha256sum | cut -c1-64)")")
bytes "$H" "$(section "$G")" "$hash_of_a" >r.krl
zeros='0 lines are not read'

# checks NAME STATUS OUTPUT WORD..: OUTPUT is lines, or nothing.
checks() {
  local name=$1 status=$2 output=$3
  shift 3
  expect "$name" "$status" "${output:+$output$'\n'}" '' check "$@"
}
checks 'a list and no condition' 0 '' r.krl
checks 'a key to be kept' 0 '' --keep b.pub r.krl
checks 'two files to be kept' 0 '' --keep b.pub --keep b.pub r.krl
checks 'a canary' 0 '' --canary a.pub r.krl
checks 'a key to be kept that is revoked' 1 "g.pub:1: $by_g
keep: g.pub: 1 of 1 key is revoked, $zeros" --keep b.pub --keep g.pub r.krl
checks 'a canary that is not revoked' 1 "b.pub:1: ok: ssh-ed25519 $(fingerprint "$B"): bob
canary: b.pub: 0 of 1 key is revoked, $zeros" --canary b.pub r.krl
cat b.pub g.pub >both
checks 'a file with one revoked key of two' 1 "both:2: $by_g
keep: both: 1 of 2 keys are revoked, $zeros" --keep both r.krl
checks 'a canary of two keys, of which one is revoked' 1 \
  "both:1: ok: ssh-ed25519 $(fingerprint "$B"): bob
canary: both: 1 of 2 keys are revoked, $zeros" --canary both r.krl
cat g.pub a.pub >two
checks 'a canary of two keys' 0 '' --canary two r.krl
checks 'two canaries' 0 '' --canary a.pub --canary g.pub r.krl
not_b="b.pub:1: ok: ssh-ed25519 $(fingerprint "$B"): bob
canary: b.pub: 0 of 1 key is revoked, $zeros"
checks 'two canaries, of which the first is not revoked' 1 "$not_b" \
  --canary b.pub --canary a.pub r.krl
checks 'two canaries, of which the second is not revoked' 1 "$not_b" \
  --canary a.pub --canary b.pub r.krl
{ cat b.pub && echo garbage; } >wrong
checks 'a file with a line that is not read' 1 "wrong:2: unread: no key type stands there
keep: wrong: 0 of 1 key is revoked, 1 line is not read" --keep wrong r.krl
{ cat a.pub && echo garbage; } >wrong
checks 'a canary with a line that is not read' 1 'wrong:2: unread: no key type stands there
canary: wrong: 1 of 1 key is revoked, 1 line is not read' --canary wrong r.krl
printf 'garbage\n# none\nmore\n\nand more\n' >bad
for word in keep canary; do
  checks "a file of --$word with three lines that are no keys" 1 \
    "bad: unread: none of its 3 lines is a key
$word: bad: 0 of 0 keys are revoked, 3 lines are not read" --$word bad r.krl
done
# Standard input: of each list and file that is read, and of one of them alone.
checks 'a list on standard input' 0 '' --canary a.pub - <r.krl
checks 'a list on standard input that revokes a key' 1 "g.pub:1: $by_g
keep: g.pub: 1 of 1 key is revoked, $zeros" --keep g.pub - <r.krl
checks 'an older list on standard input' 0 '' --newer-than - r.krl <r.krl
checks 'a list on standard input that another one names' 0 '' --superset-of - r.krl <r.krl
checks 'a key on standard input' 1 "-:1: $by_g
keep: -: 1 of 1 key is revoked, $zeros" --keep - r.krl <g.pub
checks 'a canary on standard input' 0 '' --canary - r.krl <a.pub
expect 'the version of a list on standard input' 0 $'1\n' '' check --print-version - <r.krl
for words in '--newer-than - -' '--superset-of - -' '--keep - -' '--canary - --keep - r.krl'; do
  # shellcheck disable=SC2086
  expect_text "standard input named twice: check $words" 2 error check $words
done
for words in '--max-cas x' '--max-cas -1' '--max-cas 9007199254740992' \
  '--max-cas 1 --print-version'; do
  # shellcheck disable=SC2086
  expect_text "the options $words" 2 error check $words r.krl
done

# A control character of two bytes in each name.
cp r.krl $'r\u9b.krl' && cp g.pub $'g\u9b.pub'
checks 'a control character in a name' 1 "g\\x9b.pub:1: $by_g
keep: g\\x9b.pub: 1 of 1 key is revoked, $zeros" --keep $'g\u9b.pub' r.krl
echo '# nobody' >none
for word in keep canary; do
  checks "no key in the file of --$word" 1 "$word: none: 0 of 0 keys are revoked, $zeros" \
    --$word none r.krl
done
printf '@revoked * %s\n' "$(cat g.pub)" >marked
checks 'a canary that its line calls revoked' 1 "canary: marked: 0 of 1 key is revoked, $zeros" \
  --canary marked r.krl
checks 'a file that is missing' 255 "gone: unread: No such file or directory
keep: gone: 0 of 0 keys are revoked, 1 line is not read
gone: unread: No such file or directory
canary: gone: 0 of 0 keys are revoked, 1 line is not read" --keep gone --canary gone r.krl
# A condition that fails is said too, and 255 wins over 1.
checks 'a file that is missing and a key to be kept that is revoked' 255 "g.pub:1: $by_g
keep: g.pub: 1 of 1 key is revoked, $zeros
gone: unread: No such file or directory
canary: gone: 0 of 0 keys are revoked, 1 line is not read" --canary gone --keep g.pub r.krl
mkdir folder
expect 'a folder to be kept' 255 'folder: unread: it cannot be read to its end
keep: folder: 0 of 0 keys are revoked, 1 line is not read
' '' check --keep folder r.krl

# Versions.
# version NUMBER: a list with this version, of sixteen digits.
version() {
  bytes "${H:0:24}" "$1" "${H:40}"
}
version 0000000000000007 >7.krl
version 0000000000000008 >8.krl
version ffffffffffffffff >last.krl
checks 'a version above' 0 '' --allow-empty --newer-than 7.krl 8.krl
checks 'the same version' 0 '' --allow-empty --newer-than 8.krl 8.krl
checks 'a version below' 1 'version: 7.krl: 7 is below 8' --allow-empty --newer-than 8.krl 7.krl
checks 'the lowest below the highest' 1 'version: r.krl: 1 is below 18446744073709551615' \
  --newer-than last.krl r.krl
checks 'the version alone' 0 18446744073709551615 --print-version last.krl
checks 'the version of another list' 0 7 --print-version 7.krl

# The names of another list.
bytes "$H" "$(section "$G")" >key.krl
bytes "$H" "$(section "$G")" \
  "01$(string "$(string '')" 00000000 21 "$(string 00000000000000640000000000000065)")" >more.krl
range=$'  ca: all\n- serial: 100-101\n'
checks 'a list and its own names' 0 '' --superset-of more.krl more.krl
checks 'a list with more names' 0 '' --superset-of key.krl more.krl
checks 'the names of a list without entries' 0 '' --superset-of 7.krl key.krl
checks 'one entry that is lost' 1 "${range}lost: more.krl: 1 entry is not in key.krl" \
  --superset-of more.krl key.krl
checks 'entries that are lost, before a canary' 1 "empty: 8.krl: it revokes nobody
$range- key: $(line ssh-ed25519 "$G") # $(fingerprint "$G")
lost: more.krl: 2 entries are not in 8.krl
a.pub:1: ok: ssh-ed25519 $(fingerprint "$A"): alice
canary: a.pub: 0 of 1 key is revoked, $zeros" --canary a.pub --superset-of more.krl 8.krl

# The names that texts give to the CAs of what is lost. A CA without a name keeps its line.
# of_ca CA TYPE DIGITS: a section of one CA, with one subsection.
of_ca() {
  printf 01
  string "$(string "$1")$(words '')$2$(string "$3")"
}
bytes "$H" "$(of_ca '' 20 0000000000000003)" "$(of_ca "$A" 20 00000000000000070000000000000009)" \
  "$(of_ca "$A" 23 "$(words bob eve)")" "$(of_ca "$B" 20 0000000000000008)" \
  "$(section "$A")" >of-two.krl
bytes "$H" "$(of_ca "$A" 20 0000000000000007)" "$(of_ca "$A" 23 "$(words eve)")" >some.krl
printf '@users: %s of a # until 2001-02-03\n@users id: x\n' "$(line ssh-ed25519 "$A")" >of-a
printf '@zed: %s\n@hosts: %s\n' "$(line ssh-ed25519 "$B")" "$(line ssh-ed25519 "$B")" >of-b
printf '@nobody: %s\n' "$(line ssh-ed25519 "$G")" >of-none
line_of_a="ca: $(line ssh-ed25519 "$A") # $(fingerprint "$A")"
line_of_b="ca: $(line ssh-ed25519 "$B") # $(fingerprint "$B")"
key_of_a="- key: ${line_of_a#ca: }"
end='lost: of-two.krl: 5 entries are not in some.krl'
for words in '' '--names of-none'; do
  # shellcheck disable=SC2086
  checks "what is lost of two CAs without a name: $words" 1 "  ca: all
- serial: 3
  $line_of_a
- serial: 9
- id: bob
  $line_of_b
- serial: 8
$key_of_a
$end" $words --superset-of of-two.krl some.krl
done
checks 'what is lost of two CAs, by the name of one' 1 "  ca: all
- serial: 3
  @users: ${line_of_a#ca: }
- @users serial: 9
- @users id: bob
  $line_of_b
- serial: 8
$key_of_a
$end" --superset-of of-two.krl --names of-a some.krl
by_names="  ca: all
- serial: 3
  @users: ${line_of_a#ca: }
- @users serial: 9
- @users id: bob
  @hosts: ${line_of_b#ca: }
- @hosts serial: 8
$key_of_a
$end"
checks 'what is lost, by the names of two texts' 1 "$by_names" \
  --names of-a some.krl --superset-of of-two.krl --names of-b
checks 'the same, a text on standard input' 1 "$by_names" \
  --names - --names of-a --superset-of of-two.krl some.krl <of-b
checks 'the same, the list on standard input' 1 "${by_names//some.krl/-}" \
  --names of-b --names of-a --superset-of of-two.krl - <some.krl
# The lines are those of krl diff.
run diff --names of-a --names of-b of-two.krl some.krl
judge 'krl diff prints these lines' "$(differs 'the lines' "${by_names%$'\n'*}"$'\n' "$got_output")"
checks 'a list that passes, with names' 0 '' --names of-a --superset-of some.krl of-two.krl
checks 'names, and no list whose names are wanted' 0 '' --names of-a some.krl
# The lines about keys are those of krl audit without a text.
signed=ssh-ed25519-cert-v01@openssh.com
line $signed "$(certificate "$G" "$A" 0000000000000007 eve)" >cert
of_a="of CA $(fingerprint "$A")"
checks 'a certificate to be kept, whose CA has a name' 1 "cert:1: revoked: $signed \
$(fingerprint "$G") by serial 7 $of_a, by key ID \"eve\" $of_a
keep: cert: 1 of 1 key is revoked, $zeros" --names of-a --keep cert some.krl
checks 'the objects of what is lost, by names' 1 \
  "{\"condition\":\"openssh\",\"passed\":true,\"list\":\"some.krl\"}
{\"condition\":\"empty\",\"passed\":true,\"list\":\"some.krl\"}
{\"condition\":\"slow\",\"passed\":true,\"list\":\"some.krl\",\"cas\":1,\"most\":4000}
{\"change\":\"removed\",\"ca\":\"all\",\"serial\":[\"3\",\"3\"]}
{\"change\":\"removed\",\"ca\":\"$(fingerprint "$A")\",\"name\":\"users\",\"serial\":[\"9\",\"9\"]}
{\"change\":\"removed\",\"ca\":\"$(fingerprint "$A")\",\"name\":\"users\",\"id\":\"bob\"}
{\"change\":\"removed\",\"ca\":\"$(fingerprint "$B")\",\"serial\":[\"8\",\"8\"]}
{\"change\":\"removed\",\"key\":\"$(fingerprint "$A")\"}
{\"condition\":\"lost\",\"passed\":false,\"list\":\"some.krl\",\"other\":\"of-two.krl\",\"entries\":5}
{\"status\":\"done\",\"passed\":false}" --json --names of-a --superset-of of-two.krl some.krl
for words in '--names - -' '--names - --names - some.krl' '--names - --superset-of - some.krl' \
  '--names - --keep - some.krl'; do
  # shellcheck disable=SC2086
  expect_text "the words: check $words" 2 error check $words <of-a
done
# A text that is refused ends the check before a list is read.
printf '@users: %s\n' "$(line ssh-ed25519 "$G")" >of-other
printf '@hosts serial: 5\n' >uses-b
while IFS='|' read -r words said <&3; do
  for more in '' --json '--superset-of no.krl'; do
    # shellcheck disable=SC2086
    expect "names that are refused: check $words $more" 255 '' "krl: $said"$'\n' \
      check $more $words some.krl <uses-b
  done
done 3<<'ROWS'
--names of-a --names of-other|of-other: line 1: the name "users" has another key: of-a, line 1 [text 15 OtherKey]
--names uses-b --names of-b|uses-b: line 1: no CA is named "hosts" above: did you mean "hosts" (of-b, line 2)? [text 16 UnknownName]
--names of-a --names -|-: line 1: no CA is named "hosts" above [text 16 UnknownName]
--names of-a --names missing|missing: No such file or directory [file 1 Open]
ROWS

# The list of an sshd.
# settings LIST: what sshd -T prints of an sshd that uses this list.
settings() {
  printf '%s\n' 'authorizedkeysfile .ssh/authorized_keys' 'trustedusercakeys none' \
    "revokedkeys $1" 'authorizedkeyscommand none'
}
ln -s r.krl link.krl && ln r.krl second.krl && cp r.krl copy.krl
settings r.krl >name.sshd
settings "$PWD/r.krl" >path.sshd
settings "$PWD/folder/../link.krl" >link.sshd
settings "$PWD/second.krl" >second.sshd
for it in name path link second; do
  for list in r.krl ./r.krl link.krl "$PWD/second.krl"; do
    checks "the list of an sshd by its $it: $list" 0 '' --sshd $it.sshd "$list"
  done
  checks "a copy of the list of an sshd by its $it" 1 \
    "sshd: copy.krl: the sshd of $it.sshd uses another list" --sshd $it.sshd copy.krl
done
settings "$PWD/gone.krl" >gone.sshd
settings $'/r\xff.krl' >bytes.sshd
settings folder >folder.sshd
settings - >input.sshd
for it in gone bytes folder input; do
  checks "another list of an sshd, $it" 1 "sshd: r.krl: the sshd of $it.sshd uses another list" \
    --sshd $it.sshd r.krl
done
settings none >none.sshd
checks 'an sshd without a list' 1 'sshd: r.krl: the sshd of none.sshd uses no list' \
  --sshd none.sshd r.krl
mv none kept && cp r.krl none && cp none.sshd $'n\u9b'
checks 'an sshd without a list, and a list that is called none' 1 \
  'sshd: none: the sshd of n\x9b uses no list' --sshd $'n\u9b' none
mv kept none
checks 'the output on standard input' 0 '' --sshd - r.krl <path.sshd
checks 'the output of an sshd without a list on standard input' 1 \
  'sshd: r.krl: the sshd of - uses no list' r.krl --sshd - <none.sshd
checks 'the list of an sshd on standard input' 0 '' --sshd path.sshd - <link.krl
checks 'a copy on standard input' 1 'sshd: -: the sshd of path.sshd uses another list' \
  --sshd path.sshd - <copy.krl
checks 'the list of an sshd through a pipe' 1 'sshd: -: the sshd of path.sshd uses another list' \
  --sshd path.sshd - < <(cat r.krl)
checks 'the list of an sshd, and each other condition' 0 '' --allow-empty --newer-than r.krl \
  --superset-of key.krl --max-cas 0 --sshd path.sshd --keep b.pub --canary a.pub r.krl
checks 'the list of no sshd, between the other conditions' 1 \
  "${range}lost: more.krl: 1 entry is not in key.krl
sshd: key.krl: the sshd of path.sshd uses another list
g.pub:1: $by_g
keep: g.pub: 1 of 1 key is revoked, $zeros" \
  --keep g.pub --sshd path.sshd --superset-of more.krl key.krl
checks 'the list of no sshd, and a file that is missing' 255 \
  "sshd: copy.krl: the sshd of none.sshd uses no list
gone: unread: No such file or directory
canary: gone: 0 of 0 keys are revoked, 1 line is not read" \
  --canary gone --sshd none.sshd copy.krl
# objects_of LIST PASSED REST: the objects of a list that passes the other conditions.
objects_of() {
  printf '%s\n' "{\"condition\":\"openssh\",\"passed\":true,\"list\":\"$1\"}" \
    "{\"condition\":\"empty\",\"passed\":true,\"list\":\"$1\"}" \
    "{\"condition\":\"slow\",\"passed\":true,\"list\":\"$1\",\"cas\":0,\"most\":4000}" \
    "{\"condition\":\"sshd\",\"passed\":$2,\"list\":\"$1\",$3}" \
    "{\"status\":\"done\",\"passed\":$2}"
}
checks 'the objects of the list of an sshd' 0 "$(objects_of r.krl true '"sshd":"link.sshd"')" \
  --json --sshd link.sshd r.krl
checks 'the objects of the list of no sshd' 1 \
  "$(objects_of copy.krl false '"sshd":"link.sshd","why":"it uses another list"')" \
  --json --sshd link.sshd copy.krl
checks 'the objects of an sshd without a list' 1 \
  "$(objects_of r.krl false '"sshd":"-","why":"it uses no list"')" \
  --json --sshd - r.krl <none.sshd
# An output that is refused ends the check before a list is read.
: >empty.sshd
grep -v revokedkeys path.sshd >less.sshd
{ cat path.sshd && echo 'revokedkeys none'; } >more.sshd
sed 's/$/\r/' path.sshd >returns.sshd
head -c -1 path.sshd >cut.sshd
while IFS='|' read -r it said <&3; do
  for words in r.krl '--json r.krl' '--superset-of no.krl no.krl' '--keep gone r.krl'; do
    # shellcheck disable=SC2086
    expect "an output of sshd -T that is refused: $it: $words" 255 '' "krl: $it.sshd: $said"$'\n' \
      check --sshd $it.sshd $words
  done
done 3<<'ROWS'
empty|it is not what sshd -T prints: the last line has no end [sshd 1 NoSettings]
cut|it is not what sshd -T prints: the last line has no end [sshd 1 NoSettings]
less|it is not what sshd -T prints: revokedkeys is missing [sshd 1 NoSettings]
more|it is not what sshd -T prints: revokedkeys is there twice [sshd 1 NoSettings]
returns|it is not what sshd -T prints: it has carriage returns [sshd 1 NoSettings]
missing|No such file or directory [file 1 Open]
ROWS
expect 'an output that failed' 255 '' \
  $'krl: -: it is not what sshd -T prints: the last line has no end [sshd 1 NoSettings]\n' \
  check --sshd - r.krl
expect 'a text of names that is refused, and an output' 255 '' \
  $'krl: missing: No such file or directory [file 1 Open]\n' \
  check --sshd empty.sshd --names missing r.krl
expect 'an output, and a list that is missing' 255 '' \
  $'krl: no.krl: No such file or directory [file 1 Open]\n' check --sshd path.sshd no.krl
for words in '--sshd - -' '--sshd - --keep - r.krl' '--sshd - --superset-of - r.krl'; do
  # shellcheck disable=SC2086
  expect_text "an output on standard input, named twice: check $words" 2 error check $words \
    <path.sshd
done

# Lists that are not read.
bytes "${H:0:80}00000001" >cut.krl
missing=$'No such file or directory [file 1 Open]\n'
cut_short=$'truncated, in its header or within a section [krl 3 EndsEarly]\n'
expect 'a list that is cut' 255 '' "krl: cut.krl: $cut_short" check cut.krl
expect 'its version' 255 '' "krl: cut.krl: $cut_short" check --print-version cut.krl
expect 'a list that is missing' 255 '' "krl: no.krl: $missing" check no.krl
expect 'another list that is missing' 255 '' "krl: no.krl: $missing" check \
  --newer-than no.krl r.krl
expect 'a list whose names are wanted and that is missing' 255 '' "krl: no.krl: $missing" check \
  --superset-of no.krl r.krl
# The first of several lists that are not read ends the check.
for words in 'cut.krl --newer-than no.krl' 'cut.krl --superset-of no.krl' \
  'r.krl --newer-than cut.krl --superset-of no.krl' \
  'r.krl --superset-of no.krl --newer-than cut.krl' 'cut.krl --keep gone' \
  'r.krl --superset-of cut.krl --canary gone'; do
  # shellcheck disable=SC2086
  expect "the list of two that is reported: $words" 255 '' "krl: cut.krl: $cut_short" check $words
done

# Ages.
# made_at SECONDS..: a list of this date, which revokes one key.
made_at() {
  bytes "${H:0:40}$(printf %016x "$1")${H:56}" "$(section "$G")"
}
now=$(date +%s)
made_at $((now - 3000)) >old.krl
made_at $((now + 200)) >ahead.krl
made_at $((now + 3630)) >future.krl
made_at $((now - 49 * 3600 - 60)) >older.krl
checks 'a list that is young enough' 0 '' --max-age 2h old.krl
checks 'the same by days' 0 '' --max-age 1d old.krl
checks 'a list that is a little ahead of the clock' 0 '' --max-age 1s ahead.krl
dated="generated $(date -u -d @$((now - 3000)) +%FT%TZ)"
for it in 49m 2999s; do
  checks "a list that is older than $it" 1 "age: old.krl: $dated, 50m ago" --max-age $it old.krl
done
checks 'a list from the future' 1 \
  "age: future.krl: generated $(date -u -d @$((now + 3630)) +%FT%TZ), 60m from now" \
  --max-age 9999d future.krl
# What sets the date of a list that is made is no clock.
SOURCE_DATE_EPOCH=$((now - 3000)) checks 'a list that is too old, by the clock alone' 1 \
  "age: old.krl: $dated, 50m ago" --max-age 49m old.krl
SOURCE_DATE_EPOCH=86400 checks 'a list that is young enough, by the clock alone' 0 '' \
  --max-age 2h old.krl
checks 'a list without a limit' 0 '' older.krl
checks 'a list of the day before yesterday' 1 \
  "age: older.krl: generated $(date -u -d @$((now - 49 * 3600 - 60)) +%FT%TZ), 49h ago" \
  --max-age 24h older.krl
checks 'a plain list, which has no date' 1 'age: a.pub: a plain list has no date' --max-age 7d a.pub
# refuses NAME LINE WORD..: the options are refused, and this is the first line.
refuses() {
  local name=$1 line=$2
  shift 2
  run "$@"
  judge "$name" "$(
    differs 'exit status' 2 "$got_status"
    differs 'standard output' '' "$got_output"
    differs 'the first line' "$line" "${got_error%%$'\n'*}"
  )"
}
for it in '' h 24 0h 1w ' 1h' +1h 1.5h 99999999999999999999s 18446744073709551615m; do
  refuses "the duration \"$it\"" \
    'error: --max-age takes a number and one of s, m, h and d, as in 24h' \
    check --max-age "$it" r.krl
done

# Lists that revoke nobody. Serial number 0 is nobody.
bytes "$H" >nobody.krl
checks 'a list that revokes nobody' 1 'empty: nobody.krl: it revokes nobody' nobody.krl
checks 'the same where it is allowed' 0 '' --allow-empty nobody.krl
bytes "$H" "01$(string "$(string "$A")$(words '')20$(string 0000000000000000)")" >zero.krl
checks 'a list of serial number 0' 1 'openssh: zero.krl: it names serial number 0
empty: zero.krl: it revokes nobody' zero.krl

# Lists of many CAs, each with serial number 1 under its key. A CA is an Ed25519 key whose bytes are
# its number.
of_cas() {
  bytes "$H" "$(printf "010000004800000033${A:0:38}%064x0000000020$(string 0000000000000001)" \
    $(seq "$1"))"
}
of_cas 4000 >4000.krl
of_cas 4001 >4001.krl
checks 'a list of 4,000 CAs' 0 '' 4000.krl
checks 'a list of 4,001 CAs' 1 'slow: 4001.krl: 4001 CAs, and 4000 at most' 4001.krl
checks 'more CAs where they are allowed' 0 '' --max-cas 4001 4001.krl
checks 'fewer CAs than there are' 1 'slow: 4000.krl: 4000 CAs, and 3999 at most' --max-cas 3999 \
  4000.krl
checks 'a list without a CA' 0 '' --max-cas 1 r.krl
# All CAs count as one, and a CA under which nothing is revoked does not count.
bytes "$H" "01$(string "$(words '' '')20$(string 0000000000000001)")" \
  "01$(string "$(string "$A")$(words '')23$(string "$(words bob)")")" \
  "01$(string "$(string "$B")$(words '')20$(string 0000000000000000)")" >three.krl
checks 'all CAs, a CA, and one of nothing' 1 "openssh: three.krl: it names serial number 0
slow: three.krl: 2 CAs, and 1 at most" --max-cas 1 three.krl

# Plain lists. tests/cases/plain_lists.sh has each form of a line, and tests/cases/openssh10.sh asks
# OpenSSH 10 about DSA.
{ cat g.pub && line ssh-dss "$(words ssh-dss)$(repeat 4 0000000103)"; } >dsa
no_dsa_key='has a DSA key, which OpenSSH 10 does not read'
checks 'a plain list with a DSA key' 1 "openssh: dsa: line 2 $no_dsa_key" dsa
checks 'a plain list with a DSA key that revokes a key to be kept' 1 \
  "openssh: dsa: line 2 $no_dsa_key
g.pub:1: $by_g
keep: g.pub: 1 of 1 key is revoked, $zeros" --keep g.pub dsa
checks 'a plain list' 0 '' --keep b.pub --canary a.pub two
checks 'a plain list that revokes a key to be kept' 1 "g.pub:1: $by_g
keep: g.pub: 1 of 1 key is revoked, $zeros" --keep g.pub two
checks 'a plain list without the canary' 1 "b.pub:1: ok: ssh-ed25519 $(fingerprint "$B"): bob
canary: b.pub: 0 of 1 key is revoked, $zeros" --canary b.pub two
nobody='it revokes nobody'
: >empty
# One that lost its magic begins with a zero byte, which ends its only line.
tail -c +9 r.krl | tr -d '\n' >magicless
for it in empty none magicless; do
  checks "a plain list without a key, $it" 1 "empty: $it: $nobody" $it
  checks "the same where it is allowed, $it" 0 '' --allow-empty $it
done
checks 'an empty list and a canary' 1 "empty: empty: $nobody
a.pub:1: ok: ssh-ed25519 $(fingerprint "$A"): alice
canary: a.pub: 0 of 1 key is revoked, $zeros" --canary a.pub empty
{ cat two && echo garbage; } >wrong
no_key=$'krl: wrong: line 3: no key type stands there [line 1 NoKey]\n'
expect 'a plain list with a line that is no key' 255 '' "$no_key" check wrong
expect 'the same, and keys to be kept' 255 '' "$no_key" check --keep b.pub wrong
unversioned='a plain list has no version'
checks 'a plain list and a version' 1 "version: two: $unversioned" --newer-than r.krl two
checks 'two plain lists and a version' 1 "version: two: $unversioned" --newer-than a.pub two
checks 'a list and the version of a plain list' 1 "version: two: $unversioned" \
  --newer-than two r.krl
expect 'the version of a plain list' 255 '' "krl: two: $unversioned"$'\n' check --print-version two
expect 'a plain list to be compared that is wrong' 255 '' "$no_key" check --newer-than wrong r.krl

# Objects: one for each condition, also where it holds.
openssh_holds='{"condition":"openssh","passed":true,"list":"r.krl"}'
revokes_somebody='{"condition":"empty","passed":true,"list":"r.krl"}'
# has_cas LIST CAS [MOST]: the object of the certificate authorities of a list that passes.
has_cas() {
  printf '{"condition":"slow","passed":true,"list":"%s","cas":%d,"most":%d}' "$1" "$2" "${3:-4000}"
}
checks 'the objects of a list that passes' 0 "$openssh_holds
$revokes_somebody
$(has_cas r.krl 0)
{\"condition\":\"version\",\"passed\":true,\"list\":\"r.krl\",\"version\":\"1\",\"least\":\"1\"}
{\"condition\":\"lost\",\"passed\":true,\"list\":\"r.krl\",\"other\":\"r.krl\",\"entries\":0}
{\"condition\":\"keep\",\"passed\":true,\"file\":\"b.pub\",\"keys\":1,\"revoked\":0,\"unread\":0}
{\"condition\":\"canary\",\"passed\":true,\"file\":\"g.pub\",\"keys\":1,\"revoked\":1,\"unread\":0}
{\"status\":\"done\",\"passed\":true}" \
  --json --newer-than r.krl --superset-of r.krl --keep b.pub --canary g.pub r.krl
checks 'the objects of a list that may revoke nobody' 0 \
  "{\"condition\":\"openssh\",\"passed\":true,\"list\":\"7.krl\"}
$(has_cas 7.krl 0)
{\"status\":\"done\",\"passed\":true}" --json --allow-empty 7.krl
checks 'the objects of entries that are lost' 1 \
  "{\"condition\":\"openssh\",\"passed\":true,\"list\":\"key.krl\"}
{\"condition\":\"empty\",\"passed\":true,\"list\":\"key.krl\"}
$(has_cas key.krl 0)
{\"change\":\"removed\",\"ca\":\"all\",\"serial\":[\"100\",\"101\"]}
{\"condition\":\"lost\",\"passed\":false,\"list\":\"key.krl\",\"other\":\"more.krl\",\"entries\":1}
{\"status\":\"done\",\"passed\":false}" --json --superset-of more.krl key.krl
checks 'the objects of a file that is missing' 255 "$openssh_holds
$revokes_somebody
$(has_cas r.krl 0)
{\"file\":\"gone\",\"status\":\"unread\",\"fault\":\"file 1 Open\",\"why\":\"No such file or directory\"}
{\"condition\":\"keep\",\"passed\":false,\"file\":\"gone\",\"keys\":0,\"revoked\":0,\"unread\":1}
{\"status\":\"done\",\"passed\":false}" --json --keep gone r.krl
checks 'the objects of a plain list' 1 \
  "{\"condition\":\"openssh\",\"passed\":true,\"list\":\"two\"}
{\"condition\":\"empty\",\"passed\":true,\"list\":\"two\"}
$(has_cas two 0)
{\"condition\":\"version\",\"passed\":false,\"list\":\"two\",\"why\":\"$unversioned\"}
{\"status\":\"done\",\"passed\":false}" --json --newer-than r.krl two
checks 'the objects of a plain list with DSA' 1 \
  "{\"condition\":\"openssh\",\"passed\":false,\"list\":\"dsa\",\"why\":\"line 2 $no_dsa_key\"}
{\"condition\":\"empty\",\"passed\":true,\"list\":\"dsa\"}
$(has_cas dsa 0 2)
{\"status\":\"done\",\"passed\":false}" --json --max-cas 2 dsa
checks 'the objects of a list of many CAs' 1 \
  "{\"condition\":\"openssh\",\"passed\":true,\"list\":\"4001.krl\"}
{\"condition\":\"empty\",\"passed\":true,\"list\":\"4001.krl\"}
{\"condition\":\"slow\",\"passed\":false,\"list\":\"4001.krl\",\"cas\":4001,\"most\":4000}
{\"status\":\"done\",\"passed\":false}" --json 4001.krl
expect 'no object of a list that is cut' 255 '' "krl: cut.krl: $cut_short" check --json cut.krl

# Options that are given twice, and others that do not go together.
# twice OPTION WORD..: OPTION is named, and nothing is checked.
twice() {
  local option=$1
  shift
  refuses "$option twice" "error: the argument '$option' cannot be used multiple times" "$@"
}
twice '--newer-than <krl>' check --newer-than 8.krl --newer-than 7.krl 7.krl
twice '--superset-of <krl>' check --superset-of key.krl --superset-of key.krl key.krl
twice '--sshd <file>' check --sshd path.sshd --sshd path.sshd r.krl
twice '--max-age <duration>' check --max-age 1s --max-age 9d r.krl
twice '--allow-empty' check --allow-empty --allow-empty r.krl
twice '--json' check --json --json r.krl
twice '-f <krl>' audit -f r.krl -f empty g.pub
twice '--files0-from <file>' audit -f r.krl --files0-from none --files0-from empty
for it in '--newer-than last.krl' '--superset-of 7.krl' '--max-age 1s' --allow-empty --json \
  '--keep g.pub' '--canary b.pub' '--names of-a' '--sshd path.sshd'; do
  refuses "--print-version and ${it%% *}" 'error: --print-version goes with no other option' \
    check --print-version $it r.krl
done
expect_text 'no list' 2 error check
expect_text 'two lists' 2 error check r.krl r.krl

# OpenSSH beside it.
# certificates AUTHORITY DIGITS: a section of an authority, of these subsections.
certificates() {
  printf 01
  string "$(string "$1")$(words '')$2"
}
# beside NAME WHY DIGITS..: the list that the digits spell. WHY is empty where OpenSSH takes the
# list.
beside() {
  local name=$1 why=$2 status=0 refused
  shift 2
  [ -z "$why" ] || status=1
  bytes "$H" "$@" >made.krl
  checks "a list with $name" $status "${why:+openssh: made.krl: $why}" --allow-empty made.krl
  "$openssh" -Q -l -f made.krl >"$scratch/said" 2>&1
  refused=$?
  judge "OpenSSH on a list with $name" "$(differs 'its status' $((status * 255)) $refused)"
}
zero=it\ names\ serial\ number\ 0 long='a bitmap has more than 2,048 bytes'
other='a CA is no key, or a key in another spelling' size='the key of a CA is too short or too long'
point='the key of a CA has an invalid point'
first=0000000000000001 none=0000000000000000
beside 'serial number 1' '' "$(certificates "$A" "20$(string $first)")"
beside 'serial number 0' "$zero" "$(certificates "$A" "20$(string $none)")"
beside 'serial numbers 1 and 0' "$zero" "$(certificates "$A" "20$(string $first$none)")"
beside 'a range from 1' '' "$(certificates "$A" "21$(string ${first}ffffffffffffffff)")"
beside 'a range from 0' "$zero" "$(certificates "$A" "21$(string $none$first)")"
beside 'a bitmap of number 1' '' "$(certificates "$A" "22$(string "$none$(string 02)")")"
beside 'a bitmap of numbers 0 and 1' "$zero" \
  "$(certificates "$A" "22$(string "$none$(string 03)")")"
beside 'a bitmap of 2,048 bytes' '' \
  "$(certificates "$A" "22$(string "$first$(string "$(repeat 2048 01)")")")"
beside 'a zero byte and a bitmap of 2,048 bytes' '' \
  "$(certificates "$A" "22$(string "$first$(string "00$(repeat 2048 ff)")")")"
beside 'a bitmap of 2,049 bytes' "$long" \
  "$(certificates "$A" "22$(string "$first$(string "$(repeat 2049 01)")")")"
beside 'two zero bytes and a bitmap of 2,048 bytes' "$long" \
  "$(certificates "$A" "22$(string "$first$(string "0000$(repeat 2048 01)")")")"
beside 'a key ID' '' "$(certificates '' "23$(string "$(words bob '')")")"
beside 'a zero byte within a key ID' 'a key ID has a zero byte' \
  "$(certificates '' "23$(string "$(string "$(text bo)00$(text b)")")")"
beside 'an extension' 'it has an extension' "ff$(string "$(words name)00$(words contents)")"
beside 'an extension of certificates' 'it has an extension' \
  "$(certificates "$A" "39$(string "$(words name)00$(words contents)")")"
beside 'a signature' 'it has a signature' "04$(string "$G")$(words signature)"
beside 'an authority of no bytes' '' "$(certificates '' "20$(string $first)")"
beside 'an authority that is no key' "$other" "$(certificates abcd '')"
beside 'bytes after an authority' "$other" "$(certificates "${A}00" '')"
exponent=$(string 010001)
beside 'an RSA key of 1,024 bits' '' \
  "$(certificates "$(rsa "$exponent" "$(string 0080"$(repeat 127 01)")")" '')"
beside 'an RSA key of 1,023 bits' "$size" \
  "$(certificates "$(rsa "$exponent" "$(string 7f"$(repeat 127 01)")")" '')"
beside 'an RSA key of 16,384 bits' '' \
  "$(certificates "$(rsa "$exponent" "$(string 0080"$(repeat 2047 01)")")" '')"
beside 'an RSA key of 16,385 bits' "$size" \
  "$(certificates "$(rsa "$exponent" "$(string 01"$(repeat 2048 01)")")" '')"
most=$(string 0080"$(repeat 2047 01)") more=$(string 01"$(repeat 2048 01)")
beside 'an RSA key with an exponent of 16,384 bits' '' \
  "$(certificates "$(rsa "$most" "$(string 0080"$(repeat 127 01)")")" '')"
beside 'an RSA key with an exponent of 16,385 bits' "$size" \
  "$(certificates "$(rsa "$more" "$(string 0080"$(repeat 127 01)")")" '')"
dsa=$(words ssh-dss)
for at in 1 2 3 4; do
  numbers=("$dsa" "$exponent" "$exponent" "$exponent" "$exponent")
  numbers[at]=$more
  beside "a DSA key whose number $at has 16,385 bits" "$size" \
    "$(certificates "$(printf %s "${numbers[@]}")" '')"
done
# The curve, and the coordinates of points of it: of a key that ssh-keygen made, of one whose first
# coordinate has half as many bits as the curve's order, and of one whose first coordinate is the
# order less one or a little more.
while read -r curve on_it short long; do
  beside "an authority on P-$curve" '' "$(certificates "$(ecdsa "$curve" "04$on_it")" '')"
  beside "an authority beside P-$curve" "$point" \
    "$(certificates "$(ecdsa "$curve" "04${on_it%?}$((0x${on_it: -1} < 8 ? 8 : 0))")" '')"
  beside "an authority on P-$curve with a short coordinate" "$point" \
    "$(certificates "$(ecdsa "$curve" "04$short")" '')"
  beside "an authority on P-$curve with a long coordinate" "$point" \
    "$(certificates "$(ecdsa "$curve" "04$long")" '')"
  beside "an authority of zeros for P-$curve" "$point" \
    "$(certificates "$(ecdsa "$curve" "04$(repeat $((${#on_it} / 2)) 00)")" '')"
done <"$tests/lib/curve_points"
device=$(words sk-ecdsa-sha2-nistp256@openssh.com nistp256)
read -r _ on_it _ <"$tests/lib/curve_points"
beside "a device's key on P-256" '' \
  "$(certificates "$device$(string "04$on_it")$(words ssh:)" '')"
beside "a device's key beside P-256" "$point" \
  "$(certificates "$device$(string "04${on_it%?}$((0x${on_it: -1} < 8 ? 8 : 0))")$(words ssh:)" '')"
beside 'an explicit key of no bytes' '' "$(section '')"
beside 'an explicit key that is none' '' "$(section abcd)"

# Lists that OpenSSH reads as other names, or that another release of it refuses.
# reads_others NAME WHY DIGITS..: OpenSSH takes the list that the digits spell, and it is refused.
reads_others() {
  local name=$1 why=$2
  shift 2
  bytes "$H" "$@" >made.krl
  checks "a list with $name" 1 "openssh: made.krl: $why" --allow-empty made.krl
  "$openssh" -Q -l -f made.krl >"$scratch/said" 2>&1
  judge "OpenSSH on a list with $name" "$(differs 'its status' 0 $?)"
}
reads_others 'a zero byte at the end of a key ID' 'a key ID has a zero byte' \
  "$(certificates '' "23$(string "$(string "$(text bob)00")")")"
reads_others 'a DSA key of numbers of 16,384 bits' \
  'the key of a CA is DSA, which OpenSSH 10 does not read' \
  "$(certificates "$dsa$most$most$most$most" '')"
reads_others 'an authority with a needless zero byte' "$other" \
  "$(certificates "$(rsa "$(string 00010001)" "$(string 0080"$(repeat 127 01)")")" \
  "20$(string $first)")"
reads_others 'a zero byte after an application' "$other" \
  "$(certificates \
  "$(words sk-ssh-ed25519@openssh.com)$(string "$(repeat 32 33)")$(string "$(text ssh:)00")" \
  "20$(string $first)")"

# Comments.
for it in '' 61 6100 00; do
  bytes "${H:0:80}" "$(string "$it")" >made.krl
  checks "a comment of the bytes ${it:-none}" 0 '' --allow-empty made.krl
done
bytes "${H:0:80}" "$(string 610062)" >made.krl
checks 'a zero byte within a comment' 1 'openssh: made.krl: its comment has a zero byte' \
  --allow-empty made.krl

# A list of each sort of section, whose last one has the canary. It never passes if it is truncated.
printf 'serial: 5-100\nserial: 7000\nid: bob\nkey: %s\n' "$(cat g.pub)" >spec
"$keygen" -k -f whole.krl -s b.pub spec && echo "sha256: $(cat a.pub)" |
  "$keygen" -k -u -f whole.krl -
checks 'a whole list with its canary' 0 '' --canary a.pub whole.krl
size=$(stat -c %s whole.krl)
passed_when_cut=
for ((at = 0; at < size; at++)); do
  head -c $at whole.krl >made.krl
  "$program" check --canary a.pub made.krl >/dev/null 2>&1 && passed_when_cut+=" $at"
done
judge "a list that is cut at each of its $size bytes never passes" \
  "${passed_when_cut:+  it passes at$passed_when_cut}"
run check --keep b.pub --canary a.pub whole.krl >/dev/full
judge 'nothing is printed of a list that passes' "$(differs 'its status' 0 $got_status)"
"$program" check --keep g.pub whole.krl >/dev/full 2>"$scratch/error"
judge 'an output that fails' "$(differs 'its status' 255 $?)"
