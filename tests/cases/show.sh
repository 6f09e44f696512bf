# krl show: each kind of line, the names of CAs, beside what OpenSSH prints of the list, and lists
# that are not read.

keygen=$program
program=$krl
f=$(fingerprint "$G")
g=$(line ssh-ed25519 "$G")
head='version 1, 1970-01-01T00:00:00Z'

# shows NAME LINES DIGITS..: of the list that the digits spell, after the line about it.
shows() {
  bytes "$H" "${@:3}" >made.krl
  expect "$1" 0 "# made.krl: $head"$'\n'"$2" '' show made.krl
}
all='00000000 00000000'
shows 'a list without sections' ''
shows 'one serial number' $'ca: all\nserial: 5\n' 01 00000015 $all 20 00000008 0000000000000005
shows 'a range from 0' $'ca: all\nserial: 1-3\n' \
  01 0000001d $all 21 00000010 0000000000000000 0000000000000003
shows 'a range to the last serial number' $'ca: all\nserial: 1-18446744073709551615\n' \
  01 0000001d $all 21 00000010 0000000000000001 ffffffffffffffff
shows 'a bitmap' $'ca: all\nserial: 1\nserial: 3\nserial: 5\nserial: 7\n' \
  01 0000001a $all 22 0000000d 0000000000000001 00000001 55
shows 'serial number 0 alone' '' 01 00000015 $all 20 00000008 0000000000000000
# ids NAME LINE DIGITS: the line of a key ID.
ids() {
  shows "$1" $'ca: all\n'"$2"$'\n' "01$(string 0000000000000000 23 "$(string "$(string "$3")")")"
}
ids 'a key ID' 'id: bob' "$(text bob)"
ids 'a key ID with a blank' 'id: a b' "$(text 'a b')"
ids 'a key ID with a #' 'id-hex: 6576652331' "$(text 'eve#1')"
ids 'an empty key ID' 'id-hex: ' ''
ids 'a key ID that begins with a blank' 'id-hex: 2061' 2061
ids 'a key ID that ends with a blank' 'id-hex: 6120' 6120
ids 'a key ID with a tab' 'id-hex: 610962' 610962
ids 'a key ID with a line feed' 'id-hex: 610a62' 610a62
ids 'a key ID with DEL' 'id-hex: 7f' 7f
ids 'a key ID of other bytes' 'id-hex: c3a9' c3a9
ids 'a key ID with a zero byte' 'id-hex: 610062' 610062
ids 'a key ID that begins as a key' 'id-hex: 7373682d7273612041' "$(text 'ssh-rsa A')"
ids 'a key ID that is a type of keys' 'id: ssh-rsa' "$(text ssh-rsa)"
ids 'a key ID that begins nearly so' 'id: ssh-rsa: A' "$(text 'ssh-rsa: A')"
for id in '"bob"' "'bob'" '""' "''" '"a" b "c"' 'a, b' ', b' '"a", b'; do
  ids "the key ID $id" "id-hex: $(text "$id")" "$(text "$id")"
done
for id in '"' "'" '"bob' "bob'" "\"bob'" "'a' b" 'a,b' 'a,' 'a ,b'; do
  ids "the key ID $id" "id: $id" "$(text "$id")"
done
# What a line would take for a last day, though the calendar may not have it.
for id in 'bob until 2026-11-15' 'until 2026-11-15' 'UNTIL:2026-11-15' 'bob until = 2026-02-30' \
  'until0000-00-00' 'bob-until 9999-99-999' 'untiluntil 2026-11-15 or so' \
  'until then, until:=2026-11-15'; do
  ids "the key ID $id" "id-hex: $(text "$id")" "$(text "$id")"
done
for id in until 'bob until tomorrow' 'until 2026-1-15' 'until 15.11.2026' 'until the 2026-11-15' \
  '2026-11-15 until' 'unti 2026-11-15' 'until-2026-11-15' 'until 12026-11-15' 'until 2026-11-1'; do
  ids "the key ID $id" "id: $id" "$(text "$id")"
done
shows 'a CA' "ca: $(line ssh-ed25519 "$A") # $(fingerprint "$A")"$'\nserial: 7\n' \
  01 00000048 "$(string "$A")" 00000000 20 00000008 0000000000000007
shows 'a CA of one byte' $'ca-blob: eA==\nid: a\n' \
  01 00000013 00000001 78 00000000 23 00000005 00000001 61
# The number 3 with a needless zero byte before it is another spelling.
odd=$(rsa "$(string 0003)" "$(string 00"$(repeat 128 a1)")")
right=$(rsa "$(string 03)" "$(string 00"$(repeat 128 a1)")")
shows 'keys' "key: $(line ssh-rsa "$right") # $(fingerprint "$right")
key-blob: $(bytes "$odd" | base64 -w0)
key: $g # $f
key-blob: AQ==
" "$(section "$G" "$right" "$odd" 01)"
shows 'a SHA-1' "hash: SHA1:$(bytes "$(repeat 20 ab)" | base64 | tr -d =)"$'\n' \
  03 00000018 00000014 "$(repeat 20 ab)"
shows 'a SHA-256' "hash: $f"$'\n' 05 00000024 00000020 "$(bytes "$G" | sha256sum | cut -c1-64)"
shows 'a signature after a key' "key: $g # $f"$'\n' "$(section "$G")" 04 00000000 00000000

# The line about a list.
bytes "${H:0:24}" 0000000000000007 "${H:40:40}" "$(words $'of May\e\n')" >said.krl
expect 'the version, the date and the comment' 0 \
  '# said.krl: version 7, 1970-01-01T00:00:00Z, of May\x1b\x0a'$'\n' '' show said.krl
echo "$g" >$'g\e.pub'
expect 'a plain list, and a control character in its name' 0 \
  '# g\x1b.pub: a plain list'$'\n'"key: $g # $f"$'\n' '' show $'g\e.pub'

# Several lists, and JSON.
bytes "$H" "$(section "$G")" >r.krl
bytes "$H" "01$(string "$(string "$A")" 00000000 \
  21 00000010 0000000000000064 00000000000000c7 23 "$(string "$(words bob)")")" >ca.krl
ca="ca: $(line ssh-ed25519 "$A") # $(fingerprint "$A")"
expect 'several lists' 0 "# ca.krl: $head
$ca
serial: 100-199
id: bob
# r.krl: $head
key: $g # $f
" '' show ca.krl r.krl
printed='"generated":"1970-01-01T00:00:00Z","comment":""}'
expect 'JSON' 0 '{"list":"ca.krl","version":"1",'"$printed"'
{"ca":"'"$(fingerprint "$A")"'","serial":["100","199"]}
{"ca":"'"$(fingerprint "$A")"'","id":"bob"}
{"list":"r.krl","version":"1",'"$printed"'
{"key":"'"$f"'"}
{"status":"done","lists":2,"cas":1,"serials":"100","ids":1,"keys":1,"hashes":0}
' '' show --json ca.krl r.krl

# Every serial number of two CAs. A reader of JSON may round numbers above 2^53.
last=18446744073709551615
every=21000000100000000000000001ffffffffffffffff
bytes "$H" "01$(string "$(string "$A")" 00000000 "$every")" \
  "01$(string "$(string "$B")" 00000000 "$every")" >every.krl
judge 'the serial numbers of two CAs, as JSON' "$(
  run show --json every.krl
  differs 'exit status' 0 "$got_status"
  differs 'the numbers' "$(printf '["1","%s"]\n' $last $last)" \
    "$(grep -o '\[.*\]' <<<"$got_output")"
  differs 'the last line' '{"status":"done","lists":1,"cas":2,"serials":"36893488147419103230",'\
'"ids":0,"keys":0,"hashes":0}' "$(tail -n 1 <<<"${got_output%$'\n'}")"
)"

# Lists without their names.
expect 'lists without their names' 0 "# $head
$ca
serial: 100-199
id: bob
key: $g # $f
# version 7, 1970-01-01T00:00:00Z, of May\\x1b\\x0a
" '' show --no-name ca.krl $'g\e.pub' said.krl
expect 'lists without their names, as JSON' 0 '{"version":"1",'"$printed"'
{"key":"'"$f"'"}
{"key":"'"$f"'"}
{"status":"done","lists":2,"cas":0,"serials":"0","ids":0,"keys":2,"hashes":0}
' '' show --json --no-name r.krl $'g\e.pub'
judge 'a list that is read back without its name' "$(
  "$program" show --no-name ca.krl | "$program" make -q -f again.krl -z 1 - 2>&1
  differs 'the text' "$("$program" show --no-name ca.krl | tail -n +2)" \
    "$("$program" show --no-name again.krl | tail -n +2)"
)"

# The names that texts give to CAs. Those of the list are of five sorts, and one of them is a key of
# the list, too.
a=$(line ssh-ed25519 "$A") b=$(line ssh-ed25519 "$B")
R=$(rsa "$(string 010001)" "$(string 00"$(repeat 256 c1)")")
P=$(ecdsa 256 "04$(repeat 64 5a)")
r=$(line ssh-rsa "$R") p=$(line ecdsa-sha2-nistp256 "$P")
# of_ca BLOB DIGITS..: a section of certificates.
of_ca() {
  printf 01
  string "$(string "$1")" 00000000 "${@:2}"
}
ids_of() {
  printf 23
  string "$(words "$@")"
}
bytes "$H" "$(of_ca '' 20 00000008 0000000000000007 "$(ids_of all)")" \
  "$(of_ca "$A" 20 00000008 0000000000000005 "$(ids_of bob 'eve#1')")" \
  "$(of_ca "$B" 21 00000010 0000000000000064 00000000000000c7 "$(ids_of bob)")" \
  "$(of_ca "$R" "$(ids_of x)")" "$(of_ca "$P" 20 00000008 0000000000000009)" \
  "$(of_ca 78 "$(ids_of odd)")" "$(section "$G" "$A")" \
  05 00000024 00000020 "$(bytes "$B" | sha256sum | cut -c1-64)" >cas.krl
# named NAME LINES WORD..: of this list, where the CA of each variable has such a name, or none.
named() {
  local it mark blob label key lines out="# cas.krl: $head"$'\nca: all\nserial: 7\nid: all\n'
  for it in "R:$of_r:$r:id: x" "A:$of_a:$a:serial: 5|id: bob|id-hex: 6576652331" \
    "B:$of_b:$b:serial: 100-199|id: bob" "P:$of_p:$p:serial: 9"; do
    IFS=: read -r blob label key lines <<<"$it"
    mark=${label:+@$label }
    out+="${label:+@}${label:-ca}: $key # $(fingerprint "${!blob}")"$'\n'
    out+="$mark${lines//|/$'\n'$mark}"$'\n'
  done
  out+=$'ca-blob: eA==\nid: odd\n'"key: $a # $(fingerprint "$A")"$'\n'"key: $g # $f"$'\n'
  expect "$1" 0 "${out}hash: $(fingerprint "$B")"$'\n' '' show "${@:2}"
}
of_r='' of_a='' of_b='' of_p=''
named 'a list of six CAs, without names' cas.krl
printf '# c\n@users: %s of a # c\n@all serial: 12\n@users id: x\nkey: %s\n' "$a" "$a" >of-a
printf '@rsa-ca: %s\n@ec.1: %s\n' "$r" "$p" >of-others
printf '@hosts: %s\nca: %s\nserial: 6\nid: bob\n' "$b" "$a" >of-b
printf '@nobody: %s\n@nobody serial: 5-7\n@nobody id: bob\n' "$g" >of-none
printf 'ca: %s\nserial: 5\nid: bob\n@all id: a\n' "$a" >without
named 'a text that names no CA' --names without cas.krl
named 'the name of a CA that the list lacks, and whose key it has' --names of-none cas.krl
of_a=users
named 'the name of one CA of several' --names of-a cas.krl
of_r=rsa-ca of_a='' of_p=ec.1
named 'the names of a CA with RSA and one with ECDSA' --names of-others cas.krl
of_a=users
named 'two texts with names' --names of-a --names of-others cas.krl
named 'the same in another order, around the list' --names of-others cas.krl --names of-a
of_b=hosts
named 'several texts, of which two say nothing of these CAs' --names of-none --names of-a \
  --names without --names of-others --names of-b cas.krl
expect 'lists by the names of one text' 0 "# r.krl: $head
key: $g # $f
# ca.krl: $head
@users: $a # $(fingerprint "$A")
@users serial: 100-199
@users id: bob
# g\\x1b.pub: a plain list
key: $g # $f
# ca.krl: $head
@users: $a # $(fingerprint "$A")
@users serial: 100-199
@users id: bob
" '' show --names of-a r.krl ca.krl $'g\e.pub' ca.krl
expect 'a name, and lists without theirs' 0 "# $head
@users: $a # $(fingerprint "$A")
@users serial: 100-199
@users id: bob
key: $g # $f
" '' show --no-name ca.krl --names of-a $'g\e.pub'

# A later text may use the names of an earlier one, as in krl make.
printf '@users serial: 1\n' >uses-a
of_r='' of_b='' of_p=''
named 'a text that uses the name of the one before it' --names of-a --names uses-a cas.krl
printf 'until 2001-02-03 @users serial: 5\nuntil 2999-01-01 @users serial: 6\n' >ends-a
named 'a text with an entry that is over' --names of-a --names ends-a cas.krl
{
  printf '@users: %s\r\n\t@users:\t%s again # until 2001-02-03\r\n' "$a" "$a" && head -c -1 of-a
} >twice
named 'a name that is given more than once' --names twice --names of-a cas.krl

# Of several names the first one in the order of their bytes.
# first_of NAME NAME..: this name is the first of these, in whatever order texts give them.
first_of() {
  of_a=$1
  for it in "${@:2}"; do printf '@%s: %s\n' "$it" "$a"; done >several
  named "the first of the names ${*:2}" --names several cas.krl
  tac several >others
  named "the first of them, which are given in another order" --names others cas.krl
  head -n 1 several >one && tail -n +2 several >others
  named "the first of them, which are in two texts" --names others --names one cas.krl
  named "the first of them, in the other order of texts" --names one --names others cas.krl
}
first_of a10 b a10 a9 c
first_of B b B a
first_of us users us user
first_of user-ca user_ca userca user.ca user-ca
first_of -z z 0 -z _
first_of ALL al ALL alle
of_a=''

# Standard input has a text, or a list.
of_a=users
named 'a text with names on standard input' --names - cas.krl <of-a
named 'a text through a pipe' cas.krl --names - < <(cat of-a)
of_r=rsa-ca of_p=ec.1
named 'a text on standard input beside another' --names of-others cas.krl --names - <of-a
expect 'a list on standard input, and a text with names' 0 "# -: $head
@users: $a # $(fingerprint "$A")
@users serial: 100-199
@users id: bob
" '' show --names of-a - <ca.krl
for words in '--names - -' '- --names -' '--names - --names - cas.krl' \
  '--names of-a --names - r.krl -'; do
  # shellcheck disable=SC2086
  expect_text "standard input twice: show $words" 2 error show $words <of-a
done
cp of-a ./-
named 'a text in a file called -' --names ./- --names of-others cas.krl </dev/null
rm ./-

# Texts that are not read. Nothing is printed.
printf '@users: %s\n# c\n@users: %s\n' "$a" "$b" >other-key
printf '@hosts: %s\n@users serial: 0\n' "$b" >zero
printf '@user serial: 5\n' >slip
printf '@users: %s\n@users id: bob until 2026-02-30\n' "$a" >dated
printf 'serial: 5\n' >bare
while IFS='|' read -r words said <&3; do
  for json in '' --json; do
    # shellcheck disable=SC2086
    expect "names that are refused: $words $json" 255 '' "krl: $said"$'\n' show $json $words <zero
  done
done 3<<'ROWS'
--names other-key cas.krl|other-key: line 3: the name "users" has another key: other-key, line 1 [text 15 OtherKey]
cas.krl --names of-a --names other-key|other-key: line 3: the name "users" has another key: of-a, line 2 [text 15 OtherKey]
--names zero cas.krl|zero: line 2: no CA is named "users" above [text 16 UnknownName]
--names of-a r.krl --names zero|zero: line 2: serial number 0 names no certificate [text 1 Spec, spec 2 Zero]
--names of-a --names - r.krl|-: line 2: serial number 0 names no certificate [text 1 Spec, spec 2 Zero]
--names of-a --names slip cas.krl|slip: line 1: no CA is named "user" above: did you mean "users" (of-a, line 2)? [text 16 UnknownName]
--names uses-a --names of-a cas.krl|uses-a: line 1: no CA is named "users" above: did you mean "users" (of-a, line 2)? [text 16 UnknownName]
--names dated cas.krl|dated: line 2: a day in a key ID ends nothing: begin the line with until YYYY-MM-DD, or use id-hex: for a key ID that has one [text 21 DateInId]
--names bare cas.krl|bare: line 1: no CA is given: by @NAME before the word, or by a ca: line with no key or hash between [text 1 Spec, spec 4 NoAuthority]
--names missing cas.krl|missing: No such file or directory [file 1 Open]
--names of-a --names missing --names zero cas.krl|missing: No such file or directory [file 1 Open]
ROWS
run show --names cas.krl cas.krl
judge 'a list instead of a text with names' "$(
  differs 'exit status' 255 "$got_status"
  differs 'standard output' '' "$got_output"
  grep -q '^krl: cas\.krl: .*\]$' "$scratch/error" || cat "$scratch/error"
)"

# JSON has the name behind the CA, and none where there is none.
expect 'JSON by names' 0 '{"list":"cas.krl","version":"1",'"$printed"'
{"ca":"all","serial":["7","7"]}
{"ca":"all","id":"all"}
{"ca":"'"$(fingerprint "$R")"'","name":"rsa-ca","id":"x"}
{"ca":"'"$(fingerprint "$A")"'","name":"users","serial":["5","5"]}
{"ca":"'"$(fingerprint "$A")"'","name":"users","id":"bob"}
{"ca":"'"$(fingerprint "$A")"'","name":"users","id":"eve#1"}
{"ca":"'"$(fingerprint "$B")"'","serial":["100","199"]}
{"ca":"'"$(fingerprint "$B")"'","id":"bob"}
{"ca":"'"$(fingerprint "$P")"'","name":"ec.1","serial":["9","9"]}
{"ca":"'"$(fingerprint 78)"'","id":"odd"}
{"key":"'"$(fingerprint "$A")"'"}
{"key":"'"$f"'"}
{"hash":"'"$(fingerprint "$B")"'"}
{"status":"done","lists":1,"cas":6,"serials":"103","ids":6,"keys":2,"hashes":1}
' '' show --json --names of-a --names of-others cas.krl
expect 'JSON by names, of lists without theirs' 0 '{"version":"1",'"$printed"'
{"ca":"'"$(fingerprint "$A")"'","name":"users","serial":["100","199"]}
{"ca":"'"$(fingerprint "$A")"'","name":"users","id":"bob"}
{"status":"done","lists":1,"cas":1,"serials":"100","ids":1,"keys":0,"hashes":0}
' '' show --names of-a --no-name --json ca.krl

# What is shown by names makes the same list.
for words in '' '--names of-a' '--names of-others' '--names of-a --names of-others --names of-b' \
  '--names several' '--names of-none'; do
  # shellcheck disable=SC2086
  "$program" show $words cas.krl >text
  rm -f again.krl
  run make -q -f again.krl text
  judge "a list that is read back, shown with '$words'" "$(
    differs 'standard error' '' "$got_error"
    asks 0 "$program" diff cas.krl again.krl
    # shellcheck disable=SC2086
    asks 0 diff <(tail -n +2 text) <("$program" show $words again.krl | tail -n +2)
  )"
done
judge 'and names its own CAs' "$(
  "$program" show --names of-a --names of-others --names of-b cas.krl >text
  asks 0 diff text <("$program" show --names text cas.krl)
)"
for words in '--names' 'cas.krl --names' '--names of-a' '--name of-a cas.krl'; do
  # shellcheck disable=SC2086
  run show $words
  judge "the words 'show $words'" "$(
    differs 'exit status' 2 "$got_status"
    differs 'standard output' '' "$got_output"
  )"
done
expect_text 'no names of make' 2 error make -n -f cas.krl --names of-a text

# Standard input.
expect 'a list on standard input' 0 "# -: $head
key: $g # $f
# ca.krl: $head
$ca
serial: 100-199
id: bob
" '' show - ca.krl <r.krl
expect 'a plain list on standard input' 0 "# -: a plain list
key: $g # $f
" '' show - < <(echo "$g")
cp r.krl ./-
expect 'a list in a file called -' 0 "# ./-: $head
key: $g # $f
" '' show ./- </dev/null
rm ./-
expect 'a truncated list on standard input' 255 '' \
  $'krl: -: truncated, in its header or within a section [krl 3 EndsEarly]\n' \
  show - < <(head -c 90 ca.krl)
expect_text 'standard input as two lists' 2 error show - r.krl -

# Lists that are not read, and outputs that fail. Nothing is printed, not even of a list before.
bytes "${H:0:80}00000001" >cut.krl
cut_short=$'truncated, in its header or within a section [krl 3 EndsEarly]\n'
expect 'a truncated list' 255 '' "krl: cut.krl: $cut_short" show cut.krl
expect 'a truncated list after another' 255 '' "krl: cut.krl: $cut_short" show r.krl cut.krl r.krl
expect 'a list that is missing' 255 '' \
  $'krl: no.krl: No such file or directory [file 1 Open]\n' show r.krl no.krl cut.krl
{ echo "$g" && echo garbage; } >wrong
expect 'a file that is no list' 255 '' \
  $'krl: wrong: line 2: no key type stands there [line 1 NoKey]\n' show wrong
mkdir folder
expect 'a folder' 255 '' $'krl: folder: it is a directory [krl 13 Read]\n' show folder
for text in 'ca: all' 'SERIAL:5 # c' 'id: alice' "key: $g"; do
  printf '# of\n\n%s\n' "$text" >text
  expect "a text for a list, with $text" 255 '' \
    $'krl: text: line 3: this is a text: make a list of it by krl make [line 1 NoKey]\n' show text
done
if [ -e /dev/full ]; then
  "$program" show r.krl >/dev/full 2>"$scratch/error"
  judge 'a list onto a full device' "$(
    differs 'exit status' 255 $?
    differs 'standard error' 1 "$(grep -c 'output 1 Write after 0 bytes' "$scratch/error")"
  )"
fi
for words in '' --json '--json --json r.krl' '-f r.krl'; do
  # shellcheck disable=SC2086
  run show $words
  judge "the words 'show $words'" "$(
    differs 'exit status' 2 "$got_status"
    differs 'standard output' '' "$got_output"
  )"
done

# 64 MiB: one key of as many zero bytes as a list has room for.
size=$((67108864 - 44 - 5 - 4))
{ bytes "$H" 02 "$(printf %08x $((size + 4)))" "$(printf %08x $size)" && head -c $size /dev/zero; } \
  >large.krl
judge 'a list of 64 MiB' "$(
  differs 'bytes' 67108864 "$(wc -c <large.krl)"
  differs 'what is printed' "$({
    printf '# large.krl: %s\nkey-blob: ' "$head"
    head -c $size /dev/zero | base64 -w0
    echo
  } | sha256sum)" "$("$program" show large.krl | sha256sum)"
)"
echo >>large.krl
# A plain list whose last line is beyond the limit.
{ head -c 67108863 /dev/zero | tr '\0' '#' && echo && line ssh-ed25519 "$G"; } >large
line ssh-ed25519 "$G" >g.pub
for it in large.krl large; do
  for words in "show $it" "check $it" "audit -f $it g.pub" "diff $it g.pub" "diff g.pub $it" \
    "check g.pub --superset-of $it"; do
    # shellcheck disable=SC2086
    run $words
    judge "a list of one byte more, and krl $words" "$(
      differs 'exit status' 255 "$got_status"
      differs 'standard output' '' "$got_output"
      grep -q "^krl: $it: .*\[krl 12 TooLong\]$" "$scratch/error" || cat "$scratch/error"
    )"
  done
done
rm large large.krl

# The facts of lists that OpenSSH makes, with the authority of each, as it prints them: the
# fingerprint of a key, the digits of a hash.
theirs() {
  "$openssh" -Q -l -f "$1" | sed -nE '
    s/^# Wildcard CA$/CA all/p
    s/^# CA key [^ ]+ /CA /p
    s/^hash: (SHA256:.{43}) # .*/key \1/p
    s/^hash: SHA256:([0-9a-f]{64})$/sha256 \1/p
    s/^# hash SHA1:/sha1 /p
    /^(serial|id): /p' | under | sort
}
ours() {
  local word text
  "$program" show "$1" | while read -r word text; do
    case $word in
      ca:) echo "CA ${text##* }" ;;
      key:) echo "key ${text##* }" ;;
      hash:) echo "$(digits_name "$text") $(printf '%s=' "${text#*:}" | digits_of)" ;;
      '#') ;;
      *) echo "$word $text" ;;
    esac
  done | under | sort
}
digits_name() {
  case $1 in
    SHA1:*) echo sha1 ;;
    *) echo sha256 ;;
  esac
}
digits_of() {
  basenc -d --base64 | od -An -v -tx1 | tr -d ' \n'
}
# puts the authority before each of its serial numbers and key IDs
under() {
  awk '/^CA /{ authority = $2 } /^(serial|id):/{ print authority, $0 } /^(key|sha)/'
}
# again TEXT LIST: the list that krl-keygen makes of the text, CA by CA.
again() {
  local part
  rm -f "$2" parts.*
  awk '/^#/ { next }
    /^ca: / { n++; sub(/^ca: /, ""); print >("parts." n ".pub"); next }
    /^(serial|id): / { print >("parts." n ".spec"); next }
    { print >"parts.keys" }' "$1"
  : >>parts.keys
  "$keygen" -k -f "$2" parts.keys || return
  for part in parts.*.pub; do
    if grep -qx all "$part"; then
      "$keygen" -k -u -f "$2" -s none "${part%.pub}.spec" || return
    else
      "$keygen" -k -u -f "$2" -s "$part" "${part%.pub}.spec" || return
    fi
  done
}

RANDOM=1312
for name in key-one key-two ca-one ca-two ca-three; do
  "$openssh" -q -t ed25519 -N '' -C "of $name" -f $name
done
lines_of() {
  local i lo
  for ((i = 0; i < $1; i++)); do
    echo "serial: $((RANDOM % $2 + 1))"
    lo=$((i * 100 + 5000))
    [ $((RANDOM % 4)) != 0 ] || echo "serial: $lo-$((lo + RANDOM % 200))"
    echo "id: id $((RANDOM % 50))"
  done
}
for round in 1 2 3; do
  lines_of $((round * 20)) $((10 ** (round + 1))) >spec
  "$openssh" -q -k -f theirs.krl -s ca-one.pub -z $round spec 2>"$scratch/error"
  lines_of 12 300 >spec
  echo "key: $(cat key-one.pub)" >>spec
  echo "sha256: $(cat key-two.pub)" >>spec
  "$openssh" -q -k -u -f theirs.krl -s ca-two.pub spec 2>"$scratch/error"
  lines_of 7 200 >spec
  "$openssh" -q -k -u -f theirs.krl -s ca-three.pub spec 2>"$scratch/error"
  lines_of 5 100 >spec
  "$openssh" -q -k -u -f theirs.krl -s none spec 2>"$scratch/error"
  judge "the facts of OpenSSH's list, $round" "$(
    [ "$(theirs theirs.krl | wc -l)" -gt 50 ] || echo '  too few facts'
    asks 0 diff <(theirs theirs.krl) <(ours theirs.krl)
  )"
  "$program" show theirs.krl >text
  judge "the list that is made again of its text, $round" "$(
    again text again.krl || echo '  the text is refused'
    asks 0 diff <("$keygen" -Q -l -f theirs.krl | tail -n +3) \
      <("$keygen" -Q -l -f again.krl | tail -n +3)
  )"
done
judge "each fingerprint is OpenSSH's" "$(
  differs 'lines with another fingerprint' '' \
    "$(sed -n 's/^\(ca\|key\): ssh/ssh/p' text | while read -r key; do
      [ "$("$openssh" -l -f /dev/stdin <<<"$key" | cut -d ' ' -f 2)" = "${key##* }" ] || echo "$key"
    done)"
  differs 'number of keys' 4 "$(grep -c '^\(ca\|key\): ssh' text)"
)"
