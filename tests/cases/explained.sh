# krl audit -t: the list that texts make, the lines that explain each finding, the reasons that no
# line gives, the names of CAs, and the texts that are refused.

program=$krl
export SOURCE_DATE_EPOCH=0
g=$(line ssh-ed25519 "$G") a=$(line ssh-ed25519 "$A") b=$(line ssh-ed25519 "$B")
print_a=$(fingerprint "$A")
# The words for a CA, which has a fingerprint, or a name where a text gives one.
of_a="of CA $print_a" of_users='of CA users'
# hashed SUM BLOB: the digest of the blob, in digits.
hashed() {
  bytes "$2" | "$1" | cut -d ' ' -f 1
}
sha1_of_b="SHA1:$(bytes "$(hashed sha1sum "$B")" | base64 | tr -d =)"
sha1_of_a="SHA1:$(bytes "$(hashed sha1sum "$A")" | base64 | tr -d =)"

# signed KEY CA SERIAL ID [COMMENT]: the line of a certificate.
signed() {
  line ssh-ed25519-cert-v01@openssh.com \
    "$(certificate "$1" "$2" "$(printf %016x "$3")" "$4")" "${5:-}"
}
signed "$B" "$A" 7 bob >bob
revoked="revoked: ssh-ed25519-cert-v01@openssh.com $(fingerprint "$B")"
revoked_b="revoked: ssh-ed25519 $(fingerprint "$B")"
of_list='(list version 1, 1970-01-01T00:00:00Z)'
one_revoked="krl audit: 1 file, 1 key: 1 revoked in 1 file, 0 unread $of_list"$'\n'

# cited TEXT NUMBER..: these lines of a text, as they follow a finding.
cited() {
  local number
  for number in "${@:2}"; do
    printf '  %s:%d: %s\n' "$1" "$number" "$(sed -n "${number}p" "$1")"
  done
}
# explains NAME REASONS TEXT NUMBER..: the list of the text revokes the certificate for these
# reasons, and these lines of the text follow.
explains() {
  printf "$3" >text
  expect "$1" 1 "bob:1: $revoked by $2
$(cited text "${@:4}")
" "$one_revoked" audit -t text bob
}

# Each reason, among lines that give none: of another key, another number, another ID, another CA.
others="@users: $a\n@hosts: $g\n$g b\n@users serial: 8\n@hosts serial: 7\n@users id: bobb\n"
others+="@hosts id: bob\nkey-blob: AQ==\nca: $a of b # serial: 7\n"
while IFS='|' read -r reason entry <&3; do
  explains "${entry:0:30}: by $reason" "$reason" \
    "$others$entry\nsha256: $g\n@all serial: 1-6\n@all id: Bob\n# $b\n" 10
done 3<<ROWS
its key|$b of bob # OPS-1
its key|key: $b
its key|key-blob: $(bytes "$B" | base64 -w0)
its SHA-1|sha1: $b
its SHA-1|hash: $sha1_of_b # OPS-1
its SHA-256|sha256: $b of bob
its SHA-256|hash: $(fingerprint "$B")
the key of its CA|$a
the key of its CA|KEY: $a of users
the SHA-1 of its CA|sha1: $a
the SHA-1 of its CA|hash: $sha1_of_a
the SHA-256 of its CA|SHA256: $a # OPS-1
the SHA-256 of its CA|hash: $(fingerprint "$A")
serial 7 $of_users|serial: 7 # OPS-1 laptops stolen
serial 7 $of_users|@users serial: 0x007
serial 7 $of_users|serial: 5-9
serial 7 $of_users|serial: 7 - 7
serial 7 $of_users|SERIAL:1-18446744073709551615
serial 7 $of_users|until 1970-01-01 @users serial: 7
serial 7 $of_users|$(signed "$G" "$A" 7 x) of x
serial 7 $of_users|until 2099-12-31 $(signed "$B" "$A" 7 bob)
serial 7 of all CAs|@all serial: 7
serial 7 of all CAs|@all serial: 6-0x8
key ID "bob" $of_users|id: bob # OPS-1
key ID "bob" $of_users|@users ID:bob
key ID "bob" $of_users|id-hex: 626F62
key ID "bob" $of_users|$(signed "$G" "$A" 0 bob)
key ID "bob" of all CAs|@all id: bob
key ID "bob" of all CAs|until 1970-01-01 @all id-hex: 626f62
ROWS

# Several lines, in the order of the text, which is not that of the reasons.
explains 'all ten reasons' "its key, by its SHA-1, by its SHA-256, by the key of its CA, by the \
SHA-1 of its CA, by the SHA-256 of its CA, by serial 7 $of_users, by serial 7 of all CAs, by key \
ID \"bob\" $of_users, by key ID \"bob\" of all CAs" \
  "@users: $a\n@all id: bob\n# c\n@users id: bob\n@all serial: 7\n\n@users serial: 7\nsha256: $a\n\
sha1: $a\n$g\n$a\nsha256: $b\nsha1: $b\n$b" 2 4 5 7 8 9 11 12 13 14
explains 'several lines of one reason' "serial 7 $of_a" \
  "ca: $a\nserial: 5-9\nserial: 7\nserial: 8-9\nserial: 7 # again\nserial: 1-6\nserial: 2-7\n\
serial: 7-100\nca: $g\nserial: 7\nca: $a # again\nserial: 7\n" 2 3 5 7 8 12
explains 'the same line twice' 'its key' "$b\n# c\n$b\n" 1 3
# One line for two reasons: a certificate that its own key signs.
signed "$A" "$A" 7 bob >own
for it in "$a of a|key|key" "sha1: $a|SHA-1|SHA-1" "hash: $(fingerprint "$A")|SHA-256|SHA-256"; do
  echo "${it%%|*}" >text
  it=${it##*|}
  expect "one line for two reasons: $it" 1 "own:1: revoked: ssh-ed25519-cert-v01@openssh.com \
$(fingerprint "$A") by its $it, by the $it of its CA
$(cited text 1)
" "$one_revoked" audit -t text own
done
# Another CA: only lines of the one that signs, and those of all.
explains 'lines of another CA' "serial 7 $of_a, by serial 7 of all CAs, by key ID \"bob\" $of_a" \
  "ca: $g\nserial: 7\nid: bob\nca: $a\nserial: 7\nca: all\nserial: 7\nca: $b\nid: bob\nca: $a\n\
id: bob\n" \
  5 7 11
# The names of two CAs, one of which has two.
explains 'names of CAs' 'serial 7 of CA u' \
  "@users: $a\n@hosts: $g\n@hosts serial: 7\n@users serial: 7\n@u: $a\n@u serial: 1-9\n@U: $b\n\
@U serial: 7\n" 4 6
explains 'a last day that is over' "serial 7 $of_a, by key ID \"bob\" of all CAs" \
  "ca: $a\nuntil 1969-12-31 serial: 7\nserial: 7 # 2\nuntil 1969-12-31 @all serial: 7\n\
until 1970-01-01 @all id: bob\nuntil 1969-12-31 $(signed "$B" "$A" 7 bob)\n" 3 5

# Serial numbers at the ends of ranges. A + is before those that have the number.
while IFS='|' read -r serial ranges <&3; do
  signed "$B" "$A" "$serial" bob >one
  echo 'ca: all' >text
  numbers=() number=1
  for it in $ranges; do
    number=$((number + 1))
    echo "serial: ${it#+}" >>text
    [ "$it" = "${it#+}" ] || numbers+=("$number")
  done
  expect "the ranges that have serial number $serial" 1 \
    "one:1: $revoked by serial $serial of all CAs
$(cited text "${numbers[@]}")
" "$one_revoked" audit -t text one
done 3<<'ROWS'
1|+1 2 +1-2 2-3 +1-18446744073709551615 2-18446744073709551615 +0x1-0x1
2|1 +2 3 +1-2 +2-3 +1-3 1-1 3-4 +1-18446744073709551615
255|254 +255 256 1-254 +1-255 +255-256 256-511 +128-300 +255-255 0xfe +0xff +0xf0-0x100
256|255 +256 257 +255-256 1-255 +1-256 +256-511 257-512 +256-18446744073709551615 128-255
65535|+65535 65536 +65534-65536 +1-65535 65536-131071 +32768-65535 16384-32767
4294967296|+4294967296 4294967295 +4294967295-4294967296 1-4294967295 +1-4294967296
9223372036854775807|+9223372036854775807 +1-0x8000000000000000 1-9223372036854775806
9223372036854775808|9223372036854775807 +0x7fffffffffffffff-0x8000000000000001
18446744073709551615|+1-18446744073709551615 1-0xfffffffffffffffe +0xffffffffffffffff
ROWS
# Ranges that overlap, as many as a text may well have, and a line of each.
{ echo 'ca: all' && for ((i = 1; i <= 300; i++)); do echo "serial: $i-$((601 - i))"; done; } >text
signed "$B" "$A" 30 bob >one
expect 'three hundred ranges that overlap' 1 "one:1: $revoked by serial 30 of all CAs
$(cited text {2..31})
" "$one_revoked" audit -t text one

# Lines as they are: control characters by their numbers, and all else as in findings.
# shown NAME LINE WANTED: line 2 of a text.
shown() {
  printf 'ca: all\n%b\n# end\n' "$2" >text
  expect "$1" 1 "bob:1: $revoked by serial 7 of all CAs"$'\n'"  text:2: $3"$'\n' "$one_revoked" \
    audit -t text bob
}
shown 'blanks and a carriage return' ' \tserial: \t7  # c \r' ' \x09serial: \x097  # c \x0d'
shown 'a carriage return alone at the end' 'serial: 7\r' 'serial: 7\x0d'
shown 'a comment' 'SeRiAl:0x07# a "b" \\ # c' 'SeRiAl:0x07# a "b" \ # c'
shown 'an escape sequence' 'serial: 7 # \033[31mred\033[0m\007\177' \
  'serial: 7 # \x1b[31mred\x1b[0m\x07\x7f'
shown 'a zero byte' 'serial: 7 # a\0b' 'serial: 7 # a\x00b'
shown 'letters' 'serial: 7 # \xc3\xa9 \xe2\x82\xac' $'serial: 7 # \xc3\xa9 \xe2\x82\xac'
shown 'controls past ASCII' 'serial: 7 # \xc2\x9b1m' 'serial: 7 # \x9b1m'
shown 'a text in another order, and a line separator' 'serial: 7 # \xe2\x80\xae \xe2\x80\xa8' \
  'serial: 7 # \xe2\x80\xae \xe2\x80\xa8'
shown 'bytes that are not UTF-8' 'serial: 7 # \xc3\xa9 \xff' 'serial: 7 # \xc3\xa9 \xff'
shown 'a name between blanks' '\t@all\t serial: 7' '\x09@all\x09 serial: 7'
long=$(head -c 20000 /dev/zero | tr '\0' x)
shown 'a long comment' "serial: 7 # $long" "serial: 7 # $long"
printf 'ca: all\nserial: 7' >text
expect 'the last line without its line feed' 1 "bob:1: $revoked by serial 7 of all CAs
  text:2: serial: 7
" "$one_revoked" audit -t text bob
printf 'ca: all\r\n\r\n# c\r\nserial: 7\r\n' >text
expect 'the numbers of lines that end as on Windows' 1 "bob:1: $revoked by serial 7 of all CAs
  text:4: serial: 7\\x0d
" "$one_revoked" audit -t text bob
mkdir -p folder
while IFS= read -r name <&3; do
  name_of=$(printf %b "$name")
  echo '@all serial: 7' >"$name_of"
  expect "the name $name" 1 "bob:1: $revoked by serial 7 of all CAs
  $name:1: @all serial: 7
" "$one_revoked" audit -t "$name_of" bob
done 3<<'ROWS'
\x1b[31mtext
a\x0ab
./text
folder/text
a: b
café
ROWS

# Several texts, in the order of the command.
printf '# of users\n@users: %s\n@users serial: 1-9 # one\n@all id: bob\n' "$a" >one.txt
printf '@users id: bob\n\n@hosts: %s\n@hosts serial: 7\n@users serial: 7 # two\n' "$g" >two.txt
printf 'key: %s\n' "$b" >three.txt
by_both="by serial 7 $of_users, by key ID \"bob\" $of_users, by key ID \"bob\" of all CAs"
expect 'two texts, and a name that goes on' 1 "bob:1: $revoked $by_both
$(cited one.txt 3 4)
$(cited two.txt 1 5)
" "$one_revoked" audit -t one.txt -t two.txt bob
expect 'three texts in another order' 1 "bob:1: $revoked by its key, $by_both
$(cited three.txt 1)
$(cited one.txt 3 4)
$(cited two.txt 1 5)
" "$one_revoked" audit -t three.txt bob -t one.txt -t two.txt
expect 'one more order' 1 "bob:1: $revoked by its key, by serial 7 $of_users, by key ID \"bob\" of \
all CAs
$(cited one.txt 3 4)
$(cited three.txt 1)
" "$one_revoked" audit -t one.txt -t three.txt bob
expect 'a text that is given twice' 1 "bob:1: $revoked by its key
$(cited three.txt 1)
$(cited three.txt 1)
" "$one_revoked" audit -t three.txt -t three.txt bob
expect 'a text through standard input' 1 "bob:1: $revoked $by_both
$(cited one.txt 3 4)
$(cited two.txt 1 5 | sed 's/two.txt/-/')
" "$one_revoked" audit -t one.txt -t - bob <two.txt
expect 'the first of two through standard input' 1 "bob:1: $revoked $by_both
$(cited one.txt 3 4 | sed 's/one.txt/-/')
$(cited two.txt 1 5)
" "$one_revoked" audit -t - -t two.txt bob < <(cat one.txt)

# Many findings: each with its own lines. At most 20 of a file are printed.
{ echo 'ca: all' && for ((i = 1; i <= 22; i++)); do echo "serial: $i # of $i"; done; } >text
for ((i = 1; i <= 22; i++)); do signed "$B" "$A" "$i" "u$i"; done >many
expect 'many findings' 1 "$(
  for ((i = 1; i <= 20; i++)); do
    echo "many:$i: $revoked by serial $i of all CAs"
    cited text $((i + 1))
  done)
many: revoked: and 2 more lines are revoked
" "krl audit: 1 file, 22 keys: 22 revoked in 1 file, 0 unread $of_list"$'\n' audit -t text many
printf '%s\n%s me\ngarbage\n' "$g" "$b" >keys
expect 'keys of each kind' 1 "keys:1: ok: ssh-ed25519 $(fingerprint "$G")
keys:2: $revoked_b by its key: me
$(cited three.txt 1)
keys:3: unread: no key type stands there
bob:1: $revoked by its key
$(cited three.txt 1)
gone: unread: No such file or directory
" "krl audit: 3 files, 3 keys: 2 revoked in 2 files, 2 unread $of_list"$'\n' \
  audit -a -t three.txt keys bob gone
mkdir -p home/.ssh home/none && cp keys home/.ssh/authorized_keys && echo "$g" >home/none/x.pub
expect 'a directory' 1 "home/.ssh/authorized_keys:2: $revoked_b by its key: me
$(cited three.txt 1)
home/.ssh/authorized_keys:3: unread: no key type stands there
" "krl audit: 2 files, 3 keys: 1 revoked in 1 file, 1 unread $of_list"$'\n' audit -t three.txt home
expect 'names of a file' 1 "bob:1: $revoked by its key
$(cited three.txt 1)
" "$one_revoked" audit -t three.txt --files0-from - < <(printf 'bob\0')
expect 'a key on standard input' 1 "-:1: $revoked_b by its key: me
$(cited three.txt 1)
" "$one_revoked" audit -t three.txt - <<<"$b me"
expect 'nothing quietly' 1 '' "$one_revoked" audit -q -t three.txt bob
expect 'no explanation of a key that is not revoked' 0 "home/none/x.pub:1: ok: ssh-ed25519 \
$(fingerprint "$G")
" "krl audit: 1 file, 1 key: 0 revoked in 0 files, 0 unread $of_list"$'\n' \
  audit -a -t three.txt home/none
expect 'nothing is revoked' 0 '' \
  "krl audit: 1 file, 1 key: 0 revoked in 0 files, 0 unread $of_list"$'\n' \
  audit -t three.txt home/none/x.pub
expect 'something is unread' 3 'gone: unread: No such file or directory
' "krl audit: 1 file, 0 keys: 0 revoked in 0 files, 1 unread $of_list"$'\n' audit -t three.txt gone

# Beside a list, which alone decides what is revoked. Each reason has a line of a text that gives
# it.
reasons=('its key' 'its SHA-1' 'its SHA-256' 'the key of its CA' 'the SHA-1 of its CA'
  'the SHA-256 of its CA' 'serial 7 of CA' 'serial 7 of all CAs' 'key ID "bob" of CA'
  'key ID "bob" of all CAs')
entries=("key: $b # OPS-1" "sha1: $b" "sha256: $b" "$a" "hash: $sha1_of_a" "sha256: $a"
  '@users serial: 5-8' '@all serial: 7' '@users id-hex: 626f62' '@all id: bob')
serial_7=20000000080000000000000007
id_bob=23$(string "$(words bob)")
# under AUTHORITY DIGITS..: a section with the names of certificates.
under() {
  printf 01
  string "$(string "$1")" 00000000 "${@:2}"
}
bytes "$H" "$(under '' $serial_7 "$id_bob")" "$(under "$A" $serial_7 "$id_bob")" \
  "$(section "$A" "$B")" \
  03 "$(string "$(string "$(hashed sha1sum "$A")")" "$(string "$(hashed sha1sum "$B")")")" \
  05 "$(string "$(string "$(hashed sha256sum "$A")")" "$(string "$(hashed sha256sum "$B")")")" \
  >every.krl
bytes "$H" "$(under "$A" $serial_7)" >older.krl
# by [@NAME] REASON..: the reasons of a finding, by their places, and the name of its CA, if the
# texts give it one.
by() {
  local it all='' name=$print_a
  [[ $1 != @* ]] || { name=${1#@} && shift; }
  for it; do
    it=${reasons[it]}
    all+=", by ${it/%of CA/of CA $name}"
  done
  printf %s "${all:2}"
}
# beside NAME LIST REASONS UNNAMED NUMBER..: by the list the certificate is revoked for these
# reasons, these lines of the text follow, and no line gives the unnamed ones. Reasons are places,
# the first ones behind the name of the CA, if it has one.
beside() {
  local name=$1 list=$2 why=$3 unnamed=$4 ca='' wanted
  shift 4
  [[ $why != @* ]] || ca=${why%% *}
  # shellcheck disable=SC2086
  wanted="bob:1: $revoked $(by $why)"$'\n'
  [ $# = 0 ] || wanted+=$(cited text "$@")$'\n'
  # shellcheck disable=SC2086
  [ -z "$unnamed" ] || wanted+="  no line of the texts names it $(by $ca $unnamed)"$'\n'
  expect "$name" 1 "$wanted" "$one_revoked" audit -f "$list" -t text bob
}
all='0 1 2 3 4 5 6 7 8 9'
{ echo "@users: $a" && printf '%s\n' "${entries[@]}"; } >text
beside 'all reasons, and a line for each' every.krl "@users $all" '' {2..11}
beside 'a list that names less than the text' older.krl '@users 6' '' 8
for it in $all; do
  printf '%s\n' "# c" "@users: $a" "${entries[it]}" "$g" '@users serial: 8' >text
  beside "nine reasons that no line gives, but ${reasons[it]}" every.krl "@users $all" \
    "${all/$it/}" 3
  { printf '%s\n' "${entries[@]}" | sed "$((it + 1))d" && echo "$g"; } >rest
  { echo "@users: $a" && cat rest; } >text
  beside "a reason that no line gives: ${reasons[it]}" every.krl "@users $all" "$it" {2..10}
done
: >text
beside 'a text without a line' every.krl "$all" "$all"
beside 'a text without a line, and one reason' older.krl 6 6
printf '# %s\nca: %s\n@users: %s\n' "$b" "$a" "$a" >text
beside 'a text without an entry' every.krl "@users $all" "$all"
printf 'until 1969-12-31 @all serial: 7\nca: %s\nuntil 1969-12-31 serial: 7\n' "$a" >text
beside 'a text that is over' older.krl 6 6
SOURCE_DATE_EPOCH=-1 beside 'a text that is over, by the clock' older.krl 6 6
printf 'ca: %s\nuntil 1970-01-01 serial: 7\n' "$a" >text
beside 'a text on its last day' older.krl 6 '' 2
SOURCE_DATE_EPOCH=86400 beside 'a text on the day after' older.krl 6 6
printf 'ca: %s\nserial: 7\nid: bob\nca: all\nserial: 8\nid: bob\n' "$g" >text
beside 'a text of another CA' older.krl 6 6
beside 'a text of another CA, and reasons of all' every.krl "$all" '0 1 2 3 4 5 6 7 8' 6
# A list is refused for a CA that is no key, and a text beside a list is not.
printf 'ca-blob: eA==\nserial: 7\nca: %s\nserial: 7\n' "$a" >text
beside 'a text of a CA that is no key' older.krl 6 '' 4
expect 'a list of a CA that is no key' 255 '' 'krl: text: a certificate authority in it is no key '\
$'in its one spelling, and sshd may read it otherwise\n' audit -t text bob
expect 'a text through standard input, beside a list' 1 "bob:1: $revoked by serial 7 $of_a
  -:2: serial: 7
" "$one_revoked" audit -f older.krl -t - bob <<<"ca: $a
serial: 7"
expect 'a list through standard input, beside texts' 1 "bob:1: $revoked by serial 7 $of_users
$(cited one.txt 3)
$(cited two.txt 5)
" "$one_revoked" audit -t one.txt -f - -t two.txt bob <older.krl
# shellcheck disable=SC2086
expect 'texts that explain some reasons each' 1 "bob:1: $revoked $(by @users $all)
$(cited one.txt 3 4)
$(cited two.txt 1 5)
  no line of the texts names it $(by 0 1 2 3 4 5 7)
" "$one_revoked" audit -f every.krl -t one.txt -t two.txt bob
echo "$b" >plain
expect 'a plain list' 1 "bob:1: $revoked by its key
$(cited three.txt 1)
" $'krl audit: 1 file, 1 key: 1 revoked in 1 file, 0 unread (plain list)\n' \
  audit -f plain -t one.txt -t three.txt bob
expect 'a plain list that a text does not explain' 1 "bob:1: $revoked by its key
  no line of the texts names it by its key
" $'krl audit: 1 file, 1 key: 1 revoked in 1 file, 0 unread (plain list)\n' \
  audit -f plain -t one.txt bob
# Of each finding the reasons that no line gives: those of another one count for nothing.
signed "$G" "$A" 7 'a "b"' >alice
expect 'two findings, of which one is explained' 1 "bob:1: $revoked $(by $all)
$(cited three.txt 1)
  no line of the texts names it $(by 1 2 3 4 5 6 7 8 9)
alice:1: revoked: ssh-ed25519-cert-v01@openssh.com $(fingerprint "$G") $(by 3 4 5 6 7)
  no line of the texts names it $(by 3 4 5 6 7)
" "krl audit: 2 files, 2 keys: 2 revoked in 2 files, 0 unread $of_list"$'\n' \
  audit -f every.krl -t three.txt bob alice
bytes "$H" "$(under "$A" "23$(string "$(words 'a "b"')")")" >quoted.krl
expect 'a key ID with quotes that no line gives' 1 "alice:1: revoked: \
ssh-ed25519-cert-v01@openssh.com $(fingerprint "$G") by key ID \"a \\\"b\\\"\" $of_a
  no line of the texts names it by key ID \"a \\\"b\\\"\" $of_a
" "$one_revoked" audit -f quoted.krl -t three.txt alice
printf '@users: %s\n@users id: a "b" # "c"\n' "$a" >text
expect 'a key ID with quotes' 1 "alice:1: revoked: \
ssh-ed25519-cert-v01@openssh.com $(fingerprint "$G") by key ID \"a \\\"b\\\"\" $of_users
$(cited text 2)
" "$one_revoked" audit -f quoted.krl -t text alice
signed "$B" "$A" 9 b9 >nine
expect 'many findings that no line gives' 1 "$(
  for ((i = 1; i <= 20; i++)); do
    echo "many:$i: $revoked by its key"
    echo '  no line of the texts names it by its key'
  done)
many: revoked: and 2 more lines are revoked
nine:1: $revoked by its key
  no line of the texts names it by its key
" $'krl audit: 2 files, 23 keys: 23 revoked in 2 files, 0 unread (plain list)\n' \
  audit -f plain -t one.txt many nine
expect 'nothing quietly, beside a list' 1 '' "$one_revoked" audit -q -f every.krl -t one.txt bob
echo "$b" >of_b
expect 'a key that the text names and the list does not' 0 "of_b:1: ok: ssh-ed25519 \
$(fingerprint "$B")
" "krl audit: 1 file, 1 key: 0 revoked in 0 files, 0 unread $of_list"$'\n' \
  audit -a -f older.krl -t three.txt of_b

# The names of CAs. Of the names of a key the first one by its bytes is printed, whichever of them a
# line has.
bytes "$H" "$(under "$A" $serial_7 "$id_bob")" >of_a.krl
while read -r first names <&3; do
  for it in $names; do echo "@$it: $a"; done >text
  number=$(($(grep -c '' text) + 1))
  beside "the names $names" of_a.krl "@$first 6 8" '6 8'
  echo "@$it serial: 7" >>text
  beside "a serial number by the last name of $names" of_a.krl "@$first 6 8" 8 $number
  sed -i "\$s/.*/@${names%% *} id: bob/" text
  beside "a key ID by the first name of $names" of_a.krl "@$first 6 8" 6 $number
  echo '@all serial: 7' >>text
  expect "the list of a text with the names $names" 1 "bob:1: $revoked $(by "@$first" 7 8)
$(cited text $number $((number + 1)))
" "$one_revoked" audit -t text bob
done 3<<ROWS
user-ca user-ca
a a b
a b a
B a B
A b a B A1 A
user user-ca users user
- _ a A 9 0 . -
. _ a A 9 0 .
0 _ a A 9 0
9 a _ A 9
A _ a A
_ a _
user-ca user_ca userCA user.ca user0ca user-ca
SHA256 cert-authority SHA256 serial
ALL all-ca al ALL
$(printf 'x%.0s' {1..63}) $(printf 'x%.0s' {1..64}) $(printf 'x%.0s' {1..63}) y
$(printf 'X%.0s' {1..64}) x $(printf 'X%.0s' {1..64})
ROWS
# Those of all texts count, also where a text of names has no line that explains, or comes last.
echo "@users: $a" >names && echo "@by-name: $a" >more_names
printf 'ca: %s\nserial: 7 # OPS-1\n' "$a" >lines
printf '@hosts: %s\n@hosts serial: 7\n@all id: bobb\n' "$g" >hosts
while IFS='|' read -r name texts <&3; do
  # shellcheck disable=SC2046,SC2086
  expect "the names of the texts $texts" 1 "bob:1: $revoked $(by $name 6)
$(cited lines 2)
" "$one_revoked" audit $(printf -- '-t %s ' $texts) bob
  # shellcheck disable=SC2046,SC2086
  expect "the same beside a list: $texts" 1 "bob:1: $revoked $(by $name 6 8)
$(cited lines 2)
  no line of the texts names it $(by $name 8)
" "$one_revoked" audit $(printf -- '-t %s ' $texts) -f of_a.krl bob
done 3<<'ROWS'
|lines
|lines hosts
|hosts lines
@users|names lines
@users|lines names
@users|names lines names
@users|lines hosts names
@users|hosts names lines
@by-name|more_names lines names
@by-name|names lines more_names
@by-name|lines names hosts more_names
ROWS
expect 'a name through standard input' 1 "bob:1: $revoked $(by @users 6 8)
$(cited lines 2)
  no line of the texts names it $(by @users 8)
" "$one_revoked" audit -t lines -f of_a.krl -t - bob <names
printf '@users: %s\n@users serial: 8\n@users id: bobb\n@all id: Bob\n%s\n' "$a" "$g" >text
beside 'the name of a text that explains nothing' of_a.krl '@users 6 8' '6 8'
printf '@bob: %s\n@hosts: %s\n@hosts serial: 7\n@hosts id: bob\n' "$b" "$g" >text
beside 'the names of the certified key and of another CA' of_a.krl '6 8' '6 8'
printf '@bob: %s\n@hosts: %s\n@all serial: 1-9\n' "$b" "$g" >text
beside 'the names of others, and a reason of all CAs' every.krl "$all" '0 1 2 3 4 5 6 8 9' 3
printf '@users: %s\n@users serial: 7\n' "$a" >text
beside 'the name of a CA, and reasons of all CAs' every.krl "@users $all" '0 1 2 3 4 5 7 8 9' 2
# The name lasts longer than an entry.
printf '%s\n' "@users: $a" 'until 1969-12-31 @users serial: 7' 'until 1970-01-01 @users id: bob' \
  >text
beside 'the name of the CA of a line that is over' of_a.krl '@users 6 8' 6 3
SOURCE_DATE_EPOCH=86400 beside 'the same on the day after' of_a.krl '@users 6 8' '6 8'
# Reasons about a key have no name, and a finding has the fingerprint of its key.
printf '@users: %s\n@bob: %s\n%s\n%s\n' "$a" "$b" "$a" "$b" >text
expect 'reasons about keys that have names' 1 "bob:1: $revoked by its key, by the key of its CA
$(cited text 3 4)
" "$one_revoked" audit -t text bob
echo "$a" >of_a
expect 'a CA that has a name' 1 "of_a:1: revoked: ssh-ed25519 $print_a by its key
  no line of the texts names it by its key
" "${one_revoked/$of_list/(plain list)}" audit -f of_a -t names of_a
expect 'a certificate by its own key, which has a name' 1 "own:1: revoked: \
ssh-ed25519-cert-v01@openssh.com $print_a by serial 7 of CA users
  no line of the texts names it by serial 7 of CA users
" "$one_revoked" audit -f older.krl -t names own
# Each finding has the name of its own CA, or its fingerprint.
signed "$B" "$G" 7 bob >by_g && cat bob by_g bob >both && echo "@of-g: $g" >name_of_g
bytes "$H" "$(under "$A" $serial_7)" "$(under "$G" $serial_7)" >two.krl
# of PLACE CA: a finding that no line explains.
of() {
  printf '%s: %s by serial 7 of CA %s\n' "$1" "$revoked" "$2"
  printf '  no line of the texts names it by serial 7 of CA %s\n' "$2"
}
while read -r name_a name_g texts <&3; do
  # shellcheck disable=SC2046,SC2086
  expect "the names of two CAs by the texts $texts" 1 "$(
    of bob:1 $name_a && of by_g:1 $name_g
    of both:1 $name_a && of both:2 $name_g && of both:3 $name_a)
" "krl audit: 3 files, 5 keys: 5 revoked in 3 files, 0 unread $of_list"$'\n' \
    audit -f two.krl $(printf -- '-t %s ' $texts) bob by_g both
done 3<<ROWS
$print_a $(fingerprint "$G") three.txt
users $(fingerprint "$G") names
$print_a of-g name_of_g
users of-g names name_of_g
users of-g name_of_g names
by-name of-g names name_of_g more_names
ROWS
printf '@users: %s\n@users serial: 1-22\n' "$a" >text
expect 'the name of a CA in many findings' 1 "$(
  for ((i = 1; i <= 20; i++)); do
    echo "many:$i: $revoked by serial $i of CA users"
    cited text 2
  done)
many: revoked: and 2 more lines are revoked
bob:1: $revoked by serial 7 of CA users
$(cited text 2)
" "krl audit: 2 files, 23 keys: 23 revoked in 2 files, 0 unread $of_list"$'\n' \
  audit -t text many bob
# CAs of other kinds, whose certificates OpenSSH signs.
echo "$b me" >b.pub
for it in ecdsa rsa; do
  "$openssh" -q -t $it -N '' -C "of $it" -f ca-$it && "$openssh" -q -s ca-$it -I bob -z 7 b.pub
  printf '@by-%s: %s\n' a "$a" $it "$(<ca-$it.pub)" >text
  echo "@by-$it serial: 7" >>text
  expect "the name of a CA of the kind $it" 1 "b-cert.pub:1: $revoked by serial 7 of CA by-$it: me
$(cited text 3)
" "$one_revoked" audit -t text b-cert.pub
done

# JSON: the lines of each finding, and the reasons that no line gives.
key_b="\"type\":\"ssh-ed25519\",\"fingerprint\":\"$(fingerprint "$B")\""
cert_b="\"type\":\"ssh-ed25519-cert-v01@openssh.com\",\"fingerprint\":\"$(fingerprint "$B")\""
cert_b+=",\"comment\":\"\",\"certificate\":{\"serial\":\"7\",\"id\":\"bob\",\"authority\":\"A\"}"
cert_b=${cert_b/\"A\"/\"$(fingerprint "$A")\"}
# The reasons as objects, by their places.
objects=('{"by":"key"}' '{"by":"sha1"}' '{"by":"sha256"}' '{"by":"authority","of":"key"}'
  '{"by":"authority","of":"sha1"}' '{"by":"authority","of":"sha256"}'
  "{\"by\":\"serial\",\"serial\":\"7\",\"authority\":\"$print_a\"}"
  '{"by":"serial","serial":"7","authority":"all"}'
  "{\"by\":\"id\",\"id\":\"bob\",\"authority\":\"$print_a\"}"
  '{"by":"id","id":"bob","authority":"all"}')
# array_of [@NAME] REASON..: as by.
array_of() {
  local it all='' name=
  [[ ${1:-} != @* ]] || { name=",\"name\":\"${1#@}\"}" && shift; }
  for it; do
    it=${objects[it]}
    [ -z "$name" ] || it=${it/%\"$print_a\"\}/\"$print_a\"$name}
    all+=,$it
  done
  printf '[%s]' "${all:1}"
}
# done_by LIST FILE FILES KEYS REVOKED UNREAD: the last object, where the bytes of the list are
# those of the file.
done_by() {
  printf '{"status":"done","files":%d,"keys":%d,"revoked":%d,"unread":%d,' "${@:3}"
  printf '"skipped":0,"excluded":0,"elsewhere":0,"same":0,"list":{"file":"%s","version":"1",' "$1"
  printf '"generated":"1970-01-01T00:00:00Z","sha256":"%s"}}' "$(sha256sum "$2" | cut -d ' ' -f 1)"
}
bytes "$H" "$(section "$B")" >of_b.krl
expect_objects 'an object of a certificate, by the list of a text' 1 \
  "{\"file\":\"bob\",\"line\":1,\"status\":\"revoked\",$cert_b,\"reasons\":$(array_of 0),\
\"entries\":[{\"file\":\"three.txt\",\"line\":1,\"text\":\"key: $b\"}],\"unnamed\":[]}
$(done_by three.txt of_b.krl 1 1 1 0)" -t three.txt bob
entry="{\"file\":\"three.txt\",\"line\":1,\"text\":\"key: $b\"}"
judge 'where the lines are in the object' "$(differs 'its end' \
  "\"reasons\":$(array_of 0),\"entries\":[$entry],\"unnamed\":[]}" \
  "$(sed -n '1s/.*\("reasons".*\)/\1/p' "$scratch/output")")"
expect_objects 'an object of several texts, beside a list' 1 \
  "{\"file\":\"bob\",\"line\":1,\"status\":\"revoked\",$cert_b,\"reasons\":$(array_of @users $all),\
\"entries\":[{\"file\":\"one.txt\",\"line\":3,\"text\":\"@users serial: 1-9 # one\"},\
{\"file\":\"one.txt\",\"line\":4,\"text\":\"@all id: bob\"},\
{\"file\":\"two.txt\",\"line\":1,\"text\":\"@users id: bob\"},\
{\"file\":\"two.txt\",\"line\":5,\"text\":\"@users serial: 7 # two\"}],\
\"unnamed\":$(array_of 0 1 2 3 4 5 7)}
$(done_by every.krl every.krl 1 1 1 0)" -f every.krl -t one.txt -t two.txt bob
: >empty.txt
expect_objects 'an object that no line explains' 1 \
  "{\"file\":\"bob\",\"line\":1,\"status\":\"revoked\",$cert_b,\"reasons\":$(array_of $all),\
\"entries\":[],\"unnamed\":$(array_of $all)}
$(done_by every.krl every.krl 1 1 1 0)" -f every.krl -t empty.txt bob
expect_objects 'objects of keys that are not revoked, of others and of no key' 1 \
  "{\"file\":\"keys\",\"line\":1,\"status\":\"ok\",\"type\":\"ssh-ed25519\",\
\"fingerprint\":\"$(fingerprint "$G")\",\"comment\":\"\",\"reasons\":[],\"entries\":[],\
\"unnamed\":[]}
{\"file\":\"keys\",\"line\":2,\"status\":\"revoked\",$key_b,\"comment\":\"me\",\
\"reasons\":$(array_of 0),\"entries\":[{\"file\":\"three.txt\",\"line\":1,\"text\":\"key: $b\"}],\
\"unnamed\":[]}
{\"file\":\"keys\",\"line\":3,\"status\":\"unread\",\"fault\":\"line 1 NoKey\",\
\"why\":\"no key type stands there\"}
$(done_by three.txt of_b.krl 1 2 1 1)" -a -t three.txt keys
expect_objects 'an object of a key that the text names and the list does not' 0 \
  "{\"file\":\"of_b\",\"line\":1,\"status\":\"ok\",$key_b,\"comment\":\"\",\"reasons\":[],\
\"entries\":[],\"unnamed\":[]}
$(done_by older.krl older.krl 1 1 0 0)" -a -f older.krl -t three.txt of_b
printf '%s # "\\ \t\033[m\x7f \xc3\xa9 \xe2\x80\xa8 \r\n' "$b" >$'\e.txt'
expect_objects 'control characters of a line and of the name of its text' 1 \
  "{\"file\":\"bob\",\"line\":1,\"status\":\"revoked\",$cert_b,\"reasons\":$(array_of 0),\
\"entries\":[{\"file\":\"\\u001b.txt\",\"line\":1,\
\"text\":\"$b # \\\"\\\\ \\t\\u001b[m\\u007f \\u00e9 \\u2028 \\r\"}],\"unnamed\":[]}
$(done_by '\u001b.txt' of_b.krl 1 1 1 0)" -t $'\e.txt' bob
judge 'a terminal is sent none of them' "$(
  for it in $'\e' $'\x7f' $'\u2028' $'\r' $'\t'; do
    asks 1 grep -nF "$it" "$scratch/output"
  done)"
printf '%s # \xff\n' "$b" >high
expect_objects 'a line that is not UTF-8' 1 \
  "{\"file\":\"bob\",\"line\":1,\"status\":\"revoked\",$cert_b,\"reasons\":$(array_of 0),\
\"entries\":[{\"file\":\"high\",\"line\":1,\"text_base64\":\"$(printf '%s # \xff' "$b" |
  base64 -w0)\"}],\"unnamed\":[]}
$(done_by high of_b.krl 1 1 1 0)" -t high bob
expect_objects 'a text through standard input' 1 \
  "{\"file\":\"bob\",\"line\":1,\"status\":\"revoked\",$cert_b,\"reasons\":$(array_of 0),\
\"entries\":[{\"file\":\"-\",\"line\":2,\"text\":\"$b\"}],\"unnamed\":[]}
$(done_by - of_b.krl 1 1 1 0)" -t - bob < <(printf '# c\n%s\n' "$b")
yes "$b" | head -n 21 >keys_of_b
expect_objects 'at most 20 objects with lines' 1 "$(
  for ((i = 1; i <= 20; i++)); do
    echo "{\"file\":\"keys_of_b\",\"line\":$i,\"status\":\"revoked\",$key_b,\"comment\":\"\",\
\"reasons\":$(array_of 0),\"entries\":[{\"file\":\"three.txt\",\"line\":1,\"text\":\"key: $b\"}],\
\"unnamed\":[]}"
  done)
{\"file\":\"keys_of_b\",\"status\":\"revoked\",\"count\":1}
$(done_by three.txt of_b.krl 1 21 21 0)" -t three.txt keys_of_b

# The object of a reason has the name of the CA behind its fingerprint. That of the certificate has
# none.
# named NAME REASONS UNNAMED ENTRIES WORD..: the object of the certificate by the list of_a.krl and
# the texts that the words name. The entries are objects.
named() {
  # shellcheck disable=SC2086
  expect_objects "$1" 1 "{\"file\":\"bob\",\"line\":1,\"status\":\"revoked\",$cert_b,\
\"reasons\":$(array_of $2),\"entries\":[$4],\"unnamed\":$(array_of $3)}
$(done_by of_a.krl of_a.krl 1 1 1 0)" -f of_a.krl "${@:5}" bob
}
# entry_of TEXT NUMBER: the object of a line of a text.
entry_of() {
  printf '{"file":"%s","line":%d,"text":"%s"}' "$1" "$2" "$(sed -n "${2}p" "$1")"
}
named 'an object with the name of a CA' '@users 6 8' '@users 6 8' '' -t names
reasons_of_a="[{\"by\":\"serial\",\"serial\":\"7\",\"authority\":\"$print_a\",\"name\":\"users\"},\
{\"by\":\"id\",\"id\":\"bob\",\"authority\":\"$print_a\",\"name\":\"users\"}]"
judge 'where the name is in the object' "$(differs 'its end' \
  "$print_a\"},\"reasons\":$reasons_of_a,\"entries\":[],\"unnamed\":$reasons_of_a}" \
  "$(sed -n '1s/.*"authority":"\(.*"reasons".*\)/\1/p' "$scratch/output")")"
printf '@users: %s\n@users serial: 7\n@users id: bob\n' "$a" >text
named 'a name, and a line for each reason' '@users 6 8' '' \
  "$(entry_of text 2),$(entry_of text 3)" -t text
named 'a name of the last text' '@users 6 8' '@users 8' "$(entry_of lines 2)" -t lines -t names
named 'the first of two names by its bytes' '@by-name 6 8' '@by-name 6 8' '' \
  -t names -t more_names
named 'the name of another CA' '6 8' '6 8' '' -t hosts
named 'no name' '6 8' '8' "$(entry_of lines 2)" -t lines
printf '%s\n' "@users: $a" 'until 1969-12-31 @users serial: 7' '@users id: bobb' >text
named 'the name of the CA of a line that is over' '@users 6 8' '@users 6 8' '' -t text
# shellcheck disable=SC2086
expect_objects 'a name, and reasons of all CAs and of keys' 1 \
  "{\"file\":\"bob\",\"line\":1,\"status\":\"revoked\",$cert_b,\"reasons\":$(array_of @users $all),\
\"entries\":[],\"unnamed\":$(array_of @users $all)}
$(done_by every.krl every.krl 1 1 1 0)" -f every.krl -t names bob
reason_of_g=${objects[6]/"$print_a"/"$(fingerprint "$G")"}
expect_objects 'a CA with a name and one without' 1 \
  "{\"file\":\"by_g\",\"line\":1,\"status\":\"revoked\",${cert_b/"$print_a"/"$(fingerprint "$G")"},\
\"reasons\":[$reason_of_g],\"entries\":[],\"unnamed\":[$reason_of_g]}
{\"file\":\"bob\",\"line\":1,\"status\":\"revoked\",$cert_b,\"reasons\":$(array_of @users 6),\
\"entries\":[],\"unnamed\":$(array_of @users 6)}
$(done_by two.krl two.krl 2 2 2 0)" -f two.krl -t names by_g bob
signed "$B" "$A" 7 $'\xff"' >odd && bytes "$H" "$(under "$A" "23$(string "$(words $'\xff"')")")" \
  >odd.krl
of_odd="[{\"by\":\"id\",\"id_base64\":\"/yI=\",\"authority\":\"$print_a\",\"name\":\"users\"}]"
expect_objects 'a name behind a key ID that is not UTF-8' 1 \
  "{\"file\":\"odd\",\"line\":1,\"status\":\"revoked\",\
${cert_b/'"id":"bob"'/'"id_base64":"/yI="'},\"reasons\":$of_odd,\"entries\":[],\"unnamed\":$of_odd}
$(done_by odd.krl odd.krl 1 1 1 0)" -f odd.krl -t names odd

# The list of texts is the one that krl make makes of them: the findings are the same, but for the
# names of CAs, which a list does not have.
signed "$G" "$G" 300 g >of_g && signed "$A" "$G" 7 bob me >of_a_by_g
cp bob of_g of_a_by_g home/none
for words in one.txt three.txt 'one.txt two.txt three.txt' 'three.txt one.txt two.txt'; do
  # shellcheck disable=SC2086
  "$program" make -q --replace -f made.krl $words
  for how in '' --json; do
    # shellcheck disable=SC2086
    run audit -a --all $how -f made.krl home many keys gone
    cp "$scratch/output" by_list && cp "$scratch/error" said
    # shellcheck disable=SC2086
    run audit -a --all $how $(printf -- '-t %s ' $words) home many keys gone
    judge "the findings by the list of the texts $words${how:+, as objects}" "$(
      differs 'exit status' 1 "$got_status"
      asks 0 cmp said "$scratch/error"
      sed -e '/^  /d' -e 's/,"entries":.*}$/}/' \
        -e "s|of CA users|$of_a|g; s|of CA hosts|of CA $(fingerprint "$G")|g" \
        -e 's/,"name":"\(users\|hosts\)"//g' \
        -e 's/"list":{"file":"[^"]*"/"list":{"file":"made.krl"/' "$scratch/output" >by_texts
      asks 0 diff by_list by_texts
      [ "$(wc -l <by_list)" -gt 20 ] || echo '  there are too few'
      asks 0 grep -q -e '^  [^ ]*:[0-9]*: ' -e '"entries":\[{' "$scratch/output"
    )"
  done
done

# The day is that of the environment, or otherwise of the clock. It may pass midnight meanwhile.
for date in unset '' x; do
  for _ in 1 2 3; do
    today=$(date -u +%F)
    for at in -1 0 1; do
      printf 'until %s @all serial: %d-7\n' "$(date -u -d "$today $at day" +%F)" $((at + 6))
    done >text
    said=$(
      export SOURCE_DATE_EPOCH=$date
      [ "$date" != unset ] || unset SOURCE_DATE_EPOCH
      "$program" audit -t text bob 2>/dev/null
    )
    [ "$today" != "$(date -u +%F)" ] || break
  done
  judge "yesterday, today and tomorrow, where SOURCE_DATE_EPOCH is '$date'" "$(
    differs 'what is said' "bob:1: $revoked by serial 7 of all CAs
$(cited text 2 3)" "$said"
  )"
done
SOURCE_DATE_EPOCH=1794744000 expect 'the date of the list of texts' 1 "bob:1: $revoked by its key
$(cited three.txt 1)
" "${one_revoked/1970-01-01T00:00:00Z/2026-11-15T12:00:00Z}" audit -t three.txt bob

# Canaries, by the list of texts too.
echo "$g" >of_g.pub
unmet='it must have a key and no line that is unread, and the list must revoke each of its keys'
unmet+=$' [audit 1 Canary]\n'
echo "$a" >keys_of_a && printf '%s\n%s of a\n' "$b" "$a" >text
expect 'a canary that the texts revoke' 1 "keys_of_a:1: revoked: ssh-ed25519 $(fingerprint "$A") \
by its key
$(cited text 2)
" "$one_revoked" audit -t text --canary of_b keys_of_a
expect 'a canary that the texts do not revoke' 255 '' "krl: of_g.pub: $unmet" \
  audit -t text --canary of_b --canary of_g.pub keys_of_a
expect 'a canary is no finding, and no line explains it' 0 '' \
  "krl audit: 1 file, 1 key: 0 revoked in 0 files, 0 unread $of_list"$'\n' \
  audit -t text --canary of_b of_b
expect 'a canary of a list, beside texts' 255 '' "krl: of_b: $unmet" \
  audit -f older.krl -t three.txt --canary of_b bob

# Texts that are refused, in the words of krl make, before anything is audited.
# refuses NAME FAULT TEXT..: the texts are refused with a list and without one.
refuses() {
  local name=$1 fault=$2 words=() it
  shift 2
  for it; do words+=(-t "$it"); done
  expect "$name" 255 '' "krl: $fault"$'\n' audit "${words[@]}" bob
  expect "$name, beside a list" 255 '' "krl: $fault"$'\n' audit "${words[@]}" -f every.krl bob
  run make -q --replace -f made.krl "$@"
  judge "$name, as by krl make" "$(differs 'standard error' "krl: $fault"$'\n' "$got_error")"
}
no_ca='no CA is given: by @NAME before the word, or by a ca: line with no key or hash between '
no_ca+='[text 1 Spec, spec 4 NoAuthority]'
printf '%s\nserial: 0\nid-hex: 6\n' "ca: $a" >wrong
printf 'serial: 7\n' >bare
printf 'ca: %s\nid: a\n' "$a" >ends
printf '@users: %s\n@users id: a\n' "$g" >other
printf 'ca: all\nserial: 5 # until 2026-02-30\n' >dated
zero='wrong: line 2: serial number 0 names no certificate [text 1 Spec, spec 2 Zero]'
refuses 'a wrong line' "$zero" wrong
refuses 'a wrong line behind a right text' "$zero" one.txt wrong
refuses 'the first of two wrong texts' "$zero" wrong bare
refuses 'a wrong text before one that is missing' "$zero" wrong gone
missing='gone: No such file or directory [file 1 Open]'
refuses 'a text that is missing' "$missing" gone
refuses 'a text that is missing before a wrong one' "$missing" one.txt gone wrong
refuses 'a folder for a text' 'folder: it is a directory [krl 13 Read]' folder
refuses 'a CA of the text before' "bare: line 1: $no_ca" ends bare
no_name='two.txt: line 1: no CA is named "users" above'
refuses 'a name of a later text' \
  "$no_name: did you mean \"users\" (one.txt, line 2)? [text 16 UnknownName]" two.txt one.txt
refuses 'a name that no text gives' "$no_name [text 16 UnknownName]" three.txt two.txt
refuses 'a name with another key' \
  'other: line 1: the name "users" has another key: one.txt, line 2 [text 15 OtherKey]' \
  one.txt other
refuses 'a day in a comment' 'dated: line 2: a day in a comment ends nothing: begin the line with '\
'until YYYY-MM-DD [text 20 DateInComment]' three.txt dated
printf 'until 1969-12-31 @all serial: 0\n' >over
refuses 'a wrong line that is over' \
  'over: line 1: serial number 0 names no certificate [text 1 Spec, spec 2 Zero]' over
truncate -s 67108865 too_long
run make -q --replace -f made.krl too_long
expect 'a text of more than 64 MiB' 255 '' "$got_error" audit -t too_long bob
judge 'it is reported as too long' \
  "$([[ $got_error == *'[krl 12 TooLong]'* ]] || echo "  $got_error")"
expect 'the same beside a list' 255 '' "$got_error" audit -f every.krl -t too_long bob
rm too_long
expect 'a wrong text through standard input' 255 '' "krl: -: line 1: $no_ca"$'\n' \
  audit -t ends -t - bob <bare
cp bare $'\e.bare'
expect 'a wrong text of a name that moves the terminal' 255 '' \
  "krl: \\x1b.bare: line 1: $no_ca"$'\n' audit -t $'\e.bare' bob
expect 'a list that is none beside a text' 255 '' \
  $'krl: keys: line 3: no key type stands there [line 1 NoKey]\n' audit -f keys -t three.txt bob
# A list needs an entry that is not over, and each text of it one but for a comment or a CA.
no_entry=$'it has no entry, which --allow-empty allows [make 2 NoEntry]\n'
empty=$'the list would revoke nobody: no text has an entry, or each is over [make 1 Empty]\n'
printf '# c\nca: all\n' >none
printf 'until 1969-12-31 @all serial: 7\n' >over
# lacks NAME FAULT TEXT..: no list is made of the texts, and beside a list they explain nothing.
lacks() {
  local name=$1 fault=$2 words=() it
  shift 2
  for it; do words+=(-t "$it"); done
  expect "$name" 255 '' "krl: $fault" audit "${words[@]}" bob </dev/null
  expect "$name, beside a list" 1 "bob:1: $revoked $(by 6)
  no line of the texts names it $(by 6)
" "$one_revoked" audit "${words[@]}" -f older.krl bob </dev/null
}
lacks 'a text without a line' "empty.txt: $no_entry" empty.txt
lacks 'a text without an entry' "none: $empty" none
lacks 'a text that is over' "over: $empty" over
lacks 'the first of two' "none: $empty" none over
lacks 'a text without a line behind another one' "empty.txt: $no_entry" of_g.pub empty.txt
lacks 'nothing through standard input' "-: $no_entry" -
lacks 'no device' "/dev/null: $no_entry" /dev/null
expect 'a text without an entry beside another one' 1 "bob:1: $revoked by its key
$(cited three.txt 1)
" "$one_revoked" audit -t none -t three.txt -t over bob

# Words. Standard input can be read once.
usage='Usage: krl audit [-f <krl>] [-t <text>] [-aqx] [--all] [--scan] [--canary <file>] '
usage+='[--exclude <name>] [--json] [--label <text>] [--files0-from <file>] [--sshd <file>] '
usage+='[--passwd <file>] [--command-output <file>] [file|directory]...'
# misused NAME WHY USAGE WORD..: the words are refused for this reason, with the form of use or with
# none.
misused() {
  run audit "${@:4}"
  judge "$1" "$(
    differs 'exit status' 2 "$got_status"
    differs 'standard output' '' "$got_output"
    differs 'the first line' "error: $2" "${got_error%%$'\n'*}"
    [[ -z $3 || $got_error == *$'\n'"$3"$'\n'* ]] || printf '  it says %q\n' "$got_error"
  )"
}
misused 'neither a list nor a text' '-f or -t is needed' '' bob
misused 'no list, and other options' '-f or -t is needed' '' -a --json --canary of_b bob
misused 'nothing to audit by a text' \
  'a file, a directory, --files0-from or --sshd is needed' "$usage" -t three.txt
once='standard input (-) can be read for one file only'
for words in '-t - -' '-t - -t - bob' '-t - -t three.txt -t - bob' '-f - -t - bob' '-t - -f - bob' \
  '-f every.krl -t - -' '-t - --files0-from -' '-t three.txt --files0-from - -' \
  '-t - --canary - bob' '-t three.txt --canary - -' '-f - -t three.txt - bob'; do
  # shellcheck disable=SC2086
  misused "standard input named twice: audit $words" "$once" '' $words <one.txt
done
expect_text 'a text that is not given' 2 error audit bob -t
expect_text 'two lists beside a text' 2 error audit -f every.krl -f older.krl -t three.txt bob
for words in 'make -f made.krl -t three.txt' 'check -t three.txt every.krl' \
  'show -t three.txt every.krl'; do
  # shellcheck disable=SC2086
  expect_text "a text of no audit: $words" 2 error $words
done
for it in /dev/full closed; do
  if [ $it = closed ]; then
    "$program" audit -t three.txt bob >&- 2>"$scratch/error"
  else
    "$program" audit -t three.txt bob >$it 2>"$scratch/error"
  fi
  judge "an output that is $it" "$(differs status 255 $?
    differs 'standard error' 'krl: output: it takes no more bytes [output 1 Write after 0 bytes]' \
      "$(cat "$scratch/error")")"
done

# At a terminal the finding is in colour, and no line that explains it, whatever words it has.
setting=()
printf '%s\n' "@users: $a" $'@users serial: 7 # : revoked: \e[31mred\e[0m' '@all id: bob # : ok: ' \
  >$'\e[7mtext'
colours="bob:1: $revoked by serial 7 $of_users, by key ID \"bob\" of all CAs"
explained='  \x1b[7mtext:2: @users serial: 7 # : revoked: \x1b[31mred\x1b[0m
  \x1b[7mtext:3: @all id: bob # : ok: '
expect_terminal 'colours of a finding, and none of the lines that explain it' 1 1 \
  "$(painted "$colours")
$explained" "${one_revoked%$'\n'}" audit -t $'\e[7mtext' bob
# shellcheck disable=SC2086
colours="bob:1: $revoked $(by @users $all)"
explained+="
  no line of the texts names it $(by @users 0 1 2 3 4 5 7 8)"
expect_terminal 'no colour of the reasons that no line gives' 12 1 "$(painted "$colours")
$explained
${one_revoked%$'\n'}" '' audit -f every.krl -t $'\e[7mtext' bob
# No name of a CA is in colour, whatever it is.
signed "$B" "$A" 7 bob ': revoked: me' >coloured
for it in revoked ok unread; do
  echo "@$it: $a" >text
  expect_terminal "no colour of a CA with the name $it" 1 1 \
    "$(painted "coloured:1: $revoked $(by @$it 6 8): : revoked: me")
  no line of the texts names it $(by @$it 6 8)" "${one_revoked%$'\n'}" \
    audit -f of_a.krl -t text coloured
done
setting=(NO_COLOR=1)
expect_terminal 'no colour with NO_COLOR' 1 1 "$colours
$explained" "${one_revoked%$'\n'}" audit -f every.krl -t $'\e[7mtext' bob
