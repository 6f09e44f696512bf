# krl logins: each kind of line, of list and of file, the names of CAs, statuses, options, and
# outputs that fail.

keygen=$program
program=$krl
export SOURCE_DATE_EPOCH=0
g=$(line ssh-ed25519 "$G") a=$(line ssh-ed25519 "$A") b=$(line ssh-ed25519 "$B")
print_g=$(fingerprint "$G") print_a=$(fingerprint "$A") print_b=$(fingerprint "$B")
of_list='(list version 1, 1970-01-01T00:00:00Z)'

# by_key PRINT [USER]: the message of a login by a plain key.
by_key() {
  printf 'Accepted publickey for %s from 10.0.0.1 port 4242 ssh2: ED25519 %s' "${2-root}" "$1"
}
# by_cert [ID SERIAL CA]: that of a login by a certificate of B. The CA is given by its fingerprint.
by_cert() {
  by_key "$print_b" | sed 's/ED25519/&-CERT/'
  printf ' ID %s (serial %s) CA ED25519 %s' "${1-bob}" "${2-7}" "${3-$print_a}"
}
# list_of NAME TEXT: makes the list of a text.
list_of() {
  printf '%b\n' "$2" | "$program" make -q --replace -z 1 -f "$1" -
}
list_of r.krl "$g\nca: $a\nserial: 7"
from='root from 10.0.0.1'
by_g="revoked: ED25519 $print_g by its key: $from"
revoked="revoked: ED25519-CERT $print_b by"
by_7="$revoked serial 7 of CA $print_a: $from"
ok_cert="ok: ED25519-CERT $print_b: $from"
echo "$(by_key "$print_g")" >key
echo "$(by_key "$print_b")" >fine
echo "$(by_cert)" >bob

# logins NAME STATUS COUNTS OUTPUT WORD..: a run by the list r.krl, whose summary has these counts.
logins() {
  local name=$1 status=$2 counts=$3 output=$4
  shift 4
  expect "$name" "$status" "${output:+$output$'\n'}" "krl logins: $counts $of_list"$'\n' \
    logins -f r.krl "$@"
}
# says NAME LINE FINDING: the finding about the line, as line 2 of a log, with -a.
says() {
  local counts='1 login: 0 revoked, 0 unread' status=0
  case $3 in
    revoked:*) counts='2 logins: 1 revoked, 0 unread' status=1 ;;
    unread:*) counts='1 login: 0 revoked, 1 unread' status=3 ;;
    ok:*) counts='2 logins: 0 revoked, 0 unread' ;;
  esac
  printf '%s\n' 'Server listening on :: port 22.' "$2" "$(by_key "$print_a")" >log
  logins "$1" $status "1 file, $counts" \
    "${3:+log:2: $3$'\n'}log:3: ok: ED25519 $print_a: $from" -a log
}
cut='unread: the line of a login is cut' malformed='unread: the line of a login is malformed'
host='unread: a login by the key of a host is not looked at'

# Logins, and lines that are none.
says 'a plain key' "$(by_key "$print_g")" "$by_g"
says 'a certificate' "$(by_cert)" "$by_7 (ID bob)"
says 'a key that is not revoked' "$(by_key "$print_b")" "ok: ED25519 $print_b: $from"
says 'a certificate that is not revoked' "$(by_cert bob 8)" "$ok_cert (ID bob)"
says 'a carriage return' "$(by_key "$print_g")"$'\r' "$by_g"
says 'a count of signatures' "$(by_key "$print_g"), signature count = 12" "$by_g"
says 'one behind a certificate, and a carriage return' "$(by_cert), signature count = 0"$'\r' \
  "$by_7 (ID bob)"
says 'a step of several' "$(by_key "$print_g" | sed 's/Accepted/Partial/')" "$by_g"
says 'the key of a host' "$(by_key "$print_g" | sed 's/publickey/hostbased/')" "$host"
says 'the first words about the key of a host' 'Accepted hostbased for ' "$host"
for it in ED25519-SK RSA ECDSA-SK 3-D; do
  says "a key of the kind $it" "$(by_key "$print_g" | sed "s/ED25519/$it/")" "${by_g/ED25519/$it}"
done
while IFS= read -r it <&3; do
  says "no login: $it" "$it" ''
done 3<<ROWS
Invalid user Accepted publickey for x from 1.2.3.4 port 1 ssh2 from 127.0.0.1 port 44888
Accepted password for root from 10.0.0.1 port 4242 ssh2
Accepted key ED25519 $print_g found at /root/.ssh/authorized_keys:1
Postponed publickey for root from 10.0.0.1 port 4242 ssh2: ED25519 $print_g
Authentication key ED25519 $print_g revoked by file /etc/ssh/revoked
auth.c:auth_log():298 (pid=1055): $(by_key "$print_g")
 $(by_key "$print_g")
$(by_key "$print_g" | sed 's/A/a/')
$(by_key "$print_g" | sed 's/ for/  for/')
Partial hostbased for root
ROWS
while IFS= read -r it <&3; do
  says "malformed: $it" "$it" "$malformed"
done 3<<ROWS
Partial publickey for x
$(by_key "$print_g" 'two words')
$(by_key "$print_g" '')
$(by_key "$print_g" | sed 's/10.0.0.1//')
$(by_key "$print_g" | sed 's/4242/x/')
$(by_key "$print_g" | sed 's/ssh2/ssh1/')
$(by_key "$print_g" | sed 's/ED25519/ed25519/')
$(by_key "${print_g%?}")
$(by_key "${print_g}A")
$(by_key "${print_g%?}B")
$(by_key "$(fingerprint "$G" md5)")
$(by_cert bob 7 "$(fingerprint "$A" md5)")
$(by_key "$print_g") [preauth]
$(by_key "$print_g"), signature count = x
$(by_cert) x
$(by_cert bob '')
$(by_cert bob -1)
$(by_cert bob 18446744073709551616)
$(by_cert bob 18446744073709551623)
$(by_cert bob 7 "$print_a (serial 7) CA ED25519")
$(by_cert | sed 's/ (serial.*//')
$(by_cert '\')
$(by_cert 'a\')
$(by_cert '\x41')
$(by_cert '\18')
$(by_cert '\400')
$(by_cert '\M-a')
ROWS
for it in ' ' $'\r\r' ', signature count = '; do
  says "malformed: $(printf %q "$it") at the end" "$(by_key "$print_g")$it" "$malformed"
done
says 'malformed: the first words' 'Accepted publickey for ' "$malformed"

# Messages of the sizes at which syslog and sshd cut them. letters COUNT: as many of them.
letters() {
  printf "%$1s" '' | tr ' ' p
}
empty_id=$(by_cert '' 8)
for end in '' $'\r'; do
  for size in 499 500 501 502 1020 1021 1022 5000; do
    id=$(letters $((size - ${#empty_id} - ${#end})))
    wanted="$ok_cert (ID $id)"
    case $size in 500 | 501 | 1021 | 1022 | 5000) wanted=$cut ;; esac
    says "a message of $size bytes${end:+ with a carriage return}" "$(by_cert "$id" 8)$end" \
      "$wanted"
  done
done
# The group of another CA ends where the message is cut.
for size in 500 1021; do
  it=$(by_cert "$(letters $((size - ${#empty_id}))) (serial 8) CA ED25519 $print_b")
  says "a message that is cut at $size bytes behind a false group" "${it:0:size}" "$cut"
  it=$(by_key "$print_g" "$(letters $size)")
  says "one that is cut there in the name of a user" "${it:0:size}" "$cut"
  says "another message of this size" "$(letters $size)" ''
done
id=$(letters 290)
says 'the prefix does not count' "Nov 29 06:07:06 host sshd[812]: $(by_cert "$id")" "$by_7 (ID $id)"

# Prefixes, which end before the bar, and the fields of objects.
object='"status":"revoked","type":"ED25519-CERT","fingerprint":"'$print_b'","user":"root",'
object+='"from":"10.0.0.1"'
names='"step":"accepted","certificate":{"serial":"7","id":"bob","authority":"'$print_a'"},'
names+='"reasons":[{"by":"serial","serial":"7","authority":"'$print_a'"}]}'
done_of() {
  printf '{"status":"done","files":%d,"logins":%d,"revoked":%d,"unread":%d,' "$@"
  printf '"list":{"file":"r.krl","version":"1","generated":"1970-01-01T00:00:00Z","sha256":"%s"}}' \
    "$(sha256sum r.krl | cut -d ' ' -f 1)"
}
while IFS='|' read -r prefix _ <&3; do
  printf '%s%s\n' "$prefix" "$(by_cert)" >log
  logins "the prefix '$prefix'" 1 '1 file, 1 login: 1 revoked, 0 unread' \
    "{\"file\":\"log\",\"line\":1,$object${prefix:+,\"time\":\"$prefix\"},$names
$(done_of 1 1 1 0)" --json log
done 3<<'ROWS'
|
Nov 29 06:07:06 host sshd[812]: |
2026-11-29T06:07:06.123456+00:00 host sshd[812]: |
2026-11-29T06:07:06+0100 host sshd-session[4194304]: |
Nov 29 06:07:06.918467 höst sshd-session[1]: |
Mon 2026-11-30 18:27:50 UTC a sshd[1]: |
[ 1232.642834] a sshd[1]: |
sshd[1]: |
  sshd[1]: |
host xsshd[1]: sshd[2]: |
ROWS
while IFS='|' read -r prefix _ <&3; do
  says "no prefix: '$prefix'" "$prefix$(by_cert)" ''
done 3<<'ROWS'
Nov 29 06:07:06 host |
Nov 29 06:07:06 host xsshd[1]: |
Nov 29 06:07:06 host sshd[]: |
Nov 29 06:07:06 host sshd[x]: |
Nov 29 06:07:06 host sshd[1] |
Nov 29 06:07:06 host sshd[1]:|
Nov 29 06:07:06 host sshd-auth[1]: |
Nov 29 06:07:06 host sshd[1]: sshd[2]: |
Nov 29 06:07:06 host sshd[1]: Invalid user sshd[2]: |
Nov 29 06:07:06 host SSHD[1]: |
ROWS
says 'a tag in the key ID' "$(by_cert 'sshd[1]: x')" "$by_7 (ID sshd[1]: x)"
says 'a login in the key ID' "$(by_cert "sshd[1]: $(by_key "$print_b")")" \
  "$by_7 (ID sshd[1]: $(by_key "$print_b"))"
says 'a login in another message without prefix' \
  "Received disconnect from 10.0.0.1 port 4:11: sshd[1]: $(by_key "$print_g") x" "$malformed"

# Key IDs: as they are in the log, their bytes, by which the list has them, and how they are shown,
# alone and between quotes.
while IFS='|' read -r logged bytes shown quoted <&3; do
  list_of ids.krl "ca: $b\nserial: 7\nid-hex: $bytes\nca: $a\nid-hex: 7a$bytes\nid-hex: $bytes"
  echo "$(by_cert "$logged")" >log
  expect "the key ID '$logged'" 1 "log:1: $revoked key ID \"${quoted:-$shown}\" of CA $print_a: \
$from (ID $shown)
" "krl logins: 1 file, 1 login: 1 revoked, 0 unread $of_list"$'\n' logins -f ids.krl log
done 3<<'ROWS'
bob|626f62|bob
a\\b|615c62|a\b|a\\b
\\|5c|\|\\
\\101|5c313031|\101|\\101
\101\060|4130|A0
b\303\274rger|62c3bc72676572|bürger
bürger|62c3bc72676572|bürger
a\tb\nc|6109620a63|a\x09b\x0ac
a	b|610962|a\x09b
\r\a\b\v\f\033[31m\177|0d07080b0c1b5b33316d7f|\x0d\x07\x08\x0b\x0c\x1b[31m\x7f
\302\233|c29b|\x9b
a\342\200\256b|61e280ae62|a\xe2\x80\xaeb
\377a\200|ff6180|\xffa\x80
  a b  |20206120622020|  a b  
"a"|226122|"a"|\"a\"
a)b(c|6129622863|a)b(c
(serial 7)|2873657269616c203729|(serial 7)
, signature count = 5|2c207369676e617475726520636f756e74203d2035|, signature count = 5
ROWS
# The last group is that of the certificate.
says 'a group in the key ID' "$(by_cert "x (serial 8) CA ED25519 $print_b")" \
  "$by_7 (ID x (serial 8) CA ED25519 $print_b)"
says 'a group in the key ID that the list names' "$(by_cert "x (serial 7) CA ED25519 $print_a" 8)" \
  "$ok_cert (ID x (serial 7) CA ED25519 $print_a)"
says 'a key ID without a byte' "$(by_cert '')" "$by_7 (ID )"
says 'a key ID with a zero byte' "$(by_cert 'a\000b')" "$by_7 (ID a\\x00b)"
# Names of users and addresses are shown as they are, but for control characters.
while IFS='|' read -r user shown <&3; do
  says "the user $shown" "$(by_key "$print_g" "$(printf %b "$user")")" \
    "${by_g/root/"$shown"}"
done 3<<'ROWS'
sshd[1]:|sshd[1]:
b\\303\\274|b\303\274
a\tb\x1b[31m\r|a\x09b\x1b[31m\x0d
b\xc3\xbcrger|bürger
\xc2\x9b1m|\x9b1m
\xff\xc3\xbc|\xff\xc3\xbc
x\xe2\x80\xae|x\xe2\x80\xae
"from"|"from"
ROWS
for it in ::1 fe80::1%eth0 UNKNOWN host.example; do
  says "the address $it" "$(by_key "$print_g" | sed "s/10.0.0.1/$it/")" "${by_g/10.0.0.1/$it}"
done
printf '\xff sshd[1]: %s\n' "$(by_key "$print_g" $'\xfe' | LC_ALL=C sed $'s/10.0.0.1/\xfd/')" \
  "$(by_cert 'a "\377"\\' | sed 's/Accepted/Partial/')" >log
logins 'objects with bytes that are not UTF-8' 1 '1 file, 2 logins: 2 revoked, 0 unread' \
  '{"file":"log","line":1,"status":"revoked","type":"ED25519","fingerprint":"'"$print_g"'",'\
'"user_base64":"/g==","from_base64":"/Q==","time_base64":"/yBzc2hkWzFdOiA=","step":"accepted",'\
'"reasons":[{"by":"key"}]}
{"file":"log","line":2,'"$object"',"time_base64":"/yBzc2hkWzFdOiA=","step":"partial",'\
'"certificate":{"serial":"7","id_base64":"YSAi/yJc","authority":"'"$print_a"'"},'\
"${names#*'},'}
$(done_of 1 2 2 0)" --json log
printf '%s\n' "$(by_cert '\033\302\233"\342\200\256' 8)" '' "$(by_key "$print_g" |
  sed 's/publickey/hostbased/')" 'Accepted publickey for ' >log
logins 'objects of logins that are not revoked, and of lines that are not read' 3 \
  '1 file, 1 login: 0 revoked, 2 unread' '{"file":"log","line":1,'"${object/revoked/ok}"',"step":'\
'"accepted","certificate":{"serial":"8","id":"\u001b\u009b\"\u202e","authority":"'"$print_a"'"},'\
'"reasons":[]}
{"file":"log","line":3,"status":"unread","fault":"login 3 Hostbased","why":"'"${host#unread: }"'"}
{"file":"log","line":4,"status":"unread","fault":"login 2 Malformed","why":"'"${malformed#*: }"'"}
'"$(done_of 1 1 0 2)" -a --json log

# Each reason, by the line of a text among lines that give none, and by the list of this text.
others="@users: $a\n@hosts: $g\n$g b\n@users serial: 8\n@hosts serial: 7\n@users id: bobb\n"
others+="@hosts id: bob\n@all serial: 1-6\n@all id: Bob\nsha256: $g\nca: $a of b # serial: 7\n"
of_a="of CA $print_a" of_users='of CA users'
echo '# a comment' >none && echo "@users: $a" >names
summary="krl logins: 1 file, 1 login: 1 revoked, 0 unread $of_list"$'\n'
while IFS='|' read -r reason fields entry <&3; do
  printf "$others$entry\n@all serial: 8\n# $b\n" >text
  "$program" make -q --replace -z 1 -f one.krl text
  finding="bob:1: ${revoked% by} $reason: $from (ID bob)"
  by_name=${reason/"$of_a"/"$of_users"} named=${finding/"$of_a"/"$of_users"}
  fields_named=${fields/%"$print_a\""/"$print_a\",\"name\":\"users\""}
  expect "$entry: $reason" 1 "$finding"$'\n' "$summary" logins -f one.krl bob
  expect "its line: $entry" 1 "$named
  text:12: $entry
" "$summary" logins -t text bob
  expect "no line: $entry" 1 "$finding
  no line of the texts names it $reason
" "$summary" logins -t none -f one.krl bob
  expect "no line, and a name: $entry" 1 "$named
  no line of the texts names it $by_name
" "$summary" logins -t names -f one.krl bob
  run logins --json -f one.krl -t text bob
  judge "the object: $entry" "$(differs 'the reasons' "\"reasons\":[{$fields_named}],\
\"entries\":[{\"file\":\"text\",\"line\":12,\"text\":\"$entry\"}],\"unnamed\":[]}" \
    "$(grep -o '"reasons":.*' <<<"$got_output")")"
  for it in none names; do
    [ $it = none ] || fields=$fields_named
    run logins --json -f one.krl -t $it bob
    judge "its object by the text $it: $entry" "$(differs 'the certificate and the reasons' \
      "\"certificate\":{\"serial\":\"7\",\"id\":\"bob\",\"authority\":\"$print_a\"},\
\"reasons\":[{$fields}],\"entries\":[],\"unnamed\":[{$fields}]}" \
      "$(grep -o '"certificate":.*' <<<"$got_output")")"
  done
done 3<<ROWS
by its key|"by":"key"|$b of bob # OPS-1
by its key|"by":"key"|key-blob: $(bytes "$B" | base64 -w0)
by its SHA-256|"by":"sha256"|sha256: $b
by its SHA-256|"by":"sha256"|hash: $print_b
by the key of its CA|"by":"authority","of":"key"|$a
by the SHA-256 of its CA|"by":"authority","of":"sha256"|hash: $print_a
by serial 7 $of_a|"by":"serial","serial":"7","authority":"$print_a"|serial: 7
by serial 7 $of_a|"by":"serial","serial":"7","authority":"$print_a"|serial: 0x7-18446744073709551615
by serial 7 of all CAs|"by":"serial","serial":"7","authority":"all"|@all serial: 7-8
by key ID "bob" $of_a|"by":"id","id":"bob","authority":"$print_a"|id: bob
by key ID "bob" of all CAs|"by":"id","id":"bob","authority":"all"|@all id-hex: 626f62
ROWS
# All reasons at once, in their order.
printf '%s\n' '@all id: bob' "@users: $a" '@all serial: 7' '@users id: bob' '@users serial: 7' \
  "$a" "sha256: $a" "sha256: $b" "$b" '@users serial: 8' >text
all="its key, by its SHA-256, by the key of its CA, by the SHA-256 of its CA, by serial 7 \
$of_users, by serial 7 of all CAs, by key ID \"bob\" $of_users, by key ID \"bob\" of all CAs"
expect 'all reasons' 1 "bob:1: $revoked $all: $from (ID bob)
$(for it in 1 3 4 5 6 7 8 9; do sed -n "s/^/  text:$it: /; ${it}p" text; done)
" "$summary" logins -t text bob

# The names of CAs, by their fingerprints. Of the names of a key the first one by its bytes is
# printed, and those of all texts count, in any order.
list_of of_a.krl "ca: $a\nserial: 7\nid: bob"
# unnamed PLACE CA: a login by a certificate of this CA that no line explains.
unnamed() {
  local reasons="serial 7 of CA $2, by key ID \"bob\" of CA $2"
  printf '%s: %s %s: %s (ID bob)\n' "$1" "$revoked" "$reasons" "$from"
  printf '  no line of the texts names it by %s\n' "$reasons"
}
while read -r first given <&3; do
  for it in $given; do echo "@$it: $a"; done >text
  expect "the names $given" 1 "$(unnamed bob:1 "$first")
" "$summary" logins -f of_a.krl -t text bob
  number=$(($(grep -c '' text) + 1))
  echo "@$it serial: 7" >>text
  expect "the list of a text with the names $given" 1 "bob:1: $revoked serial 7 of CA $first: \
$from (ID bob)
  text:$number: @$it serial: 7
" "$summary" logins -t text bob
done 3<<ROWS
user-ca user-ca
a b a
B a B
user user-ca users user
- _ a A 9 0 . -
. _ a A 9 0 .
0 _ a A 9 0
9 a _ A 9
A _ a A
_ a _
SHA256 cert-authority SHA256 serial
$(letters 63) $(letters 64) $(letters 63) y
ROWS
echo "@by-name: $a" >more && echo "@of-b: $b" >names_of_b && echo "@hosts: $g" >names_of_g
printf 'ca: %s\nserial: 7\n' "$a" >lines
while IFS='|' read -r name texts <&3; do
  # shellcheck disable=SC2046,SC2086
  expect "the names of the texts $texts" 1 "bob:1: $revoked serial 7 of CA $name: $from (ID bob)
  lines:2: serial: 7
" "$summary" logins $(printf -- '-t %s ' $texts) bob
done 3<<ROWS
$print_a|lines
$print_a|lines names_of_b
users|names lines
users|lines names
users|names_of_b lines names
by-name|more lines names
by-name|names lines more
ROWS
expect 'a name through standard input' 1 "$(unnamed bob:1 users)
" "$summary" logins -f of_a.krl -t none -t - bob <names
expect 'the names of the certified key and of another CA' 1 "$(unnamed bob:1 "$print_a")
" "$summary" logins -f of_a.krl -t names_of_b -t names_of_g bob
printf '@users: %s\nuntil 1969-12-31 @users serial: 7\n@users id: bobb\n' "$a" >over
expect 'the name of the CA of a line that is over' 1 "$(unnamed bob:1 users)
" "$summary" logins -f of_a.krl -t over bob
# Each login has the name of its own CA, or its fingerprint, whatever is in its key ID.
list_of two.krl "ca: $a\nserial: 7\nid: bob\nca: $b\nserial: 7\nid: bob"
echo "$(by_cert bob 7 "$print_b")" >by_b && cat bob by_b bob >both
while read -r name_a name_b texts <&3; do
  # shellcheck disable=SC2046,SC2086
  expect "the names of two CAs by the texts $texts" 1 "$(
    unnamed bob:1 $name_a && unnamed by_b:1 $name_b
    unnamed both:1 $name_a && unnamed both:2 $name_b && unnamed both:3 $name_a)
" "krl logins: 3 files, 5 logins: 5 revoked, 0 unread $of_list"$'\n' \
    logins -f two.krl $(printf -- '-t %s ' $texts) bob by_b both
done 3<<ROWS
$print_a $print_b none
users $print_b names
$print_a of-b names_of_b
users of-b names names_of_b
by-name of-b names_of_b names more
ROWS
run logins --json -f two.krl -t names -t more by_b bob
judge 'the objects of a CA with two names and of one without' "$(
  for it in "$print_b\"" "$print_a\",\"name\":\"by-name\""; do
    it="[{\"by\":\"serial\",\"serial\":\"7\",\"authority\":\"$it},\
{\"by\":\"id\",\"id\":\"bob\",\"authority\":\"$it}]"
    echo "\"reasons\":$it,\"entries\":[],\"unnamed\":$it}"
  done >wanted
  asks 1 diff wanted <(grep -o '"reasons":.*' <<<"$got_output")
)"
echo "$(by_cert "x (serial 7) CA ED25519 $print_b")" >log
expect 'the CA of a group in the key ID' 1 "log:1: $revoked serial 7 of CA users: $from (ID x \
(serial 7) CA ED25519 $print_b)
  no line of the texts names it by serial 7 of CA users
" "$summary" logins -f two.krl -t names -t names_of_b log
printf '@users: %s\n%s\n' "$a" "$a" >text
expect 'reasons about keys that have names' 1 "bob:1: $revoked the key of its CA: $from (ID bob)
  text:2: $a
" "$summary" logins -t text -t names_of_b bob
# Serial numbers in a list, in a range and in a bitmap, of OpenSSH's making and of the program's.
echo "$a" >a.pub
seq -f 'serial: %g' 1 2 299 >bitmap
printf 'serial: %s\n' 5 300 18446744073709551615 >list
echo 'serial: 7-9' >range
while read -r spec serial is_revoked <&3; do
  for it in "$openssh" "$keygen"; do
    "$it" -q -k -f made.krl -s a.pub $spec 2>"$scratch/error" || cat "$scratch/error"
    echo "$(by_cert bob "$serial")" >log
    run logins -f made.krl log
    judge "serial number $serial in a $spec of ${it##*/}" "$(
      differs 'exit status' "$is_revoked" "$got_status"
      differs 'the reason' "${is_revoked/#1/serial ${serial#0} $of_a}" \
        "$(sed 's/.* by \(.*\): root .*/\1/' <<<"${got_output:-0}")"
    )"
  done
done 3<<'ROWS'
list 5 1
list 0300 1
list 18446744073709551615 1
list 7 0
list 0 0
range 6 0
range 7 1
range 9 1
range 10 0
bitmap 0 0
bitmap 1 1
bitmap 2 0
bitmap 299 1
bitmap 301 0
ROWS

# Other lists: plain ones, those with SHA-1s, which no log has, and those that are refused.
printf '%s\n' "$g" "$a" >plain
cat key bob fine >log
expect 'a plain list' 1 "log:1: $by_g
log:2: $revoked the key of its CA: $from (ID bob)
" $'krl logins: 1 file, 3 logins: 2 revoked, 0 unread (plain list)\n' logins -f plain log
expect 'an object of a plain list' 0 "{\"status\":\"done\",\"files\":1,\"logins\":1,\"revoked\":0,\
\"unread\":0,\"list\":{\"file\":\"plain\",\"sha256\":\"$(sha256sum plain | cut -d ' ' -f 1)\"}}
" $'krl logins: 1 file, 1 login: 0 revoked, 0 unread (plain list)\n' logins --json -f plain fine
hashes='krl: sha1.krl: 1 entry is a SHA-1 hash, and no log has these'$'\n'
list_of sha1.krl "sha1: $b"
fine_1="krl logins: 1 file, 1 login: 0 revoked, 0 unread $of_list"$'\n'
expect 'a list with a SHA-1' 3 '' "$hashes$fine_1" logins -f sha1.krl bob
list_of sha1.krl "sha1: $b\nsha1: $a\n$g"
hashes=${hashes/1 entry is a SHA-1 hash/2 entries are SHA-1 hashes}
expect 'a list with two, and a key' 1 "key:1: $by_g
" "${hashes}krl logins: 2 files, 2 logins: 1 revoked, 0 unread $of_list
" logins -f sha1.krl bob key
expect 'the same quietly, where nothing is revoked' 3 '' "$hashes$fine_1" logins -qf sha1.krl bob
printf 'sha1: %s\n' "$b" >text
hashes=${hashes/sha1.krl: 2 entries are SHA-1 hashes/text: 1 entry is a SHA-1 hash}
expect 'a text with a SHA-1' 3 '' "$hashes$fine_1" logins -t text bob
expect 'a list that is not there' 255 '' $'krl: no.krl: No such file or directory [file 1 Open]\n' \
  logins -f no.krl bob
bytes "$H" 02 >cut.krl
expect 'a list that is cut' 255 '' \
  $'krl: cut.krl: truncated, in its header or within a section [krl 3 EndsEarly]\n' \
  logins -f cut.krl bob
bytes "$H" 01 "$(string "$(string 00)$(string '')20$(string 0000000000000005)")" >odd.krl
expect 'a CA that is no key' 255 '' 'krl: odd.krl: a certificate authority in it is no key in its '\
$'one spelling, and sshd may read it otherwise\n' logins -f odd.krl bob
bytes "$H" 01 "$(string "$(words '' '')23$(string "$(string 6100)")")" >odd.krl
expect 'a key ID with a zero byte' 255 '' \
  $'krl: odd.krl: a key ID in it has a zero byte, and sshd may read it otherwise\n' \
  logins -f odd.krl bob
expect 'a text that is wrong' 255 '' "krl: bob: line 1: $(
  "$program" make -f made.krl bob 2>&1 | sed 's/^krl: bob: line 1: //')"$'\n' logins -t bob key

# Files.
logins 'several files, one of them twice' 1 '4 files, 4 logins: 3 revoked, 0 unread' \
  "key:1: $by_g
bob:1: $by_7 (ID bob)
key:1: $by_g" key bob fine key
logins 'standard input' 1 '1 file, 1 login: 1 revoked, 0 unread' "-:1: $by_g" - <key
logins 'standard input among files' 1 '2 files, 2 logins: 1 revoked, 0 unread' "-:1: $by_g" \
  fine - < <(cat key)
expect 'a list through standard input' 1 "key:1: $by_g
" "krl logins: 1 file, 1 login: 1 revoked, 0 unread $of_list
" logins -f - key < <(cat r.krl)
expect 'a text through standard input' 1 "key:1: $by_g
  -:1: $g
" "krl logins: 1 file, 1 login: 1 revoked, 0 unread $of_list
" logins -t - key <<<"$g"
logins 'a pipe' 1 '1 file, 1 login: 1 revoked, 0 unread' "/dev/stdin:1: $by_g" /dev/stdin \
  < <(cat key)
: >empty
logins 'files without a login' 0 '3 files, 0 logins: 0 revoked, 0 unread' '' -a empty none /dev/null
mkdir folder
logins 'files that are not read' 3 '3 files, 1 login: 0 revoked, 2 unread' \
  'gone: unread: No such file or directory
folder: unread: it cannot be read to its end' gone fine folder
logins 'objects of files that are not read' 1 '2 files, 1 login: 1 revoked, 1 unread' \
  "{\"file\":\"gone\",\"status\":\"unread\",\"fault\":\"file 1 Open\",\
\"why\":\"No such file or directory\"}
{\"file\":\"bob\",\"line\":1,$object,$names
$(done_of 2 1 1 1)" --json gone bob
printf '%s\n\n%s\n%s' "$(by_key "$print_b")" x "$(by_cert)" >end
logins 'a last line without its line feed' 1 '1 file, 2 logins: 1 revoked, 0 unread' \
  "end:4: $by_7 (ID bob)" end
printf '%s\r\n' x "$(by_key "$print_g")" >returns
logins 'lines that end as on Windows' 1 '1 file, 1 login: 1 revoked, 0 unread' \
  "returns:2: $by_g" returns
printf '%b\n' "$(by_key "$print_g")\0" '\0\0' "$(by_key "$print_g" 'a\0')" >zeros
logins 'zero bytes' 1 '1 file, 1 login: 1 revoked, 1 unread' \
  "zeros:1: $malformed
zeros:3: ${by_g/root/a\\x00}" zeros
for it in $'\e[31mlog' $'a\nb' 'a: b' café; do
  cp key "$it"
  shown=${it//$'\e'/\\x1b} shown=${shown//$'\n'/\\x0a}
  logins "the name $shown" 1 '1 file, 1 login: 1 revoked, 0 unread' "$shown:1: $by_g" "$it"
done
# Files that another program reads. One more byte, or one less, makes a log of them.
while read -r name magic words <&3; do
  printf "$magic" | cat - key >"$name"
  printf "${magic%\\*}" | cat - <(echo) key >"less.$name"
  printf "x$magic" | cat - key >"more.$name"
  logins "$name" 1 '4 files, 3 logins: 3 revoked, 1 unread' "key:1: $by_g
$name: unread: it is $words prints it
less.$name:2: $by_g
bob:1: $by_7 (ID bob)" key "$name" "less.$name" bob
  logins "$name through standard input" 3 '1 file, 0 logins: 0 revoked, 1 unread' \
    "-: unread: it is $words prints it" - < <(cat "$name")
  logins "it is no $name" 0 '1 file, 0 logins: 0 revoked, 0 unread' '' "more.$name"
done 3<<'ROWS'
log.gz \x1f\x8b compressed: zcat
log.xz \xfd\x37\x7a\x58\x5a\x00 compressed: xzcat
log.zst \x28\xb5\x2f\xfd compressed: zstdcat
system.journal \x4c\x50\x4b\x53\x48\x48\x52\x48 a journal: journalctl --file
ROWS
gzip -c key >real.gz
logins 'a log that gzip compressed' 3 '1 file, 0 logins: 0 revoked, 1 unread' \
  'real.gz: unread: it is compressed: zcat prints it' real.gz
# A line of 16 MiB, and one of a byte more, behind which nothing is read.
{ cat key && letters 16777216 && echo && cat bob; } >long
logins 'a line of 16 MiB' 1 '1 file, 2 logins: 2 revoked, 0 unread' "long:1: $by_g
long:3: $by_7 (ID bob)" long
{ cat key && letters 16777217 && echo && cat bob; } >long
too_long='unread: the line has more than 16 MiB, and what follows is not read'
logins 'a line of more than 16 MiB' 1 '2 files, 2 logins: 2 revoked, 1 unread' "long:1: $by_g
long:2: $too_long
key:1: $by_g" long key
{ by_key "$print_g" "$(letters 1000)" && letters 16777216; } >long
logins 'a login of more than 16 MiB' 3 '1 file, 0 logins: 0 revoked, 1 unread' \
  "long:1: $too_long" long
head -c 16777216 long >login
logins 'a login of 16 MiB' 3 '1 file, 0 logins: 0 revoked, 1 unread' "login:1: $cut" login
rm long login
# A log is not held.
cp "$(realpath -- "${KRL:-$top/built/krl}")" built && chmod 755 "$scratch" built
it=$(letters 1000)
{ cat key && yes "$it" | head -c 200000000 && echo && cat bob; } |
  (ulimit -v 100000 && exec ./built logins -f r.krl -) >"$scratch/output" 2>&1
judge 'a log of 200 MB in 100 MB' "$(differs status 1 $?
  differs 'what is said' "-:1: $by_g
-:199803: $by_7 (ID bob)
krl logins: 1 file, 2 logins: 2 revoked, 0 unread $of_list" "$(cat "$scratch/output")")"
chmod 000 fine
ask=(./built)
[ "$(id -u)" != 0 ] || ask=(setpriv --reuid=65534 --regid=65534 --clear-groups ./built)
said=$("${ask[@]}" logins -f r.krl fine key 2>&1)
judge 'what may not be read' "$(differs status 1 $?
  differs 'what is said' "fine: unread: Permission denied
key:1: $by_g
krl logins: 2 files, 1 login: 1 revoked, 1 unread $of_list" "$said")"
chmod 644 fine
# Each login is printed, however many there are.
for _ in {1..30}; do cat bob fine && echo 'Accepted publickey for '; done >many
for ((i = 1; i <= 90; i += 3)); do
  printf 'many:%d: %s (ID bob)\nmany:%d: ok: ED25519 %s: %s\nmany:%d: %s\n' $i "$by_7" $((i + 1)) \
    "$print_b" "$from" $((i + 2)) "$malformed"
done >wanted
logins 'many logins' 1 '1 file, 60 logins: 30 revoked, 30 unread' "$(cat wanted)" -a many
logins 'many logins, those that are not revoked left out' 1 \
  '1 file, 60 logins: 30 revoked, 30 unread' "$(grep -v ok: wanted)" many

# Options and statuses.
logins 'nothing is revoked' 0 '1 file, 1 login: 0 revoked, 0 unread' '' fine
logins 'quietly, up to the first file with a revoked login' 1 \
  '2 files, 2 logins: 1 revoked, 0 unread' '' -q fine bob gone
logins 'quietly, where something is unread' 3 '2 files, 1 login: 0 revoked, 1 unread' '' -q gone fine
logins 'quietly, where nothing is revoked' 0 '1 file, 1 login: 0 revoked, 0 unread' '' \
  -aq --json fine
echo "$g # OPS-1" >text
expect 'texts beside a list' 1 "key:1: $by_g
  text:1: $g # OPS-1
bob:1: $by_7 (ID bob)
  no line of the texts names it by serial 7 $of_a
" "krl logins: 2 files, 2 logins: 2 revoked, 0 unread $of_list"$'\n' \
  logins key -t none bob -f r.krl -t text
logins 'an object of a login that no text has to explain' 0 '1 file, 1 login: 0 revoked, 0 unread' \
  '{"file":"fine","line":1,"status":"ok","type":"ED25519","fingerprint":"'"$print_b"'","user":'\
'"root","from":"10.0.0.1","step":"accepted","reasons":[],"entries":[],"unnamed":[]}
'"$(done_of 1 1 0 0)" -a --json -t none fine
# misused NAME WHY WORD..: the words are refused for this reason, or for any.
misused() {
  run logins "${@:3}" </dev/null
  judge "$1" "$(
    differs 'exit status' 2 "$got_status"
    differs 'standard output' '' "$got_output"
    [[ $got_error == "error: $2"* ]] || printf '  it says %q\n' "$got_error"
  )"
}
misused 'neither a list nor a text' '-f or -t is needed' bob
misused 'no file' 'a file is needed' -f r.krl -t text
for words in '-f - -' '-t - -' '-f r.krl - -' '-t text - bob -' '-f - -t - bob' \
  '-t - -t none -t - bob'; do
  # shellcheck disable=SC2086
  misused "standard input named twice: logins $words" \
    'standard input (-) can be read for one file only' $words
done
for words in '-f r.krl bob' '-aa bob' '-q -q bob' '--json --json bob' 'bob -t' '-x bob' '-z 1 bob' \
  '--files0-from bob' '--all bob'; do
  # shellcheck disable=SC2086
  misused "words that are refused: logins $words" '' -f r.krl $words
done
expect_text 'help for logins' 0 output logins --help
wanted=$("$program" logins --help)
expect 'help for logins, as a task' 0 "$wanted"$'\n' '' help logins
for it in /dev/full closed; do
  if [ $it = closed ]; then
    "$program" logins -f r.krl bob >&- 2>"$scratch/error"
  else
    "$program" logins -f r.krl bob >$it 2>"$scratch/error"
  fi
  judge "an output that is $it" "$(differs status 255 $?
    differs 'standard error' 'krl: output: it takes no more bytes [output 1 Write after 0 bytes]' \
      "$(cat "$scratch/error")")"
done
"$program" logins -f r.krl bob 2>&- >"$scratch/output"
judge 'an error output that is closed' "$(differs status 1 $?
  differs output "bob:1: $by_7 (ID bob)" "$(cat "$scratch/output")")"

# At a terminal the word for the verdict is in colour, and no other byte of a line.
setting=()
printf '%s\n' "$(by_key "$print_g" $'a:ok:\e[31m')" '' "$(cat fine)" 'Accepted publickey for ' \
  >$'\e[7mlog'
plain='\x1b[7mlog:1: '"${by_g/root/'a:ok:\x1b[31m'}
  text:1: $g # OPS-1"'
\x1b[7mlog:3: '"ok: ED25519 $print_b: $from"'
\x1b[7mlog:4: '"$malformed"
summary="krl logins: 1 file, 2 logins: 1 revoked, 1 unread $of_list"
words=(logins -a -f r.krl -t text $'\e[7mlog')
expect_terminal 'colours at a terminal' 1 1 "$(painted "$plain")" "$summary" "${words[@]}"
for it in revoked ok unread; do
  echo "@$it: $a" >names
  expect_terminal "no colour of a CA with the name $it" 1 1 "$(painted "$(unnamed bob:1 $it)")" \
    "krl logins: 1 file, 1 login: 1 revoked, 0 unread $of_list" logins -f of_a.krl -t names bob
done
expect_terminal 'no colour on standard error' 2 1 "$summary" "$plain" "${words[@]}"
setting=(NO_COLOR=1)
expect_terminal 'no colour with NO_COLOR' 1 1 "$plain" "$summary" "${words[@]}"
setting=()
"$program" "${words[@]}" --json >objects 2>/dev/null
expect_terminal 'objects without colours' 1 1 "$(cat objects)" "$summary" "${words[@]}" --json
program=$keygen
