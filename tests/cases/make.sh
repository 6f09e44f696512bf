# krl make: each word of a text, each refusal by file and line, which CA counts, names of CAs, both
# also after a merge by git, last days, the version, and lists that are shown, made and shown again,
# beside what OpenSSH's ssh-keygen says of them.

keygen=$program
program=$krl
export SOURCE_DATE_EPOCH=0
f=$(fingerprint "$G")
g=$(line ssh-ed25519 "$G")
a=$(line ssh-ed25519 "$A")
b=$(line ssh-ed25519 "$B")
all='0000000000000000'

# made_of NAME TEXT SAID WANTED COMMAND..: the text makes a list of version 1, this is said, and the
# command prints what is wanted of the list.
made_of() {
  printf "$2" >text
  rm -f made.krl
  run make -f made.krl text
  judge "$1" "$(
    differs 'exit status' 0 "$got_status"
    differs 'standard output' '' "$got_output"
    differs 'standard error' "krl make: made.krl: version 1: $3"$'\n' "$got_error"
    differs 'the list' "$4" "$("${@:5}" made.krl)"
  )"
}
# makes NAME TEXT SAID DIGITS..: the list has these sections.
makes() {
  made_of "$1" "$2" "$3" "$H$(printf %s "${@:4}")" digits
}
five=0100000015${all}20000000080000000000000005
makes 'a serial number' 'ca: all\nserial: 5\n' '1 CA, 1 serial number' $five
makes 'a range, blanks, a comment and upper case' '\t CA:all \r\nSeRiAl: 5 - 0x5 # 6\r\n# c\n\n' \
  '1 CA, 1 serial number' $five
makes 'a hexadecimal number with zeros' 'ca: all\nserial: 0X0005' '1 CA, 1 serial number' $five
makes 'two serial numbers' 'ca: all\nserial: 2-3' '1 CA, 2 serial numbers' \
  010000001a${all}220000000d 0000000000000002 0000000103
makes 'a key ID' 'ca: all\nid: a # b' '1 CA, 1 key ID' 0100000012${all}230000000500000001 61
makes 'a key ID in digits' 'ca: all\nid-hex: 6F0a' '1 CA, 1 key ID' \
  0100000013${all}230000000600000002 6f0a
makes 'a key ID that is a type of keys' 'ca: all\nid: ssh-rsa' '1 CA, 1 key ID' \
  0100000018${all}230000000b00000007 7373682d727361
makes 'an empty key ID' 'ca: all\nid-hex:' '1 CA, 1 key ID' 0100000011${all}230000000400000000
of_a=$(string "$A")00000000
makes 'a CA' "ca: $a of a\nserial: 7\n" '1 CA, 1 serial number' \
  "01$(string "${of_a}20000000080000000000000007")"
makes 'a CA by its bytes' "ca-blob: $(bytes "$A" | base64 -w0)\nserial: 7\n" \
  '1 CA, 1 serial number' "01$(string "${of_a}20000000080000000000000007")"
makes 'another CA' "ca: $a\nca: all\nserial: 5\n" '1 CA, 1 serial number' $five
makes 'two CAs' "ca: $a\nserial: 7\nca: all\nserial: 5\n" '2 CAs, 2 serial numbers' $five \
  "01$(string "${of_a}20000000080000000000000007")"
makes 'a CA that is no key' 'ca-blob: eA==\nid: a' '1 CA, 1 key ID' \
  01000000130000000178 00000000230000000500000001 61
makes 'keys with words in their comments' "$g ca: all\n \t$a serial 5 # ca: all" '2 keys' \
  "$(section "$A" "$G")"
makes 'keys' "$g c\nkey: $a\nkey-blob: AQ==" '3 keys' "$(section "$A" "$G" 01)"
makes 'a SHA-256' "hash: $f" '1 hashed key' \
  05000000240000 0020 "$(bytes "$G" | sha256sum | cut -c1-64)"
judge 'a SHA-1 and a SHA-256 of one key' "$(
  printf 'sha1: %s\nsha256: %s\n' "$g" "$g" >text
  rm -f made.krl
  run make -f made.krl text
  differs 'standard error' $'krl make: made.krl: version 1: 2 hashed keys\n' "$got_error"
)"
makes 'the SHA-256 of a key' "sha256: $g" '1 hashed key' \
  05000000240000 0020 "$(bytes "$G" | sha256sum | cut -c1-64)"
makes 'a SHA-1' "hash: SHA1:$(bytes "$(repeat 20 ab)" | base64 | tr -d =)" '1 hashed key' \
  030000001800000014 "$(repeat 20 ab)"
certificate=$(line ssh-ed25519-cert-v01@openssh.com "$(certificate "$G" "$A" 0000000000000007 a)")
makes 'a certificate, under its own CA' "ca: all\n$certificate\n" '1 CA, 1 serial number' \
  "01$(string "${of_a}20000000080000000000000007")"
makes 'a certificate behind a blank' "\t$certificate ca: all" '1 CA, 1 serial number' \
  "01$(string "${of_a}20000000080000000000000007")"

# names NAME TEXT LINE..: the text makes a list that is shown in these lines.
names() {
  printf "$2" >text
  rm -f made.krl
  run make -q -f made.krl text
  judge "$1" "$(
    differs 'exit status' 0 "$got_status"
    differs 'standard error' '' "$got_error"
    differs names "$(printf '%s\n' "${@:3}")" "$(contents made.krl)"
  )"
}
names 'hexadecimal numbers' 'ca: all\nserial: 0x10-0x20\nserial: 0X064\nserial: 200-0x00CA' \
  'ca: all' 'serial: 16-32' 'serial: 100' 'serial: 200-202'
for id in '"' "'" '"bob' 'bob"' "'bob" "bob'" "\"bob'" "'bob\"" "'a' b" 'a "b"' "it's" 'a,b' ',b' \
  'a ,b' 'a,' ',' '",'; do
  names "the key ID $id" "ca: all\nid: $id\n" 'ca: all' "id: $id"
done
names 'a comma before a blank and a comment' 'ca: all\nid: a, # b\n' 'ca: all' 'id: a,'
names 'key IDs between quotes, and with a comma and a blank, in digits' \
  'ca: all\nid-hex: 22626f6222\nid-hex: 27626f6227\nid-hex: 612c2062\n' \
  'ca: all' 'id-hex: 22626f6222' 'id-hex: 27626f6227' 'id-hex: 612c2062'

# refuses NAME LINE WORDS FAULT TEXT: the text is refused at its line, and the list stays.
refuses() {
  printf "$5" >text
  echo old >made.krl
  run make -f made.krl -z 1 text
  judge "$1" "$(
    differs 'exit status' 255 "$got_status"
    differs 'standard output' '' "$got_output"
    differs 'standard error' "krl: text: line $2: $3 [$4]"$'\n' "$got_error"
    differs 'the list' old "$(cat made.krl)"
  )"
}
no_ca='no CA is given: by @NAME before the word, or by a ca: line with no key or hash between '
no_ca+='[text 1 Spec, spec 4 NoAuthority]'
# lacks_ca NAME LINE TEXT: a serial number or a key ID of the text lacks the line of its CA.
lacks_ca() {
  refuses "$1" "$2" "${no_ca% \[*}" 'text 1 Spec, spec 4 NoAuthority' "$3"
}
lacks_ca 'a serial number before any CA' 1 'serial: 5\nca: all\n'
lacks_ca 'a key ID before any CA' 2 '\nid: a\n'
lacks_ca 'a key ID in digits before any CA' 1 'id-hex: 61\n'
lacks_ca 'hexadecimal digits before any CA' 1 'serial: 1f3\n'
refuses 'a key ID with a #' 2 \
  'a # with no blank before it would cut the key ID short: use id-hex:' \
  'text 6 CutId' 'ca: all\nid: eve#1\n'
for id in 'a\rid: b' 'a\tb' '\ra' 'a\033' 'a\177 # c' '\000' 'a,\tb' '"a\tb"'; do
  refuses "the key ID $id" 2 \
    'a key ID has a control character, such as a tab or a carriage return: use id-hex:' \
    'text 8 ControlInId' "ca: all\nid: $id\n"
done
for digits in 00 6100 610062; do
  refuses "a zero byte in $digits" 2 'OpenSSH takes no key ID with a zero byte: use serial:' \
    'text 9 ZeroInId' "ca: all\nid-hex: $digits\n"
done
zero=$(certificate "$G" "$A" 0000000000000000 Z)
refuses 'a certificate of a zero byte' 2 'OpenSSH takes no key ID with a zero byte: use serial:' \
  'text 9 ZeroInId' "ca: all\n$(line ssh-ed25519-cert-v01@openssh.com "${zero/0000015a/00000100}")\n"
for id in "$a" "$certificate" 'ssh-rsa of bob'; do
  refuses "the key ID ${id:0:30}" 2 'a key stands where a key ID belongs: use key:, or id-hex: for a '\
'key ID that begins so' 'text 10 KeyAsId' "ca: all\nid: $id\n"
done
# names_nobody ID WORDS FAULT: the key ID is refused, under a CA and without one.
names_nobody() {
  refuses "the key ID $1" 2 "$2" "$3" "ca: all\nid: $1\n"
  refuses "the key ID $1, without a CA" 1 "$2" "$3" "id: $1\n"
}
for id in '"bob"' "'bob'" '""' "''" '"bob" # c' '" bob "' '"a" b "c"' '"a", "b"' "'it''s'"; do
  names_nobody "$id" 'a key ID has no quotes around it: use id-hex: for one that has them' \
    'text 12 QuotedId'
done
for id in 'a, b' ', b' 'alice,  bob' 'Doe, John # c' '"a", b' "\"a\", 'b'"; do
  names_nobody "$id" 'a line has one key ID: use id-hex: for one that has a comma and a blank' \
    'text 13 SeveralIds'
done
date_in_id='a day in a key ID ends nothing: begin the line with until YYYY-MM-DD, or use id-hex: for '
date_in_id+='a key ID that has one'
for id in 'bob until 2026-11-15' 'until 2026-11-15' 'bob UNTIL 2026-11-15 # c' 'bob-until:2026-11-15' \
  'bob uNtil=2026-11-15' 'until2026-11-15' 'bob until : = : 2026-11-15' 'bob until 2026-11-155' \
  'bob until 2026-11-15 or so' 'until tomorrow until 2026-11-15' 'untiluntil 2026-11-15' \
  'bob until 2026-02-30' 'bob until 0000-00-00' 'bob until 9999-99-99' 'bob until 1969-12-31' \
  'until the day until 2026-11-15' 'bob (until 2026-11-15)'; do
  names_nobody "$id" "$date_in_id" 'text 21 DateInId'
done
for id in 'bob until tomorrow' until 'until 2026' 'bob until 2026-11' 'bob until 2026-1-15' \
  'bob until 26-11-15' 'bob until 15.11.2026' 'bob until 20261115' 'bob until 2026/11/15' \
  'bob until the 2026-11-15' 'bob until-2026-11-15' 'bob until,2026-11-15' 'bob until 12026-11-15' \
  'bob 2026-11-15' '2026-11-15 until' 'unti 2026-11-15' 'bob til 2026-11-15' 'until 2O26-11-15' \
  'until 2026-11-1'; do
  names "the key ID $id" "ca: all\nid: $id\n" 'ca: all' "id: $id"
done
names 'key IDs with a day, in digits' "ca: all\nid-hex: $(text 'bob until 2026-11-15')\n\
id-hex: $(text 'bob until 2026-02-30')\n" 'ca: all' "id-hex: $(text 'bob until 2026-02-30')" \
  "id-hex: $(text 'bob until 2026-11-15')"
dated=$(certificate "$G" "$A" 0000000000000000 'bob until 2026-11-15')
names 'a certificate with a day in its key ID' \
  "$(line ssh-ed25519-cert-v01@openssh.com "$dated")\n" "ca: $a" \
  "id-hex: $(text 'bob until 2026-11-15')"
refuses 'odd digits' 2 'no pairs of hexadecimal digits' 'text 5 Hex' 'ca: all\nid-hex: 656\n'
# A last day behind an entry.
day_first='a last day comes first on a line: until YYYY-MM-DD'
for day in 'until 2026-11-14' 'UNTIL: 2026-11-14' 'until=2026-11-31' 'until2026-11-14 # c' \
  'or until 2026-11-14x'; do
  for entry in 'serial: 5' 'serial: 5-7' 'serial:' 'SERIAL: 0x1f' 'serial: 1f3'; do
    refuses "$entry $day" 2 "$day_first" 'text 1 Spec, spec 1 Number' "ca: all\n$entry $day\n"
    refuses "@users $entry $day" 2 "$day_first" 'text 1 Spec, spec 1 Number' \
      "@users: $a\n@users $entry $day\n"
    refuses "a last day before and behind $entry: $day" 2 "$day_first" \
      'text 1 Spec, spec 1 Number' "ca: all\nuntil 2026-11-14 $entry $day\n"
  done
  for entry in 'id-hex: 6162' 'id-hex:' 'ID-HEX: 6'; do
    refuses "$entry $day" 2 "$day_first" 'text 5 Hex' "ca: all\n$entry $day\n"
    refuses "@all $entry $day" 1 "$day_first" 'text 5 Hex' "@all $entry $day\n"
  done
done
# The zero of a month is not that of a serial number.
for day in 'until 2026-01-15' 'UNTIL=2026-09-30' 'until 2026-00-00'; do
  refuses "serial: 5 $day" 2 "$day_first" 'text 11 LeadingZero' "ca: all\nserial: 5 $day\n"
  refuses "@all serial: 5-7 $day" 1 "$day_first" 'text 1 Spec, spec 1 Number' \
    "@all serial: 5-7 $day\n"
done
for day in until 'until tomorrow' 'until 2026-11-1' 'until the 2026-11-14' '2026-11-14' \
  'unti 2026-11-14'; do
  refuses "a serial number and no last day: $day" 2 'a serial number is a number below 2^64' \
    'text 1 Spec, spec 1 Number' "ca: all\nserial: 5 $day\n"
  refuses "a key ID in digits and no last day: $day" 2 'no pairs of hexadecimal digits' \
    'text 5 Hex' "ca: all\nid-hex: 6162 $day\n"
done
lacks_ca 'a last day behind a serial number without a CA' 1 'serial: 5 until 2026-11-14\n'
refuses 'digits that are none' 2 'no pairs of hexadecimal digits' 'text 5 Hex' \
  'ca: all\nid-hex: 6g\n'
refuses 'a CA that is a certificate' 1 'a CA is given by its key, and not by a certificate' \
  'text 2 Certificate' "ca: $certificate\n"
refuses 'a CA of no bytes' 1 'a CA has bytes' 'text 3 NoBytes' 'ca-blob: # x\n'
refuses 'bytes without padding' 1 'no whole base64 with padding' 'text 4 Base64' 'key-blob: AQ\n'
refuses 'a SHA-1 of 21 bytes' 1 'the hash is cut, padded or misspelt' \
  'text 1 Spec, spec 7 Fingerprint, fingerprint 3 Length' \
  "hash: SHA1:$(bytes "$(repeat 21 ab)" | base64 | tr -d =)\n"
refuses 'a CA that is no key' 1 'no key type stands there' \
  'text 1 Spec, spec 6 Key, line 1 NoKey' 'ca: everyone\n'
refuses 'a type without its key' 1 'no key type stands there' \
  'text 1 Spec, spec 6 Key, line 1 NoKey' 'ssh-ed25519\n'
meant() {
  refuses "$1" 2 "\"$2\" is no word of a text: did you mean \"$3:\"?" 'text 7 UnknownWord' \
    "ca: all\n$4\n"
}
meant 'a word with a letter more' serials serial 'serials: 5'
meant 'a word with a letter less, in upper case, and a blank' SERIA serial ' SERIA : 5'
meant 'a word with another letter' sha255 sha256 'sha255: x'
meant 'a word with a byte that a terminal obeys' 'ca\x1b' ca 'ca\033: all'
meant 'a word without its colon' serial serial 'serial 5'
meant 'a blank before the colon' ID id 'ID : bob'
unknown() {
  refuses "$1" 2 "a line begins with ca:, ca-blob:, serial:, id:, id-hex:, key:, key-blob:, sha1:, \
sha256: or hash:, with @NAME, or with the type of a key, and nothing may be before it, such as \
options" \
    'text 7 UnknownWord' "ca: all\n$2\n"
}
meant 'a word with two letters exchanged' serail serial 'serail: 5'
meant 'its first two, in upper case' ESRIAL serial 'ESRIAL: 5'
unknown 'a word that is two letters off' 'sreail: 5'
unknown 'no word before a colon' ': 5'
unknown 'a line that is no key' 'garbage'

# If a key behind anything but a word and a colon were read, the list would revoke the key of a CA.
meant 'a misspelt word before a key' cas ca "cas: $a"
meant 'a misspelt word before options and a key' cas ca "cas:cert-authority $a"
meant 'a word without its colon before a key' ca ca "ca $a"
meant 'the same before a certificate' ca ca "ca $certificate"
meant 'a blank before the colon and a key' ca ca "ca : $a"
meant 'an equals sign instead of the colon' ca ca "ca= $a"
meant 'a semicolon instead of the colon' 'ca;' ca "ca; $a"
meant 'a full stop instead of the colon' ca. ca "ca. $a"
meant 'a word in upper case without its colon' CA ca "CA $a"
meant 'the word of serial numbers before a key' serial serial "serial $a"
unknown 'a word behind a byte order mark' "\\357\\273\\277ca: $a"
unknown 'no word before a colon and a key' ": $a"
unknown 'a quoted word before a key' "\"ca\": $a"
unknown 'a quoted word without its colon' "\"ca\" $a"
unknown 'another word before a key' "user: $a"
unknown 'another word without its colon' "user $a"
unknown 'an option before a key' "no-pty $a"
unknown 'the option of a CA before its key' "cert-authority $a"
unknown 'options with a colon before a key' "restrict,command=\"a: b\" $a"
unknown 'an option that sets a variable' "environment=\"A=b:c\" $a"
unknown 'the name of a host before its key' "host.example $a"
between() {
  refuses "$1" 2 'no key type stands there' 'text 1 Spec, spec 6 Key, line 1 NoKey' "ca: all\n$2\n"
}
between 'all CAs and one' "ca: all $a"
between 'a second colon' "ca:: $a"
between 'a word between ca: and the CA' "ca: revoke $a"
between 'a word of texts between key: and the key' "key: ca: $a"
between 'a mark between key: and the key' "key: - $a"
between 'options between key: and the key' "key: no-pty $a"
between 'a marker between key: and the key' "key: @cert-authority $a"
between 'options between sha1: and the key' "sha1: no-pty $a"
between 'options between sha256: and the key' "sha256: restrict,command=\"a: b\" $a"
# Slips that have words of their own.
for name in alice.pub /etc/ssh/host.pub '~/alice' ./alice ../alice; do
  for word in ca key SHA1 sha256; do
    refuses "the name $name behind $word:" 1 'the key itself stands here, not its file' \
      'text 1 Spec, spec 6 Key, line 1 NoKey' "$word: $name # c\n"
  done
done
refuses 'a name with a blank' 1 'no key type stands there' \
  'text 1 Spec, spec 6 Key, line 1 NoKey' 'key: alice and bob.pub\n'
refuses 'a name alone' 1 'no key type stands there' \
  'text 1 Spec, spec 6 Key, line 1 NoKey' 'key: alice\n'
for print in "$f" SHA1:aaaa; do
  refuses "$print alone" 2 'a fingerprint needs "hash:" before it' \
    'text 1 Spec, spec 6 Key, line 1 NoKey' "# c\n \t$print \r\n"
done
refuses 'a fingerprint and a comment' 1 'no key type stands there' \
  'text 1 Spec, spec 6 Key, line 1 NoKey' "$f of alice\n"
for text in 'ca: all' "@users: $a" '# c' ''; do
  refuses "a byte order mark before '$text'" 1 'the file begins with a byte order mark' \
    'text 7 UnknownWord' "\\357\\273\\277$text\n"
done
mkdir folder
expect 'a folder for a text' 255 '' $'krl: folder: it is a directory [krl 13 Read]\n' \
  make -f made.krl folder
for number in 0 0-5 0x0 0X00; do
  refuses "the serial number $number" 2 'serial number 0 names no certificate' \
    'text 1 Spec, spec 2 Zero' "ca: all\nserial: $number\n"
done
refuses 'a range that ends early' 2 'a range of serial numbers ends below its first one' \
  'text 1 Spec, spec 3 Reversed' 'ca: all\nserial: 2-1\n'
for number in 18446744073709551616 0x10000000000000000 '' x 0x 0xg 0x-5 5-0x 5x 1f3g '1f 3' -5 +5 \
  5- 5-6-7 1,000; do
  refuses "the serial number '$number'" 2 'a serial number is a number below 2^64' \
    'text 1 Spec, spec 1 Number' "ca: all\nserial: $number\n"
done
for number in 1f3 1F3 f dead 0a 1-1f 1f-500 '1f - 500' '1 - 1f' 0x10-1F 1f-0x20 '1f3 # c'; do
  refuses "the serial number $number" 2 'hexadecimal digits need 0x before them' \
    'text 1 Spec, spec 1 Number' "ca: all\nserial: $number\n"
done
for number in 00 01 010 08 000000000000000000000000000005 010-020 01-5 1-010 '1 - 010' '1-\t010' \
  1-00 1-08 0x1-010 01-0x5 00x5 '010 # c'; do
  for before in 'ca: all\n' '# c\n'; do
    refuses "the serial number $number behind ${before%?n}" 2 \
      'a serial number has a leading zero: OpenSSH would read octal digits' \
      'text 11 LeadingZero' "${before}serial: $number\n"
  done
done

# Texts without an entry, and texts that are not read. The list stays.
printf '# nobody\nca: all\n' >none
cp made.krl before.krl
empty='krl: made.krl: the list would revoke nobody: no text has an entry, or each is over '
empty+=$'[make 1 Empty]\n'
expect 'a text that names nobody' 255 '' "$empty" make -f made.krl -z 1 none
# The first fault in the order of the texts is reported, and that of the list last.
printf 'ca: all\nserial: 0\nid-hex: 6\n' >wrong
printf 'serial: 5\n' >earlier
echo garbage >none.krl
first=$'krl: wrong: line 2: serial number 0 names no certificate [text 1 Spec, spec 2 Zero]\n'
for words in 'made.krl wrong earlier' 'made.krl wrong missing' 'none.krl wrong'; do
  # shellcheck disable=SC2086
  expect "the fault of several that is reported: $words" 255 '' "$first" make -f $words
done
expect 'a text that is missing before a wrong one' 255 '' \
  $'krl: missing: No such file or directory [file 1 Open]\n' make -f none.krl missing wrong
expect 'no text' 255 '' "$empty" make -f made.krl -z 1
expect 'a text that is missing' 255 '' \
  $'krl: missing: No such file or directory [file 1 Open]\n' make -f made.krl -z 1 none missing
judge 'the list after texts that are refused' "$(asks 0 cmp before.krl made.krl)"

# Each text needs an entry, but for a regular file with a comment or a CA.
no_entry='it has no entry, which --allow-empty allows [make 2 NoEntry]'
printf 'ca: all\nserial: 5\n' >text
printf 'id: a\n' >wrong
: >nothing
printf ' \t\r\n\n' >blank
printf 'ca: all\n' >only-ca
mkfifo pipe
for text in nothing blank /dev/null; do
  expect "the text $text beside one with an entry" 255 '' "krl: $text: $no_entry"$'\n' \
    make -f made.krl text $text
done
expect 'the first of two' 255 '' "krl: nothing: $no_entry"$'\n' make -f made.krl nothing text blank
expect 'a wrong line behind a text without an entry' 255 '' "krl: wrong: line 1: $no_ca"$'\n' \
  make -f made.krl nothing wrong
for given in '' '# c' 'ca: all' "@users: $a" $'\n \n'; do
  run make -f made.krl text - <<<"$given"
  judge "${given@Q} as standard input" "$(
    differs 'exit status' 255 "$got_status"
    differs 'standard error' "krl: -: $no_entry"$'\n' "$got_error"
  )"
  echo "$given" >pipe &
  expect "${given@Q} through a pipe" 255 '' "krl: pipe: $no_entry"$'\n' make -f made.krl pipe text
  wait
done
# The pipe of a name that is mistyped.
"$program" show mistyped.krl 2>"$scratch/error" | "$program" make -f made.krl - text \
  >"$scratch/output" 2>&1
judge 'a list that is shown by a mistyped name' "$(
  differs 'exit status' 255 $?
  differs output "krl: -: $no_entry"$'\n' "$(cat "$scratch/output")"$'\n'
)"
judge 'the list after texts without an entry' "$(asks 0 cmp before.krl made.krl)"
rm made.krl
expect 'texts with a comment or a CA alone beside one with an entry' 0 '' \
  $'krl make: made.krl: version 1: 1 CA, 1 serial number\n' make -f made.krl none only-ca text
for words in 'nothing blank' '/dev/null' '-'; do
  # shellcheck disable=SC2086
  expect "no entry in $words, which is allowed" 0 '' '' \
    make -q -f made.krl --allow-empty --replace text $words </dev/null
done
rm made.krl pipe
expect 'a list that may be empty' 0 '' $'krl make: made.krl: version 1: nothing\n' \
  make -f made.krl --allow-empty none
judge 'the empty list' "$(differs bytes "$H" "$(digits made.krl)")"
cp made.krl empty.krl

# Versions, the comment and the date.
version() {
  "$program" check --print-version made.krl
}
printf 'ca: all\nserial: 5\n' >text
rm made.krl
for wanted in 1 2 3; do
  expect "version $wanted" 0 '' '' make -q -f made.krl text
  judge "version $wanted is in the list" "$(differs version $wanted "$(version)")"
done
expect 'a given version' 0 '' $'krl make: made.krl: version 9: 1 CA, 1 serial number\n' \
  make -f made.krl -z 9 text
expect 'one above it' 0 '' $'krl make: made.krl: version 10: 1 CA, 1 serial number\n' \
  make -f made.krl text
expect 'the largest version' 0 '' '' make -q -f made.krl -z 18446744073709551615 text
expect 'none above it' 255 '' \
  $'krl: made.krl: its version is the largest that there is [run 2 VersionFull]\n' \
  make -f made.krl text
echo garbage >made.krl
expect 'one above a list that is none' 255 '' \
  $'krl: made.krl: it does not begin as a revocation list [krl 1 Magic]\n' make -f made.krl text
judge 'a list that is none stays' "$(differs bytes garbage "$(cat made.krl)")"

# Nothing but a list or an empty file is replaced, unless that is asked for.
"$openssh" -q -t ed25519 -N '' -C '' -f private
printf '%s\n' "$g" >plain
bytes "$H" | head -c 40 >torn
while read -r words name <&3; do
  cp "$name" made.krl
  # shellcheck disable=SC2086
  run make -f made.krl $words text
  judge "make $words over the file $name" "$(
    differs 'exit status' 255 "$got_status"
    grep -q "^krl: made.krl: .* \\[krl [0-9]* [A-Za-z]*\\]$" "$scratch/error" || cat "$scratch/error"
    asks 0 cmp "$name" made.krl
  )"
done 3<<'ROWS'
-z5 text
-z5 private
-z5 plain
-z5 torn
-u text
-u private
-u plain
-u nothing
-u torn
-uz5 nothing
-q nothing
-q text
ROWS
for name in text private plain torn nothing; do
  cp $name made.krl
  expect "--replace over the file $name" 0 '' \
    $'krl make: made.krl: version 1: 1 CA, 1 serial number\n' make --replace -f made.krl text
  cp $name made.krl
  expect "--replace and -z over the file $name" 0 '' \
    $'krl make: made.krl: version 4: 1 CA, 1 serial number\n' make --replace -z 4 -f made.krl text
done
: >made.krl
expect 'a version over an empty file' 0 '' $'krl make: made.krl: version 4: 1 CA, 1 serial number\n' \
  make -z 4 -f made.krl text
cp made.krl before.krl
for wanted in 0 3 4; do
  for how in -z -uz; do
    expect "version $wanted over version 4 by $how" 255 '' \
      $'krl: made.krl: the list there has this version or a later one [make 3 OldVersion]\n' \
      make $how $wanted -f made.krl text
  done
done
judge 'the list after versions that do not rise' "$(asks 0 cmp before.krl made.krl)"
expect 'a lower version that replaces a list' 0 '' '' make -q --replace -z 3 -f made.krl text
judge 'the lower version' "$(differs version 3 "$(version)")"

# What only the list before names is counted, if that is read.
printf 'ca: all\nserial: 4-6\nid: a\nkey: %s\nhash: SHA256:%s\n' "$g" \
  AAAAAAAAAAAAAAAAAAAAAAAAAAAAAAAAAAAAAAAAAAA >more
printf 'ca: all\nid: a\n' >one-id
printf 'ca: all\nid: b\n' >other-id
says_lost() {
  run make -q --replace -f made.krl "$2"
  expect "$1" 0 '' "krl make: made.krl: version $4"$'\n' make "${@:5}" -f made.krl "$3"
}
says_lost 'a list that names less' more text \
  '2: 1 CA, 1 serial number; 2 serial numbers, 1 key ID, 1 key, 1 hashed key are no longer revoked'
says_lost 'a list that names more' text more \
  '2: 1 CA, 3 serial numbers, 1 key ID, 1 key, 1 hashed key'
says_lost 'a list that names one other key ID' one-id other-id \
  '2: 1 CA, 1 key ID; 1 key ID is no longer revoked'
says_lost 'an update by other entries' more text \
  '2: 1 CA, 3 serial numbers, 1 key ID, 1 key, 1 hashed key' -u
says_lost 'a list that replaces one unread' more text '1: 1 CA, 1 serial number' --replace
says_lost 'an empty list over one' text none '2: nothing; 1 serial number is no longer revoked' \
  --allow-empty
run make -q --replace -f made.krl more
expect 'nothing is said of it with -q' 0 '' '' make -q -f made.krl text

# With -n nothing is made, and the lines of krl diff say what would change.
run make -q --replace -f made.krl more
cp made.krl before.krl
expect 'what a list would change' 0 "  ca: all
- serial: 4
- serial: 6
- id: a
- key: $g # $f
- hash: SHA256:AAAAAAAAAAAAAAAAAAAAAAAAAAAAAAAAAAAAAAAAAAA
" $'krl make: made.krl: version 2: 1 CA, 1 serial number; 2 serial numbers, 1 key ID, 1 key, 1 hashed '\
$'key are no longer revoked\n' make -n -f made.krl text
expect 'the same without the line about the list' 0 "$got_output" '' make -nq -f made.krl text
expect 'a list that changes nothing' 0 '' \
  $'krl make: made.krl: version 2: 1 CA, 3 serial numbers, 1 key ID, 1 key, 1 hashed key\n' \
  make -n -f made.krl more
expect 'an update that would add' 0 $'  ca: all\n+ id: b\n' '' make -nqu -f made.krl other-id
expect 'with -n and --replace all is new' 0 $'  ca: all\n+ serial: 5\n' '' \
  make -nq --replace -f made.krl text
judge 'the list after -n' "$(asks 0 cmp before.krl made.krl)"
rm -f missing.krl
expect 'a list that would be the first' 0 $'  ca: all\n+ serial: 5\n' \
  $'krl make: missing.krl: version 1: 1 CA, 1 serial number\n' make -n -f missing.krl text
judge 'no list is made with -n' "$([ ! -e missing.krl ] || ls -l missing.krl)"
: >nothing.krl
expect 'an empty file and a version' 0 $'  ca: all\n+ serial: 5\n' '' make -nq -z 4 -f nothing.krl text
run make -f nothing.krl text
expect 'an empty file without one' 255 '' "$got_error" make -nq -f nothing.krl text
printf 'ca: all\nid-hex: 0\n' >wrong
expect '-n with a wrong text' 255 '' $'krl: wrong: line 2: no pairs of hexadecimal digits [text 5 Hex]\n' \
  make -n -f made.krl wrong
expect '-n with a version that does not rise' 255 '' \
  $'krl: made.krl: the list there has this version or a later one [make 3 OldVersion]\n' \
  make -n -z 1 -f made.krl text
expect '-n and -u without a list' 255 '' \
  $'krl: missing.krl: No such file or directory [file 1 Open]\n' make -nu -f missing.krl text

# -u keeps what the list names, and its comment.
SOURCE_DATE_EPOCH=86400 run make -q --replace -f made.krl -z 6 --comment 'of May' text
printf 'ca: all\nserial: 7\n' >leavers
expect 'an update' 0 '' $'krl make: made.krl: version 7: 1 CA, 2 serial numbers\n' \
  make -u -f made.krl leavers
expect 'the list that was updated' 0 $'# made.krl: version 7, 1970-01-01T00:00:00Z, of May
ca: all
serial: 5
serial: 7
' '' show made.krl
expect 'an update without a text' 0 '' $'krl make: made.krl: version 8: 1 CA, 2 serial numbers\n' \
  make -u -f made.krl
expect 'an update by a text without an entry' 255 '' "krl: nothing: $no_entry"$'\n' \
  make -u -f made.krl nothing
expect 'an update with a comment and a version' 0 '' '' \
  make -qu -f made.krl -z 20 --comment 'of June' only-ca
expect 'its comment and its version' 0 $'# made.krl: version 20, 1970-01-01T00:00:00Z, of June
ca: all
serial: 5
serial: 7
' '' show made.krl
expect 'an update of an empty list' 0 '' $'krl make: empty.krl: version 2: nothing\n' \
  make -u -f empty.krl none
rm -f missing.krl
expect 'an update of a list that is missing' 255 '' \
  $'krl: missing.krl: No such file or directory [file 1 Open]\n' make -u -f missing.krl leavers
expect 'the same with a version' 255 '' \
  $'krl: missing.krl: No such file or directory [file 1 Open]\n' make -uz5 -f missing.krl leavers
judge 'no list is made' "$([ ! -e missing.krl ] || ls -l missing.krl)"
# Updates at the same time lose nothing.
for i in $(seq 8); do
  "$program" make -q -u -f made.krl - <<<"ca: all
serial: ${i}00" &
done
wait
judge 'eight updates at once' "$(
  differs version 28 "$(version)"
  differs 'serial numbers' 10 "$("$program" show made.krl | grep -c '^serial: ')"
)"

rm made.krl
SOURCE_DATE_EPOCH=86400 run make -q -f made.krl -z 7 --comment 'of May' text
expect 'the comment and the date' 0 $'# made.krl: version 7, 1970-01-02T00:00:00Z, of May
ca: all
serial: 5
' '' show made.krl
run make -q -f made.krl - <<<'ca: all
serial: 5'
judge 'standard input' "$(differs 'exit status' 0 "$got_status"; differs version 8 "$(version)")"

# Which CA counts: that of the last ca: line, if no key, hash or certificate is between.
sha1="hash: SHA1:$(bytes "$(repeat 20 ab)" | base64 | tr -d =)"
for end in "$g" "key: $g" 'key-blob: AQ==' "sha1: $g" "sha256: $g" "hash: $f" "$sha1" \
  "$certificate" "\t$g ca: all # c"; do
  for entry in 'serial: 5' 'id: a' 'id-hex: 61'; do
    lacks_ca "$entry behind ${end:0:30}" 4 "ca: all\nid: b\n$end\n$entry\n"
  done
  lacks_ca "comments between ${end:0:30} and a key ID" 5 "ca: all\n$end\n\n# ca: all\nid: a\n"
  lacks_ca "a serial number behind ${end:0:30} at the beginning" 2 "$end\nserial: 5\n"
  printf "ca: all\n$end\nca: $b\nid: own\n" >text
  rm made.krl
  run make -q -f made.krl text
  judge "a ca: line behind ${end:0:30}" "$(
    differs 'standard error' '' "$got_error"
    differs 'lines of all CAs' '' "$(contents made.krl | grep '^ca: all')"
    differs 'lines of the CA' "ca: $b"$'\nid: own' "$(contents made.krl | grep -A1 -xF "ca: $b")"
  )"
done
lacks_ca 'the second key ID behind a key' 6 "ca: all\n$g\nca: all\nid: a\n$a\nid: b\n"
names 'empty lines and comments among the entries of a CA' \
  "ca: all\n\n# c\nserial: 5\n \t\r\n#\n# $g\nid: a\n\r\n#key: $g\nid-hex: 22\n" \
  'ca: all' 'serial: 5' 'id: "' 'id: a'
names 'entries of CAs around keys' \
  "$g\nca: all\nserial: 5\nca: $a\nserial: 6\nkey: $a\nca: all\nid: b\nsha256: $g\n" \
  'ca: all' 'serial: 5' 'id: b' "ca: $a" 'serial: 6' "key: $a" "key: $g" "hash: $f"
names 'a ca: line that a key follows' "ca: all\n$g\n" "key: $g"

# Each of several texts begins without a CA, however the one before it ends.
printf 'ca: all\nserial: 5\nkey: %s\n' "$g" >keyed
printf 'ca: %s\nserial: 6\n' "$a" >first
printf '\n# c\nserial: 7\n' >second
echo old >made.krl
for texts in 'first second' 'keyed second' 'keyed first second' 'second first' 'first - second'; do
  # shellcheck disable=SC2086
  run make -f made.krl --replace $texts < <(printf 'ca: all\nid: a\n')
  judge "a text without a CA among $texts" "$(
    differs 'exit status' 255 "$got_status"
    differs 'standard error' "krl: second: line 3: $no_ca"$'\n' "$got_error"
    differs 'the list' old "$(cat made.krl)"
  )"
done
sed '1s/^/ca: all/' second >third
for texts in 'first keyed third' 'third keyed first'; do
  # shellcheck disable=SC2086
  run make -q -f made.krl --replace $texts
  judge "texts of two CAs: $texts" "$(
    differs 'standard error' '' "$got_error"
    differs names "$(printf '%s\n' 'ca: all' 'serial: 5' 'serial: 7' "ca: $a" 'serial: 6' "key: $g")" \
      "$(contents made.krl)"
  )"
done

# The names of CAs, which entries may have before them.
names 'entries behind the names of their CAs' \
  "@users: $a\n@hosts:$b of b\n@users serial: 1-3\n@hosts id: h\n@users id-hex: 22\n@all serial: 0x10\n" \
  'ca: all' 'serial: 16' "ca: $a" 'serial: 1-3' 'id: "' "ca: $b" 'id: h'
names 'blanks, carriage returns, comments and upper case around names' \
  " \t@users: \t $a of a # @users: $b\r\n\r @users \t SeRiAl:1 # 2\r\n\t@all\tID: \t a b\t\r\n" \
  'ca: all' 'id: a b' "ca: $a" 'serial: 1'
makes 'an entry of all CAs' '@all serial: 5\n' '1 CA, 1 serial number' $five
for name in a 0 - _ . .. -_.09azAZ ALL alle serial ca "$(repeat 64 x)"; do
  names "the name $name" "@$name: $a\n@$name serial: 1\n" "ca: $a" 'serial: 1'
done
names 'names in another case' "@users: $a\n@Users: $b\n@users serial: 1\n@Users serial: 2\n" \
  "ca: $a" 'serial: 1' "ca: $b" 'serial: 2'
names 'two names of one CA' "@users: $a\n@u: $a\n@users serial: 1\n@u serial: 3\n" \
  "ca: $a" 'serial: 1' 'serial: 3'
names 'a CA that is named again, with another comment behind its key' \
  "@users: $a\n@users serial: 1\n@users:\t$a of users # c\n@users serial: 3\n" \
  "ca: $a" 'serial: 1' 'serial: 3'
names 'names between a ca: line and its entries' \
  "@users: $a\nca: $b\n@users serial: 1\nserial: 2\n@all id: c\n@users: $a\nid: d\n" \
  'ca: all' 'id: c' "ca: $a" 'serial: 1' "ca: $b" 'serial: 2' 'id: d'
for end in "$g" "key: $g" "sha256: $g" "$certificate"; do
  printf "@hosts: $b\nca: all\n$end\n@hosts serial: 1\n@all id: c\n" >text
  rm -f made.krl
  run make -q -f made.krl text
  judge "names behind ${end:0:30}, where no CA counts" "$(
    differs 'standard error' '' "$got_error"
    differs 'lines of all CAs' $'ca: all\nid: c' "$(contents made.krl | head -n 2)"
    differs 'lines of the CA' "ca: $b"$'\nserial: 1' "$(contents made.krl | grep -A1 -xF "ca: $b")"
  )"
  lacks_ca "a serial number behind ${end:0:30} and a name" 5 \
    "@hosts: $b\nca: all\n$end\n@hosts serial: 1\nserial: 2\n"
done
lacks_ca 'a serial number behind the name of a CA' 2 "@users: $a\nserial: 5\n"
lacks_ca 'a key ID behind an entry of all CAs' 2 '@all serial: 5\nid: a\n'
# A list does not show whether its text has names.
printf "ca: all\nserial: 3\nca: $a\nserial: 1-2\nid: a\n$g\nca: $b\nid: c\n" >under
printf "@users: $a\n@hosts: $b\n@hosts id: c\n@users id: a\nkey: $g\n@users serial: 2\n" >named
printf '@all serial: 3\n@users serial: 1\n' >>named
run make -q --replace -f under.krl under
run make -q --replace -f made.krl named
judge 'a list of lines with names, and one of ca: lines' "$(
  differs 'standard error' '' "$got_error"
  asks 0 cmp under.krl made.krl
)"

# Lines that give names.
bad_name='a name behind @ has 1 to 64 letters, digits, -, _ and ., and is not all'
for name in '' all "$(repeat 65 x)" a@b @a a/b a+b 'a;' 'a,b' '"a"' "a'" 'a\\b' 'a\rb' 'a\033' \
  'a\000' 'zo\303\253' '\377' '*'; do
  refuses "the name '${name:0:20}'" 2 "$bad_name" 'text 14 BadName' "# c\n@$name: $a\n"
done
refuses 'a bad name before no key' 1 "$bad_name" 'text 14 BadName' '@a/b: everyone\n'
other_key() {
  refuses "$1" "$2" "the name \"users\" has another key: text, line $3" 'text 15 OtherKey' "$4"
}
other_key 'a name with another key' 3 1 "@users: $a\n# c\n@users: $b\n"
other_key 'a name with another key behind the same one again' 5 2 \
  "\n@users: $a\n@users: $a c\n@users serial: 5\n@users: $b\n"
no_key='text 1 Spec, spec 6 Key, line 1 NoKey'
for given in "$f" "$f # of a" '' ALL everyone @users 'two words.pub' "no-pty $a" "cert-authority $a" \
  "restrict,command=\"a: b\" $a" "* $a" "@cert-authority * $a" ": $a" 'all CAs' 'serial' 'serial 5' \
  'serial : 5' 'seral: 5' 'users: 5'; do
  refuses "'${given:0:30}' behind the name of a CA" 2 'no key type stands there' "$no_key" \
    "@users: $a\n@users: $given\n"
done
for given in all 'all # c' 'serial: 5' 'SeRiAl:5' 'serial: x' 'id: bob' 'id-hex: 61' "ca: $a" \
  'ca: all' 'ca-blob: eA==' "key: $g" "sha1: $g" "sha256: $g" "hash: $f" 'id:'; do
  refuses "an entry behind @NAME and a colon: '${given:0:30}'" 2 \
    'behind @NAME and a colon comes a key: an entry has no colon there' "$no_key" \
    "@users: $a\n@users: $given\n"
done
for given in ca.pub /etc/ssh/ca.pub '~/ca' ./ca ../ca; do
  refuses "the file $given behind the name of a CA" 1 'the key itself stands here, not its file' \
    "$no_key" "@users: $given # c\n"
done
refuses 'the certificate of a CA behind its name' 1 \
  'a CA is given by its key, and not by a certificate' 'text 2 Certificate' "@users: $certificate\n"
refuses 'a word behind @ and a number' 1 'no key type stands there' "$no_key" '@serial: 5\n'
refuses 'a name behind ca:' 2 'no key type stands there' "$no_key" "@users: $a\nca: @users\n"

# Names that no line before gives.
no_name() {
  refuses "$1" "$2" "no CA is named \"$3\" above$4" 'text 16 UnknownName' "$5"
}
no_name 'a name that no line gives' 3 nobody '' "@users: $a\nca: all\n@nobody serial: 5\n"
no_name 'the name of all CAs in upper case' 1 ALL '' '@ALL serial: 5\n'
no_name 'nearly the name of all CAs' 1 al '' '@al id: a\n'
no_name 'a name of 64 bytes' 1 "$(repeat 64 x)" '' "@$(repeat 64 x) id: a\n@$(repeat 65 x): $a\n"
# Names that no CA can have are neither shown nor meant.
no_such() {
  refuses "$1" 1 'no CA has this name above' 'text 16 UnknownName' "$2"
}
no_such 'no name' '@ serial: 5\n'
no_such 'no name, which a line tries to give' "@ serial: 5\n@: $a\n"
no_such 'a name that is too long' "@$(repeat 65 x) id-hex: 61\n"
no_such 'a name that is very long' "@$(repeat 20000 x) id: a\n@$(repeat 20001 x): $a\n"
no_name 'nearly the name of all CAs, which a line tries to give' 1 al '' "@al id: a\n@all: $a\n"
no_name 'nearly no name' 1 a '' "@a id: a\n@: $a\n"
no_name 'exactly this name, given later, before another one' 2 ca-25 \
  ': did you mean "ca-25" (text, line 3)?' "@ca-24: $a\n@ca-25 id: a\n@ca-25: $b\n"
for name in user userss usars uesrs Users USERS UESRS @users users+; do
  no_name "the name $name instead of users" 3 $name ': did you mean "users" (text, line 2)?' \
    "# c\n@users: $a\n@$name serial: 5\n"
done
for name in usrse usersss us use nobody; do
  no_name "the name $name, which is far from users" 2 $name '' "@users: $a\n@$name serial: 5\n"
done
no_name 'the first of the names that may be meant' 4 user ': did you mean "use" (text, line 2)?' \
  "@nobody: $a\n@use: $a\n@users: $b\n@user serial: 5\n@User: $b\n"
no_name 'a name that is given later' 1 users ': did you mean "users" (text, line 2)?' \
  "@users serial: 5\n@users: $a\n"
no_name 'a name with a quote and a backslash' 1 'u\"\\s' '' '@u"\\s serial: 5\n'
no_name 'a name that a terminal obeys' 2 'users\x1b' ': did you mean "users" (text, line 1)?' \
  "@users: $a\n@users\\033 serial: 5\n"
no_name 'a name with a carriage return' 2 'users\x0d' ': did you mean "users" (text, line 1)?' \
  "@users: $a\n@users\r serial: 5\n"
no_name 'a name that is not ASCII' 1 $'zo\303\253' '' '@zo\303\253 serial: 5\n'
no_name 'a name that is not UTF-8' 1 'zo\xeb' '' '@zo\353 serial: 5\n'
for entry in 'serial: 0' 'serial: 010' 'serial: 12ab' 'id:' 'id: "a"' 'id: eve#1' 'id-hex: 6' \
  'id: bob until 2026-11-15' 'serial: 5 until 2026-11-15'; do
  no_name "an unknown name before $entry" 1 nobody '' "@nobody $entry\n"
done

# What is behind a name, unless a colon follows at once.
behind() {
  refuses "$1" 2 'behind @NAME comes a colon and a key, or serial:, id: or id-hex:' \
    'text 17 MarkedWord' "@users: $a\n$2\n"
}
for it in @users '@users # c' '@users \t\r' '@users#: c' @ '@ # c' @all @nobody; do
  behind "nothing behind '$it'" "$it"
done
behind 'a key behind a name and a blank' "@users $a"
behind 'a blank before the colon' "@users : $a"
behind 'a tab before the colon' "@users\t:$a"
behind 'a blank before a name' "@ users: $a"
behind 'a blank before a name and an entry' '@ users serial: 5'
for it in "=$a" "= $a" " = $a" '=serial: 5' ' =serial: 5' '= serial: 5'; do
  behind "an equals sign behind a name: '${it:0:20}'" "@users$it"
done
for it in 'ca: all' "ca: $b" 'ca-blob: eA==' "key: $g" "KEY: $g" 'key-blob: AQ==' "sha1: $g" \
  "sha256: $g" "hash: $f" "$certificate" '@users serial: 5' 'users: 5' ': 5' '5' '- serial: 5'; do
  behind "${it:0:30} behind a name" "@users $it"
done
behind 'another word behind an unknown name' "@nobody key: $g"
behind 'another word behind a bad name' '@a/b ca: all'
behind 'the marker of a CA before its key' "@cert-authority *.example.com $a"
behind 'the same with a port' "@cert-authority [host.example]:2222 $a"
behind 'the marker of a revoked key' "@revoked * $a"
meant_behind() {
  refuses "$1" 2 "\"$2\" is no word of a text: did you mean \"$3:\"?" 'text 17 MarkedWord' \
    "@users: $a\n$4\n"
}
meant_behind 'a word with a letter less behind a name' seral serial '@users seral: 1'
meant_behind 'two letters exchanged, in upper case' SERAIL serial '@users\tSERAIL : 1'
meant_behind 'a word without its colon behind a name' id id '@users id bob'
meant_behind 'a blank before the colon of a word behind a name' serial serial '@all serial : 5'
meant_behind 'an equals sign instead of the colon behind a name' serial serial '@users serial=5'
meant_behind 'another byte in a word behind a name' id_hex id-hex '@users id_hex: 61'
meant_behind 'a word with a byte that a terminal obeys, behind a name' 'id\x1b' id '@users id\033: a'
meant_behind 'a misspelt word behind an unknown name' seral serial '@nobody seral: 1'
# No word of keys, hashes and CAs is meant there.
for it in 'keys: x' "kye: $g" "KEY $g" 'key-blobs: AQ==' 'ca all' 'cas: all' "ac: $b" 'ca-blo: eA==' \
  "sha-1: $g" "sha255: $g" "hahs: $f" 'hash x'; do
  behind "${it:0:20} behind a name" "@users $it"
  behind "${it:0:20} behind an unknown name and a last day" "until 2026-11-15 @nobody $it"
done
# Entries that are wrong behind a name as without one, and as long as they count as later.
while IFS='|' read -r entry words fault <&3; do
  for name in users all; do
    refuses "$entry behind @$name" 2 "$words" "$fault" "@users: $a\n@$name $entry\n"
  done
  for day in 1969-12-31 1970-01-01 2099-12-31; do
    refuses "$entry behind until $day" 2 "$words" "$fault" "ca: all\nuntil $day $entry\n"
    refuses "$entry behind until $day and a name" 2 "$words" "$fault" \
      "@users: $a\nUNTIL $day\t@users $entry\n"
  done
done 3<<'ROWS'
serial:|a serial number is a number below 2^64|text 1 Spec, spec 1 Number
serial: 12ab|hexadecimal digits need 0x before them|text 1 Spec, spec 1 Number
serial: 0|serial number 0 names no certificate|text 1 Spec, spec 2 Zero
serial: 2-1|a range of serial numbers ends below its first one|text 1 Spec, spec 3 Reversed
serial: 010|a serial number has a leading zero: OpenSSH would read octal digits|text 11 LeadingZero
id: # c|a key ID is empty|text 1 Spec, spec 5 EmptyId
id: eve#1|a # with no blank before it would cut the key ID short: use id-hex:|text 6 CutId
id: a\tb|a key ID has a control character, such as a tab or a carriage return: use id-hex:|text 8 ControlInId
id: ssh-rsa of bob|a key stands where a key ID belongs: use key:, or id-hex: for a key ID that begins so|text 10 KeyAsId
id: "bob"|a key ID has no quotes around it: use id-hex: for one that has them|text 12 QuotedId
id: a, b|a line has one key ID: use id-hex: for one that has a comma and a blank|text 13 SeveralIds
id: bob until 2026-11-15|a day in a key ID ends nothing: begin the line with until YYYY-MM-DD, or use id-hex: for a key ID that has one|text 21 DateInId
id: bob until:2026-02-30 # c|a day in a key ID ends nothing: begin the line with until YYYY-MM-DD, or use id-hex: for a key ID that has one|text 21 DateInId
serial: 5 until 2026-11-14|a last day comes first on a line: until YYYY-MM-DD|text 1 Spec, spec 1 Number
id-hex: 6162 until 2026-11-14|a last day comes first on a line: until YYYY-MM-DD|text 5 Hex
id-hex: 656|no pairs of hexadecimal digits|text 5 Hex
id-hex: 00|OpenSSH takes no key ID with a zero byte: use serial:|text 9 ZeroInId
ROWS

# Names count on in the texts that follow.
printf '# c\n@users: %s\n' "$a" >gives
printf '@users: %s of users\n@users id: a\n' "$a" >gives-again
printf '@users: %s\n' "$b" >gives-other
printf 'ca: all\nid: c\n@users serial: 5\n' >uses
cp gives $'gives\e'
for texts in 'gives uses' 'gives-again gives uses' 'gives none uses' '- uses' 'gives -'; do
  given=gives-again
  [ "$texts" != 'gives -' ] || given=uses
  # shellcheck disable=SC2086
  run make -q --replace -f made.krl $texts <$given
  judge "a name over texts: $texts" "$(
    differs 'standard error' '' "$got_error"
    differs 'lines of all CAs' $'ca: all\nid: c' "$(contents made.krl | head -n 2)"
    differs 'lines of the CA' "ca: $a"$'\nserial: 5' "$(contents made.krl | sed '1,2d; /^id: /d')"
  )"
done
# refuses_texts FAULT TEXT..: the fault of the first text that has one. The list stays.
refuses_texts() {
  cp made.krl before.krl
  expect "the fault of the texts ${*@Q}" 255 '' "krl: $1"$'\n' make -f made.krl "${@:2}"
  judge "the list after the texts ${*@Q}" "$(asks 0 cmp before.krl made.krl)"
}
unknown_name='uses: line 3: no CA is named "users" above'
refuses_texts "$unknown_name [text 16 UnknownName]" uses
refuses_texts "$unknown_name [text 16 UnknownName]" uses missing
for text in gives $'gives\e' -; do
  refuses_texts "$unknown_name: did you mean \"users\" (${text/$'\e'/\\x1b}, line 2)? [text 16 \
UnknownName]" uses $text gives-again <gives
done
refuses_texts 'gives-other: line 1: the name "users" has another key: gives, line 2 [text 15 OtherKey]' \
  gives gives-again uses gives-other
refuses_texts 'gives: line 2: the name "users" has another key: gives-other, line 1 [text 15 OtherKey]' \
  gives-other gives
refuses_texts "second: line 3: $no_ca" gives second uses
# No name is kept in a list.
refuses_texts "$unknown_name [text 16 UnknownName]" -u uses
run make -q --replace -f made.krl gives uses
cp made.krl before.krl
by_name="  @users: $a # $(fingerprint "$A")"
expect 'what texts with names would change' 0 "$by_name
+ @users id: a
  ca: all
- id: c
$by_name
- @users serial: 5
" $'krl make: made.krl: version 2: 1 CA, 1 key ID; 1 serial number, 1 key ID are no longer revoked\n' \
  make -n -f made.krl gives gives-again
expect 'an update by texts with names that would add' 0 "$by_name
+ @users id: a
" '' make -nqu -f made.krl gives-again
expect 'the same through standard input' 0 "$by_name
+ @users id: a
" '' make -nqu -f made.krl - <gives-again
printf '@hosts: %s\n@zed: %s\n@Users: %s\n' "$b" "$b" "$a" >gives-more
printf 'ca: %s\nserial: 8\nid: h\nca: all\nserial: 9\nkey: %s\n' "$b" "$a" >uses-none
expect 'the first of several names, and the name of a CA that a ca: line gives' 0 "  ca: all
+ serial: 9
  @hosts: $b # $(fingerprint "$B")
+ @hosts serial: 8
+ @hosts id: h
+ key: $a # $(fingerprint "$A")
  ca: all
- id: c
  @Users: $a # $(fingerprint "$A")
- @Users serial: 5
" '' make -nq -f made.krl gives gives-more uses-none
expect 'the same with --replace, by texts in another order' 0 "  ca: all
+ serial: 9
  @hosts: $b # $(fingerprint "$B")
+ @hosts serial: 8
+ @hosts id: h
+ key: $a # $(fingerprint "$A")
" '' make -nq --replace -f made.krl uses-none gives-more gives
expect 'what texts without names would change' 0 "  ca: all
+ serial: 9
  ca: $b # $(fingerprint "$B")
+ serial: 8
+ id: h
+ key: $a # $(fingerprint "$A")
  ca: all
- id: c
  ca: $a # $(fingerprint "$A")
- serial: 5
" '' make -nq -f made.krl uses-none
expect 'the name of a CA that the new list lacks' 0 "$by_name
- @users serial: 5
" '' make -nq -f made.krl gives - <<<'@all id: c'
expect 'what a text with an unknown name would change' 255 '' \
  "krl: $unknown_name [text 16 UnknownName]"$'\n' make -n -f made.krl uses
judge 'the list after names and -n' "$(asks 0 cmp before.krl made.krl)"

# A text that only gives names has no entry, as one with ca: lines alone.
rm -f made.krl
expect 'a text that only gives a name' 255 '' "$empty" make -f made.krl gives
judge 'no list is made of it' "$([ ! -e made.krl ] || ls -l made.krl)"
expect 'texts that only give names beside one with an entry' 0 '' \
  $'krl make: made.krl: version 1: 1 CA, 1 key ID\n' make -f made.krl gives gives-again gives
expect 'a text that only gives a name, which is allowed' 0 '' \
  $'krl make: made.krl: version 1: nothing\n' make -f made.krl --allow-empty --replace gives
expect 'an entry of all CAs through a pipe' 0 '' \
  $'krl make: made.krl: version 2: 1 CA, 1 serial number\n' \
  make -f made.krl - < <(echo '@all serial: 5')

# Last days. The day of the lists is 2026-11-15.
noon=1794744000
export SOURCE_DATE_EPOCH=$noon
# counts NAME TEXT SAID LINE..: the list is shown in these lines.
counts() {
  made_of "$1" "$2" "$3" "$(printf '%s\n' "${@:4}")" contents
}
over='1 key; 1 entry is over'
by_id=$(line ssh-ed25519-cert-v01@openssh.com "$(certificate "$G" "$A" 0000000000000000 a)")
# A line before the entry, the entry, how much it names, the line of its CA, and its own line.
while IFS='|' read -r before entry amount ca named <&3; do
  for day in 0000-01-01 1969-12-31 2025-12-31 2026-10-31 2026-11-14; do
    counts "${entry:0:40} until $day" "$before\nuntil $day $entry\nkey: $g\n" "$over" "key: $g"
  done
  for day in 2026-11-15 2026-11-16 2026-12-01 2027-01-01 9999-12-31; do
    counts "${entry:0:40} until $day" "$before\nuntil $day $entry\nkey: $g\n" \
      "1 CA, $amount, 1 key" "$ca" "$named" "key: $g"
  done
done 3<<ROWS
ca: all|serial: 5-7|3 serial numbers|ca: all|serial: 5-7
ca: $a|id: bob # OPS-1|1 key ID|ca: $a|id: bob
ca: $a of a|id-hex: 22|1 key ID|ca: $a|id: "
@users: $a|@users serial: 0x10|1 serial number|ca: $a|serial: 16
@users: $a|@users id: until|1 key ID|ca: $a|id: until
# c|@all serial: 5|1 serial number|ca: all|serial: 5
# c|@all id-hex: 6f|1 key ID|ca: all|id: o
# c|$certificate|1 serial number|ca: $a|serial: 7
ca: all|$by_id of bob|1 key ID|ca: $a|id: a
ROWS
makes 'an entry whose last day is not over' 'ca: all\nuntil 2026-11-15 serial: 5\n' \
  '1 CA, 1 serial number' $five
for it in 'UNTIL 2026-11-15 serial: 5' 'uNtIL 2026-11-15 @all SERIAL: 5' \
  'until\t2026-11-15\tserial: 5' ' \t until \t 2026-11-15 \t @all\tserial:5 \t\r' \
  '\runtil 2026-11-15 serial: 5' 'until 2026-11-15 serial: 5 # until 2001-02-03' \
  'until 2026-11-15 @all serial: 5# until 2099-12-31\r'; do
  for end in "\nkey: $g\n" ''; do
    [ -n "$end" ] && before="ca: all\n" || before="key: $g\nca: all\n"
    counts "today: $it${end:+, before a key}" "$before$it$end" '1 CA, 1 serial number, 1 key' \
      'ca: all' 'serial: 5' "key: $g"
    counts "the day before: $it${end:+, before a key}" "$before${it/2026-11-15/2026-11-14}$end" \
      "$over" "key: $g"
  done
done

# Each second of the last day is in it, in UTC, and no other one.
for day in 1970-01-01 1970-12-31 1999-12-31 2000-02-28 2000-02-29 2000-03-01 2027-02-28 2028-02-28 \
  2028-02-29 2028-12-31 2099-12-31 2100-02-28 2100-03-01 9999-12-31; do
  first=$(date -u -d "$day" +%s)
  for second in $first $((first + 86399)); do
    SOURCE_DATE_EPOCH=$second counts "second $second of $day" "until $day @all id: a\nkey: $g\n" \
      '1 CA, 1 key ID, 1 key' 'ca: all' 'id: a' "key: $g"
  done
  SOURCE_DATE_EPOCH=$((first + 86400)) counts "the second after $day" \
    "until $day @all id: a\nkey: $g\n" "$over" "key: $g"
done
SOURCE_DATE_EPOCH=18446744073709551615 counts 'the last second that there is' \
  "until 9999-12-31 @all id: a\nkey: $g\n" "$over" "key: $g"
for zone in XXX-14 XXX+12; do
  TZ=$zone counts "the time zone $zone" \
    "until 2026-11-15 @all id: a\nuntil 2026-11-14 @all id: b\nuntil 2026-11-16 @all id: c\n" \
    '1 CA, 2 key IDs; 1 entry is over' 'ca: all' 'id: a' 'id: c'
done
# Without a date of the environment the day is that of the clock. It may pass midnight meanwhile.
for date in unset '' x -1; do
  for _ in 1 2 3; do
    export SOURCE_DATE_EPOCH=$date
    [ "$date" != unset ] || unset SOURCE_DATE_EPOCH
    today=$(date -u +%F)
    for at in -1 0 1; do
      printf 'until %s @all serial: %d\n' "$(date -u -d "$today $at day" +%F)" $((at + 6))
    done >text
    run make -f made.krl --replace text
    [ "$today" != "$(date -u +%F)" ] || break
  done
  judge "yesterday, today and tomorrow, where SOURCE_DATE_EPOCH is '$date'" "$(
    differs 'standard error' \
      $'krl make: made.krl: version 1: 1 CA, 2 serial numbers; 1 entry is over\n' "$got_error"
    differs names $'ca: all\nserial: 6-7' "$(contents made.krl)"
  )"
done
export SOURCE_DATE_EPOCH=$noon

# Days of the calendar, and others.
days() {
  for it in "${@:2}"; do echo "until $it @all id: $it"; done >text
  echo '@all id: a' >>text
  run make -f made.krl --replace text
  judge "$1" "$(
    differs 'standard error' "krl make: made.krl: version 1: 1 CA, $said"$'\n' "$got_error"
  )"
}
said='1 key ID; 18 entries are over' days 'days of the calendar that are over' 0000-01-01 0000-02-29 \
  0000-12-31 0001-01-01 0004-02-29 0400-02-29 1600-02-29 1970-01-01 2000-02-29 2026-01-31 2026-03-31 \
  2026-04-30 2026-05-31 2026-06-30 2026-07-31 2026-08-31 2026-09-30 2026-10-31
said='8 key IDs' days 'days of the calendar that are not over' 2026-11-30 2026-12-31 2027-02-28 \
  2028-02-29 2400-02-29 9996-02-29 9999-12-31
bad_date() {
  refuses "$1" 2 'until needs a day, as YYYY-MM-DD' 'text 18 BadDate' "@users: $a\n$2\n"
}
for day in 2026-02-29 2027-02-29 1900-02-29 2100-02-29 0100-02-29 2026-02-30 2028-02-30 2026-00-15 \
  2026-13-15 2026-99-15 2026-11-00 2026-11-31 2026-01-32 2026-03-32 2026-04-31 2026-05-32 2026-06-31 \
  2026-07-32 2026-08-32 2026-09-31 2026-10-32 2026-12-32 2026-11-99 0000-00-00 1969-02-29 9999-12-32 \
  2026-11-5 2026-1-15 26-11-15 02026-11-15 12026-11-15 10000-01-01 -026-11-15 +026-11-15 2026/11/15 \
  2026.11.15 2026:11:15 2026_11_15 20261115 15-11-2026 15.11.2026 11/15/2026 2026-11 2026 \
  2026-11-15T00:00 2026-11-15Z 2026-11-155 2026-11-15x 2026-11-15: 2026-11-15, 2026-11-15. \
  2026-11-15- 2026-11-15= '"2026-11-15"' 2026-1l-15 2O26-11-15 202/-11-15 202:-11-15 2026-/1-15 \
  2026-:1-15 2026-11-1/ 2026-11-1: 2026--1-15 2026-11--5 2026-+1-15 '2026 -11-15' '2026- 11-15' \
  '2026-11 -15' '2026-11- 5' '2026- 1-15' '\r2026-11-15' '2026-11-15\r' '2026-11-15\000' \
  '2026-11-15\302\240' '2026\342\200\22311\342\200\22315' 'until 2026-11-15' tomorrow never x : = ''; do
  bad_date "until '$day' behind a name" "until $day @users serial: 5"
done
for it in 'until serial: 5' 'UNTIL ca: all' "until $g" "until $certificate" 'until\tx' \
  'until 2026-11-15serial: 5' 'until 2026-11-15@users serial: 5' 'until : 2026-11-15 serial: 5' \
  'until = 2026-11-15 serial: 5' 'until x # until 2026-11-15' 'until 2026-11-15=serial: 5'; do
  bad_date "no day: '${it:0:40}'" "$it"
done

# What has a last day, and what has none, on each day.
for day in 1969-12-31 2026-11-15 2099-12-31; do
  for it in '' '\t\r' '# c' '# until 2026-11-15' 'ca: all' "CA: $b" 'ca: everyone' 'ca:' \
    'ca-blob: eA==' 'ca-blob: x' "@users: $a" "@users: $b" "@hosts: $b" '@hosts:' '@hosts: everyone' \
    "@all: $b" "@a/b: $b" '@users: serial: 5' "key: $g" "KEY:$g" "key: $certificate" 'key: alice.pub' \
    'key:' "key: no-pty $g" 'key-blob: AQ==' 'key-blob: x' "sha1: $g" "sha256: $g" "hash: $f" \
    "$sha1" 'hash: x' "$g" "$g of alice" "key: $g # until 2026-11-15" 'ssh-ed25519' 'ssh-rsa AAAA'; do
    refuses "'${it:0:40}' behind until $day" 2 \
      'only a serial number, a key ID or a certificate has a last day' 'text 19 NoLastDay' \
      "@users: $a\nuntil $day $it\n"
  done
  lacks_ca "a serial number behind until $day without a CA" 2 "# c\nuntil $day serial: 5\nca: all\n"
  lacks_ca "a key ID behind until $day and a key" 3 "ca: all\nkey: $g\nuntil $day id: a\n"
  lacks_ca "a serial number behind a certificate until $day" 3 \
    "ca: all\nuntil $day $certificate\nserial: 5\n"
  lacks_ca "a last day behind a certificate until $day" 4 \
    "ca: all\nserial: 6\nuntil $day $by_id\nuntil $day id: b\n"
  lacks_ca "a serial number behind a name and until $day" 3 \
    "@users: $a\nuntil $day @users serial: 5\nserial: 5\n"
  no_name "an unknown name behind until $day" 2 nobody '' "@users: $a\nuntil $day @nobody serial: 5\n"
  no_name "a misspelt name behind until $day" 2 user ': did you mean "users" (text, line 1)?' \
    "@users: $a\nuntil $day @user id: bob\n"
  no_such "no name behind until $day" "until $day @ serial: 5\n"
  meant "a misspelt word behind until $day" serials serial "until $day serials: 5"
  meant "a word without its colon behind until $day" id id "until $day\tid bob"
  meant "a CA without its colon behind until $day" ca ca "until $day ca $a"
  unknown "another word behind until $day" "until $day users: 5"
  unknown "no word behind until $day" "until $day : 5"
  unknown "options and a certificate behind until $day" "until $day no-pty $certificate"
  unknown "a name of a type behind until $day" "until $day ssh-ed25519-cert AAAA"
  behind "nothing behind until $day and a name" "until $day @users"
  behind "a key behind until $day and a name" "until $day @users key: $g"
  behind "a certificate behind until $day and a name" "until $day @users $certificate"
  behind "a blank before the colon behind until $day and a name" "until $day @users : $a"
  meant_behind "a misspelt word behind until $day and a name" seral serial "until $day @users seral: 1"
  refuses "a certificate that is a key, until $day" 2 'the key is of another type' \
    'text 1 Spec, spec 6 Key, line 3 WordDiffers' \
    "# c\nuntil $day ssh-ed25519-cert-v01@openssh.com ${g#* }\n"
  refuses "the type of a certificate, until $day" 2 'no key type stands there' "$no_key" \
    "# c\nuntil $day ssh-ed25519-cert-v01@openssh.com\n"
  refuses "a certificate of a zero byte until $day" 2 \
    'OpenSSH takes no key ID with a zero byte: use serial:' 'text 9 ZeroInId' \
    "# c\nuntil $day $(line ssh-ed25519-cert-v01@openssh.com "${zero/0000015a/00000100}")\n"
done
counts 'the CA that is current stays so behind lines that are over' \
  "@users: $a\nca: all\nuntil 2026-11-14 serial: 5\nid: a\nuntil 2026-11-14 @users id: c\nid: b\n" \
  '1 CA, 2 key IDs; 2 entries are over' 'ca: all' 'id: a' 'id: b'
counts 'what is over on one line and not on another' "until 2026-11-14 @all serial: 1-9\n\
@all serial: 5\nuntil 2026-11-14 @all serial: 5\nuntil 2026-11-16 @all id: a\n\
until 2026-11-14 @all id: a\n" '1 CA, 1 serial number, 1 key ID; 3 entries are over' \
  'ca: all' 'serial: 5' 'id: a'
counts 'the same name with two last days' "until 2026-11-14 @all id: a\nuntil 2026-11-15 @all id: a\n" \
  '1 CA, 1 key ID; 1 entry is over' 'ca: all' 'id: a'

# A last day that is not first on its line, or misspelt.
first_on_line='a last day comes first on a line: until YYYY-MM-DD'
for it in until 'until:' 'UNTIL # c' 'until\r' 'until=' 'until: 2026-11-15 serial: 5' \
  'until=2026-11-15 serial: 5' 'Until:2026-11-15 @users serial: 5' untill 'untill 2026-11-15 serial: 5' \
  'unti 2026-11-15 serial: 5' 'ntil 2026-11-15 serial: 5' 'unitl 2026-11-15 serial: 5' \
  'nutil: 2026-11-15 id: a' 'UNTIK 2026-11-15 id: a' "unntil 2026-11-15 $certificate" 'until: x' \
  'until. 2026-11-15 serial: 5' 'until 2026-11-15 until 2026-11-15 serial: 5' \
  'until 1969-12-31 until: 1969-12-31 serial: 5' 'until 2026-11-15 untill'; do
  refuses "'${it:0:40}'" 2 "$first_on_line" 'text 7 UnknownWord' "ca: all\n$it\n"
done
for it in 'until 2026-11-15 serial: 5' 'untill 2026-11-15 serial: 5' '\tuntil: 2026-11-15 serial: 5' \
  'UNTIL=2026-11-15 id: a' until 'unil # c' 'utnil 2026-11-15'; do
  for name in users all nobody; do
    refuses "'$it' behind @$name" 2 "$first_on_line" 'text 17 MarkedWord' "@users: $a\n@$name $it\n"
  done
  refuses "'$it' behind a last day and a name" 2 "$first_on_line" 'text 17 MarkedWord' \
    "@users: $a\nuntil 2026-11-15 @users $it\n"
done
for it in 'untiill: 5' 'nutli 2026-11-15 serial: 5' 'until2026-11-15 serial: 5' \
  'until-2026-11-15 serial: 5' 'till 2026-11-15 serial: 5' '2026-11-15 serial: 5' \
  'from 2026-11-15 serial: 5' 'until\r2026-11-15 serial: 5' '"until" 2026-11-15 serial: 5'; do
  unknown "'$it'" "$it"
done

# A day in the comment of an entry, which the calendar may not have.
in_comment() {
  refuses "$1" "${3:-2}" 'a day in a comment ends nothing: begin the line with until YYYY-MM-DD' \
    'text 20 DateInComment' "$2"
}
# of_key NAME TEXT [LINE]: the same of a key or a hash.
of_key() {
  refuses "$1" "${3:-2}" 'a key has no last day: take the day out of its comment' \
    'text 20 DateInComment' "$2"
}
for day in 2027-01-01 2026-02-30; do
  for it in 'serial: 5' 'id: a' 'id-hex: 61' '@users serial: 5' '@all id: a' '@users id-hex: 61' \
    "$certificate" "$by_id of bob" 'SERIAL:5-7'; do
    in_comment "$day in the comment of ${it:0:40}" "@users: $a\nca: all\n$it # until $day\n" 3
  done
  for it in "key: $g" "key: $certificate" 'key-blob: AQ==' "sha1: $g" "SHA256: $g" "hash: $f" "$sha1" \
    "$g" "$g of alice" "\t$a"; do
    of_key "$day in the comment of ${it:0:40}" "@users: $a\nca: all\n$it # until $day\n" 3
  done
done
for it in '#until 2026-11-15' '# UNTIL: 2026-11-15' '# uNtil=2026-11-15' '# until2026-11-15' \
  '#\tuntil \t:= :2026-11-15' '# OPS-1210 until 2026-11-15' '# until 2026-11-15, or so' \
  '# a # b # until 1999-12-31' '# until 9999-12-31\r' '# until 0000-02-29' '# until 2028-02-29' \
  '# until tomorrow, until 2026-11-15' '# until 2026-02-29 until 2026-03-01' \
  '# untiluntil 2026-11-15' '# until until 2026-11-15' '# valid-until:2026-11-15T12:00' \
  '# since 2001-01-01 until 2026-11-155' '# zo\353 until 2026-11-15' '#\000until 2026-11-15' \
  '# until 2026-02-30' '# until 2026-02-29' '# until 2026-11-31' '# until:2026-13-01' \
  '# until 0000-00-00' '# until 9999-99-99' '# UNTIL 2026-00-10'; do
  in_comment "the comment '$it'" "ca: all\nserial: 5 $it\n"
  of_key "the comment '$it' behind a key" "ca: all\nkey: $g $it\n"
done
# It comes before other faults of the line.
for it in 'serial: 0' 'serial: 010' 'serial: x' 'serial: 1f3' 'serial: 2-1' 'id:' 'id: "a"' 'id: a, b' \
  'id: a\tb' 'id-hex: 6' 'id-hex: 00' '@users serial: 0' '@nobody serial: 5' '@ id: a' \
  'ssh-ed25519-cert-v01@openssh.com' 'id: bob until 2026-11-15' 'serial: 5 until 2026-11-15'; do
  in_comment "a day in the comment behind ${it:0:40}" "@users: $a\n$it # until 2026-11-15\n"
done
for it in 'key: alice.pub' "key: no-pty $g" 'key:' 'key-blob: x' 'hash: x' 'ssh-ed25519' \
  "ssh-rsa ${g#* }"; do
  of_key "a day in the comment behind ${it:0:40}" "@users: $a\n$it # until 2026-11-15\n"
done
in_comment 'a day in the comment of a serial number without a CA' 'serial: 5 # until 2026-11-15\n' 1
in_comment 'a day in a comment that cuts a key ID short' 'ca: all\nid: eve#until 2026-11-15\n'
of_key 'a day in a comment on a first line' "$g # until 2026-11-15" 1
# Comments that say nothing of the kind, and those of other lines.
for it in '# until' '# until tomorrow' '# until 2026/02/28' '# until 12026-11-15' '# until 2026-1-15' \
  '# until 15.11.2026' '# until the 2026-11-15' '# until. 2026-11-15' '# until-2026-11-15' \
  '# until # 2026-11-15' '# until\r2026-11-15' '# till 2026-11-15' '# 2026-11-15 until' \
  '# unti 2026-11-15' '# expires 2026-11-15' '# until 2026-11-1' '# until 20261115'; do
  names "the comment '$it'" "ca: all\nserial: 5 $it\n" 'ca: all' 'serial: 5'
done
names 'days in comments of lines that name no entry' "# until 2026-02-30\n\t#until: 2026-11-14\n\
@users: $a # until 2026-11-14\n@users: $a until 2026-11-14 # until 2026-11-14\n\
ca-blob: eA== # until 2026-11-14\nca: $a of a # until 2026-11-14\nca: all # until 2026-11-14\n\
serial: 5\n# until 2026-11-14" 'ca: all' 'serial: 5'
names 'a day in the comment of a key that no # begins' "$g of alice until 2026-11-14\n" "key: $g"
names 'a day in the comment of a CA, also one that is named again' \
  "@users: $a # until 2026-02-30\n@users: $a # until 2026-11-14\n@users id: a\n" "ca: $a" 'id: a'
printf 'serial: 5 # until 2001-02-03\n' >spec
judge 'a specification file may have such a comment' "$(asks 0 "$keygen" -k -f spec.krl -s none spec)"
has_until='until 2026-11-15 serial: 5'
judge 'a specification file has no last day' "$(
  "$keygen" -k -f spec.krl -s none - <<<"$has_until" >"$scratch/output" 2>&1
  differs 'exit status' 255 $?
)"

# What krl make says of lines that are over, and what it does with the old list.
printf 'until 2026-11-14 @all serial: 5\n@all id: a\n' >ending
printf 'until 2026-11-14 @all serial: 5\n' >over
printf 'until 2026-11-13 @all serial: 5-9\nuntil 2026-11-14 @all id: b\nkey: %s\n' "$g" >more-over
SOURCE_DATE_EPOCH=$((noon - 86400)) expect 'a list on the last day of an entry' 0 '' \
  $'krl make: made.krl: version 1: 1 CA, 1 serial number, 1 key ID\n' \
  make --replace -f made.krl ending
cp made.krl before.krl
lost='1 serial number is no longer revoked; 1 entry is over'
expect 'what the next day would change' 0 $'  ca: all\n- serial: 5\n' \
  "krl make: made.krl: version 2: 1 CA, 1 key ID; $lost"$'\n' make -n -f made.krl ending
expect 'the same without the line about the list' 0 $'  ca: all\n- serial: 5\n' '' \
  make -nq -f made.krl ending
expect 'with -n and --replace all that is not over is new' 0 $'  ca: all\n+ id: a\n' \
  $'krl make: made.krl: version 1: 1 CA, 1 key ID; 1 entry is over\n' \
  make -n --replace -f made.krl ending
kept='1 CA, 1 serial number, 1 key ID; 1 entry is over'
expect 'what an update would change on the next day' 0 '' \
  "krl make: made.krl: version 2: $kept"$'\n' make -nu -f made.krl ending
judge 'the list after -n, with an entry that is over' "$(asks 0 cmp before.krl made.krl)"
expect 'an update on the next day' 0 '' "krl make: made.krl: version 2: $kept"$'\n' \
  make -u -f made.krl ending
judge 'an update keeps what is over' \
  "$(differs names $'ca: all\nserial: 5\nid: a' "$(contents made.krl)")"
expect 'an update by a text that is over' 0 '' "krl make: made.krl: version 3: $kept"$'\n' \
  make -u -f made.krl over
expect 'the same through standard input' 0 '' "krl make: made.krl: version 4: $kept"$'\n' \
  make -u -f made.krl - <over
expect 'a list on the next day' 0 '' \
  "krl make: made.krl: version 5: 1 CA, 1 key ID; $lost"$'\n' make -f made.krl ending
judge 'it names what is not over' "$(differs names $'ca: all\nid: a' "$(contents made.krl)")"
expect 'once more' 0 '' $'krl make: made.krl: version 6: 1 CA, 1 key ID; 1 entry is over\n' \
  make -f made.krl ending
expect 'nothing is said of it with -q, too' 0 '' '' make -q -f made.krl ending
expect 'one that replaces it unread' 0 '' \
  $'krl make: made.krl: version 1: 1 CA, 1 key ID; 1 entry is over\n' \
  make --replace -f made.krl ending
expect 'entries that are over in several texts' 0 '' \
  $'krl make: made.krl: version 2: 1 CA, 1 key ID, 1 key; 5 entries are over\n' \
  make -f made.krl more-over over ending - <over
expect 'texts through standard input that are over beside others' 0 '' \
  $'krl make: made.krl: version 3: 1 CA, 1 key ID; 1 key is no longer revoked; 2 entries are over\n' \
  make -f made.krl - ending <over
# Nothing but what is over. The list stays.
cp made.krl before.krl
for words in over '-n over' '-z 99 over' '-' '-n -' 'over none' 'none - over' 'over over'; do
  # shellcheck disable=SC2086
  expect "all is over in: $words" 255 '' "$empty" make -f made.krl $words <over
done
expect 'all is over through a pipe' 255 '' "$empty" make -f made.krl - < <(cat over)
expect 'a text without an entry beside one that is over' 255 '' "krl: nothing: $no_entry"$'\n' \
  make -f made.krl over nothing
printf 'until 2026-11-14 @all serial: 5\nuntil 2026-11-14 @all id-hex: 0\n' >wrong
expect 'a wrong line behind what is over' 255 '' \
  $'krl: wrong: line 2: no pairs of hexadecimal digits [text 5 Hex]\n' make -f made.krl over wrong
judge 'the list after texts that are over' "$(asks 0 cmp before.krl made.krl)"
expect 'what a list that may be empty would change' 0 $'  ca: all\n- id: a\n' \
  $'krl make: made.krl: version 4: nothing; 1 key ID is no longer revoked; 1 entry is over\n' \
  make -n --allow-empty -f made.krl over
expect 'all is over, and the list may be empty' 0 '' \
  $'krl make: made.krl: version 4: nothing; 1 key ID is no longer revoked; 1 entry is over\n' \
  make --allow-empty -f made.krl over
expect 'the same once more' 0 '' $'krl make: made.krl: version 5: nothing; 2 entries are over\n' \
  make --allow-empty -f made.krl over over
expect 'an update of an empty list by what is over' 0 '' \
  $'krl make: made.krl: version 6: nothing; 1 entry is over\n' make -u -f made.krl over
rm made.krl
expect 'all is over, and there is no list' 255 '' "$empty" make -f made.krl over
judge 'no list is made of what is over' "$([ ! -e made.krl ] || ls -l made.krl)"
export SOURCE_DATE_EPOCH=0

# Texts to which two branches append, merged by git line by line: the list of the merged text names
# what both texts name, or there is none.
need git git || judge 'git is there' '  install git'
# merges NAME STATUS BASE OURS THEIRS: where the status is a star, it may be either.
merges() {
  local name=$1 status=$2
  printf "$3" >base && printf "$3$4" >ours && printf "$3$5" >theirs
  git merge-file -p --union ours base theirs >merged
  rm -f made.krl branches.krl
  run make -q -f branches.krl ours theirs
  differs 'what is said of both' '' "$got_error" >both
  run make -q -f made.krl merged
  judge "two branches: $name" "$(
    cat both
    [ "$status" = '*' ] || differs 'exit status' "$status" "$got_status"
    if [ "$got_status" = 0 ]; then
      differs names "$(contents branches.krl)" "$(contents made.krl)"
    else
      differs 'standard error' "krl: merged: line N: $no_ca" \
        "$(sed 's/line [0-9]*:/line N:/' "$scratch/error")"
      [ ! -e made.krl ] || echo '  the list is made'
    fi
  )"
}
alice="ca: $a\nid: alice\nkey: $g\n"
merges 'one locks a person out, and the other adds a serial number' 255 'ca: all\nserial: 5\n' \
  "$alice" 'serial: 77\n'
merges 'the other way round' 0 'ca: all\nserial: 5\n' 'serial: 77\n' "$alice"
merges 'each adds a CA' 0 'ca: all\nserial: 5\n' "ca: $a\nserial: 6\n" "ca: $b\nserial: 7\n"
merges 'both lock a person out' '*' 'ca: all\nserial: 5\n' "$alice" "ca: $a\nid: bob\nkey: $b\n"
merges 'both append behind a key' 0 "$alice" "sha256: $a\n" "ca: $a\nserial: 6\n"
merges 'both append behind a key to one CA' '*' "$alice" "ca: $b\nserial: 6\nsha1: $a\n" \
  "ca: $b\nserial: 7\n"
merges 'one locks a person out, and the other adds a serial number, by names' 0 \
  "@users: $a\nca: all\nserial: 5\n" "@users id: alice\nkey: $g\n" '@all serial: 77\n'
merges 'the same the other way round' 0 \
  "@users: $a\nca: all\nserial: 5\n" '@all serial: 77\n' "@users id: alice\nkey: $g\n"
merges 'each names a CA' 0 'ca: all\nserial: 5\n' "@users: $a\n@users serial: 6\n" \
  "@hosts: $b\n@hosts serial: 7\n@hosts id: b\n"
merges 'both name the same CA' 0 "key: $g\n" "@users: $a\n@users serial: 6\n@users id: a\n" \
  "@users: $a of users\n@users serial: 7\n@users id: a\n"
merges 'one adds entries of a ca: line, and the other by a name' 0 \
  "@users: $a\nca: all\nserial: 5\n" "ca: $b\nid: b\n" '@users serial: 6\n'
merges 'both add last days, of which some are over' 0 "@users: $a\nca: all\nserial: 5\n" \
  'until 1969-12-31 @users serial: 6\nuntil 2001-02-03 @users id: a\nuntil 1969-12-31 @all id: b\n' \
  'until 2001-02-03 @users serial: 6\nuntil 1969-12-31 @users id: a\n'

# Wrong words.
for words in '' '-f made.krl -z x text' '-f made.krl -z -1 text' '-f a -f b text' '-k -f made.krl' \
  '-f - text' '-f made.krl - -' '-f made.krl -u --replace text'; do
  # shellcheck disable=SC2086
  run make $words
  judge "the words 'make $words'" "$(
    differs 'exit status' 2 "$got_status"
    differs 'standard output' '' "$got_output"
  )"
done

# again NAME LIST: the text that is shown of a list makes one whose text is the same. OpenSSH says the
# same of both.
again() {
  "$program" show "$2" >shown
  run make -q --allow-empty --replace -f again.krl shown
  judge "$1" "$(
    differs 'exit status' 0 "$got_status"
    differs 'standard error' '' "$got_error"
    asks 0 diff <(tail -n +2 shown) <("$program" show again.krl | tail -n +2)
    [ -n "${3:-}" ] || asks 0 diff <("$openssh" -Q -l -f "$2" | tail -n +5) \
      <("$openssh" -Q -l -f again.krl | tail -n +5)
  )"
}
# list NAME DIGITS..: the same of the list with these sections.
list() {
  bytes "$H" "${@:2}" >list.krl
  again "$1" list.krl own
}
list 'a list without sections'
list 'the last serial number' 010000001d${all}21000000100000000000000001ffffffffffffffff
list 'a bitmap' 010000001a${all}220000000d00000000000000010000000155
for digits in 616161 '' 20 2061 6120 610962 610a62 6523 7f c3a9 0d 2d2d 7373682d727361 \
  7373682d7273612041 22 27 2222 2727 22626f6222 27626f6227 22626f6227 612c2062 2c20 612c62 \
  "$(text 'bob until 2026-11-15')" "$(text 'UNTIL:=0000-00-00')" "$(text 'until 2026-1-15')"; do
  list "the key ID of the bytes '$digits'" \
    "01$(string "${all}23$(string "$(string $digits)")")"
done
# What no line gives is shown, and refused when it is read.
bytes "$H" "01$(string "${all}23$(string "$(string 610062)")")" >zero.krl
"$program" show zero.krl >shown
judge 'the line of a key ID with a zero byte' "$(differs line 'id-hex: 610062' "$(tail -n 1 shown)")"
expect 'a list that has one' 255 '' \
  $'krl: shown: line 3: OpenSSH takes no key ID with a zero byte: use serial: [text 9 ZeroInId]\n' \
  make -f again.krl -z 1 shown
list 'a CA that is no key' 01000000130000000178000000002300000005 0000000161
odd=$(rsa "$(string 0003)" "$(string 00"$(repeat 128 a1)")")
list 'keys that are none' "$(section "$G" "$odd" 01 00)"
list 'hashes' 030000001800000014 "$(repeat 20 ab)" 050000002400000020 "$(repeat 32 cd)"

# Lists that OpenSSH makes of three CAs.
RANDOM=2611
for name in key-one key-two ca-one ca-two; do
  "$openssh" -q -t ed25519 -N '' -C "of $name" -f $name
done
# Key IDs that no id: line gives, and others that look nearly so.
printf 'id: %s\n' '"bob"' "'bob'" 'a, b' '"' "'a' b" 'CN=bob,OU=ops' >spec
"$openssh" -q -k -f theirs.krl -s ca-one.pub spec 2>"$scratch/error"
judge 'key IDs with quotes and commas in a list of OpenSSH' "$(
  differs lines "$(printf '%s\n' "ca: $(cut -d ' ' -f 1,2 ca-one.pub)" 'id: "' \
    'id-hex: 22626f6222' "id: 'a' b" 'id-hex: 27626f6227' 'id: CN=bob,OU=ops' \
    'id-hex: 612c2062')" "$(contents theirs.krl)"
)"
again 'its text' theirs.krl
lines_of() {
  local i lo
  for ((i = 0; i < $1; i++)); do
    echo "serial: $((RANDOM % $2 + 1))"
    lo=$((i * 100 + 5000))
    [ $((RANDOM % 4)) != 0 ] || echo "serial: $lo-$((lo + RANDOM % 200))"
    echo "id: id $((RANDOM % 50))"
  done
}
for round in 1 2 3; do
  lines_of $((round * 20)) $((10 ** (round + 1))) >spec
  "$openssh" -q -k -f theirs.krl -s ca-one.pub -z $round spec 2>"$scratch/error"
  lines_of 12 300 >spec
  echo "key: $(cat key-one.pub)" >>spec
  echo "sha256: $(cat key-two.pub)" >>spec
  "$openssh" -q -k -u -f theirs.krl -s ca-two.pub spec 2>"$scratch/error"
  lines_of 5 100 >spec
  "$openssh" -q -k -u -f theirs.krl -s none spec 2>"$scratch/error"
  again "the text of OpenSSH's list, $round" theirs.krl own
  judge "what OpenSSH names in the list that is made of it, $round" "$(
    facts() { "$openssh" -Q -l -f "$1" | grep -v '^# \(KRL version\|Generated at\)'; }
    [ "$(facts theirs.krl | wc -l)" -gt 50 ] || echo '  too few facts'
    asks 0 diff <(facts theirs.krl | sort) <(facts again.krl | sort)
  )"
done

# Two lists make one that names what either names.
"$program" make -q -f one.krl -z 1 - <<<"ca: $(cat ca-one.pub)
serial: 1-5"
"$program" make -q -f two.krl -z 1 - <<<"$g
ca: $(cat ca-one.pub)
serial: 4-9"
"$program" show one.krl two.krl | "$program" make -q -f both.krl -z 1 -
"$keygen" -k -f wanted.krl -z 1 -s ca-one.pub - <<<"serial: 1-9
key: $g"
judge 'two lists are one' "$(asks 0 cmp both.krl wanted.krl)"

# Texts of 64 MiB, and longer ones: none is cut there.
rm -f made.krl
{
  printf 'ca: all\nserial: 5\n#' && head -c $((67108864 - 30)) /dev/zero | tr '\0' - &&
    printf '\nserial: 6\n'
} >long
judge 'the length of the text' "$(differs bytes 67108864 "$(stat -c %s long)")"
expect 'a text of 64 MiB' 0 '' $'krl make: made.krl: version 1: 1 CA, 2 serial numbers\n' \
  make -f made.krl long
cp made.krl before.krl
echo 'serial: 7' >>long
run make -f made.krl long
judge 'a text of more than 64 MiB is refused' "$(
  differs 'exit status' 255 "$got_status"
  grep -q '^krl: long: .*\[krl 12 TooLong\]$' "$scratch/error" || cat "$scratch/error"
  cmp before.krl made.krl 2>&1
)"
rm long

# Nothing is left beside a list that is not made, also after a fault that is found under the lock.
mkdir beside && cd beside || exit 1
printf 'ca: all\nserial: 5\n' >text
echo garbage >none.krl
"$program" make -q -f full.krl -z 18446744073709551615 text
for it in 'make -f none.krl text' 'make -f full.krl text' 'make -f made.krl text missing' \
  'make -f made.krl /dev/null' 'make -f gone/made.krl text'; do
  # shellcheck disable=SC2086
  run $it
  judge "what is beside the list after krl $it" "$(
    differs 'exit status' 255 "$got_status"
    differs files 'full.krl none.krl text' "$(ls -A | xargs)"
  )"
done
# A link that leads to itself, and one that another process turns without end.
ln -s spins.krl spins.krl
timeout 60 "$program" make -f spins.krl -z 1 text >"$scratch/output" 2>&1
judge 'a link that leads to itself' "$(differs 'exit status' 255 $?; [ -L spins.krl ] || ls -l)"
mkdir a b
timeout 100 python3 - <<'END' &
import os, time
for turn in range(10**9):
    os.symlink("ab"[turn % 2] + "/it.krl", "next")
    os.rename("next", "turned.krl")
END
for _ in {1..100}; do [ -L turned.krl ] && break || sleep 0.1; done
timeout 60 "$program" make -q -f turned.krl -z 1 text >"$scratch/output" 2>&1
status=$?
kill $! && wait $! 2>/dev/null
judge 'a link that another process turns without end' "$(
  case $status in
    0) [ -s a/it.krl ] || [ -s b/it.krl ] || echo '  no list is made' ;;
    255) ;;
    *) differs 'exit status' 255 $status ;;
  esac
  differs 'other files' '' "$(ls -A a b | grep -vxE 'it.krl|[ab]:|')"
)"
cd ..
