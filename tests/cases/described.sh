# Certificates printed (-L).

type=ssh-ed25519-cert-v01@openssh.com
published='SHA256:+DiY3wvvV6TuJJhbpZisF/zLDA0zPMSvHdkr4UvCOqU'
none=('Principals: (none)' 'Critical Options: (none)' 'Extensions: (none)')

# shown NUMBER SERIAL VALID NOW LINE..: what is printed of a certificate of G, by G, with the key ID
# a.
shown() {
  printf 'c.pub:%s:\n' "$1"
  printf '        %s\n' "Type: $type user certificate" "Public key: ED25519-CERT $published" \
    "Signing CA: ED25519 $published (using ssh-ed25519)" 'Key ID: "a"' "Serial: $2" "Valid: $3" \
    "Valid now: $4" "${@:5}"
}
# describes NAME TEXT FIELD..: the certificate with these fields is printed so.
describes() {
  line $type "$(certificate "$G" "$G" 0000000000000007 a "${@:3}")" >c.pub
  expect "$1" 0 "$2"$'\n' '' -L -f c.pub
}
start=$(printf %016x 1600000000)
describes 'a certificate' "$(shown 1 7 forever yes "${none[@]}")"
describes 'a validity with an end that is a number' \
  "$(shown 1 7 'before @253370764800' yes "${none[@]}")" \
  '' '' "$(printf %016x 253370764800)"
describes 'a validity with an end' "$(shown 1 7 'before 9998-12-31T23:59:59Z' yes "${none[@]}")" \
  '' '' "$(printf %016x 253370764799)"
describes 'a validity that is over' "$(shown 1 7 'before 2020-09-13T12:26:40Z' no "${none[@]}")" \
  '' '' "$start"
describes 'a validity with a beginning' \
  "$(shown 1 7 'after 2020-09-13T12:26:40Z' yes "${none[@]}")" '' "$start"
describes 'a validity that has not begun' "$(shown 1 7 'after @253370764800' no "${none[@]}")" \
  '' "$(printf %016x 253370764800)"
describes 'a validity of both ends' \
  "$(shown 1 7 'from 1970-01-01T00:00:01Z to 2020-09-13T12:26:40Z' no "${none[@]}")" '' \
  0000000000000001 "$start"
options() {
  words force-command
  string "$1"
}
describes 'principals and options' \
  "$(shown 1 7 forever yes Principals: '        root' 'Critical Options:' \
  '        force-command id' Extensions: '        permit-pty')" \
  "$(words root)" '' '' "$(options "$(words id)")" "$(words permit-pty '')"
describes 'an option that is no text' "$(shown 1 7 forever yes "${none[0]}" 'Critical Options:' \
  '        force-command hex:ff' "${none[2]}")" '' '' '' "$(options ff)"
describes 'an option that is not known' \
  "$(shown 1 7 forever yes "${none[0]}" "${none[1]}" Extensions: \
  '        d@e hex:0000000166' '        ')" '' '' '' '' \
  "$(words d@e && string "$(words f)" && words '' '')"
describes 'control characters' "$(shown 1 7 forever yes Principals: '        a\x0ab' '        ' \
  'Critical Options:' '        source-address \x1b' "${none[2]}")" \
  "$(words $'a\nb' '')" '' '' "$(words source-address && string "$(words $'\x1b')")"

line $type "$(certificate "$G" "$G" 0000000000000007 a)" 'its comment' >c.pub
line ssh-ed25519 "$A" >>c.pub
printf '# none\n\n' >>c.pub
line $type "$(certificate "$G" "$G" ffffffffffffffff a)" >>c.pub
both=$(shown 1 7 forever yes "${none[@]}" && shown 5 18446744073709551615 forever yes "${none[@]}")
expect 'plain keys are passed over' 0 "$both"$'\n' '' -L -f c.pub
expect 'MD5 fingerprints' 0 "${both//$published/$(fingerprint "$G" md5)}"$'\n' '' -L -E md5 -f c.pub
expect 'certificates of standard input' 0 "${both//c.pub/-}"$'\n' '' -L -f - <c.pub
echo nothing >>c.pub
expect 'the certificates before a fault stand' 255 "$both"$'\n' \
  $'ssh-keygen: c.pub: line 6: line 1 NoKey\n' \
  -L -f c.pub
line ssh-ed25519 "$G" >g.pub
: >empty
expect 'no certificate' 255 '' $'ssh-keygen: g.pub: file 6 NoCertificate\n' -L -f g.pub
expect 'no line' 255 '' $'ssh-keygen: empty: file 6 NoCertificate\n' -L -f empty
expect 'no file' 255 '' $'ssh-keygen: none: file 1 Open\n' -L -f none
