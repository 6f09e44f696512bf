# The differences from OpenSSH that the manual page lists, each with both programs. Others are in
# zero_bytes (the spelling of keys), query.sh and check.sh (lists), and command.sh (arguments).

for it in one two ca; do "$openssh" -q -t ed25519 -N '' -C $it -f $it; done
"$openssh" -q -k -f two.krl two.pub

# theirs NAME STATUS TEXT WORD..: OpenSSH's program ends so, and prints the text among others.
theirs() {
  local name=$1 status=$2 text=$3 output
  shift 3
  output=$("$openssh" "$@" 2>&1 </dev/null)
  judge "OpenSSH: $name" "$(
    differs 'exit status' "$status" $?
    [[ $output == *"$text"* ]] || printf '  it prints %q\n' "$output"
  )"
}
# faults NAME FAULT WORD..: this program ends with the fault.
faults() {
  expect "$1" 255 '' "ssh-keygen: $2"$'\n' "${@:3}"
}
# Keys of files.
cat one.pub two.pub >both.pub
theirs 'a query of two keys' 0 'both.pub (one): ok' -Q -f two.krl both.pub
expect 'a query of two keys' 1 $'both.pub (one): ok\nboth.pub (two): REVOKED\n' '' \
  -Q -f two.krl both.pub
{ echo garbage && cat two.pub; } >wrong.pub
{ echo "@cert-authority * $(cat one.pub)" && cat two.pub; } >marked.pub
for it in wrong marked; do
  theirs "a query of a line that is $it" 1 "$it.pub (two): REVOKED" -Q -f two.krl $it.pub
  theirs "a line that is $it" 0 'two (ED25519)' -l -f $it.pub
  faults "a query of a line that is $it" "$it.pub: line 1: line 1 NoKey" -Q -f two.krl $it.pub
  faults "a line that is $it" "$it.pub: line 1: line 1 NoKey" -l -f $it.pub
done
cp two.pub k.pub
theirs 'a file k, where k.pub is' 1 'k (two): REVOKED' -Q -f two.krl k
faults 'a file k, where k.pub is' 'k: file 1 Open' -Q -f two.krl k
cut -d ' ' -f 1,2 one.pub >bare
theirs 'a key without a comment' 0 'bare (bare): ok' -Q -f two.krl bare
expect 'a key without a comment' 0 $'bare: ok\n' '' -Q -f two.krl bare
word=$(cut -d ' ' -f 2 one.pub)
printf 'ssh-ed25519 %s\r%s one\n' "${word:0:20}" "${word:20}" >return.pub
theirs 'a carriage return within base64' 0 'one (ED25519)' -l -f return.pub
faults 'a carriage return within base64' 'return.pub: line 1: line 2 Base64' -l -f return.pub

# Certificates: one whose key ID was changed after it was signed.
"$openssh" -q -s ca -I someone -z 1 one.pub
read -r type word _ <one-cert.pub
word=$(base64 -d <<<"$word" | sed s/someone/another/ | base64 -w 0)
echo "$type $word" >changed.pub
theirs 'a changed certificate' 1 '' -L -f changed.pub
run -L -f changed.pub
judge 'a changed certificate' "$(differs status 0 $got_status
  grep -qxF '        Key ID: "another"' <<<"$got_output" || echo "$got_output")"
theirs 'no certificate' 1 '' -L -f one.pub
faults 'no certificate' 'one.pub: file 6 NoCertificate' -L -f one.pub

# Private keys.
"$openssh" -q -t ed25519 -N secret -C locked -f locked && rm locked.pub
"$openssh" -q -t rsa -b 2048 -m PEM -N '' -f pem && rm pem.pub
"$openssh" -q -t ecdsa -m PKCS8 -N '' -f pkcs8 && rm pkcs8.pub
"$openssh" -e -f one.pub >rfc4716
theirs 'a private key with a passphrase' 0 '(ED25519)' -l -f locked
faults 'a private key with a passphrase' 'locked: private 4 Encrypted' -l -f locked
theirs 'a private key in PEM' 0 '(RSA)' -l -f pem
theirs 'a private key in PKCS#8' 0 '(ECDSA)' -l -f pkcs8
for it in pem pkcs8 rfc4716; do faults "a key in $it" "$it: line 1: line 1 NoKey" -l -f $it; done
fingerprint=$("$openssh" -l -f one.pub | cut -d ' ' -f 2)
rm one.pub
sed 's/$/\r/' one >returns
theirs 'a private key with carriage returns' 255 '' -l -f returns
expect 'a private key with carriage returns' 0 "256 $fingerprint one (ED25519)"$'\n' '' \
  -l -f returns
sed '2s/./& /' one >blanks
theirs 'a private key with a blank in its base64' 0 '(ED25519)' -l -f blanks
faults 'a private key with a blank in its base64' 'blanks: private 2 Base64' -l -f blanks
"$openssh" -y -f one >one.pub

# Options.
for it in sha1 sha384 sha512; do
  theirs "fingerprints by $it" 0 "${it^^}:" -l -E $it -f one.pub
  expect "fingerprints by $it" 2 '' $'ssh-keygen: usage 1 Usage\n' -l -E $it -f one.pub
done
for it in -q -v; do
  "$openssh" -k $it -f made.krl one.pub >/dev/null 2>&1
  judge "OpenSSH: $it" "$(differs status 0 $?)"
  expect_text "$it" 2 error -k $it -f made.krl one.pub
done
theirs 'a wrong value before a right one' 255 'Invalid hash' -l -E none -E md5 -f one.pub
run -l -E none -E md5 -f one.pub
judge 'a wrong value before a right one' "$(differs status 0 $got_status)"
theirs 'a value after =' 255 '=one.pub' -l -f=one.pub
expect 'a value after =' 0 "256 $fingerprint one (ED25519)"$'\n' '' -l -f=one.pub
theirs 'no -f' 1 'Enter file' -l
expect 'no -f' 2 '' $'ssh-keygen: usage 1 Usage\n' -l
theirs 'an option that is not known' 1 usage --none
expect_text 'an option that is not known' 2 error --none

# Files of -k.
# made_by PROGRAM LINE [WORD..]: makes a list of one line, without the line's end.
made_by() {
  rm -f made.krl
  printf "$2" >lines
  "$1" -k -f made.krl -s ca.pub "${@:3}" lines >"$scratch/output" 2>&1
}
# contents: what the list made.krl has under its CA, and the keys.
contents() {
  "$openssh" -Q -l -f made.krl | sed -n '/^[a-z]/p'
}
# both NAME LINE THEIRS OURS: what the lists of both programs have. A star is for a refused line.
both() {
  of_one "OpenSSH: $1" "$openssh" "$2" "$3"
  of_one "$1" "$program" "$2" "$4"
}
of_one() {
  local wanted=0 got
  [ "$4" != '*' ] || wanted=255
  made_by "$2" "$3"
  got=$?
  judge "$1" "$(
    differs 'exit status' $wanted $got
    [ $wanted != 0 ] || differs contents "$4" "$(contents)"
  )"
}
both 'an interval of one number' 'serial: 5-5\n' '*' 'serial: 5'
both 'blanks round the hyphen' 'serial: 1 - 5\n' '*' 'serial: 1-5'
both 'a number with a sign' 'serial: -5\n' 'serial: 18446744073709551611' '*'
both 'a key ID without a letter' 'id:\n' 'id: ' '*'
both 'a carriage return after a key ID' 'id: bob\r\n' 'id: bob\015' 'id: bob'
both 'a carriage return alone in a line' 'id: bob\n\r\n' '*' 'id: bob'
both 'a carriage return after a number' 'serial: 5\r\n' '*' 'serial: 5'
# OpenSSH's program prints the hash itself in hexadecimal digits.
digits=$(cut -d ' ' -f 2 one.pub | base64 -d | sha256sum | cut -c 1-64)
both 'a carriage return after a hash' "hash: $fingerprint\r\n" '*' "hash: SHA256:$digits"
both 'options before a key' "no-pty $(cat one.pub)\n" '*' "hash: $fingerprint # ssh-ed25519"
made_by "$openssh" 'serial: 5\n' -z 7
judge 'OpenSSH: -k prints a line' "$(grep -q 'Revoking from' "$scratch/output" || echo '  none')"
head -c 28 made.krl >before
sleep 1
"$openssh" -q -k -u -f made.krl -s ca.pub lines
judge 'OpenSSH: -u keeps the version and the time' "$(head -c 28 made.krl | cmp - before 2>&1)"
SOURCE_DATE_EPOCH=5 "$program" -k -u -f made.krl -s ca.pub lines >"$scratch/output" 2>&1
judge '-k prints nothing' "$(cat "$scratch/output")"
judge '-u raises the version, and renews the time' "$(
  differs version 8 "$(od -An -j 12 -N 8 -t u8 --endian=big made.krl | tr -d ' ')"
  differs time 5 "$(od -An -j 20 -N 8 -t u8 --endian=big made.krl | tr -d ' ')"
)"

# Lists that are printed.
made_by "$openssh" "serial: 5\n$(cat one.pub)\n"
theirs 'keys are printed before serial numbers, as fingerprints' 0 \
  "hash: $fingerprint # ssh-ed25519

# CA key ssh-ed25519 $("$openssh" -l -f ca.pub | cut -d ' ' -f 2)
serial: 5" -Q -l -f made.krl
run -Q -l -f made.krl
judge 'serial numbers are printed before keys, and keys are whole' "$(
  differs contents "serial: 5
key: $(cut -d ' ' -f 2 one.pub)" "$(grep -v '^#' <<<"$got_output")"
)"
"$openssh" -q -k -f made.krl -s none lines
theirs 'the CA of all' 0 $'# Wildcard CA\nserial: 5' -Q -l -f made.krl
run -Q -l -f made.krl
judge 'the CA of all' "$(grep -qxF '# CA all' <<<"$got_output" || echo "$got_output")"
