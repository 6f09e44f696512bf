# A plain file of public keys as RevokedKeys of a real sshd: whom it refuses for each form of a
# line, and what krl and libkrl answer by the same file. The tables of docs/FORMATS.md state the
# rules.

if ! need sshd openssh-server; then
  echo '# plain_lists is skipped: sshd is missing, and could not be installed'
  return
fi
. "$tests/lib/sshd/serving.sh"
for name in one ca-a user; do made_key $name ed25519; done
for name in two ca-b; do made_key $name ecdsa; done
made_key rsa rsa
# Certificates of the key user, which is let in by them alone, and one whose key is an authority's.
for name in a5 a6 b5; do
  "$openssh" -q -s "$room/ca-${name:0:1}" -I "id of $name" -z "${name:1}" -n "$user" \
    "$room/user.pub"
  mv "$room/user-cert.pub" "$room/$name.pub"
done
"$openssh" -q -s "$room/ca-b" -I 'an authority' "$room/ca-a.pub"
"$openssh" -q -s "$room/ca-b" -I 'an old one' -V 20010101:20010102 "$room/one.pub"
mv "$room/one-cert.pub" "$room/old.pub"
cat "$room/ca-a.pub" "$room/ca-b.pub" >"$room/authorities"
# The keys of devices have no private halves here: sshd is only asked whether it would accept them.
{ read -r ecdsa_sk && read -r ed25519_sk; } <"$tests/lib/device_keys"
echo "$ecdsa_sk" >"$room/ecdsa-sk.pub"
echo "$ed25519_sk" >"$room/ed25519-sk.pub"
cat "$room"/{one,two,rsa,ecdsa-sk,ed25519-sk}.pub >"$room/allowed"
# This may take longer than the sshd lasts.
"$top/library/build" || judge 'libkrl is built' '  it is not'
configure "TrustedUserCAKeys $room/authorities" "RevokedKeys $room/revoked"
serve

# accepts NAME: whether sshd would accept a signature of this key.
accepts() {
  timeout 20 ssh -v -F none -p "$port" -o IdentitiesOnly=yes -o IdentityAgent=none \
    -o BatchMode=yes -o StrictHostKeyChecking=no -o UserKnownHostsFile=/dev/null \
    -i "$room/$1.pub" \
    "$user@127.0.0.1" true \
    2>&1 </dev/null | grep -q 'Server accepts key'
}

# verdict NAME: whether this key gets in, or which reason sshd logs.
verdict() {
  local before way=enters
  before=$(wc -l <"$room/log")
  [[ $1 != *-sk ]] || way=accepts
  if $way "$1"; then
    echo in
  else
    tail -n +$((before + 1)) "$room/log" |
      sed -n 's/.*revoked by file.*/revoked/p; s/.*Error checking .*/fault/p' | head -n 1
  fi
}

# sshd_says NAME WANTED: WANTED has an answer for each key.
sshd_says() {
  local it got=
  for it in $2; do got+=" ${it%=*}=$(verdict "${it%=*}")"; done
  judge "$1" "$(differs 'the answers' "$2" "${got:1}")"
}

# library_says KEY..: the answers of krl_check_any.
library_says() {
  python3 "$tests/lib/library/asked_any" "$room/revoked" "${@/%/.pub}"
}

# refused NAME WANTED: krl names a line of the list, and libkrl gives no answer by it, whatever the
# key is.
refused() {
  local it keys=() numbers=
  for it in $2; do keys+=("$room/${it%=*}") numbers+=" ${number:--117}"; done
  judge "$1: krl and libkrl" "$(
    for it in "check $room/revoked" "audit -f $room/revoked ${keys[0]}.pub"; do
      "$krl" $it >"$scratch/output" 2>"$scratch/error"
      differs "status of krl ${it%% *}" 255 $?
      differs 'standard output' '' "$(cat "$scratch/output")"
      grep -qE '^krl: [^ ]+: .+ \[(line|subject|krl) [0-9]' "$scratch/error" ||
        differs 'standard error' 'a fault of the list' "$(cat "$scratch/error")"
    done
    differs libkrl "${numbers:1}" "$(library_says "${keys[@]}")"
  )"
}

# read_so NAME WANTED: krl and libkrl give these answers. A list that revokes nobody is not to be
# put in force, nor is one for which the caller sets the status of krl check.
read_so() {
  local it got= keys=() numbers= status=${status:-0}
  [[ $2 == *=revoked* ]] || status=1
  for it in $2; do
    keys+=("$room/${it%=*}") numbers+=" $([[ $it == *=in ]]; echo $?)"
    "$krl" audit -q -f "$room/revoked" "$room/${it%=*}.pub" 2>"$scratch/error"
    case $? in
      0) got+=" ${it%=*}=in" ;;
      1) got+=" ${it%=*}=revoked" ;;
      *) got+=" $(cat "$scratch/error")" ;;
    esac
  done
  judge "$1: krl and libkrl" "$(
    differs 'krl audit' "$2" "${got:1}"
    "$krl" check "$room/revoked" >"$scratch/output" 2>&1
    differs 'krl check' $status $?
    differs libkrl "${numbers:1}" "$(library_says "${keys[@]}")"
  )"
}

# plain NAME WANTED FORMAT [WORD..]: the list that printf writes. krl and libkrl refuse it where
# sshd refuses all keys.
plain() {
  local name=$1 wanted=$2
  shift 2
  printf "$@" >"$room/revoked"
  sshd_says "$name" "$wanted"
  if [[ $wanted == *=fault* ]]; then refused "$name" "$wanted"; else read_so "$name" "$wanted"; fi
}
# stricter NAME WANTED FORMAT [WORD..]: a list that sshd reads, and krl and libkrl refuse.
stricter() {
  local name=$1 wanted=$2
  shift 2
  printf "$@" >"$room/revoked"
  sshd_says "$name" "$wanted"
  refused "$name" "$wanted"
}
# milder NAME OTHERS FORMAT [WORD..]: a list for which sshd refuses all keys, and by which krl and
# libkrl answer so.
milder() {
  local name=$1 others=$2
  shift 2
  printf "$@" >"$room/revoked"
  sshd_says "$name" "$all"
  read_so "$name" "$others"
}
key() {
  cut -d ' ' -f 1,2 "$room/$1.pub"
}
one=$(key one) two=$(key two) word=${one#* }
nobody='one=in two=in' first='one=revoked two=in' all='one=fault two=fault'

# Lines without a key, and how lines begin and end.
plain 'an empty file' "$nobody" ''
plain 'a line feed' "$nobody" '\n'
plain 'a comment without a line feed' "$nobody" '# a comment'
plain 'a key' "$first" '%s\n' "$one"
plain 'a key without a line feed' "$first" '%s' "$one"
plain 'two keys, the last without a line feed' 'one=revoked two=revoked rsa=in' '%s\n%s' \
  "$one" "$two"
plain 'blank lines, comments, a key' "$first" '# c\n\n  \n\t\n \t # c\n%s\n' "$one"
plain 'blanks before a key and tabs in it' "$first" ' \tssh-ed25519\t\t%s\tcomment\n' "$word"
plain 'a key and CR LF' "$first" '# c\r\n%s\r\n' "$one"
plain 'a comment of a key and CR LF' "$first" '%s comment\r\n' "$one"
plain 'an empty line of CR LF' "$all" '\r\n'
plain 'a line of a blank and CR LF' "$all" ' \r\n'
plain 'a key and an empty line of CR LF' 'one=revoked two=fault' '%s\r\n\r\n' "$one"
plain 'CR alone between lines' "$all" '%s\r%s\r' "$one" "$two"
stricter 'CR and VT within base64' "$first" 'ssh-ed25519 %s\r%s\v%s\n' "${word:0:20}" \
  "${word:20:20}" "${word:40}"
stricter 'FF within base64' "$first" 'ssh-ed25519 %s\f%s\n' "${word:0:20}" "${word:20}"
plain 'VT before a key' "$all" '\v%s\n' "$one"
plain 'a byte order mark before a comment' "$all" '\xef\xbb\xbf# c\n'
plain 'a long comment' "$first" '%s %s\n' "$one" "$(head -c 300000 /dev/zero | tr '\0' x)"
plain 'a long comment line' "$first" '# %s\n%s\n' "$(head -c 300000 /dev/zero | tr '\0' x)" "$one"

# Text that is no key, before the key and after it.
plain 'garbage after a key' 'one=revoked two=fault' '%s\ngarbage\n' "$one"
plain 'garbage before a key' "$all" 'garbage\n%s\n' "$one"
plain 'options' "$all" 'no-pty %s\n' "$one"
plain 'a marker' "$all" '@revoked %s\n' "$one"
plain 'a host name' "$all" '127.0.0.1 %s\n' "$one"
plain 'a line for ssh-keygen -k' "$all" 'key: %s\n' "$one"
plain 'an unknown type' "$all" 'ssh-mldsa65 AAAA\n%s\n' "$one"
plain 'another type' "$all" 'ssh-rsa %s\n' "$word"
plain 'a type in capitals' "$all" 'SSH-ED25519 %s\n' "$word"
plain 'a type alone' "$all" 'ssh-ed25519 \n'
plain 'truncated base64' "$all" '%s\n' "${one%???}"
plain 'base64 of a truncated key' "$all" '%s\n' "${one%????????}"
plain 'a character after the base64' "$all" '%s#\n' "$one"
plain 'base64 without its padding' "$all" '%s\n' "${two%%=*}"
plain 'a private key' "$all" '%s\n' "$(cat "$room/one")"
plain "a fingerprint" "$all" '%s\n' "$("$openssh" -l -f "$room/one.pub")"

# Zero bytes, which end a line.
plain 'zero bytes' "$nobody" '\0\0\0\0\0\0\0\0\0\0'
plain 'a zero byte before a key' "$nobody" '\0%s\n' "$one"
plain 'a zero byte before garbage, and a key' "$first" '\0garbage\n%s\n' "$one"
plain 'a zero byte after a key' "$first" '%s\0garbage\n' "$one"
plain 'a zero byte within base64' "$all" 'ssh-ed25519 %s\0%s\n' "${word:0:20}" "${word:20}"
plain 'a zero byte in a comment line' "$first" '# c\0\n%s\n' "$one"

# The magic of a revocation list, or less.
plain 'the first bytes of the magic' "$all" 'SSHKRL\n'
number=-103 plain 'the magic alone' "$all" 'SSHKRL\n\0'
plain 'a line feed and the magic' "$all" '\nSSHKRL\n\0'

# Keys.
# modulus BYTES [EXPONENT]: the blob of an RSA key.
modulus() {
  rsa "$(string "${2-03}")" "$(string "00$(repeat "$1" c5)")"
}
plain 'an RSA key below 1,024 bits' "$first" '%s\n%s\n' "$(line ssh-rsa "$(modulus 127)")" "$one"
plain 'an RSA key of 1,024 bits' "$first" '%s\n%s\n' "$(line ssh-rsa "$(modulus 128)")" "$one"
plain 'an RSA key above 16,384 bits' "$all" '%s\n%s\n' "$(line ssh-rsa "$(modulus 2049)")" "$one"
plain 'an RSA key with an exponent above 16,384 bits' "$all" '%s\n%s\n' \
  "$(line ssh-rsa "$(modulus 128 "$(repeat 2049 01)")")" "$one"
plain 'an RSA key below 1,024 bits with such an exponent' "$all" '%s\n%s\n' \
  "$(line ssh-rsa "$(modulus 127 "$(repeat 2049 01)")")" "$one"
small=$(string 03)
status=1 plain 'a DSA key of small numbers' "$first" '%s\n%s\n' \
  "$(line ssh-dss "$(words ssh-dss)$small$small$small$small")" "$one"
for at in 1 2 3 4; do
  numbers=("$(words ssh-dss)" "$small" "$small" "$small" "$small")
  numbers[at]=$(string "$(repeat 2049 01)")
  plain "a DSA key whose number $at has more than 16,384 bits" "$all" '%s\n%s\n' \
    "$(line ssh-dss "$(printf %s "${numbers[@]}")")" "$one"
done
stricter 'an RSA key below 1,024 bits and a byte after it' "$first" '%s\n%s\n' \
  "$(line ssh-rsa "$(modulus 127)00")" "$one"
stricter 'an RSA key below 1,024 bits by another type' "$first" '%s\n%s\n' \
  "$(line ssh-ed25519 "$(modulus 127)")" "$one"
stricter 'an RSA key whose exponent is zero' "$first" '%s\n%s\n' \
  "$(line ssh-rsa "$(modulus 128 '')")" "$one"
stricter 'an RSA key by the name of its signatures' 'rsa=revoked one=in' 'rsa-sha2-256 %s\n' \
  "$(key rsa | cut -d ' ' -f 2)"
blob=$(key rsa | cut -d ' ' -f 2 | base64 -d | od -An -v -tx1 | tr -d ' \n')
stricter 'an RSA key with a needless zero byte' 'rsa=revoked one=in' '%s\n' \
  "$(line ssh-rsa "${blob/00000003010001/0000000400010001}")"
plain 'a point of Ed25519 that is not on the curve' "$first" '%s\n%s\n' \
  "$(line ssh-ed25519 "$(ed25519 "$(repeat 32 ff)")")" "$one"
while read -r curve on_it short long; do
  type=ecdsa-sha2-nistp$curve
  plain "a point on P-$curve" "$first" '%s\n%s\n' \
    "$(line "$type" "$(ecdsa "$curve" "04$on_it")")" "$one"
  for it in "${on_it%?}$((0x${on_it: -1} < 8 ? 8 : 0))" "$short" "$long"; do
    plain "a point of P-$curve that sshd refuses, ${it:0:8}" "$all" '%s\n%s\n' \
      "$(line "$type" "$(ecdsa "$curve" "04$it")")" "$one"
  done
done <"$tests/lib/curve_points"
plain 'a byte after a key' "$all" '%s\n' "$(line ssh-ed25519 "${G}00")"
plain 'a key of a device' 'ed25519-sk=revoked ecdsa-sk=in' '%s\n' "$ed25519_sk"
stricter 'a key of a device by the name of its signatures' 'ed25519-sk=in ecdsa-sk=revoked' \
  'webauthn-%s\n' "$ecdsa_sk"
sk=sk-ssh-ed25519@openssh.com
stricter 'a key of a device with a zero byte more' 'ed25519-sk=revoked ecdsa-sk=in' '%s\n' \
  "$(line $sk "$(words $sk)$(string $github)$(string "$(text ssh:)00")")"

# Certificates, their keys and their authorities.
plain 'a certificate' 'a5=revoked a6=revoked b5=revoked one=in' '%s\n' "$(cat "$room/a5.pub")"
plain 'the key of certificates' 'a5=revoked a6=revoked b5=revoked one=in' '%s\n' "$(key user)"
plain 'the key of an authority' 'a5=revoked a6=revoked b5=in one=in' '%s\n' "$(key ca-a)"
plain 'a certificate of an authority' 'a5=revoked b5=in one=in' '%s\n' \
  "$(cat "$room/ca-a-cert.pub")"
plain 'an old certificate' "$first" '%s\n' "$(cat "$room/old.pub")"
blob=$(key a5 | cut -d ' ' -f 2 | base64 -d | od -An -v -tx1 | tr -d ' \n')
last=00
[ "${blob: -2}" != 00 ] || last=01
milder 'a certificate with a wrong signature' 'a5=revoked one=in two=in' '%s\n' \
  "$(line ssh-ed25519-cert-v01@openssh.com "${blob%??}$last")"

# A missing file, and names that are not files.
rm "$room/revoked"
judge 'a missing list refuses all keys' "$(differs one fault "$(verdict one)")"
mkdir "$room/revoked"
judge 'a folder refuses all keys' "$(differs one fault "$(verdict one)")"
ends
