# Listings: what is printed for keys of each kind, and each fault of a key's bytes.

line ssh-ed25519 "$G" >g.pub
published='SHA256:+DiY3wvvV6TuJJhbpZisF/zLDA0zPMSvHdkr4UvCOqU'
sha256="256 $published no comment (ED25519)"$'\n'
md5="256 $(fingerprint "$G" md5) no comment (ED25519)"$'\n'

expect 'a listing' 0 "$sha256" '' -l -f g.pub
expect 'a listing of standard input' 0 "$sha256" '' -l -f - <g.pub
expect 'options of a listing in one word' 0 "$sha256" '' -lf g.pub
for hash in sha256 SHA256 Sha256; do
  expect "hash $hash" 0 "$sha256" '' -l -E $hash -f g.pub
done
for hash in md5 MD5 mD5; do
  expect "hash $hash" 0 "$md5" '' -l -E $hash -f g.pub
done

# lists TYPE DIGITS WANTED: the key that the digits spell is listed with these bits and short name.
lists() {
  line "$1" "$2" comment >key
  expect "a key of $3" 0 "${3% *} $(fingerprint "$2") comment (${3#* })"$'\n' '' -l -f key
}
three=0000000103
lists ssh-rsa "$(rsa $three 0000000200ff)" '8 RSA'
lists ssh-rsa "$(rsa $three 000000020100)" '9 RSA'
lists ssh-rsa "$(rsa $three "0000ffec01$(repeat 65515 00)")" '524121 RSA'
lists ssh-dss "$(words ssh-dss)00000002010100000001030000000102000000017f" '9 DSA'
lists ecdsa-sha2-nistp256 "$(ecdsa 256 "04$(repeat 64 5a)")" '256 ECDSA'
lists ecdsa-sha2-nistp384 "$(ecdsa 384 "04$(repeat 96 5a)")" '384 ECDSA'
lists ecdsa-sha2-nistp521 "$(ecdsa 521 "04$(repeat 132 5a)")" '521 ECDSA'
lists ssh-ed25519 "$A" '256 ED25519'
type=sk-ecdsa-sha2-nistp256@openssh.com
lists $type "$(words $type nistp256 && string "04$(repeat 64 5a)" && words ssh:)" '256 ECDSA-SK'
type=sk-ssh-ed25519@openssh.com
lists $type "$(words $type && string "$github" && words '')" '256 ED25519-SK'

# refuses SUBJECT_FAULT NAME TYPE DIGITS: the blob that the digits spell is refused so.
refuses() {
  line "$3" "$4" >key
  expect "a key with $2" 255 '' "ssh-keygen: key: line 1: subject $1"$'\n' -l -f key
  expect "a query of a key with $2" 255 '' "ssh-keygen: key: line 1: subject $1"$'\n' \
    -Q -f h.krl key
}

# refuses_key FAULT NAME TYPE DIGITS: the same, of a plain key.
refuses_key() {
  refuses "1 Key, key $1" "$2" "$3" "$4"
}
bytes "$H" >h.krl
refuses_key '1 Wire, wire 1 Short' 'its last byte cut off' ssh-ed25519 "${G%??}"
refuses_key '1 Wire, wire 2 Negative' 'a negative number' ssh-rsa "$(rsa $three 00000001ff)"
refuses_key '1 Wire, wire 3 NotShortest' 'a needless zero byte' ssh-rsa "$(rsa $three 00000002007f)"
refuses_key '1 Wire, wire 3 NotShortest' 'a zero of one byte' ssh-rsa "$(rsa $three 0000000100)"
refuses_key '3 Curve' 'another curve' ecdsa-sha2-nistp256 \
  "$(ecdsa 256 "04$(repeat 64 5a)" nistp384)"
refuses_key '4 Point' 'a compressed point' ecdsa-sha2-nistp256 "$(ecdsa 256 "02$(repeat 64 5a)")"
refuses_key '4 Point' 'a short point' ecdsa-sha2-nistp256 "$(ecdsa 256 "04$(repeat 63 5a)")"
refuses_key '5 Length' '31 bytes' ssh-ed25519 "$(ed25519 "${github:2}")"
refuses_key '6 Number' 'exponent zero' ssh-rsa "$(rsa 00000000 0000000200ff)"
refuses_key '7 Trailing' 'one more byte' ssh-ed25519 "${G}00"
refuses_key '8 TooLong' '65,537 bytes' ssh-rsa "$(rsa $three "0000ffed01$(repeat 65516 00)")"
for type in ssh-rsa ssh-dss ecdsa-sha2-nistp256 ecdsa-sha2-nistp384 ecdsa-sha2-nistp521 \
  ssh-ed25519 \
  sk-ecdsa-sha2-nistp256 sk-ssh-ed25519; do
  type=$type-cert-v01@openssh.com
  refuses '2 Cert, cert 1 Wire' "the type $type alone" $type "$(words $type)"
  refuses '2 Cert, cert 3 Key, key 1 Wire, wire 1 Short' "the type $type and a nonce" \
    $type "$(words $type '')"
done
