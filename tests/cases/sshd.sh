# A real sshd on the loopback, whose RevokedKeys are lists that the program made: who logs in with a
# key or a certificate is let in or refused as -Q answers about it.

. "$tests/lib/sshd/serving.sh"
made_key one ed25519
made_key two ecdsa
made_key user ed25519
made_key ca-a ed25519
made_key ca-b ecdsa
highest=18446744073709551615
# Certificates of one key, which is let in by them alone: NAME is that of its authority and its
# serial.
for name in a0 a5 a6 a7 a300 a$highest b5 b6; do
  "$openssh" -q -s "$room/ca-${name:0:1}" -I "id of $name" -z "${name:1}" -n "$user" \
    "$room/user.pub"
  mv "$room/user-cert.pub" "$room/$name.pub"
done
cat "$room/ca-a.pub" "$room/ca-b.pub" >"$room/authorities"
cat "$room/one.pub" "$room/two.pub" >"$room/allowed"

configure "TrustedUserCAKeys $room/authorities" "RevokedKeys $room/revoked.krl"
serve

# login NAME STATUS KEY: -Q ends with this status for the key, and sshd lets in exactly the keys
# with status 0.
login() {
  local got answer
  "$program" -Q -f "$room/revoked.krl" "$room/$3.pub" >"$scratch/answer" 2>&1
  answer=$?
  enters "$3"
  got=$?
  judge "$1: $3" "$(
    differs 'status of -Q' "$2" $answer
    [ $answer = "$2" ] || cat "$scratch/answer"
    differs 'sshd refuses' "$2" $got
    [ $got = "$2" ] || cat "$scratch/error"
  )"
}

# lists NAME LINES REFUSED LET_IN WORD..: the program makes a list of the lines, with the words.
lists() {
  local name=$1 lines=$2 refused=$3 let_in=$4 key
  shift 4
  printf '%s\n' "$lines" >"$room/spec"
  expect "$name" 0 '' '' -k -f "$room/revoked.krl" "$@" "$room/spec"
  for key in $refused; do login "$name" 1 "$key"; done
  for key in $let_in; do login "$name" 0 "$key"; done
}
under_a=(-s "$room/ca-a.pub")
rm -f "$room/revoked.krl"
lists 'a list of nothing' '' '' 'one two a0 a5 b5'
lists 'a key' "$(cat "$room/one.pub")" one 'two a5'
lists 'the key of certificates' "key: $(cat "$room/user.pub")" 'a0 a5 b5' 'one'
lists 'the SHA-1 of a key' "sha1: $(cat "$room/two.pub")" two one
lists 'the SHA-256 of a key' "sha256: $(cat "$room/two.pub")" two one
lists 'a fingerprint' "hash: $("$openssh" -l -f "$room/user.pub" | cut -d ' ' -f 2)" 'a5 b6' two
lists 'a key ID' 'id: id of a5' a5 'a6 b5' "${under_a[@]}"
lists 'a serial number' 'serial: 5' a5 'a6 b5 a0' "${under_a[@]}"
lists 'a range' 'serial: 5-100' 'a5 a7' 'a300 b5' "${under_a[@]}"
lists 'a bitmap' "$(seq -f 'serial: %g' 1 2 299)" 'a5 a7' 'a6 a300' "${under_a[@]}"
lists 'an update of it' 'serial: 0x6' 'a6 a5' a300 -u "${under_a[@]}"
lists 'an update of that, with another authority' 'serial: 6' 'b6 a5' 'b5 a300' \
  -u -s "$room/ca-b.pub"
lists 'all authorities' 'serial: 5' 'a5 b5' 'a6 b6' -s none
lists "an authority's own key" "$(cat "$room/ca-a.pub")" 'a0 a5' 'b5 one'
lists "the SHA-256 of an authority's key" "sha256: $(cat "$room/ca-b.pub")" b5 a5
lists 'all serial numbers but 0' "serial: 1-$highest" "a5 a$highest" 'a0 b5' "${under_a[@]}"
lists 'the highest serial number' "serial: $highest" a$highest 'a5 a0' "${under_a[@]}"
lists 'a certificate of serial number 0' "$(cat "$room/a0.pub")" a0 a5
lists 'a certificate' "$(cat "$room/a7.pub")" a7 'a6 one'
# A byte order mark at the start of authorized keys: sshd does not know the type behind it.
cp "$room/allowed" "$room/unmarked"
printf '\xef\xbb\xbf' | cat - "$room/one.pub" >"$room/allowed"
judge 'sshd knows no key behind a byte order mark' "$(enters one && echo '  it lets in')"
mv "$room/unmarked" "$room/allowed"
# A key that sshd would read as another one, for OpenSSH drops the zero byte: it is in no list.
cp "$room/revoked.krl" "$room/before.krl"
sk=sk-ssh-ed25519@openssh.com
line $sk "$(words $sk)$(string "${G: -64}")$(string "$(text ssh:)00")" >"$room/spec"
expect 'an application with a zero byte' 255 '' \
  "ssh-keygen: $room/spec: line 1: spec 6 Key, subject 1 Key, key 5 Length"$'\n' \
  -k -u -f "$room/revoked.krl" "$room/spec"
judge 'the list is as it was' "$(cmp "$room/before.krl" "$room/revoked.krl" 2>&1)"
. "$tests/lib/sshd/meanwhile.sh"
rm "$room/revoked.krl"
judge 'sshd refuses all keys where the list is missing' "$(enters one && echo '  it lets in')"

ends
