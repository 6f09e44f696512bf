# Private key files beside OpenSSH: its ssh-keygen makes keys of every kind that it can, without a
# passphrase and with one. Both programs list the files without; those with one are refused. Lists
# of the keys revoke them in private files as in public ones.

containers=()

# container TYPE BITS COMMENT: a private key file, and the same key with a passphrase. Not every
# version makes every type.
container() {
  local name=container${#containers[@]}-$1-$2
  if "$openssh" -q -t "$1" -b "$2" -N '' -C "$3" -f "$name" >"$scratch/error" 2>&1; then
    containers+=("$name")
    cp "$name" "$name-locked"
    "$openssh" -q -p -P '' -N 'a passphrase' -f "$name-locked" >"$scratch/error" 2>&1 ||
      judge "OpenSSH encrypts $name" "  $(cat "$scratch/error")"
  elif [ "$1" != dsa ]; then
    judge "OpenSSH makes a key of $1 $2" "  $(cat "$scratch/error")"
  fi
}
for comment in '' 'user@host' 'two  words' 'Zoë 日本'; do
  container rsa 2048 "$comment"
  container dsa 1024 "$comment"
  for bits in 256 384 521; do container ecdsa $bits "$comment"; done
  container ed25519 256 "$comment"
done
for bits in 1024 1027 3072 4096; do container rsa $bits 'of another size'; done
# Comments of every length from 0 to 16: so every count of bytes that fill the list up.
for size in $(seq 0 16); do
  container ed25519 256 "$(printf 'x%.0s' $(seq $size))"
done

# listing WORD..: what OpenSSH lists. It leaves the place of an empty comment free, where we say
# that there is none.
listing() {
  "$openssh" -l "$@" | sed -E 's/^([0-9]+ [^ ]+)  (\([A-Z0-9]+\))$/\1 no comment \2/'
}

# OpenSSH lists the private file: no public one stands beside it.
rm -f container*.pub
for file in "${containers[@]}"; do
  for hash in sha256 md5; do
    expect "$file listed by $hash" 0 "$(listing -E $hash -f "$file")"$'\n' '' -l -E $hash -f "$file"
  done
  expect "$file listed from standard input" 0 "$(listing -f "$file")"$'\n' '' -l -f - <"$file"
  expect "$file with a passphrase" 255 '' "ssh-keygen: $file-locked: private 4 Encrypted"$'\n' \
    -l -f "$file-locked"
done

# The same file with other ends of lines, and with text after its end.
for file in "${containers[@]:0:6}"; do
  listed=$(listing -f "$file")$'\n'
  sed 's/$/ \t\r/' "$file" >returns
  expect "$file with blanks and carriage returns" 0 "$listed" '' -l -f returns
  tr -d '\n' <"$file" | sed 's/KEY-----/KEY-----\n/;s/-----END/\n-----END/' >one-line
  expect "$file in one line" 0 "$listed" '' -l -f one-line
  { cat "$file" && echo 'text after the end' && cat "$file"; } >longer
  expect "$file with text after its end" 0 "$listed" '' -l -f longer
  sed '$d' "$file" >endless
  expect "$file without its last line" 255 '' 'ssh-keygen: endless: private 1 Armour'$'\n' \
    -l -f endless
  sed '2s/./=/' "$file" >other
  expect "$file with a byte that is no base64" 255 '' \
    'ssh-keygen: other: private 2 Base64'$'\n' -l -f other
done

# The first byte of a private number is changed, so that it is not that of the public key: found by
# tests/fuzz/fuzz. It is not looked at, and OpenSSH lists by the public part, without the comment.
for file in "${containers[@]}"; do
  [[ $file == *-ecdsa-521 ]] || continue
  sed '1d;$d' "$file" | base64 -d >raw
  {
    sed 1q "$file"
    { head -c 403 raw && printf '\177' && tail -c +405 raw; } | base64
    sed -n '$p' "$file"
  } >other
  expect "$file with another private number" 0 "$(listing -f "$file")"$'\n' '' -l -f other
done

# Lists that OpenSSH makes of the public keys, asked about the private files.
for file in "${containers[@]:0:6}"; do
  "$openssh" -y -f "$file" | cut -d ' ' -f 1,2 >"public-$file"
  "$openssh" -q -k -f made.krl "public-$file" >"$scratch/error" 2>&1 || cat "$scratch/error"
  other=${containers[-1]}
  comment=$("$openssh" -y -f "$other" | cut -d ' ' -f 3-)
  expect "$file is revoked" 1 "$file: REVOKED"$'\n' '' -Q -f made.krl "$file"
  expect "$other is not" 0 "$other${comment:+ ($comment)}: ok"$'\n' '' -Q -f made.krl "$other"
done
