# Certificates beside OpenSSH: its ssh-keygen signs keys of every kind that it makes, and both
# programs list them, and ask lists of explicit keys about them.

# authority NAME TYPE [BITS]
authority() {
  "$openssh" -q -t "$2" ${3:+-b "$3"} -N '' -C '' -f "$1" >"$scratch/error" 2>&1 ||
    judge "OpenSSH makes the authority $1" "  $(cat "$scratch/error")"
}
authority ca-ed25519 ed25519
authority ca-ecdsa ecdsa 384
authority ca-rsa rsa 2048
authorities=(ca-ed25519 ca-ecdsa ca-rsa)

certs=()
# sign KEY AUTHORITY WORD..: a certificate of the key, with the words as options of the signing.
sign() {
  local key=$1 authority=$2
  shift 2
  if "$openssh" -q -s "$authority" "$@" "$key.pub" 2>"$scratch/error"; then
    mv "$key-cert.pub" "cert-${#certs[@]}-$key.pub"
    certs+=("cert-${#certs[@]}-$key.pub")
  else
    judge "OpenSSH signs $key with $*" "  $(cat "$scratch/error")"
  fi
}

keys=()
# subject NAME TYPE [BITS]: a key to be signed. Not every version makes every type.
subject() {
  if "$openssh" -q -t "$2" ${3:+-b "$3"} -N '' -C "the comment of $1" \
    -f "$1" >"$scratch/error" 2>&1; then
    keys+=("$1")
  fi
}
subject rsa1024 rsa 1024
subject rsa3072 rsa 3072
subject dsa dsa
subject ecdsa256 ecdsa 256
subject ecdsa384 ecdsa 384
subject ecdsa521 ecdsa 521
subject ed25519 ed25519
at=0
while read -r type blob; do
  at=$((at + 1))
  printf '%s %s the comment of device%d\n' "$type" "$blob" $at >device$at.pub
  keys+=(device$at)
done <"$tests/lib/device_keys"

for key in "${keys[@]}"; do
  sign "$key" ca-ed25519 -I id
  sign "$key" ca-ecdsa -I 'an id of some words' -z 18446744073709551615 -n root,backup,'a b' \
    -O force-command='ls -l' -O source-address=10.0.0.0/8 -O no-pty -V 20200101:20300101
  sign "$key" ca-rsa -I '' -h -z 7 -n host.example -V always:forever
done
sign ed25519 ca-ed25519 -I many -z 1 -n "$(seq -s, 1 200)"
sign ed25519 ca-ed25519 -I cleared -z 2 -O clear -O critical:a@b=c -O extension:d@e
sign ecdsa256 ca-rsa -I long -z 3 -n "$(printf 'x%.0s' {1..900})" -t rsa-sha2-512

for cert in "${certs[@]}"; do
  for hash in sha256 md5; do
    expect "$cert listed by $hash" 0 "$("$openssh" -l -E $hash -f "$cert")"$'\n' '' \
      -l -E $hash -f "$cert"
  done
done

asked=("${keys[@]/%/.pub}" "${certs[@]}")
same_of 'certificates asked of a list of no key'
same_of 'certificates asked of a list of all keys' "${keys[@]/%/.pub}"
same_of 'certificates asked of a list of all authorities' "${authorities[@]/%/.pub}"
for key in "${keys[@]}" "${authorities[@]}"; do
  same_of "certificates asked of a list of $key" "$key.pub"
done
