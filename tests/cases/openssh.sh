# Beside OpenSSH: both programs list the keys that its ssh-keygen makes, and query lists about them.

made=()
comments=('' user@host 'two  words' "tab"$'\t'"s" 'Zoë 日本' 'a "b" \c (d)')

# make TYPE BITS: a key of OpenSSH's, without a comment. Not every version makes every type.
make() {
  rm -f "$1-$2"*
  if "$openssh" -q -t "$1" -b "$2" -N '' -C '' -f "$1-$2" >"$scratch/error" 2>&1; then
    made+=("$1-$2.pub")
  elif [ "$1" != dsa ]; then
    judge "OpenSSH makes a key of $1 $2" "  $(cat "$scratch/error")"
  fi
}
for bits in 1024 1027 2048 3072 4096; do make rsa $bits; done
for bits in 256 384 521; do make ecdsa $bits; done
make ed25519 256
make dsa 1024

# The kinds that only a device makes: their lines stand ready.
while read -r type blob; do
  name=${type%@*}.pub
  printf '%s %s\n' "$type" "$blob" >"$name"
  made+=("$name")
done <"$tests/lib/device_keys"

# OpenSSH prints a tab as it is, and we print the escape for it.
escaped() {
  sed 's/\t/\\x09/g'
}

for key in "${made[@]}"; do
  for comment in "${comments[@]}"; do
    printf '%s%s\n' "$(cut -d ' ' -f 1,2 "$key")" "${comment:+ $comment}" >key
    for hash in sha256 md5; do
      expect "$key listed by $hash, comment '$comment'" 0 \
        "$("$openssh" -l -E $hash -f key | escaped)"$'\n' '' -l -E $hash -f key
    done
  done
done

# The output of OpenSSH 9.2 for the ready lines.
for hash in sha256 md5; do
  expect "device keys listed by $hash" 0 "$(cat "$tests/lib/device_keys.$hash")"$'\n' '' \
    -l -E $hash -f "$tests/lib/device_keys"
done

# Each key has its name as its comment, since without one OpenSSH prints the file's name there.
for key in "${made[@]}"; do
  sed -i "s/\$/ of $key/" "$key"
done
asked=("${made[@]}")
same_of 'a list of no key'
same_of 'a list of all keys' "${made[@]}"
same_of 'a list of the first keys' "${made[@]:0:6}"
for key in "${made[@]}"; do
  same_of "a list of $key" "$key"
done
