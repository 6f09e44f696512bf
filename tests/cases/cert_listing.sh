# The facts of certificates beside OpenSSH: its ssh-keygen signs keys of every kind that it makes,
# and both programs list each certificate: its type, key, authority, key ID, serial number, time,
# principals, options and extensions.

export TZ=UTC

# facts: the listing of OpenSSH, in the words of ours. It names no line, says no zone of times (they
# are in UTC here), leaves a blank after the label of a list, and says of an option that it does not
# know whether it has data.
facts() {
  sed -E -e '1s/:$/:1:/' \
    -e '/^        Valid: /s/([0-9]{4}-[0-9]{2}-[0-9]{2}T[0-9:]{8})/\1Z/g' \
    -e 's/ +$//' \
    -e 's/^( {16}[^ ]+) UNKNOWN FLAG.*$/\1/' \
    -e 's/^( {16}[^ ]+) UNKNOWN OPTION.*$/\1 unknown/'
}

# ours: our listing without the line that says whether the certificate is valid now, and without the
# data of options that OpenSSH does not know.
ours() {
  sed -E -e '/^        Valid now: (yes|no)$/d' -e 's/^( {16}[^ ]+) hex:[0-9a-f]*$/\1 unknown/'
}

# listed NAME FILE [HASH]
listed() {
  local hash=${3:-sha256} wanted
  wanted=$("$openssh" -L -E "$hash" -f "$2" | facts)
  run -L -E "$hash" -f "$2"
  judge "$1" "$(
    differs 'exit status' 0 "$got_status"
    differs 'the facts' "$wanted" "$(printf %s "$got_output" | ours)"
    differs 'standard error' '' "$got_error"
  )"
}

# now NAME ANSWER FILE: whether the certificate is valid now.
now() {
  run -L -f "$3"
  judge "$1" \
    "$(differs 'valid now' "        Valid now: $2" \
    "$(printf %s "$got_output" | grep '^        Valid now: ')")"
}

for kind in rsa:2048 ecdsa:384 ed25519:256; do
  rm -f "authority-${kind%:*}"*
  "$openssh" -q -t "${kind%:*}" -b "${kind#*:}" -N '' -C '' -f "authority-${kind%:*}" \
    >"$scratch/error" 2>&1 ||
    judge "OpenSSH makes an authority of ${kind%:*}" "  $(cat "$scratch/error")"
done

# certified NAME KEY AUTHORITY WORD..: signs, and lists by both programs and both hashes.
certified() {
  local name=$1 key=$2 authority=$3
  shift 3
  if "$openssh" -q -s "authority-$authority" "$@" "$key.pub" 2>"$scratch/error"; then
    mv "$key-cert.pub" listed-cert.pub
    listed "$name" listed-cert.pub
    listed "$name, by md5" listed-cert.pub md5
  else
    judge "OpenSSH signs $name" "  $(cat "$scratch/error")"
  fi
}

for kind in rsa:1024 rsa:3072 dsa:1024 ecdsa:256 ecdsa:384 ecdsa:521 ed25519:256; do
  key=listed-${kind/:/-}
  rm -f "$key"*
  "$openssh" -q -t "${kind%:*}" -b "${kind#*:}" -N '' -C 'a comment' -f "$key" >"$scratch/error" \
    2>&1 || continue
  for authority in rsa ecdsa ed25519; do
    certified "$key for a user by $authority" "$key" $authority -I "id of $key"
    certified "$key for a host by $authority" "$key" $authority -h -I 'a "b" \c' \
      -n host.example,10.0.0.1 -z 7
  done
done

key=listed-ed25519-256
certified 'the greatest serial number' $key ed25519 -I id -z 18446744073709551615
certified 'an empty key ID' $key rsa -I ''
certified 'many principals' $key ed25519 -I id -n "$(seq -s, 1 200)"
certified 'options and extensions' $key ed25519 -I id -O force-command='ls -l' \
  -O source-address=10.0.0.0/8,::1 -O no-pty -O no-agent-forwarding
certified 'no extension' $key ed25519 -I id -O clear
certified 'unknown options' $key ed25519 -I id -O clear -O critical:a@b=c -O extension:d@e \
  -O extension:f@g=h
for algorithm in rsa-sha2-256 rsa-sha2-512; do
  certified "signed by $algorithm" $key rsa -I id -t $algorithm
done

# Times, in UTC: both ends, an end alone, and none.
certified 'always valid' $key ed25519 -I id -V always:forever
now 'always valid now' yes listed-cert.pub
certified 'valid from a day to a day' $key ed25519 -I id -V 20200229Z:20300101123456Z
certified 'valid from a day on' $key ed25519 -I id -V 20200101Z:forever
now 'valid from a past day on' yes listed-cert.pub
certified 'valid to a day' $key ed25519 -I id -V always:20200101Z
now 'valid to a past day' no listed-cert.pub
certified 'valid from a later day on' $key ed25519 -I id -V 20990101Z:forever
now 'valid from a later day on' no listed-cert.pub

# A file of plain keys has no certificate; in a file of both the certificates are listed, each by
# its line.
expect 'a plain key' 255 '' "ssh-keygen: $key.pub: file 6 NoCertificate"$'\n' -L -f "$key.pub"
"$openssh" -q -s authority-rsa -I one "$key.pub" 2>"$scratch/error"
{ cat "$key.pub" && echo '# a comment' && cat "$key-cert.pub" "$key.pub" "$key-cert.pub"; } >both
run -L -f both
judge 'certificates among keys' "$(
  differs 'exit status' 0 "$got_status"
  differs 'the lines' $'both:3:\nboth:5:' "$(printf %s "$got_output" | grep '^both')"
)"
expect 'a private key file' 255 '' "ssh-keygen: $key: file 6 NoCertificate"$'\n' -L -f "$key"
