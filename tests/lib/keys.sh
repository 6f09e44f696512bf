# Keys, certificates, lines and lists, built from their parts. All but the last three functions give
# hexadecimal digits.

# A string of the SSH formats: its length in four bytes, and the bytes.
string() {
  local digits
  digits=$(printf %s "$@")
  printf '%08x%s' $((${#digits} / 2)) "$digits"
}

text() {
  printf %s "$1" | od -An -v -tx1 | tr -d ' \n'
}

# words TEXT..: a string for each text.
words() {
  local word
  for word; do string "$(text "$word")"; done
}

# repeat COUNT DIGITS
repeat() {
  printf "%.0s$2" $(seq "$1")
}

ed25519() {
  words ssh-ed25519
  string "$1"
}

# ecdsa SIZE POINT [CURVE]
ecdsa() {
  words "ecdsa-sha2-nistp$1" "${3:-nistp$1}"
  string "$2"
}

# rsa EXPONENT MODULUS: both spelled with their lengths.
rsa() {
  words ssh-rsa
  printf %s "$@"
}

# section BLOB..: a section of explicit keys.
section() {
  local blob
  printf 02
  string "$(for blob; do string "$blob"; done)"
}

# certificate KEY AUTHORITY SERIAL ID [PRINCIPALS AFTER BEFORE CRITICAL EXTENSIONS]: a certificate
# of a user. KEY and AUTHORITY are Ed25519 blobs, ID is a text; the serial number and the times have
# sixteen digits, and the last two and PRINCIPALS are rows of strings. Without the last five it is
# for ever.
certificate() {
  words ssh-ed25519-cert-v01@openssh.com ''
  printf '00000020%s%s00000001' "${1: -64}" "$3"
  words "$4"
  string "${5:-}"
  printf %s "${6:-0000000000000000}" "${7:-ffffffffffffffff}"
  string "${8:-}"
  string "${9:-}"
  words ''
  string "$2"
  string "$(words ssh-ed25519 && string "$(repeat 64 00)")"
}

github=e32aaa7915ceb9b449d1ba50ea2a28bb1a6e01f90bda245a2d1d87697d18a265
G=$(ed25519 $github)
A=$(ed25519 "$(repeat 32 11)")
B=$(ed25519 "$(repeat 32 22)")
# The header of a list of version 1, from the first second of 1970.
H=5353484b524c0a00000000010000000000000001000000000000000000000000000000000000000000000000

# The bytes that hexadecimal digits spell.
bytes() {
  printf %s "$@" | tr a-f A-F | basenc --base16 -d
}

# line TYPE BLOB [COMMENT]: the key line of a blob.
line() {
  printf '%s %s%s\n' "$1" "$(bytes "$2" | base64 -w0)" "${3:+ $3}"
}

# fingerprint BLOB [md5]: what other tools make of the blob.
fingerprint() {
  if [ "${2:-}" = md5 ]; then
    printf 'MD5:%s' "$(bytes "$1" | md5sum | cut -c1-32 | sed 's/..\B/&:/g')"
  else
    printf 'SHA256:%s' "$(bytes "$(bytes "$1" | sha256sum | cut -c1-64)" | base64 | tr -d =)"
  fi
}
