# Specification files at random, and the keys and certificates that lists of them are asked about.

highest=18446744073709551615

# make_asked: the keys and certificates, whose names are the array asked. They are the same in each
# run.
make_asked() {
  local name authority serial
  RANDOM=4711
  for name in one two ca-one ca-two ca-three; do
    "$openssh" -q -t ed25519 -N '' -C "the comment of $name" -f $name
  done
  asked=(one.pub two.pub ca-one.pub ca-two.pub)
  for authority in one two; do
    for serial in 0 1 2 3 4 7 8 9 15 16 63 64 65 127 128 200 255 256 257 999 1000 1001 4096 70000 \
      $((RANDOM % 300)) $((RANDOM % 300)) 9223372036854775808 18446744073709551614 $highest; do
      "$openssh" -q -s ca-$authority -I "id $((serial % 10)) of $authority" -z $serial one.pub
      mv one-cert.pub "$authority-$serial.pub"
      asked+=("$authority-$serial.pub")
    done
  done
}

# dense COUNT WIDTH START: COUNT serials, each one of WIDTH from START on.
dense() {
  local i
  for ((i = 0; i < $1; i++)); do
    echo "serial: $(($3 + RANDOM % $2))"
  done
}
ranges() {
  local i lo
  for ((i = 0; i < $1; i++)); do
    lo=$((1 + RANDOM % $2))
    echo "serial: $lo-$((lo + 1 + RANDOM % 40))"
  done
}
ids() {
  local i
  for ((i = 0; i < $1; i++)); do
    echo "id: id $((RANDOM % 10)) of one"
  done
}
named() {
  local sorts=(key sha1 sha256)
  echo "${sorts[RANDOM % 3]}: $(cat "$1")"
}
# Numbers in hexadecimal and octal digits, with and without blanks, and comments.
forms() {
  local i at
  for ((i = 0; i < $1; i++)); do
    at=$((1 + RANDOM % 300))
    printf 'serial:%d\nserial:  0x%x # %d\n\nSerial: 0%o-%d\n' $at $((at + 2)) $i $((at + 9)) \
      $((at + 12))
  done
}
printed() {
  echo "hash: $("$openssh" -l -f "$1" | cut -d ' ' -f 2)"
}
# a specification file of one of these sorts
lines() {
  case $1 in
    dense) dense 60 80 1 ;;
    sparse) dense 30 30000 1 ;;
    clustered) dense 20 12 1 && dense 20 12 250 && dense 20 12 995 && echo 'serial: 70000' ;;
    ranges) ranges 8 400 ;;
    mixed) dense 10 300 1 && ranges 3 300 && ids 2 ;;
    ends) echo 'serial: 1' && echo "serial: 9223372036854775800-9223372036854775808" &&
      echo "serial: $highest" ;;
    top) echo "serial: 1000-$highest" ;;
    ids) ids 4 ;;
    keys) named one.pub && named ca-three.pub ;;
    authority) named ca-one.pub ;;
    forms) forms 8 ;;
    bare) cat one-7.pub two-0.pub two-4096.pub ca-two.pub ;;
    hashes) printed two.pub && printed ca-one.pub && named one.pub && dense 10 40 1 ;;
    both) named two.pub && named ca-two.pub && dense 20 40 1 ;;
  esac
}
