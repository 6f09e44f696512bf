# Queries: lists of each sort of entry, each fault of a list, and what is printed for each key.

line ssh-ed25519 "$G" >g.pub
line ssh-ed25519 "$A" 'x y' >a
bytes "$H" >h.krl
bytes "$H" "$(section "$G")" >r.krl

expect 'a list without sections' 0 $'g.pub: ok\n' '' -Q -f h.krl g.pub
expect 'a key of the list' 1 $'g.pub: REVOKED\n' '' -Q -f r.krl g.pub
expect 'a key beside the list' 0 $'a (x y): ok\n' '' -Q -f r.krl a
expect 'two files' 1 $'g.pub: REVOKED\na (x y): ok\n' '' -Q -f r.krl g.pub a
expect 'two files, the other first' 1 $'a (x y): ok\ng.pub: REVOKED\n' '' -Q -f r.krl a g.pub
expect 'one file twice' 1 $'g.pub: REVOKED\ng.pub: REVOKED\n' '' -Q -f r.krl g.pub g.pub
expect 'no file' 0 '' '' -Q -f r.krl
cat a g.pub >both
expect 'a file of two keys' 1 $'both (x y): ok\nboth: REVOKED\n' '' -Q -f r.krl both

# accepts NAME DIGITS..: the list that the digits spell is read, and does not name the key of a.
accepts() {
  bytes "${@:2}" >made.krl
  expect "a list with $1" 0 $'a (x y): ok\n' '' -Q -f made.krl a
}
accepts 'two sections of keys' "$H" "$(section "$G")" "$(section "$G" "$G")"
accepts 'an empty section of keys' "$H" "$(section)"
accepts 'a key of no bytes' "$H" "$(section '')"
accepts 'a key that is a part of another' "$H" "$(section "${A:0:100}" "${A}00")"
accepts 'flags, a reserved string and a comment' \
  5353484b524c0a00 00000001 ffffffffffffffff ffffffffffffffff 8000000000000001 \
  "$(words reserved comment)"
bytes "$H" "$(section "$G")" "$(section)" "$(section 00 "$A")" >made.krl
expect 'a key of a later section' 1 $'a (x y): REVOKED\n' '' -Q -f made.krl a

# refuses FAULT NAME DIGITS..: the list that the digits spell is refused so, before any key.
refuses() {
  bytes "${@:3}" >made.krl
  expect "a list with $2" 255 '' "ssh-keygen: made.krl: krl $1"$'\n' -Q -f made.krl g.pub
}
refuses '1 Magic' 'another first byte' "54${H:2}"
refuses '1 Magic' 'another eighth byte' "${H:0:14}01${H:16}"
refuses '2 FormatVersion' 'format version 2' "${H:0:16}00000002${H:24}"
refuses '3 EndsEarly' 'no bytes' ''
refuses '3 EndsEarly' 'three bytes' 000000
refuses '3 EndsEarly' 'a comment that passes its end' "${H:0:80}00000001"
refuses '3 EndsEarly' 'a section that passes its end' "$H" 02 00000009 00000001 00
for type in 00 06 99 fe; do
  refuses '4 UnknownSection' "section type 0x$type" "$H" "$(section "$G")" $type
done
for type in 01 02 03 04 05 ff; do
  refuses '3 EndsEarly' "section type 0x$type alone" "$H" "$(section "$G")" $type
done
refuses '6 Length' 'a key that passes its section' "$H" 02 00000005 00000002 00
refuses '6 Length' 'a section with room for no length' "$H" 02 00000003 000000
refuses '6 Length' 'three bytes after a key' "$H" 02 00000008 00000001 00 000000
refuses '6 Length' 'three bytes left after a key' "$H" 02 00000008 00000001 00
refuses '6 Length' 'a key that passes its section' "$H" 02 00000005 00000002

# certificates DIGITS: a section of certificates under all authorities, of these subsections.
certificates() {
  printf 01
  string "$(words '' '')$1"
}
first=0000000000000001
last=ffffffffffffffff
extension=$(string "$(words name)00$(words contents)")
critical=$(string "$(words name)01$(words contents)")
signature=04$(words key signature)
accepts 'serials' "$H" "$(certificates "20$(string $last$first)")"
accepts 'a range' "$H" "$(certificates "21$(string $first$last)")"
accepts 'a bitmap' "$H" "$(certificates "22$(string "$first$(string 0155)")")"
accepts 'key IDs' "$H" "$(certificates "23$(string "$(words one two)")")"
accepts 'extensions' "$H" "$(certificates "39$extension")" "ff$extension"
accepts 'signatures' "$H" "$(section "$G")" "$signature" "$signature"
accepts 'hashes of no key' "$H" "03$(string)" "05$(string)"
# names NAME TYPE SUM: the list of the hash of the key that SUM computes names it.
names() {
  bytes "$H" "$2$(string "$(string "$(bytes "$A" | $3 | cut -d ' ' -f 1)")")" >made.krl
  expect "a key by its $1" 1 $'a (x y): REVOKED\n' '' -Q -f made.krl a
  expect "another key than that of a $1" 0 $'g.pub: ok\n' '' -Q -f made.krl g.pub
}
names SHA-1 03 sha1sum
names SHA-256 05 sha256sum
refuses '5 UnknownCertSection' 'subsection type 0x24' "$H" "$(certificates 24)"
refuses '6 Length' 'a serial that is cut' "$H" "$(certificates "20$(string 00)")"
refuses '7 RangeReversed' 'a range that ends before it begins' "$H" \
  "$(certificates "21$(string $last$first)")"
refuses '8 BitmapNegative' 'a bitmap below zero' "$H" \
  "$(certificates "22$(string "$first$(string 80)")")"
refuses '9 BitmapWraps' 'a bitmap past the greatest serial' "$H" \
  "$(certificates "22$(string "$last$(string 02)")")"
refuses '10 HashLength' 'a SHA-1 of 19 bytes' "$H" "03$(string "$(string "$(repeat 19 00)")")"
refuses '10 HashLength' 'a SHA-256 of 20 bytes' "$H" "05$(string "$(string "$(repeat 20 00)")")"
refuses '11 AfterSignature' 'keys after a signature' "$H" "$signature" "$(section "$G")"
refuses '15 CriticalExtension' 'a critical extension' "$H" "ff$critical"
refuses '15 CriticalExtension' 'a critical extension of certificates' "$H" \
  "$(certificates "39$critical")"

for ((size = 0; size <= 104; size++)); do
  head -c "$size" r.krl >cut.krl
  case $size in
    44) expect 'the list cut to its header' 0 $'g.pub: ok\n' '' -Q -f cut.krl g.pub ;;
    104) expect 'the whole list' 1 $'g.pub: REVOKED\n' '' -Q -f cut.krl g.pub ;;
    *) expect "the list cut to $size bytes" 255 '' \
      $'ssh-keygen: cut.krl: krl 3 EndsEarly\n' -Q -f cut.krl g.pub ;;
  esac
done
