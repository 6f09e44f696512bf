# The contents of lists: each kind of line, and the same facts as OpenSSH's ssh-keygen prints.

line ssh-ed25519 "$G" >g.pub
head=$'# KRL version 1\n# Generated at 1970-01-01T00:00:00Z\n'

# prints NAME LINES DIGITS..: of the list that the digits spell, after the lines of its header.
prints() {
  bytes "$H" "${@:3}" >made.krl
  expect "the contents of $1" 0 "$head$2" '' -Q -l -f made.krl
}
all='00000000 00000000'
prints 'a list without sections' ''
prints 'one serial' $'# CA all\nserial: 5\n' 01 00000015 $all 20 00000008 0000000000000005
prints 'a range from 0' $'# CA all\nserial: 1-3\n' \
  01 0000001d $all 21 00000010 0000000000000000 0000000000000003
prints 'a range to the last serial' $'# CA all\nserial: 1-18446744073709551615\n' \
  01 0000001d $all 21 00000010 0000000000000001 ffffffffffffffff
prints 'a bitmap' $'# CA all\nserial: 1\nserial: 3\nserial: 5\nserial: 7\n' \
  01 0000001a $all 22 0000000d 0000000000000001 00000001 55
prints 'runs that touch' $'# CA all\nserial: 4-6\n' \
  01 00000025 $all 20 00000018 000000000000000600000000000000040000000000000005
prints 'serial 0 alone' '' 01 00000015 $all 20 00000008 0000000000000000
prints 'key IDs' $'# CA all\nid: \nid: a\nid: b\\x0a\\x7f\n' \
  01 0000001d $all 23 00000010 00000003 620a7f 00000001 61 00000000
prints 'an authority' \
  $'# CA SHA256:SQfC+vTbLURn9cTkVxIS8fGQ3FKNAJWeB0o139+gV4M\nserial: 7\n' \
  01 00000048 "$(string "$A")" 00000000 20 00000008 0000000000000007
prints 'an authority of one byte' \
  $'# CA SHA256:LXEWQrcmsEQBYnyp+6wy9chTD7GQPMTbAiWHF5IaSIE\nid: a\n' \
  01 00000013 00000001 78 00000000 23 00000005 00000001 61
prints 'keys' $'key: \nkey: AQ==\nkey: AQI=\nkey: AQID\n' "$(section 010203 0102 01 '')"
prints 'the published key' \
  $'key: AAAAC3NzaC1lZDI1NTE5AAAAIOMqqnkVzrm0SdG6UOoqKLsabgH5C9okWi0dh2l9GKJl\n' "$(section "$G")"
prints 'a SHA-1' "sha1: $(repeat 20 ab)"$'\n' 03 00000018 00000014 "$(repeat 20 ab)"
prints 'the SHA-256 of the published key' \
  $'hash: SHA256:+DiY3wvvV6TuJJhbpZisF/zLDA0zPMSvHdkr4UvCOqU\n' 05 00000024 00000020 \
  f83898df0bef57a4ee24985ba598ac17fccb0c0d333cc4af1dd92be14bc23aa5
prints 'a signature after a key' $'key: AQ==\n' "$(section 01)" 04 00000000 00000000

# dated DATE TEXT NAME: the line of a list of this date, in eight bytes.
dated() {
  bytes "${H:0:40}" "$1" "${H:56}" >made.krl
  expect "a list made $3" 0 $'# KRL version 1\n'"# Generated at $2"$'\n' '' -Q -l -f made.krl
}
dated 0000000038bb0c00 2000-02-29T00:00:00Z 'on a leap day'
dated 0000003afe130dff 9998-12-31T23:59:59Z 'in the last year that is printed as a date'
dated 0000003afe130e00 @253370764800 'after that'
dated ffffffffffffffff @18446744073709551615 'at the last second'
bytes "${H:0:24}" ffffffffffffffff "${H:40:40}" "$(words $'two words\t')" >made.krl
version=$'# KRL version 18446744073709551615\n'
expect 'the last version, and a comment' 0 \
  "$version${head#*$'\n'}"$'# Comment: two words\\x09\n' '' -Q -l -f made.krl

bytes "$H" "$(section "$G")" >r.krl
key='key: AAAAC3NzaC1lZDI1NTE5AAAAIOMqqnkVzrm0SdG6UOoqKLsabgH5C9okWi0dh2l9GKJl'
expect 'the contents before the answers' 1 "$head$key"$'\ng.pub: REVOKED\n' '' -Q -l -f r.krl g.pub
expect 'the contents before a fault of a file' 255 "$head$key"$'\n' \
  $'ssh-keygen: none: file 1 Open\n' -Q -l -f r.krl none
bytes "$H" "$(section "$G")" 99 >cut.krl
expect 'no contents of a refused list' 255 '' $'ssh-keygen: cut.krl: krl 4 UnknownSection\n' \
  -Q -l -f cut.krl g.pub
if [ -e /dev/full ]; then
  "$program" -Q -l -f r.krl >/dev/full 2>"$scratch/error"
  judge 'the contents onto a full device' "$(
    differs 'exit status' 255 $?
    differs 'standard error' 'ssh-keygen: output: output 1 Write after 0 bytes' \
      "$(cat "$scratch/error")"
  )"
fi

# Each line that names something revoked, with its authority, as OpenSSH 9.2 and this program print
# it: the fingerprint of a key, the digits of a hash.
theirs() {
  "$openssh" -Q -l -f "$1" | sed -nE '
    s/^# Wildcard CA$/CA all/p
    s/^# CA key [^ ]+ /CA /p
    s/^hash: (SHA256:.{43}) # .*/key \1/p
    s/^hash: SHA256:([0-9a-f]{64})$/sha256 \1/p
    s/^# hash SHA1:/sha1 /p
    /^(serial|id): /p' | under | sort
}
ours() {
  local word text
  "$program" -Q -l -f "$1" | while read -r word text; do
    case $word in
      key:) echo "key $(printf %s "$text" | basenc -d --base64 | hashed)" ;;
      hash:) echo "sha256 $(printf '%s=' "${text#SHA256:}" | digits_of)" ;;
      sha1:) echo "sha1 $text" ;;
      '#') [ "${text%% *}" = CA ] && echo "$text" ;;
      *) echo "$word $text" ;;
    esac
  done | under | sort
}
hashed() {
  printf 'SHA256:%s' "$(bytes "$(sha256sum | cut -c1-64)" | base64 | tr -d =)"
}
digits_of() {
  basenc -d --base64 | od -An -v -tx1 | tr -d ' \n'
}
# puts the authority before each of its serials and key IDs
under() {
  awk '/^CA /{ authority = $2 } /^(serial|id):/{ print authority, $0 } /^(key|sha)/'
}

RANDOM=1312
for name in key-one key-two key-three list-ca-one list-ca-two; do
  "$openssh" -q -t ed25519 -N '' -C "of $name" -f $name
done
# some lines of serials, of key IDs, of keys and of hashes
lines_of() {
  local i lo
  for ((i = 0; i < $1; i++)); do
    echo "serial: $((RANDOM % $2 + 1))"
    lo=$((i * 100 + 5000))
    [ $((RANDOM % 4)) != 0 ] || echo "serial: $lo-$((lo + RANDOM % 200))"
    [ $((RANDOM % 3)) != 0 ] || echo "id: id $((RANDOM % 50))"
  done
}
for round in 1 2 3 4 5 6; do
  lines_of $((round * 20)) $((10 ** (round / 2 + 1))) >spec
  "$openssh" -q -k -f made.krl -s list-ca-one.pub -z $round spec 2>"$scratch/error"
  lines_of 12 300 >spec
  echo "key: $(cat key-one.pub)" >>spec
  echo "sha1: $(cat key-two.pub)" >>spec
  echo "sha256: $(cat key-three.pub)" >>spec
  "$openssh" -q -k -u -f made.krl -s list-ca-two.pub spec 2>"$scratch/error"
  lines_of 5 100 >spec
  "$openssh" -q -k -u -f made.krl -s none spec 2>"$scratch/error"
  judge "the facts of OpenSSH's list, $round" "$(
    [ "$(theirs made.krl | wc -l)" -gt 10 ] || echo '  too few facts'
    asks 0 diff <(theirs made.krl) <(ours made.krl)
  )"
done
