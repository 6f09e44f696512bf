# krl audit: each kind of line and of file, directories, statuses, and outputs that fail.

keygen=$program
program=$krl
bytes "$H" "$(section "$G" "$A")" >r.krl
g=$(line ssh-ed25519 "$G") a=$(line ssh-ed25519 "$A") b=$(line ssh-ed25519 "$B")
by_g="revoked: ssh-ed25519 $(fingerprint "$G") by its key"
by_a="revoked: ssh-ed25519 $(fingerprint "$A") by its key"
ok_b="ok: ssh-ed25519 $(fingerprint "$B")"
no_type='unread: no key type stands there'

# lines_of LINE..: the lines, or nothing.
lines_of() {
  [ $# = 0 ] || printf '%s\n' "$@"
}
# audits NAME STATUS COUNTS OUTPUT WORD..: an audit with the list r.krl, whose time is the first
# second of 1970.
audits() {
  local name=$1 status=$2 counts=$3 output=$4
  shift 4
  expect "$name" "$status" "${output:+$output$'\n'}" \
    "krl audit: $counts (list version 1, 1970-01-01T00:00:00Z)"$'\n' audit -f r.krl "$@"
}

# The kinds of lines.
# says NAME LINE FINDING: the finding about the line, as line 2 of a file, with -a.
says() {
  printf '# a file\n%s\n%s\n' "$2" "$b" >file
  "$program" audit -a -f r.krl file >"$scratch/output" 2>"$scratch/error"
  judge "$1" \
    "$(differs 'what is said' "$(lines_of ${3:+"file:2: $3"} "file:3: $ok_b")" \
    "$(cat "$scratch/output")")"
}
says 'a plain key' "$g" "$by_g"
says 'a key with a comment' "$g a comment" "$by_g: a comment"
says 'options before a key' "from=\"10.0.0.0/8\",command=\"a \\\"b\\\" c\" $g me" "$by_g: me"
says 'a carriage return' "$g me"$'\r' "$by_g: me"
says 'blanks before a key' $' \t'"$g" "$by_g"
says 'a comment' "# $g" ''
says 'an empty line' '' ''
says 'cert-authority' "cert-authority $g" "$by_g"
says 'cert-authority with principals' "cert-authority,principals=\"a b\" $g" "$by_g"
says 'a host' "a.example,10.0.0.1 $g" "$by_g"
says 'a host with a port' "[a.example]:2222 $g" "$by_g"
says 'a hashed host' "|1|F1E1KeoE/eEWhi10WpGv4OdiO6Y=|3988QV0VE8wmZL7suNrYQLITLCg= $g" "$by_g"
says 'a CA of hosts' "@cert-authority *.example $g" "$by_g"
says 'a key that the file revokes' "@revoked * $g" ''
says 'SSH version 1' 'host 1024 35 12345678901234567890' "$no_type"
says 'garbage' 'garbage' "$no_type"
says 'a type that is not known' 'ssh-ed448 AAAA' "$no_type"
says 'base64 that is cut' "${g:0:58}" 'unread: the key is not whole base64'
says 'no base64' 'ssh-ed25519 !!!!' 'unread: the key is not whole base64'
says 'a key of another type' "ssh-rsa ${g#* }" 'unread: the key is of another type'
dsa=$(words ssh-dss)$(string 00"$(repeat 128 81)")$(string 00"$(repeat 20 81)")
dsa+=$(string 03)$(string 05)
says 'a DSA key' "$(line ssh-dss "$dsa")" "ok: ssh-dss $(fingerprint "$dsa")"
device=$(words sk-ssh-ed25519@openssh.com)$(string "$(repeat 32 33)")$(words ssh:)
says 'a security key' "$(line sk-ssh-ed25519@openssh.com "$device")" \
  "ok: sk-ssh-ed25519@openssh.com $(fingerprint "$device")"
says 'control characters in a comment' "$g a"$'\e[31m'b "$by_g"': a\x1b[31mb'
says 'a comment that is shown in another order' "$g a"$'\u202e\u2066'b \
  "$by_g"': a\xe2\x80\xae\xe2\x81\xa6b'
says 'a comment with a line separator' "$g a"$'\u2028'"b: ok: c" "$by_g"': a\xe2\x80\xa8b: ok: c'
says 'the characters beside them' "$g "$'\u61b\u61d\u200d\u2010\u2027\u202f\u2065\u206a' \
  "$by_g"$': \u61b\u61d\u200d\u2010\u2027\u202f\u2065\u206a'
echo "$g" >marked
audits 'a key alone' 1 '1 file, 1 key: 1 revoked in 1 file, 0 unread' "marked:1: $by_g" marked
# A byte order mark belongs to the first word: a host name may begin with it, and no key type does.
mkdir order && printf '\xef\xbb\xbf%s\n' "$g" >order/authorized_keys
printf '\xef\xbb\xbf#,* %s\n' "$g" | tee order/known_hosts >order/keys
cp order/authorized_keys order/x.pub
audits 'a byte order mark' 1 '4 files, 2 keys: 2 revoked in 2 files, 2 unread' \
  "order/authorized_keys:1: $no_type
order/keys:1: $by_g
order/known_hosts:1: $by_g
order/x.pub:1: $no_type" --all order
judge 'OpenSSH takes it for a byte of a host name' "$(differs 'the key' "$(fingerprint "$G")" \
  "$("$openssh" -l -F any.example -f order/known_hosts | sed -n 's/.*\(SHA256:[^ ]*\).*/\1/p')")"
"$openssh" -l -f order/authorized_keys >/dev/null 2>&1
judge 'OpenSSH takes it for a byte of a key type' "$(differs 'exit status' 255 $?)"
printf '%s \x9b1m\xff\n' "$g" >high
audits 'a comment that is not UTF-8' 1 '1 file, 1 key: 1 revoked in 1 file, 0 unread' \
  "high:1: $by_g: \\x9b1m\\xff" high
printf 'one\ntwo\n' >none
audits 'a file without a key' 3 '1 file, 0 keys: 0 revoked in 0 files, 1 unread' \
  'none: unread: none of its 2 lines is a key' none
: >empty
audits 'an empty file' 0 '1 file, 0 keys: 0 revoked in 0 files, 0 unread' '' empty

# The field before the key. Host names end at the first blank, and options at the first blank outside
# double quotes: so this line has the key G as a line of known hosts, and B as one of authorized keys.
mkdir -p fields/etc/authorized_keys.d fields/b
for it in known_hosts b/known_hosts2 etc/ssh_known_hosts2 authorized_keys b/authorized_keys2 \
  etc/authorized_keys.d/{me,known_hosts} keys; do
  echo "host,\"x $g \"x $b" >"fields/$it"
done
# fields NAME COUNTS FINDING..: the findings about this file.
fields() {
  local name=$1 keys=$2 status=1
  shift 2
  [[ "$*" == *revoked* ]] || status=0
  audits "host names or options: $name" $status "1 file, $keys, 0 unread" \
    "$(printf "fields/$name:1: %s\n" "$@")" -a "fields/$name"
}
as_host="$by_g: \"x $b"
one_revoked='1 key: 1 revoked in 1 file'
for it in known_hosts b/known_hosts2 etc/ssh_known_hosts2; do
  fields $it "$one_revoked" "$as_host"
done
for it in authorized_keys b/authorized_keys2 etc/authorized_keys.d/me; do
  fields $it '1 key: 0 revoked in 0 files' "$ok_b"
done
for it in keys etc/authorized_keys.d/known_hosts; do
  fields $it '2 keys: 1 revoked in 1 file' "$ok_b" "$as_host"
done
echo "@cert-authority host,\"x $g \"x $b" >fields/authorities
fields authorities "$one_revoked" "$as_host"
judge 'OpenSSH ends host names at the first blank' "$(differs 'the key' "$(fingerprint "$G")" \
  "$("$openssh" -l -F host -f fields/known_hosts | sed -n 's/.*\(SHA256:[^ ]*\).*/\1/p')")"
expect 'a key to be kept in one of two readings' 1 "fields/keys:1: $as_host
keep: fields/keys: 1 of 2 keys are revoked, 0 lines are not read
" '' check --keep fields/keys r.krl
expect 'a canary in one of two readings' 1 "fields/keys:1: $ok_b
canary: fields/keys: 1 of 2 keys are revoked, 0 lines are not read
" '' check --canary fields/keys r.krl

# Lines behind a private key.
"$openssh" -q -t ed25519 -N '' -C me -f first
key_of() {
  echo "ok: ssh-ed25519 $("$openssh" -lf "$1.pub" | cut -d ' ' -f 2)"
}
armour=$(wc -l <first)
{ cat first && echo && echo "host $g me"; } >behind
audits 'a line behind a private key' 1 '1 file, 2 keys: 1 revoked in 1 file, 0 unread' \
  "behind:1: $(key_of first): me
behind:$((armour + 2)): $by_g: me" -a behind
mkdir -p armour && cp behind armour/authorized_keys && cp behind armour/known_hosts
for it in authorized_keys known_hosts; do
  audits "a private key in $it" 1 "1 file, 2 keys: 1 revoked in 1 file, $armour unread" \
    "$(seq -f "armour/$it:%.0f: $no_type" "$armour")
armour/$it:$((armour + 2)): $by_g: me" armour/$it
done
judge 'OpenSSH reads a line behind a private key' "$(differs 'the key' "$(fingerprint "$G")" \
  "$("$openssh" -l -F host -f armour/known_hosts | sed -n 's/.*\(SHA256:[^ ]*\).*/\1/p')")"
# A private key that is truncated is one line, and nothing behind it is read.
{ head -n 3 first && echo "$g" && yes x | head -n 30; } >behind
audits 'a line behind a truncated private key' 3 '1 file, 0 keys: 0 revoked in 0 files, 1 unread' \
  'behind:1: unread: the private key file is cut or misspelt: private 1 Armour' -a behind
expect 'a truncated private key to be kept' 1 \
  'behind:1: unread: the private key file is cut or misspelt: private 1 Armour
keep: behind: 0 of 0 keys are revoked, 1 line is not read
' '' check --keep behind r.krl
{ cat first first && yes x | head -n 21; } >behind
audits 'a private key and other lines behind a private key' 3 \
  "1 file, 1 key: 0 revoked in 0 files, $((armour + 21)) unread" "behind:1: $(key_of first): me
$(seq -f "behind:%.0f: $no_type" $((armour + 1)) $((armour + 20)))
behind: unread: and $((armour + 1)) more lines are unread" -a behind
{ echo "$g" && cat first; } >before
audits 'a private key behind a line' 1 "1 file, 1 key: 1 revoked in 1 file, $armour unread" \
  "before:1: $by_g
$(seq -f "before:%.0f: $no_type" 2 $((armour + 1)))" before

# Many lines that are not read.
{ echo "$b" && yes x | head -n 5020; } >many_unread
said=$(seq -f "many_unread:%.0f: $no_type" 2 21)
audits 'many lines that are not read' 3 '1 file, 1 key: 0 revoked in 0 files, 5020 unread' \
  "$said
many_unread: unread: and 5000 more lines are unread" many_unread
head -n 22 many_unread >one_more
audits 'one line more than are named' 3 '1 file, 1 key: 0 revoked in 0 files, 21 unread' \
  "${said//many_unread/one_more}
one_more: unread: and 1 more line is unread" one_more
head -n 21 many_unread >as_many
audits 'as many lines as are named' 3 '1 file, 1 key: 0 revoked in 0 files, 20 unread' \
  "${said//many_unread/as_many}" as_many
rm many_unread

# Many lines with revoked keys, and with others.
{ yes "$g" | head -n 22 && yes "$b" | head -n 1021 && yes x | head -n 23; } >many
audits 'many revoked keys' 1 '1 file, 1043 keys: 22 revoked in 1 file, 23 unread' \
  "$(seq -f "many:%.0f: $by_g" 20)
$(seq -f "many:%.0f: $no_type" 1044 1063)
many: revoked: and 2 more lines are revoked
many: unread: and 3 more lines are unread" many
audits 'many keys' 1 '1 file, 1043 keys: 22 revoked in 1 file, 23 unread' \
  "$(seq -f "many:%.0f: $by_g" 20)
$(seq -f "many:%.0f: $ok_b" 23 42)
$(seq -f "many:%.0f: $no_type" 1044 1063)
many: revoked: and 2 more lines are revoked
many: unread: and 3 more lines are unread
many: ok: and 1001 more lines are ok" -a many
rm many
yes "$g" | head -n 21 >one_revoked
audits 'one revoked key more than are named' 1 '1 file, 21 keys: 21 revoked in 1 file, 0 unread' \
  "$(seq -f "one_revoked:%.0f: $by_g" 20)
one_revoked: revoked: and 1 more line is revoked" one_revoked
head -n 20 one_revoked >as_many
audits 'as many as are named' 1 '1 file, 20 keys: 20 revoked in 1 file, 0 unread' \
  "$(seq -f "as_many:%.0f: $by_g" 20)" as_many

# Reasons, in their order.
cert=$(certificate "$B" "$A" 0000000000000007 'a "b"')
line ssh-ed25519-cert-v01@openssh.com "$cert" me >cert
audits 'a certificate of a CA that is revoked' 1 '1 file, 1 key: 1 revoked in 1 file, 0 unread' \
  "cert:1: revoked: ssh-ed25519-cert-v01@openssh.com $(fingerprint "$B") by the key of its CA: me" \
  cert
line ssh-ed25519 "$A" >a.pub
printf 'serial: 7\nid: a "b"\n' >of_one
printf 'serial: 7\nid: a "b"\nsha1: %s\nsha256: %s\nkey: %s\n' "$b" "$b" "$b" >of_all
"$openssh" -q -k -f every.krl -s a.pub of_one && "$openssh" -q -k -u -f every.krl -s none of_all
said=$("$program" audit -f every.krl cert 2>/dev/null)
wanted="cert:1: revoked: ssh-ed25519-cert-v01@openssh.com $(fingerprint "$B")"
wanted+=' by its key, by its SHA-1, by its SHA-256'
for it in 'serial 7' 'key ID "a \"b\""'; do
  wanted+=", by $it of CA $(fingerprint "$A"), by $it of all CAs"
done
judge 'all reasons at once' "$(differs 'what is said' "$wanted: me" "$said")"

# A certificate whose key ID has a zero byte: OpenSSH refuses it, or drops that byte at the end.
zero=$(certificate "$B" "$G" 0000000000000007 bob@x)
line ssh-ed25519-cert-v01@openssh.com "${zero/626f624078/626f620078}" me >zero_id
audits 'a certificate whose key ID has a zero byte' 3 \
  '1 file, 0 keys: 0 revoked in 0 files, 1 unread' \
  'zero_id:1: unread: its key ID has a zero byte' zero_id

# One reason alone: a SHA-1 of a key, and a SHA-256 of a CA.
printf 'sha1: %s\n' "$b" >of_sha1
printf 'sha256: %s\n' "$a" >of_sha256
"$openssh" -q -k -f sha1.krl of_sha1 && "$openssh" -q -k -f sha256.krl of_sha256
for it in sha1:'its SHA-1' sha256:'the SHA-256 of its CA'; do
  judge "${it#*:} alone" "$(differs 'what is said' \
    "cert:1: revoked: ssh-ed25519-cert-v01@openssh.com $(fingerprint "$B") by ${it#*:}: me" \
    "$("$program" audit -f "${it%%:*}.krl" cert 2>/dev/null)")"
done
for it in sha1:'{"by":"sha1"}' sha256:'{"by":"authority","of":"sha256"}'; do
  said=$("$program" audit --json -f "${it%%:*}.krl" cert 2>/dev/null)
  judge "${it%%:*} alone, as an object" "$([[ "$said" == *"\"reasons\":[${it#*:}]}"* ]] ||
    echo "  it says $said")"
done

# Files and directories.
"$openssh" -q -t ed25519 -N '' -C me -f private && "$openssh" -q -t ed25519 -N secret \
  -C me -f locked
mkdir -p home/.ssh home/B home/a home/linked
for it in authorized_keys authorized_keys2 known_hosts known_hosts2 ssh_known_hosts \
  ssh_known_hosts2 x.pub; do
  echo "$g" >"home/.ssh/$it"
done
for it in authorized_keys.old key id_key x.pub.txt; do echo "$g" >"home/.ssh/$it"; done
cp private home/.ssh/id_plain && cp locked home/.ssh/ssh_host_locked && cp private home/.ssh/other
echo "$a" >home/B/known_hosts
echo "$b" >home/a/x.pub
ln -s ../../high home/a/link.pub
ln -s "$PWD/home/B" home/linked/B
key_of() {
  echo "ok: ssh-ed25519 $("$openssh" -lf "$1.pub" | cut -d ' ' -f 2)"
}
audits 'a directory' 1 '12 files, 12 keys: 9 revoked in 9 files, 0 unread, 6 skipped by their names' \
  "home/.ssh/authorized_keys:1: $by_g
home/.ssh/authorized_keys2:1: $by_g
home/.ssh/id_plain:1: $(key_of private): me
home/.ssh/known_hosts:1: $by_g
home/.ssh/known_hosts2:1: $by_g
home/.ssh/ssh_host_locked:1: $(key_of locked)
home/.ssh/ssh_known_hosts:1: $by_g
home/.ssh/ssh_known_hosts2:1: $by_g
home/.ssh/x.pub:1: $by_g
home/B/known_hosts:1: $by_a
home/a/link.pub:1: $by_g: \\x9b1m\\xff
home/a/x.pub:1: $ok_b" -a home
# The links of a directory: to a directory, to a file, to nothing, and one that leads to itself.
mkdir -p links/.ssh && cd links || exit 1
ln -s ../home/B folder && ln -s ../marked file && ln -s gone dangling && ln -s loop loop
ln -s gone id_dangling && ln -s ../home/B id_folder && ln -s ../private id_link
ln -s gone .ssh/id_rsa
cd ..
audits 'links in a directory' 3 '5 files, 1 key: 0 revoked in 0 files, 4 unread, 3 skipped by their names' \
  'links/.ssh/id_rsa: unread: No such file or directory
links/id_dangling: unread: No such file or directory
links/id_folder: unread: a link to a directory: name it
links/loop: unread: Too many levels of symbolic links' links
# Links to directories are unread where files are looked for there, by the name of the link or of the
# directory.
mkdir -p towards/data/.ssh towards/data/authorized_keys.d towards/data/keys towards/links
(cd towards/links && ln -s ../data/.ssh dots && ln -s ../data/authorized_keys.d served &&
  ln -s ../data/keys .ssh && ln -s ../data/keys authorized_keys.d && ln -s ../data/keys keys &&
  ln -s ../data/keys x.pub && ln -s dots over && ln -s ../data/.ssh/ slash && ln -s / root)
link='unread: a link to a directory: name it'
audits 'links to directories' 3 '7 files, 0 keys: 0 revoked in 0 files, 7 unread, 2 skipped by their names' \
  "$(printf "towards/links/%s: $link\n" .ssh authorized_keys.d dots over served slash x.pub)" \
  towards/links
audits 'links to directories with --all' 3 '9 files, 0 keys: 0 revoked in 0 files, 9 unread' \
  "$(printf "towards/links/%s: $link\n" \
    .ssh authorized_keys.d dots keys over root served slash x.pub)" --all towards/links
# The null device is an empty file, and no other device is.
mkdir null && (cd null && for it in authorized_keys known_hosts id_rsa other; do
  ln -s /dev/null $it
done)
audits 'links to the null device' 0 '2 files, 0 keys: 0 revoked in 0 files, 0 unread, 2 skipped by their names' '' null
audits 'links to it with --all' 0 '4 files, 0 keys: 0 revoked in 0 files, 0 unread' '' --all null
audits 'the null device among names' 0 '1 file, 0 keys: 0 revoked in 0 files, 0 unread' '' \
  --files0-from <(printf '/dev/null\0')
mkdir zero && ln -s /dev/zero zero/authorized_keys
audits 'a link to another device' 3 '1 file, 0 keys: 0 revoked in 0 files, 1 unread' \
  'zero/authorized_keys: unread: no regular file' zero
# Files of the kernel are read only where the command names them. Reading /proc/kmsg would wait.
if [ "$(stat -c %d /proc)" != "$(stat -c %d /)" ] && [ -f /proc/version ]; then
  mkdir kernel && ln -s /proc/version kernel/authorized_keys && ln -s /proc/kmsg kernel/id_x
  kernel='unread: it is on a file system of the kernel'
  said=$(timeout 20 "$program" audit -f r.krl kernel 2>/dev/null)
  judge 'links to files of the kernel' "$(differs status 3 $?
    differs 'what is said' "kernel/authorized_keys: $kernel
kernel/id_x: $kernel" "$said")"
  audits 'one among names' 3 '1 file, 0 keys: 0 revoked in 0 files, 1 unread' \
    "kernel/authorized_keys: $kernel" --files0-from <(printf 'kernel/authorized_keys\0')
  audits 'one that the command names' 3 '1 file, 0 keys: 0 revoked in 0 files, 1 unread' \
    "kernel/authorized_keys:1: $no_type" kernel/authorized_keys
else
  echo '# no file system of the kernel is mounted at /proc, so none is tried'
fi
# Names that are excluded, in each directory and whatever they lead to.
mkdir -p without/cache/.ssh without/a/cache without/b && echo "$g" >without/cache/.ssh/authorized_keys
echo "$g" >without/a/cache/x.pub && echo "$g" >without/b/skip.pub && echo "$g" >without/b/kskip.pub
ln -s nowhere without/b/cache
audits 'names that are excluded' 1 \
  '1 file, 1 key: 1 revoked in 1 file, 0 unread, 4 excluded' "without/b/kskip.pub:1: $by_g" \
  --exclude cache --exclude skip.pub without
audits 'a name that is excluded and named' 1 '1 file, 1 key: 1 revoked in 1 file, 0 unread' \
  "without/a/cache/x.pub:1: $by_g" --exclude cache without/a/cache
audits 'a directory of which all is excluded' 3 \
  '1 file, 0 keys: 0 revoked in 0 files, 1 unread, 1 excluded' \
  'without/a: unread: no file in this directory is read by its name' --exclude cache without/a
for it in a/cache / . ''; do
  said=$("$program" audit -f r.krl --exclude "$it" without 2>&1)
  judge "no entry has the name '$it'" "$(
    differs 'exit status' 2 $?
    differs 'the first line' \
      'error: --exclude takes the name of a file or a directory, not a path' "${said%%$'\n'*}"
  )"
done
# Directories on other file systems. /dev/shm is one on most machines.
if [ "$(stat -c %d /dev/shm 2>/dev/null || stat -c %d /dev)" != "$(stat -c %d /dev)" ] &&
  there=$(mktemp -d /dev/shm/krl-test.XXXXXX); then
  echo "$g" >"$there/x.pub"
  said=$("$program" audit -f r.krl -x /dev 2>&1)
  judge 'another file system is not entered' "$(
    asks 1 grep "^$there/x.pub" <<<"$said"
    asks 0 grep -q ', [1-9][0-9]* on other file systems' <<<"$said")"
  audits 'it is where the command names it' 1 '1 file, 1 key: 1 revoked in 1 file, 0 unread' \
    "$there/x.pub:1: $by_g" -x "$there"
  mkdir crossing && ln -s "$there/x.pub" crossing/link.pub
  audits 'a link to a file on another file system' 1 '1 file, 1 key: 1 revoked in 1 file, 0 unread' \
    "crossing/link.pub:1: $by_g" -x crossing
  rm -r "$there"
else
  echo '# /dev/shm is no other file system, so none is left out'
fi
# Each file of a directory of authorized keys, and each regular file with --all.
mkdir -p etc/authorized_keys.d/below && echo "$g" >etc/authorized_keys.d/bob
echo "$a" >etc/authorized_keys.d/below/bob && echo "$b" >etc/authorized_keys.d/below/x.pub
mkfifo etc/authorized_keys.d/pipe
for it in etc/authorized_keys.d etc/authorized_keys.d/; do
  audits "each file of $it" 1 \
    '3 files, 2 keys: 1 revoked in 1 file, 1 unread, 1 skipped by its name' \
    "etc/authorized_keys.d/bob:1: $by_g
etc/authorized_keys.d/pipe: unread: no regular file" $it
done
mkdir -p every/below && echo "$g" >every/key && echo "$a" >every/below/.hidden && mkfifo every/pipe
audits 'each regular file with --all' 1 \
  '2 files, 2 keys: 2 revoked in 2 files, 0 unread, 1 skipped by its name' \
  "every/below/.hidden:1: $by_a
every/key:1: $by_g" --all every
audits 'the same without it' 3 \
  '1 file, 0 keys: 0 revoked in 0 files, 1 unread, 3 skipped by their names' \
  'every: unread: no file in this directory is read by its name' every
audits 'a directory that a link names' 1 '1 file, 1 key: 1 revoked in 1 file, 0 unread' \
  "home/linked/B/known_hosts:1: $by_a" home/linked/B
audits 'a slash at the end' 1 '1 file, 1 key: 1 revoked in 1 file, 0 unread' \
  "home/B/known_hosts:1: $by_a" home/B/
audits 'a file of another name that is named' 1 '1 file, 1 key: 1 revoked in 1 file, 0 unread' \
  "home/.ssh/key:1: $by_g" home/.ssh/key
audits 'a file twice' 1 '1 file, 1 key: 1 revoked in 1 file, 0 unread, 1 audited before' \
  "marked:1: $by_g
marked: same: it was audited before" marked marked
audits 'a pipe twice' 1 '2 files, 1 key: 1 revoked in 1 file, 0 unread' "/dev/stdin:1: $by_g" \
  /dev/stdin /dev/stdin < <(echo "$g")
# A file of several names is audited once for each way in which its names say that it is read.
mkdir twice && echo "$g" >twice/authorized_keys && ln twice/authorized_keys twice/authorized_keys2
ln twice/authorized_keys twice/known_hosts && ln -s known_hosts twice/ssh_known_hosts
ln twice/authorized_keys twice/x.pub && ln twice/x.pub twice/y.pub
audits 'hard and symbolic links to a file' 1 \
  '3 files, 3 keys: 3 revoked in 3 files, 0 unread, 3 audited before' \
  "twice/authorized_keys:1: $by_g
twice/authorized_keys2: same: it was audited before
twice/known_hosts:1: $by_g
twice/ssh_known_hosts: same: it was audited before
twice/x.pub:1: $by_g
twice/y.pub: same: it was audited before" twice
ln twice/x.pub key_of_x
audits 'a name of a key and one of another file lead to a file that is read alike' 1 \
  '1 file, 1 key: 1 revoked in 1 file, 0 unread, 1 audited before' \
  "key_of_x:1: $by_g
twice/x.pub: same: it was audited before" key_of_x twice/x.pub
audits 'a private key and its public half' 0 '2 files, 2 keys: 0 revoked in 0 files, 0 unread' \
  "private:1: $(key_of private): me
private.pub:1: $(key_of private): me" -a private private.pub
audits 'the same quietly, where it is not revoked' 0 \
  '1 file, 1 key: 0 revoked in 0 files, 0 unread, 1 audited before' '' -q home/a/x.pub home/a/x.pub
mkdir nothing
audits 'an empty directory' 3 '1 file, 0 keys: 0 revoked in 0 files, 1 unread' \
  'nothing: unread: no file in this directory is read by its name' nothing
audits 'an empty directory with --all' 0 '0 files, 0 keys: 0 revoked in 0 files, 0 unread' '' \
  --all nothing
mkdir -p none.d/below && echo "$g" >none.d/below/key
audits 'a directory without a file that is read' 3 \
  '1 file, 0 keys: 0 revoked in 0 files, 1 unread, 1 skipped by its name' \
  'none.d: unread: no file in this directory is read by its name' none.d
mkdir linked && echo "$b" >linked/0.pub
for it in {1..300}; do ln linked/0.pub linked/$it.pub; done
audits 'three hundred links to a file' 0 \
  '1 file, 1 key: 0 revoked in 0 files, 0 unread, 300 audited before' '' -q linked
# The names are in the order of their bytes: the first one is read, and 20 others are printed.
mkdir same && echo "$g" >same/10.pub
for it in {11..40}; do ln same/10.pub same/$it.pub; done
others=$(printf '\nsame/%s.pub: same: it was audited before' {11..30})
audits 'at most 20 other names of a file' 1 \
  '1 file, 1 key: 1 revoked in 1 file, 0 unread, 30 audited before' "same/10.pub:1: $by_g$others" same
echo "$b" >same/41.pub && ln same/41.pub same/42.pub
audits 'those of another file' 1 \
  '2 files, 2 keys: 1 revoked in 1 file, 0 unread, 31 audited before' \
  "same/10.pub:1: $by_g$others
same/42.pub: same: it was audited before" same
ln same/10.pub same/known_hosts
audits 'those of a file that is read in another way' 1 \
  '3 files, 3 keys: 2 revoked in 2 files, 0 unread, 31 audited before' \
  "same/10.pub:1: $by_g$others
same/42.pub: same: it was audited before
same/known_hosts:1: $by_g" same
judge 'at most 20 objects of one file' "$(differs 'how many objects there are' 21 \
  "$("$krl" audit -f r.krl --json same 2>/dev/null | grep -c '"status":"same"}')")"
audits 'standard input' 1 '1 file, 1 key: 1 revoked in 1 file, 0 unread' "-:1: $by_g" - <<<"$g"
echo "$g" >g.pub
expect 'the list on standard input' 1 "g.pub:1: $by_g"$'\n' \
  $'krl audit: 1 file, 1 key: 1 revoked in 1 file, 0 unread (list version 1, 1970-01-01T00:00:00Z)\n' \
  audit -f - g.pub <r.krl
for words in '-f - -' '-f - - -' '-f - --files0-from -' '-f r.krl --files0-from - -' \
  '-f r.krl --canary - -' '-f - --canary - g.pub'; do
  # shellcheck disable=SC2086
  expect_text "standard input named twice: audit $words" 2 error audit $words
done
audits 'a file that is not there' 3 '1 file, 0 keys: 0 revoked in 0 files, 1 unread' \
  'gone: unread: No such file or directory' gone
head -c 16777217 /dev/zero >long
audits 'a file of more than 16 MiB' 3 '1 file, 0 keys: 0 revoked in 0 files, 1 unread' \
  'long: unread: it has more than 16 MiB' long
{ echo "$g" && head -c $((16777216 - ${#g} - 1)) /dev/zero | tr '\0' '\n'; } >long
audits 'a file of 16 MiB' 1 '1 file, 1 key: 1 revoked in 1 file, 0 unread' "long:1: $by_g" long

# Pipes and other things where a file is expected.
mkdir odd && cd odd || exit 1
mkfifo authorized_keys id_pipe pipe
python3 -c 'import socket; socket.socket(socket.AF_UNIX).bind("known_hosts")'
ln -s loop.pub loop.pub && ln -s gone dangling.pub && ln -s ../nothing directory.pub &&
  ln -s ../high id_link
mkdir $'\x1b[31m' && echo "$g" >$'\x1b[31m/a\nb\rc.pub'
echo "$g" >$'\xe9.pub' && echo "$g" >$'caf\xe9'
cd ..
audits 'pipes, sockets, links and names' 1 \
  '8 files, 1 key: 1 revoked in 1 file, 7 unread, 3 skipped by their names' \
  'odd/\x1b[31m/a\x0ab\x0dc.pub:1: '"$by_g
odd/authorized_keys: unread: no regular file
odd/caf\\xe9: unread: it cannot be opened
odd/dangling.pub: unread: No such file or directory
odd/directory.pub: unread: a link to a directory: name it
odd/known_hosts: unread: no regular file
odd/loop.pub: unread: Too many levels of symbolic links
odd/\\xe9.pub: unread: it cannot be opened" odd
cp "$(realpath -- "${KRL:-$top/built/krl}")" built
mkdir -p closed/in && echo "$g" >closed/x.pub && echo "$g" >closed/in/x.pub &&
  chmod 000 closed/x.pub closed/in
chmod 755 "$scratch" built
ask=(./built)
[ "$(id -u)" != 0 ] || ask=(setpriv --reuid=65534 --regid=65534 --clear-groups ./built)
said=$("${ask[@]}" audit -f r.krl closed 2>&1)
judge 'what may not be read' "$(differs status 3 $?
  differs 'what is said' 'closed/in: unread: Permission denied
closed/x.pub: unread: Permission denied
krl audit: 2 files, 0 keys: 0 revoked in 0 files, 2 unread (list version 1, 1970-01-01T00:00:00Z)' \
  "$said")"
chmod 755 closed/in
# Private key files that may not be read, and one that is too long.
mkdir keys && cp private keys/id_closed && cp private keys/id_long && chmod 000 keys/id_closed
truncate -s 16777217 keys/id_long && chmod 644 keys/id_long
said=$("${ask[@]}" audit -f r.krl keys 2>&1)
judge 'private key files that are not read' "$(differs status 3 $?
  differs 'what is said' 'keys/id_closed: unread: Permission denied
keys/id_long: unread: it has more than 16 MiB
krl audit: 2 files, 0 keys: 0 revoked in 0 files, 2 unread (list version 1, 1970-01-01T00:00:00Z)' \
  "$said")"
# Files that change between the look at them and their opening, and openings that last.
# opens NAME STATUS COUNTS OUTPUT WORD..: as audits, with such files.
opens() {
  local said
  said=$(LD_PRELOAD=$PWD/opening.so ./built audit -af r.krl "${@:5}" 2>&1)
  judge "$1" "$(differs status "$2" $?
    differs 'what is said' "$4
krl audit: $3 (list version 1, 1970-01-01T00:00:00Z)" "$said")"
}
if need cc gcc && cc -O2 -shared -fPIC -o opening.so "$tests/lib/opening.c"; then
  mkdir leaving swapped slow && echo "$b" >swapped/swapped.pub
  : >leaving/going && echo "$b" >leaving/x.pub
  for it in 1.pub 2.slow.pub 3.pub 4.slow.pub; do echo "$b" >slow/$it; done
  chown -R 65534 slow 2>/dev/null
  opens 'a file that a device takes the place of' 3 \
    '1 file, 0 keys: 0 revoked in 0 files, 1 unread' \
    'swapped/swapped.pub: unread: no regular file' swapped
  opens 'a name that is gone when it is looked at' 3 \
    '2 files, 1 key: 0 revoked in 0 files, 1 unread' \
    "leaving/going: unread: No such file or directory
leaving/x.pub:1: $ok_b" leaving
  opens 'one slow opening for each owner' 3 '4 files, 2 keys: 0 revoked in 0 files, 2 unread' \
    "slow/1.pub:1: $ok_b
slow/2.slow.pub:1: $ok_b
slow/3.pub: unread: opening another file of its owner took too long
slow/4.slow.pub: unread: opening another file of its owner took too long" slow
  # An opening that is slow by chance, and files of root, who has no need to make one last.
  mkdir brief of_root && echo "$b" | tee brief/{1.brief,2,3}.pub >of_root/1.slow.pub
  cp brief/2.pub of_root
  chown -R 65534 brief 2>/dev/null
  opens 'an opening of one second' 0 '3 files, 3 keys: 0 revoked in 0 files, 0 unread' \
    "brief/1.brief.pub:1: $ok_b
brief/2.pub:1: $ok_b
brief/3.pub:1: $ok_b" brief
  [ "$(id -u)" != 0 ] ||
    opens 'a slow opening of a file of root' 0 '2 files, 2 keys: 0 revoked in 0 files, 0 unread' \
      "of_root/1.slow.pub:1: $ok_b
of_root/2.pub:1: $ok_b" of_root
  # Three slow openings in all are the last ones of files that are found, but for those of root.
  if [ "$(id -u)" = 0 ]; then
    mkdir owners && for it in 1.slow 2.slow 3.slow 4 5; do echo "$b" >owners/$it.pub; done
    for it in 1.slow 2.slow 3.slow 4; do chown 6553${it%.slow} owners/$it.pub; done
    opens 'slow openings of three owners' 3 '5 files, 4 keys: 0 revoked in 0 files, 1 unread' \
      "owners/1.slow.pub:1: $ok_b
owners/2.slow.pub:1: $ok_b
owners/3.slow.pub:1: $ok_b
owners/4.pub: unread: opening another file of its owner took too long
owners/5.pub:1: $ok_b" owners
    opens 'a named file after them' 3 '6 files, 5 keys: 0 revoked in 0 files, 1 unread' \
      "owners/1.slow.pub:1: $ok_b
owners/2.slow.pub:1: $ok_b
owners/3.slow.pub:1: $ok_b
owners/4.pub: unread: opening another file of its owner took too long
owners/5.pub:1: $ok_b
owners/4.pub:1: $ok_b" owners owners/4.pub
  fi
  # What was found is written before a slow opening ends.
  mkdir flushed && echo "$g" >flushed/1.pub && echo "$b" >flushed/2.slow.pub
  exec 3< <(LD_PRELOAD=$PWD/opening.so ./built audit -f r.krl flushed 2>/dev/null)
  said=
  IFS= read -r -t 4 -u 3 said
  judge 'a finding before a slow opening' "$(differs 'what is said' "flushed/1.pub:1: $by_g" "$said")"
  exec 3<&-
  # A file that is written between its two names is audited again.
  mkdir again && echo "$b" >again/1.pub && ln again/1.pub again/2.again.pub
  AGAIN=$g$'\n' opens 'a file that is written meanwhile' 1 \
    '2 files, 3 keys: 1 revoked in 1 file, 0 unread' "again/1.pub:1: $ok_b
again/2.again.pub:1: $ok_b
again/2.again.pub:2: $by_g" again
  NO_CLOCK=yes opens 'a slow opening without a clock' 0 \
    '2 files, 2 keys: 0 revoked in 0 files, 0 unread' "slow/2.slow.pub:1: $ok_b
slow/3.pub:1: $ok_b" slow/2.slow.pub slow/3.pub
  # The user who names a pipe waits for it.
  mkfifo slow/pipe.slow.pub && chown 65534 slow/pipe.slow.pub 2>/dev/null
  timeout 60 sh -c 'echo "$1" >slow/pipe.slow.pub' sh "$b" &
  opens 'a slow opening of a pipe that is named' 0 \
    '2 files, 2 keys: 0 revoked in 0 files, 0 unread' "slow/pipe.slow.pub:1: $ok_b
slow/3.pub:1: $ok_b" slow/pipe.slow.pub slow/3.pub
  rm slow/pipe.slow.pub
else
  judge 'a C compiler is there' '  install gcc'
fi
# A directory in a directory, as deep as a path can be, and deeper than Linux opens one.
python3 - <<'END'
import os
for it in ["deep"] + ["d"] * 2100:
    os.mkdir(it)
    os.chdir(it)
open("x.pub", "w").close()
END
"$program" audit -f r.krl deep >"$scratch/output" 2>&1
judge 'directories too deep to be opened' "$(differs status 3 $?
  differs findings 1 "$(grep -c '^deep/d.*: unread: it cannot be opened$' "$scratch/output")"
  differs lines 2 "$(wc -l <"$scratch/output")")"
rm -rf deep
# Two thousand directories, one in the other, with a small stack.
python3 - "$g" <<'END'
import os, sys
for it in ["deep"] + ["d"] * 2035:
    os.mkdir(it)
    os.chdir(it)
with open("x.pub", "w") as out:
    out.write(sys.argv[1] + "\n")
END
(ulimit -s 256 && exec ./built audit -f r.krl deep) >"$scratch/output" 2>&1
judge 'two thousand directories with a stack of 256 KiB' "$(differs status 1 $?
  differs findings 1 "$(grep -c ':1: revoked: ' "$scratch/output")"
  differs lines 2 "$(wc -l <"$scratch/output")")"
rm -rf deep
mkdir many && (cd many && seq -f 'k%.0f.pub' 3000 | xargs touch && echo "$g" >k1500.pub)
audits 'many files' 1 '3000 files, 1 key: 1 revoked in 1 file, 0 unread' \
  "many/k1500.pub:1: $by_g" many

mkdir -p above/other
if unshare -m mount -t tmpfs none above/other 2>/dev/null; then
  said=$(unshare -m sh -c 'mount -t tmpfs none above/other && echo "$1" >above/other/x.pub &&
    "$2" audit -f r.krl above' sh "$g" "$program" 2>/dev/null)
  judge 'another file system' "$(differs findings "above/other/x.pub:1: $by_g" "$said")"
  said=$(unshare -m sh -c 'mount -t tmpfs none above/other && echo "$1" >above/other/x.pub &&
    "$2" audit -f r.krl -x above 2>&1' sh "$g" "$program")
  judge 'it is left out with -x' "$(asks 0 grep -q ', 1 on other file systems' <<<"$said"
    asks 1 grep 'above/other' <<<"$said")"
  # The files of two file systems have the same numbers.
  mkdir one two
  said=$(unshare -m sh -c 'mount -t tmpfs none one && mount -t tmpfs none two &&
    echo "$1" >one/x.pub && echo "$2" >two/x.pub && stat -c %i one/x.pub two/x.pub | uniq | wc -l &&
    "$3" audit -f r.krl one two' sh "$b" "$g" "$program" 2>/dev/null)
  judge 'two files of one number, on two file systems' \
    "$(differs findings "1"$'\n'"two/x.pub:1: $by_g" "$said")"
else
  echo '# no file system can be mounted here, so none is entered'
fi

# Names from a file.
printf '%s\0' marked home/B gone odd/authorized_keys $'\xe9' >names
audits 'names of a file' 1 '5 files, 2 keys: 2 revoked in 2 files, 3 unread' "marked:1: $by_g
home/B/known_hosts:1: $by_a
gone: unread: No such file or directory
odd/authorized_keys: unread: no regular file
\\xe9: unread: it cannot be opened" --files0-from names
audits 'names of standard input, the last without its end' 1 \
  '3 files, 2 keys: 2 revoked in 2 files, 0 unread' "marked:1: $by_g
home/B/known_hosts:1: $by_a" --files0-from - home/B < <(printf 'marked\0empty')
mkdir $'caf\xc3\xa9' && echo "$g" >$'caf\xc3\xa9/\xe9.pub'
audits 'a name that is not UTF-8, in a file and in a directory' 3 \
  '2 files, 0 keys: 0 revoked in 0 files, 2 unread' \
  'caf\xc3\xa9/\xe9.pub: unread: it cannot be opened
caf\xc3\xa9/\xe9.pub: unread: it cannot be opened' \
  --files0-from <(printf 'caf\xc3\xa9/\xe9.pub\0') $'caf\xc3\xa9'
printf '%s\0' - - >names
audits 'a hyphen among names is the name of a file' 3 \
  '2 files, 0 keys: 0 revoked in 0 files, 2 unread' '-: unread: No such file or directory
-: unread: No such file or directory' --files0-from names < <(echo "$g")
long_name=$(head -c 4096 /dev/zero | tr '\0' a)
{ head -c 4097 /dev/zero | tr '\0' a && printf '\0%s\0' marked; } >names
audits 'a name of 4,097 bytes' 1 '2 files, 1 key: 1 revoked in 1 file, 1 unread' \
  "$long_name: unread: its name has more than 4,096 bytes
marked:1: $by_g" --files0-from names
head -c 200000000 /dev/zero | tr '\0' a |
  (ulimit -v 100000 && exec ./built audit -f r.krl --files0-from -) >"$scratch/output" 2>&1
judge 'a name of 200 MB in 100 MB' "$(differs status 3 $?
  differs 'its line' "$long_name: unread: its name has more than 4,096 bytes" \
    "$(head -n 1 "$scratch/output")")"
audits 'no name' 0 '0 files, 0 keys: 0 revoked in 0 files, 0 unread' '' --files0-from empty
missing=$'No such file or directory [file 1 Open]\n'
keyless=$'no key type stands there [line 1 NoKey]\n'
cut_short=$'truncated, in its header or within a section [krl 3 EndsEarly]\n'
full='it takes no more bytes [output 1 Write after 0 bytes]'
expect 'names in what is no directory' 255 '' \
  "krl: none/names: No such file or directory [file 1 Open]"$'\n' audit -f r.krl \
  --files0-from none/names
expect 'names that cannot be read' 255 '' $'krl: nothing: it is a directory [file 2 Read]\n' audit -f r.krl \
  --files0-from nothing

# Canaries, each of whose keys the list must revoke.
printf '%s\n%s\n' "$a" "$g" >pair && mkdir canary &&
  echo "a.example $a" >canary/known_hosts
echo "$a" >of_a && echo "$b" >of_b && printf '%s\n%s\n' "$a" "$b" >of_both
printf '%s\nnone\n' "$a" >of_none
unmet='it must have a key and no line that is unread, and the list must revoke each of its keys'
unmet+=' [audit 1 Canary]'
audits 'canaries that the list revokes' 1 '1 file, 1 key: 1 revoked in 1 file, 0 unread' \
  "marked:1: $by_g" --canary of_a --canary of_a marked
for it in of_b of_both of_none empty gone none; do
  expect "a canary that is no reason to trust the list: $it" 255 '' "krl: $it: $unmet"$'\n' \
    audit -f r.krl --canary of_a --canary $it marked
done
audits 'a canary from standard input' 1 '1 file, 1 key: 1 revoked in 1 file, 0 unread' \
  "marked:1: $by_g" --canary - marked <<<"$a"
audits 'a canary is no finding' 0 '1 file, 1 key: 0 revoked in 0 files, 0 unread' '' \
  --canary of_a of_a
audits 'a canary is told as a key that is not revoked' 1 '1 file, 2 keys: 1 revoked in 1 file, 0 unread' \
  "pair:1: ok: ssh-ed25519 $(fingerprint "$A")
pair:2: $by_g" -a --canary of_a pair
printf %s "$a" >of_a_alone && echo "$g" >of_g
audits 'canaries without a line feed at their end' 0 '1 file, 2 keys: 0 revoked in 0 files, 0 unread' '' \
  --canary of_a_alone --canary of_g pair
expect 'a canary of hosts is no line of a key' 255 '' \
  $'krl: canary/known_hosts: line 1: no key type stands there [line 1 NoKey]\n' \
  audit -f r.krl --canary canary/known_hosts pair
expect 'a list that is none, and a canary' 255 '' "krl: none: line 1: $keyless" \
  audit -f none --canary of_a marked
# Options and statuses.
audits 'nothing is revoked' 0 '1 file, 1 key: 0 revoked in 0 files, 0 unread' '' home/a/x.pub
audits 'something is unread' 3 '2 files, 1 key: 0 revoked in 0 files, 1 unread' \
  'gone: unread: No such file or directory' gone home/a/x.pub
audits 'quietly, up to the first revoked key' 1 '2 files, 1 key: 1 revoked in 1 file, 1 unread' '' \
  -aq gone marked home
audits 'quietly, where nothing is revoked' 3 '2 files, 1 key: 0 revoked in 0 files, 1 unread' '' \
  -q gone home/a/x.pub
expect 'a list that is not there' 255 '' "krl: no.krl: $missing" audit -f no.krl marked
expect 'a list that is none' 255 '' "krl: none: line 1: $keyless" audit -f none marked
bytes "$H" 02 >cut.krl
expect 'a list that is cut' 255 '' "krl: cut.krl: $cut_short" audit -f cut.krl gone
expect 'the names of files are opened before the list is read' 255 '' "krl: no: $missing" \
  audit -f cut.krl --files0-from no
expect 'a list of a name that moves the terminal' 255 '' "krl: \\x1b[2J: $missing" audit \
  -f $'\e[2J' a
expect 'a list of a name with a control character past ASCII' 255 '' \
  "krl: \\x9b2J: $missing" audit -f $'\xc2\x9b2J' a
# A CA that is no key, or a key in another spelling, which sshd may read otherwise.
for it in 00 "${A}00"; do
  bytes "$H" 01 "$(string "$(string "$it")$(string '')20$(string 0000000000000005)")" >other.krl
  expect "a CA of ${#it} digits that is no key" 255 '' \
    'krl: other.krl: a certificate authority in it is no key in its one spelling, and sshd may '\
$'read it otherwise\n' audit -f other.krl marked
done
# A key ID with a zero byte, at which OpenSSH ends it.
for it in 6100 0061 610061 00; do
  bytes "$H" 01 \
    "$(string "$(words '' '')23$(string "$(words a)$(string $it)")")" >other.krl
  expect "a key ID of the bytes $it" 255 '' \
    $'krl: other.krl: a key ID in it has a zero byte, and sshd may read it otherwise\n' \
    audit -f other.krl marked
done
# A CA that OpenSSH refuses: an RSA key of 1,023 bits, and a point that is not on its curve.
for it in "$(rsa "$(string 010001)" "$(string 7f"$(repeat 127 01)")")" \
  "$(ecdsa 256 "04$(repeat 64 21)")"; do
  bytes "$H" 01 "$(string "$(string "$it")$(string '')20$(string 0000000000000005)")" >other.krl
  run audit -f other.krl marked
  judge "a CA of ${#it} digits that OpenSSH refuses" "$(
    differs status 255 $got_status
    differs 'standard output' '' "$got_output"
    [[ $got_error == 'krl: other.krl: a certificate authority in it '*'sshd may '* ]] ||
      echo "  $got_error"
  )"
done
bytes "$H" 01 "$(string "$(string '')$(string '')20$(string 0000000000000005)")" >all.krl
expect_text 'serial numbers of all CAs' 0 error audit -qf all.krl home/a/x.pub
# A list of more than 64 MiB has the fault of its first field that has one, as ssh-keygen says it.
{ bytes "$H" 02 && head -c 67108865 /dev/zero; } >long.krl
said=$("$keygen" -Q -f long.krl home/a/x.pub 2>&1)
expect "a list of more than 64 MiB: ${said##*: }" 255 '' \
  "krl: long.krl: a section of an unknown type [${said##*: }]"$'\n' \
  audit -f long.krl marked
rm long.krl
echo "$a" >plain
expect 'a plain list' 1 "plain:1: $by_a"$'\n' \
  $'krl audit: 2 files, 2 keys: 1 revoked in 1 file, 0 unread (plain list)\n' \
  audit -f plain home/a/x.pub plain
expect 'a plain list of no key' 0 '' \
  $'krl audit: 1 file, 1 key: 0 revoked in 0 files, 0 unread (plain list)\n' audit -f empty plain
expect_text 'no words' 2 error
expect_text 'no list' 2 error audit marked
expect_text 'nothing to audit' 2 error audit -f r.krl
expect_text 'an option that is not known' 2 error audit -f r.krl -Q marked
expect_text 'help' 0 output -h
expect_text 'help for audit' 0 output audit --help
wanted=$("$program" audit --help)
expect 'help for audit, as a task' 0 "$wanted"$'\n' '' help audit
wanted=$("$program" --help)
expect 'help, as a task' 0 "$wanted"$'\n' '' help
expect_text 'help for a task that is not known' 2 error help other
# One of the programs may have been built before a commit, and the other one after it.
number=$("$keygen" --version | cut -d ' ' -f 2)
for words in --version -V; do
  run $words
  judge "the version by $words" "$(
    differs 'exit status' 0 "$got_status"
    differs 'standard error' '' "$got_error"
    commit='[0-9a-f]{12}(-dirty)?'
    [[ $got_output =~ ^"krl $number"(\ [(]$commit[)])?$'\n'$ ]] || echo "  it says $got_output"
  )"
done
run audit -f r.krl $'--\e[2J'
judge 'no word of a refusal moves the terminal' "$(differs status 2 $got_status
  [[ $got_error == *'\x1b[2J'* ]] || echo '  it does not repeat the word'
  asks 1 grep -n $'\e' "$scratch/error")"
for it in /dev/full closed; do
  if [ $it = closed ]; then
    "$program" audit -f r.krl marked >&- 2>"$scratch/error"
  else
    "$program" audit -f r.krl marked >$it 2>"$scratch/error"
  fi
  judge "an output that is $it" "$(differs status 255 $?
    differs 'standard error' "krl: output: $full" "$(cat "$scratch/error")")"
done
"$program" audit -f r.krl marked 2>&- >"$scratch/output"
judge 'an error output that is closed' \
  "$(differs status 1 $?; differs output "marked:1: $by_g" "$(cat "$scratch/output")")"

# At a terminal. The words for the verdicts are in colour on standard output. Standard error says
# how far the audit is, after its first second.
setting=()
printf '%s \e[31mred\n%s\nnone\n' "$g" "$b" >$'\e[7mkeys'
plain='\x1b[7mkeys:1: '"$by_g"': \x1b[31mred
\x1b[7mkeys:2: '"$ok_b"'
\x1b[7mkeys:3: '"$no_type"
of_list='(list version 1, 1970-01-01T00:00:00Z)'
summary="krl audit: 1 file, 2 keys: 1 revoked in 1 file, 1 unread $of_list"
expect_terminal 'colours at a terminal' 1 1 "$(painted "$plain")" "$summary" \
  audit -a -f r.krl $'\e[7mkeys'
expect_terminal 'one terminal for both streams' 12 1 "$(painted "$plain")"$'\n'"$summary" '' \
  audit -a -f r.krl $'\e[7mkeys'
expect_terminal 'no colour on standard error' 2 1 "$summary" "$plain" \
  audit -a -f r.krl $'\e[7mkeys'
line ssh-ed25519 "$G" >g.pub
expect_terminal 'no colour of krl check' 1 1 "g.pub:1: $by_g
keep: g.pub: 1 of 1 key is revoked, 0 lines are not read" '' check --keep g.pub r.krl
for it in NO_COLOR=1 NO_COLOR=0 NO_COLOR=$'\xff' TERM=dumb; do
  setting=("$it")
  expect_terminal "no colour with $(printf %q "$it")" 1 1 "$plain" "$summary" \
    audit -a -f r.krl $'\e[7mkeys'
done
for it in NO_COLOR= CLICOLOR=0; do
  setting=("$it")
  expect_terminal "colours with $it" 1 1 "$(painted "$plain")" "$summary" \
    audit -a -f r.krl $'\e[7mkeys'
done
setting=()
"$program" audit --json -a -f r.krl $'\e[7mkeys' >objects 2>/dev/null
expect_terminal 'objects without colours' 1 1 "$(cat objects)" "$summary" \
  audit --json -a -f r.krl $'\e[7mkeys'
judge 'they have no escape' "$(asks 1 grep -n $'\e' objects)"
setting=(CLICOLOR_FORCE=1)
at_terminal 2 audit -a -f r.krl $'\e[7mkeys'
judge 'no colour where there is no terminal' \
  "$(differs 'standard output' "$plain" "$(cat "$scratch/output")")"
setting=()
# far FILES KEYS REVOKED UNREAD: the line that says how far the audit is, and the blanks that wipe
# it.
far() {
  local line="krl audit: $1, $2: $3 revoked, $4 unread"
  printf '\r%s\r%*s\r' "$line" ${#line} ''
}
# read_by_then: waits until what this shell has written to a pipe is read, so the program runs.
read_by_then() {
  timeout 60 python3 -c 'import array, fcntl, termios, time
left = array.array("i", [1])
while left[0]:
    time.sleep(0.02)
    fcntl.ioctl(1, termios.FIONREAD, left)'
}
# slowly FIRST SECOND: a name, and the second one two seconds after the first one was read.
slowly() {
  printf '%s\0' "$1" && read_by_then && sleep 2 && printf '%s\0' "$2"
}
found="marked:1: $by_g
gone: unread: No such file or directory"
summary="krl audit: 2 files, 1 key: 1 revoked in 1 file, 1 unread $of_list"
missed='gone: unread: No such file or directory'
expect_terminal 'how far the audit is, wiped before a finding' 12 1 \
  "$(painted "$found")"$'\n'"$(far '2 files' '1 key' 1 1)$(painted "$missed")
krl audit: 3 files, 1 key: 1 revoked in 1 file, 2 unread $of_list" '' \
  audit -f r.krl --files0-from - < <(slowly marked gone && printf 'gone\0')
expect_terminal 'how far it is, wiped at the end' 2 1 \
  "$(far '2 files' '1 key' 1 1)$summary" "$found" \
  audit -f r.krl --files0-from - < <(slowly marked gone)
setting=(NO_COLOR=1)
expect_terminal 'how far it is, of a quiet audit with NO_COLOR' 2 3 \
  "$(far '2 files' '1 key' 0 1)${summary/1 revoked in 1 file/0 revoked in 0 files}" '' \
  audit -q -f r.krl --files0-from - < <(slowly home/a/x.pub gone)
setting=()
# A line may be shorter than the one before: "1 file" after "0 files". Nothing of the longer one may
# stay on the terminal.
mkdir single nobody && echo "$b" >single/x.pub
at_terminal 2 audit --all -q -f r.krl --files0-from - \
  < <(slowly nobody single && sleep 1 && printf 'gone\0')
judge 'how far it is, of fewer characters than before' "$(differs status 3 $got_status
  python3 - "$scratch/terminal" <<'END' || echo '  what the terminal is sent cannot be read'
import re, sys
line, seen = "", []
for part in open(sys.argv[1], newline="").read().split("\n")[0].split("\r"):
    line = part + line[len(part):]
    seen.append(line.rstrip())
whole = re.compile("(krl audit: [0-9]+ files?, [0-9]+ keys?: [0-9]+ revoked, [0-9]+ unread)?")
wanted = ["krl audit: 0 files, 0 keys: 0 revoked, 0 unread"]
wanted += ["krl audit: 2 files, 1 key: 0 revoked, 1 unread"]
for it in seen[:-1]:
    if not whole.fullmatch(it):
        print("  it shows " + it)
for it in wanted:
    if it not in seen:
        print("  it does not show " + it)
END
)"
expect_terminal 'how far it is is said at a terminal alone' 1 1 \
  "$(painted "$found")" "$summary" \
  audit -f r.krl --files0-from - < <(slowly marked gone)
{ slowly home/a/x.pub empty && printf 'marked\0'; } |
  python3 "$tests/lib/terminal.py" "$scratch/terminal" 2 \
    "$program" audit -f r.krl --files0-from - >/dev/full
judge 'how far it is, wiped before a fault' "$(differs status 255 $?
  differs 'standard error' "$(far '2 files' '1 key' 0 0)krl: output: $full" \
    "$(cat "$scratch/terminal")")"
# In its first second nothing is said. On a machine that is too busy for that it is tried again.
for _ in 1 2 3 4 5 6 7 8 9; do
  began=$(date +%s%N)
  at_terminal 2 audit -f r.krl marked
  [ $(($(date +%s%N) - began)) -ge 1000000000 ] || break
done
judge 'in its first second nothing is said' "$(differs 'standard error' \
  "krl audit: 1 file, 1 key: 1 revoked in 1 file, 0 unread $of_list" "$(cat "$scratch/terminal")")"

# JSON. The expected objects are made from the same values as the lines above, and another reader
# reads both: jq, or Python where jq is missing and cannot be installed.
for it in '{"a":' '{"a":1}}' '{"a":1} {"a":1}' "{'a':1}" '[1]' $'{"a":"\xff"}'; do
  printf '%s\n' "$it" >no-object
  judge "the reader refuses $(printf %q "$it")" \
    "$([ -z "$(read_lines no-object 2>/dev/null)" ] || echo '  it reads an object')"
done
key_g="\"type\":\"ssh-ed25519\",\"fingerprint\":\"$(fingerprint "$G")\""
list_of_g='"list":{"file":"r.krl","version":"1","generated":"1970-01-01T00:00:00Z",'
list_of_g+="\"sha256\":\"$(sha256sum r.krl | cut -d ' ' -f 1)\"}"
ends_with() {
  echo "{\"status\":\"done\",\"files\":$1,\"keys\":$2,\"revoked\":$3,\"unread\":$4,\
\"skipped\":${5:-0},\"excluded\":0,\"elsewhere\":0,\"same\":${6:-0},$list_of_g}"
}
by_key='"reasons":[{"by":"key"}]'
printf 'no-pty %s \xc3\xa9"\\\n\n# none\ngarbage\n' "$g" >authorized_keys
printf 'no-pty\r %s\n' "$g" >returned
expect_objects 'objects of lines' 1 \
  "{\"file\":\"authorized_keys\",\"line\":1,\"status\":\"revoked\",$key_g,\
\"comment\":\"\u00e9\\\"\\\\\",\"options\":\"no-pty\",$by_key}
{\"file\":\"authorized_keys\",\"line\":4,\"status\":\"unread\",\"fault\":\"line 1 NoKey\",\
\"why\":\"no key type stands there\"}
$(ends_with 1 1 1 1)" -f r.krl authorized_keys
expect_objects 'a carriage return at the end of options' 1 \
  "{\"file\":\"returned\",\"line\":1,\"status\":\"revoked\",$key_g,\
\"comment\":\"\",\"options\":\"no-pty\\r\",$by_key}
$(ends_with 1 1 1 0)" -f r.krl returned
echo "a.example $g" >known_hosts2
expect_objects 'an object of a host in known_hosts2' 1 \
  "{\"file\":\"known_hosts2\",\"line\":1,\"status\":\"revoked\",$key_g,\
\"comment\":\"\",\"hosts\":\"a.example\",$by_key}
$(ends_with 1 1 1 0)" -f r.krl known_hosts2
expect_objects 'the number of other lines that are not read' 3 "$(
  for ((i = 2; i <= 21; i++)); do
    echo "{\"file\":\"one_more\",\"line\":$i,\"status\":\"unread\",\"fault\":\"line 1 NoKey\",\
\"why\":\"no key type stands there\"}"
  done)
{\"file\":\"one_more\",\"status\":\"unread\",\"count\":1,\"why\":\"and 1 more line is unread\"}
$(ends_with 1 1 0 21)" -f r.krl one_more
expect_objects 'the number of other revoked lines' 1 "$(
  for ((i = 1; i <= 20; i++)); do
    echo "{\"file\":\"one_revoked\",\"line\":$i,\"status\":\"revoked\",$key_g,\
\"comment\":\"\",$by_key}"
  done)
{\"file\":\"one_revoked\",\"status\":\"revoked\",\"count\":1}
$(ends_with 1 21 21 0)" -f r.krl one_revoked
expect_objects 'an object of a key ID with a zero byte' 3 \
  "{\"file\":\"zero_id\",\"line\":1,\"status\":\"unread\",\"fault\":\"audit 2 ZeroInId\",\
\"why\":\"its key ID has a zero byte\"}
$(ends_with 1 0 0 1)" -f r.krl zero_id
printf '@cert-authority a.example,b.example %s\n' "$g" >known_hosts
expect_objects 'objects by a plain list' 0 \
  "{\"status\":\"done\",\"files\":1,\"keys\":1,\"revoked\":0,\"unread\":0,\
\"skipped\":0,\"excluded\":0,\"elsewhere\":0,\"same\":0,\
\"list\":{\"file\":\"plain\",\"sha256\":\"$(sha256sum plain | cut -d ' ' -f 1)\"}}" \
  -f plain home/a/x.pub
expect_objects 'an object of a known host' 1 \
  "{\"file\":\"known_hosts\",\"line\":1,\"status\":\"revoked\",$key_g,\
\"comment\":\"\",\"marker\":\"@cert-authority\",\"hosts\":\"a.example,b.example\",$by_key}
$(ends_with 1 1 1 0)" -f r.krl known_hosts
expect_objects 'a comment that is not UTF-8 in base64' 1 \
  "{\"file\":\"high\",\"line\":1,\"status\":\"revoked\",$key_g,\
\"comment_base64\":\"$(printf '\x9b1m\xff' | base64)\",$by_key}
$(ends_with 1 1 1 0)" -f r.krl high
controls=$'c1\x7f\xc2\x9b\u202e'
printf '%s ~\x7f\xc2\x80\xc2\x9f\xc2\xa0\xc3\x9b\xd8\x9c\xe2\x80\xa9\xe2\x81\xa9\xe2\x81\xaa\n' \
  "$g" >"$controls"
expect_objects 'control characters of a name and of a comment' 1 \
  "{\"file\":\"c1\u007f\u009b\u202e\",\"line\":1,\"status\":\"revoked\",$key_g,\
\"comment\":\"~\u007f\u0080\u009f\u00a0\u00db\u061c\u2029\u2069\u206a\",$by_key}
$(ends_with 1 1 1 0)" -f r.krl "$controls"
judge 'a terminal is sent none of them' "$(
  for it in '\x7f' '\xc2[\x80-\x9f]' '\xd8\x9c' '\xe2\x80[\x8e\x8f\xa8-\xae]' \
    '\xe2\x81[\xa6-\xa9]'; do
    asks 1 env LC_ALL=C grep -nP "$it" "$scratch/output"
  done
  differs 'the comment' \
    $'"~\\u007f\\u0080\\u009f\xc2\xa0\xc3\x9b\\u061c\\u2029\\u2069\xe2\x81\xaa"' \
    "$(grep -o '"~[^"]*"' "$scratch/output")")"
expect_objects 'an object of a file' 3 \
  "{\"file\":\"gone\",\"status\":\"unread\",\"fault\":\"file 1 Open\",\
\"why\":\"No such file or directory\"}
$(ends_with 1 0 0 1)" -f r.krl gone
expect_objects 'no file at all' 0 "$(ends_with 0 0 0 0)" --all -f r.krl nothing
expect_objects 'an object of a name that leads to the same file' 1 \
  "{\"file\":\"marked\",\"line\":1,\"status\":\"revoked\",$key_g,\"comment\":\"\",$by_key}
{\"file\":\"marked\",\"status\":\"same\"}
$(ends_with 1 1 1 0 0 1)" -f r.krl marked marked
expect_objects 'an object with the number of skipped names' 3 \
  "{\"file\":\"none.d\",\"status\":\"unread\",\"fault\":\"file 5 NoKeys\",\
\"why\":\"no file in this directory is read by its name\"}
$(ends_with 1 0 0 1 1)" -f r.krl none.d
expect_objects 'keys that are not revoked' 0 "{\"file\":\"home/a/x.pub\",\"line\":1,\"status\":\"ok\",\
\"type\":\"ssh-ed25519\",\"fingerprint\":\"$(fingerprint "$B")\",\"comment\":\"\",\"reasons\":[]}
$(ends_with 1 1 0 0)" -a -f r.krl home/a/x.pub
expect 'no objects quietly' 1 '' "krl audit: 1 file, 1 key: 1 revoked in 1 file, 0 unread \
(list version 1, 1970-01-01T00:00:00Z)
" audit -q --json -f r.krl known_hosts
by_names='{"by":"serial","serial":"7","authority":A},'
by_names+='{"by":"serial","serial":"7","authority":"all"},'
by_names+='{"by":"id","id":"a \"b\"","authority":A},{"by":"id","id":"a \"b\"","authority":"all"}'
by_names=${by_names//A\}/"\"$(fingerprint "$A")\"}"}
made=$(date -u -d "@$((16#$(od -An -v -tx1 -j 20 -N 8 every.krl | tr -d ' ')))" +%FT%TZ)
list_of_g="\"list\":{\"file\":\"every.krl\",\"version\":\"0\",\"generated\":\"$made\","
list_of_g+="\"sha256\":\"$(sha256sum every.krl | cut -d ' ' -f 1)\"}"
expect_objects 'the object of a certificate' 1 "{\"file\":\"cert\",\"line\":1,\"status\":\"revoked\",\
\"type\":\"ssh-ed25519-cert-v01@openssh.com\",\"fingerprint\":\"$(fingerprint "$B")\",\
\"comment\":\"me\",\"certificate\":{\"serial\":\"7\",\"id\":\"a \\\"b\\\"\",\
\"authority\":\"$(fingerprint "$A")\"},\
\"reasons\":[{\"by\":\"key\"},{\"by\":\"sha1\"},{\"by\":\"sha256\"},$by_names]}
$(ends_with 1 1 1 0)" -f every.krl cert
# Names and comments with control characters, quotes, and bytes that are not UTF-8.
mkdir said && printf '%s \e\r\x7f\t\xc2\x9b"\\\n%s \x9b\xff\ngarbage\e\n' "$g" "$b" \
  >$'said/\e\r\n\t"\\\xc2\x9b.pub'
echo "$g" >$'said/\x9b\n.pub'
"$program" audit -a -f r.krl home odd said marked high gone cert >lines 2>/dev/null
"$program" audit -a --json -f r.krl home odd said marked high gone cert \
  >"$scratch/output" 2>/dev/null
judge 'each line is an object that another reader reads' "$(
  read_lines "$scratch/output" >got.read || echo '  one cannot be read'
  differs 'the objects' $(($(wc -l <lines) + 1)) "$(wc -l <got.read)"
  [ "$(wc -l <lines)" -gt 20 ] || echo '  there are too few'
  differs 'the lines' "$(wc -l <got.read)" "$(wc -l <"$scratch/output")"
)"

# The example of the manual page.
cp -r "$top/demo/audit" demo && cd demo || exit 1
manual=$top/docs/krl.1
example=$(sed 's/\\e/\\/g' "$manual" |
  awk '/^\.Bd -literal/ { on = 1; next } /^\.Ed/ { on = 0 } on' |
  awk '/^\$ krl audit / { on = 1 } on; /^1$/ { exit }')
program=$keygen transcript 'the example of the manual page' <<<"$example"

# Its other examples, in this folder. ssh runs the command here, and vim says where it is.
# try_example BEGINNING: runs the example that begins so.
try_example() {
  sed 's/\\e/\\/g' "$manual" |
    awk '/^\.Bd -literal/ { on = 1; printf "\f\n"; next } /^\.Ed/ { on = 0 } on' |
    awk -v beginning="$1" 'BEGIN { RS = "\f\n" } index($0, beginning) == 1 { printf "%s", $0 }' |
    sed -e 's|find /|find .|; s|/etc/ssh/revoked|revoked|; s| /etc/ssh| etc|; s| /root||' \
      -e 's| /home| home|; s|~/.ssh|home/bob|; s|^vim|vim -es -u NONE -S at|' >example
  PATH=$PWD/tools:$PATH bash example 2>/dev/null
}
mkdir tools && ln -s "$program" tools/krl && printf '#!/bin/sh\nshift 3 && exec "$@"\n' >tools/ssh
chmod +x tools/ssh && echo one >hosts
findings=$(sed -n 's/: \(revoked\|unread\):.*/: \1/p' <<<"$example" | sort)
judge 'the example with find' "$(differs findings "$findings" \
  "$(try_example '{ find' | sed 's|^./||; s/: \(revoked\|unread\):.*/: \1/' | sort)")"
# The canary is a key that the list revokes, and that no file has.
echo "$a" >revoked.canary
"$program" make -q -u -f revoked.krl - <<<"sha256: $a"
try_example '(\n  set -e\n  worst=0'
judge 'the example with ssh' "$(
  differs findings "$(sed 's/^/one: /' <<<"$findings")" \
    "$(sed -n 's/: \(revoked\|unread\):.*/: \1/p' audit | sort)"
  differs status 'one: status 1' "$(tail -n 1 audit)"
)"
need jq jq || judge 'jq is there' '  install it, on Debian by apt-get install jq'
judge 'the example with jq' "$(differs rows \
  "$(sed -n 's/^\(home.*\):\([0-9]*\): revoked: [^ ]* \([^ ]*\) .*/\1\t\2\t\3/p' <<<"$example")" \
  "$(try_example 'krl audit --json')")"
sed -n 3p home/bob/.ssh/authorized_keys >canary.pub
echo "$b" >user_ca.pub
judge 'the example of a check' "$(try_example 'krl check' || echo '  the list is refused')"
if command -v vim >/dev/null; then
  echo 'call writefile([bufname("%") . ":" . line(".")], "where")' >at && echo qa! >>at
  try_example vim
  judge 'the example with vim' \
    "$(differs place home/bob/.ssh/authorized_keys:3 "$(cat where 2>&1)")"
else
  echo '# vim is missing, and its example is skipped'
fi
cd ..
program=$keygen
