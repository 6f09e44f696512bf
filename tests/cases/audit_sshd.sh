# krl audit --sshd: the files that an sshd reads for keys, by what sshd -T prints and by its users,
# what is said of each kind of file, whose list it is, and each text that is refused; and 100 texts
# at random beside a model.

keygen=$program
program=$krl
here=$PWD
bytes "$H" "$(section "$G" "$A")" >r.krl
bytes "$H" "$(section "$B")" >other.krl
g=$(line ssh-ed25519 "$G") a=$(line ssh-ed25519 "$A") b=$(line ssh-ed25519 "$B")
echo "$g" >g.pub && echo "$a" >a.pub && echo "$b" >b.pub
# print_of FILE: the fingerprint of a public key.
print_of() {
  "$openssh" -l -f "$1" | cut -d ' ' -f 2
}
by_g="revoked: ssh-ed25519 $(print_of g.pub) by its key"
by_a="revoked: ssh-ed25519 $(print_of a.pub) by its key"
ok_b="ok: ssh-ed25519 $(print_of b.pub)"
of_list='(list version 1, 1970-01-01T00:00:00Z)'
no_type='unread: no key type stands there'
irregular='unread: no regular file'
not_opened='unread: it cannot be opened'

# settings PATTERNS [LINE..]: a text as sshd -T prints it, with these patterns and lines, and with
# the authorities, the list and the command of the variables.
settings() {
  printf '%s\n' 'port 22' 'strictmodes yes' "trustedusercakeys ${authorities:-none}" \
    "revokedkeys ${list:-$here/r.krl}" 'authorizedprincipalsfile none' \
    "authorizedkeyscommand ${command:-none}" 'authorizedkeyscommanduser none' \
    'hostkeyagent none' "authorizedkeysfile $1" "${@:2}" 'maxstartups 10:30:100'
}
# has PATH CONTENT: writes a file, and its folders.
has() {
  mkdir -p "${1%/*}" && printf '%s' "$2" >"$1"
}
# user NAME ID HOME: a line of a user.
user() {
  printf '%s:x:%s:100:%s,,,:%s:/bin/bash\n' "$1" "$2" "$1" "$3"
}
# in_time NAME STATUS OUTPUT ERROR WORD..: as expect, where nothing may be waited for.
in_time() {
  program=timeout expect "$1" "$2" "$3" "$4" 60 "$krl" "${@:5}"
}
# audits NAME STATUS COUNTS OUTPUT WORD..: an audit, with the keys that are not revoked, of what the
# text sshd and the users name.
audits() {
  in_time "$1" "$2" "${4:+$4$'\n'}" "krl audit: $3 $of_list"$'\n' \
    audit -a --sshd sshd --passwd users "${@:5}"
}
# finds NAME PATTERNS OUTPUT: as audits, of the users by these patterns. Each file has one key,
# which is revoked or not.
finds() {
  local keys revoked status=0
  keys=$(grep -c : <<<"$3")
  revoked=$(grep -c ': revoked: ' <<<"$3")
  [ "$revoked" = 0 ] || status=1
  settings "$2" >sshd
  audits "$1" $status "$(counted "$keys" file), $(counted "$keys" key): \
$revoked revoked in $(counted "$revoked" file), 0 unread" "$3"
}
# counted NUMBER WORD
counted() {
  if [ "$1" = 1 ]; then echo "1 $2"; else echo "$1 $2s"; fi
}

# Whose files they are. Each has one key, and so has each file that a wrong reading names.
bob=$here/homes/bob ann=$here/homes/ann by=$here/by
for it in "$bob" "$ann"; do
  has "$it/.ssh/authorized_keys" "$b one" && has "$it/.ssh/authorized_keys2" "$g two"
done
{ user bob 1001 "$bob" && user ann 300 "$ann" | tr -d '\n'; } >users
# The current folder, that of the users, and a user of another name have such files too.
for it in .ssh "$here/homes/.ssh" "$here/homes/eve/.ssh"; do
  has "$it/authorized_keys" "$g wrong"
done
finds 'each user, the last without a line feed' .ssh/authorized_keys \
  "$bob/.ssh/authorized_keys:1: $ok_b: one
$ann/.ssh/authorized_keys:1: $ok_b: one"
finds 'each word for each user, in this order' '.ssh/authorized_keys .ssh/authorized_keys2' \
  "$bob/.ssh/authorized_keys:1: $ok_b: one
$bob/.ssh/authorized_keys2:1: $by_g: two
$ann/.ssh/authorized_keys:1: $ok_b: one
$ann/.ssh/authorized_keys2:1: $by_g: two"
finds 'words in another order' '.ssh/authorized_keys2 .ssh/authorized_keys' \
  "$bob/.ssh/authorized_keys2:1: $by_g: two
$bob/.ssh/authorized_keys:1: $ok_b: one
$ann/.ssh/authorized_keys2:1: $by_g: two
$ann/.ssh/authorized_keys:1: $ok_b: one"
for it in bob ann; do has "$by/$it" "$g named $it" && has "$by/$it.keys" "$b $it.keys"; done
has "$by/1001" "$b 1001" && has "$by/300" "$a 300"
# Other spellings of the number 1001, and of a home.
for it in 0x3e9 3e9 3E9 01001 1751 100 x 0 users %u %U u; do has "$by/$it" "$g wrong"; done
finds 'the name' "$by/%u" "$by/bob:1: $by_g: named bob
$by/ann:1: $by_g: named ann"
finds 'the name within a word' "$by/%u.keys" "$by/bob.keys:1: $ok_b: bob.keys
$by/ann.keys:1: $ok_b: ann.keys"
finds 'the number' "$by/%U" "$by/1001:1: $ok_b: 1001
$by/300:1: $by_a: 300"
has "$bob/keys/bob" "$g a" && has "$bob/keys/%u" "$g wrong" && has "$here$bob/keys/bob" "$g wrong"
finds 'the home' '%h/keys/%u' "$bob/keys/bob:1: $by_g: a"
has "$here/100%/%u" "$a percent" && has "$here/100%/bob" "$g wrong"
has "$here/100/%u" "$g wrong" && has "$here/100%%/%%u" "$g wrong"
finds 'a percent sign, before a letter' "$here/100%%/%%u" "$here/100%/%u:1: $by_a: percent"
has "$by/bob-bob-1001-%U" "$g all"
finds 'tokens beside each other' "$by/%u-%u-%U-%%U" "$by/bob-bob-1001-%U:1: $by_g: all"
finds 'blanks beside words' "  $by/1001   $by/300 " "$by/1001:1: $ok_b: 1001
$by/300:1: $by_a: 300"

# Words that are none.
for it in none None nonesuch no; do
  has "$bob/$it" "$g $it" && has "$here/$it" "$g wrong"
done
finds 'none is no word' 'none' ''
finds 'none in any case is no word' 'NONE None none nOnE' ''
finds 'none between words' "none $by/1001 None $by/300" "$by/1001:1: $ok_b: 1001
$by/300:1: $by_a: 300"
finds 'words that begin or end as none' 'nonesuch no' "$bob/nonesuch:1: $by_g: nonesuch
$bob/no:1: $by_g: no"
has "$bob/x/none" "$g below"
finds 'none as the name of a file' x/none "$bob/x/none:1: $by_g: below"
user none 7 "$bob" >users && finds 'a user of the name none' %u "$bob/none:1: $by_g: none"

# Users.
cat >users <<END

# $(user eve 7 "$here/homes/eve")
   	
  # a comment
bob:*:001001:100::$bob:/usr/sbin/nologin
END
printf 'lina:!:4294967295:0:L, M %%h:%s:/bin/sh:a: b\nzero::0000:0::%s:\n' "$ann" "$ann/x" >>users
has "$by/4294967295" "$g highest" && has "$by/lina" "$b lina"
finds 'users that are locked, numbers, comments, and fields without text' \
  "$by/%U %h/.ssh/authorized_keys" "$by/1001:1: $ok_b: 1001
$bob/.ssh/authorized_keys:1: $ok_b: one
$by/4294967295:1: $by_g: highest
$ann/.ssh/authorized_keys:1: $ok_b: one
$by/0:1: $by_g: wrong"
printf 'zero::0:0:::\n' >users
finds 'a relative word below a home without text' "${by#/}/0" "$by/0:1: $by_g: wrong"
user root 0 / >users
finds 'a relative word below the root' "${by#/}/0" "/$by/0:1: $by_g: wrong"
user root 0 "$bob/" >users
finds 'a home with a slash at its end' 'no' "$bob//no:1: $by_g: no"
# Nothing in a name or a home is a token, and a blank in it ends no word.
odd="$here/homes/a b %u %h %% "
has "$odd/keys" "$g odd" && has "$odd/.ssh/keys" "$a odd" && has "$by/%h" "$a name"
has "$by/no ne" "$b name"
{ user %h 5 "$odd" && user 'no ne' 6 "$odd"; } >users
finds 'blanks and tokens in names and homes' "%h/keys .ssh/keys $by/%u" "$odd/keys:1: $by_g: odd
$odd/.ssh/keys:1: $by_a: odd
$by/%h:1: $by_a: name
$by/no ne:1: $ok_b: name"
has $'homes/\e]0;\x7f\xc3\xa9/keys' "$g x"
user x 5 "$here/homes/"$'\e]0;\x7f\xc3\xa9' >users
finds 'a home with control characters' keys \
  "$here/homes/\\x1b]0;\\x7f"$'\xc3\xa9'"/keys:1: $by_g: x"
has $'homes/caf\xe9/kept' "$g x"
{ user x 5 "$here/homes/"$'caf\xe9' && user bob 1001 "$bob"; } >users
settings 'kept no' >sshd
audits 'a home that is not UTF-8' 1 '3 files, 1 key: 1 revoked in 1 file, 2 unread' \
  "$here/homes/caf\\xe9/kept: $not_opened
$here/homes/caf\\xe9/no: $not_opened
$bob/no:1: $by_g: no"
settings "$by/root $by/0" >sshd && has "$by/root" "$a root"
in_time 'the users of the machine, of whom each names two files' 1 "$by/root:1: $by_a: root
$by/0:1: $by_g: wrong
" "krl audit: 2 files, 2 keys: 2 revoked in 2 files, 0 unread $of_list"$'\n' audit -a --sshd sshd
settings "$by/%u" >sshd
"$krl" audit -a --sshd sshd >"$scratch/output" 2>&1
judge 'root among the users of the machine' \
  "$(asks 0 grep -qxF "$by/root:1: $by_a: root" "$scratch/output")"
{ user bob 1001 "$bob" && user ann 300 "$ann"; } >users
settings .ssh/authorized_keys >sshd
in_time 'users on standard input' 0 "$bob/.ssh/authorized_keys:1: $ok_b: one
$ann/.ssh/authorized_keys:1: $ok_b: one
" "krl audit: 2 files, 2 keys: 0 revoked in 0 files, 0 unread $of_list"$'\n' \
  audit -a --sshd sshd --passwd - <users
in_time 'settings on standard input' 0 "$bob/.ssh/authorized_keys:1: $ok_b: one
$ann/.ssh/authorized_keys:1: $ok_b: one
" "krl audit: 2 files, 2 keys: 0 revoked in 0 files, 0 unread $of_list"$'\n' \
  audit -a --sshd - --passwd users < <(settings .ssh/authorized_keys)

seq -f 'u%.0f' 10000 | awk -v at="$here/homes" \
  '{ print $1 ":x:" 20000 + NR ":100::" at "/" $1 ":/bin/sh" }' >users
has "$by/30000" "$a last"
finds 'the last of ten thousand users' ".ssh/authorized_keys .ssh/authorized_keys2 $by/%U" \
  "$by/30000:1: $by_a: last"

# OpenSSH 10 reads the files that a path matches, whichever part of it has the wildcard, and OpenSSH
# 9.2 the file of this name. Host keys have no wildcards.
wild=': unread: sshd may read what its wildcards match: name these files'
for it in '*' '?' '[b]ob' 'bo\b'; do
  has "$by/${it/\*/x}" "$b" && has "$here/homes/$it/keys" "$b"
  user bob 1001 "$bob" >users && settings "$by/$it" >sshd
  audits "a wildcard in a word: $it" 3 '1 file, 0 keys: 0 revoked in 0 files, 1 unread' \
    "$by/$it$wild"
  user "$it" 1001 "$bob" >users && settings "$by/%u $by/1001" >sshd
  audits "a wildcard in a name: $it" 3 '2 files, 1 key: 0 revoked in 0 files, 1 unread' \
    "$by/$it$wild
$by/1001:1: $ok_b: 1001"
  user bob 1001 "$here/homes/$it" >users && settings "keys %h/keys $by/300" >sshd
  audits "a wildcard in a home: $it" 1 '2 files, 1 key: 1 revoked in 1 file, 1 unread' \
    "$here/homes/$it/keys$wild
$by/300:1: $by_a: 300"
  user bob 1001 "$bob" >users && has "$here/homes/$it/host.pub" "$g"
  settings none "hostkey $here/homes/$it/host" >sshd
  audits "none in a host key: $it" 1 '1 file, 1 key: 1 revoked in 1 file, 0 unread' \
    "$here/homes/$it/host.pub:1: $by_g"
done

# Each path once.
{ user bob 1001 "$bob" && user bob2 1002 "$bob" && user bob 1001 "$bob"; } >users
finds 'users with one home' 'no .ssh/authorized_keys' "$bob/no:1: $by_g: no
$bob/.ssh/authorized_keys:1: $ok_b: one"
finds 'a word without a token, and one that is there twice' "$by/300 no $by/300 %h/no" \
  "$by/300:1: $by_a: 300
$bob/no:1: $by_g: no"
ln "$bob/no" "$bob/link" && ln -s no "$bob/soft" && settings 'no link soft' >sshd
audits 'other names of a file' 1 \
  '1 file, 1 key: 1 revoked in 1 file, 0 unread, 2 audited before' "$bob/no:1: $by_g: no
$bob/link: same: it was audited before
$bob/soft: same: it was audited before"
finds 'a link alone' soft "$bob/soft:1: $by_g: no"

# What sshd reads for no user, in this order.
user bob 1001 "$bob" >users
for it in one two three; do
  "$openssh" -q -t ed25519 -N '' -C "$it" -f "host_$it"
  declare "print_$it=$(print_of "host_$it.pub")"
done
"$openssh" -q -t ed25519 -N secret -C locked -f host_locked
print_locked=$(print_of host_locked.pub)
"$openssh" -q -s host_one -h -I host -z 7 host_two.pub 2>"$scratch/error"
mkdir hosts && cp host_one host_locked host_three.pub hosts
# The public half beside the private key of another one shows which of them is read.
cp host_two hosts && echo "$g public" >hosts/host_two.pub
cp host_two-cert.pub hosts && printf '# of users\n%s users\n%s hosts\n' "$g" "$b" >hosts/ca
cp host_three hosts/dangling && ln -s gone hosts/dangling.pub
cert="ssh-ed25519-cert-v01@openssh.com $print_two"
all=("hostkey $here/hosts/host_two" "hostkey $here/hosts/host_one" "hostkey $here/hosts/gone"
  "hostkey $here/hosts/host_locked" "hostkey $here/hosts/host_three.pub"
  "hostkey $here/hosts/dangling" "hostkey $here/hosts/host_two"
  "hostcertificate $here/hosts/host_two-cert.pub" "hostcertificate $here/hosts/gone-cert.pub")
authorities=$here/hosts/ca command='/usr/bin/x  %u' settings no "${all[@]}" >sshd
of_host="$here/hosts/host_two.pub:1: $by_g: public
$here/hosts/host_one:1: ok: ssh-ed25519 $print_one: one
$here/hosts/host_locked:1: ok: ssh-ed25519 $print_locked
$here/hosts/host_three.pub:1: ok: ssh-ed25519 $print_three: three
$here/hosts/dangling:1: ok: ssh-ed25519 $print_three: three"
of_cert="$here/hosts/host_two-cert.pub:1: ok: $cert: two"
unasked='AuthorizedKeysCommand /usr/bin/x  %u: '
unasked+='unread: it is not asked: give its output by --command-output'
audits 'authorities, host keys, host certificates and a command' 1 \
  '9 files, 9 keys: 3 revoked in 3 files, 1 unread' "$bob/no:1: $by_g: no
$here/hosts/ca:2: $by_g: users
$here/hosts/ca:3: $ok_b: hosts
$of_host
$of_cert
$unasked"
# Each of them alone.
authorities=$here/hosts/ca settings none >sshd
audits 'authorities alone' 1 '1 file, 2 keys: 1 revoked in 1 file, 0 unread' \
  "$here/hosts/ca:2: $by_g: users
$here/hosts/ca:3: $ok_b: hosts"
settings none "hostkey $here/hosts/host_two" >sshd
audits 'a host key with its public half' 1 '1 file, 1 key: 1 revoked in 1 file, 0 unread' \
  "$here/hosts/host_two.pub:1: $by_g: public"
settings none "hostkey $here/hosts/host_one" >sshd
audits 'a host key without it' 0 '1 file, 1 key: 0 revoked in 0 files, 0 unread' \
  "$here/hosts/host_one:1: ok: ssh-ed25519 $print_one: one"
"$openssh" -q -k -f host.krl host_one.pub host_two-cert.pub
made=$(date -u -d "@$((16#$(od -An -v -tx1 -j 20 -N 8 host.krl | tr -d ' ')))" +%FT%TZ)
by_serial="by serial 7 of CA $print_one"
list=$here/host.krl settings none "hostkey $here/hosts/host_one" \
  "hostcertificate $here/hosts/host_two-cert.pub" >sshd
in_time 'a host key and a host certificate that are revoked' 1 \
  "$here/hosts/host_one:1: revoked: ssh-ed25519 $print_one by its key: one
$here/hosts/host_two-cert.pub:1: revoked: $cert by the key of its CA, $by_serial: two
" "krl audit: 2 files, 2 keys: 2 revoked in 2 files, 0 unread (list version 0, $made)"$'\n' \
  audit --sshd sshd --passwd users
command='/usr/bin/x  %u' settings none >sshd
audits 'a command alone' 3 '1 file, 0 keys: 0 revoked in 0 files, 1 unread' "$unasked"
command=$'/usr/bin/x \e[31m' settings none >sshd
audits 'a command with control characters' 3 '1 file, 0 keys: 0 revoked in 0 files, 1 unread' \
  "AuthorizedKeysCommand /usr/bin/x \\x1b[31m: ${unasked#*: }"
command=$'/usr/bin/x \xff' settings none >sshd
audits 'a command that is not UTF-8' 3 '1 file, 0 keys: 0 revoked in 0 files, 1 unread' \
  '/usr/bin/x \xff: unread: it cannot be opened'
for it in NONE None none; do
  authorities=$it command=$it settings none >sshd
  audits "no authorities and no command: $it" 0 \
    '0 files, 0 keys: 0 revoked in 0 files, 0 unread' ''
done
# hostkeyalgorithms and such words are others.
settings none "hostkeyalgorithms $here/g.pub" "hostkeyagent $here/g.pub" "xhostkey $here/g.pub" \
  "HostKey $here/g.pub" " hostkey $here/g.pub" "authorizedkeysfilex $here/g.pub" >sshd
audits 'words that begin or end alike' 0 '0 files, 0 keys: 0 revoked in 0 files, 0 unread' ''

# The output of the command.
command='/usr/bin/x %u' settings none >sshd
printf '%s one\nhost,"x %s "x %s\n' "$b" "$g" "$b" >known_hosts
audits 'the output of the command' 0 '1 file, 2 keys: 0 revoked in 0 files, 0 unread' \
  "known_hosts:1: $ok_b: one
known_hosts:2: $ok_b" --command-output known_hosts
audits 'two outputs' 1 '2 files, 2 keys: 2 revoked in 2 files, 0 unread' "g.pub:1: $by_g
a.pub:1: $by_a" --command-output g.pub --command-output a.pub
audits 'an output that is not there' 3 '1 file, 0 keys: 0 revoked in 0 files, 1 unread' \
  'gone: unread: No such file or directory' --command-output gone
mkfifo fifo && timeout 60 sh -c 'echo "$1" >fifo' sh "$g" &
audits 'an output in a pipe' 1 '1 file, 1 key: 1 revoked in 1 file, 0 unread' "fifo:1: $by_g" \
  --command-output fifo
wait $!
# of_stdin NAME STATUS LINE WORDS: the one finding about standard input, by whichever name, and the
# status.
of_stdin() {
  local status=$?
  judge "$1" "$(differs status "$2" $status
    differs 'what is found' "$3$4" "$(sed 's/^[^:]*: *//' "$scratch/output")")"
}
audit_of_stdin=("$krl" audit -a --sshd sshd --passwd users --command-output -)
timeout 60 "${audit_of_stdin[@]}" <g.pub >"$scratch/output" 2>"$scratch/error"
of_stdin 'an output on standard input, a file' 1 '1: ' "$by_g"
timeout 60 "${audit_of_stdin[@]}" < <(cat g.pub) >"$scratch/output" 2>"$scratch/error"
of_stdin 'an output on standard input, a pipe' 1 '1: ' "$by_g"
# As sshd passes it to a command. No path opens a socket, so it is unread.
timeout 60 python3 - "${audit_of_stdin[@]}" >"$scratch/output" 2>"$scratch/error" <<'END'
import socket, subprocess, sys
ours, theirs = socket.socketpair()
ours.sendall(open("g.pub", "rb").read())
ours.shutdown(socket.SHUT_WR)
sys.exit(subprocess.run(sys.argv[1:], stdin=theirs).returncode)
END
of_stdin 'an output on standard input, a socket' 3 '' 'unread: it cannot be opened'
settings none >sshd
audits 'an output without a command' 1 '1 file, 1 key: 1 revoked in 1 file, 0 unread' \
  "g.pub:1: $by_g" --command-output g.pub

# What is there. A file that is not there says nothing, and anything but a file is unread.
has "$here/there/file" "$g file" && mkdir there/folder && mkfifo there/pipe && ln -s loop there/loop
ln -s gone there/dangling && ln -s folder there/to_folder && ln -s pipe there/to_pipe
python3 -c 'import socket; socket.socket(socket.AF_UNIX).bind("there/socket")'
# unread NAME WORD FAULT: the only thing that is said about the path of this word.
unread() {
  settings "$2" >sshd
  audits "$1" 3 '1 file, 0 keys: 0 revoked in 0 files, 1 unread' "$2: $3"
}
# silent NAME WORD: nothing is said about it.
silent() {
  settings "$2" >sshd
  audits "$1" 0 '0 files, 0 keys: 0 revoked in 0 files, 0 unread' ''
}
silent 'a file that is not there' "$here/there/gone"
silent 'a folder that is not there' "$here/there/gone/of/x"
silent 'a file below a file' "$here/there/file/x"
silent 'a link to nothing' "$here/there/dangling"
silent 'a file below a link to nothing' "$here/there/dangling/x"
unread 'a loop of links' "$here/there/loop" 'unread: Too many levels of symbolic links'
unread 'a file below a loop of links' "$here/there/loop/x" \
  'unread: Too many levels of symbolic links'
unread 'a folder' "$here/there/folder" "$irregular"
unread 'a link to a folder' "$here/there/to_folder" "$irregular"
unread 'a pipe, which is not waited for' "$here/there/pipe" "$irregular"
unread 'a link to a pipe' "$here/there/to_pipe" "$irregular"
unread 'a socket' "$here/there/socket" "$irregular"
unread 'a device' /dev/zero "$irregular"
settings /dev/null >sshd
audits 'the null device, which has no key' 0 '1 file, 0 keys: 0 revoked in 0 files, 0 unread' ''
long=$here/there/$(printf 'x%.0s' {1..300})
unread 'a name that is too long for a file' "$long" "$not_opened"
long=/$(printf '/%.0s' {1..4999})
long=${long:0:$((5000 - ${#by} - 2))}$by/0
settings "$long" >sshd
audits 'a path of 5,000 bytes' 3 '1 file, 0 keys: 0 revoked in 0 files, 1 unread' \
  "${long:0:4096}: unread: its name has more than 4,096 bytes"
truncate -s 16777217 there/large
unread 'a file of more than 16 MiB' "$here/there/large" 'unread: it has more than 16 MiB'
: >there/empty && settings "$here/there/empty" >sshd
audits 'an empty file' 0 '1 file, 0 keys: 0 revoked in 0 files, 0 unread' ''
printf 'one\ntwo\n' >there/keyless && settings "$here/there/keyless" >sshd
audits 'a file without a key' 3 '1 file, 0 keys: 0 revoked in 0 files, 1 unread' \
  "$here/there/keyless: unread: none of its 2 lines is a key"
for it in authorities hostkey hostcertificate; do
  case $it in
    authorities) authorities=$here/there/pipe settings none ;;
    hostkey) settings none "hostkey $here/there/pipe" ;;
    hostcertificate) settings none "hostcertificate $here/there/pipe" ;;
  esac >sshd
  audits "a pipe for $it" 3 '1 file, 0 keys: 0 revoked in 0 files, 1 unread' \
    "$here/there/pipe: $irregular"
done
cp host_one there/host && mkdir there/host.pub && settings none "hostkey $here/there/host" >sshd
audits 'the public half of a host key is a folder' 3 \
  '1 file, 0 keys: 0 revoked in 0 files, 1 unread' "$here/there/host.pub: $irregular"
settings none "hostkey $here/there/folder" >sshd
audits 'a folder for a host key' 3 '1 file, 0 keys: 0 revoked in 0 files, 1 unread' \
  "$here/there/folder: $irregular"
# What may not be read, by another user than root.
cp "$(realpath -- "${KRL:-$top/built/krl}")" built && chmod 755 "$scratch" "$here" built
chmod 644 r.krl sshd users && mkdir there/closed && echo "$g" >there/closed/keys
echo "$g" >there/no_rights && chmod 000 there/closed there/no_rights
settings "$here/there/closed/keys $here/there/no_rights $here/there/gone" >sshd
ask=(./built)
[ "$(id -u)" != 0 ] || ask=(setpriv --reuid=65534 --regid=65534 --clear-groups ./built)
"${ask[@]}" audit --sshd sshd --passwd users >"$scratch/output" 2>&1
judge 'what may not be read' "$(differs status 3 $?
  differs 'what is said' "$here/there/closed/keys: unread: Permission denied
$here/there/no_rights: unread: Permission denied
krl audit: 2 files, 0 keys: 0 revoked in 0 files, 2 unread $of_list" "$(cat "$scratch/output")")"
chmod 755 there/closed

# A file is read as authorized_keys is, by whichever name it has: host names would end at the first
# blank, and a key behind a private key would be left out.
printf 'host,"x %s "x %s\n' "$g" "$b" >there/hosts
for it in known_hosts known_hosts2 ssh_known_hosts id_x x.pub ssh_host_x .ssh/known_hosts; do
  has "$here/there/$it" "$(cat there/hosts)" && user "$it" 5 "$here/there" >users
  finds "a file of the name $it" '%u' "$here/there/$it:1: $ok_b"
  finds "a user of the name $it" "$here/there/%u" "$here/there/$it:1: $ok_b"
done
user bob 1001 "$bob" >users
armour=$(wc -l <host_one)
{ cat host_one && echo && echo "$g behind"; } >there/id_armour
cp there/id_armour there/known_armour && cp there/id_armour there/authorized_keys
for it in id_armour known_armour authorized_keys; do
  settings "$here/there/$it" >sshd
  audits "a private key before a key: $it" 1 \
    "1 file, 2 keys: 1 revoked in 1 file, $armour unread" \
    "$here/there/$it:1: ok: ssh-ed25519 $print_one: one
$(seq -f "$here/there/$it:%.0f: $no_type" "$armour")
$here/there/$it:$((armour + 2)): $by_g: behind"
done
for it in authorities hostcertificate; do
  case $it in
    authorities) authorities=$here/there/hosts settings none ;;
    hostcertificate) settings none "hostcertificate $here/there/hosts" ;;
  esac >sshd
  audits "they are lines of keys: $it" 0 '1 file, 1 key: 0 revoked in 0 files, 0 unread' \
    "$here/there/hosts:1: $ok_b"
done
settings none >sshd
audits 'the output of a command behind a private key' 1 \
  "1 file, 2 keys: 1 revoked in 1 file, $armour unread" \
  "there/id_armour:1: ok: ssh-ed25519 $print_one: one
$(seq -f "there/id_armour:%.0f: $no_type" "$armour")
there/id_armour:$((armour + 2)): $by_g: behind" --command-output there/id_armour

# Names of files behind those of the sshd.
settings "$by/300" >sshd
printf '%s\0' g.pub >names
audits 'files of the sshd, of a reader and of the command line' 1 \
  '3 files, 3 keys: 2 revoked in 2 files, 0 unread' "$by/300:1: $by_a: 300
g.pub:1: $by_g
b.pub:1: $ok_b" --files0-from names b.pub
audits 'a file of the sshd that is named, and read in another way' 1 \
  '2 files, 2 keys: 2 revoked in 2 files, 0 unread' "$by/300:1: $by_a: 300
$by/300:1: $by_a: 300" "$by/300"
settings .ssh/authorized_keys2 >sshd
audits 'a file of the sshd that is named' 1 \
  '1 file, 1 key: 1 revoked in 1 file, 0 unread, 1 audited before' \
  "$bob/.ssh/authorized_keys2:1: $by_g: two
$bob/.ssh/authorized_keys2: same: it was audited before" "$bob/.ssh/authorized_keys2"
settings "$by/300 $here/there/gone" >sshd
audits 'a file that is not there, and is named' 1 '2 files, 1 key: 1 revoked in 1 file, 1 unread' \
  "$by/300:1: $by_a: 300
$here/there/gone: unread: No such file or directory" "$here/there/gone"
# What is left out of folders is not left out here.
audits 'a name that is excluded in folders, and one file system' 1 \
  '1 file, 1 key: 1 revoked in 1 file, 0 unread' "$by/300:1: $by_a: 300" --exclude 300 \
  --exclude by -x
settings "$by/1001 $by/300 $here/there/loop" >sshd
in_time 'quietly' 1 '' "krl audit: 2 files, 2 keys: 1 revoked in 1 file, 0 unread $of_list"$'\n' \
  audit -q --sshd sshd --passwd users

settings "$by/300 $here/there/loop" >sshd
command='/usr/bin/x %u' settings "$by/300 $here/there/loop" >sshd
timeout 60 "$krl" audit --json --sshd sshd --passwd users >"$scratch/output" 2>"$scratch/error"
judge 'objects' "$(differs status 1 $?
  sha=$(sha256sum r.krl | cut -d ' ' -f 1)
  cat >wanted <<END
{"file":"$by/300","line":1,"status":"revoked","type":"ssh-ed25519",\
"fingerprint":"$(print_of a.pub)","comment":"300","reasons":[{"by":"key"}]}
{"file":"$here/there/loop","status":"unread","fault":"file 1 Open",\
"why":"Too many levels of symbolic links"}
{"file":"AuthorizedKeysCommand /usr/bin/x %u","status":"unread","fault":"file 1 Open",\
"why":"it is not asked: give its output by --command-output"}
{"status":"done","files":3,"keys":1,"revoked":1,"unread":2,"skipped":0,"excluded":0,"elsewhere":0,\
"same":0,"list":{"file":"$here/r.krl","version":"1","generated":"1970-01-01T00:00:00Z",\
"sha256":"$sha"}}
END
  read_lines wanted >wanted.read && read_lines "$scratch/output" >got.read
  asks 0 diff wanted.read got.read)"

# The list.
cp r.krl 'a list' && settings "$by/300" >sshd
# by_list NAME STATUS OUTPUT NOTICE COUNTS WORD..: with what is said before.
by_list() {
  in_time "$1" "$2" "$3"$'\n' "$4krl audit: $5 $of_list"$'\n' audit -a --passwd users "${@:6}"
}
one='1 file, 1 key: 1 revoked in 1 file, 0 unread'
none='1 file, 1 key: 0 revoked in 0 files, 0 unread'
not_its=': the sshd does not use this list, as its revokedkeys says'$'\n'
list="$here/a list" settings "$by/300" >spaced && list=$here/other.krl settings "$by/300" >second
list=none settings "$by/300" >without && list=NONE settings "$by/300" >without2
settings "$by/1001" >third
ok_a="ok: ssh-ed25519 $(print_of a.pub)"
by_list 'a list with a blank in its name' 1 "$by/300:1: $by_a: 300" '' "$one" --sshd spaced
by_list 'the list of another sshd' 0 "$by/300:1: $ok_a: 300" '' "$none" --sshd second
by_list '-f with this list' 1 "$by/300:1: $by_a: 300" '' "$one" --sshd sshd -f "$here/r.krl"
by_list '-f with another list' 0 "$by/300:1: $ok_a: 300" "krl: other.krl$not_its" "$none" \
  --sshd sshd -f other.krl
by_list '-f with another list, which revokes more' 1 "$by/300:1: $by_a: 300" "krl: r.krl$not_its" \
  "$one" --sshd second -f r.krl
by_list '-f for a sshd without a list' 1 "$by/300:1: $by_a: 300" "krl: r.krl$not_its" "$one" \
  --sshd without -f r.krl
by_list '-f for sshds with two lists' 1 "$by/300:1: $by_a: 300" "krl: r.krl$not_its" "$one" \
  --sshd sshd --sshd second -f r.krl
by_list '-f with the list of the first of two' 1 "$by/300:1: $by_a: 300" \
  "krl: $here/r.krl$not_its" "$one" --sshd sshd --sshd second -f "$here/r.krl"
by_list '-f with the list of the second of two' 1 "$by/300:1: $by_a: 300" \
  "krl: $here/r.krl$not_its" "$one" --sshd second --sshd sshd -f "$here/r.krl"
in_time 'a list on standard input' 1 "$by/300:1: $by_a: 300"$'\n' \
  "krl audit: $one $of_list"$'\n' audit --sshd sshd --passwd users -f - <r.krl
cp r.krl copy.krl && ln -s r.krl link.krl
in_time 'a copy of the list on standard input' 1 "$by/300:1: $by_a: 300"$'\n' \
  "krl: -${not_its}krl audit: $one $of_list"$'\n' audit --sshd sshd --passwd users -f - <copy.krl
for it in r.krl ./r.krl link.krl; do
  by_list "-f with the list by another name: $it" 1 "$by/300:1: $by_a: 300" '' "$one" \
    --sshd sshd -f "$it"
done
by_list 'two sshds with one list, and each path once' 1 "$by/300:1: $by_a: 300
$by/1001:1: $ok_b: 1001" '' '2 files, 2 keys: 1 revoked in 1 file, 0 unread' --sshd sshd \
  --sshd third --sshd sshd
by_list 'two sshds in the other order' 1 "$by/1001:1: $ok_b: 1001
$by/300:1: $by_a: 300" '' '2 files, 2 keys: 1 revoked in 1 file, 0 unread' --sshd third --sshd sshd
by_list 'a canary' 1 "$by/300:1: $by_a: 300" '' "$one" --sshd sshd --canary g.pub
# refuses NAME BEGINNING END WORD..: one line on standard error begins and ends so, and nothing is
# audited, also of what is named.
refuses() {
  local name=$1 beginning=$2 end=$3
  timeout 60 "$krl" audit -a "${@:4}" g.pub >"$scratch/output" 2>"$scratch/error"
  judge "$name" "$(differs status 255 $?
    differs 'standard output' '' "$(cat "$scratch/output")"
    differs 'the lines' 1 "$(wc -l <"$scratch/error")"
    [[ $(cat "$scratch/error") == "$beginning"*"$end" ]] || cat "$scratch/error")"
}
refuses 'a sshd without a list' 'krl: without: ' ' [sshd 4 NoList]' --sshd without --passwd users
refuses 'a sshd without a list: NONE' 'krl: without2: ' ' [sshd 4 NoList]' --sshd without2 \
  --passwd users
refuses 'sshds without a list' 'krl: without: ' ' [sshd 4 NoList]' --sshd without --sshd without \
  --passwd users
refuses 'sshds with two lists' 'krl: sshd: ' ' [sshd 5 OtherList]' --sshd sshd --sshd second \
  --passwd users
refuses 'three sshds, the last with another list' 'krl: sshd: ' ' [sshd 5 OtherList]' \
  --sshd sshd --sshd third --sshd second --passwd users
refuses 'a sshd with a list and one without' 'krl: ' 'List]' --sshd sshd --sshd without \
  --passwd users
refuses 'a sshd without a list and one with it' 'krl: ' 'List]' --sshd without --sshd sshd \
  --passwd users
refuses 'a canary that the list does not revoke' 'krl: b.pub: ' ' [audit 1 Canary]' --sshd sshd \
  --passwd users --canary b.pub
list=$here/gone settings "$by/300" >gone_list
refuses 'a list that is not there' "krl: $here/gone: No such file or directory" ' [file 1 Open]' \
  --sshd gone_list --passwd users
# Texts explain, and do not make the list.
printf '%s # OPS-1\n%s # OPS-2\n' "$a" "$b" >text
settings "$by/300 $by/1001" >sshd
audits 'texts beside the list of the sshd' 1 '2 files, 2 keys: 1 revoked in 1 file, 0 unread' \
  "$by/300:1: $by_a: 300
  text:1: $a # OPS-1
$by/1001:1: $ok_b: 1001" -t text
audits 'texts that do not say why' 1 '2 files, 2 keys: 1 revoked in 1 file, 0 unread' \
  "$by/300:1: $by_a: 300
  no line of the texts names it by its key
$by/1001:1: $ok_b: 1001" -t b.pub
refuses 'texts beside a sshd without a list' 'krl: without: ' ' [sshd 4 NoList]' --sshd without \
  --passwd users -t text

# Texts that sshd -T does not print.
no_settings() {
  refuses "$1" "krl: $2: it is not what sshd -T prints: $3" ' [sshd 1 NoSettings]' \
    --passwd users "${@:4}"
}
for it in authorizedkeysfile trustedusercakeys revokedkeys authorizedkeyscommand; do
  settings "$by/300" | sed "/^$it /d" >bad
  no_settings "without $it" bad "$it is missing" --sshd bad
  no_settings "without $it, with -f" bad "$it is missing" --sshd bad -f r.krl
  settings "$by/300" | sed "s/^$it /x$it /" >bad
  no_settings "a longer word than $it" bad "$it is missing" --sshd bad
  settings "$by/300" | sed "s/^$it /${it^} /" >bad
  no_settings "a capital letter in $it" bad "$it is missing" --sshd bad
  settings "$by/300" | sed "s/^$it / $it /" >bad
  no_settings "a blank before $it" bad "$it is missing" --sshd bad
  settings "$by/300" | sed "/^$it /p" >bad
  no_settings "twice the same $it" bad "$it " --sshd bad
  { settings "$by/300" && echo "$it $by/300"; } >bad
  no_settings "two lines of $it" bad "$it " --sshd bad
done
no_end() {
  refuses "$1" 'krl: bad: it is not what sshd -T prints: ' ' [sshd 1 NoSettings]' \
    --passwd users --sshd bad
}
: >bad && no_end 'an empty text'
settings "$by/300" | head -c -1 >bad && no_end 'a text without its last line feed'
settings "$by/300" | head -c -8 >bad && no_end 'a text whose last line is cut'
settings "$by/300" "hostkey $here/host_one" | sed '$d' | head -c -3 >bad
no_end 'a path that is cut'
for it in '' ' '; do
  settings "$by/300" | sed "s/^authorizedkeysfile .*/authorizedkeysfile$it/" >bad
  no_settings "authorizedkeysfile and '$it' alone" bad 'authorizedkeysfile has no value' --sshd bad
done
settings "$by/300" | sed 's/$/\r/' >bad
no_settings 'carriage returns' bad 'it has carriage returns' --sshd bad
no_settings 'carriage returns, with -f' bad 'it has carriage returns' --sshd bad -f r.krl
printf 'AuthorizedKeysFile %s\nRevokedKeys %s\n' "$by/300" "$here/r.krl" >bad
no_end 'a sshd_config'
settings "$by/300" | tr '\n' '\r' >bad && no_end 'a text without a line'
settings "$by/300" >sshd
no_settings 'the second of two texts' bad '' --sshd sshd --sshd bad
refuses 'settings that are not there' 'krl: gone: No such file or directory' ' [file 1 Open]' \
  --sshd gone --passwd users
refuses 'settings that are a folder' 'krl: there/folder: it is a directory' ']' \
  --sshd there/folder --passwd users

# Users that are none.
settings "$by/300" >sshd
for it in '' $'\n' $'# bob:x:1001:100::/:\n' $'  \n\t'; do
  printf %s "$it" >bad
  refuses "no user at all: ${it@Q}" 'krl: bad: it has no user' ' [sshd 2 NoUser]' --sshd sshd \
    --passwd bad
done
while IFS='|' read -r name line <&3; do
  printf '# users\n\n%s\n%s\n%s\n' "$(user bob 1001 "$bob")" "$line" "$(user ann 300 "$ann")" >bad
  for it in none "$by/300" .ssh/authorized_keys; do settings "$it" >sshd; done
  refuses "no user: $name" 'krl: bad: line 4: it is no user, as getent passwd prints them' \
    ' [sshd 2 NoUser]' --sshd sshd --passwd bad
done 3<<ROWS
six fields|eve:x:7:7::$bob
one field|eve
five fields|eve:x:7:7:$bob
no name|:x:7:7::$bob:/bin/sh
a plus sign|+
a minus sign|-
all users of NIS|+::::::
a user of NIS|+eve::::::
a user of NIS who is left out|-eve:x:7:7::$bob:/bin/sh
a netgroup|+@staff:x:7:7::$bob:/bin/sh
no number|eve:x::7::$bob:/bin/sh
a word for a number|eve:x:seven:7::$bob:/bin/sh
a number below 0|eve:x:-1:7::$bob:/bin/sh
a number with a sign|eve:x:+7:7::$bob:/bin/sh
a blank before the number|eve:x: 7:7::$bob:/bin/sh
a blank behind the number|eve:x:7 :7::$bob:/bin/sh
a hexadecimal number|eve:x:0x7:7::$bob:/bin/sh
hexadecimal digits|eve:x:7f:7::$bob:/bin/sh
a fraction|eve:x:7.0:7::$bob:/bin/sh
a number of 33 bits|eve:x:4294967296:7::$bob:/bin/sh
a number of 65 bits|eve:x:18446744073709551623:7::$bob:/bin/sh
a number of 40 digits|eve:x:$(repeat 40 1):7::$bob:/bin/sh
commas|eve,x,7,7,,$bob,/bin/sh
ROWS
printf 'eve\nann\n' >bad
refuses 'no user in the first line' \
  'krl: bad: line 1: it is no user, as getent passwd prints them' ' [sshd 2 NoUser]' --sshd sshd \
  --passwd bad
{ user bob 1001 "$bob" && printf 'eve:x:7'; } >bad
refuses 'a last line that is cut' 'krl: bad: line 2: it is no user, as getent passwd prints them' \
  ' [sshd 2 NoUser]' --sshd sshd --passwd bad
refuses 'users that are not there' 'krl: gone: No such file or directory' ' [file 1 Open]' \
  --sshd sshd --passwd gone
refuses 'users that are a folder' 'krl: there/folder: it is a directory' ']' \
  --sshd sshd --passwd there/folder

# Words that sshd does not expand.
bad_token() {
  settings "$2" >bad
  refuses "$1" "krl: authorizedkeysfile: sshd expands no such word: $3 [sshd 3 BadToken]" '' \
    --sshd bad --passwd users
}
bad_token 'an unknown token' %x %x
bad_token 'an unknown token in a word' "$by/300 $by/%x/y $by/%y" "$by/%x/y"
bad_token 'a percent sign at the end' "$by/%u%" "$by/%u%"
bad_token 'a percent sign alone' "% $by/300" %
bad_token 'three percent signs' "$by/%%%" "$by/%%%"
bad_token 'the token of a capital letter' "%H/.ssh/authorized_keys" '%H/.ssh/authorized_keys'
bad_token 'a token with a blank' "$by/% u" "$by/%"
bad_token 'a token of a control character' "$by/%"$'\e' "$by/%\\x1b"
settings "$by/300" >sshd && settings '%i' >bad
refuses 'an unknown token in the second text' \
  'krl: authorizedkeysfile: sshd expands no such word: %i [sshd 3 BadToken]' '' --sshd sshd \
  --sshd bad --passwd users

# The command line.
for words in '--passwd users' '--command-output g.pub' '--passwd users --command-output g.pub' \
  '--sshd sshd --passwd users --passwd users' '--sshd sshd --passwd' '--sshd' \
  '--sshd sshd --command-output' '--sshd - --passwd -' '--sshd - --sshd -' \
  '--sshd - --command-output -' '--passwd - --sshd sshd --command-output -' \
  '--sshd - --files0-from -' '--sshd - -f -' '--sshd - --canary -' '--sshd - -t -' \
  '--sshd - --passwd users -' '--sshd sshd --passwd users --command-output - -' \
  '--sshd sshd --command-output - --command-output -'; do
  # shellcheck disable=SC2086
  expect_text "a usage error: audit -f r.krl $words" 2 error audit $(
    [[ $words == *'-f -'* ]] || echo -f r.krl) $words
done
expect_text 'neither a list nor a sshd' 2 error audit g.pub

# Texts at random, beside a model.
KRL=$krl timeout 300 python3 "$tests/lib/sshd/sought.py" >"$scratch/output.model" 2>&1
report "$scratch/output.model"
program=$keygen
