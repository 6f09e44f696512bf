# krl audit --scan and --label: keys anywhere in files, by the file, line and column of each; the
# text before each name; and 150 trees of texts at random, this repository and files of /usr/share
# beside a model.

keygen=$program
program=$krl
C=$(ed25519 "$(repeat 32 ff)")
bytes "$H" "$(section "$G" "$A" "$C")" >r.krl
g=$(line ssh-ed25519 "$G") a=$(line ssh-ed25519 "$A") b=$(line ssh-ed25519 "$B")
c=$(line ssh-ed25519 "$C")
by_g="revoked: ssh-ed25519 $(fingerprint "$G") by its key"
by_a="revoked: ssh-ed25519 $(fingerprint "$A") by its key"
by_c="revoked: ssh-ed25519 $(fingerprint "$C") by its key"
ok_b="ok: ssh-ed25519 $(fingerprint "$B")"
cut='unread: the key is not whole base64'
of_list='(list version 1, 1970-01-01T00:00:00Z)'

# counted NUMBER WORD
counted() {
  if [ "$1" = 1 ]; then echo "1 $2"; else echo "$1 $2s"; fi
}
# scans NAME STATUS COUNTS OUTPUT WORD..: a scan, with the keys that are not revoked.
scans() {
  expect "$1" "$2" "${4:+$4$'\n'}" "krl audit: $3 $of_list"$'\n' audit --scan -af r.krl "${@:5}"
}
# has_places NAME TEXT [FINDING..]: a file of this text has exactly these findings, each with its
# line and its column.
has_places() {
  local name=$1 output='' all revoked unread status=0
  printf %s "$2" >text
  shift 2
  [ $# = 0 ] || output=$(printf 'text:%s\n' "$@")
  all=$#
  revoked=$(grep -c ': revoked: ' <<<"$output")
  unread=$(grep -c ': unread: ' <<<"$output")
  [ "$unread" = 0 ] || status=3
  [ "$revoked" = 0 ] || status=1
  scans "$name" $status "1 file, $(counted $((all - unread)) key): \
$revoked revoked in $(counted $((revoked > 0)) file), $unread unread" "$output" text
}

# ---- lines

# Each key has 80 bytes: a type of 11, a blank, and a word of 68.
judge 'how long the keys are' "$(differs bytes '80 80 80 80' "${#g} ${#a} ${#b} ${#c}")"
has_places 'a key alone' "$g" "1:1: $by_g"
has_places 'a key with a comment, and a line feed' "$g me"$'\n' "1:1: $by_g"
has_places 'an empty line before a key' $'\n'"$b" "2:1: $ok_b"
has_places 'keys on many lines' "$b"$'\n'"x $g"$'\n\n'" - $a"$'\n' "1:1: $ok_b" "2:3: $by_g" \
  "4:4: $by_a"
has_places 'options, a comment sign and a host before a key' \
  "from=\"a b\" $b"$'\n'"# $g"$'\n'"a.example,10.0.0.1 $a" "1:12: $ok_b" "2:3: $by_g" "3:20: $by_a"
has_places 'a line that says it is revoked' "@revoked * $g" "1:12: $by_g"
has_places 'two keys in a line' "$b $g" "1:1: $ok_b" "1:82: $by_g"
has_places 'three keys between commas' "[$g,$b,$a]" "1:2: $by_g" "1:83: $ok_b" "1:164: $by_a"
has_places 'one key twice in a line' "$g;$g" "1:1: $by_g" "1:82: $by_g"
has_places 'cloud-init' "ssh_authorized_keys:"$'\n'"  - $b bob"$'\n'"users: [{ssh: ['$g']}]" \
  "2:5: $ok_b" "3:17: $by_g"
has_places 'Terraform' "  public_key = \"$g me\""$'\n' "1:17: $by_g"
has_places 'LDIF' "sshPublicKey: $g"$'\n'"sshPublicKey:$b" "1:15: $by_g" "2:14: $ok_b"
has_places 'LDIF, folded' "sshPublicKey: ${g:0:62}"$'\n'" ${g:62}" "1:15: $cut"
has_places 'JSON' "{\"k\": [\"$b\", \"$g\"]}" "1:9: $ok_b" "1:93: $by_g"
# In JSON a line end and a slash may have a backslash.
for it in n r t; do
  printf '{"k":"%s\\%s%s\\%s%s"}\n' "$b" $it "$g" $it "$a" >text
  scans "keys between escapes of JSON: $it" 1 '1 file, 3 keys: 2 revoked in 1 file, 0 unread' \
    "text:1:7: $ok_b
text:1:89: $by_g
text:1:171: $by_a" text
done
printf '"%s me\\r\\n%s"' "$b" "$g" >text
scans 'keys between two escapes' 1 '1 file, 2 keys: 1 revoked in 1 file, 0 unread' "text:1:2: $ok_b
text:1:89: $by_g" text
judge 'a key has slashes' "$([[ $c == */* ]] || echo '  it has none')"
has_places 'slashes of JSON' "\"${c//\//\\/}\"" "1:2: $by_c"
has_places 'one slash of JSON among others' "\"${c/\//\\/}\"" "1:2: $by_c"
has_places 'two backslashes before a slash' "\"${c/\//\\\\/}\"" "1:2: $cut"
has_places 'a backslash before a letter' "${g:0:41}\\${g:41}" "1:1: $cut"

# What is before a name.
for it in ' ' $'\t' '"' "'" '=' ',' ':' ';' '(' '[' '<' '>' '/' '+' '_' '#' '|' '%' '\' '!' '$' \
  '~' $'\r' $'\e' $'\xff' $'\x80'; do
  has_places "$(printf 'a key behind %q' "$it")" "$it$g" "1:2: $by_g"
done
for it in a z A Z 0 9 - . @ ab x- my. k@ '\x' '\b' '\u006e' 'é.'; do
  has_places "a name behind $it" "$it$g"$'\n'"k $b" "2:3: $ok_b"
done
has_places 'bytes are counted, not characters' $'\u00e9\u20ac\xff '"$g" "1:8: $by_g"
{ printf '\0\377\0' && echo "$g" && printf 'a\0b%s' "$b" && printf '\0%s' "$a"; } >text
scans 'a binary file' 1 '1 file, 2 keys: 2 revoked in 1 file, 0 unread' "text:1:4: $by_g
text:2:85: $by_a" text
judge 'a key far into a line' "$(
  { head -c 1000000 /dev/zero | tr '\0' - && printf ' %s' "$g"; } >text
  differs finding "text:1:1000002: $by_g" "$("$program" audit --scan -f r.krl text 2>/dev/null)"
)"

# What is between a name and its word, and behind the word.
has_places 'tabs and blanks within a key' "${g/ /$'\t'}"$'\n'"${b/ /   }"$'\n'"${a/ /$' \t '}" \
  "1:1: $by_g" "2:1: $ok_b" "3:1: $by_a"
for it in '' '\t' '%20' , $'\r' $'\v' $'\xc2\xa0' $'\n'; do
  has_places "$(printf 'no blank, but %q' "$it")" "${g/ /$it} $b" \
    "$([ "$it" = $'\n' ] && echo 2:70 || echo 1:$((80 + $(printf %s "$it" | wc -c) + 1))): $ok_b"
done
for it in '"' "'" , ';' ')' ']' '}' '<' '\' '\n' '&' '$' '-' . _ $'\r' $'\0' $'\xe9'; do
  printf '%s%s' "$g" "$it" >text
  scans "$(printf 'a key before %q' "$it")" 1 '1 file, 1 key: 1 revoked in 1 file, 0 unread' \
    "text:1:1: $by_g" text
done
for it in = == A /x +; do
  has_places "a word that goes on with $it" "$g$it" "1:1: $cut"
done
has_places 'carriage returns before line feeds' "$g"$'\r\n'"$b"$'\r\n'"x $a"$'\r\n' "1:1: $by_g" \
  "2:1: $ok_b" "3:3: $by_a"
has_places 'carriage returns for line feeds' "$b"$'\r'"$g"$'\r' "1:1: $ok_b" "1:82: $by_g"
has_places 'no line feed at the end, behind other lines' $'x\n'"$b"$'\n'"$g" "2:1: $ok_b" \
  "3:1: $by_g"

# Base64 that is cut, of another type, or of no key. A cut key is no other key's.
for it in 79 61 58 41 33; do
  has_places "a key of $it bytes of 80" "$b"$'\n'"k: ${g:0:it}"$'\n'"$a" "1:1: $ok_b" "2:4: $cut" \
    "3:1: $by_a"
done
for it in 76 60 32; do
  printf '%s\nk: %s\n%s' "$b" "${g:0:it}" "$a" >text
  got=$("$program" audit --scan -af r.krl text 2>/dev/null)
  judge "a key of $it bytes of 80, whose base64 is whole" "$(differs status 1 $?
    differs findings "text:1:1: $ok_b
text:2:4: unread: the key is cut or misspelt
text:3:1: $by_a" "$(sed 's/\(misspelt\): .*/\1/' <<<"$got")")"
done
has_places 'a type with less than its name in base64' "${g:0:31}"$'\n'"ssh-ed25519 AAAA"
has_places 'a word of another type' "ssh-rsa ${g#* }"$'\n'"ssh-ed25519-cert-v01@openssh.com ${g#* }"
for it in 'an ssh-rsa key for bob' 'ssh-ed25519 !!!!' ssh-rsa 'ssh-ed25519 ' 'ssh-ed448 AAAA' \
  "${g#* } ssh-ed25519" "ssh-ed25519: ${g#* }" "${g/ /$'\u00a0'}" '' $'\n\n' '-' 'ssh-' '\' '\/'; do
  has_places "$(printf 'no key: %q' "$it")" "$it"
done

# Keys and certificates of OpenSSH.
for it in 'ed25519' 'ecdsa -b 256' 'ecdsa -b 384' 'ecdsa -b 521' 'rsa -b 2048'; do
  # shellcheck disable=SC2086
  "$openssh" -q -N '' -C '' -f "${it%% *}${it##* }" -t $it
done
"$openssh" -q -s ed25519ed25519 -I id -z 7 -n bob rsa2048.pub
"$openssh" -q -k -f of.krl ecdsa384.pub rsa2048.pub
for it in *.pub; do
  [ "$it" = rsa2048-cert.pub ] && said=revoked || { "$openssh" -Q -f of.krl "$it" >/dev/null &&
    said=ok || said=revoked; }
  printf '{"key":"%s"}' "$(cut -d ' ' -f 1,2 "$it" | sed 's|/|\\/|g')" >text
  got=$("$program" audit --scan -af of.krl text 2>/dev/null)
  wanted="text:1:9: $said: $(cut -d ' ' -f 1 "$it") $("$openssh" -lf "$it" | cut -d ' ' -f 2)"
  judge "$it, of OpenSSH" "$(differs finding "$wanted" "${got%% by *}")"
done
printf 'serial: 7\n' >spec && "$openssh" -q -k -f serial.krl -s ed25519ed25519.pub spec
sed "s/^/x: '/; s/\$/'/" rsa2048-cert.pub >text
got=$("$program" audit --scan -f serial.krl text 2>/dev/null)
judge 'a certificate by its serial number' "$(
  [[ $got == 'text:1:5: revoked: '*' by serial 7 of CA '* ]] || echo "  it says $got"
)"

# ---- files

mkdir -p tree/.git/objects 'tree/a b' tree/node_modules
echo "$g" >tree/.git/config && printf 'x %s' "$b" >tree/.git/objects/ab
echo "k=$a" >'tree/a b/c d' && echo 'nothing at all' >tree/notes && : >tree/empty
echo "url $g" >$'tree/\e[31m\n\x7f' && printf '%s\r\n' "$b" >tree/node_modules/-f
cp ed25519ed25519 tree/id_ed25519 && mkfifo tree/pipe && head -c 5000 /dev/urandom >tree/noise
in_tree="tree/\\x1b[31m\\x0a\\x7f:1:5: $by_g
tree/.git/config:1:1: $by_g
tree/.git/objects/ab:1:3: $ok_b
tree/a b/c d:1:3: $by_a
tree/node_modules/-f:1:1: $ok_b"
scans 'each file of a tree' 1 \
  '9 files, 5 keys: 3 revoked in 3 files, 0 unread, 1 skipped by its name' "$in_tree" tree
scans 'the same with --all' 1 \
  '9 files, 5 keys: 3 revoked in 3 files, 0 unread, 1 skipped by its name' "$in_tree" --all tree
scans 'without an excluded folder' 1 \
  '7 files, 3 keys: 2 revoked in 2 files, 0 unread, 1 skipped by its name, 1 excluded' \
  "$(grep -v /.git/ <<<"$in_tree")" --exclude .git tree
expect 'quietly' 1 '' "krl audit: 1 file, 1 key: 1 revoked in 1 file, 0 unread $of_list
" audit --scan -qf r.krl tree
mkdir none && echo 'no key' >none/a && printf 'two\nlines' >none/b && head -c 999 /dev/zero >none/c
scans 'files without a key' 0 '3 files, 0 keys: 0 revoked in 0 files, 0 unread' '' none
scans 'a named file without a key' 0 '1 file, 0 keys: 0 revoked in 0 files, 0 unread' '' none/b
mkdir nothing
scans 'a folder without a file' 0 '0 files, 0 keys: 0 revoked in 0 files, 0 unread' '' nothing
scans 'a private key has none' 0 '1 file, 0 keys: 0 revoked in 0 files, 0 unread' '' ed25519ed25519
scans 'standard input' 1 '1 file, 1 key: 1 revoked in 1 file, 0 unread' "-:2:3: $by_g" - \
  < <(printf 'x\n# %s' "$g")
scans 'a pipe that is named' 1 '1 file, 1 key: 1 revoked in 1 file, 0 unread' \
  "/dev/stdin:1:2: $by_g" /dev/stdin < <(echo ",$g")
printf 'tree/.git/config\0none/a\0gone' >names
scans 'names from a file, and one that is not there' 1 \
  '3 files, 1 key: 1 revoked in 1 file, 1 unread' "tree/.git/config:1:1: $by_g
gone: unread: No such file or directory" --files0-from names
echo "$b # $g" >twice && ln twice other
scans 'a file twice' 1 '1 file, 2 keys: 1 revoked in 1 file, 0 unread, 1 audited before' \
  "twice:1:1: $ok_b
twice:1:84: $by_g
other: same: it was audited before" twice other
mkdir links && (cd links && ln -s ../twice file && ln -s gone dangling && ln -s ../none folder)
scans 'links in a tree' 1 '3 files, 2 keys: 1 revoked in 1 file, 2 unread' \
  "links/dangling: unread: No such file or directory
links/file:1:1: $ok_b
links/file:1:84: $by_g
links/folder: unread: a link to a directory: name it" links
# The names of files decide nothing.
for it in authorized_keys known_hosts x.pub id_rsa; do
  printf 'host,"a b" # %s\nssh-rsa none\n' "$g" >$it
  scans "a file of the name $it" 1 '1 file, 1 key: 1 revoked in 1 file, 0 unread' \
    "$it:1:14: $by_g" $it
done
{ head -c $((16777216 - 81)) /dev/zero && printf ' %s' "$g"; } >long
scans 'a key at the end of 16 MiB' 1 '1 file, 1 key: 1 revoked in 1 file, 0 unread' \
  "long:1:16777137: $by_g" long
echo >>long
scans 'a file of more than 16 MiB' 3 '1 file, 0 keys: 0 revoked in 0 files, 1 unread' \
  'long: unread: it has more than 16 MiB' long
cp "$(realpath -- "$krl")" built 2>/dev/null
[ -x "$top/built/krl" ] && [ -z "${KRL:-}" ] && cp "$top/built/krl" built
mkdir -p closed/in && echo "$g" | tee closed/x >closed/in/y && echo "k $g" >closed/z
chmod 000 closed/x closed/in && chmod 755 "$scratch" built
ask=(./built)
[ "$(id -u)" != 0 ] || ask=(setpriv --reuid=65534 --regid=65534 --clear-groups ./built)
said=$("${ask[@]}" audit --scan -f r.krl closed 2>&1)
judge 'what may not be read' "$(differs status 1 $?
  differs 'what is said' "closed/in: unread: Permission denied
closed/x: unread: Permission denied
closed/z:1:3: $by_g
krl audit: 3 files, 1 key: 1 revoked in 1 file, 2 unread $of_list" "$said")"
chmod 755 closed/in
{ yes "$g,$g" | head -n 11 && yes "${g:0:58}" | head -n 22 && yes "$b" | head -n 21; } >many
scans 'many places' 1 '1 file, 43 keys: 22 revoked in 1 file, 22 unread' "$(
  for it in {1..10}; do printf 'many:%s: '"$by_g"'\n' $it:1 $it:82; done
  seq -f "many:%.0f:1: $cut" 12 31
  seq -f "many:%.0f:1: $ok_b" 34 53
)
many: revoked: and 2 more lines are revoked
many: unread: and 2 more lines are unread
many: ok: and 1 more line is ok" many

# With a text, canaries, and the files that sshd reads.
echo "key: $g # OPS-1" >explaining.txt
echo "x=$g;" >text
expect 'the line of a text for a place' 1 "text:1:3: $by_g
  explaining.txt:1: key: $g # OPS-1
" "krl audit: 1 file, 1 key: 1 revoked in 1 file, 0 unread $of_list
" audit --scan -f r.krl -t explaining.txt text
echo "$a" >of_a && echo "k $a, $g" >text
scans 'a canary is no finding' 1 '1 file, 2 keys: 1 revoked in 1 file, 0 unread' \
  "text:1:3: ok: ssh-ed25519 $(fingerprint "$A")
text:1:85: $by_g" --canary of_a text
here=$PWD
mkdir -p keys && printf '# %s\n%s\n' "$g" "$b" >keys/bob
settings() {
  printf '%s\n' 'port 22' "trustedusercakeys none" "revokedkeys $here/r.krl" \
    "authorizedkeyscommand ${1:-none}" 'hostkeyagent none' "authorizedkeysfile $here/keys/%u"
}
settings >sshd && echo "bob:x:7:7::$here:/bin/sh" >users
expect 'sshd reads its files by lines' 0 "$here/keys/bob:2: $ok_b
" "krl audit: 1 file, 1 key: 0 revoked in 0 files, 0 unread $of_list
" audit --scan -a --sshd sshd --passwd users
expect 'and a file that is named as well is scanned' 1 "$here/keys/bob:2: $ok_b
keys/bob:1:3: $by_g
keys/bob:2:1: $ok_b
" "krl audit: 2 files, 3 keys: 1 revoked in 1 file, 0 unread $of_list
" audit --scan -a --sshd sshd --passwd users keys

# Objects.
key_g="\"type\":\"ssh-ed25519\",\"fingerprint\":\"$(fingerprint "$G")\""
by_key='"reasons":[{"by":"key"}]'
# ends_with FILES KEYS REVOKED UNREAD [SAME]
ends_with() {
  echo "{${ended:-}\"status\":\"done\",\"files\":$1,\"keys\":$2,\"revoked\":$3,\"unread\":$4,\
\"skipped\":0,\"excluded\":0,\"elsewhere\":0,\"same\":${5:-0},\
\"list\":{\"file\":\"r.krl\",\"version\":\"1\",\"generated\":\"1970-01-01T00:00:00Z\",\
\"sha256\":\"$(sha256sum r.krl | cut -d ' ' -f 1)\"}}"
}
printf '{"k":"%s\\n%s","x":"%s"}\n' "$g" "$b" "${g:0:58}" >a.json
expect_objects 'objects of places' 1 \
  "{\"file\":\"a.json\",\"line\":1,\"column\":7,\"status\":\"revoked\",$key_g,\
\"comment\":\"\",$by_key}
{\"file\":\"a.json\",\"line\":1,\"column\":89,\"status\":\"ok\",\"type\":\"ssh-ed25519\",\
\"fingerprint\":\"$(fingerprint "$B")\",\"comment\":\"\",\"reasons\":[]}
{\"file\":\"a.json\",\"line\":1,\"column\":176,\"status\":\"unread\",\"fault\":\"line 2 Base64\",\
\"why\":\"the key is not whole base64\"}
$(ends_with 1 2 1 1)" --scan -af r.krl a.json
expect_objects 'objects of files without a key' 0 "$(ends_with 3 0 0 0)" --scan -f r.krl none
echo "$g" >marked
expect_objects 'no column without a scan' 1 \
  "{\"file\":\"marked\",\"line\":1,\"status\":\"revoked\",$key_g,\"comment\":\"\",$by_key}
$(ends_with 1 1 1 0)" -f r.krl marked

# ---- labels

# labels NAME STATUS COUNTS OUTPUT WORD..: an audit with the label of a host.
labels() {
  expect "$1" "$2" "${4:+$4$'\n'}" "krl audit: $3 $of_list"$'\n' \
    audit --label web01: -f r.krl "${@:5}"
}
printf '%s me\n%s\n' "$g" "$b" >marked
labels 'a label before a revoked key' 1 '1 file, 2 keys: 1 revoked in 1 file, 0 unread' \
  "web01:marked:1: $by_g: me" marked
labels 'a label before a key that is not revoked' 1 \
  '1 file, 2 keys: 1 revoked in 1 file, 0 unread' "web01:marked:1: $by_g: me
web01:marked:2: $ok_b" -a marked
labels 'a label before a file that is not there' 3 \
  '1 file, 0 keys: 0 revoked in 0 files, 1 unread' \
  'web01:gone: unread: No such file or directory' gone
labels 'a label before a file without a key' 3 '1 file, 0 keys: 0 revoked in 0 files, 1 unread' \
  'web01:none/b: unread: none of its 2 lines is a key' none/b
labels 'a label before a line that is not read' 3 '1 file, 1 key: 0 revoked in 0 files, 1 unread' \
  'web01:-:1: unread: no key type stands there' - < <(printf 'x\n%s\n' "$b")
labels 'a label before standard input' 1 '1 file, 1 key: 1 revoked in 1 file, 0 unread' \
  "web01:-:1: $by_g" - <<<"$g"
labels 'a label before a file that is the same' 1 \
  '1 file, 2 keys: 1 revoked in 1 file, 0 unread, 1 audited before' "web01:marked:1: $by_g: me
web01:marked: same: it was audited before" marked marked
{ yes "$g" | head -n 22 && yes "$b" | head -n 21 && yes x | head -n 23; } >many
labels 'a label before the number of further lines' 1 \
  '1 file, 43 keys: 22 revoked in 1 file, 23 unread' "$(seq -f "web01:many:%.0f: $by_g" 20)
$(seq -f "web01:many:%.0f: $ok_b" 23 42)
$(seq -f 'web01:many:%.0f: unread: no key type stands there' 44 63)
web01:many: revoked: and 2 more lines are revoked
web01:many: unread: and 3 more lines are unread
web01:many: ok: and 1 more line is ok" -a many
echo "$b" >>twice
labels 'a label before a place' 1 '1 file, 3 keys: 1 revoked in 1 file, 0 unread' \
  "web01:twice:1:1: $ok_b
web01:twice:1:84: $by_g
web01:twice:2:1: $ok_b" --scan -a twice
labels 'a label before the line that a text explains' 1 \
  '1 file, 2 keys: 1 revoked in 1 file, 0 unread' "web01:marked:1: $by_g: me
  explaining.txt:1: key: $g # OPS-1" -t explaining.txt marked
labels 'a label quietly' 1 '1 file, 2 keys: 1 revoked in 1 file, 0 unread' '' -q marked
labels 'an empty folder has no finding with a label' 3 \
  '1 file, 0 keys: 0 revoked in 0 files, 1 unread' \
  'web01:nothing: unread: no file in this directory is read by its name' nothing
settings '/usr/bin/keys %u' >sshd && printf '%s\n' "$g" >keys/bob
labels 'a label before what sshd reads' 1 '2 files, 1 key: 1 revoked in 1 file, 1 unread' \
  "web01:$here/keys/bob:1: $by_g
web01:AuthorizedKeysCommand /usr/bin/keys %u: unread: it is not asked: give its output by \
--command-output" --sshd sshd --passwd users
expect 'a label is no name of the list' 255 '' \
  $'krl: gone.krl: No such file or directory [file 1 Open]\n' \
  audit --label web01: -f gone.krl marked
# Labels of other kinds.
# labelled NAME LABEL SHOWN: what is said of a key with this label.
labelled() {
  expect "$1" 1 "$3marked:1: $by_g: me
" "krl audit: 1 file, 2 keys: 1 revoked in 1 file, 0 unread $of_list
" audit --label "$2" -f r.krl marked
}
labelled 'an empty label' '' ''
labelled 'a label of a blank' ' ' ' '
labelled 'a label with a colon, a slash and a percent sign' 'a/b:%s\n:' 'a/b:%s\n:'
labelled 'a label in UTF-8' $'h\u00f4te\u2192' $'h\u00f4te\u2192'
labelled 'a label with control characters' $'\e[31m\n\r\t\x7f\u009b\u202e\u2028:' \
  '\x1b[31m\x0a\x0d\x09\x7f\x9b\xe2\x80\xae\xe2\x80\xa8:'
for it in a=b: -a --json -; do
  expect "a label by an equals sign: $it" 1 "${it}marked:1: $by_g: me
" "krl audit: 1 file, 2 keys: 1 revoked in 1 file, 0 unread $of_list
" audit --label="$it" -f r.krl marked
done
expect 'no label' 1 "marked:1: $by_g: me
" "krl audit: 1 file, 2 keys: 1 revoked in 1 file, 0 unread $of_list
" audit -f r.krl marked
for words in '--label a --label a marked' 'marked --label' '--label a' '--scan --scan marked' \
  '--scan' '--scan=yes marked'; do
  # shellcheck disable=SC2086
  expect_text "a usage error: audit -f r.krl $words" 2 error audit -f r.krl $words
done
expect_text 'a label that is not UTF-8' 2 error audit -f r.krl --label $'\xff' marked
for words in 'check r.krl' 'logins -f r.krl marked' 'show r.krl'; do
  # shellcheck disable=SC2086
  expect_text "no label of krl ${words%% *}" 2 error $words --label a
  # shellcheck disable=SC2086
  expect_text "no scan of krl ${words%% *}" 2 error $words --scan
done
setting=()
expect_terminal 'a label without a colour' 1 1 "$(painted "\\x1b[7mweb:marked:1: $by_g: me")" \
  "krl audit: 1 file, 2 keys: 1 revoked in 1 file, 0 unread $of_list" \
  audit --label $'\e[7mweb:' -f r.krl marked

# Labels of objects: each object has the label, and has it first.
labelled_first() {
  judge "$1: it is the first field of each object" "$(
    differs lines "$(wc -l <"$scratch/output")" "$(
      first="{\"label\":$2," awk 'index($0, ENVIRON["first"]) == 1 { count++ }
        END { print count + 0 }' "$scratch/output"
    )"
  )"
}
label='"label":"web01:"' ended='"label":"web01:",'
expect_objects 'labels of objects' 1 \
  "{$label,\"file\":\"a.json\",\"line\":1,\"column\":7,\"status\":\"revoked\",$key_g,\
\"comment\":\"\",$by_key}
{$label,\"file\":\"a.json\",\"line\":1,\"column\":89,\"status\":\"ok\",\"type\":\"ssh-ed25519\",\
\"fingerprint\":\"$(fingerprint "$B")\",\"comment\":\"\",\"reasons\":[]}
{$label,\"file\":\"a.json\",\"line\":1,\"column\":176,\"status\":\"unread\",\
\"fault\":\"line 2 Base64\",\"why\":\"the key is not whole base64\"}
{$label,\"file\":\"gone\",\"status\":\"unread\",\"fault\":\"file 1 Open\",\
\"why\":\"No such file or directory\"}
{$label,\"file\":\"a.json\",\"status\":\"same\"}
$(ends_with 2 2 1 2 1)" --label web01: --scan -af r.krl a.json gone a.json
labelled_first 'labels of places, of a file and of one that is the same' '"web01:"'
head -n 21 many >one_more
expect_objects 'labels of the number of further lines' 1 "$(
  for it in {1..20}; do
    echo "{$label,\"file\":\"one_more\",\"line\":$it,\"status\":\"revoked\",$key_g,\
\"comment\":\"\",$by_key}"
  done)
{$label,\"file\":\"one_more\",\"status\":\"revoked\",\"count\":1}
$(ends_with 1 21 21 0)" --label web01: -f r.krl one_more
labelled_first 'labels of lines and of their number' '"web01:"'
ended='"label":"",'
expect_objects 'an empty label of objects' 0 "$(ends_with 1 1 0 0)" --label '' -f r.krl - <<<"$b"
labelled_first 'an empty label' '""'
ended='"label":"\u001b[31m\n\"\\\u007f\u009b\u202e\u00e9",'
echo "$b" >of_b
expect_objects 'a label of objects with control characters' 0 "$(ends_with 1 1 0 0)" \
  --label $'\e[31m\n"\\\x7f\u009b\u202e\u00e9' -f r.krl of_b
labelled_first 'a label with control characters' \
  '"\u001b[31m\n\"\\\u007f\u009b\u202e'$'\u00e9"'
ended=''
expect_objects 'objects without a label' 0 "$(ends_with 1 1 0 0)" -f r.krl of_b
judge 'they have no such field' "$(asks 1 grep -n label "$scratch/output")"

# ---- beside a model

for it in at_random given; do
  KRL=$krl OPENSSH=$openssh timeout 300 python3 "$tests/lib/scanned/$it.py" \
    >"$scratch/output.model" 2>&1
  report "$scratch/output.model"
done
program=$keygen
