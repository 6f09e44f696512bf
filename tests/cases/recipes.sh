# The recipes of docs/RECIPES.md, in folders of the test's own, also with files that somebody else
# could have written: keys of two CAs, lines without an end, comments that look like ours, pipes.

room=$scratch/room
begin_recipes
for name in user-ca host-ca alice canary; do "$openssh" -q -t ed25519 -N '' -C $name -f $name; done
"$openssh" -q -t ed25519 -N '' -C host -f "$room/host"
for serial in 5 7; do
  "$openssh" -q -s user-ca -I "id of $serial" -z $serial alice.pub &&
    mv alice-cert.pub user-$serial.pub
done

# ---- a rollout is guarded

cp user-ca.pub "$room/user_ca.pub"
{ echo 'serial: 5' && echo "sha256: $(cat canary.pub)"; } >users
"$program" -k -f revoked.krl -z 10 -s user-ca.pub users
cp revoked.krl "$room/revoked.krl"
"$program" -k -u -f revoked.krl -s user-ca.pub - <<<'serial: 6'
guard=$'install -m 644 revoked.krl /etc/ssh/revoked.new/krl\n  krl check /etc/ssh/revoked.new/krl --'
remedy='new='
cp revoked.krl whole.krl
follows 'a list is guarded without krl' "$remedy" 0 "$room/user_ca.pub (user-ca): ok
$room/host.pub (host): ok
canary.pub (canary): REVOKED"
cp "$room/revoked.krl" in-force
# renames NAME BEGINNING: the recipe gives the list in force another file, and does not write to it.
renames() {
  ln -f "$room/revoked.krl" before
  try_recipe "$2" >output
  judge "$1 by a rename" \
    "$([ -s "$room/revoked.krl" ] && [ ! before -ef "$room/revoked.krl" ] || echo '  it is not')"
}
renames 'a list is put in force without krl' "$remedy"
renames 'a list is put in force' "$guard"
follows 'a list is guarded' "$guard" 0 ''
# guarded NAME: neither recipe puts the list in force.
guarded() {
  local it
  for it in guard remedy; do
    judge "$1: $it" "$(
      is_refused "${!it}"
      cmp in-force "$room/revoked.krl" 2>&1
    )"
  done
}
"$program" -k -f revoked.krl -z 99999999999 alice.pub
guarded 'a list without the canary'
cp whole.krl revoked.krl && "$program" -k -u -f revoked.krl user-ca.pub
guarded 'a list that revokes the user authority'
cp whole.krl revoked.krl && "$program" -k -u -f revoked.krl "$room/host.pub"
guarded "a list that revokes the host's own key"

cp in-force revoked.krl
"$program" -k -f revoked.krl -z 9 -s user-ca.pub users
judge 'an older list is refused' "$(
  is_refused "$guard"
  cmp in-force "$room/revoked.krl" 2>&1
)"

# Another run has this folder, or was killed.
mkdir "$room/revoked.new" && cp whole.krl revoked.krl
guarded 'a list while another run is at work'
judge 'the folder of the other run stays' "$([ -d "$room/revoked.new" ] || echo '  it is gone')"
rmdir "$room/revoked.new"
# The list is made anew right after the check.
"$program" -k -f other.krl -z 99999999999 alice.pub
# replaced NAME PROGRAM: each call of the recipes' program replaces the list afterwards.
replaced() {
  printf '#!/bin/sh\n%s "$@"\nstatus=$?\ncp other.krl revoked.krl\nexit $status\n' "$2" >replacing
  mv replacing "tools/$1" && chmod +x "tools/$1"
}
replaced krl "$krl" && replaced krl-keygen "$program"
for it in guard remedy; do
  cp whole.krl revoked.krl
  judge "what was checked is put in force: $it" "$(
    try_recipe "${!it}" >/dev/null || echo '  it fails'
    cmp other.krl revoked.krl 2>&1
    cmp whole.krl "$room/revoked.krl" 2>&1
  )"
done
ln -sf "$krl" tools/krl && ln -sf "$program" tools/krl-keygen
cp whole.krl revoked.krl && rm "$room/revoked.krl" && mkdir "$room/revoked.krl"
for it in guard remedy; do
  judge "a folder in the place of the list: $it" \
    "$(is_refused "${!it}"; ls -A "$room/revoked.krl" "$room" | grep -x -e krl -e revoked.new)"
done
rmdir "$room/revoked.krl" && cp in-force "$room/revoked.krl"

# In this file one key is revoked, and another is not.
mkdir two && cp whole.krl two/revoked.krl && ln -s ../tools two/tools &&
  cat canary.pub alice.pub >two/canary.pub && cd two || exit 1
judge 'a file of two canaries, of which one is not revoked, without krl' "$(
  is_refused "$remedy"
  cmp ../in-force "$room/revoked.krl" 2>&1
)"
cd ..

# ---- a signed list is fetched

cp "$top"/examples/systemd/* .
printf '#!/bin/sh\necho "$*" >>%s/systemctl\n' "$room" >tools/systemctl && chmod +x tools/systemctl
follows 'a key for signing' "ssh-keygen -q -t ed25519 -N '' -C krl" 0 ''
"$program" -k -f revoked.krl -z 20 -s user-ca.pub users
follows 'a list is signed' 'rm -f revoked.krl.sig' 0 ''
follows 'a list is signed again' 'rm -f revoked.krl.sig' 0 '' again
follows 'the timer is installed' 'install -m 644 krl_signers' 0 ''
judge 'systemd is told' "$(
  differs 'the commands' $'daemon-reload\nenable --now krl-pull.timer' "$(cat "$room/systemctl")"
)"
if command -v systemd-analyze >/dev/null; then
  # Without the program it finds one fault.
  sed -i "s|^ExecStart=/usr/local|ExecStart=$room/local|" "$room/units/krl-pull.service"
  judge 'systemd finds nothing in the units' \
    "$(asks 0 systemd-analyze verify "$room"/units/krl-pull.*)"
fi

if need curl curl; then
  # pull.sh has what it refuses.
  judge 'the script that was installed fetches the list' "$(
    rm "$room/revoked.krl"
    PATH=$PWD/tools:$PATH KRL_SIGNERS=$room/krl_signers KRL_PROTO==file \
      asks 0 "$room/local/sbin/krl-pull" "file://$PWD/revoked.krl" "$room/revoked.krl" user-ca.pub
    cmp revoked.krl "$room/revoked.krl" 2>&1
  )"
fi

# ---- entries that expire

user="ca: $(cut -d ' ' -f 1,2 user-ca.pub)" host="ca: $(cut -d ' ' -f 1,2 host-ca.pub)"
# has NAME LIST LINE ..: the list has these lines, in any order.
has() {
  judge "$1" "$(differs lines "$(printf '%s\n' "${@:3}" | sort)" "$(contents "$2" | sort)")"
}
{
  sed 's/^/@user-ca: /' user-ca.pub && sed 's/^/@host: /; s/$/ # until 2001-02-03/' host-ca.pub
  printf 'until %s @user-ca serial: %d\n' 2001-02-03 5 2999-01-01 6 && cat <<'END_OF_FILE'
@user-ca serial: 7
until 2999-12-31 @user-ca serial: 8-9   # OPS-1210
# until 2001-02-03
@host id: host
until 2001-02-03 @host serial: 13
until 2001-02-03 @host id: over
END_OF_FILE
} >revoked.txt
"$krl" make -q --replace -f revoked.krl -z 20 revoked.txt
has 'what is over is left out' revoked.krl "$user" 'serial: 6-9' "$host" 'id: host'
cp revoked.krl kept.krl
rm "$room/systemctl"
follows 'the timer that makes the list is installed' 'install -m 644 krl-make' 0 ''
judge 'systemd is told of this timer' "$(
  differs 'the commands' $'daemon-reload\nenable --now krl-make.timer' "$(cat "$room/systemctl")"
)"
if command -v systemd-analyze >/dev/null; then
  judge 'systemd finds nothing in its units' \
    "$(asks 0 systemd-analyze verify "$room"/units/krl-make.*)"
fi
# The command of the service, and that of the line for cron, each as it is started, in this folder.
service=$(sed -n 's/^ExecStart=//p' "$room/units/krl-make.service" | sed 's/%%/%/g; s/[$][$]/$/g')
daily=$(sed -n 's/^5 0 \* \* \* krl //p' "$top/docs/RECIPES.md" | sed 's/\\%/%/g')
# makes_daily COMMAND: runs it, in a second that no version has yet.
makes_daily() {
  local now
  now=$(date +%s)
  until [ "$(date +%s)" -gt "$now" ]; do sleep 0.05; done
  env -i PATH="$PWD/tools:$PATH" sh -c "${1//\/srv\/krl/$PWD}" 2>&1
}
for command in "$service" "$daily"; do
  cp revoked.txt whole.txt
  "$krl" make -q --replace -f revoked.krl -z 20 - <<<$'@all serial: 1\n@all id: old'
  judge "the list is made each day: ${command:0:20}" "$(
    [[ $command == *'krl make '* ]] || echo '  there is no such command'
    got=$(makes_daily "$command")
    differs status 0 $?
    if [ "$command" = "$daily" ]; then
      differs 'what it prints' '' "$got"
    else
      grep -q '; 1 serial number, 1 key ID are no longer revoked; 3 entries are over$' <<<"$got" ||
        echo "  $got"
    fi
    version=$("$krl" check --print-version revoked.krl)
    [ "$version" -le "$(date +%s)" ] && [ "$version" -gt 1000000000 ] || echo "  version $version"
  )"
  has 'the list of this day has what is not over' revoked.krl \
    "$user" 'serial: 6-9' "$host" 'id: host'
  cp revoked.krl in-force
  # A wrong line, a day that the calendar does not have, and the owner of a key who has chosen its
  # comment.
  while IFS= read -r line <&3; do
    { cat whole.txt && echo "$line"; } >revoked.txt
    judge "the list of each day is refused: ${line:0:30}, ${command:0:20}" "$(
      got=$(makes_daily "$command")
      differs status 255 $?
      grep -qx "krl: revoked.txt: line $(wc -l <revoked.txt): .* \\[text .*\\]" <<<"$got" ||
        echo "  $got"
      cmp in-force revoked.krl 2>&1
    )"
  done 3<<END_OF_FILE
@user-ca serial: 0
until 2999-02-29 @user-ca serial: 5
until 2001-02-03 @user-ca serial: 0
until 2999-01-01 key: $(cat alice.pub)
@user-ca serial: 5 # until 2001-02-03
$(cat alice.pub) # until 2001-02-03
END_OF_FILE
  cp whole.txt revoked.txt
  judge "the list of each day where the disk is full: ${command:0:20}" "$(
    lines_under user-ca.pub "$(seq -f 'id: user-%.0f\n' 200 | tr -d '\n')" >>revoked.txt
    (trap '' XFSZ && ulimit -f 1 && makes_daily "$command" >/dev/null && echo '  it ends well')
    cmp in-force revoked.krl 2>&1
  )"
  cp whole.txt revoked.txt
done
# An update takes nothing out, and a list that lost an entry does not pass for one with all of them.
"$krl" make -q --replace -f revoked.krl -z 20 - <<<"$(printf '%s\n' "$user" 'serial: 5')"
cp revoked.krl in-force
judge 'an update keeps an entry whose last day is over' "$(
  said='krl make: revoked.krl: version 21: 2 CAs, 5 serial numbers, 1 key ID; 3 entries are over'
  differs 'what it says' "$said" "$("$krl" make -u -f revoked.krl revoked.txt 2>&1)"
)"
has 'the list has both' revoked.krl "$user" 'serial: 5-9' "$host" 'id: host'
"$krl" make -q -f revoked.krl revoked.txt
judge 'a list that lost it is refused beside one that has it' "$(
  got=$("$krl" check revoked.krl --superset-of in-force)
  differs status 1 $?
  differs said "- serial: 5" "$(grep '^-' <<<"$got")"
)"
# The owner of a key chooses its comment, which the recipes leave out.
cp alice.pub of-alice.pub
sed -i 's/ alice$/ alice # until 2001-02-03/' of-alice.pub
mv kept.krl revoked.krl

# ---- what changed

cp revoked.krl old.krl
lines_under user-ca.pub 'serial: 6-8' host-ca.pub 'id: host\nserial: 99' >revoked.txt
"$krl" make -q -f revoked.krl revoked.txt
# of_name NAME FILE: the line of the authority by this name, as it is shown.
of_name() {
  printf '@%s: %s # %s' "$1" "$(cut -d ' ' -f 1,2 "$2")" "$("$openssh" -l -f "$2" | cut -d ' ' -f 2)"
}
follows 'two lists are compared' 'krl diff old.krl' 1 "  $(grep -F "$host" <("$krl" show old.krl))
+ serial: 99
  $(grep -F "$user" <("$krl" show old.krl))
- serial: 9"
sed 's/^/@user-ca: /' user-ca.pub >>revoked.txt
follows 'two lists are compared by the name of one authority' 'krl diff --names' 1 \
  "  $(grep -F "$host" <("$krl" show old.krl))
+ serial: 99
  $(of_name user-ca user-ca.pub)
- @user-ca serial: 9"
sed 's/^/@host-ca: /' host-ca.pub >>revoked.txt
follows 'two lists are compared by the names of both authorities' 'krl diff --names' 1 \
  "  $(of_name host-ca host-ca.pub)
+ @host-ca serial: 99
  $(of_name user-ca user-ca.pub)
- @user-ca serial: 9" again
need git git || judge 'git is there' '  install git'
mkdir lists && cp old.krl lists/r.krl && (
  cd lists && git init -q && echo '*.krl diff=krl' >.gitattributes && git add . &&
    git -c user.name=n -c user.email=e@x commit -qm one
)
cd lists && ln -s ../tools tools &&
  follows 'git is told how lists are shown' 'git config' 0 '' && cd ..
cp revoked.krl lists/r.krl
got=$(cd lists && PATH=$PWD/tools:$PATH git diff | grep '^[-+][^-+#]' | sort)
judge 'git shows what changed' \
  "$(differs 'the change' $'+serial: 6-8\n+serial: 99\n-serial: 6-9' "$got")"

# ---- one list of two

lines_under user-ca.pub 'serial: 1-5' | "$krl" make -q -f revoked.krl -
lines_under host-ca.pub 'serial: 1' user-ca.pub 'serial: 4-9' | "$krl" make -q -f hosts.krl -
merge='krl show revoked.krl hosts.krl'
follows 'lists are merged' "$merge" 0 '*'
has 'the list has what either has' both.krl "$user" 'serial: 1-9' "$host" 'serial: 1'
cp both.krl in-force
head -c 60 in-force >hosts.krl
follows 'a truncated list is not merged' "$merge" 255 '*' again
stays 'the merged list stays' both.krl
lines_under user-ca.pub "$(seq -f 'serial: %.0f\n' 2 2 400 | tr -d '\n')" |
  "$krl" make -q --replace -f hosts.krl -
on_full_disk 'lists are not merged where the disk is full' "$merge"
stays 'the merged list stays, too' both.krl

# ---- the entries of one authority

ours='krl show revoked.krl | awk' named='krl show --names revoked.txt'
# shown_ca FILE: the line of the authority as it is shown.
shown_ca() {
  printf 'ca: %s # %s' "$(cut -d ' ' -f 1,2 "$1")" "$("$openssh" -l -f "$1" | cut -d ' ' -f 2)"
}
lines_under host-ca.pub 'serial: 2\nid: host' user-ca.pub 'serial: 6-9' |
  "$krl" make -q -f revoked.krl -
follows 'the entries of one authority' "$ours" 0 "$(shown_ca user-ca.pub)
serial: 6-9"
{
  lines_under user-ca.pub 'id: bob\nserial: 1\nid-hex: 2362' host-ca.pub 'id: host'
  printf 'ca: all\nserial: 3\n' && cat alice.pub
} | "$krl" make -q -f revoked.krl -
entries=$(shown_ca user-ca.pub)$'\nserial: 1\nid-hex: 2362\nid: bob'
follows 'the entries of an authority among others' "$ours" 0 "$entries" again
{ sed 's/^/@user-ca: /' user-ca.pub && sed 's/^/@user-ca2: /' host-ca.pub; } >revoked.txt
follows 'the entries of an authority by its name' "$named" 0 '@user-ca serial: 1
@user-ca id-hex: 2362
@user-ca id: bob'
sed 's/^/@user-ca: /' alice.pub >revoked.txt
follows 'the entries of a name whose key the list has not as an authority' "$named" 1 '' again
echo '@user-ca serial: 5' >revoked.txt
follows 'the entries of an authority by a text with a fault' "$named" 1 '*' again
cp user-ca.pub its.pub
head -c -1 its.pub >user-ca.pub
follows 'the entries of an authority whose file has no line end' "$ours" 0 "$entries" again
{ echo '# ours' && cat its.pub host-ca.pub; } >user-ca.pub
judge 'the entries of two authorities' "$(
  differs lines "$(printf '%s\n' "$entries" "$(shown_ca host-ca.pub)" 'id: host' | sort)" \
    "$(try_recipe "$ours" | sort)"
)"
{ sed 's/$/\r/' its.pub && printf '\r\nword\r\n'; } >user-ca.pub
follows 'the entries of an authority whose file has other line ends' "$ours" 0 "$entries" again
cp alice.pub user-ca.pub
follows 'the entries of an authority that the list has not' "$ours" 1 '' again
: >user-ca.pub
follows 'the entries of no authority' "$ours" 1 '' again
cp its.pub user-ca.pub
mv revoked.krl whole.krl && head -c 60 whole.krl >revoked.krl
follows 'the entries of an authority in a truncated list' "$ours" 1 '*' again
mv whole.krl revoked.krl

# ---- the lines of a text that revoke a key

cp revoked.txt kept.txt && cp revoked.krl kept.krl
{
  sed 's/^/@user-ca: /' host-ca.pub && echo '@user-ca serial: 5-6   # OPS-1'
  printf 'key: %s   # OPS-2\n' "$(cut -d ' ' -f 1,2 alice.pub)"
} >revoked.txt
"$krl" make -q --replace -f revoked.krl revoked.txt
ticket='krl audit -f revoked.krl -t revoked.txt' by_text='krl audit -t revoked.txt /root /home'
follows 'the ticket of a revoked key' "$ticket" 1 '*'
judge 'it is that of its line' "$(
  differs 'the lines' "  revoked.txt:3: key: $(cut -d ' ' -f 1,2 alice.pub)   # OPS-2" \
    "$(try_recipe "$ticket" 2>/dev/null | grep '^  ')"
)"
mkdir -p home/erin/.ssh of_root/.ssh && cat alice.pub >home/erin/.ssh/authorized_keys
follows 'an audit by a text alone' "$by_text" 1 '*'
judge 'it makes no list' "$(
  rm revoked.krl && try_recipe "$by_text" >/dev/null 2>&1
  ls revoked.krl 2>/dev/null
)"
echo 'serail: 5' >>revoked.txt
follows 'an audit by a text with a wrong line' "$by_text" 255 '*' again
rm -r home of_root && mv kept.txt revoked.txt && mv kept.krl revoked.krl

# ---- the revoked keys of a whole host

whole='{ find / -xdev'
judge 'the manual page of krl has the recipe' \
  "$(manual_blocks krl.1 | grep -qF "$(recipe "$whole" | sed -n 1p)" || echo '  it has another')"
"$program" -k -f revoked.krl alice.pub
mkdir -p whole/home/{a,b,d,e,f}/.ssh whole/home/c whole/srv/{keys,c} \
  whole/etc/ssh/authorized_keys.d
cat host-ca.pub >whole/home/authorized_keys
follows 'a whole host that has no revoked key' "$whole" 0 '*'
cat alice.pub >whole/srv/keys/a && ln -s ../../../srv/keys/a whole/home/a/.ssh/authorized_keys
cat alice.pub >whole/home/b/.ssh/authorized_keys2
cp alice whole/srv/c/id_ed25519 && ln -s ../../srv/c whole/home/c/.ssh
cat alice.pub >whole/etc/ssh/authorized_keys.d/d
sed 's/^/host /' alice.pub >whole/etc/ssh/ssh_known_hosts
mkfifo whole/home/e/.ssh/authorized_keys
ln -s gone whole/home/f/.ssh/authorized_keys
judge 'a whole host, with links, other names and a pipe' "$(
  got=$(try_recipe "$whole"; echo "status $?")
  differs 'what is found' "etc/ssh/authorized_keys.d/d revoked
etc/ssh/ssh_known_hosts revoked
home/a/.ssh/authorized_keys revoked
home/b/.ssh/authorized_keys2 revoked
home/c/.ssh/id_ed25519 revoked
home/e/.ssh/authorized_keys unread
home/f/.ssh/authorized_keys unread
status 1" "$(sed -n "s|^$PWD/whole/\([^:]*\):\([0-9]*:\)\{0,1\} \([a-z]*\):.*|\1 \3|p; /^status/p" \
    <<<"$got" | sort)"
)"
printf '#!/bin/sh\n%s "$@"\nexit 1\n' "$(command -v find)" >tools/find && chmod +x tools/find
rm -r whole/{srv,etc} whole/home/?
judge 'a folder that cannot be searched' "$(
  got=$(try_recipe "$whole"; echo "status $?")
  differs status 'status 3' "${got##*$'\n'}"
  grep -q '^folders that could not be searched: unread: ' <<<"$got" || echo "$got"
)"
rm tools/find

# ---- the files that sshd reads

asks='sshd -T |' with_users='asked=' many_sshd='[ -s hosts ]'
need sshd openssh-server ||
  judge 'sshd is there' '  install it, on Debian by apt-get install openssh-server'
mkdir -p keys of_backup /run/sshd
cat >config <<END
HostKey $room/host
AuthorizedKeysFile $PWD/keys/%u
TrustedUserCAKeys $PWD/user-ca.pub
RevokedKeys $room/revoked.krl
Match User backup
  AuthorizedKeysFile $PWD/of_backup/%u
END
printf '#!/bin/sh\nexec %s -f %s "$@"\n' "$(command -v sshd || echo /usr/sbin/sshd)" "$PWD/config" \
  >tools/sshd
printf '#!/bin/sh\nprintf "%%s\\\\n" root:x:0:0::/root:/bin/sh backup:x:34:34::/home/b:/bin/sh%s\n' \
  ' dir:x:9:9::/home/d:/bin/sh' >tools/getent
chmod +x tools/sshd tools/getent
cp canary.pub "$room/revoked.canary"
"$program" -k -f "$room/revoked.krl" alice.pub - <<<"sha256: $(cat canary.pub)"
cp user-ca.pub keys/root
# found_by BEGINNING: the files and lines of what the recipe finds, and its status.
found_by() {
  try_recipe "$1" >output
  echo "status $?" >>output
  sed -n "s|^$PWD/\([^ ]*\): revoked: .*|\1 revoked|p; s|^$PWD/\([^ ]*\): unread: .*|\1 unread|p
    /^status/p" output
}
follows 'the files of an sshd' "$asks" 0 '*'
follows 'the files of an sshd with the users of LDAP' "$with_users" 0 '*'
cat alice.pub >of_backup/backup && cat alice.pub >keys/dir
judge 'a key of a Match block, and one of a user of LDAP' "$(
  differs 'without users' 'status 0' "$(found_by "$asks")"
  differs 'with them' $'keys/dir:1 revoked\nof_backup/backup:1 revoked\nstatus 1' \
    "$(found_by "$with_users")"
)"
rm of_backup/backup keys/dir && cat alice.pub >>keys/root
judge 'a key of root' "$(
  differs 'without users' $'keys/root:2 revoked\nstatus 1' "$(found_by "$asks")"
  differs 'with them' $'keys/root:2 revoked\nstatus 1' "$(found_by "$with_users")"
)"
cp user-ca.pub keys/root
mv config good
for it in "echo 'Nothing good'" 'sed /^RevokedKeys/d good' "sed s/%u/%x/ good"; do
  eval "$it" >config
  judge "an sshd with this configuration: $it" "$(
    differs 'without users' 'status 255' "$(found_by "$asks")"
    is_refused "$with_users"
  )"
done
mv good config
cp tools/getent kept && printf '#!/bin/sh\nexit 1\n' >tools/getent
judge 'users that cannot be had' "$(is_refused "$with_users")"
mv kept tools/getent
mv "$room/revoked.krl" whole.krl && cp revoked.krl "$room/revoked.krl"
judge 'a list that does not revoke the canary' "$(is_refused "$asks"; is_refused "$with_users")"
mv whole.krl "$room/revoked.krl"

# On many hosts.
cat >tools/ssh <<'END_OF_FILE'
#!/bin/sh
[ "$1 $2" = '-n --' ] || exit 99
: >keys/root
case $3 in
  -* | down*) echo "ssh: connect to host $3 port 22: Connection refused" >&2 && exit 255 ;;
  revoked) cat alice.pub >keys/root ;;
  odd) printf 'a\033[2J\302\233b\n' && exit 3 ;;
  endless) exec yes "$(printf %099999d 0)" ;;
  refused) set -- "$1" "$2" "$3" "sshd() { return 1; }; $4" ;;
  bare) exit 127 ;;
  lies) echo 'good: status 0' ;;
esac
shift 3
exec sh -c "$*"
END_OF_FILE
chmod +x tools/ssh
# asked_all STATUS LINE..: the recipe ends so, and these are the statuses.
asked_all() {
  try_recipe "$many_sshd" >output
  differs status "$1" $?
  differs statuses "$(printf '%s\n' "${@:2}")" "$(cat statuses)"
}
printf 'good\nother' >hosts
follows 'the sshds of many hosts' "$many_sshd" 0 ''
judge 'each has its status' "$(asked_all 0 'good: status 0' 'other: status 0')"
printf '%s\n' down revoked refused bare lies -oProxyCommand=x good >hosts
judge 'hosts that are not reached, refuse, have no krl, lie' "$(
  asked_all 1 'down: not reached' 'revoked: status 1' 'refused: status 254' 'bare: status 127' \
    'lies: status 0' '-oProxyCommand=x: not reached' 'good: status 0'
  grep -q "^revoked: $PWD/keys/root:1: revoked: " audit || cat audit
  grep -qx 'refused: krl: -: it is not what sshd -T prints: .* \[sshd 1 NoSettings\]' audit || cat audit
)"
printf 'odd\nendless\n' >hosts
judge 'a host whose sshd moves the terminal, and one without an end' "$(
  asked_all 1 'odd: status 3' 'endless: status 153'
  grep -qxF 'odd: a?[2J??b' audit || head -n 1 audit
)"
: >hosts
follows 'an empty file of hosts' "$many_sshd" 1 '' again
rm hosts
follows 'no file of hosts with sshds' "$many_sshd" 1 '' again
rm -r tools/ssh tools/sshd tools/getent keys of_backup audit statuses

# ---- the revoked keys of many hosts

many=$'worst=0\n  [ -s hosts ]'
judge 'the manual page of krl has this recipe, too' \
  "$(manual_blocks krl.1 | grep -qF 'timeout 1h ssh -n -- "$host"' || echo '  it has another')"
mkdir -p home of_root && : >of_root/authorized_keys
cp canary.pub "$room/revoked.canary"
"$program" -k -f "$room/revoked.krl" alice.pub - <<<"sha256: $(cat canary.pub)"
cat >tools/ssh <<'END_OF_FILE'
#!/bin/sh
[ "$1 $2" = '-n --' ] || exit 99
case $3 in
  -* | down*) echo "ssh: connect to host $3 port 22: Connection refused" >&2 && exit 255 ;;
  revoked) cat alice.pub >home/authorized_keys ;;
  odd) printf 'a\033[2J\302\233b\n' && exit 3 ;;
  endless) exec yes "$(printf %099999d 0)" ;;
  *) : >home/authorized_keys ;;
esac
shift 3
exec sh -c "$*"
END_OF_FILE
chmod +x tools/ssh
# audited STATUS LINE..: the recipe ends so, and the file audit has these lines about statuses.
audited() {
  local got
  try_recipe "$many" >output
  got=$?
  differs status "$1" $got
  differs statuses "$(printf '%s\n' "${@:2}")" "$(grep -E '^[^:]*: status [0-9]+$' audit)"
}
printf 'good\nother' >hosts
follows 'hosts without a revoked key' "$many" 0 ''
judge 'each has its status, also where the last line has no end' \
  "$(audited 0 'good: status 0' 'other: status 0')"
printf 'down|&/\nrevoked\n-oProxyCommand=touch x\ngood\n' >hosts
judge 'a host that cannot be reached, and one with a revoked key' "$(
  audited 1 'down|&/: status 255' 'revoked: status 1' '-oProxyCommand=touch x: status 255' \
    'good: status 0'
  grep -qxF 'down|&/: ssh: connect to host down|&/ port 22: Connection refused' audit || cat audit
  grep -q "^revoked: $PWD/home/authorized_keys:1: revoked: " audit || cat audit
)"
printf 'odd\nendless\n' >hosts
judge 'a host that moves the terminal, and one that prints without an end' "$(
  audited 1 'odd: status 3' 'endless: status 153'
  grep -qxF 'odd: a?[2J??b' audit || head -n 1 audit
)"
rm audit
mv "$room/revoked.krl" whole.krl && cp revoked.krl "$room/revoked.krl"
echo good >hosts
judge 'a host whose list does not revoke the canary' "$(audited 1 'good: status 255')"
mv whole.krl "$room/revoked.krl"
: >hosts
follows 'a file without hosts' "$many" 1 '' again
rm hosts
follows 'no file of hosts' "$many" 1 '' again
rm -r tools/ssh home of_root

# ---- the keys of many hosts, from one place

cp revoked.krl kept.krl
"$program" -k -f revoked.krl alice.pub - <<<"sha256: $(cat canary.pub)"
from_one='work=$(mktemp -d audit.'
# The keys of a host are in /etc/ssh/keys, and a host without them has none.
cat >tools/ssh <<END_OF_FILE
#!/bin/bash
[ "\$1 \$2" = '-n --' ] || exit 99
refused() {
  echo "ssh: connect to host \$1 port 22: Connection refused" >&2 && exit 255
}
keys=$room/keys
END_OF_FILE
cat >>tools/ssh <<'END_OF_FILE'
exec {lock}>of-ssh && flock $lock
rm -rf "$keys" && mkdir "$keys" && cp user-ca.pub "$keys/a"
case $3 in
  -* | down*) refused "$3" ;;
  revoked) sed 's/ [^ ]*$/ web/' alice.pub >"$keys/b" ;;
  joined) head -c -1 user-ca.pub >"$keys/a" && head -c -1 alice.pub >"$keys/b" ;;
  half) ln -s gone "$keys/b" ;;
  broken) cat alice.pub && exit 255 ;;
  cut) head -c 60 alice.pub && refused "$3" ;;
  none) rm -r "$keys" ;;
  empty) : >"$keys/a" ;;
  silent) exit 0 ;;
  same) cat alice.pub && exit 1 ;;
  odd) printf 'a\033[2J\302\233b\n' >&2 && head -c 60 alice.pub ;;
  endless) exec yes "$(printf %099999d 0)" ;;
  lies) printf 'good: status 0\n\nlies: status 0\n' | tee /dev/stderr ;;
  slow) flock -u $lock && : >begun && until [ -e gate ]; do sleep 0.05; done ;;
esac
shift 3
exec sh -c "$*"
END_OF_FILE
chmod +x tools/ssh
# from_each STATUS LINE..: the recipe ends so, and the file audit has these lines about hosts. It
# leaves no folder.
from_each() {
  local got
  rm -f audit
  try_recipe "$from_one" >output
  got=$?
  differs status "$1" $got
  differs hosts "$(printf '%s\n' "${@:2}")" "$(grep -E '^[^:]*: (status|not) ?' audit)"
  differs folders '' "$(ls -d audit.* 2>/dev/null)"
}
of_alice="revoked: ssh-ed25519 $("$openssh" -l -f alice.pub | cut -d ' ' -f 2) by its key"
printf 'good\nother' >hosts
follows 'hosts whose keys are audited here' "$from_one" 0 ''
judge 'each has its line, also where the last line has no end' \
  "$(from_each 0 'good: status 0' 'other: status 0')"
printf '%s\n' down revoked joined -oProxyCommand='touch x' 'a b' '*' '$(touch x)' good >hosts
judge 'hosts with revoked keys, with files that end without a line feed, and odd names' "$(
  from_each 1 'down: not reached' 'revoked: status 1' 'joined: status 1' \
    '-oProxyCommand=touch x: not reached' 'a b: status 0' '*: status 0' '$(touch x): status 0' \
    'good: status 0'
  differs findings "revoked:-:2: $of_alice: web
joined:-:2: $of_alice: alice" "$(grep ': revoked: ' audit)"
  grep -qxF 'down: said: ssh: connect to host down port 22: Connection refused' audit || cat audit
  ls x 2>/dev/null
)"
printf '%s\n' half broken cut none empty silent same good >hosts
judge 'hosts of which not all was read' "$(
  from_each 1 'half: not all was read: 2, status 0' 'broken: not reached' 'cut: not reached' \
    'none: not all was read: 2, status 0' 'empty: not all was read: empty, status 0' \
    'silent: not all was read: empty, status 0' 'same: not all was read: 1, status 1' \
    'good: status 0'
  differs findings "broken:-:1: $of_alice: alice
same:-:1: $of_alice: alice" "$(grep ': revoked: ' audit)"
  grep -q '^cut:-:1: unread: ' audit || cat audit
)"
for it in 'down: not reached' 'half: not all was read: 2, status 0' \
  'empty: not all was read: empty, status 0'; do
  printf '%s\ngood\n' "${it%%:*}" >hosts
  judge "one host of which not all was read: $it" "$(from_each 1 "$it" 'good: status 0')"
done
printf 'odd\nendless\nlies\n' >hosts
judge 'a host that moves the terminal, one without an end, and one that lies' "$(
  # With a smaller limit, which needs less of the disk.
  steps=$(in_room "$(recipe "$from_one" | sed 's/ulimit -f 65536/ulimit -f 1024/')")
  PATH=$PWD/tools:$PATH timeout 180 bash -c "$steps" 2>/dev/null && echo '  it ends well'
  grep -qxF 'odd: said: a?[2J??b' audit || head -n 1 audit
  grep -qx 'endless: not all was read: 153, status [03]' audit || tail -n 3 audit
  differs 'lines of hosts that lie' 'lies: status 3' "$(grep -E '^(lies|good): status' audit)"
)"
mv revoked.krl whole.krl && "$program" -k -f revoked.krl alice.pub
echo good >hosts
judge 'a list that does not revoke the canary here' "$(
  from_each 1 'good: status 255'
  grep -q '^good: said: krl: canary.pub: .* \[audit 1 Canary\]$' audit || cat audit
)"
head -c 60 whole.krl >revoked.krl
judge 'a list that is truncated here' "$(from_each 1 'good: status 255')"
mv whole.krl revoked.krl
# Two runs at the same time: the one that began first ends last.
printf 'slow\nrevoked\n' >hosts
try_recipe "$from_one" >of-slow &
run=$!
for _ in $(seq 600); do [ ! -e begun ] || break; sleep 0.05; done
# The first run still reads its own file of hosts.
echo good >others && mv others hosts
try_recipe "$from_one" >of-quick
judge 'a run beside one that waits' "$(
  differs status 0 $?
  differs hosts 'good: status 0' "$(grep -E ': (status|not) ?' audit)"
)"
: >gate
wait $run
judge 'the run that waited' "$(
  differs status 1 $?
  differs hosts $'slow: status 0\nrevoked: status 1' "$(grep -E ': (status|not) ?' audit)"
  differs findings "revoked:-:2: $of_alice: web" "$(grep ': revoked: ' audit)"
  differs folders '' "$(ls -d audit.* 2>/dev/null)"
)"
rm audit gate begun
: >hosts
follows 'a file of no host to read from' "$from_one" 1 '' again
rm hosts
follows 'no file of hosts to read from' "$from_one" 1 '' again
judge 'no file is made then' "$(ls -d audit* 2>/dev/null)"
rm -r tools/ssh "$room/keys" of-ssh && mv kept.krl revoked.krl

# ---- the logins of many hosts

cp revoked.txt kept.txt && cp revoked.krl kept.krl
printf 'key: %s # OPS-7\n' "$(cut -d ' ' -f 1,2 alice.pub)" >revoked.txt
"$krl" make -q --replace -f revoked.krl revoked.txt
login='Nov 24 09:12:03 host sshd[812]: Accepted publickey for root from 192.0.2.7 port 4242 ssh2: '
login+='ED25519 '
print_of() {
  "$openssh" -l -f "$1.pub" | cut -d ' ' -f 2
}
cat >tools/ssh <<END_OF_FILE
#!/bin/sh
[ "\$1 \$2 \$4" = "-n -- journalctl -u 'ssh*' -o short-iso" ] || exit 99
case \$3 in
  -* | down*) echo "ssh: connect to host \$3 port 22: Connection refused" >&2 && exit 255 ;;
  none) echo 'Failed to add filter for units: No data available' >&2 && exit 1 ;;
  revoked) echo '$login$(print_of alice)' ;;
  half) echo '$login$(print_of alice)' && exit 255 ;;
  cut) echo 'Accepted publickey for x' ;;
  odd) printf 'a\033[2J\302\233b\n' >&2 ;;
  endless) exec yes "\$(printf %099999d 0)" ;;
  *) echo '$login$(print_of canary)' ;;
esac
END_OF_FILE
chmod +x tools/ssh
# searched STATUS LINE..: the recipe ends so, and the file logins has these lines about statuses.
searched() {
  local got
  try_recipe "$logins" >output
  got=$?
  differs status "$1" $got
  differs statuses "$(printf '%s\n' "${@:2}")" "$(grep -E '^[^:]*: journal: status ' logins)"
}
logins='work=$(mktemp -d)'
printf 'good\nother' >hosts
follows 'hosts without a revoked login' "$logins" 0 ''
judge 'each has its statuses, also where the last line has no end' "$(
  searched 0 'good: journal: status 0, logins: status 0' 'other: journal: status 0, logins: status 0'
  grep -q '^other: krl logins: 1 file, 1 login: 0 revoked, 0 unread ' logins || cat logins
)"
printf 'down|&/\nrevoked\n-oProxyCommand=touch x\nnone\nhalf\ncut\ngood\n' >hosts
judge 'hosts that cannot be reached or have no such service, and revoked logins' "$(
  searched 1 'down|&/: journal: status 255, logins: status 0' \
    'revoked: journal: status 0, logins: status 1' \
    '-oProxyCommand=touch x: journal: status 255, logins: status 0' \
    'none: journal: status 1, logins: status 0' 'half: journal: status 255, logins: status 1' \
    'cut: journal: status 0, logins: status 3' 'good: journal: status 0, logins: status 0'
  grep -qxF 'down|&/: ssh: connect to host down|&/ port 22: Connection refused' logins || cat logins
  differs tickets 2 "$(grep -c '^[a-z]*:   revoked.txt:1: key: .* # OPS-7$' logins)"
)"
printf 'odd\nendless\n' >hosts
judge 'a host that moves the terminal, and one that sends without an end' "$(
  # With a smaller limit, which needs less of the disk.
  steps=$(recipe "$logins" | sed 's/ulimit -f 1048576/ulimit -f 1024/')
  PATH=$PWD/tools:$PATH timeout 180 bash -c "$steps" 2>/dev/null && echo '  it ends well'
  grep -qxF 'odd: a?[2J??b' logins || head -n 1 logins
  grep -qx 'endless: journal: status 153, logins: status [03]' logins || tail -n 1 logins
)"
: >hosts
follows 'no host to search' "$logins" 1 '' again
rm tools/ssh hosts && mv kept.txt revoked.txt && mv kept.krl revoked.krl

# ---- the line of a key

"$program" -k -f revoked.krl alice.pub
{
  printf '# mine\n\n' && cat host-ca.pub
  # Bytes that are no UTF-8.
  printf '# Zo\xeb\n' && sed 's/host-ca/Zo\xeb/' host-ca.pub
  printf '  \t\n# hers\n' && sed 's/^/no-pty /' alice.pub
} >authorized_keys
line='answers=$(krl-keygen'
follows 'the line of a revoked key' "$line" 0 '8:authorized_keys (alice): REVOKED'
sed 's/ alice$/ ok): ok/; s/ [^ ]*host-ca$/ a: REVOKED/' -i authorized_keys
follows 'the line of a key whose comment is an answer' "$line" 0 \
  '8:authorized_keys (ok): ok): REVOKED' again
echo 'ssh-mldsa65 AAAA' >>authorized_keys
follows 'a line that cannot be read' "$line" 255 '*' again

# ---- the lines of a command

cp revoked.krl in-force
{ sed 's/^/@user-ca: /' user-ca.pub && lines_under host-ca.pub 'serial: 7'; } >revoked.txt
printf '#!/bin/sh\necho @user-ca serial: 5\nexit 1\n' >tools/leavers && chmod +x tools/leavers
leave='leavers >"$text"'
follows 'a command that fails' "$leave" 1 ''
stays 'the list stays' revoked.krl
printf '#!/bin/sh\necho @user-ca serial: 7\n' >tools/leavers
follows 'a command that ends well' "$leave" 0 '*' again
has 'its lines are under the CA' revoked.krl "$user" 'serial: 7' "$host" 'serial: 7'
# The last line of the text has no end, nor has that of the command.
head -c -1 revoked.txt >kept && mv kept revoked.txt
printf '#!/bin/sh\ncat alice.pub && printf "@user-ca serial: 8"\n' >tools/leavers
follows 'a command that prints a key first' "$leave" 0 '*' again
has 'the lines behind a key are under the CA' revoked.krl "$user" 'serial: 8' "$host" 'serial: 7' \
  "key: $(cut -d ' ' -f 1,2 alice.pub)"
cp revoked.krl in-force
printf '#!/bin/sh\necho serial: 9\n' >tools/leavers
follows 'a command that prints no CA' "$leave" 255 '*' again
printf '#!/bin/sh\necho @usr-ca serial: 9\n' >tools/leavers
follows 'a command that prints another name' "$leave" 255 '*' again
printf '#!/bin/sh\nsed "s/^/@user-ca: /" host-ca.pub && echo @user-ca serial: 9\n' >tools/leavers
follows 'a command that gives the name to another CA' "$leave" 255 '*' again
printf '#!/bin/sh\n' >tools/leavers
follows 'a command that prints nothing' "$leave" 255 '*' again
stays 'the list stays, too' revoked.krl

# ---- two runs at the same time

# input_has NUMBER: the files that these recipes read have this serial number.
input_has() {
  { sed 's/^/@user-ca: /' user-ca.pub && lines_under user-ca.pub "serial: $1"; } >revoked.txt
  "$krl" make -q --replace -f hosts.krl revoked.txt
  echo "@user-ca serial: $1" >leavers.txt
}
# overtakes NAME BEGINNING LIST PROGRAM COMMAND: two runs of the recipe overlap. The program, which
# calls the command, reads older input in the first run, and then waits until the second run has
# ended. The first run is refused, and the list of the second one stays.
overtakes() {
  local run quick slow gate
  rm -rf begun gate && mkfifo gate
  {
    printf '#!/bin/sh\n%s "$@"\nstatus=$?\n' "$5"
    printf 'mkdir begun 2>/dev/null && read -r line <gate\nexit $status\n'
  } >waiting
  chmod +x waiting && mv waiting "tools/$4"
  input_has 51
  try_recipe "$2" >of-slow &
  run=$!
  for _ in $(seq 600); do [ ! -e begun ] || break; sleep 0.05; done
  input_has 52
  try_recipe "$2" >of-quick
  quick=$?
  cp "$3" in-force
  # A version that the first run took now would be above that of the second one.
  next_second "$2"
  exec {gate}<>gate && echo >&$gate
  wait $run
  slow=$?
  exec {gate}>&-
  rm "tools/$4"
  judge "two runs at the same time, of which the slow one is refused: $1" "$(
    [ -e begun ] || echo '  no run waits'
    [ $quick = 0 ] || cat of-quick
    [ $slow != 0 ] || echo '  the slow run ends well'
    grep -q OldVersion of-slow || cat of-slow
    contents in-force | grep -qx 'serial: 52' || echo '  the quick run makes another list'
    cmp in-force "$3" 2>&1
  )"
}
overtakes 'lists are merged' "$merge" both.krl krl "$krl"
ln -s "$krl" tools/krl
overtakes 'the lines of a command' "$leave" revoked.krl leavers 'cat leavers.txt'

# ---- a person is locked out

# What readme.sh does with a real sshd, by files that others could have written.
out=$'last=$(tail -c 1 revoked.txt)\n  [ -z "$last" ] || echo >>revoked.txt\n  echo \'@user-ca'
head -c -1 of-alice.pub >kept && mv kept alice.pub
sed 's/ [^ ]*$/ a b # until 2001-02-03\r/' user-5.pub >alice-cert.pub
{
  sed 's/^/@user-ca: /' its.pub && sed 's/^/ca: /' host-ca.pub && printf 'serial: 99'
} >revoked.txt
judge 'a person is locked out' "$(try_recipe "$out")"
"$krl" make -q -f revoked.krl revoked.txt
has 'the key ID is revoked under the CA of the name, and the key' revoked.krl "$user" 'id: alice' \
  "$host" 'serial: 99' "key: $(cut -d ' ' -f 1,2 alice.pub)"
judge 'no comment of a key that was handed in is in the text' "$(grep -n until revoked.txt)"
cp revoked.txt appended && echo 'serial: 77' >>appended
judge 'a serial number that somebody appends then is refused' "$(
  cp revoked.krl in-force
  got=$("$krl" make -f revoked.krl appended 2>&1)
  differs status 255 $?
  grep -q "^krl: appended: line $(wc -l <appended): no CA is given: " <<<"$got" ||
    echo "  $got"
  cmp in-force revoked.krl 2>&1
)"
judge 'a key ID with a backslash and quotes' "$(
  steps=$(recipe "$out" | sed 's/id: alice/id: CORP\\alice "x"/')
  bash -c "$(in_room "$steps")" 2>&1
  differs lines 1 "$(grep -cxF '@user-ca id: CORP\alice "x"' revoked.txt)"
)"
mv revoked.txt before
judge 'nobody is locked out without the text, and none is begun' \
  "$(is_refused "$out"; ls revoked.txt 2>/dev/null)"
mv before revoked.txt
cp revoked.txt before
cp alice.pub whole.pub && : >alice.pub && : >alice-cert.pub
judge 'an empty alice.pub locks nobody out, and says so' "$(is_refused "$out")"
mv whole.pub alice.pub
judge 'the text has only what was there before' \
  "$(head -c "$(stat -c %s before)" revoked.txt | cmp - before 2>&1)"

# That for all keys of a host is followed by readme.sh, beside krl audit.
followed=$((followed + 1))
all_followed docs/RECIPES.md
