# The README as a new user follows it: its first steps and its table, and each recipe of the runbook
# and of the manual page, in folders of the test's own. Those for sshd and ssh are followed with real
# ones, for which such a folder is /etc/ssh.

mkdir steps && cp -r "$top/demo" steps && ln -s "$program" steps/ssh-keygen &&
  ln -s "$krl" steps/krl && cd steps || exit 1
transcript 'the first steps of the README' < <(awk '/^## / { here = $0 == "## First steps" }
  /^```/ { on = !on; next } here && on' "$top/README.md")
cd ..

# The commands of its table, with the files that they name.
mkdir table && cd table || exit 1
for name in user-ca alice canary; do "$openssh" -q -t ed25519 -N '' -C $name -f $name; done
{ sed 's/^/key: /' alice.pub && echo "sha256: $(cat canary.pub)"; } >revoked.txt
sed 's/^/key: /' alice.pub >more.txt
mkdir -p tools home of_root folder && cp alice.pub home && cp user-ca.pub of_root
printf '  - "%s"\n' "$(<alice.pub)" >folder/user-data
printf 'Accepted publickey for alice from 192.0.2.7 port 4242 ssh2: ED25519 %s\n' \
  "$("$openssh" -l -f alice.pub | cut -d ' ' -f 2)" >auth.log
ln -s "$program" tools/krl-keygen && ln -s "$krl" tools/krl
"$krl" make -q -f old.krl -z 1 revoked.txt
judge 'each command of the table does what it says' "$(
  sed -n 's/^| .* | `\(krl[^`]*\)` |$/\1/p' "$top/README.md" >commands
  [ "$(wc -l <commands)" -ge 8 ] || echo '  there are too few'
  while IFS= read -r it; do
    got=$(PATH=$PWD/tools:$PATH bash -c "$(room=$PWD in_room "$it")" 2>&1)
    status=$?
    case $it in
      *' -Q '* | *audit* | *logins*) wanted=1 ;;
      *) wanted=0 ;;
    esac
    differs "the status of $it" $wanted $status && [ $status = $wanted ] || echo "$got"
    [[ $wanted = 0 || $got == *[Rr][Ee][Vv][Oo][Kk][Ee][Dd]* ]] || echo "  $it says: $got"
  done <commands
)"
cd ..

judge 'each recipe of the manual page is in the runbook or in RECIPES.md' "$(
  recipes >all-recipes
  manual_recipes >its-recipes
  asks 1 grep -vxF -f all-recipes its-recipes
  [ "$(grep -c $'\f' all-recipes)" -gt 15 ] && [ "$(grep -c $'\f' its-recipes)" -gt 3 ] ||
    echo '  there are too few'
)"

. "$tests/lib/sshd/serving.sh"
begin_recipes

# ---- a list is put in force

made_key one ed25519
made_key two ed25519
made_key user ed25519
for name in user-ca host-ca; do "$openssh" -q -t ed25519 -N '' -C "$name" -f $name; done
# Two certificates of one key, each with its own key ID, and one of the host.
for name in alice other; do
  "$openssh" -q -s user-ca -I "$name" -z 1 -n "$user" "$room/user.pub" &&
    mv "$room/user-cert.pub" "$room/$name.pub"
done
"$openssh" -q -s host-ca -I host -z 7 -h -n 127.0.0.1 "$room/host.pub"
cat "$room"/{one,two,user}.pub >"$room/allowed"
cp user-ca.pub "$room/user_ca.pub"
configure "Include $room/sshd_config.d/*.conf" "TrustedUserCAKeys $room/user_ca.pub" \
  "HostCertificate $room/host-cert.pub"
serve
ln -s config "$room/sshd_config"
cat >tools/sshd <<END
#!/bin/sh
exec '$daemon' -f '$room/config' "\$@"
END
echo "Include $room/ssh_config.d/*.conf" >"$room/ssh_config"
cat >tools/ssh <<END
#!/bin/sh
exec '$(command -v ssh)' -T -F '$room/ssh_config' "\$@"
END
# It is reloaded once it listens again. The process that the test knows is that of timeout, which
# forwards one signal.
cat >tools/systemctl <<END
#!/bin/sh
[ "\$*" = 'reload ssh' ] || { echo "\$*" >>'$room/systemctl' && exit; }
count() { grep -c '^Server listening' '$room/log'; }
before=\$(count)
kill -HUP \$(ps -o pid= --ppid $server)
for _ in \$(seq 100); do [ "\$(count)" = "\$before" ] || exit 0; sleep 0.1; done
exit 1
END
chmod +x tools/sshd tools/ssh tools/systemctl

# lets_in NAME KEY.., refuses NAME KEY..: what sshd does with these keys.
lets_in() {
  local key wrong=
  for key in "${@:2}"; do enters "$key" || wrong+="  it refuses $key"$'\n'; done
  judge "sshd lets in $1" "$wrong"
}
refuses() {
  local key wrong=
  for key in "${@:2}"; do ! enters "$key" || wrong+="  it lets in $key"$'\n'; done
  judge "sshd refuses $1" "$wrong"
}
check=$'install -m 644 revoked.krl /etc/ssh/revoked.new/krl\n  krl check /etc/ssh/revoked.new/krl\n'
named='krl check /etc/ssh/revoked.krl'
both=$'krl-keygen -Q -f revoked.krl\n' lines='grep -ri revokedkeys'
lets_in 'all keys before it has a list' one two
follows 'where no list is in force, none is named' "$named" 255 '*' again
judge 'the configuration is as before' "$(asks 0 ls "$room/sshd_config.d")"
"$program" -k -f revoked.krl "$room/one.pub"
follows 'both programs take a list' "$both" 0 ''
follows 'a list is put in place' "$check" 0 ''
follows 'the list is named in the configuration' "$named" 0 "revokedkeys $room/revoked.krl"
follows 'one line names it' "$lines" 0 \
  "$room/sshd_config.d/01-revoked.conf:RevokedKeys $room/revoked.krl"
refuses 'a key of the list' one
lets_in 'another key' two
"$program" -k -f revoked.krl "$room/two.pub"
ln "$room/revoked.krl" before
follows 'a new list is put in place' "$check" 0 '' again
judge 'it gets its name by a rename' \
  "$([ ! before -ef "$room/revoked.krl" ] || echo '  the list in force is written')"
refuses 'a key of the new list without a reload' two
lets_in 'a key of the list before it' one
cp "$room/revoked.krl" in-force
head -c 60 in-force >revoked.krl
follows 'a truncated list is not put in place' "$check" 255 '*' again
stays 'the list in force stays' "$room/revoked.krl"
follows 'both programs refuse a truncated list' "$both" 255 \
  'ssh-keygen: revoked.krl: krl 3 EndsEarly' again
: >revoked.krl
judge 'an empty file is not put in place' "$(is_refused "$check")"
# OpenSSH 9.2 refuses any extension.
{ cat in-force && bytes "ff$(string "$(words name)00$(words contents)")"; } >revoked.krl
judge 'the program reads a list with an extension' "$("$program" -Q -f revoked.krl 2>&1)"
judge 'a list that OpenSSH refuses is not put in place' "$(is_refused "$check")"
judge 'both programs refuse it together' "$(is_refused "$both")"
stays 'the list in force stays, too' "$room/revoked.krl"

mv revoked.krl refused.krl && cp in-force revoked.krl
mv "$room/revoked.krl" kept && mkdir "$room/revoked.krl"
judge 'a folder in the place of the list' \
  "$(is_refused "$check"; ls -A "$room/revoked.krl" "$room" | grep -x -e krl -e revoked.new)"
rmdir "$room/revoked.krl" && mv kept "$room/revoked.krl"
mkdir "$room/revoked.new"
judge 'a list while another run is at work' \
  "$(is_refused "$check"; [ -d "$room/revoked.new" ] || echo '  its folder is gone')"
rmdir "$room/revoked.new" && mv refused.krl revoked.krl
stays 'the list in force stays, as well' "$room/revoked.krl"

# The statements about sshd.
# settled COMMAND..: it finds nothing wrong.
settled() {
  judge "sshd -t finds nothing wrong with $1" "$(tools/sshd -t 2>&1 || echo '  it does')"
}
cp revoked.krl "$room/revoked.krl"
refuses 'all keys, where OpenSSH refuses the list' one two
head -c 60 in-force >"$room/revoked.krl"
settled 'a truncated list'
refuses 'all keys, where the list is truncated' one two
: >"$room/revoked.krl"
settled 'an empty file'
lets_in 'all keys, where the list is an empty file' one two
cp in-force "$room/revoked.krl"
cp "$room/config" config
printf 'Match User %s\n  RevokedKeys none\n' "$user" >>"$room/config"
tools/systemctl reload ssh
settled 'a Match block with another list'
judge 'sshd -T does not show it' \
  "$(differs 'the configuration' "revokedkeys $room/revoked.krl" \
  "$(tools/sshd -T 2>&1 | grep -i revokedkeys)")"
follows 'a second line is found' "$lines" 0 "$room/sshd_config:  RevokedKeys none
$room/sshd_config.d/01-revoked.conf:RevokedKeys $room/revoked.krl" again
refuses 'all keys of a user for whom there is no list' one two
sed -i 's|RevokedKeys none|RevokedKeys /dev/null|' "$room/config"
tools/systemctl reload ssh
lets_in 'a revoked key of a user who has another list' one two
sed '/^Include/d' config >"$room/config"
follows 'a list that is not named is reported' "$named" 1 '' again
printf 'Match User nobody\nX11Forwarding no\nRevokedKeys %s/revoked.krl\n' "$room" >>"$room/config"
settled 'a list that is named below a Match'
judge 'a list that is named below a Match does not count' \
  "$(differs 'the configuration' 'revokedkeys none' "$(tools/sshd -T 2>&1 | grep -i revokedkeys)")"
cat config >"$room/config"
tools/systemctl reload ssh

# ---- a person is locked out, and lists of several authorities are made anew

# keeps_later NAME BEGINNING: the recipe does not replace a list that has a later version.
keeps_later() {
  cp revoked.krl earlier.krl
  printf 'ca: all\nserial: 5\n' | "$krl" make -q --replace -f revoked.krl -z 99999999999 -
  cp revoked.krl later.krl
  judge "a list of a later version stays: $1" "$(
    is_refused "$2"
    try_recipe "$2" >output
    grep -q OldVersion output || cat output
    cmp later.krl revoked.krl 2>&1
  )"
  mv earlier.krl revoked.krl
}

anew='krl make -f revoked.krl -z' shown='krl show revoked.krl >'
out=$'last=$(tail -c 1 revoked.txt)\n  [ -z "$last" ] || echo >>revoked.txt\n  echo \'@user-ca'
lines_under user-ca.pub 'id: alice' host-ca.pub 'serial: 9' >revoked.txt
follows 'a list under two authorities' "$anew" 0 '*'
cp revoked.krl "$room/revoked.krl"
lets_in 'the key, and another certificate of it, of a person whose key ID is revoked' user other
# The last line has no end, and is under another authority.
{
  sed 's/^/@user-ca: /' user-ca.pub
  lines_under user-ca.pub 'id: nobody' host-ca.pub 'serial: 99'
} | head -c -1 >revoked.txt
cp "$room/user.pub" alice.pub
cp "$room/alice.pub" alice-cert.pub
follows 'a person is locked out' "$out" 0 ''
judge 'the line before those of this person is as it was' "$(differs lines \
  $'serial: 99\n@user-ca id: alice' "$(sed -n 5,6p revoked.txt)")"
follows 'the list is made anew' "$anew" 0 '*' again
cp revoked.krl "$room/revoked.krl"
refuses 'the key, and all certificates of it, of a person who is locked out' user alice other
lets_in 'another key again' one

for name in user-5 user-7 host-5 host-7; do
  "$openssh" -q -s ${name%-*}-ca -I "id of $name" -z ${name#*-} "$room/one.pub" &&
    mv "$room/one-cert.pub" $name.pub
done
# answers NAME REVOKED..: the list revokes exactly these certificates.
answers() {
  local it wanted=
  for it in user-5 user-7 host-5 host-7; do
    [[ " ${*:2} " == *" $it "* ]] && wanted+="$it.pub (one): REVOKED"$'\n' ||
      wanted+="$it.pub (one): ok"$'\n'
  done
  expect "$1" $(($# > 1)) "$wanted" '' -Q -f revoked.krl user-5.pub user-7.pub host-5.pub host-7.pub
}
lines_under user-ca.pub 'serial: 5\nid: id of user-7' host-ca.pub 'serial: 7' >revoked.txt
follows 'a list of other lines under two authorities' "$anew" 0 '*' again
answers 'each authority has its own serial numbers' user-5 user-7 host-7
version() {
  "$program" -Q -l -f revoked.krl | sed -n 's/^# KRL version //p'
}
first=$(version)
follows 'a list is shown as a text' "$shown" 0 ''
sed -i '/^serial: 5$/d' revoked.txt
follows 'a revocation is taken back' "$anew" 0 '*' again
answers 'what was taken back is fine, and all else revoked' user-7 host-7
judge 'the version number rises' \
  "$([ "$(version)" -gt "$first" ] || echo "  it is $(version) after $first")"
keeps_later 'the list is made anew' "$anew"
cp revoked.krl in-force
echo 'serial: 9-7' >>revoked.txt
follows 'a wrong line' "$anew" 255 '*' again
stays 'the list stays' revoked.krl

# ---- a canary

lines_under host-ca.pub 'serial: 7' user-ca.pub 'serial: 5\nid: someone' >revoked.txt
printf 'key: %s\nsha1: %s' "$(cat "$room/one.pub")" "$(cat "$room/two.pub")" >>revoked.txt
follows 'a canary' "ssh-keygen -q -t ed25519 -N '' -C canary" 0 ''
judge 'its private key is gone' "$([ ! -e canary ] || echo '  it is there')"
follows 'a list with a canary' "$anew" 0 '*' again
expect 'the list revokes the canary' 1 $'canary.pub (canary): REVOKED\n' '' \
  -Q -f revoked.krl canary.pub
judge 'no truncated list that can be read revokes the canary' "$(
  taken=0
  size=$(stat -c %s revoked.krl)
  for ((length = 0; length < size; length++)); do
    head -c $length revoked.krl >truncated.krl
    answer=$("$program" -Q -f truncated.krl canary.pub 2>/dev/null)
    [[ $answer != *REVOKED* ]] || echo "  that of $length bytes does"
    [[ $answer != *ok ]] || taken=$((taken + 1))
  done
  [ $taken -ge 4 ] || echo "  only $taken can be read"
)"
# ---- a stolen authority

guard=${check%$'\n'}' --newer-than'
trust=$'awk \'\n    { sub('
end=$'last=$(tail -c 1 revoked.txt)\n  [ -z "$last" ] || echo >>revoked.txt\n  awk '
"$openssh" -q -t ed25519 -N '' -C new-ca -f new-ca
"$openssh" -q -s new-ca -I new -z 1 -n "$user" "$room/user.pub" &&
  mv "$room/user-cert.pub" "$room/new.pub"
# The key of a certificate gets in by it alone, and a file of a user trusts the authority, too.
{ cat "$room/one.pub" && sed 's/^/cert-authority /' user-ca.pub; } >"$room/allowed"
cp user-ca.pub old-ca.pub
{ echo '# ours' && cat host-ca.pub && head -c -1 old-ca.pub; } >"$room/user_ca.pub"
printf 'sha256: %s' "$(cat canary.pub)" >revoked.txt
"$krl" make -q --replace -f "$room/revoked.krl" revoked.txt
cp "$room/revoked.krl" in-force
lets_in 'a certificate of an authority that was stolen' alice
refuses 'a certificate of an authority that is not trusted yet' new
follows 'an authority is revoked' "$end" 0 '*'
keeps_later 'an authority is revoked' "$end"
judge 'the list is refused while the host trusts the authority' "$(
  is_refused "$guard"
  try_recipe "$guard" | grep -q "^keep: $room/user_ca.pub: 1 of 2 keys " || try_recipe "$guard"
)"
stays 'the list in force stays, as before the steps' "$room/revoked.krl"
follows 'another authority takes its place' "$trust" 0 "$("$openssh" -l -f host-ca.pub)
$("$openssh" -l -f new-ca.pub)"
judge 'comments and other authorities stay' \
  "$(asks 0 diff <(echo '# ours' && cat host-ca.pub new-ca.pub) "$room/user_ca.pub")"
lets_in 'a certificate of the new authority' new
lets_in 'a certificate of the old one, which a file of a user trusts' alice
follows 'the list that revokes it is put in force' "$guard" 0 '' again
refuses 'a certificate of the old authority, whoever trusts it' alice other
lets_in 'a certificate of the new authority, and a key' new one
cp "$room/user_ca.pub" in-force
follows 'the steps end where the old authority is not trusted' "$trust" 1 '' again
: >old-ca.pub
follows 'the steps end without an old authority' "$trust" 1 '' again
printf '\r\n' >old-ca.pub
{ cat in-force && printf ' \n\r\n'; } >"$room/user_ca.pub"
follows 'the steps end where both files have lines without a key' "$trust" 1 '' again
cp in-force "$room/user_ca.pub"
mkdir "$room/user_ca.new"
cp new-ca.pub old-ca.pub
follows 'the steps end while another run is at work' "$trust" 1 '*' again
rmdir "$room/user_ca.new"
stays 'the trusted authorities stay' "$room/user_ca.pub"
sed 's/$/\r/' new-ca.pub >old-ca.pub && cp user-ca.pub new-ca.pub
ln "$room/user_ca.pub" before-them
follows 'an authority whose file has other line ends goes' "$trust" 0 "$("$openssh" -l -f host-ca.pub)
$("$openssh" -l -f user-ca.pub)" again
judge 'the authorities get their name by a rename' \
  "$([ ! before-them -ef "$room/user_ca.pub" ] || echo '  the file in force is written')"

# ---- the keys of hosts

# reaches NAME WANTED [WORD..]: whether ssh accepts the key of the host, with the words.
known=$room/known_key as_user=()
echo "[127.0.0.1]:$port $(cat "$room/host.pub")" >"$room/known_key"
echo "@cert-authority * $(cat host-ca.pub)" >"$room/known_authority"
reaches() {
  local got=yes
  timeout 20 "${as_user[@]}" ssh -F "$room/ssh_config" "${@:3}" -p "$port" -o BatchMode=yes \
    -o StrictHostKeyChecking=yes -o UserKnownHostsFile="$known" -o GlobalKnownHostsFile=/dev/null \
    -o IdentityAgent=none -o IdentityFile=none \
    "$user@127.0.0.1" true >"$scratch/output" 2>&1 </dev/null
  grep -q 'Permission denied (publickey' "$scratch/output" || got=no
  judge "ssh and a host: $1" \
    "$(differs 'it goes on' "$2" $got && [ $got = "$2" ] || cat "$scratch/output")"
}
umask 077
"$program" -k -f "$room/revoked.krl" "$room/one.pub"
follows 'ssh is told of the list' 'echo RevokedHostKeys' 0 "revokedhostkeys $room/revoked.krl"
umask 022
judge 'all users may read the list and the line that names it' \
  "$(differs modes $'644\n644' \
  "$(stat -c %a "$room/revoked.krl" "$room/ssh_config.d/01-revoked.conf")")"
reaches 'a list of other keys' yes
known=$room/known_authority
reaches 'a list of other keys, by the authority' yes
echo 'serial: 7' >hosts
"$program" -k -f "$room/revoked.krl" -s host-ca.pub hosts
reaches 'its revoked certificate' no
known=$room/known_key
reaches 'its key, by a user who takes no certificate' yes -o HostKeyAlgorithms=ssh-ed25519
sed 's/^/key: /' "$room/host.pub" >hosts
"$program" -k -f "$room/revoked.krl" -s host-ca.pub hosts
reaches 'its revoked key' no
"$program" -k -f "$room/revoked.krl" "$room/one.pub"
chmod 755 "$scratch" "$room" && chmod 644 "$room"/known_*
if [ "$(id -u)" = 0 ]; then
  as_user=(setpriv --reuid=65534 --regid=65534 --clear-groups)
  reaches 'a list that all may read' yes
  chmod 600 "$room/revoked.krl"
  reaches 'a list that only root may read' no
  as_user=()
fi
truncate -s -1 "$room/revoked.krl"
reaches 'a damaged list' no
: >"$room/revoked.krl"
reaches 'an empty file' yes
rm "$room/revoked.krl"
reaches 'no list' no

# ---- all keys of a host

"$program" -k -f revoked.krl alice.pub - <<<"sha256: $(cat canary.pub)"
mkdir -p of_root/.ssh home/{a,b,c,d}/.ssh
cat user-ca.pub >of_root/.ssh/authorized_keys
{ printf '# mine\n\n' && cat host-ca.pub && printf '  \t\n# hers\n' &&
  sed 's/^/no-pty /' alice.pub; } \
  >home/a/.ssh/authorized_keys
{ cat host-ca.pub && echo 'ssh-mldsa65 AAAA' && cat alice.pub; } >home/b/.ssh/authorized_keys
cat alice.pub >home/d/.ssh/authorized_keys
at=$PWD/home
each=$'(\n  worst=0\n  for file in'
follows 'all keys of a host' "$each" 1 "$PWD/of_root/.ssh/authorized_keys (user-ca): ok
$at/a/.ssh/authorized_keys (host-ca): ok
$at/a/.ssh/authorized_keys (user): REVOKED
$at/a/.ssh/authorized_keys: status 1
$at/b/.ssh/authorized_keys (host-ca): ok
ssh-keygen: $at/b/.ssh/authorized_keys: line 2: line 1 NoKey
$at/b/.ssh/authorized_keys: status 255
$at/d/.ssh/authorized_keys (user): REVOKED
$at/d/.ssh/authorized_keys: status 1" again
# A link is followed, and a pipe is reported, as is a link that leads nowhere.
mkdir -p others/home/{a,b,c,d}/.ssh others/of_root/.ssh && cp revoked.krl others
ln -s ../tools others/tools && cd others || exit 1
at=$PWD/home
cat ../user-ca.pub >of_root/.ssh/authorized_keys
follows 'a host without a revoked key' "$each" 0 \
  "$PWD/of_root/.ssh/authorized_keys (user-ca): ok" again
cat ../alice.pub >keys && ln -s ../../../keys home/a/.ssh/authorized_keys
cat ../alice.pub >home/b/.ssh/authorized_keys2
mkfifo home/c/.ssh/authorized_keys
ln -s gone home/d/.ssh/authorized_keys
follows 'all keys of a host, with links, a second file and a pipe' "$each" 1 \
  "$PWD/of_root/.ssh/authorized_keys (user-ca): ok
$at/a/.ssh/authorized_keys (user): REVOKED
$at/a/.ssh/authorized_keys: status 1
$at/c/.ssh/authorized_keys: status 255
$at/d/.ssh/authorized_keys: status 255
$at/b/.ssh/authorized_keys2 (user): REVOKED
$at/b/.ssh/authorized_keys2: status 1" again
cd .. && at=$PWD/home
followed=$((followed + 1))
judge 'the revoked keys of a host' "$(
  found=$(try_recipe 'krl audit -f revoked.krl --canary' | grep "^$at" | cut -d: -f 1-3)
  differs 'what it finds' "$at/a/.ssh/authorized_keys:6: revoked
$at/b/.ssh/authorized_keys:2: unread
$at/b/.ssh/authorized_keys:3: revoked
$at/d/.ssh/authorized_keys:1: revoked" "$found"
)"
"$program" -k -f revoked.krl alice.pub
judge 'no file is read where the list does not revoke the canary' "$(
  differs 'what it finds' '' "$(try_recipe 'krl audit -f revoked.krl --canary' | grep "^$at")"
  is_refused 'krl audit -f revoked.krl --canary'
)"
printf 'ca: all\nserial: 5\n' >more.txt
follows 'lines are added to a list whose text is lost' 'krl make -u' 0 '*'
judge 'it has what it had' \
  "$(differs entries 'ca: all
serial: 5
key: '"$(cut -d ' ' -f 1,2 alice.pub)" "$(contents revoked.krl)")"

# ---- the logins after an incident

journal='journalctl -u' files='for log in'
printf 'key: %s # OPS-7\n' "$(cut -d ' ' -f 1,2 alice.pub)" >revoked.txt
"$krl" make -q --replace -f revoked.krl revoked.txt
# logged FILE KEY..: a log with a login by each key.
logged() {
  local key
  for key in "${@:2}"; do
    printf 'Nov 24 09:12:03 host sshd[812]: Accepted publickey for root from 192.0.2.7 port 4242 '
    printf 'ssh2: ED25519 %s\n' "$("$openssh" -l -f "$key.pub" | cut -d ' ' -f 2)"
  done >"$1"
}
# reports NAME BEGINNING STATUS COUNTS LOCATION..: the recipe ends so, with these counts, and with a
# revoked login at each location, whose ticket follows.
reports() {
  local got location wanted=
  rm -rf logs
  got=$(try_recipe "$2"; echo "status $?")
  for location in "${@:5}"; do wanted+="$location: revoked"$'\n'"  revoked.txt:1: key: OPS-7"$'\n'; done
  [ -z "$4" ] || wanted+="krl logins: $4"$'\n'
  judge "$1" "$(differs 'what it prints' "${wanted}status $3" "$(
    sed -n 's/: revoked: .*/: revoked/p; s/key: .* # OPS/key: OPS/p; s/ (list .*//p; /^status/p' <<<"$got"
  )")"
}
printf '#!/bin/sh\n[ "$*" = "-u ssh* -o short-iso" ] || exit 99\ncat of-ssh\n' >tools/journalctl
chmod +x tools/journalctl
logged of-ssh canary alice
follows 'the logins of a journal' "$journal" 1 '*'
reports 'the revoked login of a journal' "$journal" 1 '1 file, 2 logins: 1 revoked, 0 unread' \
  logs/journal:2
judge 'nobody else may read the logs' "$(differs modes 700 "$(stat -c %a logs)")"
judge 'the manual page of krl has these recipes' "$(
  for it in "$journal" "$files"; do
    [[ $(manual_blocks krl.1) == *"$(recipe "$it")"* ]] || echo "  it has another: $it"
  done
)"
follows 'the steps end where the folder of logs is there' "$journal" 1 '*' again
rm of-ssh
judge 'a journal that has no such service' "$(
  rm -r logs && got=$(try_recipe "$journal"; echo "status $?")
  differs 'what it ends with' 'status 1' "$(tail -n 1 <<<"$got")"
  [[ $got != *'krl logins'* ]] || echo "  $got"
)"
mkdir log && logged log/auth.log alice && logged log/auth.log.1 canary user-ca &&
  logged log/auth.log.2 alice canary && gzip log/auth.log.2
rm -rf logs
follows 'the logins of log files' "$files" 1 '*'
reports 'the revoked logins of log files' "$files" 1 '3 files, 5 logins: 2 revoked, 0 unread' \
  logs/auth.log:1 logs/auth.log.2.gz:1
logged log/auth.log canary && rm log/auth.log.2.gz
reports 'log files without a revoked login' "$files" 0 '2 files, 3 logins: 0 revoked, 0 unread'
logged log/auth.log.2 alice && gzip log/auth.log.2 && truncate -s -9 log/auth.log.2.gz
reports 'a log file that is cut off' "$files" 1 ''
rm -r log && mkdir log
reports 'no log file' "$files" 1 ''
ends
judge 'the README has no recipe of its own' "$(recipes_in README.md)"
all_followed docs/RUNBOOK.md
