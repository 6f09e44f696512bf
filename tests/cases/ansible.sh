# The playbook of examples/ansible, with ansible-playbook, for hosts that are folders of the test's
# own.

krl=$(realpath -- "${KRL:-$top/krl}")
if ! need ansible-playbook ansible-core || ! need sshd openssh-server; then
  echo '# ansible is skipped: ansible-playbook or sshd is missing, and could not be installed'
  return
elif [ ! -x "$krl" ]; then
  echo '# ansible is skipped: there is no program krl'
  return
fi
# A sshd of root wants this empty folder to tell its configuration.
[ "$(id -u)" != 0 ] || mkdir -p /run/sshd
mkdir tools
ln -s "$krl" tools/krl
for name in user-ca new-ca canary leaver; do
  "$openssh" -q -t ed25519 -N '' -C $name -f $name
done

# host NAME: a folder with the configuration of a host.
host() {
  local ssh=$PWD/$1/etc/ssh
  mkdir -p "$ssh"/ssh{,d}_config.d
  "$openssh" -q -t ed25519 -N '' -C "$1" -f "$ssh/ssh_host_ed25519_key"
  cp user-ca.pub "$ssh/user_ca.pub"
  printf '%s\n' "Include $ssh/sshd_config.d/*.conf" "HostKey $ssh/ssh_host_ed25519_key" \
    >"$ssh/sshd_config"
  echo "Include $ssh/ssh_config.d/*.conf" >"$ssh/ssh_config"
}

# How a host is reached, which is a folder where that is not said.
declare -A reached
# hosts NAME..: the inventory has these, in this order.
hosts() {
  local name
  for name; do
    echo "$name krl_root=$PWD/$name ${reached[$name]:-ansible_connection=local}"
  done >inventory
  cat >>inventory <<END_OF_FILE
[all:vars]
ansible_python_interpreter=/usr/bin/python3
krl_source=$PWD/revoked.krl
krl_canary=$PWD/canary.pub
END_OF_FILE
}
for name in first second later third; do host $name; done
hosts first second

# version NUMBER [FILE ..]: the list has this version, and revokes the canary and the keys of the
# files.
version() {
  echo "sha256: $(cat canary.pub)" >spec
  "$program" -k -f revoked.krl -z "$1" spec "${@:2}" >/dev/null
}

# plays STATUS [WORD..]: ansible-playbook ends so.
plays() {
  local wanted=$1
  shift
  PATH=$PWD/tools:$PATH HOME=$PWD ANSIBLE_CONFIG=$PWD/ansible.cfg ANSIBLE_NOCOLOR=1 \
    ANSIBLE_PIPELINING=1 \
    timeout 300 ansible-playbook -i inventory \
    -e '{"krl_serial": ['"${step:-1}"', "100%"], "krl_superset": '"${superset:-false}"'}' \
    "$@" "$top/examples/ansible/krl.yml" \
    >output 2>&1 </dev/null
  differs 'status' "$wanted" $?
}

# recap WORD: each host that was tried, and its count of this word.
recap() {
  sed -n '/^PLAY RECAP/,$s/^\([a-z]*\) .*'"$1"'=\([0-9]*\).*/\1=\2/p' output | paste -s -d ' '
}

# version_of HOST: the version of its list.
version_of() {
  od -An -j 12 -N 8 -t u8 --endian=big "$1/etc/ssh/revoked.krl" 2>/dev/null | tr -d ' '
}

# in_force NUMBER..: the versions of the lists of both hosts.
in_force() {
  differs 'versions in force' "$*" "$(version_of first) $(version_of second)"
}

# plays_ill NAME TEXT VERSION..: the playbook ends at the first host, with this text, and these
# lists are in force.
plays_ill() {
  judge "$1" "$(
    plays 2
    differs 'the hosts that were tried' 'first=1' "$(recap failed)"
    tr -d '\\' <output | grep -qF -e "$2" || { echo "  it does not say: $2" && tail -n 20 output; }
    in_force "${@:3}"
  )"
}

# What the playbook must never touch: the configuration of this machine.
of_machine() {
  find /etc/ssh /usr/local/bin /usr/local/sbin -type f -printf '%p %m %T@ ' -exec sha256sum {} \
    + 2>/dev/null
}
before=$(of_machine)

: >ansible.cfg
: >revoked.krl
judge 'without a folder this machine is refused' "$(
  plays 2 -e krl_root=
  grep -q 'would change the configuration of this machine' output || tail -n 20 output
)"
version 10
judge 'a list is put in force' "$(
  plays 0
  in_force 10 10
  differs 'failed' 'first=0 second=0' "$(recap failed)"
  differs 'steps' 2 "$(grep -c '^PLAY \[' output)"
  for name in first second; do
    differs 'mode' 644 "$(stat -c %a $name/etc/ssh/revoked.krl)"
    differs 'sshd' "RevokedKeys $PWD/$name/etc/ssh/revoked.krl" \
      "$(cat $name/etc/ssh/sshd_config.d/*)"
    differs 'ssh' "RevokedHostKeys $PWD/$name/etc/ssh/revoked.krl" \
      "$(cat $name/etc/ssh/ssh_config.d/*)"
    grep -q "$name has version 10" output || echo "  the version of $name is not reported"
  done
)"
judge 'the same list again changes nothing, and sshd reads its configuration again' "$(
  plays 0 -e "krl_reload='echo reloaded >>$PWD/reloads'"
  differs 'changed' 'first=0 second=0' "$(recap changed)"
  differs 'reloads' 2 "$(grep -c '^reloaded$' reloads)"
)"
judge 'an audit of a host does not report the canary' \
  "$("$krl" audit -f revoked.krl first/etc/ssh 2>/dev/null; differs status 0 $?)"
version 20 leaver.pub
# An older version of the playbook left it there.
cp canary.pub first/etc/ssh/canary.pub && cp leaver.pub second/etc/ssh/canary.pub
ln first/etc/ssh/revoked.krl before
judge 'a check changes nothing' "$(plays 0 --check && in_force 10 10
  cmp canary.pub first/etc/ssh/canary.pub 2>&1)"
judge 'a newer list is put in force' "$(plays 0 && in_force 20 20)"
judge 'it gets its name by a rename' \
  "$([ ! before -ef first/etc/ssh/revoked.krl ] || echo '  the list in force is written')"
judge 'a host has the canary once, and keeps another file of that name' "$(
  differs 'the canary' "$(cat canary.pub)" "$(cat first/etc/ssh/revoked.canary)"
  [ ! -e first/etc/ssh/canary.pub ] || echo '  it has it twice'
  cmp leaver.pub second/etc/ssh/canary.pub 2>&1
)"

version 10
plays_ill 'an older list is refused' 'failed to validate' 20 20
version 25
superset=true
plays_ill 'a list that lacks an entry is refused where that is wanted' 'lost: ' 20 20
version 25 leaver.pub user-ca.pub
plays_ill 'so is one with more entries that revokes a key to keep' 'user_ca.pub' 20 20
version 25 leaver.pub
judge 'a list that has all entries is put in force' "$(plays 0 && in_force 25 25)"
superset=false
version 30 user-ca.pub
plays_ill 'a list that revokes a key to keep is refused' 'user_ca.pub' 25 25
version 30 first/etc/ssh/ssh_host_ed25519_key.pub
plays_ill 'a list that revokes the second key to keep is refused' 'ssh_host_ed25519_key.pub' 25 25
cp canary.pub revoked.krl
plays_ill 'a plain list is refused' 'a plain list has no version' 25 25
"$program" -k -f revoked.krl -z 30 leaver.pub >/dev/null
plays_ill 'a list without the canary is refused' 'canary' 25 25
version 30
truncate -s -1 revoked.krl
plays_ill 'a truncated list is refused' 'revoked.krl' 25 25

version 30
: >first/etc/ssh/revoked.krl
judge 'a damaged list is replaced' "$(plays 0 && in_force 30 30)"
printf 'Match User nobody\n  RevokedKeys /dev/null\n' >>first/etc/ssh/sshd_config
plays_ill 'a Match block that switches the list off is found' 'RevokedKeys /dev/null' 30 30
sed -i '/^HostKey/q' first/etc/ssh/sshd_config
printf 'match user nobody\n\trevokedkeys=none\n' >>first/etc/ssh/sshd_config
plays_ill 'a Match block in lower case, too' 'revokedkeys=none' 30 30
# sshd takes these too.
for it in '"RevokedKeys" none' '="revokedkeys"none'; do
  sed -i '/^HostKey/q' first/etc/ssh/sshd_config
  printf 'Match User nobody\n%s\n' "$it" >>first/etc/ssh/sshd_config
  plays_ill "a Match block with the line $it" "$it" 30 30
  judge "sshd obeys the line $it" "$(differs 'the list of nobody' 'revokedkeys none' \
    "$(/usr/sbin/sshd -T -C user=nobody,host=h,addr=127.0.0.1 -f first/etc/ssh/sshd_config 2>&1 |
      grep -i revokedkeys)")"
done
echo 'NoSuchLine yes' >>first/etc/ssh/sshd_config
judge 'sshd is not reloaded where its configuration is wrong' "$(
  rm -f reloads
  plays 2 -e "krl_reload='echo reloaded >>$PWD/reloads'"
  differs 'the hosts that were tried' first=1 "$(recap failed)"
  grep -qF NoSuchLine output || tail -n 20 output
  [ ! -e reloads ] || echo '  it is reloaded'
)"
sed -i '/^HostKey/q' first/etc/ssh/sshd_config

# The CA was stolen: a host takes the list that revokes it once it trusts another CA alone.
version 31 user-ca.pub
plays_ill 'a list that revokes the user CA is refused while a host trusts it' 'user_ca.pub' 30 30
for name in first second; do cp new-ca.pub $name/etc/ssh/user_ca.pub; done
judge 'it is put in force where the host trusts another CA' "$(plays 0 && in_force 31 31)"
for name in first second; do cp user-ca.pub $name/etc/ssh/user_ca.pub; done
version 32
judge 'a list that does not revoke it' "$(plays 0 && in_force 32 32)"

# The first step has two hosts, of which one fails.
hosts first second later
mv second/etc/ssh/user_ca.pub ca.pub
version 33
judge 'a host that fails ends the run, for the other of its step too' "$(
  step=2 plays 2
  differs 'the hosts that were tried' 'first second' "$(recap failed | sed 's/=[01]//g')"
  differs 'the versions of the next step' '' "$(version_of later)"
  differs 'the version of the host that fails' 32 "$(version_of second)"
)"
mv ca.pub second/etc/ssh/user_ca.pub

# A folder again, behind a real sshd that uses the list of the folder: the playbook logs in anew
# after a change.
. "$tests/lib/sshd/serving.sh"
made_key login ed25519
cp "$room/login.pub" "$room/allowed"
: >third/etc/ssh/revoked.krl
configure "RevokedKeys $PWD/third/etc/ssh/revoked.krl" "SetEnv PATH=$PWD/tools:$PATH" \
  'Subsystem sftp internal-sftp'
sed -i '/^ForceCommand/d' "$room/config.common"
serve
# If the file lost is there, the connection is lost for one command once the list has changed.
cat >tools/losing <<END_OF_FILE
#!/bin/sh
case \$* in
  *_command.py*)
    cmp -s $PWD/revoked.krl $PWD/third/etc/ssh/revoked.krl && rm $PWD/lost 2>/dev/null &&
      exit 255 ;;
esac
exec ssh "\$@"
END_OF_FILE
chmod +x tools/losing
reached[third]="ansible_host=127.0.0.1 ansible_port=$port ansible_user=$user \
  ansible_ssh_private_key_file=$room/login ansible_remote_tmp=$PWD/remote \
  ansible_ssh_executable=$PWD/tools/losing ansible_pipelining=false \
  ansible_ssh_common_args='-F none -o StrictHostKeyChecking=no -o UserKnownHostsFile=/dev/null \
  -o IdentityAgent=none'"
reached[down]='ansible_host=127.0.0.1 ansible_port=1'
hosts down third second
version 40
judge 'a list is put in force by a login, and a host that was down before is left out' "$(
  step=2 plays 4
  differs 'the hosts that cannot be reached' 'down=1 second=0 third=0' "$(recap unreachable)"
  differs 'the hosts that failed' 'down=0 second=0 third=0' "$(recap failed)"
  differs 'the versions in force' '40 40' "$(version_of third) $(version_of second)"
)"
hosts down second
judge 'a step whose hosts were all down ends the run' "$(
  plays 4
  differs 'the hosts that were tried' down=1 "$(recap unreachable)"
)"
hosts first third second
touch lost
version 45
judge 'a host that is lost once its list has changed ends the run' "$(
  step=2 plays 2
  differs 'the hosts that were tried' 'first third' "$(recap failed | sed 's/=[01]//g')"
  grep -qF 'third could not be reached for a while' output || tail -n 20 output
  differs 'the version of the next step' 40 "$(version_of second)"
)"
version 50 "$room/login.pub"
judge 'a list that lets nobody in any more ends the run' "$(
  step=2 plays 2
  differs 'the hosts that were tried' 'first third' "$(recap failed | sed 's/=[01]//g')"
  sed -n '/^TASK .A new login works/,/^$/p' output | grep -q '^fatal: .third.: FAILED' ||
    tail -n 20 output
  differs 'the version of the next step' 40 "$(version_of second)"
)"
ends
judge 'the configuration of this machine is as before' "$(
  [ -n "$before" ] || echo '  nothing was looked at'
  asks 0 diff <(echo "$before") <(of_machine)
)"
