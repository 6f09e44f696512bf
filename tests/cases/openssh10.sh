# Lists with DSA, which OpenSSH 10 does not have: its ssh-keygen and a real sshd of it, beside krl.
# They are unpacked from another release of Debian: that takes root, a Debian, and its archive.

ten=$scratch/ten
if [ "$(id -u)" != 0 ]; then
  echo '# openssh10 is skipped: OpenSSH 10 was not asked, since only root can unpack and run it'
  return
fi
if ! "$tests/lib/openssh10/unpack" "$ten" >"$scratch/output" 2>&1; then
  echo '# openssh10 is skipped: OpenSSH 10 was not asked, since it could not be had from Debian:'
  tail -n 3 "$scratch/output" | sed 's/^/# /'
  return
fi
echo "# $(tail -n 1 "$scratch/output")"

# A key that is let in by itself, and one that is let in by a certificate.
for it in ca host one user; do "$openssh" -q -t ed25519 -N '' -C $it -f $it; done
"$openssh" -q -s ca -I 'id of user' -z 5 -n root user.pub
cp host one.pub ca.pub "$ten/room"
{ read -r dsa_key && read -r of_dsa_key && read -r by_dsa_ca; } <"$tests/lib/openssh10/dsa_lines"
echo "$dsa_key" >dsa.pub

# serve PORT: starts the sshd of OpenSSH 10, and reports whether it listens. It ends by itself after
# five minutes.
serve() {
  cat >"$ten/room/config" <<END
Port $1
ListenAddress 127.0.0.1
HostKey /room/host
PidFile none
AuthorizedKeysFile /room/one.pub
TrustedUserCAKeys /room/ca.pub
RevokedKeys /room/revoked
StrictModes no
UsePAM no
PermitRootLogin yes
UseDNS no
PasswordAuthentication no
KbdInteractiveAuthentication no
MaxStartups 100
PerSourcePenalties no
END
  timeout 300 chroot "$ten" /usr/sbin/sshd -D -e -f /room/config 2>"$ten/room/log" &
  server=$!
  for _ in {1..100}; do
    kill -0 $server 2>/dev/null || return
    (: >"/dev/tcp/127.0.0.1/$1") 2>/dev/null && return
    sleep 0.1
  done
}
trap 'kill "$server" 2>/dev/null; rm -rf "$scratch"' EXIT
: >"$ten/room/revoked"
for _ in {1..5}; do
  port=$((20000 + RANDOM % 10000))
  serve $port
  kill -0 "$server" 2>/dev/null && break
done
judge 'sshd of OpenSSH 10 listens' "$(kill -0 "$server" 2>&1 || cat "$ten/room/log")"

# answer NAME: how that sshd answers the key one, or the certificate of user: in, revoked or fault.
answer() {
  local before words=(-i one)
  [ "$1" = one ] || words=(-i user -o CertificateFile=user-cert.pub)
  before=$(wc -l <"$ten/room/log")
  if timeout 20 ssh -F none -p "$port" -o IdentitiesOnly=yes -o IdentityAgent=none \
    -o BatchMode=yes -o StrictHostKeyChecking=no -o UserKnownHostsFile=/dev/null \
    -o GSSAPIAuthentication=no -o LogLevel=ERROR "${words[@]}" root@127.0.0.1 true \
    >"$scratch/output" 2>&1 </dev/null; then
    echo in
  else
    tail -n +$((before + 1)) "$ten/room/log" |
      sed -n 's/.*revoked by file.*/revoked/p; s/.*Error checking .*/fault/p' | head -n 1
  fi
}

# asks NAME LIST WANTED WHY: WANTED has the answer for each of one and user, and WHY is empty where
# krl check passes the list. krl audit reads every such list, and finds what OpenSSH 9.2 finds.
asks() {
  local name=$1 list=$2 wanted=$3 why=$4 status=0
  cp "$list" "$ten/room/revoked"
  judge "$name: sshd" "$(
    differs 'the answers' "$wanted" "one=$(answer one) user=$(answer user)"
  )"
  if [ "$(head -c 6 "$list")" = SSHKRL ]; then
    [[ $wanted != *fault* ]] || status=255
    [[ $wanted != one=revoked* ]] || status=1
    "$ten/ssh-keygen" -Q -f "$list" one.pub >"$scratch/output" 2>&1
    judge "$name: ssh-keygen" "$(differs 'its status' $status $?)"
  fi
  "$krl" check --allow-empty "$list" >"$scratch/output" 2>"$scratch/error"
  status=$?
  judge "$name: krl check" "$(
    differs 'its status' $((${#why} > 0)) $status
    differs 'its line' "${why:+openssh: $list: $why}" "$(cat "$scratch/output" "$scratch/error")"
  )"
  "$krl" audit -q -f "$list" one.pub 2>"$scratch/error"
  status=$?
  judge "$name: krl audit" "$(
    differs 'its status' "$(($(grep -c "^$(cut -d ' ' -f 1,2 one.pub)" "$list") > 0))" $status
  )"
}
fine='one=in user=in' fault='one=fault user=fault'
lacks='which OpenSSH 10 does not read'

# Key revocation lists.
echo 'serial: 5' >five
"$program" -k -f by_ca.krl -s ca.pub five
"$program" -k -f by_dsa.krl -s dsa.pub five
"$program" -k -f dsa_key.krl dsa.pub
echo "sha256: $dsa_key" | "$program" -k -f dsa_sha256.krl -
echo "sha1: $dsa_key" | "$program" -k -f dsa_sha1.krl -
asks 'serial numbers of an Ed25519 CA' by_ca.krl 'one=in user=revoked' ''
asks 'serial numbers of a DSA CA' by_dsa.krl "$fault" "the key of a CA is DSA, $lacks"
asks 'a DSA key in a KRL' dsa_key.krl "$fine" ''
asks 'the SHA-256 of a DSA key' dsa_sha256.krl "$fine" ''
asks 'the SHA-1 of a DSA key' dsa_sha1.krl "$fine" ''

# Plain lists.
echo "$dsa_key" >dsa_key
printf '# a certificate\n%s\n' "$of_dsa_key" >of_dsa_key
printf '# a certificate\n\n%s\n%s\n' "$by_dsa_ca" "$dsa_key" >by_dsa_ca
{ cat one.pub && echo "$dsa_key"; } >after_one
cp user-cert.pub by_ca
asks 'a certificate in a plain list' by_ca 'one=in user=revoked' ''
asks 'a DSA key in a plain list' dsa_key "$fault" "line 1 has a DSA key, $lacks"
asks 'a certificate of a DSA key' of_dsa_key "$fault" "line 2 has a DSA key, $lacks"
asks 'a certificate by a DSA CA' by_dsa_ca "$fault" \
  "line 3 has a certificate of a DSA CA, $lacks"
asks 'a DSA key behind the key' after_one 'one=revoked user=fault' "line 2 has a DSA key, $lacks"

kill "$server" 2>/dev/null
wait "$server" 2>/dev/null
trap 'rm -rf "$scratch"' EXIT
