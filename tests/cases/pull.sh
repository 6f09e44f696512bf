# krl-pull of examples/systemd, which fetches lists from a web server of the test's own, and the
# units that call it.

krl=$(realpath -- "${KRL:-$top/krl}")
for it in 'curl curl' 'openssl openssl'; do
  need $it || judge "${it% *} is there" "  install ${it#* }"
done
units=$top/examples/systemd
room=$scratch/room
mkdir tools web "$room"
ln -s "$krl" tools/krl
for name in user-ca new-ca host alice signing; do
  "$openssh" -q -t ed25519 -N '' -C $name -f $name
done
echo "krl namespaces=\"krl\" $(cat signing.pub)" >signers
openssl req -x509 -newkey ec -pkeyopt ec_paramgen_curve:prime256v1 -nodes -days 2 -keyout key.pem \
  -out cert.pem -subj /CN=localhost -addext subjectAltName=IP:127.0.0.1 2>openssl.log
cat key.pem cert.pem >both.pem

# The servers end with the test.
trap 'kill $servers; rm -rf "$scratch"' EXIT
python3 -B "$tests/lib/web.py" web https both.pem & servers=$!
python3 -B "$tests/lib/web.py" web http & servers+=" $!"
for _ in {1..100}; do [ -e https ] && [ -e http ] && break || sleep 0.1; done
secure=https://127.0.0.1:$(cat https)
url=$secure/revoked.krl
options=() keep=(user-ca.pub host.pub)

# pull: krl-pull fetches what is at $url, with these options and files of keys.
pull() {
  # A shell without jobs ignores INT in what it runs in the background, and under nohup HUP too.
  PATH=$PWD/tools:$PATH KRL_SIGNERS=signers CURL_CA_BUNDLE=cert.pem exec \
    env --default-signal=INT,HUP "$units/krl-pull" "${options[@]}" "$url" "$room/revoked.krl" \
    "${keep[@]}" >output 2>&1
}

# pulls NAME STATUS VERSION [TEXT]: krl-pull ends with this status and says this, and then the list
# of this version is in force.
pulls() {
  local status
  (pull)
  status=$?
  judge "krl-pull: $1" "$(
    differs status "$2" $status && [ $status = "$2" ] || cat output
    [ -z "${4:-}" ] || grep -qF -e "$4" output || { echo "  it does not say: $4" && cat output; }
    in_force "$3"
  )"
}
in_force() {
  differs 'the version in force' "$1" \
    "$(od -An -j 12 -N 8 -t u8 --endian=big "$room/revoked.krl" 2>/dev/null | tr -d ' ')"
  differs 'files beside the list' '' "$(ls -A "$room" | grep -vx revoked.krl)"
}

# sign: the list on the web gets a signature.
sign() {
  rm -f web/revoked.krl.sig
  "$openssh" -Y sign -q -f signing -n krl web/revoked.krl
}

# publish VERSION [FILE ..]: a signed list of this version, which names the keys of the files, is on
# the web.
publish() {
  "$program" -k -f web/revoked.krl -z "$@" >/dev/null && sign
}

pulls 'no list on the web' 22 ''
publish 20 alice.pub
touch web/other.krl && cp web/revoked.krl.sig web/other.krl.sig
url=$secure/other.krl pulls 'a list with the signature of another' 1 '' 'the signature is wrong'
url=http://127.0.0.1:$(cat http)/revoked.krl pulls 'no list without TLS' 1 '' rotocol
TMPDIR=/dev/null pulls 'the first list, beside which it is made ready' 0 20
judge 'all may read it' "$(differs mode 644 "$(stat -c %a "$room/revoked.krl")")"
rm "$room/revoked.krl"
(umask 077 && pull)
judge 'all may read it where the files of the user are private' \
  "$(differs mode 644 "$(stat -c %a "$room/revoked.krl")"; in_force 20)"
inode=$(stat -c %i "$room/revoked.krl")
pulls 'the same list' 0 20
judge 'the same list is not renamed' "$(differs inode "$inode" "$(stat -c %i "$room/revoked.krl")")"
publish 19 alice.pub
pulls 'an older list' 1 20
publish 20 alice.pub signing.pub
pulls 'another list of the same version' 1 20 'another list of version 20 is in force'
publish 30 user-ca.pub
pulls 'a list that revokes a key to keep' 1 20 'keep: user-ca.pub: 1 of 1 key is revoked'
judge 'it says where the steps are to revoke a CA' "$(grep -qF 'Revoke a stolen CA' output &&
  grep -qx '## Revoke a stolen CA' "$top/docs/RUNBOOK.md" || cat output)"
publish 30 host.pub
pulls 'a list that revokes the second key to keep' 1 20 host.pub
# The CA was stolen: another one has taken its place in the file of those that are kept.
keep=(new-ca.pub host.pub)
ln "$room/revoked.krl" before
publish 22 user-ca.pub
pulls 'a list that revokes a CA which is no longer kept' 0 22
judge 'it gets its name by a rename' \
  "$([ ! before -ef "$room/revoked.krl" ] || echo '  the list in force is written')"
keep=(user-ca.pub host.pub)
rm "$room/revoked.krl" before
publish 20 alice.pub
pulls 'a list where there is none' 0 20
publish 30 alice.pub
url=$secure/revoked.krl.moved pulls 'a list to which another address leads' 1 20 \
  'the signature is wrong'
"$program" -k -f web/revoked.krl -z 31 alice.pub >/dev/null
pulls 'a list that was changed after it was signed' 1 20 'the signature is wrong'
publish 30 alice.pub
truncate -s -1 web/revoked.krl
pulls 'a truncated list' 1 20
cp alice.pub web/revoked.krl && sign
pulls 'a plain list, which has no version' 255 20 'a plain list has no version'
publish 30 alice.pub
KRL_PROTO==http url=http://127.0.0.1:$(cat http)/revoked.krl \
  pulls 'a newer list, by another protocol that is named' 0 30
# krl is killed when it reads the list in force, or has no memory for it.
publish 21 alice.pub
for it in 'kill -9 $$:status 137' 'echo "[run 1 NoMemory]" >\&2 \&\& exit 255:NoMemory'; do
  printf '#!/bin/sh\n' >tools/failing
  sed "s|DOES|${it%:*}|; s|LIST|$room/revoked.krl|; s|KRL|$krl|" >>tools/failing <<'END'
[ "$3" != LIST ] || { DOES; }
exec KRL "$@"
END
  chmod +x tools/failing && mv tools/failing tools/krl
  pulls "an older list, where krl fails at that in force: ${it#*:}" 1 30 "${it#*:}"
done
ln -sf "$krl" tools/krl
rm "$room/revoked.krl" && mkdir "$room/revoked.krl"
pulls 'a list where a folder has its name' 1 ''
judge 'the folder is left' "$(ls -A "$room/revoked.krl")"
rmdir "$room/revoked.krl" && head -c 20 web/revoked.krl >"$room/revoked.krl"
pulls 'any list, where that in force is damaged' 0 21

# ---- the options

publish 40
pulls 'a list that revokes nobody' 1 21 'empty: '
options=(--allow-empty)
pulls 'such a list where that is allowed' 0 40
publish 50 alice.pub
# Its date is some day in 2001.
printf '\0\0\0\0\x3b\x9a\xca\0' | dd of=web/revoked.krl bs=1 seek=20 conv=notrunc 2>/dev/null
sign
options=(--max-age 7d)
pulls 'a list that is too old' 1 40 'age: '
options=()
pulls 'an old list where no age is given' 0 50
options=(--max-age 7d)
pulls 'a list in force that has become too old' 1 50 'age: '
publish 51 alice.pub
options=(--max-age 7d --allow-empty)
pulls 'a list of today' 0 51
publish 52 signing.pub
options=(--superset)
pulls 'a list that lacks an entry of the list in force' 1 51 'lost: '
publish 52 alice.pub signing.pub
pulls 'a list that has them all' 0 52
publish 53 alice.pub
options=()
pulls 'a list that lacks an entry, where that is allowed' 0 53
truncate -s 20 "$room/revoked.krl"
options=(--superset)
pulls 'any list, where that in force is damaged and is to be kept' 0 53
publish 60 alice.pub
options=(--superset --superset)
pulls 'another flag that is given twice' 2 53 once
options=(--max-age 7d --max-age 9d)
pulls 'an option that is given twice' 2 53 once
options=(--allow-empty --allow-empty)
pulls 'a flag that is given twice' 2 53 once
options=(--max-age '')
pulls 'a duration that is empty' 2 53 'with a duration'
options=(--max-ages 7d)
pulls 'an unknown option' 2 53 'no option'
options=()

# ---- how it fetches and ends

url=$secure/a.endless pulls 'no more than a list may have is fetched' 23 53 'curl: (23)'
for it in HUP INT TERM; do
  (url=$secure/a.slow pull) &
  for _ in {1..100}; do pgrep -P $! curl >/dev/null && break || sleep 0.1; done
  fetching=$(pgrep -P $! curl)
  begun=$SECONDS
  kill -$it $!
  wait $!
  judge "krl-pull: $it ends it" "$(
    differs status 143 $?
    ((SECONDS < begun + 10)) || echo '  it ends late'
    [ -n "$fetching" ] || echo '  it did not fetch'
    ! kill -0 $fetching 2>/dev/null || echo '  curl is left'
    in_force 53
  )"
done
for it in sync mv; do
  printf '#!/bin/sh\necho "%s ${1##*/}" >>order\nexec %s "$@"\n' $it "$(command -v $it)" >tools/$it
  chmod +x tools/$it
done
pulls 'the last list' 0 60
judge 'the list is on the disk before it gets its name' \
  "$(differs steps $'sync krl\nmv -T' "$(cat order)")"

# ---- the units

for it in 'service ReadWritePaths=/etc/ssh' 'service ProtectSystem=strict' \
  'service ProtectHome=yes' 'service PrivateTmp=yes' 'service PrivateDevices=yes' \
  'service NoNewPrivileges=yes' 'service CapabilityBoundingSet=CAP_DAC_OVERRIDE' \
  'service RestrictAddressFamilies=AF_UNIX AF_INET AF_INET6' 'service Type=oneshot' \
  'service Wants=network-online.target' 'service After=network-online.target' \
  'timer OnBootSec=1min' 'timer OnUnitActiveSec=10min' 'timer RandomizedDelaySec=5min' \
  'timer FixedRandomDelay=yes' 'timer WantedBy=timers.target'; do
  judge "krl-pull.${it%% *} has ${it#* }" \
    "$(grep -qx -e "${it#* }" "$units/krl-pull.${it%% *}" || echo '  it does not')"
done
command='/usr/local/sbin/krl-pull https://pki.example.com/revoked.krl /etc/ssh/revoked.krl'
command+=' /etc/ssh/user_ca.pub'
judge 'the service keeps the user CA' "$(differs command "$command" \
  "$(sed -n '/^ExecStart=/,/[^\\]$/p' "$units/krl-pull.service" | sed 's/^ExecStart=//; s/\\$//' |
    xargs)")"
judge 'and so does the line for cron' \
  "$(tr '\n' ' ' <"$top/docs/RECIPES.md" | grep -qF "\`$command\`" || echo '  it does not')"
kill $servers
trap 'rm -rf "$scratch"' EXIT
