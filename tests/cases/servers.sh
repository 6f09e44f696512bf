# The servers of examples/ in Go and in Python, which ask libkrl: OpenSSH's client logs in to them
# with keys and certificates, while lists revoke some of them.

if [ -z "${LIBRARY:-}" ]; then
  "$top/library/build" >"$scratch/output" 2>&1 ||
    judge 'the library is built' "$(cat "$scratch/output")"
fi
library=$(realpath -- "${LIBRARY:-$top/built}")
export LD_LIBRARY_PATH=$library
for name in host one two three user ca other; do
  kind=ed25519
  [ $name != two ] || kind=ecdsa
  [ $name != three ] || kind=rsa
  "$openssh" -q -t $kind -N '' -C $name -f $name
done
for serial in 5 6; do
  "$openssh" -q -s ca -I "id of $serial" -z $serial -n somebody user.pub
  mv user-cert.pub cert-$serial.pub
done
cat one.pub two.pub three.pub >allowed
everybody='one two three cert-5 cert-6'

# enters NAME: whether the server lets in a client with this key, or with the key user and this
# certificate.
enters() {
  local words=(-i "$1")
  [ -f "$1" ] || words=(-i user -o CertificateFile="$1.pub")
  [ "$(timeout 20 ssh -F none -p "$port" -o IdentitiesOnly=yes -o IdentityAgent=none \
    -o BatchMode=yes -o StrictHostKeyChecking=no -o GSSAPIAuthentication=no \
    -o UserKnownHostsFile=/dev/null -o LogLevel=ERROR \
    "${words[@]}" somebody@127.0.0.1 true 2>error </dev/null)" = 'let in' ]
}

# reports KEY WORDS: the server's log has the user, the fingerprint of this key and the reason.
reports() {
  local wanted="revoked.krl: user somebody, key $("$openssh" -l -f "$1.pub" | cut -d ' ' -f 2): $2"
  judge "$server: it logs who is refused, $2" "$(grep -qxF "$wanted" said || { echo "  $wanted"; cat said; })"
}

# lets_in NAME KEY..: exactly these of all keys and certificates get in.
lets_in() {
  local it got=
  for it in $everybody other; do ! enters $it || got+=" $it"; done
  judge "$server: $1" "$(differs 'who gets in' "${*:2}" "${got:1}")"
}

# listens WORD..: starts the server at a port that is free, and reports whether it listens.
listens() {
  local number
  for number in {1..5}; do
    port=$((20000 + RANDOM % 10000))
    ! (: >"/dev/tcp/127.0.0.1/$port") 2>/dev/null || continue
    timeout 300 "$@" $port host allowed ca.pub revoked.krl 2>said &
    serving=$!
    for _ in {1..200}; do
      kill -0 $serving 2>/dev/null || break
      (: >"/dev/tcp/127.0.0.1/$port") 2>/dev/null && return
      sleep 0.1
    done
    kill $serving 2>/dev/null
  done
  return 1
}

# tries SERVER WORD..: the words start the server.
tries() {
  server=$1
  shift
  listens "$@" || judge "$server: it listens" "$(cat said)"
  "$program" -k -f revoked.krl /dev/null >/dev/null
  lets_in 'a list of nothing' $everybody
  "$program" -k -f revoked.krl two.pub >/dev/null
  lets_in 'a revoked key, and a list that counts immediately' one three cert-5 cert-6
  reports two 'revoked by its key'
  "$program" -k -f revoked.krl -s ca.pub - <<<'serial: 5' >/dev/null
  lets_in 'a revoked serial number' one two three cert-6
  reports cert-5 'revoked by its serial number'
  "$program" -k -f revoked.krl -s ca.pub - <<<'id: id of 6' >/dev/null
  lets_in 'a revoked key ID' one two three cert-5
  reports cert-6 'revoked by its key ID'
  "$program" -k -f revoked.krl user.pub one.pub >/dev/null
  lets_in 'the revoked key of certificates' two three
  "$program" -k -f revoked.krl ca.pub >/dev/null
  lets_in 'a revoked authority' one two three
  reports cert-6 'revoked by its authority'
  cat two.pub ca.pub >revoked.krl
  lets_in 'a plain list' one three
  reports two 'revoked by a line of a plain list'
  reports cert-5 'revoked by a line of a plain list'
  echo garbage >>revoked.krl
  lets_in 'a plain list with a line that is no key lets nobody in'
  reports one 'a line of the plain list is no key'
  "$program" -k -f revoked.krl ca.pub >/dev/null
  truncate -s -1 revoked.krl
  : >said
  lets_in 'a truncated list lets nobody in'
  reports one 'krl 3 EndsEarly'
  rm revoked.krl
  lets_in 'without a list nobody gets in'
  mkdir revoked.krl
  lets_in 'a folder for a list lets nobody in'
  rmdir revoked.krl
  kill $serving
  wait $serving 2>/dev/null
}

# Go: the package and the server are built as Debian has x/crypto, without the network.
crypto=/usr/share/gocode/src/golang.org/x/crypto
if need go golang-go && need $crypto/ssh/server.go golang-golang-x-crypto-dev &&
  need pkg-config pkg-config; then
  mkdir -p go/src/yezhirop.example
  cp -r "$top/examples/go" go/src/yezhirop.example/krl
  sed -e "s|@PREFIX@|/usr|; s|@LIBDIR@|lib|; s|@VERSION@|1|; s|^Libs:.*|Libs: -L$library -lkrl|" \
    -e "s|^Cflags:.*|Cflags: -I$top/library|" "$top/library/krl.pc.in" >krl.pc
  export GO111MODULE=off GOPATH=$PWD/go:/usr/share/gocode GOCACHE=$PWD/cache GOFLAGS=-p=2 \
    PKG_CONFIG_PATH=$PWD
  judge 'the package in Go' "$(go test yezhirop.example/krl >output 2>&1 || cat output)"
  judge 'the server in Go is built' \
    "$(go build -o go_server yezhirop.example/krl/server 2>&1 || echo '  it is not')"
  tries 'the server in Go' ./go_server
else
  echo '# the server in Go is skipped: go or golang.org/x/crypto could not be installed'
fi

# Python: that of Debian, which has asyncssh, or another that has it.
python=
need /usr/lib/python3/dist-packages/asyncssh/__init__.py python3-asyncssh
for it in /usr/bin/python3 python3; do
  [ -n "$python" ] || ! $it -W ignore -c 'import asyncssh' 2>/dev/null || python=$it
done
if [ -n "$python" ]; then
  tries 'the server in Python' "$python" -W ignore "$top/examples/asyncssh_server.py"
else
  echo '# the server in Python is skipped: asyncssh is missing, and could not be installed'
fi
