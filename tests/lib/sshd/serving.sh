# A sshd of the test's own on the loopback, and logins at it. A part of the scripts that source it.

need sshd openssh-server ||
  judge 'sshd is there' '  install it, on Debian by apt-get install openssh-server'
daemon=("$(command -v sshd || echo /usr/sbin/sshd)" -e)
room=$scratch/sshd
mkdir -p "$room"
user=$(id -un)

# made_key NAME TYPE
made_key() {
  "$openssh" -q -t "$2" -N '' -C "$1" -f "$room/$1"
}
made_key host ed25519

# configure LINE..: what the sshd does, but for its port and the last lines.
configure() {
  cat >"$room/config.common" <<END
ListenAddress 127.0.0.1
HostKey $room/host
PidFile none
AuthorizedKeysFile $room/allowed
ForceCommand echo let in
StrictModes no
UsePAM no
PermitRootLogin yes
UseDNS no
PasswordAuthentication no
KbdInteractiveAuthentication no
MaxStartups 100
END
  printf '%s\n' "$@" >>"$room/config.common"
}

# listen PORT: starts sshd, and reports whether it listens. It ends by itself after ten minutes.
listen() {
  { echo "Port $1" && cat "$room/config.common"; } >"$room/config"
  timeout 600 "${daemon[@]}" -D -f "$room/config" 2>"$room/log" &
  server=$!
  for _ in {1..100}; do
    kill -0 $server 2>/dev/null || return
    (: >"/dev/tcp/127.0.0.1/$1") 2>/dev/null && return
    sleep 0.1
  done
}

# serve: starts sshd at a port that is free, until ends.
serve() {
  # A sshd of root wants this empty folder. It stays, for another part of the tests may want it too.
  [ "$(id -u)" != 0 ] || mkdir -p /run/sshd
  trap 'ends; rm -rf "$scratch"' EXIT
  for _ in {1..5}; do
    port=$((20000 + RANDOM % 10000))
    listen $port
    kill -0 "$server" 2>/dev/null && break
  done
  judge 'sshd listens' "$(kill -0 "$server" 2>&1 || cat "$room/log")"
}

ends() {
  kill "$server" 2>/dev/null
  wait "$server" 2>/dev/null
  trap 'rm -rf "$scratch"' EXIT
}

# enters NAME [WORD..]: whether sshd lets in a client with this key, or with the key user and this
# certificate, and with other words for ssh.
enters() {
  local words=(-i "$room/$1" "${@:2}")
  [ -f "$room/$1" ] || words=(-i "$room/user" -o CertificateFile="$room/$1.pub")
  timeout 20 ssh -F none -p "$port" -o IdentitiesOnly=yes -o IdentityAgent=none -o BatchMode=yes \
    -o StrictHostKeyChecking=no -o GSSAPIAuthentication=no -o UserKnownHostsFile=/dev/null \
    -o LogLevel=ERROR \
    "${words[@]}" "$user@127.0.0.1" true >"$scratch/output" 2>"$scratch/error" </dev/null
  [ "$(cat "$scratch/output")" = 'let in' ]
}
