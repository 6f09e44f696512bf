# The log of a real sshd on the loopback, of OpenSSH 9.2 and 10, to a file and through syslog to a
# file of rsyslogd: krl logins answers about each login as -Q does about its key or certificate.

. "$tests/lib/sshd/serving.sh"
daemon=("${daemon[0]}")
for it in one two user; do made_key $it ed25519; done
for it in a c d; do made_key ca-$it ed25519; done
made_key ca-b ecdsa
cat "$room"/{one,two,user}.pub >"$room/allowed"
cat "$room"/ca-{a,b,c,d}.pub >"$room/authorities"
print_of() {
  "$openssh" -l -f "$room/$1.pub" | cut -d ' ' -f 2
}

# signed NAME CA SERIAL ID: a certificate of the key user.
signed() {
  "$openssh" -q -s "$room/$2" -I "$4" -z "$3" -n "$user" "$room/user.pub" 2>"$scratch/error" ||
    judge "the key ID of $1 is signed" "$(cat "$scratch/error")"
  mv "$room/user-cert.pub" "$room/$1.pub"
  names+=("$1")
}
# letters COUNT: as many of them.
letters() {
  printf "%$1s" '' | tr ' ' p
}
names=(one two user)
# Key IDs that the list names by their bytes.
ids=(bob '\n\101\b\' $'b\xc3\xbcrger \xc2\x9b \xff' $'a\tb' $'a\nb' $'a\rb'
  $'a\ab\bc\vd\fe\e\x7f\x01' '"a" (b)' ' a  b ' 'sshd[1]: x' ', signature count = 5'
  "$(letters 290)" "$(letters 900)")
for it in "${!ids[@]}"; do signed "id-$it" ca-a $((100 + it)) "${ids[it]}"; done
# Serial numbers, some behind the group of another CA, which is not revoked or is.
other_group="x (serial 8) CA ECDSA $(print_of ca-b)"
signed group ca-a 200 "$other_group"
signed revoked-group ca-a 300 "${other_group/8/7}"
signed b7 ca-b 7 x && signed b8 ca-b 8 x && signed b0 ca-b 0 x
signed highest ca-b 18446744073709551615 x
signed by-c ca-c 7 x && signed by-d ca-d 0 x
# Messages of the sizes at which they are cut, by certificates that are revoked. The last ones are
# cut right behind the group of another CA.
message="Accepted publickey for $user from 127.0.0.1 port 40000 ssh2: ED25519-CERT "
message+="$(print_of user) ID " rest=" (serial 201) CA ED25519 $(print_of ca-a)"
for size in 499 500 501 502 1019 1020 1021; do
  signed "size-$size" ca-a 201 "$(letters $((size - ${#message} - ${#rest})))"
done
for size in 500 1021; do
  signed "cut-$size" ca-a 201 "$(letters $((size - ${#message} - ${#other_group})))$other_group"
done
{
  echo "$(cat "$room/one.pub")" && echo "sha256: $(cat "$room/two.pub")"
  cat "$room/ca-c.pub" && echo "sha256: $(cat "$room/ca-d.pub")"
  echo "@b: $(cat "$room/ca-b.pub")" && printf '@b serial: %s\n' 7 18446744073709551615
  echo "@a: $(cat "$room/ca-a.pub")" && echo '@a serial: 200-299'
  for it in "${ids[@]}"; do printf '@a id-hex: %s\n' "$(text "$it")"; done
} | "$krl" make -q -f revoked.krl -

# say TEXT: ends a connection before any key, with this text.
say() {
  python3 - "$port" "$1" <<'END'
import socket, struct, sys
text = sys.argv[2].encode()
content = struct.pack(">BII", 1, 11, len(text)) + text + bytes(4)
padding = 8 - (len(content) + 5) % 8 + 8
with socket.create_connection(("127.0.0.1", int(sys.argv[1]))) as it:
    it.recv(256)
    it.sendall(b"SSH-2.0-x\r\n" + struct.pack(">IB", len(content) + padding + 1, padding))
    it.sendall(content + bytes(padding))
    it.recv(256)
END
}
# logged NAME LOG: the answers about the log are those of -Q in the order of the logins, where the
# message was not cut. A line feed in a key ID ends a line of a log that is not syslog's.
logged() {
  local name=$1 log=$2 it size wanted= got
  LC_ALL=C sed -nE 's/^(.* sshd(-session)?\[[0-9]+\]: )?(Accepted publickey for )/\3/p' "$log" \
    >messages
  exec 3< <(LC_ALL=C awk '{ print length($0) }' messages)
  for it in "${names[@]}"; do
    read -r size <&3
    "$program" -Q -f revoked.krl "$room/$it.pub" >"$scratch/output" 2>&1
    case $?,$size in
      *,50[01] | *,102[1-9] | *,1[1-9]??) wanted+="$it unread"$'\n' ;;
      0,*) wanted+="$it ok"$'\n' ;;
      1,*) wanted+="$it revoked"$'\n' ;;
      *) wanted+="$it has no answer"$'\n' ;;
    esac
  done
  [ "$log" != "$room/log" ] || wanted=${wanted/id-4 revoked/id-4 unread}
  "$krl" logins --json -a -f revoked.krl "$log" >objects 2>"$scratch/error"
  got=$(sed -n 's/^{"file":.*"line":[0-9]*,"status":"\([a-z]*\)".*/\1/p' objects)
  judge "$name: ${#names[@]} logins" "$(
    diff <(printf %s "$wanted") <(paste -d ' ' <(printf '%s\n' "${names[@]}") - <<<"$got")
  )"
}

# all_enter OPTION..: a sshd with these options, and a login by each key and certificate. A name and
# a text that look like a login are none.
all_enter() {
  local it
  configure "TrustedUserCAKeys $room/authorities" "$@"
  serve
  for it in "${names[@]}"; do enters "$it"; done
  (user='Accepted publickey for x from 1.2.3.4 port 1 ssh2' && enters one)
  [ ! -e messages ] || say "x"$'\n'"$(head -n 1 messages)"$'\n'
  ends
}
# steps NAME WANTED OPTION..: logins by the keys one and two where both are asked for.
steps() {
  configure 'AuthenticationMethods publickey,publickey' "${@:3}"
  serve
  enters one -i "$room/two"
  ends
  "$krl" logins --json -a -f revoked.krl "$room/log" >objects 2>"$scratch/error"
  judge "$1" "$(differs 'what is said' "$2" \
    "$(sed -n 's/.*"status":"\([a-z]*\)".*"\(step\|why\)":"\([^"]*\)".*/\1 \3/p' objects |
      paste -s -d ,)")"
}
# of_version NAME OPTION..: all that is tried at the sshd of this OpenSSH, with these options.
of_version() {
  local name=$1 it
  shift
  rm -f messages
  daemon+=(-e)
  all_enter "$@"
  logged "$name, to a file" "$room/log"
  steps "$name, two steps" 'revoked partial,revoked accepted' 'LogLevel VERBOSE' "$@"
  steps "$name, two steps of which one is logged" 'revoked accepted' "$@"
  steps "$name, MD5 fingerprints" 'unread the line of a login is malformed' \
    'FingerprintHash md5' "$@"
  unset 'daemon[-1]'
  [ -n "$syslog" ] || return
  : >traditional && : >iso
  [ ${#private[@]} = 0 ] || daemon=("${private[@]}" "${daemon[@]}")
  all_enter "$@"
  for _ in {1..100}; do
    grep -q 'Received signal 15' iso && break
    sleep 0.1
  done
  for it in traditional iso; do logged "$name, through syslog, $it times" "$PWD/$it"; done
}

# rsyslogd_listens: starts rsyslogd of Debian's packages, which are unpacked here. Its sockets are
# for a sshd in a folder /dev of its own, and for that of OpenSSH 10 in its root.
rsyslogd_listens() {
  local libraries
  mkdir -p rsyslog "$ten/dev" && cd rsyslog || return
  for it in 'apt-get update' false; do
    apt-get -o APT::Sandbox::User=root download rsyslog libestr0 libfastjson4 liblognorm5 && break
    $it || return
  done
  for it in *.deb; do dpkg -x "$it" . || return; done
  cd ..
  {
    echo 'module(load="imuxsock" SysSock.Use="off")'
    printf 'input(type="imuxsock" Socket="%s" RateLimit.Interval="0")\n' "$PWD/socket" \
      "$ten/dev/log"
    printf '*.* action(type="omfile" file="%s" template="RSYSLOG_%sFileFormat")\n' \
      "$PWD/traditional" Traditional "$PWD/iso" ''
  } >rsyslog.conf
  libraries=$(echo "$PWD"/rsyslog/usr/lib/*-linux-gnu)
  LD_LIBRARY_PATH=$libraries timeout 900 rsyslog/usr/sbin/rsyslogd -n -f "$PWD/rsyslog.conf" \
    -i "$PWD/rsyslog.pid" -M "$libraries/rsyslog" &
  syslog=$!
  for _ in {1..100}; do
    [ -S "$ten/dev/log" ] && [ -S socket ] && return
    sleep 0.1
  done
  return 1
}
syslog= ten=$scratch/ten private=(unshare -m sh -c '
  set -e
  mount -t tmpfs none "$1"
  for it in null zero urandom tty; do : >"$1/$it" && mount --bind "/dev/$it" "$1/$it"; done
  : >"$1/log" && mount --bind "$2" "$1/log"
  mount --move "$1" /dev
  shift 2 && exec "$@"' sh "$PWD/dev" "$PWD/socket")
if [ "$(id -u)" != 0 ]; then
  echo '# no log goes through syslog, and OpenSSH 10 is not asked, since only root can unpack them'
  of_version "$(ssh -V 2>&1 | cut -d , -f 1)"
  return
fi
"$tests/lib/openssh10/unpack" "$ten" >ten.log 2>&1 || rm -rf "$ten"
if ! rsyslogd_listens >rsyslog.log 2>&1; then
  echo '# no log goes through syslog, since rsyslogd could not be had from Debian or started:'
  tail -n 3 rsyslog.log | sed 's/^/# /'
  kill $syslog 2>/dev/null
  syslog=
fi
mkdir dev
of_version "$(ssh -V 2>&1 | cut -d , -f 1)"
if [ -x "$ten/ssh-keygen" ]; then
  # Files of the room have the same names in the root of OpenSSH 10.
  mv "$room"/* "$ten/room" && rmdir "$room" && ln -s "$ten/room" "$room"
  mkdir -p "$ten${room%/*}" && ln -s /room "$ten$room"
  daemon=(chroot "$ten" /usr/sbin/sshd) private=()
  of_version "$(tail -n 1 ten.log | cut -d , -f 1)" 'PerSourcePenalties no'
else
  echo '# OpenSSH 10 is not asked, since it could not be had from Debian:'
  tail -n 3 ten.log | sed 's/^/# /'
fi
kill $syslog 2>/dev/null
