# A real sshd on the loopback, of OpenSSH 9.2 and 10, with twenty users of its own, whose keys are
# in files of four patterns, and certificates: krl audit --sshd names the lines of exactly the keys
# that let somebody in, and calls those revoked that the list locks out. The users are a file over
# /etc/passwd in a mount namespace, or that of the root of OpenSSH 10.

if [ "$(id -u)" != 0 ]; then
  echo '# audited_sshd is skipped: only root can run a sshd with users of its own'
  return
fi
. "$tests/lib/sshd/serving.sh"
for it in one three own; do made_key ca-$it ed25519; done
made_key ca-two ecdsa
mkdir -p "$room"/{keys,certs,by-name,by-number,matched,wild,homes} && chmod 755 "$scratch" "$room"
true=$(type -P true)

# The users: their names, numbers and homes.
declare -A number home
names=(u1 u2 u3 u4 u5 u6 u7 known_hosts none id_x.pub u11 u12 U1 u-14 u.15 u_16 17 u18 u19 u20)
for it in "${!names[@]}"; do
  number[${names[it]}]=$((61001 + it)) home[${names[it]}]=$room/homes/${names[it]}
done
home[u3]="$room/homes/u 3" home[u4]=$room/homes/%u home[u5]=$room/homes/u5/ home[u7]=${home[u6]}
number[u11]=4000000000 number[17]=17017
{
  echo "root:x:0:0:root:$room/homes/root:/bin/sh"
  echo "sshd:x:$(id -u sshd):65534::$room/homes/sshd:/usr/sbin/nologin"
  for it in "${names[@]}"; do
    echo "$it:x:${number[$it]}:65534:A user,,,:${home[$it]}:$true"
  done
} >"$room/passwd"
inside=(unshare -m sh -c 'mount --bind "$1" /etc/passwd && shift && exec "$@"' sh "$room/passwd")
if ! "${inside[@]}" getent passwd u20 >"$scratch/output" 2>&1; then
  echo '# audited_sshd is skipped: no file can be mounted over /etc/passwd in a namespace:'
  tail -n 1 "$scratch/output" | sed 's/^/# /'
  return
fi
"${inside[@]}" getent passwd >"$room/users"
judge 'the users are those of the test' "$(asks 0 diff "$room/passwd" "$room/users")"
# OpenSSH 10 is fetched meanwhile.
ten=$scratch/ten
"$tests/lib/openssh10/unpack" "$ten" >ten.log 2>&1 || rm -rf "$ten" &
unpacking=$!

# made NAME: a key of its own.
made() {
  "$openssh" -q -t ed25519 -N '' -C "$1" -f "$room/keys/$1"
}
# tried USER KEY FILE [OPTIONS]: a key that the user logs in with, and that is the last line of this
# file.
logins=()
tried() {
  mkdir -p "${3%/*}"
  [ -f "$room/keys/$2" ] || made "$2"
  [ -f "$3" ] || echo '# keys' >"$3"
  echo "${4:+$4 }$(cat "$room/keys/$2.pub")" >>"$3"
  logins+=("$1|$2|$3:$(wc -l <"$3")")
}
# Each user but u12 has keys in some of the four places.
for at in "${!names[@]}"; do
  it=${names[at]} bits=$((at % 15 + 1))
  [ "$it" != u12 ] || continue
  ((bits & 1)) && tried "$it" "$at-home" "${home[$it]}/.ssh/authorized_keys" 'from="127.0.0.1"'
  ((bits & 2)) && tried "$it" "$at-keys" "${home[$it]}/keys/$it"
  ((bits & 4)) && tried "$it" "$at-name" "$room/by-name/$it" no-pty
  ((bits & 8)) && tried "$it" "$at-number" "$room/by-number/${number[$it]}"
done
tried u12 matched "$room/matched/u12"
# A home of two users.
logins+=("u6|6-home|${home[u6]}/.ssh/authorized_keys:2")
# Places that nobody's keys are read in.
tried u1 other-1 "$room/homes/u1/.ssh/authorized_keys2"
tried u1 other-2 "$room/by-name/61001"
tried u1 other-3 "$room/by-number/u1"
tried u1 other-4 "$room/by-number/ee49"
tried u1 other-5 "$room/keys/u1"
tried u1 other-6 "$room/.ssh/authorized_keys"
tried u4 other-7 "$room/homes/u4/.ssh/authorized_keys"
# Files that a wildcard names, and a word with a blank, for tests of their own.
tried u2 wild "$room/wild/u2-laptop"
wild=${logins[-1]} && unset 'logins[-1]'
tried u2 wild "$room/a blank/u2"
blank=${logins[-1]} && unset 'logins[-1]'

# Certificates: each is in a file that the audit names, beside the line of its CA.
# certified USER NAME CA SERIAL: one that the user logs in with.
certified() {
  made "$2"
  "$openssh" -q -s "$room/$3" -I "of $1" -z "$4" -n "$1" "$room/keys/$2.pub"
  mv "$room/keys/$2-cert.pub" "$room/certs/"
  logins+=("$1|$2|$room/certs/$2-cert.pub:1")
}
certified u1 c1 ca-one 1
certified u2 c2 ca-two 2 && certified u3 c3 ca-two 3
certified u4 c7 ca-three 7 && certified u5 c8 ca-three 8
certified u19 c9 ca-own 9
printf '# CAs\n\n' | cat - "$room"/ca-{one,two,three}.pub >"$room/authorities"
echo "cert-authority $(cat "$room/ca-own.pub")" >>"$room/by-name/u19"
# The lines of the CAs, and their certificates.
authorities=("$room/authorities:3|c1" "$room/authorities:4|c2 c3" "$room/authorities:5|c7 c8"
  "$room/by-name/u19:$(wc -l <"$room/by-name/u19")|c9")

# The list: a key of each place in each way, also of a place that is not read, a CA by its key and
# one by its digest, and a serial number.
: >"$room/empty"
{
  cat "$room/keys/0-home.pub" && echo "sha1: $(cat "$room/keys/9-keys.pub")"
  echo "sha256: $(cat "$room/keys/5-name.pub")" && echo "key: $(cat "$room/keys/10-number.pub")"
  echo "sha256: $(cat "$room/keys/7-number.pub")" && echo "sha256: $(cat "$room/keys/matched.pub")"
  echo "sha1: $(cat "$room/keys/6-home.pub")" && cat "$room/keys/other-3.pub"
  cat "$room/ca-two.pub" && echo "sha256: $(cat "$room/ca-own.pub")" && cat "$room/keys/wild.pub"
} >spec
echo 'serial: 7' >serials
"$openssh" -q -k -f "$room/full.krl" spec
"$openssh" -q -k -u -f "$room/full.krl" -s "$room/ca-three.pub" serials

# configured PATTERNS [LINE..]: the lines for a sshd.
configured() {
  cat >"$room/config.common" <<END
ListenAddress 127.0.0.1
HostKey $room/host
PidFile none
AuthorizedKeysFile $1
TrustedUserCAKeys $room/authorities
RevokedKeys $room/revoked
StrictModes no
UsePAM no
UseDNS no
PasswordAuthentication no
KbdInteractiveAuthentication no
MaxStartups 200
$(printf '%s\n' "${@:2}")
END
}
# log_in USER KEY: the status of ssh, which is 0 where the user is let in, and 255 otherwise.
log_in() {
  local words=(-i "$room/keys/$2")
  [ ! -f "$room/certs/$2-cert.pub" ] ||
    words+=(-o CertificateFile="$room/certs/$2-cert.pub")
  timeout 60 ssh -F none -p "$port" -l "$1" -o IdentitiesOnly=yes -o IdentityAgent=none \
    -o BatchMode=yes -o StrictHostKeyChecking=no -o GSSAPIAuthentication=no \
    -o UserKnownHostsFile=/dev/null -o LogLevel=ERROR "${words[@]}" 127.0.0.1 true \
    >/dev/null 2>&1 </dev/null
  echo $?
}
# all_log_in LIST: with this list, the status of each login, in their order.
all_log_in() {
  local it name key at=0 waiting=()
  cp "$1" "$room/revoked"
  mkdir -p statuses && rm -f statuses/*
  for it in "${logins[@]}"; do
    IFS='|' read -r name key _ <<<"$it"
    log_in "$name" "$key" >"statuses/$at" &
    waiting+=($!) at=$((at + 1))
    if [ ${#waiting[@]} = 8 ]; then
      wait "${waiting[@]}"
      waiting=()
    fi
  done
  [ ${#waiting[@]} = 0 ] || wait "${waiting[@]}"
  for ((it = 0; it < at; it++)); do cat "statuses/$it"; done
}

# found_by WORD..: the lines that an audit names, and how, and its status.
found_by() {
  "$krl" audit -a "$@" >"$scratch/output" 2>"$scratch/error"
  echo "status $?" >>"$scratch/output"
  sed -E 's/: (ok|revoked): .*/ \1/' "$scratch/output" | sort
}
# expected: what an audit finds by the logins: the lines of the keys that let somebody in.
expected() {
  local it name key place first second in_it
  declare -A before after
  exec 3<before 4<after
  for it in "${logins[@]}"; do
    IFS='|' read -r name key place <<<"$it"
    read -r first <&3 && read -r second <&4
    case $first,$second in
      0,0) echo "$place ok" ;;
      0,255) echo "$place revoked" ;;
      255,255) ;;
      *) echo "$name with $key: $first without the list, $second with it" ;;
    esac
    before[$key]=$first after[$key]=$second
  done
  for it in "${authorities[@]}"; do
    in_it=revoked
    for key in ${it#*|}; do
      [ "${before[$key]}" = 0 ] || echo "nobody is let in by $key"
      [ "${after[$key]}" != 0 ] || in_it=ok
    done
    echo "${it%|*} $in_it"
  done
  echo "$room/host.pub:1 ok" && echo 'status 1'
}
# sshd_prints WORD..: what this sshd prints of its configuration.
sshd_prints() {
  "${daemon[@]}" -T -f "$room/config" "$@" 2>>"$scratch/error"
}

# of_version NAME OPTION..: all that is tried at the sshd of this OpenSSH, with these options.
of_version() {
  local name=$1 patterns
  patterns=".ssh/authorized_keys %h/keys/%u $room/by-name/%u $room/by-number/%U"
  cp "$room/empty" "$room/revoked"
  configured "$patterns" "${@:2}" 'Match User u12' "  AuthorizedKeysFile $room/matched/%u"
  serve
  all_log_in "$room/empty" >before
  all_log_in "$room/full.krl" >after
  ends
  expected | sort -u >wanted
  sshd_prints -C user=u12 >of_u12
  sshd_prints | found_by --sshd - --sshd of_u12 --passwd "$room/users" "$room/certs" >found
  judge "$name: ${#logins[@]} logins, each with a list and without" "$(
    asks 0 diff wanted found
    # Seven keys, two CAs and four certificates, beside 31 keys, two CAs, two certificates and a
    # host key.
    differs 'how many are revoked' 13 "$(grep -c ' revoked$' wanted)"
    differs 'how many are not' 36 "$(grep -c ' ok$' wanted)"
    asks 1 grep -v '^krl audit: ' "$scratch/error"
  )"
  rules "$name" "${@:2}"
  words "$name" "${@:2}"
}
# rules NAME OPTION..: texts of this sshd as they are.
rules() {
  local status
  # Nothing is configured but a host key.
  echo "HostKey $room/host" >"$room/config"
  sshd_prints >text
  "$krl" audit --sshd text --passwd "$room/users" >"$scratch/output" 2>"$scratch/error"
  judge "$1: the text of no configuration has no list" "$(differs status 255 $?
    asks 0 grep -q '^krl: text: .* \[sshd 4 NoList\]$' "$scratch/error"
    differs 'standard output' '' "$(cat "$scratch/output")")"
  found_by --sshd text --passwd "$room/users" -f "$room/full.krl" >found
  judge "$1: it has two files for each user, and a host key" "$(
    # Those that sshd reads then, also of a home that others share.
    for it in "${names[@]}"; do
      for file in authorized_keys authorized_keys2; do
        file=${home[$it]}/.ssh/$file
        [ ! -f "$file" ] || grep -n '[^ ]*ssh-' "$file" | sed "s|:.*||; s|^|$file:|"
      done
    done | sed 's|//|/|' | sort -u >wanted
    printf '%s\n' "$room/host.pub:1" 'status 1' >>wanted
    asks 0 diff <(sort wanted) <(sed -E 's# (ok|revoked)$##; s#//#/#' found | sort)
  )"
  configured .ssh/authorized_keys "AuthorizedKeysCommand $true 'a b' %u" \
    'AuthorizedKeysCommandUser root' "${@:2}" && cp "$room/config.common" "$room/config"
  : >"$room/revoked"
  sshd_prints >text
  "$krl" audit --sshd text --passwd "$room/users" >"$scratch/output" 2>"$scratch/error"
  status=$?
  judge "$1: a command" "$(differs status 3 $status
    differs 'what is said' \
      "$(sed -n 's/^authorizedkeyscommand /AuthorizedKeysCommand /p' text): unread" \
      "$(grep -o '^AuthorizedKeysCommand .*: unread' "$scratch/output")")"
  configured '.ssh/%x' "${@:2}" && cp "$room/config.common" "$room/config"
  sshd_prints >text
  "$krl" audit --sshd text --passwd "$room/users" >"$scratch/output" 2>"$scratch/error"
  judge "$1: a token that sshd stops at" "$(differs status 255 $?
    asks 0 grep -q ': .ssh/%x \[sshd 3 BadToken\]$' "$scratch/error")"
}
# sole_login WORD LOGIN OPTION..: how ssh ends for this login, without the list and with it, where
# the keys of users are in the files of the word, and what is audited then.
sole_login() {
  local all=("${logins[@]}")
  logins=("$2")
  cp "$room/empty" "$room/revoked"
  configured "$1" "${@:3}"
  serve
  ends_with=$(all_log_in "$room/empty"),$(all_log_in "$room/full.krl")
  ends
  logins=("${all[@]}")
  sshd_prints | "$krl" audit --sshd - --passwd "$room/users" >"$scratch/output" 2>"$scratch/error"
}
# words NAME OPTION..: a word with a wildcard, by which OpenSSH 10 finds files: where the list locks
# somebody out, the key is named, or something is unread. A word with a blank, which sshd -T prints
# as two words, so that nobody can know.
words() {
  local said
  sole_login "$room/wild/%u-*" "$wild" "${@:2}"
  judge "$1: a file that a wildcard names, where ssh ends with $ends_with" "$(
    [ "$ends_with" != 0,255 ] ||
      asks 0 grep -q 'laptop:2: revoked: \|: unread: ' "$scratch/output")"
  sole_login "\"$room/a blank/%u\"" "$blank" "${@:2}"
  said=$(grep -c 'blank/u2:2: revoked: ' "$scratch/output")
  echo "# $1: a word with a blank, where ssh ends with $ends_with: $said of its keys are named"
}

of_nine=$(ssh -V 2>&1 | cut -d , -f 1)
daemon=("${inside[@]}" "${daemon[@]}")
of_version "$of_nine"
wait $unpacking
if [ -x "$ten/ssh-keygen" ]; then
  # Files of the room have the same names in the root of OpenSSH 10.
  shopt -s dotglob
  mv "$room"/* "$ten/room" && rmdir "$room" && ln -s "$ten/room" "$room"
  shopt -u dotglob
  mkdir -p "$ten${room%/*}" && ln -s /room "$ten$room" && cp "$room/passwd" "$ten/etc/passwd"
  mkdir -p "$ten${true%/*}" && [ -x "$ten$true" ]
  daemon=(chroot "$ten" /usr/sbin/sshd -e)
  of_version "$(tail -n 1 ten.log | cut -d , -f 1)" 'PerSourcePenalties no'
else
  echo '# OpenSSH 10 is not asked, since it could not be had from Debian:'
  tail -n 3 ten.log | sed 's/^/# /'
fi
