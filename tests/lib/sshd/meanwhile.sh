# Logins with a revoked key while its list is updated, by a new file and in place. A part of
# sshd.sh.

need cc gcc || judge 'a C compiler is there' '  install gcc'
mkdir "$room/closed"
chmod 755 "$scratch" "$room"
cp "$binary" "$room/ssh-keygen" && chmod 755 "$room/ssh-keygen"
cc -O2 -shared -fPIC -o "$room/calls.so" "$tests/lib/calls.c"
"$program" -k -f "$room/old.krl" "$room/one.pub"
for number in {1..3}; do echo "serial: $((1000 * number))" >"$room/more-$number"; done
# A user who may write the list, but make no file beside it.
as_owner=()
[ "$(id -u)" != 0 ] || as_owner=(setpriv --reuid=65534 --regid=65534 --clear-groups)
cp "$room/old.krl" "$room/closed/r.krl"
[ "$(id -u)" != 0 ] || chown 65534:65534 "$room/closed/r.krl"
chmod 555 "$room/closed"
in_place=("${as_owner[@]}" "$room/ssh-keygen" -k -u -f "$room/closed/r.krl" -s none)

# waits_for PID: until it has stopped, or ended.
waits_for() {
  local state
  while state=$(sed 's/.*) //' "/proc/$1/stat" 2>/dev/null) && [[ $state != [TZ]* ]]; do
    sleep 0.01
  done
}

# The effect of a list that is emptied before it is written, as other programs do.
: >"$room/revoked.krl"
does=$(enters one && echo 'lets in' || echo refuses)
echo "# sshd $does a revoked key where the list has no bytes"
rm "$room/revoked.krl"

# The program is stopped before each of its calls on files.
ln -sf "$room/closed/r.krl" "$room/revoked.krl"
wrong= stops=0
for ((number = 1; number < 60; number++)); do
  cat "$room/old.krl" >"$room/closed/r.krl"
  AT=$number SIGNAL=19 LD_PRELOAD=$room/calls.so "${in_place[@]}" "$room/more-1" &
  waits_for $!
  enters one && wrong+="  it lets in before call $number"$'\n'
  kill -CONT $! 2>/dev/null && stops=$((stops + 1))
  wait $! || wrong+="  the update ends with $?"$'\n'
  [ $stops = $number ] || break
done
judge "an update in place, stopped at each of $stops calls" \
  "$wrong$([ $stops -ge 15 ] || echo '  they are too few')"

# tries NUMBER: logs in with the revoked key again and again.
tries() {
  while [ -e "$room/going" ]; do
    timeout 20 ssh -F none -p "$port" -i "$room/one" -o IdentitiesOnly=yes -o IdentityAgent=none \
      -o BatchMode=yes -o StrictHostKeyChecking=no -o GSSAPIAuthentication=no \
      -o UserKnownHostsFile=/dev/null -o LogLevel=ERROR "$user@127.0.0.1" true \
      >>"$room/let-in-$1" 2>/dev/null </dev/null
    echo >>"$room/tried-$1"
  done
}

tried() {
  cat "$room"/tried-* 2>/dev/null | wc -l
}

# meanwhile NAME WORD..: a hundred updates of the list by the words, or more, beside twenty logins.
meanwhile() {
  local name=$1 number wrong=
  rm -f "$room"/let-in-* "$room"/tried-*
  touch "$room/going"
  for number in 1 2 3; do tries $number & done
  for ((number = 1; number <= 100 || (number < 1000 && $(tried) < 20); number++)); do
    "${@:2}" "$room/more-$((1 + number % 3))" 2>&1 || wrong+="  update $number ends with $?"$'\n'
    sleep 0.02
  done
  rm "$room/going"
  wait $(jobs -p | grep -vx "$server")
  judge "$name: $(tried) logins with a revoked key" "$(
    printf %s "$wrong"
    [ ! -s "$room/let-in-1" ] && [ ! -s "$room/let-in-2" ] && [ ! -s "$room/let-in-3" ] ||
      echo '  it is let in'
    [ "$(tried)" -ge 20 ] || echo '  they are too few'
  )"
}
cat "$room/old.krl" >"$room/closed/r.krl"
meanwhile 'a hundred updates in place' "${in_place[@]}"
rm "$room/revoked.krl"
cp "$room/old.krl" "$room/revoked.krl"
meanwhile 'a hundred updates by a new file' "$program" -k -u -f "$room/revoked.krl" -s none
chmod 755 "$room/closed"
