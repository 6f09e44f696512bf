# OpenSSH's own test of revocation lists, as Debian's package of its tests has it: with the program
# where lists are made or asked and where keys are listed, and with OpenSSH's for all else, which is
# the making and signing of keys.

suite=/usr/lib/openssh/regress
if ! need $suite/run-tests openssh-tests; then
  judge "OpenSSH's tests are there" '  install them, on Debian by apt-get install openssh-tests'
  return
fi
room=$scratch/openssh_krl
mkdir -p "$room"

# Before each test of the suite its server looks at its configuration, for which it wants to be
# installed as a service. This test runs no server.
server=/bin/true
CALLS=$scratch/calls PROGRAM=$binary OPENSSH=$openssh TEST_SSH_SSHKEYGEN=$tests/lib/handing_on \
  BUILDDIR=$suite TEST_SHELL=sh TEST_SSH_SSHD=$server TEST_SSH_UNSAFE_PERMISSIONS=1 \
  sh $suite/test-exec.sh "$room" $suite/krl.sh >"$scratch/output" 2>"$scratch/error"
status=$?
judge "OpenSSH's own test of lists passes" "$(
  differs 'exit status' 0 $status
  differs 'its last line' 'ok key revocation lists' "$(tail -n 1 "$scratch/output")"
  [ $status = 0 ] || cat "$scratch/output" "$scratch/error"
)"

# ended LETTERS STATUS: how many calls of the program with these options ended so.
ended() {
  grep -cx "$1 $2" "$scratch/calls"
}

# calls NAME LETTERS STATUS..: the test called the program with these options; some calls ended with
# each of these statuses, and none with another.
calls() {
  local name=$1 letters=$2 status all=0
  shift 2
  judge "that test $name" "$(
    for status; do
      [ "$(ended "$letters" "$status")" != 0 ] || printf '  no call ended with %s\n' "$status"
      all=$((all + $(ended "$letters" "$status")))
    done
    differs 'calls that ended so' "$(ended "$letters" '.*')" $all
  )"
}
calls 'lists keys' l 0
calls 'makes lists, of which some are refused' k 0 255
calls 'updates lists, and some updates are refused' ku 0 255
calls 'asks about keys, of which some are revoked, without a fault' Q 0 1
