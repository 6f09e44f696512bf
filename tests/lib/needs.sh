# Other programs that the tests run.

# need COMMAND PACKAGE: whether the command is there, or a file by its whole name; root installs the
# package of it where it is not, without starting what it offers, one package at a time.
need() {
  is_there "$1" && return
  if [ "$(id -u)" = 0 ]; then
    {
      flock 9
      is_there "$1" ||
        { apt-get update && RUNLEVEL=1 DEBIAN_FRONTEND=noninteractive apt-get install -y "$2"; } >&2
    } 9>"${TMPDIR:-/tmp}/ssh-keygen-needs.lock"
  fi
  is_there "$1"
}

is_there() {
  command -v "$1" >/dev/null || [ -x "/usr/sbin/$1" ] || [ -f "$1" ]
}
