# Runs a program of this repository. If it is not built, or a source has changed since, it is proved
# and built first. The launchers ./ssh-keygen and ./krl read this.

# launch NAME CRATE WORD..: runs the program of this name, which that crate makes.
launch() {
  program=$top/built/$1
  if ! is_current; then
    python3 "$top/build.py" "$1" "$2" "$program" &
    # A signal that ends this script ends the build too.
    trap 'kill $! 2>/dev/null; wait; exit 255' HUP INT TERM
    wait $! || exit 255
    trap - HUP INT TERM
  fi
  exec "$program" "${@:3}"
}

is_current() {
  [ -x "$program" ] && [ -z "$(newer_source)" ]
}

newer_source() {
  cd "$top" && find crates.txt crates \
    \( -path '*/out' -o -path '*_tests' -o -path '*/test_fixtures' \) -prune -o -newer "$program" \
    \( -name crates.txt -o -path '*/src*' -o -path '*/specs*' -o -path '*/proofs*' \) -print -quit
}
