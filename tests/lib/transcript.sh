# Runs the examples of documents as they are written there.

# transcript NAME: standard input has lines that begin with '$ ', each followed by its output. One
# shell runs them in the current folder, where the programs are called ssh-keygen and krl. Times may
# differ.
transcript() {
  local wanted got
  wanted=$(timeless)
  mkdir -p "$scratch/bin" && ln -sfn "$program" "$scratch/bin/ssh-keygen" &&
    ln -sfn "$krl" "$scratch/bin/krl"
  got=$(PATH=$scratch/bin:$PATH follow <<<"$wanted" | timeless)
  judge "$1" "$([[ $wanted == '$ '* ]] || echo '  there is no command'
    asks 0 diff <(printf '%s\n' "$wanted") <(printf '%s\n' "$got"))"
}

timeless() {
  sed -e 's/^# Generated at .*/# Generated at TIME/' \
    -e '/^krl \(audit\|logins\): / s/, [-0-9T:]*Z)$/, TIME)/'
}

# Each command of the transcript, and below it what it prints now.
follow() {
  local line status=0
  while IFS= read -r line; do
    [[ $line == '$ '* ]] || continue
    printf '%s\n' "$line"
    # The first command sees the status of the one before it.
    eval "(exit $status)"$'\n'"${line:2}" 2>&1 </dev/null
    status=$?
  done
}
