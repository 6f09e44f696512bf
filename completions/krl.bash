# What bash offers for the words of krl, as its manual page has them.

_krl() {
  local offered word=${COMP_WORDS[COMP_CWORD]} before=${COMP_WORDS[COMP_CWORD - 1]}
  COMPREPLY=()
  if [ "$COMP_CWORD" = 1 ]; then
    offered=$(compgen -W 'audit logins check show make diff help --help --version' -- "$word")
  elif [ "${COMP_WORDS[1]}" = help ]; then
    offered=$(compgen -W 'audit logins check show make diff' -- "$word")
  elif [ "$before" = --max-age ]; then
    offered=$(compgen -W '90m 24h 7d' -- "$word")
  elif [[ $word != -* || $before == -*([!-])[ft] ||
    $before == --@(files0-from|sshd|passwd|command-output) ||
    $before == --@(newer-than|superset-of|keep|canary|names) ]]; then
    offered=$(compgen -f -- "$word")
    compopt -o filenames 2>/dev/null
  elif [ "${COMP_WORDS[1]}" = logins ]; then
    offered=$(compgen -W '-a -f -q -t --json --help --version' -- "$word")
  elif [ "${COMP_WORDS[1]}" = check ]; then
    offered=$(compgen -W '--newer-than --superset-of --max-age --max-cas --sshd --keep
      --canary --allow-empty --json --names --print-version --help --version' -- "$word")
  elif [ "${COMP_WORDS[1]}" = show ]; then
    offered=$(compgen -W '--json --no-name --names --help --version' -- "$word")
  elif [ "${COMP_WORDS[1]}" = diff ]; then
    offered=$(compgen -W '--json --names --help --version' -- "$word")
  elif [ "${COMP_WORDS[1]}" = make ]; then
    offered=$(compgen -W '-f -n -q -u -z --comment --replace --allow-empty --help
      --version' -- "$word")
  else
    offered=$(compgen -W '-a -f -q -t -x --all --scan --canary --exclude --json --label
      --files0-from --sshd --passwd --command-output --help --version' -- "$word")
  fi
  [ -z "$offered" ] || mapfile -t COMPREPLY <<<"$offered"
  return 0
}

complete -F _krl krl
