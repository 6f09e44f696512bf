# What bash offers for the words of ssh-keygen, as its manual page has them.

# The options of the words before the current one: their letters in seen, and in open the letter of
# the option whose value comes next, if one does.
_krl_keygen_seen() {
  local word
  seen= open=
  for word in "${COMP_WORDS[@]:1:COMP_CWORD-1}"; do
    if [ -n "$open" ]; then
      open=
    elif [ "$word" = -- ]; then
      seen+=-
    elif [[ $word == -[!-]* && $seen != *-* ]]; then
      _krl_keygen_letters "${word#-}"
    fi
  done
}

# The letters of one word, up to the first that takes a value.
_krl_keygen_letters() {
  local rest=$1
  while [ -n "$rest" ]; do
    seen+=${rest:0:1}
    if [[ $rest == [fEsz]* ]]; then
      [ ${#rest} -gt 1 ] || open=$rest
      return
    fi
    rest=${rest:1}
  done
}

# The letters that go together with those that were seen.
_krl_keygen_fitting() {
  case $seen in
    *k*) echo f u s z ;;
    *Q*) echo f l ;;
    *L*) echo f E ;;
    *l*E* | *E*l*) echo f ;;
    *l*) echo f E Q ;;
    *E*) echo f l L ;;
    *[usz]*) echo f k u s z ;;
    *f*) echo l L k Q E u s z ;;
    *) echo l L k Q E f u s z h ;;
  esac
}

_krl_keygen_options() {
  local letter
  for letter in $(_krl_keygen_fitting); do
    [[ $seen == *$letter* ]] || printf '%s\n' -$letter
  done
  [ -n "$seen" ] || echo --version
}

_krl_keygen() {
  local seen open offered word=${COMP_WORDS[COMP_CWORD]}
  _krl_keygen_seen
  COMPREPLY=()
  case $open in
    E) offered=$(compgen -W 'md5 sha256' -- "$word") ;;
    s) offered=$(compgen -W none -- "$word" && compgen -f -- "$word" || compgen -f -- "$word") ;;
    z) offered= ;;
    f) offered=$(compgen -f -- "$word") ;;
    *)
      if [[ $word == -* && $seen != *-* ]]; then
        offered=$(compgen -W "$(_krl_keygen_options)" -- "$word")
      elif [[ $seen == *[kQ]* ]]; then
        offered=$(compgen -f -- "$word")
      fi
      ;;
  esac
  [ -z "$offered" ] || mapfile -t COMPREPLY <<<"$offered"
  [[ $open == [sf] || $word != -* ]] && compopt -o filenames 2>/dev/null
  return 0
}

complete -F _krl_keygen ssh-keygen
