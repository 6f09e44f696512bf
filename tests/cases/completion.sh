# The completions that bash, zsh and fish get for the command-line arguments.

mkdir words && cd words || exit 1
touch one.pub two.krl 'a b.pub'

# offers NAME WANTED WORD..: for the last of the words bash is offered just the wanted ones.
offers() {
  local name=$1 wanted=$2 got
  shift 2
  got=$(bash --norc -c '. "$0" && COMP_WORDS=("$@") COMP_CWORD=$(($# - 1)) &&
    _krl_keygen && printf "%s\n" "${COMPREPLY[@]}"' \
    "$top/completions/ssh-keygen.bash" ssh-keygen "$@" 2>&1 | sort | paste -sd ,)
  judge "bash is offered $name" "$(differs words "$wanted" "$got")"
}
every=$(printf '%s\n' 'a b.pub' one.pub two.krl | sort | paste -sd ,)
offers 'all options to begin with' --version,-E,-L,-Q,-f,-h,-k,-l,-s,-u,-z -
offers 'no file before the mode is known' '' ''
offers 'the version that was begun' --version --v
offers 'the options of a listing' -E,-Q,-f -l -
offers 'no mode that does not fit a hash' -L,-f,-l -E md5 -
offers 'the options of certificates' -E,-f -L -
offers 'no option twice' -f -L -E md5 -
offers 'the options of a list to make' -f,-s,-u,-z -k -
offers 'what is left of them' -s,-z -kuf two.krl -
offers 'the options of a question' -f,-l -Q -
offers 'what is left of those' '' -Qlf two.krl -
offers 'how a list is made, where an authority is given' -f,-k,-u,-z -s none -
offers 'the modes after a file' -E,-L,-Q,-k,-l,-s,-u,-z -f one.pub -
offers 'hashes' md5,sha256 -l -E ''
offers 'the hash that was begun' sha256 -l -E s
offers 'files where the file stands' "$every" -l -f ''
offers 'the file that was begun' one.pub -Qf o
offers 'a file with a blank' 'a b.pub' -Q -f a
offers 'no number' '' -k -z ''
offers 'authorities' "$(printf '%s\n' none 'a b.pub' one.pub two.krl | sort | paste -sd ,)" -k -s ''
offers 'the authority that was begun' none -k -s n
offers 'another authority' one.pub -k -s o
offers 'files to ask about' "$every" -Q -f two.krl ''
offers 'files to make a list of' "$every" -k -f two.krl one.pub ''
offers 'no file after a listing' '' -l -f one.pub ''
offers 'no option after two hyphens' '' -Q -f two.krl -- -
got=$(bash --norc -c '. "$0" && complete -p ssh-keygen' "$top/completions/ssh-keygen.bash")
judge 'bash asks for the words of the program' \
  "$(differs 'what is said of it' 'complete -F _krl_keygen ssh-keygen' "$got")"
cd ..

# offers_krl NAME WANTED WORD..: the same for the words of krl.
offers_krl() {
  local name=$1 wanted=$2 got
  shift 2
  got=$(bash --norc -c '. "$0" && COMP_WORDS=("$@") COMP_CWORD=$(($# - 1)) && _krl &&
    printf "%s\n" "${COMPREPLY[@]}"' \
    "$top/completions/krl.bash" krl "$@" 2>&1 | sort | paste -sd ,)
  judge "bash is offered $name" "$(differs words "$wanted" "$got")"
}
cd words || exit 1
offers_krl 'the tasks of krl' --help,--version,audit,check,diff,help,logins,make,show ''
offers_krl 'the tasks that have help' audit,check,diff,logins,make,show help ''
offers_krl 'the task that was begun' audit a
offers_krl 'the options of an audit' \
  "--all,--canary,--command-output,--exclude,--files0-from,--help,--json,--label,--passwd,--scan,\
--sshd,--version,-a,-f,-q,-t,-x" audit -
offers_krl 'an output of sshd -T' one.pub audit --sshd o
offers_krl 'a file of users' one.pub audit --sshd two.krl --passwd o
offers_krl 'an output of a command' one.pub audit --sshd two.krl --command-output o
offers_krl 'a file of canaries' one.pub audit -f two.krl --canary o
offers_krl 'files to scan' one.pub audit --scan -f two.krl o
offers_krl 'a list' two.krl audit -f t
offers_krl 'files to audit' "$every" audit -f two.krl ''
offers_krl 'a file of names' one.pub audit -f two.krl --files0-from o
offers_krl 'the options of a search for logins' --help,--json,--version,-a,-f,-q,-t logins -
offers_krl 'a text to search by' one.pub logins -t o
offers_krl 'logs' "$every" logins -f two.krl ''
offers_krl 'the options of a check' "--allow-empty,--canary,--help,--json,--keep,--max-age,--max-cas,\
--names,--newer-than,--print-version,--sshd,--superset-of,--version" check -
offers_krl 'an output of the sshd of a list' one.pub check two.krl --sshd o
offers_krl 'durations' 24h,7d,90m check --max-age ''
offers_krl 'the duration that was begun' 24h check --max-age 2
offers_krl 'a file to be kept' one.pub check --keep o
offers_krl 'a list to check' two.krl check --keep one.pub t
offers_krl 'a text with the names of what is lost' one.pub check --superset-of two.krl --names o
offers_krl 'the options of a shown list' --help,--json,--names,--no-name,--version show -
offers_krl 'a list to show' two.krl show t
offers_krl 'a text with names' one.pub show two.krl --names o
offers_krl 'a list to show behind a text with names' two.krl show --names one.pub t
offers_krl 'the options of two lists' --help,--json,--names,--version diff -
offers_krl 'another text with names' one.pub diff --names one.pub --names o
offers_krl 'the options of a list that is made' \
  --allow-empty,--comment,--help,--replace,--version,-f,-n,-q,-u,-z make -
offers_krl 'texts to make a list of' "$every" make -f two.krl ''
cd ..

# beside_help SHELL FILE PROGRAM NAME [TASK]: the shell is offered the options of the help, with its
# words.
beside_help() {
  judge "$1 is offered the options of ${*:4}, with the words of its help" \
    "$(asks 0 python3 -B "$tests/lib/completions.py" "$1" "$top/completions/$2" "${@:3}")"
}
for shell in zsh fish; do
  if ! need $shell $shell; then
    echo "# the completions of $shell are skipped: it is missing, and could not be installed"
    continue
  fi
  [ $shell = zsh ] && files=(_krl _ssh-keygen) || files=(krl.fish ssh-keygen.fish)
  for task in audit logins check show make diff; do
    beside_help $shell "${files[0]}" "$krl" krl $task
  done
  beside_help $shell "${files[1]}" "$program" ssh-keygen
done
# The options that bash is offered are those of the help too.
cd words || exit 1
for task in audit logins check show make diff; do
  offers_krl "the options of the help of krl $task" "$("$krl" $task --help |
    sed -n 's/^  \( *\)\(-[A-Za-z], \)\{0,1\}\(--\{0,1\}[A-Za-z0-9-]*\).*/\3/p' | sort | paste -sd ,)" \
    $task -
done
cd ..
