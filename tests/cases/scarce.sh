# Memory that runs out while many files are opened: none of them is skipped.

line ssh-ed25519 "$G" >g
bytes "$H" "$(section "$G")" >r.krl
count=22000
line ssh-ed25519 "$A" >last
mapfile -t files < <(yes g | head -n $count && echo last)
{ yes 'g: REVOKED' | head -n $count && echo 'last: ok'; } >answers
: >nothing
"$binary" -k -f whole.krl g last

# within KIB WORD..: runs the program with so much memory.
within() {
  prlimit --data=$(($1 * 1024)) "$binary" "${@:2}" >said 2>"$scratch/error"
}
# The least memory, in steps, that the program needs for no file.
least=1024
until within $least -Q -f r.krl; do least=$((least + 256)); done

# ended STATUS WHOLE LIST: what is wrong with a run that says WHOLE and makes the list, or is
# refused.
ended() {
  case $(cat "$scratch/error") in
    '')
      differs 'exit status' "$1" $status
      cmp "$2" said 2>&1
      [ ! -e "$3" ] || differs 'the list' "$(digits "$3")" "$(digits made.krl)"
      ;;
    'ssh-keygen: g: run 1 NoMemory' | 'ssh-keygen: usage 3 NoMemory')
      differs 'exit status' 255 $status
      cmp nothing said 2>&1
      [ ! -e made.krl ] || echo '  a list is made'
      ;;
    *) printf '  another fault: %s\n' "$(cat "$scratch/error")" ;;
  esac
}

# scarce NAME STATUS WHOLE LIST WORD..: with less and less memory, from ample on.
scarce() {
  local name=$1 kib stopped=0 answered=0 wrong=
  for ((kib = least + 12288; kib >= least; kib -= 512)); do
    rm -f made.krl
    within $kib "${@:5}" "${files[@]}"
    status=$?
    wrong+=$(ended "${@:2:3}")
    [ ! -s "$scratch/error" ] && answered=$((answered + 1))
    grep -q 'g: run 1' "$scratch/error" && stopped=$((stopped + 1))
  done
  judge "$name" "$wrong"
  judge "$name: $answered are whole and $stopped stop at a file" \
    "$([ $answered -gt 0 ] && [ $stopped -gt 0 ] || echo '  there are none')"
}
scarce 'questions about many files' 1 answers none -Q -f r.krl
scarce 'a list of many files' 0 nothing whole.krl -k -f made.krl
