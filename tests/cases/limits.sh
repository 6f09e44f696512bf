# Limits that the shell sets for each job: little address space, and a small stack.

line ssh-ed25519 "$G" >g.pub
for _ in {1..3000}; do cat g.pub; done >many
type=ssh-ed25519-cert-v01@openssh.com
line $type "$(certificate "$G" "$A" 0000000000000007 a)" >cert
for _ in {1..500}; do cat cert; done >certs
{ seq -f 'serial: %.0f' 1 3 60000 && seq -f 'id: the name %.0f' 10000 && cat g.pub; } >spec
"$program" -k -f old.krl -s none -z 7 spec
seq -f 'id: more %.0f' 5000 >more
jobs=('-l -f many' '-L -f certs' '-k -f made.krl -s none -z 3 spec' '-k -u -f made.krl -s none more'
  '-Q -f old.krl many' '-Q -l -f old.krl many' -h -Z)

# limited SORT NUMBER WORD..: a run under this limit; its output is in the files said and error.
limited() {
  cp old.krl made.krl
  (
    ulimit "$1" "$2" && exec "$binary" "${@:3}" >said 2>error
  ) 2>/dev/null
}
# same_answer: what is wrong where the last run does not answer as the first one.
same_answer() {
  differs 'exit status' $whole $status
  cmp whole said 2>&1
  cmp whole-error error 2>&1
  differs 'the list' "$list" "$(digits made.krl)"
}
all_refused=0
for job in "${jobs[@]}"; do
  limited -c 0 $job
  whole=$?
  mv said whole && mv error whole-error
  list=$(digits made.krl)
  limited -s 256 $job
  status=$?
  judge "a stack of 256 KiB: $job" "$(same_answer)"
  answered=0 refused=0 stopped=0 wrong=
  for ((kib = 2048; kib <= 24576; kib += kib / 24)); do
    limited -v $kib $job
    status=$?
    if [ $status = 127 ]; then
      # The system's own loader has too little.
      continue
    elif grep -qE '^ssh-keygen: ([^ ]+: (file 4|run 1)|usage 3) NoMemory$' error; then
      refused=$((refused + 1))
      wrong+=$(
        differs 'exit status' 255 $status
        differs 'the list' "$(digits old.krl)" "$(digits made.krl)"
      )
    elif [ $status = 139 ] && [ $answered = 0 ]; then
      # Within a few KiB of the limit the heap takes the rest, the stack has no room, and the system
      # ends the run.
      stopped=$((stopped + 1))
      wrong+=$(differs 'the list' "$(digits old.krl)" "$(digits made.krl)")
    else
      answered=$((answered + 1))
      wrong+=$(same_answer)
    fi
  done
  [ $stopped -le 1 ] || wrong+="  the system ends runs at $stopped limits"
  judge "address space: $job: $answered are whole, $refused without memory" \
    "$wrong$([ $answered -gt 0 ] || echo '  none are whole')"
  all_refused=$((all_refused + refused))
done
judge "$all_refused runs find no memory" "$([ $all_refused -gt 0 ] || echo '  there are none')"
