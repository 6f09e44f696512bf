# Standard streams that are closed: no file that the program opens is taken for one of them.

line ssh-ed25519 "$G" >g.pub
line ssh-ed25519 "$A" >a
bytes "$H" "$(section "$G")" >old.krl
cp a spec

# closed NAME STATUS OUTPUT ERROR STREAMS WORD..: the run with those of the three streams closed
# that are named by their numbers. The list r.krl is as in old.krl before.
closed() {
  local name=$1 status=$2 output=$3 error=$4 streams=$5 got
  shift 5
  cp old.krl r.krl
  (
    exec >"$scratch/output" 2>"$scratch/error" <spec
    [[ $streams != *0* ]] || exec <&-
    [[ $streams != *1* ]] || exec >&-
    [[ $streams != *2* ]] || exec 2>&-
    exec "$program" "$@"
  )
  got=$?
  judge "$name" "$(
    differs 'exit status' "$status" $got
    differs 'standard output' "$output" "$(cat "$scratch/output")"
    differs 'standard error' "$error" "$(cat "$scratch/error")"
  )"
}

# stays NAME, grows NAME: the list is as before the last run, or names the key of the file a too.
stays() {
  judge "the list after $1" "$(cmp old.krl r.krl 2>&1)"
}
grows() {
  expect "the list after $1" 1 $'g.pub: REVOKED\na: REVOKED\n' '' -Q -f r.krl g.pub a
}

read='ssh-keygen: -: file 2 Read'
closed 'an update by a closed input' 255 '' "$read" 0 -k -u -f r.krl -
stays 'an update by a closed input'
closed 'a listing of a closed input' 255 '' "$read" 0 -l -f -
closed 'an update with a closed input, by a file' 0 '' '' 0 -k -u -f r.krl spec
grows 'one with a closed input'
closed 'a query with a closed input' 1 'g.pub: REVOKED' '' 0 -Q -f r.krl g.pub

fault='ssh-keygen: output: output 1 Write after 0 bytes'
closed 'a query with a closed output' 255 '' "$fault" 1 -Q -f r.krl g.pub
closed 'a listing with a closed output' 255 '' "$fault" 1 -l -f g.pub
closed 'an update with a closed output' 0 '' '' 1 -k -u -f r.krl -
grows 'one with a closed output'

closed 'a query with a closed error output' 1 'g.pub: REVOKED' '' 2 -Q -f r.krl g.pub
closed 'a fault with a closed error output' 255 'g.pub: REVOKED' '' 2 -Q -f r.krl g.pub none
closed 'an update with a closed error output' 0 '' '' 2 -k -u -f r.krl -
grows 'one with a closed error output'
closed 'a refused update with a closed error output' 255 '' '' 2 -k -u -f r.krl none
stays 'a refused one'

closed 'an update with all three closed' 0 '' '' 012 -k -u -f r.krl spec
grows 'one with all three closed'
closed 'an update by a closed input, with all three closed' 255 '' '' 012 -k -u -f r.krl -
stays 'one with all three closed'
# The number of a closed stream is that of the file that is opened first.
closed 'a list named by a closed output' 255 '' 'ssh-keygen: /dev/stdout: file 1 Open' 1 \
  -k -f /dev/stdout spec
closed 'a list named by a closed input' 255 '' 'ssh-keygen: /dev/stdin: krl 13 Read' 0 \
  -Q -f /dev/stdin g.pub
