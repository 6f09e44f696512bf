# What audits print: colours at a terminal, and JSON objects.

# The words for the verdicts are in colour on standard output. Standard error says how far the audit
# is, after its first second.

# at_terminal STREAMS WORD..: runs the program at a terminal, with nothing about colours in its
# environment but what the array setting has.
at_terminal() {
  rm -f "$scratch/terminal"
  env -u NO_COLOR TERM=xterm "${setting[@]}" python3 "$tests/lib/terminal.py" \
    "$scratch/terminal" "$1" "$program" "${@:2}" >"$scratch/output" 2>"$scratch/error"
  got_status=$?
}

# painted TEXT: the text, with the words for the verdicts in colour (ECMA-48, SELECT GRAPHIC
# RENDITION).
painted() {
  sed -e $'s/: revoked: /: \e[31mrevoked\e[0m: /' -e $'s/: ok: /: \e[32mok\e[0m: /' \
    -e $'s/: unread: /: \e[33munread\e[0m: /' <<<"$1"
}

# expect_terminal NAME STREAMS STATUS TERMINAL OTHER WORD..: what the terminal is sent, and the
# stream that is none.
expect_terminal() {
  at_terminal "$2" "${@:6}"
  judge "$1" "$(differs status "$3" $got_status
    differs 'the terminal' "$4" "$(cat "$scratch/terminal")"
    differs 'the other stream' "$5" "$(cat "$scratch/output" "$scratch/error")"
  )"
}

# read_lines FILE: the object of each line, in one form, by another reader: jq, or Python where jq
# is missing and cannot be installed. It fails where a line is no object.
read_lines() {
  if need jq jq; then
    iconv -f UTF-8 -t UTF-8 "$1" >/dev/null && jq -cSR 'fromjson | objects' "$1"
  else
    python3 - "$1" <<'PYTHON'
import json, sys
for line in open(sys.argv[1], encoding="utf-8").read().split("\n")[:-1]:
    print(json.dumps(dict(json.loads(line)), sort_keys=True))
PYTHON
  fi
}

# expect_objects NAME STATUS WANTED WORD..: each line of the audit is one object, and the objects
# are these.
expect_objects() {
  local name=$1 status=$2 wanted=$3 got
  shift 3
  "$program" audit --json "$@" >"$scratch/output" 2>"$scratch/error"
  got=$?
  printf '%s\n' "$wanted" >wanted
  judge "$name" "$(differs status "$status" $got
    differs 'the last byte' 0a "$(tail -c 1 "$scratch/output" | od -An -tx1 | tr -d ' ')"
    read_lines wanted >wanted.read || echo '  what is wanted cannot be read'
    read_lines "$scratch/output" >got.read || echo '  they cannot be read'
    differs 'the objects' "$(wc -l <"$scratch/output")" "$(wc -l <got.read)"
    asks 0 diff wanted.read got.read
  )"
}
