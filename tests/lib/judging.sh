# The shared code of the parts of tests/: runs the program and compares the results.

passed=0
failed=0

# expect NAME STATUS OUTPUT ERROR WORD..: runs the program with the words and compares its status
# and both of its outputs, to the last byte.
expect() {
  local name=$1 status=$2 output=$3 error=$4
  shift 4
  run "$@"
  judge "$name" "$(
    differs 'exit status' "$status" "$got_status"
    differs 'standard output' "$output" "$got_output"
    differs 'standard error' "$error" "$got_error"
  )"
}

# expect_text NAME STATUS STREAM WORD..: as expect, where the text is the command line library's
# own: it is printed on the named stream (output or error), and nothing on the other.
expect_text() {
  local name=$1 status=$2 stream=$3 said other
  shift 3
  run "$@"
  said=$got_error other=$got_output
  [ "$stream" = error ] || { said=$got_output other=$got_error; }
  judge "$name" "$(
    differs 'exit status' "$status" "$got_status"
    [ -n "$said" ] || printf '  nothing on standard %s\n' "$stream"
    differs 'the other stream' '' "$other"
  )"
}

# Runs the program with the words; its standard input is the caller's.
run() {
  "$program" "$@" >"$scratch/output" 2>"$scratch/error"
  got_status=$?
  # The dot keeps the line ends that stand last.
  got_output=$(tr '\0' '@' <"$scratch/output" && printf .)
  got_output=${got_output%.}
  got_error=$(tr '\0' '@' <"$scratch/error" && printf .)
  got_error=${got_error%.}
}

differs() {
  [ "$2" = "$3" ] || printf '  %s: wanted %q, got %q\n' "$1" "$2" "$3"
}

# judge NAME DIFFERENCES: a test passes where nothing differs.
judge() {
  if [ -z "$2" ]; then
    passed=$((passed + 1))
    printf 'ok %s\n' "$1"
  else
    failed=$((failed + 1))
    printf 'not ok %s\n%s\n' "$1" "$2"
  fi
}

# asks MOST COMMAND..: what a command says that judges, and one line more where its status is above
# MOST. So a judge that failed is not taken for one that found nothing.
asks() {
  local most=$1 status
  shift
  "$@" 2>&1
  status=$?
  [ $status -le "$most" ] || printf '  %s ended with status %d\n' "$1" $status
}

# digits FILE: the bytes of a list in hexadecimal, with zeros instead of its time.
digits() {
  local all
  all=$(od -An -v -tx1 "$1" | tr -d ' \n')
  printf '%s%016d%s' "${all:0:40}" 0 "${all:56}"
}

# same NAME: both programs say the same of the list made.krl, asked about the files that the array
# asked names.
same() {
  local output status
  output=$("$openssh" -Q -f made.krl "${asked[@]}")
  status=$?
  expect "$1" $status "$output"$'\n' '' -Q -f made.krl "${asked[@]}"
}

# same_of NAME KEY..: the same of the list that OpenSSH makes of these keys.
same_of() {
  local name=$1
  shift
  "$openssh" -q -k -f made.krl "$@" >"$scratch/error" 2>&1 || cat "$scratch/error"
  same "$name"
}

# report FILE: prints what other tests said in the file, and adds up what its last line counts.
report() {
  local last
  last=$(tail -n 1 "$1")
  if [[ $last =~ ^([0-9]+)\ passed,\ ([0-9]+)\ failed$ ]]; then
    sed '$d' "$1"
    passed=$((passed + BASH_REMATCH[1]))
    failed=$((failed + BASH_REMATCH[2]))
  else
    judge 'tests end with how many passed' "$(cat "$1")"
  fi
}
