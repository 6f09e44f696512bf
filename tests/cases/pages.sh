# The pages of the crates: each library and each program has one, and the map links to it. A crate
# of tests proves and runs the caller that a library's page shows, in the same words. The program
# prints the output that its page shows. The crates have the names that THEOREMS.md and its pages
# cite, and each lemma is cited. The map shows each crate above those that it uses, and crates.txt
# lists no crate that is not used. The page of the tests has a line for each part.

# shown LANGUAGE PAGE: what the page shows in it.
shown() {
  awk -v begin="\`\`\`$1" '$0 == begin { on = 1; next } /^```/ { on = 0 } on' "$2"
}

# stands CODE: whether the module page of a crate of tests has the code.
stands() {
  local module
  for module in "$top"/crates/*_tests/src/tests/page.rt; do
    [[ $(<"$module") == *"$1"* ]] && grep -qx 'mod page;' "${module%/*}.rt" && return
  done
  return 1
}
for crate in $(sed -n 's/^\([a-z0-9_]*\)\( staticlib\)\{0,1\}:.*/\1/p' "$top/crates.txt" |
  grep -vxE '.*_tests|test_fixtures'); do
  page=$top/crates/$crate/README.md
  judge "the page of $crate" "$(
    [ -e "$page" ] || echo '  there is none'
    grep -qF "(../crates/$crate/README.md)" "$top/docs/ARCHITECTURE.md" ||
      echo '  the map does not lead to it'
  )"
  # The program's use is shown below; what C calls is tried by tests/cases/library.
  [[ $crate == krl_keygen || $crate == krl || $crate == krl_c ]] && continue
  caller=$(shown rust "$page")
  judge "the caller on the page of $crate" \
    "$([ -n "$caller" ] && stands "$caller" || echo '  no module page has it')"
done
cp -r "$top/demo" demo && cd demo || exit 1
for it in krl_keygen:. krl:audit; do
  use=$(shown console "$top/crates/${it%:*}/README.md")
  judge "the page of ${it%:*} shows a use" "$([ -n "$use" ] || echo '  it shows none')"
  cd "${it#*:}" && transcript "what the page of ${it%:*} shows" <<<"$use"
done
cd ../..

judge 'each link of a page leads to a file and a heading' \
  "$(asks 0 python3 -B "$tests/lib/pages/links.py" "$top")"
judge 'the crates have the names that THEOREMS.md and its pages cite' \
  "$(asks 0 python3 -B "$tests/lib/pages/cited.py" "$top")"
judge 'the files and names that the pages of the crates speak of are there' \
  "$(asks 0 python3 -B "$tests/lib/pages/modules.py" "$top")"
judge 'each lemma is cited' "$(asks 0 python3 -B "$tests/lib/pages/uncited.py" "$top")"
judge 'each crate uses those that crates.txt lists for it' \
  "$(asks 0 python3 -B "$tests/lib/pages/unused.py" "$top")"
sed 's/^krl_job:.*/& serial_set/' "$top/crates.txt" >more.txt
judge 'a crate that is listed for nothing is found' "$(differs 'the crate' '  krl_job: serial_set' \
  "$(asks 0 python3 -B "$tests/lib/pages/unused.py" "$top" more.txt)")"
judge 'the page of the tests has a line for each part' \
  "$(asks 1 diff <(sed -n 's/^| `\([a-z0-9_]*\)` .*/\1/p' "$tests/README.md" | sort) \
    <(printf '%s\n' "${!parts[@]}" | sort))"
