# The manual pages: well formed, with the forms of use that --help prints, and examples that were
# run.

page=$top/docs/ssh-keygen.1

need mandoc mandoc || judge 'mandoc is there' '  install it, on Debian by apt-get install mandoc'
# The test does not depend on other installed pages.
judge 'mandoc finds nothing in the manual pages' \
  "$(mandoc -T lint "$page" "$top/docs/krl.1" 2>&1 |
    grep -v -e 'referenced manual not found' -e 'outdated mandoc.db')"

# rendered SECTION: the text of a section of the page, without its indentation.
rendered() {
  mandoc -T ascii -O width=200 "$page" | sed 's/.\x08//g' |
    awk -v section="$1" '/^[A-Z]/ { on = $0 == section; next } on && NF { sub(/^ +/, ""); print }'
}
forms=$("$program" --help |
  awk '/^Usage:/ { on = 1; sub(/^Usage:/, "") } on && !NF { exit } on { sub(/^ +/, ""); print }' |
  sed "s/^${program##*/} /ssh-keygen /")
judge 'the synopsis is what --help says' "$(differs 'forms of use' "$forms" "$(rendered SYNOPSIS)")"
judge 'the manual page of krl and the README have the options of its help' \
  "$(asks 0 python3 -B "$tests/lib/pages/forms.py" "$krl" "$top/docs/krl.1" "$top/README.md")"

# Its recipes are followed by readme.sh.
cp -r "$top/demo" demo && cd demo || exit 1
transcript 'the examples of the manual page' \
  < <(manual_blocks | awk 'BEGIN { RS = "\f\n"; ORS = "" } /^\$/')
# So are those of krl that have a text or a log of this folder.
for it in audit logins; do
  rm -f register.krl
  transcript "the example of krl $it with a text" < <(manual_blocks krl.1 |
    awk -v task=$it 'BEGIN { RS = "\f\n"; ORS = "" } /^\$/ && $0 ~ "[$] krl " task " .* -t "')
done
cd ..
