# The recipes of the documents: commands that are shown without what they print.

# manual_blocks [PAGE]: the literal displays of the manual page of ssh-keygen, or of another, each
# after a line of its own with a form feed.
manual_blocks() {
  sed 's/\\e/\\/g' "$top/docs/${1:-ssh-keygen.1}" |
    awk '/^\.Bd -literal/ { on = 1; printf "\f\n"; next } /^\.Ed/ { on = 0 } on'
}

# page_blocks PAGE: the indented displays of a page in Markdown, the same way.
page_blocks() {
  awk '/^```/ { fenced = !fenced } fenced { next }
    /^    / { if (!on) printf "\f\n"; on = 1; print substr($0, 5); next } { on = 0 }' "$1"
}

# recipes_of: standard input has such displays; those that are recipes. Forms of use and transcripts
# are none.
recipes_of() {
  awk 'BEGIN { RS = "\f\n" } NF && !/^(\$|make |apt |krl-keygen [^\n]*[[])/ { printf "\f\n%s", $0 }'
}

# recipes_in PAGE: those of a page of the repository.
recipes_in() {
  page_blocks "$top/$1" | recipes_of
}

# recipes: those of the README, the runbook and RECIPES.md.
recipes() {
  recipes_in README.md && recipes_in docs/RUNBOOK.md && recipes_in docs/RECIPES.md
}

# manual_recipes: those of the manual page, with the name of the program as it is installed.
manual_recipes() {
  manual_blocks | sed 's/ssh-keygen -/krl-keygen -/g' | recipes_of
}

# recipe BEGINNING: the recipe whose first step begins so, but for steps that make a file or a
# folder of the recipe's own, or take the version of a list.
recipe() {
  recipes | beginning=$1 awk 'BEGIN { RS = "\f\n" }
    {
      steps = $0
      if (sub(/^\(\n  set -e\n/, "", steps)) {
        while (steps ~ /^  (mkdir|trap|text=|version=)/) sub(/^[^\n]*\n/, "", steps)
        sub(/^  /, "", steps)
      }
    }
    index(steps, ENVIRON["beginning"]) == 1 { printf "%s", $0 }'
}

# begin_recipes: makes the folder tools, which has the programs that recipes call. The folder $room
# is their /etc/ssh.
begin_recipes() {
  mkdir -p tools "$room"/{sshd_config.d,ssh_config.d,units}
  ln -s "$program" tools/krl-keygen
  ln -s "$krl" tools/krl
  followed=0
}

# in_room TEXT: the text, with folders of the test's own for those of the system.
in_room() {
  local words=(-e "s|/etc/ssh/ssh_host_ed25519_key|$room/host|g; s|/etc/ssh|$room|g")
  words+=(-e "s|/usr/local|$room/local|g")
  words+=(-e "s|/etc/systemd/system|$room/units|g; s|/home|$PWD/home|g; s|/var/log|$PWD/log|g")
  words+=(-e "s|~root/|$PWD/of_root/|g; s|/root |$PWD/of_root |g; s|find / |find $PWD/whole |")
  sed "${words[@]}" <<<"$1"
}

# next_second BEGINNING: waits for the next second if the recipe that begins so has a version by the
# clock, which must be above that of the list that it replaces. Else a recipe could be refused for a
# list that the test has made in the same second, also one that must be refused for another reason.
next_second() {
  local now
  [[ $(recipe "$1") == *'date +%s'* ]] || return 0
  now=$(date +%s)
  until [ "$(date +%s)" -gt "$now" ]; do sleep 0.05; done
}

# try_recipe BEGINNING: runs the recipe that begins so, for three minutes at most.
try_recipe() {
  next_second "$1"
  PATH=$PWD/tools:$PATH timeout 180 bash -c "$(in_room "$(recipe "$1")")" 2>&1
}

# ends_script BEGINNING: whether a script with set -e ends at the recipe that begins so.
ends_script() {
  rm -f went-on
  next_second "$1"
  PATH=$PWD/tools:$PATH timeout 180 bash -e -c "$(in_room "$(recipe "$1")")
: >went-on" >/dev/null 2>&1
  [ ! -e went-on ]
}

# follows NAME BEGINNING STATUS OUTPUT [again]: the recipe ends with the status and prints this, and
# where it fails, a script with set -e ends there. Where OUTPUT is a star, it may print anything.
# The first time counts.
follows() {
  local got wanted
  wanted=$4${4:+$'\n'}status\ $3
  got=$(try_recipe "$2"; echo "status $?")
  [ "$4" != '*' ] || wanted="status $3" got=${got##*$'\n'}
  judge "$1" "$(
    [ -n "$(recipe "$2")" ] || echo '  there is no such recipe'
    differs 'what it prints' "$wanted" "$got"
    [ "$3" = 0 ] || ends_script "$2" || echo '  a script with set -e goes on'
  )"
  [ "${5:-}" = again ] || followed=$((followed + 1))
}

# is_refused BEGINNING: what is wrong where the recipe that begins so does not fail, typed or in a
# script with set -e.
is_refused() {
  ! try_recipe "$1" >/dev/null || echo '  it ends well'
  ends_script "$1" || echo '  a script with set -e goes on'
}

# on_full_disk NAME BEGINNING: the recipe fails where no file can have more than 1 KiB.
on_full_disk() {
  judge "$1" "$(trap '' XFSZ && ulimit -f 1 && is_refused "$2")"
}

# lines_under FILE LINES ..: a text with the CA of each file and its lines.
lines_under() {
  while [ $# -gt 0 ]; do
    sed 's/^/ca: /' "$1" && printf "$2\n"
    shift 2
  done
}

# contents LIST: the lines of its text, without comments.
contents() {
  "$krl" show "$1" | sed 's/ # .*//; /^#/d'
}

# all_followed PAGE: each recipe of the page was.
all_followed() {
  judge "all recipes of $1 were followed" \
    "$(differs recipes "$(recipes_in "$1" | grep -c $'\f')" $followed)"
}

# stays NAME FILE: the file is the list in-force.
stays() {
  judge "$1" "$(cmp in-force "$2" 2>&1)"
}
