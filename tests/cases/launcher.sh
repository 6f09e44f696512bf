# The launchers ./ssh-keygen and ./krl: from anywhere, by links, and without the toolchain once the
# program is built; and what it does where the program is not built, over a toolchain that proves
# nothing: what is proved, and which commit is in the version.

launcher=$top/ssh-keygen
line ssh-ed25519 "$G" >g.pub
bytes "$H" "$(section "$G")" >r.krl

# launch NAME PROGRAM
launch() {
  program=$2 expect "$1" 1 $'g.pub: REVOKED\n' '' -Q -f r.krl g.pub
}
launch 'the launcher from another folder' "$launcher"
ln -sf "$launcher" link
launch 'the launcher by a link' ./link
mkdir -p folder && ln -sf ../link folder/deep
launch 'the launcher by a link to a link' folder/deep
PATH=$scratch/here/folder:$PATH launch 'the launcher found on the PATH' deep
PATH=/usr/bin:/bin launch 'the launcher without the toolchain' "$launcher"

# A repository of small crates, in which proving takes a step for each line, and a kit for them.
away=$scratch/here/away
mkdir -p away kit/bin kit/c
cp "$launcher" "$top/krl" "$top/build.py" away/ && mkdir away/packaging &&
  cp "$top/packaging/launch.sh" away/packaging/
cp -r "$top/library" away/
cp "$top"/tests/lib/launcher/* kit/bin/
echo 'the kit of the tests' >kit/WHAT
printf '%s\n' 'low: byteorder' 'low_tests: low' side: 'upper: low side' 'aside: low' \
  'krl_keygen: upper aside' \
  'krl: low' 'krl_c staticlib: low' >away/crates.txt
for it in low:6 low_tests:1 side:4 upper:6 aside:3 krl_keygen:2 krl:2 krl_c:2; do
  mkdir -p "away/crates/${it%:*}"/{src,specs,proofs}
  seq "${it#*:}" >"away/crates/${it%:*}/src/lib.rt"
done
for it in krl_keygen krl; do mv away/crates/$it/src/lib.rt away/crates/$it/src/main.rt; done
export calls=$scratch/here/calls XDG_CACHE_HOME=$scratch/here/cache
store=$XDG_CACHE_HOME/krl-keygen
unset RT_JOBS AFTER_CI
# A background job of a script ignores some signals. One of a user's shell does not.
one=(env --default-signal=HUP,INT,TERM RT_JOBS=1)
two=(env --default-signal=HUP,INT,TERM RT_JOBS=2)

# use WORD..: runs the launcher over that kit, by the command that the words begin.
use() {
  PATH=$scratch/here/kit/bin:/usr/bin:/bin exec "$@" "$away/ssh-keygen"
}
# said_by LINE..: what the launcher says.
said_by() {
  printf 'ssh-keygen: %s\n' "$@"
}
# made_of LOW SIDE: what the program prints, where these are the last lines of the two crates.
made_of() {
  local low side
  low=$(seq -s , "$1") side=$(seq -s , "$2")
  echo "made of aside:1,2,3 krl_keygen:1,2 low:$low side:$side upper:1,2,3,4,5,6"
}
# proved: which crates were proved since this was asked before, in the order of their ends.
proved() {
  awk '/ends$/ { printf "%s ", $1 }' calls
  : >calls
}
# unnumbered FILE: what the file says, without how many seconds and minutes.
unnumbered() {
  sed -e 's/: [0-9]* of about [0-9]* seconds$/: N of M seconds/' \
    -e 's/about [0-9]* minutes\{0,1\} /about N minutes /' "$1"
}
# build NAME STATUS OUTPUT ERROR PROVED WORD..
build() {
  local name=$1 status=$2 output=$3 error=$4 crates=$5
  : >calls
  (use "${@:6}") >said 2>"$scratch/error"
  judge "$name" "$(
    differs 'exit status' "$status" $?
    [ "$output" = any ] || differs 'standard output' "$output" "$(cat said)"
    [ "$error" = any ] || differs 'standard error' "$error" "$(unnumbered "$scratch/error")"
    differs 'what is proved' "$crates" "$(proved)"
  )"
}
every='low side upper aside krl_keygen '
: >calls
all=$(said_by 'proving and building, this once: 5 crates' 'proving low' \
  'this takes about N minutes on this machine, judging by low' 'proving side: N of M seconds' \
  'proving upper: N of M seconds' 'proving aside: N of M seconds' \
  'proving krl_keygen: N of M seconds')

(use "${one[@]}") >said 2>"$scratch/error"
judge 'the first use builds' "$(
  differs 'exit status' 0 $?
  differs 'standard output' "$(made_of 6 4)" "$(cat said)"
  differs 'standard error' "$all" "$(unnumbered "$scratch/error")"
)"
# The program takes most of the time, so four of five crates are a small part of it.
judge 'how far it is goes by seconds' "$(asks 0 awk '/ of about / {
    if ($4 < last) print "  it goes back: " $0
    last = $4
  }
  /proving krl_keygen/ && $4 * 4 > $7 + 0 { print "  it is not: " $0 }' "$scratch/error")"
judge 'one crate after the other' "$(asks 0 awk '
  /begins/ && at { print "  " $1 " begins within " at }
  { at = /begins/ ? $1 : "" }' calls)"
judge 'one process in each crate' "$(asks 0 awk '/begins/ && !/ with 1$/' calls)"
judge 'each crate is proved once' "$(differs crates "$every" "$(proved)")"
build 'the second use only runs' 0 "$(made_of 6 4)" '' ''
PATH=$scratch/here/kit/bin:/usr/bin:/bin "${one[@]}" away/krl >said 2>"$scratch/error"
judge 'the first use of krl proves what is left' "$(
  differs 'exit status' 0 $?
  differs 'standard output' 'made of krl:1,2 low:1,2,3,4,5,6' "$(cat said)"
  differs 'standard error' \
    "$(said_by 'proving and building, this once: 2 crates' 'proving krl' |
    sed 's/^ssh-keygen/krl/')" "$(cat "$scratch/error")"
  differs 'what is proved' 'krl ' "$(proved)"
)"
sleep 0.1 && touch away/crates/low_tests/src/lib.rt
build 'a changed test builds nothing' 0 "$(made_of 6 4)" '' ''
sleep 0.1 && touch away/crates/low/src/lib.rt
build 'a source with a new time proves nothing' 0 "$(made_of 6 4)" '' ''

# The effect of each change. The old program is replaced, and not overwritten.
ln away/built/ssh-keygen older
sleep 0.1 && seq 7 >away/crates/low/src/lib.rt
build 'a changed source' 0 "$(made_of 7 4)" any 'low upper aside krl_keygen ' "${one[@]}"
judge 'a program that runs is not written over' "$(differs program "$(made_of 6 4)" "$(./older)")"
sleep 0.1 && seq 6 >away/crates/low/src/lib.rt
build 'a source that is as it was' 0 "$(made_of 6 4)" '' ''
for it in specs proofs; do
  sleep 0.1 && echo "the-$it" >"away/crates/upper/$it/Lib.antt"
  build "a new file of $it" 0 any any 'upper krl_keygen '
  judge "the program is made of the $it" "$(grep -q "the-$it" said || cat said)"
  sleep 0.1 && rm "away/crates/upper/$it/Lib.antt"
  build "without the file of $it" 0 "$(made_of 6 4)" '' ''
done
sleep 0.1 && sed -i 's/^aside:.*/aside: low side/' away/crates.txt
build 'a changed list of crates' 0 "$(made_of 6 4)" any 'aside krl_keygen '
sleep 0.1 && sed -i 's/^aside:.*/aside: low/' away/crates.txt
build 'a list of crates that is as it was' 0 "$(made_of 6 4)" '' ''
sleep 0.1 && sed -i 's/^low:.*/low: byteorder hex/' away/crates.txt
build 'a changed list of what the kit has' 0 "$(made_of 6 4)" any 'low '
sleep 0.1 && echo '// a remark' >>away/crates/low/src/lib.rt
build 'what a library is made of changes, and the library does not' 0 "$(made_of 6 4)" any 'low '
sleep 0.1 && touch away/crates/upper/src/wrong && echo 7 >>away/crates/upper/src/lib.rt
build 'a crate that is not proved' 255 '' "$(said_by 'proving and building, this once: 5 crates' \
  'proving upper')
not proved
$(said_by "upper is not proved: all that was said is in $away/built/upper.log")" '' "${one[@]}"
rm away/crates/upper/src/wrong && seq 6 >away/crates/upper/src/lib.rt
echo 'another kit' >kit/WHAT
sleep 0.1 && touch away/crates.txt
build 'another kit' 0 "$(made_of 6 4)" any "$every" "${one[@]}"

# anew WORD..: begins a first use in the background, by the command that the words begin.
anew() {
  rm -rf away/built "$store"
  : >calls
  (use "$@") >said 2>"$scratch/error" &
}
# hold CRATE WORD..: begins such a use, and waits until it proves the crate, which lasts until go.
hold() {
  echo "$1" >calls.hold
  anew "${@:2}"
  await grep -qs "$1 begins" calls
}
go() {
  rm calls.hold
  wait
}
# await COMMAND..: waits until it succeeds, a minute at most.
await() {
  local end=$((SECONDS + 60))
  until "$@" || ((SECONDS > end)); do sleep 0.02; done
}
at_work() {
  pgrep -f "$scratch/here/kit/bin/rattle" >/dev/null
}
# whole NAME: the launcher ended with the program, and each crate was proved once.
whole() {
  judge "$1" "$(
    differs 'standard output' "$(made_of 6 4)" "$(cat said)"
    differs 'what is proved' "$(printf '%s\n' $every | sort)" \
      "$(proved | tr ' ' '\n' | sed '/^$/d' | sort)"
    nothing_left
  )"
}
nothing_left() {
  [ -z "$(ls -d "$store"/*.new 2>/dev/null)" ] || echo '  half a library is left'
  flock -n away/built/lock true || echo '  a build is still at work'
  # A killed process may take a moment to end.
  ! { sleep 0.3 && at_work; } || echo '  a crate is still being proved'
}

# The first crate lasts 3 seconds here, and is a small part of what is reckoned.
hold low "${one[@]}"
sleep 3
go
whole 'a slow first crate'
judge 'the time that is said goes by the first crate' "$(
  minutes=$(sed -n 's/.* takes about \([0-9]*\) minutes .* low$/\1/p' "$scratch/error")
  [ "${minutes:-0}" -ge 5 ] || cat "$scratch/error"
)"
hold side "${one[@]}"
sleep 8
go
whole 'a slow later crate'
judge 'the time that is said follows the crates after it' "$(awk '
  / of about / { all[++n] = $7 + 0 }
  END { if (n < 2 || all[n] <= all[1]) print "  " all[1] " and then " all[n] " seconds" }
' "$scratch/error")"

anew "${two[@]}"
wait
judge 'crates are proved side by side' \
  "$(differs 'first calls' $'low begins with 1\nside begins with 1' "$(head -n 2 calls | sort)")"
judge 'the last crate has all processors' "$(grep -q 'krl_keygen begins with 2' calls || cat calls)"
whole 'a first use with two processors'

waiting=$(said_by 'another build is at work in this folder: waiting for that')
hold low "${two[@]}"
(use "${two[@]}") >second 2>"$scratch/waiting" &
await grep -qs . "$scratch/waiting"
go
whole 'the first of two uses at once'
judge 'the second of two uses at once' "$(
  differs 'standard output' "$(made_of 6 4)" "$(cat second)"
  differs 'standard error' "$waiting" "$(cat "$scratch/waiting")"
)"

# A source that changes while another crate is proved, and one that changes while it is proved
# itself.
hold krl_keygen "${one[@]}"
seq 7 >away/crates/low/src/lib.rt
go
build 'a source that changed during the build' 0 "$(made_of 7 4)" any \
  'low upper aside krl_keygen ' "${one[@]}"
hold low "${one[@]}"
seq 6 >away/crates/low/src/lib.rt
go
judge 'a source that changed while it was proved' "$(
  differs 'standard output' "$(made_of 6 4)" "$(cat said)"
  differs 'what is proved' "low $every" "$(proved)"
)"

# goes_on NAME: after a build that ended early, the next one proves what is left.
goes_on() {
  judge "$1: no program is there" "$([ ! -e away/built/ssh-keygen ] || echo '  it is there')"
  rm calls.hold
  (use "${two[@]}") >said 2>"$scratch/error"
  whole "$1: the next build continues"
}
for it in HUP INT TERM; do
  hold upper "${two[@]}"
  kill -$it $!
  wait $!
  judge "$it ends a build" "$(differs 'exit status' 255 $?; nothing_left)"
  goes_on "$it"
done
hold upper "${two[@]}"
{ kill -KILL $(pgrep -P $!) && wait; } 2>/dev/null
await eval '! at_work'
goes_on 'a build that is killed'
hold upper "${two[@]}"
{ kill -KILL $! && wait $!; } 2>/dev/null
(use "${two[@]}") >said 2>"$scratch/waiting" &
await grep -qs "$waiting" "$scratch/waiting"
go
whole 'a launcher that is killed: the build that it left is waited for'

# A clone finds what was proved here, and waits where both prove the same.
rm -rf clone && cp -r away clone && rm -rf clone/built
away=$scratch/here/clone build 'a second clone proves nothing' 0 "$(made_of 6 4)" '' ''
rm -rf clone/built
hold low "${one[@]}"
(away=$scratch/here/clone use "${one[@]}") >second 2>"$scratch/waiting" &
await grep -qs 'another build is proving low: waiting for that' "$scratch/waiting"
go
whole 'the first of two clones at once'
judge 'the second of two clones at once' \
  "$(differs 'standard output' "$(made_of 6 4)" "$(cat second)")"

# The version of the programs, with the commit of their sources. These files may themselves come from
# an archive.
plain=$scratch/here/plain
cp -r away "$plain" && rm -rf "$plain/built" && cp -r "$top/crates/program_version" "$plain/crates/"
sed -i -e '1i program_version:' -e 's/^\(krl_keygen\|krl\):.*/& program_version/' \
  "$plain/crates.txt"
cp "$top"/.git{attributes,ignore} "$plain/"
sed -i -E 's/^(ARCHIVED = ")[0-9a-f]{40,64}"$/\1$Format:%H$"/' "$plain/build.py"
echo '# The page' >"$plain/README.md" && echo '# A crate' >"$plain/crates/low/README.md"
cp -r "$plain"/crates/{low_tests,test_fixtures}
mkdir rooms settings && cat >settings/.gitconfig <<END
[user]
  name = me
  email = me@here
[core]
  excludesFile = $PWD/settings/ignored
[status]
  showUntrackedFiles = no
END
echo '*.rt' >settings/ignored
# Git has these settings, and none of this machine.
export GIT_CONFIG_NOSYSTEM=1 HOME=$PWD/settings
unset XDG_CONFIG_HOME
# number: the number of the version in the sources.
number=$(sed -n 's/^pub const VERSION: &str = "\(.*\)";$/\1/p' \
  "$top/crates/program_version/src/lib.rt")
# has_version NAME FOLDER VERSION PROVED WORD..: the repository in the folder is built anew, by the
# command that the words begin. The program has this version, with _ for blanks, git says nothing,
# and no copy of a source is left.
has_version() {
  local name=$1 folder=$2 version=$3
  rm -rf "$folder/built"
  away=$folder build "$name" 0 any any "$4" env TMPDIR="$scratch/here/rooms" RT_JOBS=1 "${@:5}"
  judge "$name: the version" "$(
    differs 'standard output' \
      "made of aside:1,2,3 krl_keygen:1,2 low:6 program_version:$version side:1,2,3,4 upper:6" \
      "$(sed 's/:1,2,3,4,5,6/:6/g' said)"
    ! grep -v -e '^ssh-keygen: proving ' -e '^ssh-keygen: this takes .* judging by \(low\|upper\)$' \
      "$scratch/error"
    [ -z "$(ls -A rooms)" ] || echo '  a copy of a source is left'
  )"
}
# commit_of FOLDER [REVISION]: the commit, as the version has it.
commit_of() {
  git -C "$1" rev-parse "${2:-HEAD}" | cut -c 1-12
}
# adds FOLDER FILE..: these files are in the next commit, also those that the settings ignore.
adds() {
  git -C "$1" -c core.excludesFile=/dev/null add -- "${@:2}"
}
# commits FOLDER FILE..: commits these files.
commits() {
  adds "$@" && git -C "$1" commit -q -m "$2"
}
both='program_version krl_keygen '
has_version 'the sources alone' "$plain" "$number" "$both"

git init -q around && cp -r plain around/inner && rm -rf around/inner/built
commits around inner
has_version 'the sources in another repository' "$PWD/around/inner" "$number" ''
dated=$scratch/here/dated
cp -r plain dated && rm -rf dated/built && git init -q dated
has_version 'a repository without a commit' "$dated" "$number" ''
commits dated README.md
has_version 'a repository whose commits have no source' "$dated" "$number" ''
commits dated .
first=$(commit_of dated)
has_version 'a commit of the sources' "$dated" "${number}_($first)" "$both"
judge 'git keeps nothing of the build' "$(asks 0 git -C dated status --porcelain)"
PATH=$scratch/here/kit/bin:/usr/bin:/bin "${one[@]}" dated/krl >said 2>"$scratch/error"
judge 'the version of krl has the commit' "$(differs 'standard output' \
  "made of krl:1,2 low:1,2,3,4,5,6 program_version:${number}_($first)" "$(cat said)")"
away=$dated build 'the second use of that only runs' 0 any '' ''
for it in README.md crates/low/README.md crates/{low_tests,test_fixtures}/src/lib.rt; do
  echo '// a remark' >>"dated/$it"
  has_version "a changed file $it" "$dated" "${number}_($first)" ''
  commits dated "$it"
  has_version "a commit of $it" "$dated" "${number}_($first)" ''
done
echo '// a remark' >>dated/crates/low/src/lib.rt
has_version 'a changed source' "$dated" "${number}_($first-dirty)" "low $both"
adds dated crates/low/src/lib.rt
has_version 'a changed source that will be committed' "$dated" "${number}_($first-dirty)" ''
git -C dated reset -q --hard
has_version 'a source that is as it was' "$dated" "${number}_($first)" ''
echo '// a remark' >dated/crates/upper/src/more.rt
has_version 'a new source that the settings hide' "$dated" "${number}_($first-dirty)" 'upper '
rm dated/crates/upper/src/more.rt
echo >>dated/crates.txt
has_version 'a changed list of crates' "$dated" "${number}_($first-dirty)" ''
git -C dated checkout -q crates.txt
echo '// a remark' >>dated/crates/low/specs/Lib.antt
commits dated crates/low/specs/Lib.antt
last=$(commit_of dated)
has_version 'a new commit of the sources' "$dated" "${number}_($last)" "low $both"

# other NAME WORD..: a build by the command that the words begin has the version as before.
other() {
  has_version "$1" "$dated" "${number}_($last)" '' "${@:2}"
}
touch dated/crates/low/src/lib.rt
index=$(md5sum dated/.git/index)
other 'a source with a new time'
judge 'git writes nothing' "$(differs index "$index" "$(md5sum dated/.git/index)")"
other 'the environment names another repository' GIT_DIR="$PWD/around/.git" \
  GIT_WORK_TREE="$PWD/around"
other 'the environment has other words for git' GIT_LITERAL_PATHSPECS=1 GIT_TRACE=1
git init -q --bare away.git && git -C dated push -q "$PWD/away.git" HEAD:refs/heads/main
git clone -q --depth 1 --branch main "file://$PWD/away.git" shallow
has_version 'a clone without the commits before' "$PWD/shallow" "${number}_($last)" ''
git -C dated worktree add -q ../beside
has_version 'a second folder of the repository' "$PWD/beside" "${number}_($last)" ''

# unknown NAME FOLDER WORD..: no commit is known.
unknown() {
  has_version "$1" "$2" "$number" '' "${@:3}"
}
mkdir bare && ln -s /usr/bin/* bare/ && rm bare/git
unknown 'git is not there' "$dated" PATH="$scratch/here/kit/bin:$PWD/bare"
# git_says TEXT: a command git that says this.
git_says() {
  mkdir -p fake && printf '#!/bin/sh\n%s\n' "$1" >fake/git && chmod +x fake/git
}
fake=(PATH="$scratch/here/kit/bin:$PWD/fake:/usr/bin:/bin")
git_says "echo '\"; // no commit'"
unknown 'git says no commit' "$dated" "${fake[@]}"
git_says 'printf "0123456789a\n0123456789ab"'
unknown 'git says a commit of too few digits' "$dated" "${fake[@]}"
git_says 'printf "0123\37756789abcdef"'
unknown 'git says no text' "$dated" "${fake[@]}"
git_says 'case "$*" in *status*) echo no status >&2; exit 1 ;; esac; echo 0123456789abcdef'
unknown 'git does not say what was changed' "$dated" "${fake[@]}"
git_says 'echo 0123456789abcdef; echo a fault >&2; exit 1'
unknown 'git fails' "$dated" "${fake[@]}"
: >fake/git
unknown 'git cannot be run' "$dated" PATH="$scratch/here/kit/bin:$PWD/fake:$PWD/bare"
if [ "$(id -u)" = 0 ]; then
  cp -r dated foreign && chown -R 65534 foreign
  # The system may be set so that git trusts all users.
  env -u GIT_CONFIG_NOSYSTEM git -C foreign status >/dev/null 2>&1 ||
    unknown 'a repository of another user' "$PWD/foreign"
fi

# A part of a clone that is still on the server, and a program that git is to ask for changes.
printf '#!/bin/sh\necho "$0" >>%s/asked\n' "$PWD" >asked.sh && chmod +x asked.sh
git -C away.git config uploadpack.allowFilter true
git clone -q --filter=tree:0 --branch main "file://$PWD/away.git" part
git -C part config remote.origin.uploadpack "$PWD/asked.sh"
unknown 'commits that are still on the server' "$PWD/part"
git -C dated config core.fsmonitor "$PWD/asked.sh"
other 'a repository that names a program'
git -C dated config --unset core.fsmonitor
judge 'git asks no server and no program' "$([ ! -e asked ] || cat asked)"

# unpack FOLDER: the archive of the repository, in that folder.
unpack() {
  mkdir -p "$1" && git -C dated archive HEAD | tar -x -C "$1"
}
unpack archive
has_version 'an archive' "$PWD/archive" "${number}_($last)" ''
has_version 'an archive without git' "$PWD/archive" "${number}_($last)" '' \
  PATH="$scratch/here/kit/bin:$PWD/bare"
unpack around/archive
commits around archive
has_version 'an archive in another repository' "$PWD/around/archive" "${number}_($last)" ''
git init -q archive && commits archive README.md
has_version 'an archive with commits of documents' "$PWD/archive" "${number}_($last)" ''
sed -i 's/^ARCHIVED = .*/ARCHIVED = "0123456789a\\"; evil"/' archive/build.py
unknown 'an archive with another text' "$PWD/archive"

# A build that ends early leaves no copy either. The version is the same in a clone, which proves
# nothing.
echo '// another remark' >>dated/crates/low/specs/Lib.antt
commits dated crates/low/specs/Lib.antt
rm -rf dated/built
echo program_version >calls.hold
(away=$dated use "${one[@]}" TMPDIR="$PWD/rooms") >said 2>"$scratch/error" &
await grep -qs 'program_version begins' calls
judge 'the version is built of a copy' "$([ -n "$(ls -A rooms)" ] || echo '  there is none')"
kill -TERM $!
wait $!
rm calls.hold
judge 'a build that ends early leaves no copy' "$(asks 0 ls -A rooms; nothing_left)"
last=$(commit_of dated)
has_version 'the next build continues' "$dated" "${number}_($last)" "$both"
git clone -q dated again
has_version 'a clone of the repository' "$PWD/again" "${number}_($last)" ''
judge 'a commit proves only the programs anew, and no libkrl' "$(
  differs 'what is above the version' 'krl krl_keygen ' \
    "$(sed -n 's/^\([a-z0-9_]*\).*:.* program_version\( .*\)\{0,1\}$/\1/p' "$top/crates.txt" |
    grep -v '_tests$' | sort | tr '\n' ' ')"
)"

anew taskset -c "$(taskset -cp $$ | sed 's/.*[ ,-]//')"
wait
whole 'one processor'
rm -rf away/built "$store"
build 'no memory' 255 '' "$(said_by 'proving takes 2,500 MB of memory, and 2,000 MB are free')" '' \
  bash -c 'ulimit -v 1953125 && exec "$@"' limited
anew bash -c 'ulimit -v 3000000 && exec "$@"' limited
wait
whole 'memory for one process'
touch away/crates/side/src/killed
anew "${two[@]}"
wait
judge 'it is proved alone' "$(asks 0 awk '/begins/ && alone { print "  " $1 " begins beside it" }
  /^side begins/ { alone = ++times == 2 } /^side ends/ { alone = 0 }' calls)"
whole 'a process that is killed for memory'
judge 'it is proved once more' \
  "$(grep -q 'ssh-keygen: the process that proves side was killed' "$scratch/error" ||
  cat "$scratch/error")"
anew env XDG_CACHE_HOME=/dev/null/cache TMPDIR="$scratch/here"
wait
judge 'no cache in the home folder' "$(differs 'standard output' "$(made_of 6 4)" "$(cat said)"
  differs 'what is proved there' 5 "$(ls -d "krl-keygen-$(id -u)"/*-* | wc -l)")"

# A cache that others may write, so that nothing in it counts as proved.
# distrusts NAME MODE WHY: a folder of this mode is refused.
distrusts() {
  rm -rf away/built
  chmod "$2" "$store"
  build "$1" 255 '' "$(said_by "$store $3, so what is in it may not be proved" \
    'remove it, or name another folder in XDG_CACHE_HOME')" '' "${one[@]}"
  chmod 700 "$store"
}
rm -rf "$store" && mkdir -m 700 "$store"
distrusts 'a cache that a group may write' 770 'may be written by other users'
distrusts 'a cache that all may write' 1707 'may be written by other users'
mv "$store" elsewhere && ln -s "$PWD/elsewhere" "$store"
distrusts 'a cache that is a link' 700 'is a link'
rm "$store" && mv elsewhere "$store"
if [ "$(id -u)" = 0 ]; then
  chown 65534 "$store"
  distrusts 'a cache of another user' 700 'belongs to user 65534'
  chown 0 "$store"
fi

# Kits that take other words.
other=$(said_by 'this kit takes other words than build.py knows, so rt builds, which takes longer')
rm -rf away/built "$store"
touch away/crates/low/src/other_words
build 'a rattle that takes other words' 0 'made by rt' any '' "${one[@]}"
judge 'it says so' "$(grep -qxF "$other" "$scratch/error" || cat "$scratch/error")"
rm -rf away/built "$store" away/crates/low/src/other_words
sed -i 's/def below/def all_below/' kit/bin/rtlib.py
build 'an rtlib that has other words' 0 'made by rt' "$other" ''
rm kit/bin/rtlib.py away/built/ssh-keygen
build 'a kit without rtlib' 0 'made by rt' "$other" ''
cp "$top/tests/lib/launcher/rtlib.py" kit/bin/

rm -r away/built
PATH=/usr/bin:/bin program=$away/ssh-keygen expect 'no toolchain and no program' 255 '' "$(said_by \
  'not built yet, and the command rt, which builds it, is not on the PATH' \
  'install the Rattle kit that README.md names, and put its folder bin on the PATH')"$'\n'

# library/build, over the same kit: krl_check answers the number in the source of low.
for it in 'cc gcc' 'objcopy binutils'; do
  need $it || judge "${it% *} is there" "  install ${it#* }"
done
echo 'void *krl_malloc(unsigned long size) { return (void *)size; }' >heap.pic.c
cc -fPIC -c heap.pic.c && ar rcs kit/c/liblibc_c.a heap.pic.o
shared=$away/built/libkrl.so.1.0.0
ask='import ctypes, sys; print(ctypes.CDLL(sys.argv[1]).krl_check(None, 0, None, 0))'
# library NAME STATUS NUMBER PROVED
library() {
  : >calls
  PATH=$scratch/here/kit/bin:/usr/bin:/bin "$away/library/build" >said 2>"$scratch/error"
  judge "library/build: $1" "$(
    differs 'exit status' "$2" $?
    differs answer "$3" "$(python3 -c "$ask" "$shared")"
    differs 'what is proved' "$4" "$(proved)"
  )"
}
echo 6 >away/crates/low/src/lib.rt
library 'the first time' 0 6 'low krl_c '
judge 'library/build: how far it is' \
  "$(differs 'standard error' 'library/build: proving and building, this once: 2 crates
library/build: proving low
library/build: this takes about N minutes on this machine, judging by low
library/build: proving krl_c: N of M seconds' "$(unnumbered "$scratch/error")")"
library 'nothing changed' 0 6 ''
sleep 0.1 && echo 7 >away/crates/low/src/lib.rt
library 'a changed source' 0 7 'low krl_c '
for it in crates/low/specs/Lib.antt crates/low/proofs/Lib.antt crates/krl_c/src/lib.rt; do
  sleep 0.1 && echo '// a remark' >>"away/$it"
  library "a changed file $it" 0 7 "$(cut -d / -f 2 <<<"$it") "
done
sleep 0.1 && sed -i 's/^krl_c.*/krl_c staticlib: low side/' away/crates.txt
library 'a changed list of crates' 0 7 'side krl_c '
sleep 0.1 && sed -i 's/proved_krl_check(bytes/9 + &/' away/library/entry.c
library 'a changed entry' 0 16 ''
sleep 0.1 && echo 8 >away/crates/low/src/lib.rt && touch away/crates/low/src/wrong
library 'a source that is not proved' 255 16 ''
rm away/crates/low/src/wrong
sleep 0.1 && echo 9 >away/crates/low/src/lib.rt
: >calls
echo krl_c >calls.hold
PATH=$scratch/here/kit/bin:/usr/bin:/bin away/library/build >said 2>&1 &
await grep -qs 'krl_c begins' calls
echo 8 >away/crates/low/src/lib.rt
go
library 'a source that changed during the build' 0 17 'low krl_c '
sleep 0.1 && echo 9 >away/crates/low/src/lib.rt
exec 8>away/built/libkrl.lock && flock 8
: >"$scratch/error"
(library 'a build that waits' 0 18 '' >waited) &
await [ -s "$scratch/error" ]
flock -u 8
wait
exec 8>&-
report <(cat waited && echo "$(grep -c ^ok waited) passed, $(grep -c '^not ok' waited) failed")
judge 'library/build: it says that it waits' "$(differs 'first line' \
  'library/build: libkrl is being built: waiting for that' "$(head -n 1 "$scratch/error")")"

# make build, make library and make deb say the same.
cp "$top/Makefile" away/
judge 'make deb builds both programs and the library' \
  "$(differs commands 'packaging/tools library
./ssh-keygen -h >/dev/null
./krl -h >/dev/null
library/build
packaging/deb
packaging/library_debs' "$(command make -s -n -C away deb | grep -v '^make ')")"
judge 'make deb-programs builds the programs alone' \
  "$(differs commands 'packaging/tools
./ssh-keygen -h >/dev/null
./krl -h >/dev/null
packaging/deb' "$(command make -s -n -C away deb-programs | grep -v '^make ')")"
# A PATH without one of the tools.
cp "$top/packaging/tools" away/packaging/
mkdir few && ln -s /usr/bin/* kit/bin/rt few/ && rm -f few/dpkg-shlibdeps few/objcopy
rm -rf away/built "$store"
for it in 'deb dpkg-shlibdeps dpkg-dev' 'deb objcopy binutils' \
  'deb-programs dpkg-shlibdeps dpkg-dev'; do
  read -r target tool package <<<"$it"
  : >calls
  PATH=$scratch/here/few "${one[@]}" make -s -C away "$target" >said 2>"$scratch/error"
  judge "make $target without $tool" "$(
    differs 'exit status' 2 $?
    differs 'what is proved' '' "$(proved)"
    grep -qx "packaging/tools: $tool is missing: install it, by apt-get install $package" \
      "$scratch/error" || cat "$scratch/error"
  )"
done
# make_of TARGET..: makes these.
make_of() {
  PATH=$scratch/here/kit/bin:/usr/bin:/bin "${one[@]}" make -s -C away "$@" >said 2>"$scratch/error"
}
rm -rf away/built "$store"
make_of build library
judge 'make: how far it is' "$(
  differs 'exit status' 0 $?
  differs 'standard error' 'ssh-keygen: proving and building, this once: 5 crates
ssh-keygen: proving krl_keygen: N of M seconds
krl: proving and building, this once: 2 crates
krl: proving krl
library/build: proving and building, this once: 3 crates
library/build: proving krl_c' \
  "$(unnumbered "$scratch/error" | grep -e 'this once' -e 'proving krl')"
)"
for it in build:ssh-keygen library:library/build; do
  sleep 0.1 && touch away/crates.txt
  exec 8>away/built/lock && flock 8
  : >"$scratch/error"
  (exec 8>&- && make_of "${it%:*}") &
  await [ -s "$scratch/error" ]
  flock -u 8
  wait $!
  judge "make ${it%:*} says that it waits" "$(
    differs 'exit status' 0 $?
    differs 'standard error' "${it#*:}: another build is at work in this folder: waiting for that" \
      "$(cat "$scratch/error")"
  )"
  exec 8>&-
done

# In make test rt ci has left libraries, without a stamp. Those that rt check keeps have one.
left=away/crates/low/out/rlib
mkdir -p $left/low.rlib away/crates/side/out/rlib/side.rlib
echo low:30 >$left/low.rlib/format && echo side:1 >away/crates/side/out/rlib/side.rlib/format
sleep 0.1 && touch away/crates.txt
AFTER_CI=yes library 'after rt ci' 0 39 'krl_c '
sleep 0.1 && touch $left/stamp away/crates.txt
AFTER_CI=yes library 'after rt ci, over what rt check keeps' 0 59 'krl_c '
