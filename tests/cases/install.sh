# make install, make uninstall and make deb, into folders of the tests' own.

root=$scratch/root
export KRL=$(realpath -- "${KRL:-$top/built/krl}")
line ssh-ed25519 "$G" >g.pub
bytes "$H" "$(section "$G")" >r.krl
# made NAME STATUS TARGET WORD..: make ends with this status.
made() {
  local name=$1 wanted=$2 got
  shift 2
  PROGRAM=$binary command make -s -C "$top" -o build "$@" DESTDIR="$root" >"$scratch/output" 2>&1
  got=$?
  judge "$name" \
    "$(differs 'exit status' "$wanted" $got; [ $got = "$wanted" ] || cat "$scratch/output")"
}
# runs NAME PROGRAM: the program that was installed answers.
runs() {
  program=$2 expect "$1" 1 $'g.pub: REVOKED\n' '' -Q -f r.krl g.pub
}
# holds NAME FILE..: exactly these files are there.
holds() {
  judge "$1" \
    "$(differs files "$(printf '%s\n' "${@:2}" | sort)" "$(cd "$root" && find . -type f | sort)")"
}
# of NAME PREFIX: the files that are installed, which are those of krl too.
of() {
  local it
  for it in "$1" krl; do
    printf "./$2/%s\n" "bin/$it" "share/man/man1/$it.1" "share/bash-completion/completions/$it" \
      "share/zsh/site-functions/_$it" "share/fish/vendor_completions.d/$it.fish" \
      "share/krl-keygen/$it.sha256"
  done
}

made 'make install' 0 install
holds 'what is installed' $(of krl-keygen usr/local)
runs 'the installed program' "$root/usr/local/bin/krl-keygen"
counts='1 file, 1 key: 1 revoked in 1 file, 0 unread'
program=$root/usr/local/bin/krl expect 'the installed krl' 1 \
  "g.pub:1: revoked: ssh-ed25519 $(fingerprint "$G") by its key"$'\n' \
  "krl audit: $counts (list version 1, 1970-01-01T00:00:00Z)"$'\n' audit -f r.krl g.pub
judge 'the manual page of krl' \
  "$(cmp "$top/docs/krl.1" "$root/usr/local/share/man/man1/krl.1" 2>&1)"
judge 'the manual page has the name of the program' \
  "$(asks 1 grep -n -e 'Nm ssh-keygen' -e 'SSH-KEYGEN' -e 'ssh-keygen -[a-zA-Z]' \
    "$root/usr/local/share/man/man1/krl-keygen.1")"
for file in bash-completion/completions/krl-keygen zsh/site-functions/_krl-keygen \
  fish/vendor_completions.d/krl-keygen.fish; do
  judge "the name of the program in $file" \
    "$(asks 1 grep -n ssh-keygen "$root/usr/local/share/$file")"
done
made 'make install once more' 0 install
made 'make install under the name ssh-keygen' 0 install PREFIX=/opt/krl NAME=ssh-keygen
runs 'the program of the name ssh-keygen' "$root/opt/krl/bin/ssh-keygen"
holds 'what is installed by then' $(of krl-keygen usr/local) $(of ssh-keygen opt/krl)
judge 'the manual page of the name ssh-keygen' \
  "$(cmp "$top/docs/ssh-keygen.1" "$root/opt/krl/share/man/man1/ssh-keygen.1" 2>&1)"
made 'make uninstall of the name ssh-keygen' 0 uninstall PREFIX=/opt/krl NAME=ssh-keygen
holds 'what is left' $(of krl-keygen usr/local)
made 'make uninstall of what is not there' 2 uninstall PREFIX=/opt/krl NAME=ssh-keygen

echo changed >>"$root/usr/local/share/man/man1/krl-keygen.1"
made 'make install over a page that was changed' 2 install
made 'make uninstall of the rest' 0 uninstall
holds 'the page that was changed' ./usr/local/share/man/man1/krl-keygen.1
rm -r "$root"

mkdir -p "$root/usr/bin" && echo another >"$root/usr/bin/ssh-keygen"
made 'make install beside OpenSSH' 0 install PREFIX=/usr
judge 'the program of OpenSSH is left' \
  "$(differs content another "$(cat "$root/usr/bin/ssh-keygen")")"
holds 'what is installed beside OpenSSH' ./usr/bin/ssh-keygen $(of krl-keygen usr)
made 'make uninstall beside OpenSSH' 0 uninstall PREFIX=/usr
made 'make install over another program' 2 install PREFIX=/usr NAME=ssh-keygen
judge 'the other program and where it is are named' \
  "$(grep -q "^packaging/install: $root/usr/bin/ssh-keygen$" "$scratch/output" ||
  cat "$scratch/output")"
judge 'the other program is left' "$(differs content another "$(cat "$root/usr/bin/ssh-keygen")")"
holds 'nothing beside the other program' ./usr/bin/ssh-keygen
made 'make install over another program where FORCE says so' 0 install PREFIX=/usr \
  NAME=ssh-keygen FORCE=1
runs 'the program in place of the other' "$root/usr/bin/ssh-keygen"
rm -r "$root"

# A link of another's at the place of the program: what it leads to stays as it is.
mkdir -p "$root/usr/bin" && echo another >"$root/usr/bin/real" &&
  ln -s real "$root/usr/bin/ssh-keygen"
made 'make install over a link' 2 install PREFIX=/usr NAME=ssh-keygen
made 'make install over a link where FORCE says so' 0 install PREFIX=/usr NAME=ssh-keygen FORCE=1
judge 'what the link led to is left' "$(differs content another "$(cat "$root/usr/bin/real")")"
judge 'the program is in place of the link' \
  "$([ ! -L "$root/usr/bin/ssh-keygen" ] || echo '  a link is there')"
runs 'the program in place of a link' "$root/usr/bin/ssh-keygen"
rm -r "$root"

# A link that leads to no file belongs to another program, too.
mkdir -p "$root/usr/bin" && ln -s gone "$root/usr/bin/ssh-keygen"
made 'make install over a dangling link' 2 install PREFIX=/usr NAME=ssh-keygen
judge 'the dangling link is left' \
  "$(differs link gone "$(readlink "$root/usr/bin/ssh-keygen")"; find "$root" -type f)"
made 'make install over a dangling link where FORCE says so' 0 install PREFIX=/usr \
  NAME=ssh-keygen FORCE=1
runs 'the program in place of a dangling link' "$root/usr/bin/ssh-keygen"
rm -r "$root"

# modes NAME FOLDER: all folders and files there are for everybody to read.
modes() {
  judge "$1" "$(asks 0 find "$2" ! -type l \
    ! \( -type d -perm 755 -o -type f -perm 644 -o -type f -path '*/bin/*' -perm 755 \))"
}
mkdir "$root" && chmod 755 "$root"
umask 077
made 'make install of a user whose files are private' 0 install
umask 022
modes 'everybody may read what is installed' "$root"
# A file of an older version goes, but not where its user changed it since.
note=$root/usr/local/share/krl-keygen/krl-keygen.sha256
for file in older changed; do
  echo "$file" >"$root/usr/local/share/krl-keygen/$file"
  (cd "$root/usr/local" && sha256sum "./share/krl-keygen/$file") >>"$note"
done
cp "$note" note
echo mine >"$root/usr/local/share/krl-keygen/changed"
made 'make install over an older version' 0 install
holds 'what is installed over an older version' $(of krl-keygen usr/local) \
  ./usr/local/share/krl-keygen/changed
cp note "$note"
made 'make uninstall of an older version' 0 uninstall
holds 'the file that its user changed' ./usr/local/share/krl-keygen/changed
rm -r "$root"

# A note that another planted: a link, which would be followed, and then one with names that lead
# elsewhere, or that a shell might take for more than names.
echo another >victim
mkdir -p "$root/usr/local/share/krl-keygen" outside
ln -s "$PWD/victim" "$root/usr/local/share/krl-keygen/krl-keygen.sha256"
made 'make install where the note is a link' 0 install
judge 'what that link leads to is left' "$(differs content another "$(cat victim)")"
judge 'a note is in place of the link' "$([ -f "$note" ] && [ ! -L "$note" ] || ls -l "$note")"
echo another >outside/file
echo another >"$root/usr/file"
ln -s "$PWD/outside" "$root/usr/local/out"
mkfifo "$root/usr/local/fifo"
for file in ../file ./share/../../file ./out/file "$PWD/outside/file" "./no|w $PWD/written" \
  ./fifo; do
  sum=$(echo another | sha256sum)
  echo "${sum% *} $file"
done >>"$note"
cp "$note" note
made 'make install over a note that leads elsewhere' 0 install
cp note "$note"
made 'make uninstall by a note that leads elsewhere' 0 uninstall
holds 'what is elsewhere below the folder is left' ./usr/file
judge 'what is outside is left' "$(asks 0 cat outside/file | grep -vx another)"
judge 'no name is a command' "$(ls written* 2>/dev/null)"
rm -r "$root"
mkdir "$root" && chmod 755 "$root"
echo another >"$root/note"
mkdir -p "$root/usr/local/share/krl-keygen"
ln -s "$root/note" "$root/usr/local/share/krl-keygen/krl-keygen.sha256"
made 'make uninstall where the note is a link' 2 uninstall
rm -r "$root"

# A library with the calls of krl.h, each of which answers 7, and one of the C library.
for it in 'cc gcc' 'pkg-config pkg-config'; do
  need $it || judge "${it% *} is there" "  install ${it#* }"
done
version=$(sed -n 's/^#define KRL_VERSION_[A-Z]* //p' "$top/library/krl.h" | paste -s -d .)
calls=$(sed -n 's/^[a-z].*\(krl_[a-z_]*\)(.*/\1/p' "$top/library/krl.h")
export LIBRARY=$scratch/library
mkdir "$LIBRARY" && printf '#include <stdlib.h>\nvoid *room(void) { return malloc(7); }\n' >krl.c
printf 'long %s(void) { return 7; }\n' $calls >>krl.c
cc -g -fPIC -c krl.c && ar rcs "$LIBRARY/libkrl.a" krl.o &&
  cc -shared -o "$LIBRARY/libkrl.so.$version" krl.o -Wl,-soname,"libkrl.so.${version%%.*}"
mkdir "$root" && chmod 755 "$root"
umask 077
made 'make install-library into lib64' 0 -o library install-library LIBDIR=lib64
umask 022
modes 'everybody may read the library' "$root"
judge 'the library is in lib64' "$([ -f "$root/usr/local/lib64/libkrl.a" ] || find "$root")"
judge 'pkg-config says so' "$(differs words '-L/usr/local/lib64 -lkrl' \
  "$(PKG_CONFIG_PATH=$root/usr/local/lib64/pkgconfig pkg-config --libs krl | sed 's/ *$//')")"
rm -r "$root"

need lintian lintian ||
  judge 'lintian is there' '  install it, on Debian by apt-get install lintian'
need strip binutils || judge 'strip is there' '  install it, on Debian by apt-get install binutils'
need dpkg-shlibdeps dpkg-dev ||
  judge 'dpkg-shlibdeps is there' '  install it, on Debian by apt-get install dpkg-dev'
# packed: makes the package.
packed() {
  PROGRAM=$binary "$top/packaging/deb" "$scratch" >"$scratch/output" 2>&1
  judge 'a Debian package is made' "$([ $? = 0 ] || cat "$scratch/output")"
  package=$(tail -n 1 "$scratch/output")
}
field() {
  dpkg-deb --field "$package" "$1" 2>&1
}
umask 077
packed
umask 022
judge 'the name of the package' "$(differs name krl-keygen "$(field Package)")"
number=$("$binary" --version | cut -d ' ' -f 2)
judge 'its version has the number of the program, the time and the commit' "$(
  commit=$(git -C "$top" rev-parse --short HEAD)
  [[ "$(field Version)" =~ ^"$number"[+][0-9]{8}[.][0-9]{6}[.]"$commit"([.]changed)?$ ]] ||
    field Version
)"
judge 'it needs the C library of a version' \
  "$([[ "$(field Depends)" =~ ^'libc6 (>= '[0-9.]+')'$ ]] || field Depends)"
# The kit decides how it compiles and links, and some bytes of the code look like misspelt words.
# The shell of POSIX has ulimit -f, too.
judge 'lintian finds nothing in the package, but for the code of the program' \
  "$(lintian --allow-root --display-info "$package" 2>&1 |
    grep -v -e '^N:' -e '^I: krl-keygen: hardening-no-' \
    -e '^I: krl-keygen: spelling-error-in-binary' \
    -e "^I: krl-keygen: bash-term-in-posix-shell 'ulimit' .*/krl-pull:")"
judge 'apt would install it' \
  "$(apt-get --simulate install "$package" >"$scratch/output" 2>&1 || cat "$scratch/output")"
dpkg-deb --extract "$package" "$root"
modes 'everybody may read what the package has' "$root/usr"
runs 'the program of the package' "$root/usr/bin/krl-keygen"
holds 'what the package holds' \
  $(of krl-keygen usr | grep -v -e sha256 -e /man1/ | sed 's|site-functions|vendor-completions|') \
  ./usr/share/man/man1/krl-keygen.1.gz ./usr/share/man/man1/krl.1.gz \
  $(printf './usr/share/doc/krl-keygen/%s\n' README.md NEWS.gz changelog.gz copyright \
    docs/{DECISIONS,DECISIONS-LISTS,DESIGN,FAULTS,FORMATS,GLOSSARY,RECIPES,RUNBOOK,THEOREMS}.md \
    docs/theorems/{audit,check,keygen,keys,libkrl,lists,logins,system,tested,texts}.md \
    bench/{README.md,libkrl.md,time.svg}) \
  $(cd "$top" && find examples/ansible examples/systemd -type f \
  -printf './usr/share/doc/krl-keygen/%p\n') \
  $(cd "$top" && find demo -type f \( ! -name '*.krl' -o -path 'demo/audit/*' \) \
    -printf './usr/share/doc/krl-keygen/examples/%p\n')
documents=$root/usr/share/doc/krl-keygen
judge 'each link of its documents leads to a file of it' \
  "$(asks 0 python3 -B "$tests/lib/pages/links.py" "$documents")"
judge 'its documents name a file that only the sources have' \
  "$(grep -q 'CONTRIBUTING.md of the sources' "$documents/README.md" || echo '  they do not')"
cp -r "$documents/examples/demo" demo && cd demo || exit 1
program=$root/usr/bin/krl-keygen expect 'a list is made of its demo files' 0 '' '' -k -f r.krl \
  -s ca.pub revoked
cd .. && rm -r demo
dpkg-deb --control "$package" "$scratch/control"
judge 'the package has the sum of each of its files' "$(
  cd "$root" && md5sum --quiet --check "$scratch/control/md5sums" 2>&1
  differs files "$(find usr -type f | wc -l)" "$(wc -l <"$scratch/control/md5sums")"
)"
rm -r "$root"
first=$(field Version)
sleep 1
packed
judge 'packages of files that were changed differ' \
  "$([[ $first != *.changed ]] || [ "$first" != "$(field Version)" ] || echo "  both are $first")"
judge 'the folder has the last package alone' \
  "$(differs packages "$package" "$(echo "$scratch"/*.deb)")"
rm "$package"

# The static library of the package can be linked.
umask 077
"$top/packaging/library_debs" "$scratch" >"$scratch/output" 2>&1
judge 'Debian packages of the library are made' "$([ $? = 0 ] || cat "$scratch/output")"
umask 022
mkdir "$root"
for package in $(cat "$scratch/output"); do dpkg-deb --extract "$package" "$root"; done
modes 'everybody may read what these packages have' "$root/usr"
# By either file of the package, a package that is linked with the library needs the version in which
# its calls came.
judge 'a package that is linked with the library needs a version of it' "$(
  dpkg-deb --control "$(sed -n 1p "$scratch/output")" "$scratch/of_library"
  since=$(sed -n 's/^ krl_[a-z_]*@KRL_1 \([0-9]*\.[0-9]*\)$/\1/p' "$scratch/of_library/symbols")
  differs calls "$(wc -w <<<$calls)" "$(wc -l <<<"$since")"
  differs shlibs "libkrl 1 libkrl1 (>= $(sort -V <<<"$since" | tail -n 1))" \
    "$(cat "$scratch/of_library/shlibs")"
)"
echo 'int krl_size(void); int main(void) { return krl_size(); }' >caller.c
cc -o caller caller.c "$root/usr/lib/x86_64-linux-gnu/libkrl.a" && ./caller
judge 'a caller is linked with the static library' "$(differs answer 7 $?)"
rm -r "$root" "$scratch"/*.deb

# A repository of two commits: a package has the number, the time and the name of the commit that it
# is made of.
mkdir two &&
  cp -r "$top"/{packaging,docs,completions,examples,library,demo,bench} two &&
  cp "$top"/{README.md,CHANGELOG.md,.gitignore} two
commit() {
  git -C two add . && GIT_COMMITTER_DATE="@$1 +0000" git -C two -c user.name=me \
    -c user.email=me@here commit -q -m "$1"
}
git init -q two
for time in 1000000000 1000000001; do
  echo "$time" >>two/README.md
  commit $time
  PROGRAM=$binary two/packaging/deb "$scratch" >"$scratch/output" 2>&1
  package=$(tail -n 1 "$scratch/output")
  wanted=$number+$(date -u -d "@$time" +%Y%m%d.%H%M%S).$(git -C two rev-parse --short HEAD)
  judge "the package of the commit of $time" "$(
    differs version "$wanted" "$(field Version)"
    differs file "krl-keygen_${wanted}_amd64.deb" "$(basename "$package")"
  )"
  cp "$package" first
  # Git ignores a list that a user made, and so does the package.
  echo 'a list' >two/demo/made.krl
  PROGRAM=$binary two/packaging/deb "$scratch" >"$scratch/output" 2>&1
  judge 'a commit makes one package' "$(cmp first "$package" 2>&1)"
done
echo more >>two/README.md
PROGRAM=$binary two/packaging/deb "$scratch" >"$scratch/output" 2>&1
package=$(tail -n 1 "$scratch/output")
judge 'the package of files that were changed since says so' \
  "$([[ $(field Version) == *.changed ]] || field Version)"
