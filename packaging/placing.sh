# The shared code of installing and uninstalling. Files are put below $root, and recorded with their
# checksums in $root/$note. A file without such a record belongs to another program: it is neither
# overwritten nor removed. Others may have written the note, or put a link in its place, where they
# may write in its folder.

say() {
  printf "packaging/$(basename "$0"): %s\n" "$@" >&2
}

refuse() {
  say "$@"
  exit 1
}

# line_of FOLDER FILE: its line in a note: the checksum of its bytes, or of where it leads, and its
# name.
line_of() (
  cd "$1" || exit
  sum=$(if [ -L "$2" ]; then readlink "$2"; else cat "$2"; fi | sha256sum)
  printf '%s  %s\n' "${sum%% *}" "$2"
)

is_there() {
  [ -e "$root/$1" ] || [ -L "$root/$1" ]
}

has_note() {
  [ -f "$root/$note" ] && [ ! -L "$root/$note" ]
}

is_ours() {
  has_note && { [ -f "$root/$1" ] || [ -L "$root/$1" ]; } &&
    grep -qxF -e "$(line_of "$root" "$1")" "$root/$note"
}

# is_below FILE: no link on the way to the file leads out of $root.
is_below() {
  base=$(realpath -- "$root")
  case $(realpath -- "$root/$(dirname -- "$1")")/ in
    "${base%/}"/*) ;;
    *) return 1 ;;
  esac
}

# noted: the names of the note that this script may have written.
noted() {
  ! has_note || while read -r _ file; do
    case $file/ in
      */../*) say "$root/$note names $file, which is left" ;;
      ./*) printf '%s\n' "$file" ;;
      *) say "$root/$note names $file, which is left" ;;
    esac
  done <"$root/$note"
}

# replace FILE PLACE: a copy of the file gets the place by a rename, so a link there is replaced,
# and not followed.
replace() {
  mkdir -p "$(dirname "$2")"
  cp -dpT --remove-destination "$1" "$2.new"
  mv -fT "$2.new" "$2"
}

# place FOLDER FORCE: installs the files of the folder, or nothing if that would overwrite another
# program's file and FORCE is not given.
place() {
  files=$(cd "$1" && find . ! -type d | sort)
  others=
  for file in $files; do
    ! is_there "$file" || is_ours "$file" || others="$others $root/${file#./}"
  done
  [ -z "$others" ] || [ -n "$2" ] ||
    refuse 'these were not installed from here, or were changed since, and are left as they are:' \
      $others \
      'to replace them give FORCE=1; to install beside them give another name or PREFIX'
  for file in $files; do
    replace "$1/$file" "$root/$file"
  done
  # Remove the files that an older version had, and this one has not.
  noted | while read -r file; do
    [ -e "$1/$file" ] || [ -L "$1/$file" ] || ! is_ours "$file" || ! is_below "$file" ||
      rm -- "$root/$file"
  done
  mkdir -p "$1/$(dirname "$note")"
  for file in $files; do line_of "$1" "$file"; done >"$1/$note"
  replace "$1/$note" "$root/$note"
}

# take_away: removes the installed files, except those that were changed since.
take_away() {
  noted | while read -r file; do
    if ! is_there "$file"; then
      continue
    elif ! is_below "$file"; then
      say "$root/${file#./} is reached by a link, and is left"
    elif is_ours "$file"; then
      rm -- "$root/$file"
    else
      say "$root/${file#./} was changed, and is left"
    fi
  done
  rm -- "$root/$note"
  (cd "$root" && rmdir -p --ignore-fail-on-non-empty "$(dirname "$note")")
}
