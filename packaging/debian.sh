# The shared code of the scripts that make Debian packages. $top is the repository, $folder takes
# the packages, and $number is the version of the packed program or library.

architecture=$(dpkg --print-architecture)
mail=maintainers@users.noreply.yezhirop.example
# The maintainer of the packages: the environment may name another in DEBFULLNAME and DEBEMAIL.
maintainer="${DEBFULLNAME:-Yezhirop maintainers} <${DEBEMAIL:-$mail}>"
# One commit makes one package: its time is that of the commit. If files were changed since, or
# there is no commit, it is the current time.
commit=$(git -C "$top" rev-parse --short HEAD 2>/dev/null || echo none)
if [ -z "$(git -C "$top" status --porcelain 2>&1)" ]; then
  SOURCE_DATE_EPOCH=$(git -C "$top" log -1 --format=%ct)
else
  SOURCE_DATE_EPOCH=$(date +%s)
  commit=$commit.changed
fi
export SOURCE_DATE_EPOCH
version=$number+$(date -u -d "@$SOURCE_DATE_EPOCH" +%Y%m%d.%H%M%S).$commit

# package ROOT SECTION DEPENDS FIELD: makes a package with the name of the folder ROOT and one
# additional field, replaces the one that was there, and says where it is. Standard input is its
# description.
package() {
  name=$(basename "$1")
  documents=$1/usr/share/doc/$name
  mkdir -p "$documents" "$1/DEBIAN"
  cat >"$documents/copyright" <<END
Copyright $(date -u -d "@$SOURCE_DATE_EPOCH" +%Y) Yezhirop maintainers
No licence is stated with the source. Ask the maintainers before you pass this package on.
END
  gzip -9n >"$documents/changelog.gz" <<END
$name ($version) unstable; urgency=medium

  * Version $number, of commit $commit.

 -- $maintainer  $(date -R -u -d "@$SOURCE_DATE_EPOCH")
END
  (cd "$1" && find usr -type f | LC_ALL=C sort | xargs md5sum) >"$1/DEBIAN/md5sums"
  {
    cat <<END
Package: $name
Version: $version
Architecture: $architecture
Maintainer: $maintainer
Section: $2
Priority: optional
Depends: $3
$4
Installed-Size: $(du -sk "$1/usr" | cut -f1)
END
    printf 'Description: ' && cat
  } >"$1/DEBIAN/control"
  rm -f "$folder/${name}"_*_"$architecture".deb
  dpkg-deb --root-owner-group --build "$1" "$folder/${name}_${version}_$architecture.deb" >/dev/null
  printf '%s\n' "$folder/${name}_${version}_$architecture.deb"
}
