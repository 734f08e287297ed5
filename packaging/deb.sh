#!/bin/sh
# deb.sh TREE: makes a Debian package of a tree that `make install PREFIX=/usr DESTDIR=TREE` has filled.
#
# The version is the one that the program tells; it must be the changelog's. Needs dpkg-dev (dpkg-shlibdeps) and binutils.
set -e
here=$(cd "$(dirname "$0")" && pwd)
tree=$(cd "$1" && pwd)
doc=$tree/usr/share/doc/once
umask 022

logged=$(sed -n '1s/^once (\(.*\)) .*/\1/p' "$here/changelog")
version=$("$tree/usr/bin/once" --version 2>/dev/null | sed -n '1s/^once \([0-9][^ ]*\).*/\1/p')
[ "${version:-$logged}" = "$logged" ] || { echo "the program is $version, packaging/changelog says $logged"; exit 1; }
version=$logged

# The package is the same octet for octet, whenever it is made.
SOURCE_DATE_EPOCH=$(date -d "$(sed -n 's/^ -- .*>  //p' "$here/changelog" | head -n 1)" +%s)
export SOURCE_DATE_EPOCH

strip --strip-unneeded --remove-section=.comment --remove-section=.note "$tree/usr/bin/once"
gzip -9n "$tree"/usr/share/man/man1/*.1
sed -i '1s,.*,#!/usr/bin/python3,' "$tree/usr/bin/once-import" "$tree/usr/bin/once-mend" "$tree/usr/bin/once-part" "$tree/usr/bin/once-report"
gzip -9nc "$here/changelog" > "$doc/changelog.gz"
cp "$here/copyright" "$doc/copyright"

# What the program is linked with, by the rules of Debian.
work=$(mktemp -d)
trap 'rm -rf "$work"' EXIT
mkdir "$work/debian"
printf 'Source: once\n\nPackage: once\nArchitecture: amd64\n' > "$work/debian/control"
depends=$(cd "$work" && dpkg-shlibdeps -O -e"$tree/usr/bin/once" | sed -n 's/^shlibs:Depends=//p')
depends="${depends:+$depends, }python3 (>= 3.11)"

mkdir -p "$tree/DEBIAN"
(cd "$tree" && find usr -type f | LC_ALL=C sort | xargs md5sum > DEBIAN/md5sums)
size=$(du -sk --apparent-size "$tree/usr" | cut -f1)
sed -e "s/@VERSION@/$version/" -e "s/@DEPENDS@/$depends/" -e "s/@SIZE@/$size/" "$here/control.in" > "$tree/DEBIAN/control"
printf '#!/bin/sh\nset -e\n[ "$1" != configure ] || py3compile -p once /usr/share/once\n' > "$tree/DEBIAN/postinst"
printf '#!/bin/sh\nset -e\npy3clean -p once /usr/share/once\n' > "$tree/DEBIAN/prerm"
find "$tree" -type d -exec chmod 755 {} +
find "$tree" -type f -exec chmod 644 {} +
chmod 755 "$tree"/usr/bin/* "$tree/DEBIAN/postinst" "$tree/DEBIAN/prerm"
dpkg-deb --root-owner-group --build "$tree" "once_${version}_amd64.deb"
