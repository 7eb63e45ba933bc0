#!/bin/sh
# Makes a Debian package of the tarball in a folder, beside it.
# usage: release/deb.sh FOLDER
set -e
umask 022
LC_ALL=C
export LC_ALL
folder=$(readlink -f "$1")
tarball=$(ls "$folder"/saber-*-x86_64-linux.tar.xz)
version=$(basename "$tarball" | cut -d - -f 2)
maintainer='Waqimtur maintainers <maintainers@users.noreply.waqimtur.example>'
work=$(mktemp -d)
trap 'rm -rf "$work"' EXIT
tree=$work/tree
doc=$tree/usr/share/doc/saber

mkdir "$work/source" "$tree"
tar -xf "$tarball" -C "$work/source" --strip-components 1
make -s -C "$work/source" install DESTDIR="$tree" PREFIX=/usr
when=$(date -u -R -d "@${SOURCE_DATE_EPOCH:-0}")

# What a package calls otherwise: the licence, the changes, the compressed pages.
rm "$doc/LICENSE"
{
    echo 'Format: https://www.debian.org/doc/packaging-manuals/copyright-format/1.0/'
    echo 'Upstream-Name: saber'
    printf '\nFiles: *\nCopyright: %s\nLicense: Expat\n' "$(sed -n 's/^Copyright (c) //p' "$work/source/LICENSE")"
    sed '1,4d; s/^$/./; s/^/ /' "$work/source/LICENSE"
} > "$doc/copyright"
mv "$doc/CHANGELOG.md" "$doc/changelog"
{
    printf 'saber (%s) unstable; urgency=medium\n\n  * The program as it is shipped; changelog.gz has what is new.\n\n' "$version"
    printf ' -- %s  %s\n' "$maintainer" "$when"
} > "$doc/changelog.Debian"
gzip -9n "$doc/changelog" "$doc/changelog.Debian" "$tree"/usr/share/man/man1/*

# Scripts name the interpreter of the package's own system.
for script in "$tree"/usr/share/saber/tools/saber-*; do
    [ ! -f "$script" ] || sed -i '1s|^#!/usr/bin/env python3|#!/usr/bin/python3|' "$script"
done
find "$tree" -type d -exec chmod 755 {} +
find "$tree" -name '*.py' -exec chmod 644 {} +

mkdir "$tree/DEBIAN"
cat > "$tree/DEBIAN/control" <<CONTROL
Package: saber
Version: $version
Architecture: amd64
Maintainer: $maintainer
Installed-Size: $(du -k -s "$tree/usr" | cut -f 1)
Depends: libc6 (>= 2.34), python3 (>= 3.11)
Suggests: clang, gcc, python3-pycparser
Section: devel
Priority: optional
Description: workspace for C modules with every step checked
 Translates C files as modules and runs them together: a suspect module is
 interpreted with every step checked, the rest runs compiled over the same
 memory. An undefined step ends the run with a line that names its rule, its
 place and its operands. Modules are edited, loaded and swapped while the
 program stands at a stop.
CONTROL
(cd "$tree" && find usr -type f -exec md5sum {} + | sort -k 2 > DEBIAN/md5sums)
chmod 644 "$tree/DEBIAN/control" "$tree/DEBIAN/md5sums"
dpkg-deb --root-owner-group -Zxz --build "$tree" "$folder/saber_${version}_amd64.deb" > /dev/null
echo "$folder/saber_${version}_amd64.deb"
