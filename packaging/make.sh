#!/bin/sh
# make.sh PROGRAM LIBRARY: makes dist/fuseworld-VERSION-linux-x86_64.tar.gz and a .deb of a program and a library that
# are built already, and prints their paths. The version is what the program says.
set -eu
cd "$(dirname "$0")/.."
program=$1
library=$2
version=$("$program" --version | cut -d ' ' -f 2)
name=fuseworld-$version-linux-x86_64
work=$(mktemp -d)
trap 'rm -rf "$work"' EXIT
mkdir -p dist
umask 022

# What is installed is the archive's folder, whatever its place.
make -s install PROGRAM="$program" LIBRARY="$library" DESTDIR="$work/deb" PREFIX=/usr > "$work/log"
cp -R "$work/deb/usr" "$work/$name"
tar -C "$work" --owner=0 --group=0 --numeric-owner --sort=name -czf "dist/$name.tar.gz" "$name"
echo "dist/$name.tar.gz"

if command -v dpkg-deb > /dev/null; then
    mkdir "$work/deb/DEBIAN"
    sed "s/@VERSION@/$version/" packaging/control > "$work/deb/DEBIAN/control"
    printf '#!/bin/sh\nset -e\nldconfig\n' | tee "$work/deb/DEBIAN/postinst" > "$work/deb/DEBIAN/postrm"
    chmod 755 "$work/deb/DEBIAN/postinst" "$work/deb/DEBIAN/postrm"
    cat LICENSE-MIT LICENSE-APACHE > "$work/deb/usr/share/doc/fuseworld/copyright"
    dpkg-deb --root-owner-group --build "$work/deb" "dist/fuseworld_${version}_amd64.deb" > "$work/log"
    echo "dist/fuseworld_${version}_amd64.deb"
else
    echo "skipped: the .deb, as there is no dpkg-deb" >&2
fi
