#!/bin/sh
# try_package.sh [ROOT]: tries the packages of dist/ in a Debian without the toolchain: one that debootstrap makes, or a
# copy of the one in the folder ROOT. Takes root, debootstrap and a mirror; without these it is skipped.
# The archive is tried with nothing else installed, the .deb with man, a C compiler and Python.
# Prints a line for each step, and ends with status 1 where one fails.
set -u
cd "$(dirname "$0")/.." || exit 1
skip() { echo "skipped: the packages, as $1"; exit 0; }
[ "$(id -u)" = 0 ] || skip "this is not root"
[ -n "${1:-}" ] || command -v debootstrap > /dev/null || skip "there is no debootstrap"
archive=$(ls -t dist/*.tar.gz | head -n 1)
package=$(ls -t dist/*.deb | head -n 1)
name=$(basename "$archive" .tar.gz)
root=$(mktemp -d)
trap 'umount -l "$root/proc" 2> /dev/null; rm -rf --one-file-system "$root"' EXIT
failed=0

if [ -n "${1:-}" ]; then
    cp -a "$1/." "$root"
else
    debootstrap --variant=minbase bookworm "$root" > "$root.log" 2>&1 \
        || { tail -n 5 "$root.log"; rm -f "$root.log"; skip "debootstrap failed"; }
    rm -f "$root.log"
fi

# step NAME COMMAND..: whether a command succeeds; what it says is printed where it does not.
step() {
    what=$1
    shift
    if said=$("$@" 2>&1); then
        echo "ok $what"
    else
        echo "not ok $what"
        echo "$said" | tail -n 20
        failed=$((failed + 1))
    fi
}
inside() { chroot "$root" /usr/bin/env -i PATH=/usr/sbin:/usr/bin:/sbin:/bin LC_ALL=C.UTF-8 DEBIAN_FRONTEND=noninteractive "$@"; }

# The archive, in a system that has nothing else. README's first block of a console has a script and its output.
tar -C "$root/opt" -xzf "$archive"
awk '/^```console/ { on = 1 } on && /^```$/ { exit } on' README.md > "$root/block"
sed -n '/<<END/,/^> END/p' "$root/block" | sed '1d;$d;s/^> //' > "$root/tmp/stat.script"
sed '1,/^\$ fuseworld run/d' "$root/block" > "$root/tmp/stat.expected"
step "the archive's --version" inside sh -c "/opt/$name/bin/fuseworld --version | grep '^fuseworld '"
step "it takes the C library alone" inside sh -c \
    "ldd /opt/$name/bin/fuseworld && ! ldd /opt/$name/bin/fuseworld | grep '=>' | grep -v 'libc.so.6'"
step "README's script prints what README says" inside sh -c \
    "/opt/$name/bin/fuseworld run /tmp/stat.script | cmp - /tmp/stat.expected"
step "no toolchain is there" inside sh -c '! command -v rt && ! test -e /opt/rattle'

# The .deb, with what reads and compiles the rest of it.
mount -t proc proc "$root/proc" 2> /dev/null
cp "$package" "$root/tmp/fuseworld.deb"
mkdir -p "$root/src/tests"
cp -R README.md docs "$root/src"
cp -R tests/run_tutorial.py tests/frames "$root/src/tests"
step "man, a compiler and Python are installed" inside sh -c \
    'apt-get update && apt-get install -y --no-install-recommends man-db gcc libc6-dev pkg-config python3'
# What debootstrap leaves out of man pages and documents is no part of this.
rm -f "$root"/etc/dpkg/dpkg.cfg.d/*doc*
step "the .deb is installed" inside dpkg -i /tmp/fuseworld.deb
step "its --version" inside sh -c "fuseworld --version | grep '^fuseworld '"
step "every command of the documents prints what they say" inside env FUSEWORLD=/usr/bin/fuseworld python3 /src/tests/run_tutorial.py
for page in 1/fuseworld.1 5/fuseworld-script.5 5/fuseworld-capture.5; do
    step "man $page" inside sh -c "test -z \"\$(man --warnings -l /usr/share/man/man$page 2>&1 > /tmp/page)\" && test -s /tmp/page"
done
decode=/usr/share/doc/fuseworld/examples/c/decode.c
for words in "$decode \$(pkg-config --cflags --libs fuseworld)" "-static $decode \$(pkg-config --cflags --libs fuseworld)"; do
    step "cc $words" inside sh -c \
        "cc -o /tmp/decode $words && /tmp/decode /src/tests/frames/made.capture | cmp - /src/tests/frames/made.library"
done
for source in mount.c drive/launcher.c "-pthread watch/watch.c" "-shared -fPIC drive/shim.c"; do
    step "cc $source" inside sh -c "cd /usr/share/doc/fuseworld/examples && cc -o /tmp/built $source"
done
step "the examples of each side in Python" inside sh -c \
    'cd /usr/share/doc/fuseworld/examples/python && PYTHONDONTWRITEBYTECODE=1 python3 -m unittest test_own_server'
step "it is removed whole" inside sh -c 'dpkg -r fuseworld && ! command -v fuseworld && ! test -e /usr/share/doc/fuseworld'
[ "$failed" = 0 ] || { echo "$failed steps of the packages failed"; exit 1; }
echo "the packages work in Debian bookworm"
