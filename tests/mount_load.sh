#!/bin/sh
# What a mount that the built program serves bears, and how long it takes; no part of the gate. 10,080 files are made and
# removed in 16 directories by 4 shells at once, two processes write and read one file, Linux gives back 400 nodes in one
# BATCH_FORGET (as root, who alone may drop the caches of names), trees are copied in and out, and git is tried.
# Prints a line for each, with what is refused, and ends with status 1 where something else comes of it.
set -u
cd "$(dirname "$0")/.." || exit 1
. tests/mounted.sh
failed=0

# check NAME WANTED GOT: says what came of a try.
check() {
    if [ "$2" = "$3" ]; then
        echo "$1: $3"
    else
        echo "not ok: $1: wanted $2, got $3"
        failed=1
    fi
}

# Makes and removes 210 files in every fourth directory from the first one on, three times.
shell_of() {
    for _ in 1 2 3; do
        for name in $1 $(($1 + 4)) $(($1 + 8)) $(($1 + 12)); do
            file=0
            while [ $file -lt 210 ]; do
                echo $file > "$mount/$name/$file" || echo bad
                file=$((file + 1))
            done
        done
        for name in $1 $(($1 + 4)) $(($1 + 8)) $(($1 + 12)); do
            cat "$mount/$name/"* | sort -n | tail -n 1
            rm "$mount/$name/"*
        done
    done
}

start 600 --show
begun=$(date +%s)
for name in 0 1 2 3 4 5 6 7 8 9 10 11 12 13 14 15; do mkdir "$mount/$name"; done
shells=
for shell in 0 1 2 3; do
    shell_of $shell > "$work/shell$shell" 2>&1 &
    shells="$shells $!"
done
# shellcheck disable=SC2086
wait $shells
check "10,080 files, of which each shell read 210 in each of its directories" "48 209" "$(sort "$work"/shell? | uniq -c | tr -s ' ' | sed 's/^ //')"
check "files left" 0 "$(find "$mount" -type f | wc -l)"
echo "seconds: $(($(date +%s) - begun))"
rmdir "$mount"/*

# One process appends lines, and another reads until it has seen the last.
(line=0; while [ $line -lt 500 ]; do echo "line $line" >> "$mount/lines"; line=$((line + 1)); done) &
tail -n +1 -f "$mount/lines" --pid $! 2> /dev/null | tail -n 1 > "$work/last"
check "the last of 500 lines, as another process read it" "line 499" "$(cat "$work/last")"
rm "$mount/lines"

file=0
while [ $file -lt 400 ]; do echo x > "$mount/$file"; file=$((file + 1)); done
echo 2 > /proc/sys/vm/drop_caches 2> /dev/null || echo "the caches of names are not dropped"
rm "$mount"/*

mkdir "$work/tree" "$work/tree/a" "$mount/tar" "$mount/plain"
for name in 1 2 3 4 5; do echo $name > "$work/tree/$name"; seq 1000 > "$work/tree/a/$name"; done
tar -C "$work/tree" -cf - . | tar -C "$mount/tar" -xf - 2> "$work/errors"
check "tar into the mount, which sets times, owners and modes: status" 2 $?
check "what it says" "Function not implemented" "$(grep -v Exiting "$work/errors" | sed 's/.*: //' | sort -u)"
tar -C "$work/tree" -cf - . | tar -C "$mount/plain" -x --no-same-permissions --no-same-owner -m -f -
check "tar into the mount without them: status" 0 $?
check "files that differ after either" "" "$(diff -r "$work/tree" "$mount/tar"; diff -r "$work/tree" "$mount/plain")"
tar -C "$mount/plain" -cf - . | tar -tf - > "$work/names"
check "names that tar reads out of the mount" 12 "$(wc -l < "$work/names")"
cp -r "$work/tree" "$mount/copy"
check "cp -r: status" 0 $?

export HOME="$work" GIT_CONFIG_NOSYSTEM=1
if command -v git > /dev/null; then
    git init -q "$mount/repository" 2> "$work/errors"
    check "git init in the mount: status" 128 $?
    check "what it says" "chmod Function not implemented" \
        "$(head -n 1 "$work/errors" | sed 's/.*\(chmod\) on .*: /\1 /')"
    set -- git --git-dir="$work/git" --work-tree="$mount/plain" -c user.name=a -c user.email=a@b
    "$@" init -q
    "$@" add -A && "$@" commit -qm tree
    check "git add and commit of a tree in the mount, its repository elsewhere: status" 0 $?
    check "what it finds changed" "" "$("$@" status --short)"
fi
rm -r "$mount"/*
finish
check "the launcher's status" 0 $?
check "the nodes that the server holds once all is removed" server "$(tail -n 1 "$trace")"
exit $failed
