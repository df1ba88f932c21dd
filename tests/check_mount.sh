#!/bin/sh
# Watches a mount that the built program serves, by examples/watch, under a shell's commands, and judges the capture with
# `check`: nobody breaks a rule, each request is answered, and no lookup is left. With one reply doubled in it the server
# is accused, at that line.
# Prints a line for each check that fails, and ends with status 1 where there is one. Where /dev/fuse cannot be opened, a
# mount is refused or there is no C compiler, it says so and ends with status 0.
set -u
cd "$(dirname "$0")/.." || exit 1
. tests/mounted.sh
capture=$work/capture
passed=0
failed=0

# check NAME WANTED GOT
check() {
    if [ "$2" = "$3" ]; then
        passed=$((passed + 1))
        return
    fi
    echo "not ok: $1"
    echo "  wanted $2"
    echo "  got    $3"
    failed=$((failed + 1))
}

# Folders, files that are written, read, renamed and removed, and one of many blocks.
load() {
    for i in 1 2 3 4 5 6 7 8 9 10 11 12 13 14 15 16 17 18 19 20; do
        mkdir "d$i" && echo "hello $i" > "d$i/f" && cat "d$i/f" && mv "d$i/f" "d$i/g" && ls -l "d$i"
    done
    dd if=/dev/zero of=big bs=4096 count=16
    cat big
    rm -r ./*
}

mkdir "$mount"
# shellcheck disable=SC2188
(: <> /dev/fuse) 2> /dev/null || skip "/dev/fuse cannot be opened"
command -v cc > /dev/null || skip "there is no C compiler"
cc -O1 -Wall -Wextra -o "$work/watch" examples/watch/watch.c -pthread || exit 1
timeout -k 2 60 "$work/watch" -l "$capture" -o max_read=4096 "$mount" -- "$program" serve STDIO 2> "$trace" &
launcher=$!
for _ in 1 2 3 4 5 6 7 8 9 10; do
    is_mounted && break
    sleep 0.2
done
is_mounted || skip "a mount is refused ($(head -n 1 "$trace"))"
(cd "$mount" && load) > /dev/null 2>&1
check "nothing is left in the folder" "" "$(ls "$mount")"
umount "$mount"
wait "$launcher"
launcher=

"$program" check "$capture" > "$work/out" 2>&1
check "the status of a right session" 0 $?
check "its faults" "faults: kernel 0 server 0 device 0, warnings 0" "$(tail -n 1 "$work/out")"
check "what is unanswered, and lookups that are left" " unanswered 0 lookups" \
    "$("$program" decode "$capture" | tail -n 1 | sed 's/.* refused 0//')"
check "it has 500 frames or more" yes "$([ "$(wc -l < "$capture")" -ge 500 ] && echo yes)"

place=$(grep -n '^< ' "$capture" | sed -n '100s/:.*//p')
sed "${place}p" "$capture" > "$work/doubled"
"$program" check "$work/doubled" > "$work/out" 2>&1
check "the status where a reply is doubled" 6 $?
check "who is accused, and where" "line $((place + 1)): server: second reply" \
    "$(sed -n 's/^\(line [0-9]*: server: [^:]*\).*/\1/p' "$work/out")"

echo "$passed checks of a watched mount passed, $failed failed"
[ "$failed" = 0 ]
