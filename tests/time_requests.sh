#!/bin/sh
# What a request costs: GETATTR over a mount of the built program, and over those of libfuse's examples hello_ll and
# passthrough_ll, in turn in one run, as nanoseconds a request and as a ratio to hello_ll. Needs libfuse3-dev and fuse3; no
# part of the gate. COUNT is how many requests are asked of each in each of 3 rounds.
set -u
cd "$(dirname "$0")/.." || exit 1
. tests/mounted.sh
count=${COUNT:-1000000}
examples=${EXAMPLES:-/usr/share/doc/libfuse3-dev/examples}
others="$work/hello $work/passthrough"

leave_all() {
    for other in $others; do umount -l "$other" 2> /dev/null; done
    leave
}
trap leave_all EXIT

cc -O2 -Wall -Wextra -o "$work/time" tests/time_requests.c || exit 1
for name in hello_ll passthrough_ll; do
    # shellcheck disable=SC2046
    cc -O2 -D_FILE_OFFSET_BITS=64 "$examples/$name.c" $(pkg-config --cflags --libs fuse3) -o "$work/$name" 2> "$work/errors" \
        || skip "$name of libfuse is not built"
done
# shellcheck disable=SC2086
mkdir $others "$work/source"
echo x > "$work/source/file"
start 3600
echo x > "$mount/file"
"$work/hello_ll" -f -s "$work/hello" &
"$work/passthrough_ll" -f -s -o "source=$work/source" "$work/passthrough" &
sleep 1
for round in 1 2 3; do
    ours=$("$work/time" "$mount/file" "$count")
    hello=$("$work/time" "$work/hello/hello" "$count")
    passthrough=$("$work/time" "$work/passthrough/file" "$count")
    echo "round $round: fuseworld $ours, hello_ll $hello, passthrough_ll $passthrough ns a GETATTR;" \
        "fuseworld to hello_ll $(echo "$ours $hello" | awk '{ printf "%.2f", $1 / $2 }')"
done
# shellcheck disable=SC2086
for other in $others; do umount "$other"; done
rm "$mount/file"
finish
