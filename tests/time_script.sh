#!/bin/sh
# Times the built program on a script of many lines that this makes: directories made once, then each second a
# `stat` of one of them. In memory, and over a Unix socket, which has to print the same.
# usage: tests/time_script.sh [DIRECTORIES [ROUNDS]]
set -eu
cd "$(dirname "$0")/.."
directories=${1:-300}
rounds=${2:-10000}
folder=$(mktemp -d)
trap 'rm -r "$folder"' EXIT
script=$folder/script
awk -v n="$directories" -v rounds="$rounds" 'BEGIN {
    unique = 2
    print "mount 1000 0"; trip()
    for (i = 0; i < n; i++) { print "call mkdir /d" i; trip() }
    for (r = 0; r < rounds; r++) { print "tick 1000"; print "call stat /d" (r % n); trip(); trip() }
}
function trip() { print "read p 0"; print "take 0"; print "do " unique; print "write 0"; print "settle 0"; unique += 2 }' > "$script"
wc -l < "$script"
time crates/fuseworld/out/fuseworld run "$script" > "$folder/run"
time crates/fuseworld/out/fuseworld socket "$script" "$folder/link" > "$folder/socket"
cmp "$folder/run" "$folder/socket"
