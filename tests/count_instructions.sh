#!/bin/sh
# Counts the instructions of the built program for each line of some scripts that this makes, under callgrind, so that
# neither the clock nor other work matters: one round of calls after another, over a tree with so many counted nodes.
# What the tree's making costs is taken off. Ends with status 1 where an event is refused.
# usage: tests/count_instructions.sh [ROUNDS [NODES..]]
set -eu
cd "$(dirname "$0")/.."
program=$PWD/crates/fuseworld/out/fuseworld
rounds=${1:-500}
[ $# -gt 0 ] && shift
[ $# -gt 0 ] || set -- 16 512 4070
folder=$(mktemp -d)
trap 'rm -r "$folder"' EXIT

# made NODES ROUNDS KIND: the script. In the root stand /f, which call 1 opened and which has 4,096 bytes, the directory
# /l, in which /l/f has 25 names, and directories /0, /1, .. up to so many nodes.
made() {
    awk -v nodes="$1" -v rounds="$2" -v kind="$3" 'BEGIN {
        unique = 2; bytes = "00"
        while (length(bytes) < 8192) bytes = bytes bytes
        print "mount 1000 0"; trip()
        ask("create /f"); ask("write 1 0 " bytes); ask("mkdir /l"); ask("create /l/f")
        for (i = 1; i < 25; i++) ask("link /l/f /l/" i)
        for (i = 0; i < nodes - 3; i++) ask("mkdir /" i)
        for (r = 0; r < rounds; r++) {
            if (kind == "stat") { print "tick 1000"; print "call stat /" (r % (nodes - 3)); trip(); trip() }
            if (kind == "mkdir") { ask("mkdir /new"); ask("rmdir /new"); print "evict " (nodes + 2); print "read f 1"; print "take 0"; unique += 2 }
            if (kind == "read") ask("read 1 0 4096")
            if (kind == "write") ask("write 1 0 " bytes)
            if (kind == "list") ask("list /l 0")
            if (kind == "listplus") ask("listplus /l 0")
        }
    }
    function ask(call) { print "call " call; trip() }
    function trip() { print "read p 0"; print "take 0"; print "do " unique; print "write 0"; print "settle 0"; unique += 2 }'
}

# counted SCRIPT: the instructions of a run.
counted() {
    valgrind --tool=callgrind --callgrind-out-file=/dev/null "$program" run "$1" > "$folder/out" 2> "$folder/log"
    if grep -m 1 '^refused' "$folder/out" >&2; then exit 1; fi
    sed -n 's/.* Collected : //p' "$folder/log"
}

echo "instructions a line, over this many nodes: $*"
for kind in stat mkdir read write list listplus; do
    row=$kind
    for nodes in "$@"; do
        made "$nodes" 0 "$kind" > "$folder/tree"
        made "$nodes" "$rounds" "$kind" > "$folder/script"
        whole=$(counted "$folder/script")
        tree=$(counted "$folder/tree")
        lines=$(($(wc -l < "$folder/script") - $(wc -l < "$folder/tree")))
        row="$row $(((whole - tree) / lines))"
    done
    echo "$row"
done
