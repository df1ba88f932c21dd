#!/bin/sh
# The built program's `kernel` and `server`: what lines come to, bad ones among them, in words and as JSON; and the
# examples that hold a server, a kernel or both against them, where their compilers are there. Each case of tests/sides
# is NAME.in, the words of its command in NAME.command, and what is printed in NAME.expected.
# Prints a line for each case that differs, and ends with status 1 where there is one.
set -u
cd "$(dirname "$0")/.." || exit 1
. tests/judge.sh

: > "$work/want-err"
for input in tests/sides/*.in; do
    name=${input%.in}
    cp "$name.expected" "$work/want-out"
    # shellcheck disable=SC2046
    "$program" $(cat "$name.command") < "$input" > "$work/out" 2> "$work/err"
    judge "$(basename "$name")" $? 0
done

# An output that refuses, and a flag that is none.
: > "$work/want-out"
: > "$work/out"
echo mount | "$program" kernel > /dev/full 2> "$work/err"
judge "kernel to a full device" $? 5
echo "mount 0 0" | "$program" server > /dev/full 2> "$work/err"
judge "server to a full device" $? 5
"$program" kernel --words < /dev/null > "$work/out" 2> /dev/null
judge "kernel --words" $? 2

# example NAME COMMAND..: runs an example, whose status says whether it passed.
example() {
    name=$1
    shift
    FUSEWORLD=$program "$@" > "$work/said" 2>&1
    code=$?
    [ "$code" = 0 ] || tail -n 20 "$work/said"
    judge "$name" "$code" 0
}
if command -v python3 > /dev/null; then
    example "examples/python" env PYTHONDONTWRITEBYTECODE=1 PYTHONPATH=examples/python python3 -m unittest test_own_server
else
    echo "skipped: examples/python, as there is no python3"
fi
if command -v rustc > /dev/null; then
    rustc --edition 2021 --test -o "$work/server_test" examples/rust/server_test.rs && example "examples/rust/server_test.rs" "$work/server_test"
else
    echo "skipped: examples/rust/server_test.rs, as there is no rustc"
fi
if cargo --version > /dev/null 2>&1; then
    cp -R examples/rust "$work/rust"
    example "examples/rust" cargo test --offline --quiet --manifest-path "$work/rust/Cargo.toml"
else
    echo "skipped: examples/rust, as there is no cargo"
fi
if go version > /dev/null 2>&1; then
    (cd examples/go && GO111MODULE=on GOFLAGS= GOCACHE="$work/go" go test -c -o "$work/go_test" .) && example "examples/go" "$work/go_test"
else
    echo "skipped: examples/go, as there is no go"
fi
if command -v cc > /dev/null; then
    cc -O1 -Wall -Wextra -o "$work/both_sides" examples/c/both_sides.c && example "examples/c" "$work/both_sides" "$program"
else
    echo "skipped: examples/c, as there is no C compiler"
fi
echo "$passed runs of one side passed, $failed failed"
[ "$failed" = 0 ]
