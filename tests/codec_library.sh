#!/bin/sh
# Runs the codec's library from C, Python and Rust. It builds the library, the harness of the vectors and each example
# whose compiler is there. The examples decode captures: what they print is compared with a stored file and with each
# other. Of each vector of `fuseworld vectors` the library says the verdict, and writes what it read.
# Prints a line for each run that differs, and ends with status 1 where there is one.
#
# LIBRARY names a library that is built already; else it is proved and built. PROGRAM names a program `fuseworld` other
# than the one that is built in crates/fuseworld; without a program, the vectors are skipped.
set -u
cd "$(dirname "$0")/.." || exit 1
. tests/judge.sh
program=${PROGRAM:-$program}
library=${LIBRARY:-$PWD/crates/fuseworld_codec/out/libfuseworld_codec.a}
skipped=0
compile="cc -std=c11 -O2 -Wall -Wextra -Werror -pedantic -Iinclude"

if [ -z "${LIBRARY:-}" ]; then
    (cd crates/fuseworld_codec && rt lib) > "$work/log" 2>&1 || { cat "$work/log"; exit 1; }
fi
if [ ! -x "$program" ]; then
    echo "skipped: the vectors, as $program is not built"
    skipped=$((skipped + 1))
    program=
fi
: > "$work/want-err"

# skip WHAT WHY: counts what is not run.
skip() {
    echo "skipped: $1, as $2"
    skipped=$((skipped + 1))
}

# compare NAME COMMAND..: runs a decoder of captures on each capture.
compare() {
    name=$1
    shift
    for capture in tests/frames/*.capture; do
        cp "${capture%.capture}.library" "$work/want-out"
        "$@" "$capture" > "$work/out" 2> "$work/err"
        judge "$name $capture" $? 0
    done
}

if command -v cc > "$work/found"; then
    $compile examples/c/decode.c "$library" -o "$work/decode-c" || exit 1
    compare "examples/c/decode.c" "$work/decode-c"
    cc -shared -o "$work/libfuseworld_codec.so" -Wl,--whole-archive "$library" -Wl,--no-whole-archive || exit 1
else
    skip "examples/c/decode.c" "there is no cc"
fi

# The header is C++ too.
if command -v c++ > "$work/found"; then
    echo '#include "fuseworld.h"' > "$work/header.cc"
    c++ -std=c++11 -Wall -Wextra -Werror -pedantic -Iinclude -fsyntax-only "$work/header.cc" \
        > "$work/out" 2> "$work/err"
    code=$?
    : > "$work/want-out"
    judge "the header as C++" $code 0
else
    skip "the header as C++" "there is no c++"
fi

if command -v python3 > "$work/found" && [ -f "$work/libfuseworld_codec.so" ]; then
    FUSEWORLD_LIBRARY=$work/libfuseworld_codec.so
    export FUSEWORLD_LIBRARY
    compare "examples/python/decode.py" python3 examples/python/decode.py
else
    skip "examples/python/decode.py" "there is no python3 or no shared object"
fi

if command -v rustc > "$work/found"; then
    cp "$library" "$work/libfuseworld_codec.a"
    rustc --edition 2024 -O examples/rust/decode.rs -L "$work" -l static=fuseworld_codec -o "$work/decode-rust" \
        2> "$work/log" || { cat "$work/log"; exit 1; }
    compare "examples/rust/decode.rs" "$work/decode-rust"
else
    skip "examples/rust/decode.rs" "there is no rustc"
fi

# The vectors, through the calls that read and write.
if [ -n "$program" ] && command -v cc > "$work/found" && command -v python3 > "$work/found"; then
    $compile tests/codec_vectors.c "$library" -o "$work/vectors-c" || exit 1
    "$program" vectors > "$work/vectors" || exit 1
    python3 tests/codec_vectors.py < "$work/vectors" > "$work/lines" || exit 1
    "$work/vectors-c" < "$work/lines" > "$work/out" 2> "$work/err"
    code=$?
    echo "$(wc -l < "$work/vectors") vectors, 0 wrong" > "$work/want-out"
    judge "vectors" $code 0
fi

[ "$skipped" = 0 ] || echo "$skipped skipped"
[ "$failed" = 0 ] || { echo "$failed runs of the codec library failed"; exit 1; }
echo "$passed runs of the codec library passed"
