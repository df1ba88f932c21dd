#!/bin/sh
# Compares the tables of the protocol (crates/fuse_protocol/specs and crates/fuse_replies/specs) with linux/fuse.h, by a C
# compiler: numbers, sizes of structs, and where each field stands that a definition names. What the header is too old for
# is named and passed over. Prints a line for each that differs, and last `N passed, M failed`; status 1 where one
# differs. Without a compiler or the header it is skipped.
set -eu
top=$(cd "$(dirname "$0")/.." && pwd)
work=$(mktemp -d)
trap 'rm -rf "$work"' EXIT

# skip WHY: says why nothing is compared.
skip() {
    echo "skipped: $1"
    echo "0 passed, 0 failed"
    exit 0
}
command -v cc > /dev/null || skip "there is no C compiler"
command -v python3 > /dev/null || skip "there is no python3"
echo '#include <linux/fuse.h>' | cc -E - > /dev/null 2>&1 || skip "there is no linux/fuse.h"
python3 "$top/tests/protocol_sizes.py" "$top/crates" > "$work/sizes.c"
cc -Wall -o "$work/sizes" "$work/sizes.c"
"$work/sizes"
