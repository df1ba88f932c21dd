#!/bin/sh
# run_rows.sh [WORD]: runs the built program on each script of tests/rows, in memory and over a socket, and compares what
# it prints, and then the command `frame` and the program's faults. With WORD, only the scripts whose name has the word.
# A script whose name ends in -in-hex is run with --hex.
# Prints a line for each case that differs, and ends with status 1 where there is one.
set -u
cd "$(dirname "$0")/.." || exit 1
. tests/judge.sh

# The stack of each run, in KiB (SECURITY.md).
ulimit -s 256

# expect_full NAME STATUS FAULT ARGUMENTS..: the same with a full device as standard output.
expect_full() {
    name=$1
    status=$2
    printf %s "$3" > "$work/want-err"
    shift 3
    "$program" "$@" < "$work/in" > /dev/full 2> "$work/err"
    code=$?
    : > "$work/out"
    : > "$work/want-out"
    judge "$name" "$code" "$status"
}

newline='
'
word=${1:-}
ls tests/rows/*"$word"*.script > "$work/rows" 2> /dev/null || { echo "no row has the word $word"; exit 1; }
for script in tests/rows/*"$word"*.script; do
    name=$(basename "$script" .script)
    case $name in
        *-in-hex) "$program" run --hex "$script" > "$work/out" 2> "$work/err" ;;
        *) "$program" run "$script" > "$work/out" 2> "$work/err" ;;
    esac
    code=$?
    cp "tests/rows/$name.expected" "$work/want-out"
    : > "$work/want-err"
    judge "$name" "$code" 0
done

# The same over a socket, which is gone afterwards.
for script in tests/rows/*"$word"*.script; do
    name=$(basename "$script" .script)
    case $name in *-in-hex) continue ;; esac
    "$program" socket "$script" "$work/sock" > "$work/out" 2> "$work/err"
    code=$?
    [ -e "$work/sock" ] && echo "the socket is left" >> "$work/err"
    cp "tests/rows/$name.expected" "$work/want-out"
    : > "$work/want-err"
    judge "$name over a socket" "$code" 0
done

if [ -n "$word" ]; then
    echo "$passed rows passed, $failed failed"
    [ "$failed" = 0 ]
    exit
fi

# The same rows, and no others, are in a table of fw_tests, without their comments: name, script and output are a text
# each, cut into lines.
sed -e ':join' -e '/\\$/{N' -e 's/\\\n *//' -e 'b join' -e '}' crates/fw_tests/src/tests/rows.rt \
    | sed -n -E 's/^ *(name|script|output): "(.*)",$/\1 \2/p' > "$work/table"
ls tests/rows/*.script | wc -l > "$work/want-out"
grep -c '^name ' "$work/table" > "$work/out"
: > "$work/want-err"
: > "$work/err"
for script in tests/rows/*.script; do
    name=$(basename "$script" .script)
    grep -v "^#" "$script" | cat - "tests/rows/$name.expected" >> "$work/want-out"
    grep -x -A 2 "name $name" "$work/table" | sed -n -E 's/^(script|output) //p' \
        | while IFS= read -r text; do printf %b "$text"; done >> "$work/out"
done
judge "rows in the table of fw_tests" 0 0

# The bytes of some frames: the line of a row after which they are printed, the place of the first
# of them in the frame, and the bytes.
while IFS='|' read -r name line from bytes; do
    "$program" run --hex "tests/rows/$name.script" > "$work/lines" 2> "$work/err"
    code=$?
    grep -m 1 -x -A 1 "$line" "$work/lines" | sed -n 's/^frame //p' \
        | cut -c "$((2 * from + 1))-$((2 * from + ${#bytes}))" > "$work/out"
    echo "$bytes" > "$work/want-out"
    : > "$work/want-err"
    judge "bytes of $line in $name" "$code" 0
done << END
stat-of-missing-name|read 4 LOOKUP 42|0|2a0000000100000004000000000000000100000000000000000000000000000000000000000000006100
counts-of-two-lookups-and-exact-forget|read 14 FORGET 48|0|30000000020000000e000000000000000200000000000000000000000000000000000000000000000300000000000000
soft-signal-and-eagain|read 5 INTERRUPT 48|0|300000002400000005000000000000000000000000000000000000000000000000000000000000000400000000000000
list-and-list-from-an-offset|done 8 0 80|16|0200000000000000010000000000000001000000040000006100000000000000
stat-of-root|read 2 INIT 56|40|070000001f0000000000000001200400
END

# The script on standard input.
cp tests/rows/stat-of-root.script "$work/in"
expect script-on-standard-input 0 "$(cat tests/rows/stat-of-root.expected)$newline" ""
expect script-on-standard-input-by-a-dash 0 "$(cat tests/rows/stat-of-root.expected)$newline" "" run -
expect_full output-refused 5 ""

# A script that somebody types, and ends at once.
: > "$work/want-out"
echo "fuseworld reads a script from here, one event a line; fuseworld --help lists its commands" > "$work/want-err"
python3 -c 'import os, pty, subprocess, sys
writer, terminal = pty.openpty()
os.write(writer, b"\x04")
sys.exit(subprocess.run(sys.argv[1:], stdin=terminal, timeout=10).returncode)' "$program" > "$work/out" 2> "$work/err"
judge script-on-a-terminal "$?" 0

# One frame: a LOOKUP of `a` in node 1, and frames that are nearly one.
: > "$work/in"
header=010000000400000000000000010000000000000000000000000000000000000000000000
expect frame-of-a-lookup 0 "LOOKUP 4 1 42$newline" "" frame "2a000000${header}6100"
expect frame-without-its-last-byte 0 "fault 2 Length$newline" "" frame "2a000000${header}61"
expect frame-without-the-end-of-its-name 0 "fault 4 Name$newline" "" frame "29000000${header}61"
expect frame-of-39-bytes 0 "fault 1 Short$newline" "" frame "2a000000${header%00}"
expect frame-of-no-bytes 1 "" "bad hex$newline" frame ""
expect frame-of-half-a-byte 1 "" "bad hex$newline" frame 2a0
expect frame-in-capitals 1 "" "bad hex$newline" frame 2A
expect_full frame-output-refused 5 "" frame 2a

# One frame of each opcode, under unique 4 and about node 2. INIT, INTERRUPT and BATCH_FORGET are about no node.
zeros() { printf "%0$((2 * $1))d" 0; }
low32() { printf '%02x%02x%02x%02x' $(($1 & 255)) $(($1 >> 8 & 255)) $(($1 >> 16 & 255)) $(($1 >> 24 & 255)); }
low64() { low32 "$1"; zeros 4; }
range() { low64 1; zeros 8; low32 "$1"; zeros 20; }
while read -r name number node len body; do
    case $body in
        range:*) rest=${body#range:}; body=$(range "${rest%%:*}")${rest#*:} ;;
    esac
    frame=$(low32 "$len")$(low32 "$number")$(low64 4)$(low64 2)$(zeros 16)$body
    expect "frame-of-$name" 0 "$name 4 $node $len$newline" "" frame "$frame"
done << END
LOOKUP 1 2 42 6100
FORGET 2 2 48 $(low64 3)
GETATTR 3 2 56 $(zeros 16)
MKDIR 9 2 50 $(low32 493)$(zeros 4)6100
UNLINK 10 2 42 6100
RMDIR 11 2 42 6100
RENAME 12 2 52 $(low64 1)61006200
LINK 13 2 50 $(low64 3)6200
OPEN 14 2 48 $(zeros 8)
READ 15 2 80 range:10:
WRITE 16 2 82 range:2:6869
RELEASE 18 2 64 $(low64 1)$(zeros 16)
INIT 26 0 56 $(low32 7)$(low32 31)$(zeros 4)01200400
READDIR 28 2 80 range:4096:
CREATE 35 2 58 $(zeros 4)$(low32 33188)$(zeros 8)6100
INTERRUPT 36 0 48 $(low64 4)
BATCH_FORGET 42 0 80 $(low32 2)$(zeros 4)$(low64 2)$(low64 1)$(low64 3)$(low64 1)
READDIRPLUS 44 2 80 range:4096:
END
# FALLOCATE, which is not served.
expect frame-of-fallocate 0 "fault 3 Opcode$newline" "" frame "$(low32 80)$(low32 43)$(low64 4)$(low64 2)$(zeros 16)$(range 4096)"

# Scripts that are not run.
printf 'call stat' > "$work/script"
expect no-path 1 "" "line 1: wrong words$newline" run "$work/script"
printf 'mount 1000 0\nread p 0\ntake one\nfoo\n' > "$work/script"
expect mistake-on-the-third-line 1 "" "line 3: bad number$newline" run "$work/script"
cp "$work/script" "$work/in"
expect mistake-on-standard-input 1 "" "line 3: bad number$newline"
: > "$work/in"
expect missing-file 1 "" "cannot read $work/none$newline" run "$work/none"
expect directory-as-file 1 "" "cannot read $work$newline" run "$work"

# Sockets that cannot be made. A file in a socket's place stays, and a script is judged first.
: > "$work/in"
: > "$work/sock"
expect socket-in-the-place-of-a-file 4 "" "socket failed$newline" socket tests/rows/stat-of-root.script "$work/sock"
[ -e "$work/sock" ]
judge file-in-place-of-a-socket-stays $? 0
expect socket-without-a-path 4 "" "socket failed$newline" socket tests/rows/stat-of-root.script ""
expect socket-in-no-folder 4 "" "socket failed$newline" socket tests/rows/stat-of-root.script "$work/none/sock"
expect socket-for-a-bad-script 1 "" "line 3: bad number$newline" socket "$work/script" "$work/sock"
expect socket-for-a-missing-script 1 "" "cannot read $work/none$newline" socket "$work/none" "$work/sock"
rm "$work/sock"

# The command line. Its help goes to standard error.
for words in --help "run --help" "frame --help" "socket --help" "run" "frame" "socket a" "other" "run --hex --hex a"; do
    # shellcheck disable=SC2086
    "$program" $words < /dev/null > "$work/out" 2> "$work/err"
    code=$?
    : > "$work/want-out"
    cp "$work/err" "$work/want-err"
    [ -s "$work/err" ] || echo "help" > "$work/want-err"
    judge "command line: $words" "$code" 2
done

echo "$passed rows passed, $failed failed"
[ "$failed" = 0 ]
