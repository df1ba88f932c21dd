#!/bin/sh
# Runs the built program's commands on frames, and compares what they print: each line of tests/frames/words.txt that
# begins with `$` has the words of one run, and the line below it is what that prints. Then a capture, from its file and
# from standard input, the faults of the commands, and the vectors, which Python's decoders judge too.
# Prints a line for each case that differs, and ends with status 1 where there is one.
set -u
cd "$(dirname "$0")/.." || exit 1
. tests/judge.sh

# expect_lines STATUS OUTPUT FAULT ARGUMENTS..: runs the program, whose output and fault are a line each, or nothing.
expect_lines() {
    status=$1
    [ -z "$2" ] || echo "$2" > "$work/want-out"
    [ -n "$2" ] || : > "$work/want-out"
    [ -z "$3" ] || echo "$3" > "$work/want-err"
    [ -n "$3" ] || : > "$work/want-err"
    shift 3
    "$program" "$@" < /dev/null > "$work/out" 2> "$work/err"
    judge "$*" $? "$status"
}

while IFS= read -r words && IFS= read -r wanted; do
    # shellcheck disable=SC2086
    expect_lines 0 "$wanted" "" ${words#\$ }
done < tests/frames/words.txt

expect_lines 1 "" "bad hex" frame --words 2a0
expect_lines 1 "" "bad hex" reply LOOKUP 2A
expect_lines 2 "" "unknown opcode FLUSH" reply FLUSH 10000000000000000400000000000000
expect_lines 2 "" "unknown opcode lookup" reply lookup 10000000000000000400000000000000
expect_lines 1 "" "bad hex" frame --any 2a0
expect_lines 1 "" "bad hex" reply --any STATFS 2A
expect_lines 2 "" "unknown opcode CUSE_INIT" reply --any CUSE_INIT 10000000000000000400000000000000

# A capture.
cp tests/frames/made.expected "$work/want-out"
: > "$work/want-err"
"$program" decode tests/frames/made.capture > "$work/out" 2> "$work/err"
judge "decode a file" $? 0
"$program" decode < tests/frames/made.capture > "$work/out" 2> "$work/err"
judge "decode standard input" $? 0
"$program" decode tests/frames/made.capture > /dev/full 2> "$work/err"
code=$?
: > "$work/out"
: > "$work/want-out"
judge "decode to a full device" "$code" 5
expect_lines 0 "requests 0 replies 0 notifications 0 refused 0 unanswered 0 lookups" "" decode
for fault in "bad hex:> 2g" "bad hex:< 000" "wrong words:> 00 00" "wrong words:<" "wrong words:= open" "unknown direction:>00" "unknown direction:00"; do
    printf '# a frame of one byte\n\n> 0A\r\n%s\n' "${fault#*:}" > "$work/capture"
    expect_lines 1 "> len 1: the frame is too short for its header; kernel: malformed request" "line 4: ${fault%%:*}" decode "$work/capture"
done
expect_lines 1 "" "cannot read $work/none: No such file or directory (os error 2)" decode "$work/none"

# Frames of 7.8 are not read.
cat > "$work/want-out" <<END
> INIT 2 0 104 major 7 minor 45 flags 0x0000000000000000
< INIT 2 0 80 major 7 minor 8 max_write 8192 flags 0x0000000000000000; not judged from here on: the sides agreed below 7.9, where entries and attributes are shorter
> LOOKUP 4 len 42
< unique 4 0 136
< unique 4 0 136; refused ENOENT
> FORGET 6 len 48
> GETATTR 8 len 40
= several readers
= ended
requests 4 replies 3 notifications 0 refused 1 unanswered 0 lookups
END
: > "$work/want-err"
"$program" decode tests/sessions/frames-of-an-old-minor.capture > "$work/out" 2> "$work/err"
judge "decode frames of an old minor" $? 0

# The vectors.
"$program" vectors > "$work/vectors" 2> "$work/err"
code=$?
python3 tests/check_vectors.py < "$work/vectors" > "$work/out" || code=vectors
echo "$(wc -l < "$work/vectors") vectors, 0 wrong" > "$work/want-out"
: > "$work/want-err"
judge "vectors" "$code" 0
"$program" vectors --all > "$work/all" 2> "$work/err"
code=$?
head -n "$(wc -l < "$work/vectors")" "$work/all" | cmp -s - "$work/vectors" || code=beginning
python3 tests/check_any_vectors.py < "$work/all" > "$work/out" || code=vectors
echo "$(($(wc -l < "$work/all") - $(wc -l < "$work/vectors"))) vectors, 0 wrong" > "$work/want-out"
judge "vectors of every opcode" "$code" 0
"$program" vectors > /dev/full 2> "$work/err"
code=$?
: > "$work/out"
: > "$work/want-out"
judge "vectors to a full device" "$code" 5
# A file has one block at most: what would be behind it is refused, and no signal ends the program.
for place in begin end; do
    : > "$work/limited"
    [ $place = end ] && printf x > "$work/limited"
    (ulimit -f 1; "$program" vectors >> "$work/limited" 2> "$work/err")
    code=$?
    : > "$work/out"
    judge "vectors beyond the limit on the size of files, from its $place" "$code" 5
done

# The version. A program without proofs (tests/unproved.py) says so.
version=$(sed -n 's/.*VERSION: &str = "\(.*\)";/\1/p' crates/fw_tasks/src/version.rt)
case $program in *-unproved) version="${version%% *}-unproved (no proofs)" ;; esac
expect_lines 0 "fuseworld $version" "" --version
"$program" --version > /dev/full 2> "$work/err"
code=$?
: > "$work/out"
: > "$work/want-out"
judge "version to a full device" "$code" 5

# The command line. Its help goes to standard error.
for words in "decode --help" "decode a b" "check --help" "check a b" "vectors a" "reply --help" "reply" "reply LOOKUP" "frame --words" "frame --any" "reply --any --asked 16777201 READ 00"; do
    # shellcheck disable=SC2086
    "$program" $words < /dev/null > "$work/out" 2> "$work/err"
    code=$?
    : > "$work/want-out"
    cp "$work/err" "$work/want-err"
    [ -s "$work/err" ] || echo "help" > "$work/want-err"
    judge "command line: $words" "$code" 2
done

echo "$passed runs on frames passed, $failed failed"
[ "$failed" = 0 ]
