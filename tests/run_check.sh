#!/bin/sh
# Runs the command `check` of the built program on each capture of tests/sessions, whose printed lines stand in the file of
# the same name with .expected, and looks whether tests/session_frames.py still writes both. Then the ways to name a
# capture, bad lines, and what cannot be read or written.
# Prints a line for each case that differs, and ends with status 1 where there is one.
set -u
cd "$(dirname "$0")/.." || exit 1
. tests/judge.sh

# judged NAME STATUS FILE OPTION..: compares what `check` prints of a capture with want-out, and standard error with want-err.
judged() {
    name=$1
    status=$2
    shift 2
    "$program" check "$@" < /dev/null > "$work/out" 2> "$work/err"
    judge "$name" $? "$status"
}

# party_alone FILE PARTY OTHER: what is wanted of one party alone, by the lines that are wanted of all. A fault of another
# party and a warning are neither printed nor counted.
party_alone() {
    grep "^line [0-9]*: \($2\|not judged from here on\): " "$1"
    sed -n "/^requests /p; /^faults: /s/\\($3\\|device\\|warnings\\) [0-9]*/\\1 0/gp" "$1"
}

: > "$work/want-err"
python3 -B tests/session_frames.py > "$work/out"
code=$?
: > "$work/want-out"
: > "$work/err"
judge "the files of tests/sessions" "$code" 0

for capture in tests/sessions/*.capture; do
    expected=${capture%.capture}.expected
    cp "$expected" "$work/want-out"
    status=6
    tail -n 1 "$expected" | grep -qx "faults: kernel 0 server 0 device 0, warnings [0-9]*" && status=0
    judged "$capture" "$status" "$capture"
done

# One party alone.
for expected in tests/sessions/*.expected; do
    capture=${expected%.expected}.capture
    for pair in "server kernel" "kernel server"; do
        party=${pair% *}
        party_alone "$expected" "$party" "${pair#* }" > "$work/want-out"
        status=0
        grep -q "^line [0-9]*: $party: " "$work/want-out" && status=6
        judged "$capture with --$party" "$status" "$capture" "--$party"
    done
done
cat > "$work/want-out" <<END
line 4: server: reply to nothing: unique 90
line 7: server: second reply: unique 4; STATFS read at line 5; answered at line 6
line 9: server: body that is not its request's
requests 5 replies 7 notifications 0 refused 2 unanswered 0 entries 0 forgotten 0 nodes 0 open 0
faults: kernel 0 server 3 device 0, warnings 0
END
judged "the server where all parties have faults" 6 --server tests/sessions/device.capture
cat > "$work/want-out" <<END
requests 5 replies 7 notifications 0 refused 2 unanswered 0 entries 0 forgotten 0 nodes 0 open 0
faults: kernel 0 server 0 device 0, warnings 0
END
judged "the kernel where the others have faults" 0 --kernel tests/sessions/device.capture
: > "$work/want-out"
echo "error: --server and --kernel exclude each other" > "$work/want-err"
judged "two parties alone" 2 --server --kernel tests/sessions/device.capture
: > "$work/want-err"

# JSON: a first object, then one for each fault and one of the counts.
cat > "$work/want-out" <<'END'
{"event":"check","schema":1}
{"event":"fault","line":4,"party":"device","rule":"reply to nothing accepted","unique":90}
{"event":"fault","line":4,"party":"server","rule":"reply to nothing","unique":90}
{"event":"fault","line":7,"party":"device","rule":"reply to nothing accepted","unique":4,"read_line":5,"read_opcode":"STATFS","answered_line":6}
{"event":"fault","line":7,"party":"server","rule":"second reply","unique":4,"read_line":5,"read_opcode":"STATFS","answered_line":6}
{"event":"fault","line":9,"party":"server","rule":"body that is not its request's"}
{"event":"fault","line":9,"party":"device","rule":"body of another request accepted","unique":6,"read_line":8,"read_opcode":"STATFS"}
{"event":"fault","line":11,"party":"device","rule":"right reply refused","unique":8,"read_line":10,"read_opcode":"STATFS"}
{"event":"counts","requests":5,"replies":7,"notifications":0,"refused":2,"unanswered":0,"entries":0,"forgotten":0,"nodes":0,"open":0,"kernel":0,"server":3,"device":4,"warnings":0}
END
judged "a session in JSON" 6 --json tests/sessions/device.capture
cat > "$work/want-out" <<'END'
{"event":"check","schema":1}
{"event":"counts","requests":5,"replies":7,"notifications":0,"refused":2,"unanswered":0,"entries":0,"forgotten":0,"nodes":0,"open":0,"kernel":0,"server":0,"device":0,"warnings":0}
END
judged "one party in JSON" 0 --json --kernel tests/sessions/device.capture
for expected in tests/sessions/*.expected; do
    capture=${expected%.expected}.capture
    python3 tests/check_json.py "$expected" > "$work/want-out"
    status=6
    tail -n 1 "$expected" | grep -qx "faults: kernel 0 server 0 device 0, warnings [0-9]*" && status=0
    judged "$capture in JSON" "$status" --json "$capture"
done

# The life of one node, in place of faults, which are counted as ever.
cat > "$work/want-out" <<END
line 7: MKNOD 6 gives node 2: count 1
line 14: LINK 14 names node 2: count 1
line 15: LINK 14 gives node 2: count 2
line 29: FORGET 30 forgets node 2: lookups 2 count 0
END
tail -n 2 tests/sessions/good-names.expected >> "$work/want-out"
judged "the life of a file" 0 --node 2 tests/sessions/good-names.capture
cat > "$work/want-out" <<END
line 9: MKDIR 8 gives node 3: count 1
line 10: SYMLINK 10 names node 3: count 1
line 14: LINK 14 names node 3: count 1
line 16: RENAME 16 names node 3: count 1
line 18: RENAME2 18 names node 3: count 1
line 20: UNLINK 20 names node 3: count 1
line 22: UNLINK 22 names node 3: count 1
line 26: BATCH_FORGET 26 forgets node 3: lookups 1 count 0
END
tail -n 2 tests/sessions/good-names.expected >> "$work/want-out"
judged "the life of a directory" 0 --node 3 tests/sessions/good-names.capture
cat > "$work/want-out" <<END
line 5: LOOKUP 4 gives node 2: count 1
line 7: LOOKUP 6 gives node 2: count 2
line 9: FORGET 10 forgets node 2: lookups 0 count 2
line 10: FORGET 12 forgets node 2: lookups 3 count 0
END
tail -n 2 tests/sessions/forgets.expected >> "$work/want-out"
judged "the life of a node that is forgotten too often" 6 --node 2 tests/sessions/forgets.capture
cat > "$work/want-out" <<END
line 4: LOOKUP 4 names node 1: count 0
line 6: LOOKUP 6 names node 1: count 0
line 8: FORGET 8 forgets node 1: lookups 1 count 0
line 11: LOOKUP 14 names node 1: count 0
line 13: LOOKUP 16 names node 1: count 0
line 18: BATCH_FORGET 22 forgets node 1: lookups 0 count 0
line 19: LOOKUP 24 names node 1: count 0
line 21: LOOKUP 26 names node 1: count 0
END
tail -n 2 tests/sessions/forgets.expected >> "$work/want-out"
judged "the life of the root, which is not counted" 6 --node 1 tests/sessions/forgets.capture
cat > "$work/want-out" <<END
line 7: READDIRPLUS 6 gives node 2: count 1
line 18: BATCH_FORGET 18 forgets node 2: lookups 1 count 0
END
tail -n 2 tests/sessions/good-directories.expected >> "$work/want-out"
judged "the life of a file that is listed" 0 --node 2 tests/sessions/good-directories.capture
tail -n 2 tests/sessions/good-directories.expected > "$work/want-out"
judged "the life of what .. is listed as" 0 --node 7 tests/sessions/good-directories.capture
cp tests/sessions/frames-of-an-old-minor.expected "$work/want-out"
judged "the life of a node in a session that is not judged" 0 --node 2 tests/sessions/frames-of-an-old-minor.capture
tail -n 2 tests/sessions/forgets.expected > "$work/want-out"
judged "the life of a node that is not there" 6 --node 77 tests/sessions/forgets.capture
cp tests/sessions/forgets.expected "$work/want-out"
judged "no node" 6 --node 0 tests/sessions/forgets.capture
: > "$work/want-out"
echo "error: --json and --node exclude each other" > "$work/want-err"
judged "the life of a node in JSON" 2 --json --node 2 tests/sessions/forgets.capture
: > "$work/want-err"

# The table of opcodes, in place of faults, which are counted as ever. tests/summary.py makes it by itself.
for expected in tests/sessions/*.expected; do
    capture=${expected%.expected}.capture
    status=6
    tail -n 1 "$expected" | grep -qx "faults: kernel 0 server 0 device 0, warnings [0-9]*" && status=0
    { grep "^line [0-9]*: not judged from here on: " "$expected"; python3 -B tests/summary.py "$capture"; tail -n 2 "$expected"; } > "$work/want-out"
    judged "the opcodes of $capture" "$status" --summary "$capture"
    python3 tests/check_json.py "$expected" > "$work/objects"
    { head -n 1 "$work/objects"; grep '^{"event":"unjudged"' "$work/objects"; python3 -B tests/summary.py --json "$capture"
        tail -n 1 "$work/objects"; } > "$work/want-out"
    judged "the opcodes of $capture in JSON" "$status" --summary --json "$capture"
done

# Times, by hand. STATFS takes 10 to 100 ns, out of order: five of ten are no longer than 50, nine than 90. One STATFS has
# a reply whose length is wrong, and waits. LOOKUP 4 has a reply that finds no request, one with ENOENT after 400 ns, and
# a second one; LOOKUP 6 has no time; LOOKUP 8 has a reply from before it. Opcode 99 is not known; a header is cut.
asked() { # asked CODE UNIQUE [@TIME]: a request without a body
    printf '> %s28000000%02x000000%02x00000000000000010000000000000000000000000000000000000000000000\n' "${3:+$3 }" "$1" "$2"
}
looked_up() { # looked_up UNIQUE [@TIME]: a LOOKUP of a
    printf '> %s2a00000001000000%02x000000000000000100000000000000000000000000000000000000000000006100\n' "${2:+$2 }" "$1"
}
failed() { # failed ERROR UNIQUE @TIME [ERRNO]: a reply with an error
    printf '< %s 10000000%s%02x00000000000000%s\n' "$3" "$1" "$2" "${4:+ $4}"
}
{
    echo "> @100 380000001a0000000200000000000000000000000000000000000000000000000000000000000000070000001f0000000000000001000000"
    echo "< @1600 50000000000000000200000000000000070000001f0000000000000000000000000000000010000001000000 +36"
    looked_up 4 @2000
    failed feffffff 4 @2010 ENOENT
    failed feffffff 4 @2400
    failed feffffff 4 @2500
    looked_up 6
    failed feffffff 6 @2600
    looked_up 8 @3000
    failed feffffff 8 @2900
    unique=10
    for time in 70 10 100 30 90 50 20 80 40 60; do
        asked 17 $unique @4000
        printf '< @%d 6000000000000000%02x00000000000000%0160d\n' $((4000 + time)) $unique 0
        unique=$((unique + 2))
    done
    asked 17 30 @5000
    echo "< @5001 110000000000000000001e00000000000000 EINVAL"
    echo "> @5100 300000002400000005000000000000000000000000000000000000000000000000000000000000000400000000000000"
    failed f5ffffff 5 @5107
    echo "> 300000000200000020000000000000000700000000000000000000000000000000000000000000000100000000000000"
    asked 99 34 @6000
    failed daffffff 34 @6005
    echo "> @7000 2800000001000000"
} > "$work/times"
cat > "$work/want-table" <<END
opcode requests replies errors median p90 max
LOOKUP 3 3 3 0 400 400
FORGET 1 0 0 - - -
STATFS 11 10 0 50 90 100
INIT 1 1 0 1500 1500 1500
INTERRUPT 1 1 1 7 7 7
unknown 2 1 1 5 5 5
END
cp "$work/want-table" "$work/want-out"
python3 -B tests/summary.py "$work/times" > "$work/out"
judge "the opcodes of a session with times, by tests/summary.py" $? 0
"$program" check "$work/times" > "$work/plain"
code=$?
{ cat "$work/want-table"; tail -n 2 "$work/plain"; } > "$work/want-out"
judged "the opcodes of a session with times" "$code" --summary "$work/times"
cat > "$work/want-objects" <<'END'
{"event":"opcode","opcode":"LOOKUP","requests":3,"replies":3,"errors":3,"median":0,"p90":400,"max":400}
{"event":"opcode","opcode":"FORGET","requests":1,"replies":0,"errors":0,"median":null,"p90":null,"max":null}
{"event":"opcode","opcode":"STATFS","requests":11,"replies":10,"errors":0,"median":50,"p90":90,"max":100}
{"event":"opcode","opcode":"INIT","requests":1,"replies":1,"errors":0,"median":1500,"p90":1500,"max":1500}
{"event":"opcode","opcode":"INTERRUPT","requests":1,"replies":1,"errors":1,"median":7,"p90":7,"max":7}
{"event":"opcode","opcode":"unknown","requests":2,"replies":1,"errors":1,"median":5,"p90":5,"max":5}
END
"$program" check --json "$work/times" > "$work/plain"
{ head -n 1 "$work/plain"; cat "$work/want-objects"; tail -n 1 "$work/plain"; } > "$work/want-out"
judged "the opcodes of a session with times in JSON" "$code" --summary --json "$work/times"
"$program" check --server "$work/times" > "$work/plain"
code=$?
{ cat "$work/want-table"; tail -n 2 "$work/plain"; } > "$work/want-out"
judged "the opcodes where the server alone is judged" "$code" --summary --server "$work/times"
: > "$work/want-out"
echo "error: --summary and --node exclude each other" > "$work/want-err"
judged "the opcodes and the life of a node" 2 --summary --node 2 tests/sessions/forgets.capture
: > "$work/want-err"

# A strict check: a warning counts as a fault, and nothing else changes.
for expected in tests/sessions/*.expected; do
    capture=${expected%.expected}.capture
    cp "$expected" "$work/want-out"
    status=6
    tail -n 1 "$expected" | grep -qx "faults: kernel 0 server 0 device 0, warnings 0" && status=0
    judged "$capture with --strict" "$status" --strict "$capture"
done
grep -v "^line [0-9]*: warning: \|^faults: " tests/sessions/handles-given-again.expected > "$work/want-out"
echo "faults: kernel 0 server 0 device 0, warnings 0" >> "$work/want-out"
judged "warnings with --strict and --server" 0 --strict --server tests/sessions/handles-given-again.capture

# A session that is joined in its middle: no fault that what went before may excuse.
: > "$work/want-out"
python3 -B tests/joined.py --cuts 4 "$program" tests/sessions/*.capture > "$work/out"
code=$?
: > "$work/err"
judge "captures that are cut, with --joined" "$code" 0

# A LOOKUP that is answered twice, and a node that no entry gave: the second reply is certain, the node is not.
cat > "$work/middle" <<END
> 2a0000000100000004000000000000000100000000000000e8030000e80300004d000000000000006100
< 10000000feffffff0400000000000000
< 10000000feffffff0400000000000000 ENOENT
> 280000000500000006000000000000000900000000000000e8030000e80300004d00000000000000
END
cat > "$work/want-out" <<END
line 3: server: second reply: unique 4; LOOKUP read at line 1; answered at line 2
requests 2 replies 2 notifications 0 refused 1 unanswered 1 entries 0 forgotten 0 nodes 0 open 0
faults: kernel 0 server 1 device 0, warnings 0
END
judged "a session from its middle on" 6 --joined "$work/middle"
grep -v "^line " "$work/want-out" | sed "s/server 1/server 0/" > "$work/want-kernel"
mv "$work/want-kernel" "$work/want-out"
judged "its kernel alone" 0 --joined --kernel "$work/middle"

# A LOOKUP, whose last reply is a second one, and between them STATFS N times, read and answered: each is remembered, up to
# 4,096 in all.
remembering() {
    python3 -B - "$1" > "$work/capture" <<END
import sys
sys.path.insert(0, "tests")
from fuse_frames import EIO, init_reply, init_request, reply, request, text
print(">", init_request().hex())
print("<", init_reply().hex())
print(">", request("LOOKUP", 4, 1, text("a")).hex())
print("<", reply(4, error=EIO).hex())
for half in range(int(sys.argv[1])):
    print(*("<", reply(6 + half - 1, error=EIO).hex()) if half % 2 else (">", request("STATFS", 6 + half, 1).hex()))
print("<", reply(4, error=EIO).hex(), "ENOENT")
END
    "$program" check --server "$work/capture" 2> "$work/err" | sed -n 's/^line [0-9]*: server: second reply: unique 4//p' > "$work/out"
}
for pair in "4094; LOOKUP read at line 3; answered at line 4" "4095; answered at line 4" "4096"; do
    count=${pair%%;*}
    echo "${pair#"$count"}" > "$work/want-out"
    remembering "$count"
    judge "what is remembered behind $count more" 0 0
done

# Each rule is broken somewhere, and there is each warning.
cat tests/sessions/*.expected | sed -n 's/^line [0-9]*: \([a-z]*: [^:]*\).*/\1/p' | sort -u | wc -l > "$work/out"
echo 49 > "$work/want-out"
: > "$work/err"
judge "how many rules are broken in tests/sessions" 0 0

# The same capture with CRLF, in upper-case hex and with times says the same.
capture=tests/sessions/forgets.capture
cp tests/sessions/forgets.expected "$work/want-out"
sed 's/$/\r/' "$capture" > "$work/capture"
judged "lines that end with CRLF" 6 "$work/capture"
sed '/^[<>]/y/abcdef/ABCDEF/' "$capture" > "$work/capture"
judged "hex of upper case" 6 "$work/capture"
sed 's/^\([<>]\) /\1 @1700000000000000000 /' "$capture" > "$work/capture"
judged "lines with times" 6 "$work/capture"
# The last line feed may be missing.
printf %s "$(cat "$capture")" > "$work/capture"
judged "no line feed at the end" 6 "$work/capture"

# From standard input.
"$program" check < "$capture" > "$work/out" 2> "$work/err"
judge "standard input" $? 6
"$program" check - < "$capture" > "$work/out" 2> "$work/err"
judge "standard input, by its name" $? 6
printf 'requests 0 replies 0 notifications 0 refused 0 unanswered 0 entries 0 forgotten 0 nodes 0 open 0\nfaults: kernel 0 server 0 device 0, warnings 0\n' > "$work/want-out"
"$program" check < /dev/null > "$work/out" 2> "$work/err"
judge "nothing" $? 0

# A bad line: what was printed before it stays, and no counts follow.
head -n 5 tests/sessions/device.capture > "$work/begin"
head -n 2 tests/sessions/device.expected > "$work/faults"
while IFS=: read -r fault words; do
    cp "$work/begin" "$work/capture"
    echo "$words" >> "$work/capture"
    cp "$work/faults" "$work/want-out"
    echo "line 6: $fault" > "$work/want-err"
    judged "a bad line: $words" 1 "$work/capture"
done <<END
unknown direction:00
unknown direction: > 00
unknown direction:>00
unknown direction:x
bad hex:> 0
bad hex:> zz
bad hex:> @x 00
bad hex:> @01 00
bad hex:< @18446744073709551616 00
wrong words:> 00 00
wrong words:> 00 +01
wrong words:> 00  +1
wrong words:> 00 ENOENT
wrong words:< 00 enoent
wrong words:< 00 E
wrong words:< 00 ENOENT EINVAL
wrong words:< 00 ENOENT +1
wrong words:< 00 +16777216
wrong words:=
wrong words:= ended
wrong words:= ended ok
wrong words:= several
END

# What cannot be read, and what cannot be written.
: > "$work/want-out"
echo "cannot read $work/none: No such file or directory (os error 2)" > "$work/want-err"
judged "no such file" 1 "$work/none"
echo "cannot read $work" > "$work/want-err"
judged "a folder" 1 "$work"
: > "$work/want-err"
for capture in tests/sessions/good-names.capture tests/sessions/forgets.capture; do
    "$program" check "$capture" > /dev/full 2> "$work/err"
    code=$?
    : > "$work/out"
    judge "$capture to a full device" "$code" 5
done

# The command line. Its help goes to standard error.
for words in "check --help" "check a b" "check --unknown" "check --node x" "check --node -1" \
    "check --node 18446744073709551616"; do
    # shellcheck disable=SC2086
    "$program" $words < /dev/null > "$work/out" 2> "$work/err"
    code=$?
    cp "$work/err" "$work/want-err"
    [ -s "$work/err" ] || echo "help" > "$work/want-err"
    judge "command line: $words" "$code" 2
done

echo "$passed captures and ways to check one passed, $failed failed"
[ "$failed" = 0 ]
