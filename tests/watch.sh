#!/bin/sh
# Watches live mounts (examples/watch) of a small server (tests/watch_server.py), as root or as who may mount. What the
# server wrote down itself is compared with the capture; every way to end is tried, and none may leave a mount. Prints a
# line for each that failed, and last `N passed, M failed`; status 1 where one failed.
set -u
cd "$(dirname "$0")/.." || exit 1
export LC_ALL=C
tools=$PWD/examples/watch
tests=$PWD/tests
work=$(mktemp -d)
mount=$work/mount
watcher=
passed=0
failed=0
mkdir "$mount"

leave() {
    [ -z "$watcher" ] || kill "$watcher" 2> /dev/null
    ! is_mounted || umount -l "$mount"
    rm -rf --one-file-system "$work"
}
trap leave EXIT
trap 'exit 1' HUP INT TERM

is_mounted() {
    grep -q " $mount fuse " /proc/self/mounts
}

skip() {
    echo "skipped: $1"
    echo "0 passed, 0 failed"
    exit 0
}

# check NAME WANTED GOT
check() {
    if [ "$2" = "$3" ]; then
        passed=$((passed + 1))
    else
        failed=$((failed + 1))
        echo "not ok: $1: wanted $2, got $3"
    fi
}

# until_ COMMAND ..: tries it for 20 seconds.
until_() {
    for _ in $(seq 200); do
        "$@" && return
        sleep 0.1
    done
    return 1
}

is_unmounted() { ! is_mounted; }
is_inside() { [ "$(readlink "/proc/$1/cwd")" = "$mount" ]; }
is_gone() { ! kill -0 "$1" 2> /dev/null; }

# start OPTIONS .. -- LAST-WORD: watches the server, whose pid goes to the file pid. LAST-WORD is MOUNT, or STDIO.
start() {
    options=
    while [ "$1" != -- ]; do
        options="$options $1"
        shift
    done
    where=$2
    [ "$where" = MOUNT ] || where="- STDIO"
    rm -f "$work/log" "$work/capture" "$work/pid"
    # The options and words are split on purpose.
    # shellcheck disable=SC2086,SC2016
    "$work/watch" $options -l "$work/capture" "$mount" -- sh -c 'echo $$ > "$0"; exec "$@"' "$work/pid" \
        python3 "$tests/watch_server.py" "$work/log" $where 2> "$work/err" &
    watcher=$!
    until_ is_ready || { echo "not ok: nothing is mounted"; cat "$work/err"; exit 1; }
}

is_ready() {
    [ -s "$work/log" ] && is_mounted
}

# Calls for all that the server has; a call that hangs ends after 30 seconds.
load() {
    timeout 30 ls -l "$mount" > "$work/listed" 2>&1
    check "$1: cat" "$content" "$(timeout 30 cat "$mount/file" | cksum)"
    check "$1: cat of what is spliced" "$content" "$(timeout 30 cat "$mount/spliced" | cksum)"
    printf "twelve bytes" | timeout 30 tee -a "$mount/file" > /dev/null
    check "$1: write" 0 $?
    timeout 30 mkdir "$mount/new" 2> /dev/null
    check "$1: mkdir" 0 $?
    timeout 30 ls "$mount/twice" "$mount/short" > /dev/null 2>&1
    check "$1: ls" "directory file new spliced " "$(timeout 30 ls "$mount" | tr '\n' ' ')"
}

# ended NAME LAST-LINE STATUS: the watcher ends by itself, the capture has that last line, and nothing is mounted or left.
ended() {
    until_ is_gone "$watcher" || kill -9 "$watcher"
    wait "$watcher"
    check "$1: status" "$3" $?
    watcher=
    check "$1: last line" "$2" "$(tail -n 1 "$work/capture")"
    until_ is_unmounted
    check "$1: no mount" 0 $?
    until_ is_gone "$(cat "$work/pid")"
    check "$1: no server" 0 $?
}

# frames NAME WORDS ..: the frames of the capture are those of the log; the pcap of the capture leads back to it.
frames() {
    name=$1
    shift
    python3 "$tests/watch_frames.py" "$@" "$work/capture" "$work/log" > "$work/compared"
    check "$name: frames ($(cat "$work/compared"))" 0 $?
    python3 "$tools/from_capture.py" "$work/capture" > "$work/pcap" \
        && python3 "$tools/from_capture.py" --back "$work/pcap" | cmp -s - "$work/capture"
    check "$name: pcap and back" 0 $?
}

# The device refuses the second reply of each two (ENOENT), and the frame whose `len` is wrong (EINVAL). Linux looks each
# of the two names up once or more.
results() {
    check "$1: results" "EINVAL ENOENT " "$(awk '$1 == "<" {print $3}' "$work/capture" | grep '^E' | sort -u | tr '\n' ' ')"
    check "$1: notification" 1 "$(grep -cE '^< [0-9a-f]{8}030000000{16}010{14}030{6}0{8}6e657700$' "$work/capture")"
}

# shellcheck disable=SC2188
(: <> /dev/fuse) 2> /dev/null || skip "/dev/fuse cannot be opened"
command -v cc > /dev/null || skip "there is no C compiler"
command -v python3 > /dev/null || skip "there is no python3"
cc -O1 -Wall -Wextra -Werror -o "$work/watch" "$tools/watch.c"
check "watch.c is built" 0 $?
"$work/watch" -l "$work/capture" "$mount" -- true 2> "$work/err"
! grep -q "^watch: mount: " "$work/err" || skip "a mount is refused ($(head -n 1 "$work/err"))"
check "a server that ends at once" "= closed" "$(tail -n 1 "$work/capture")"
is_mounted
check "a server that ends at once: no mount" 1 $?
content=$(python3 -c 'import sys; sys.stdout.buffer.write(bytes(range(250)) * 400)' | cksum)

start -- MOUNT
load umount
umount "$mount"
ended umount "= ended ENODEV" 0
frames umount
results umount

start -s 0 -k -- STDIO
load "cut, -k"
umount "$mount"
ended "cut, -k" "= ended ENODEV" 0
frames "cut, -k" cut
results "cut, -k"
check "cut, -k: READ" "+100000" "$(grep '^< b0860100' "$work/capture" | awk '{print $3}' | sort -u)"
check "cut, -k: WRITE" "160 +12" "$(grep "^> 5c00000010000000" "$work/capture" | awk '{print length($2), $3}')"

start -- MOUNT
load "server killed"
kill -9 "$(cat "$work/pid")"
ended "server killed" "= closed" 0
frames "server killed"

for signal in TERM INT HUP; do
    start -- MOUNT
    timeout 30 ls "$mount" > /dev/null
    kill -s $signal "$watcher"
    ended "SIG$signal" "= ended ENODEV" 0
    frames "SIG$signal"
done

# A process is in the folder, and a MKDIR waits for its reply, as a notification waits for that MKDIR.
start -- MOUNT
(cd "$mount" && exec sleep 100) &
sleeper=$!
until_ is_inside $sleeper
kill -STOP "$(cat "$work/pid")"
timeout 60 mkdir "$mount/new" 2> /dev/null &
sleep 0.3
kill -CONT "$(cat "$work/pid")"
sleep 0.1
kill "$watcher"
ended "SIGTERM to a mount in use" "= ended ENODEV" 0
kill $sleeper

start -- MOUNT
timeout 30 ls "$mount" > /dev/null
kill -9 "$watcher"
until_ is_unmounted
check "SIGKILL: no mount" 0 $?
until_ is_gone "$(cat "$work/pid")"
check "SIGKILL: no server" 0 $?
watcher=

# The reader of the capture goes.
mkfifo "$work/fifo"
head -n 3 "$work/fifo" > /dev/null &
"$work/watch" -l "$work/fifo" "$mount" -- python3 "$tests/watch_server.py" "$work/log" MOUNT 2> "$work/err" &
watcher=$!
until_ is_mounted
timeout 30 ls "$mount" > /dev/null 2>&1
until_ is_gone $watcher
check "no reader: end" 0 $?
wait $watcher
check "no reader: status" 1 $?
watcher=
is_mounted
check "no reader: no mount" 1 $?

# Two threads, by hand: 11 reads while 10 waits to read, and its reply begins before 10's read has ended. A frame is cut by
# strace, and a notification is never seen to end.
head1="\\x10\\x00\\x00\\x00\\x01\\x00\\x00\\x00\\x02\\x00\\x00\\x00\\x00\\x00\\x00\\x00"
head2="\\x20\\x00\\x00\\x00\\x01\\x00\\x00\\x00\\x04\\x00\\x00\\x00\\x00\\x00\\x00\\x00"
reply="\\x10\\x00\\x00\\x00\\xfe\\xff\\xff\\xff\\x02\\x00\\x00\\x00\\x00\\x00\\x00\\x00"
cat > "$work/trace" << END
10 read(3</dev/fuse>,  <unfinished ...>
11 readv(3<\\x2f\\x64\\x65\\x76\\x2f\\x66\\x75\\x73\\x65>, [{iov_base="$head1", iov_len=8192}], 1) = 16
11 read(5<\\x2f\\x74\\x6d\\x70>, "$head1", 16) = 16
11 writev(3</dev/fuse>, [{iov_base="$reply", iov_len=16}, {iov_base="", iov_len=0}], 2 <unfinished ...>
10 <... read resumed>"$head2"..., 8192) = 32
10 write(3</dev/fuse>, "$reply", 16 <unfinished ...>
11 <... writev resumed>) = 16
10 <... write resumed>) = -1 ENOENT (No such file or directory)
11 write(3</dev/fuse>, "$reply", 16 <unfinished ...>
10 read(3</dev/fuse>, 0x7f0000000000, 8192) = -1 ENODEV (No such device)
11 +++ killed by SIGKILL +++
10 +++ exited with 0 +++
END
cat > "$work/wanted" << END
= several readers
> 10000000010000000200000000000000
< 10000000feffffff0200000000000000
> 20000000010000000400000000000000 +16
< 10000000feffffff0200000000000000 ENOENT
= ended ENODEV
END
python3 "$tools/from_strace.py" "$work/trace" > "$work/capture" 2> "$work/err"
check "a trace of two threads: status" 0 $?
cmp -s "$work/wanted" "$work/capture"
check "a trace of two threads" 0 $?
check "a trace of two threads: what it lacks" 3 "$(grep -c "the first is 4\|1 writes whose end\|1 frames were cut" "$work/err")"

# One thread reads, and another writes its reply.
cat > "$work/trace" << END
10 read(3</dev/fuse>, "$head1", 8192) = 16
11 write(3</dev/fuse>, "$reply", 16) = 16
10 read(3</dev/fuse>, 0x7f0000000000, 8192) = -1 ENODEV (No such device)
END
printf '%s\n' "= several writers" "> 10000000010000000200000000000000" "< 10000000feffffff0200000000000000" "= ended ENODEV" > "$work/wanted"
python3 "$tools/from_strace.py" "$work/trace" 2> "$work/err" | cmp -s "$work/wanted" -
check "a trace of a reader and a writer" 0 $?

# A capture by hand, with each kind of line, as pcap and back: what is skipped is not there.
cat > "$work/capture" << END
# times, a cut frame, a refused one, and an end
= several readers
= several writers
> @1700000000000000001 $(printf %080d 0) +12

> $(printf %080d 1)
< @1700000000000000002 10000000feffffff0200000000000000 ENOENT
< 10000000feffffff0200000000000000 +4 E600
= ended ENODEV
END
grep '^[<>=]' "$work/capture" > "$work/wanted"
python3 "$tools/from_capture.py" "$work/capture" > "$work/pcap" && python3 "$tools/from_capture.py" --back "$work/pcap" > "$work/back"
check "pcap of each kind of line" 0 $?
cmp -s "$work/wanted" "$work/back"
check "pcap of each kind of line, and back" 0 $?
# The first request is the third packet: its time, the bytes that are kept and those on the wire, and its head.
check "pcap: a packet's heads" "00f15365 01000000 2c000000 38000000 00010000" \
    "$(python3 -c 'import sys; print(open(sys.argv[1], "rb").read()[94:114].hex(" ", 4))' "$work/pcap")"
if command -v tcpdump > /dev/null; then
    tcpdump -nr "$work/pcap" 2> "$work/err" > "$work/out"
    check "tcpdump: packets" 7 "$(grep -c "^[0-9]" "$work/out")"
    check "tcpdump: link type" 1 "$(grep -c "147" "$work/err")"
else
    echo "skipped: there is no tcpdump"
fi
for words in "> " "> zz" "x 00" "> 00 ENOENT more" "> @x 00"; do
    echo "$words" > "$work/capture"
    python3 "$tools/from_capture.py" "$work/capture" > "$work/pcap" 2> "$work/err"
    check "pcap of a bad line $words" 1 $?
    check "pcap of a bad line $words: what is said" 1 "$(grep -c '^from_capture.py: line 1: ' "$work/err")"
done

if command -v strace > /dev/null && strace -o /dev/null true 2> /dev/null; then
    rm -f "$work/log"
    # shellcheck disable=SC2016
    strace -f -y -xx -s 1200000 -e trace=read,readv,write,writev -o "$work/trace" sh -c 'echo $$ > "$0"; exec "$@"' \
        "$work/pid" python3 "$tests/watch_server.py" "$work/log" "$mount" &
    watcher=$!
    until_ is_ready
    load strace
    umount "$mount"
    until_ is_gone $watcher
    wait $watcher
    watcher=
    python3 "$tools/from_strace.py" "$work/trace" > "$work/capture" 2> "$work/err"
    check "strace: status" 0 $?
    frames strace serial unspliced
    results strace
    python3 "$tools/from_strace.py" -s 0 "$work/trace" > "$work/capture" 2> "$work/err"
    frames "strace, cut" serial unspliced cut
    check "strace: last line" "= ended ENODEV" "$(tail -n 1 "$work/capture")"
    check "strace: what it lacks" "$(grep -c "^~" "$work/log")" "$(sed -n 's/.*: \([0-9]*\) requests have no reply.*/\1/p' "$work/err")"
else
    echo "skipped: there is no strace, or it may not trace"
fi
echo "$passed passed, $failed failed"
[ $failed -eq 0 ]
