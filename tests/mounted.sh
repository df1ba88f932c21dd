# Read by the scripts that mount what the built program serves, from the top of the repository: `start` mounts it at
# $mount by the launcher of examples/mount.c, `finish` unmounts it. The mount is never left behind.
program=$PWD/crates/fuseworld/out/fuseworld
work=$(mktemp -d)
mount=$work/mount
trace=$work/trace
launcher=
export LC_ALL=C

# Leaves nothing mounted. A lazy unmount needs no answer of the server.
leave() {
    ! is_mounted || umount -l "$mount"
    [ -z "$launcher" ] || kill "$launcher" 2> /dev/null
    rm -rf --one-file-system "$work"
}
trap leave EXIT
trap 'exit 1' HUP INT TERM

is_mounted() {
    grep -q " $mount fuse " /proc/self/mounts
}

skip() {
    echo "skipped: $1"
    exit 0
}

# start SECONDS ARGUMENTS..: mounts, for so many seconds at most, or ends the script: with status 0 where /dev/fuse cannot
# be opened, a mount is refused or there is no C compiler. Standard error of the program goes to $trace.
start() {
    seconds=$1
    shift
    mkdir -p "$mount"
    # shellcheck disable=SC2188
    (: <> /dev/fuse) 2> /dev/null || skip "/dev/fuse cannot be opened"
    command -v cc > /dev/null || skip "there is no C compiler"
    cc -O2 -Wall -Wextra -o "$work/launcher" examples/mount.c || exit 1
    timeout -k 2 "$seconds" "$work/launcher" "$mount" "$program" "$@" 2> "$trace" &
    launcher=$!
    for _ in 1 2 3 4 5 6 7 8 9 10; do
        is_mounted && return
        kill -0 $launcher 2> /dev/null || break
        sleep 0.2
    done
    grep -q "^mount: " "$trace" && skip "a mount is refused ($(head -n 1 "$trace"))"
    echo "not ok: nothing is mounted"
    cat "$trace"
    exit 1
}

# finish: unmounts, and gives the launcher's status. Before that, the forgets of what was removed are on their way.
finish() {
    sleep 0.5
    timeout 5 umount "$mount" || umount -l "$mount"
    wait "$launcher"
    finished=$?
    launcher=
    return $finished
}
