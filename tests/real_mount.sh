#!/bin/sh
# Mounts a folder that the built program serves, by the launcher of examples/mount.c, runs a session of a shell on it,
# and compares what each step prints with what is written here. Then everything is removed, and the server has to hold
# no node but the root. Each step has 5 seconds, and the mount is never left behind.
# Prints a line for each step that differs, and ends with status 1 where there is one. Where /dev/fuse cannot be opened,
# a mount is refused or there is no C compiler, it says so and ends with status 0.
set -u
cd "$(dirname "$0")/.." || exit 1
. tests/mounted.sh
passed=0
failed=0

# step COMMANDS: runs them in the mounted folder, and compares what they print with standard input.
step() {
    cat > "$work/wanted"
    timeout -k 1 5 sh -c "cd '$mount' || exit 1; $1" > "$work/out" 2>&1 < /dev/null
    status=$?
    if [ $status -lt 124 ] && cmp -s "$work/out" "$work/wanted"; then
        passed=$((passed + 1))
        return
    fi
    echo "not ok: $1 (status $status)"
    diff "$work/wanted" "$work/out"
    failed=$((failed + 1))
    # What hangs once may hang in each step that follows.
    [ $status -lt 124 ] || exit 1
}

# check NAME COMMAND..: the command has to succeed.
check() {
    name=$1
    shift
    if "$@"; then
        passed=$((passed + 1))
    else
        echo "not ok: $name"
        failed=$((failed + 1))
    fi
}

start 120 --show --trace --capture "$work/capture"

step 'mkdir d; ls' << 'END'
d
END
step 'echo hello > d/new; cat d/new' << 'END'
hello
END
step 'stat -c "%F %s %h %n" d/new d' << 'END'
regular file 6 1 d/new
directory 0 1 d
END
step 'ln d/new d/second; ls d; stat -c %h d/new' << 'END'
new
second
2
END
step 'mv d/second third; ls d; cat third' << 'END'
new
hello
END
step 'echo more >> third; cat d/new; stat -c %s third' << 'END'
hello
more
11
END
step 'printf HE | dd of=third conv=notrunc status=none; cat d/new' << 'END'
HEllo
more
END
step 'dd if=d/new bs=1 skip=2 count=3 status=none; echo' << 'END'
llo
END
yes fuseworld | head -c 65536 > "$work/bytes"
md5sum < "$work/bytes" > "$work/sum"
step "dd if='$work/bytes' of=big bs=65536 status=none; stat -c %s big; md5sum < big" << END
65536
$(cat "$work/sum")
END
# Its blocks are those of its size: else tar -S takes it for one hole, and writes zeros.
step 'stat -c "%b %B" big third d; du -k big; tar -S -c big | tar -x -O | md5sum; ls -s d' << END
128 512
1 512
0 512
64	big
$(cat "$work/sum")
total 1
1 new
END
step 'cp big copy; cmp big copy && echo same; rm copy' << 'END'
same
END
step 'mkdir -p d/e/f; echo x > d/e/f/g; find . | sort' << 'END'
.
./big
./d
./d/e
./d/e/f
./d/e/f/g
./d/new
./third
END
step 'mv d/e moved; cat moved/f/g; ls d' << 'END'
x
new
END
step 'for name in 1 2 3 4 5 6 7 8 9 10; do echo $name > moved/$name; done; ls moved | wc -l; cat moved/*[0-9] | sort -n | tail -n 1' << 'END'
11
10
END
step 'mv moved/1 moved/2; cat moved/2; ls moved | wc -l' << 'END'
1
10
END
step 'exec 3<> open; rm open; echo unlinked >&3; cat /proc/self/fd/3; ls' << 'END'
unlinked
big
d
moved
third
END
# What is refused, by the last words of the message.
step 'rmdir d 2>&1 | sed "s/.*: //"' << 'END'
Directory not empty
END
step 'cat none 2>&1 | sed "s/.*: //"' << 'END'
No such file or directory
END
step 'mkdir d 2>&1 | sed "s/.*: //"' << 'END'
File exists
END
step 'mv d d/below 2>&1 | sed "s/.*d.below.*/refused/"' << 'END'
refused
END
step 'dd if=/dev/zero of=big bs=1 seek=65536 count=1 conv=notrunc status=none 2>&1 | sed "s/.*: //"' << 'END'
File too large
END
# Linux sends a LOOKUP of up to 1,024 bytes.
for length in 256 1024 1025; do
    step "name=\$(printf %0${length}d 0); cat \$name 2>&1 | sed 's/.*: //'; (: > \$name) 2>&1 | sed 's/.*: //'" << 'END'
File name too long
File name too long
END
done
step 'name=$(printf %0255d 0); mkdir $name; ls -d 0* | wc -c; rmdir $name' << 'END'
256
END
step 'dd if=/dev/null of=third status=none 2>&1 | sed "s/.*: //"' << 'END'
Function not implemented
END
step 'touch third 2>&1 | sed "s/.*: //"; chmod 600 third 2>&1 | sed "s/.*: //"' << 'END'
Function not implemented
Function not implemented
END
step 'ln -s third link 2>&1 | sed "s/.*: //"; df . 2>&1 | sed "s/.*: //"' << 'END'
Function not implemented
Function not implemented
END
step '[ -x third ] && echo yes; ./third 2>&1 | sed "s/.*: //"; stat -c %h d .; fallocate -l 8192 third 2>&1 | sed "s/.*: //"' << 'END'
yes
Permission denied
1
1
Operation not supported
END
step 'cat third' << 'END'
HEllo
more
END
step 'rm third big d/new moved/f/g moved/[0-9]*; rmdir moved/f moved d; ls -A' << 'END'
END

finish
status=$?
check "the launcher's status is 0, not $status" [ "$status" = 0 ]
check "the server holds nodes: $(tail -n 1 "$trace")" [ "$(tail -n 1 "$trace")" = server ]
check "a reply was refused, or not sent" [ "$(grep -cE "^< .*; refused|^= ended" "$trace")" = 0 ]
check "somebody broke a rule: $(grep -m 1 -E "; (kernel|server|device): " "$trace")" [ "$(grep -cE "; (kernel|server|device): " "$trace")" = 0 ]
for opcode in INIT LOOKUP FORGET GETATTR MKDIR UNLINK RMDIR RENAME LINK OPEN READ WRITE RELEASE READDIRPLUS CREATE; do
    check "no $opcode came" grep -q "^> $opcode " "$trace"
done
"$program" check "$work/capture" > "$work/out" 2>&1
status=$?
check "the capture is judged: $(head -n 1 "$work/out")" [ "$status" = 0 ]
check "it has another count of frames than the trace" \
    [ "$(grep -c '^[<>] ' "$work/capture")" = "$(grep -c '^[<>] ' "$trace")" ]
echo "$passed checks on a real mount passed, $failed failed; $(grep -c '^> ' "$trace") requests came"
[ "$failed" = 0 ]
