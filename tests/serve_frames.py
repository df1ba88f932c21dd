#!/usr/bin/env python3
"""Speaks bare frames to the built program's command `serve`, over a stream socket at a path and over a pair of
SOCK_SEQPACKET sockets on its standard input and output, and compares the replies, the lines on standard error and the
exit status with what was worked out by hand. Captures are compared with what was sent and received, and judged. Each run
has 10 seconds.
Prints a line for each run that differs, and ends with status 1 where there is one.
"""
import os
import socket
import struct
import subprocess
import sys
import tempfile
import time
from pathlib import Path

sys.dont_write_bytecode = True
import judging
from judging import judge

TOP = Path(__file__).resolve().parent.parent
PROGRAM = TOP / "crates/fuseworld/out/fuseworld"
SECONDS = 10


def request(opcode, unique, node, body=b""):
    """struct fuse_in_header and a body."""
    return struct.pack("<IIQQIIII", 40 + len(body), opcode, unique, node, 0, 0, 0, 0) + body


def reply(unique, body=b"", error=0):
    """struct fuse_out_header and a body."""
    return struct.pack("<IiQ", 16 + len(body), -error, unique) + body


def attr(ino, size, mode, nlink):
    """struct fuse_attr: the size in blocks of 512 bytes, a blksize of 4,096 bytes, and no times and owners."""
    return struct.pack("<QQQQQQIIIIIIIIII", ino, size, (size + 511) // 512, 0, 0, 0, 0, 0, 0, mode, nlink, 0, 0, 0, 4096, 0)


def entry(node, generation, seconds, attributes):
    """struct fuse_entry_out: the entry is valid for whole seconds, and its attributes are not."""
    return struct.pack("<QQQQII", node, generation, seconds, 0, 0, 0) + attributes


def record(ino, off, kind, name):
    """struct fuse_dirent, with its name."""
    return struct.pack("<QQII", ino, off, len(name), kind) + name + bytes(-len(name) % 8)


INIT = request(26, 2, 0, struct.pack("<IIII", 7, 31, 0, 0x42001))
OFFERED = "ASYNC_READ DO_READDIRPLUS PARALLEL_DIROPS"
# Kernels of 7.36 and later: 104 bytes, and flags that 7.31 does not know.
LONG_INIT = request(26, 2, 0, struct.pack("<IIII", 7, 45, 131072, 0x73FFFFFB) + bytes(48))
# The bits of 0x73fffffb in linux/fuse.h: 0 to 30 without 2 (FILE_OPS), 26 (MAP_ALIGNMENT) and 27 (SUBMOUNTS).
LONG_OFFERED = (
    "ASYNC_READ POSIX_LOCKS ATOMIC_O_TRUNC EXPORT_SUPPORT BIG_WRITES DONT_MASK SPLICE_WRITE SPLICE_MOVE SPLICE_READ "
    "FLOCK_LOCKS HAS_IOCTL_DIR AUTO_INVAL_DATA DO_READDIRPLUS READDIRPLUS_AUTO ASYNC_DIO WRITEBACK_CACHE "
    "NO_OPEN_SUPPORT PARALLEL_DIROPS HANDLE_KILLPRIV POSIX_ACL ABORT_ERROR MAX_PAGES CACHE_SYMLINKS "
    "NO_OPENDIR_SUPPORT EXPLICIT_INVAL_DATA HANDLE_KILLPRIV_V2 SETXATTR_EXT INIT_EXT")
# max_write is 4,096, and time_gran 1 nanosecond.
INIT_REPLY = reply(2, struct.pack("<IIIIHHII", 7, 31, 0, 0x42001, 0, 0, 4096, 1) + bytes(36))
LONG_REPLY = reply(2, struct.pack("<IIIIHHII", 7, 31, 0, 0x42001, 0, 0, 4096, 1) + bytes(36))
MKDIR = request(9, 4, 1, struct.pack("<II", 0o755, 0) + b"a\0")
MKDIR_REPLY = reply(4, entry(2, 1, 1, attr(2, 0, 0o40755, 1)))
LOOKUP = request(1, 6, 1, b"none\0")
FLUSH = request(25, 8, 2, bytes(24))
FORGET = request(2, 10, 2, struct.pack("<Q", 1))
RMDIR = request(11, 12, 1, b"a\0")


def ended(program):
    """What the program said on standard error, and its status."""
    said = program.communicate(timeout=SECONDS)[1].decode()
    return said.splitlines(), program.returncode


def receive(peer, count):
    """So many bytes, or those that come before the end. A peer that closes before it has read all resets."""
    got = b""
    while len(got) < count:
        try:
            part = peer.recv(count - len(got))
        except ConnectionResetError:
            break
        if not part:
            break
        got += part
    return got


def on_stream(name, words, sent, replies, said, status):
    """Sends all at once over a stream, and ends its own side."""
    with tempfile.TemporaryDirectory() as folder:
        path = f"{folder}/socket"
        program = subprocess.Popen([PROGRAM, "serve", *words, path], stdin=subprocess.DEVNULL, stderr=subprocess.PIPE)
        peer = socket.socket(socket.AF_UNIX)
        peer.settimeout(SECONDS)
        for _ in range(100):
            try:
                peer.connect(path)
                break
            except OSError:
                time.sleep(0.05)
        peer.sendall(sent)
        peer.shutdown(socket.SHUT_WR)
        wanted = b"".join(replies)
        judge(f"{name}: replies", receive(peer, len(wanted) + 1).hex(), wanted.hex())
        judge(name, ended(program), (said, status))
        peer.close()
        judge(f"{name}: its socket is removed", Path(path).exists(), False)


def on_packets(name, words, turns, said, status):
    """Sends a frame a packet, and takes its reply, if one is wanted, before the next."""
    ours, theirs = socket.socketpair(socket.AF_UNIX, socket.SOCK_SEQPACKET)
    ours.settimeout(SECONDS)
    program = subprocess.Popen([PROGRAM, "serve", *words], stdin=theirs, stdout=theirs, stderr=subprocess.PIPE)
    theirs.close()
    for frame, wanted in turns:
        ours.send(frame)
        if wanted is not None:
            judge(f"{name}: a reply", ours.recv(1 << 17).hex(), wanted.hex())
    ours.close()
    judge(name, ended(program), (said, status))


def without_blocking():
    """Serves a pair of sockets that do not block: it waits for a frame, and for room for a reply, and takes no time for it."""
    ours, theirs = socket.socketpair(socket.AF_UNIX, socket.SOCK_SEQPACKET)
    ours.settimeout(SECONDS)
    theirs.setblocking(False)
    program = subprocess.Popen([PROGRAM, "serve"], stdin=theirs, stdout=theirs, stderr=subprocess.PIPE)
    theirs.close()
    ours.send(INIT)
    judge("not blocking: a reply", ours.recv(1 << 17).hex(), INIT_REPLY.hex())
    time.sleep(1)
    with open(f"/proc/{program.pid}/stat") as stat:
        ticks = sum(int(word) for word in stat.read().rsplit(")", 1)[1].split()[11:13])
    judge("not blocking: an idle second takes no time of the processor", ticks < os.sysconf("SC_CLK_TCK") // 4, True)
    # As many as the sockets take: no reply is read yet, so that the program has to wait for room.
    wanted, got = [], []
    try:
        ours.settimeout(0.5)
        while len(wanted) < 100_000:
            unique = 4 + 2 * len(wanted)
            ours.send(request(1, unique, 1, b"none\0"))
            wanted.append(reply(unique, entry(0, 0, 0, bytes(88))))
    except OSError as error:
        judge("not blocking: the sockets are full", type(error), TimeoutError)
    try:
        ours.settimeout(SECONDS)
        got = [ours.recv(1 << 17) for _ in wanted]
    except OSError as error:
        got = [error]
    judge("not blocking: each is replied to", got == wanted, True)
    ours.close()
    judge("not blocking", ended(program), ([], 0))


def captured(name, words, turns, lines, faults):
    """Serves packets with a capture, and compares its lines, and what `check` says of them."""
    with tempfile.TemporaryDirectory() as folder:
        path = Path(folder) / "capture"
        path.write_text("what stood there before\n")
        on_packets(name, [*words, "--capture", path], turns, lines, 0)
        wanted = []
        for frame, answer in turns:
            wanted += [f"> {frame.hex()}"] + [f"< {answer.hex()}"] * (answer is not None)
        judge(f"{name}: its lines", path.read_text(), "\n".join([*wanted, "= ended ENODEV", ""]))
        done = subprocess.run([PROGRAM, "check", path], capture_output=True, timeout=SECONDS, text=True)
        judge(f"{name}: judged", (done.stdout.splitlines()[-1:], done.returncode), ([faults], 0))


def captured_so_far():
    """A line is in the file before the next frame is awaited, and stays where the program is killed."""
    with tempfile.TemporaryDirectory() as folder:
        path = Path(folder) / "capture"
        ours, theirs = socket.socketpair(socket.AF_UNIX, socket.SOCK_SEQPACKET)
        ours.settimeout(SECONDS)
        program = subprocess.Popen([PROGRAM, "serve", "--capture", path], stdin=theirs, stdout=theirs)
        theirs.close()
        for frame, answer in [(INIT, INIT_REPLY), (MKDIR, MKDIR_REPLY)]:
            ours.send(frame)
            judge("so far: a reply", ours.recv(1 << 17).hex(), answer.hex())
        wanted = "".join(f"{way} {frame.hex()}\n" for way, frame in
                         [(">", INIT), ("<", INIT_REPLY), (">", MKDIR), ("<", MKDIR_REPLY)])
        for _ in range(100):
            if path.read_text() == wanted:
                break
            time.sleep(0.05)
        program.kill()
        program.wait(SECONDS)
        ours.close()
        judge("so far: its lines", path.read_text(), wanted)


def captured_stream():
    """Where a stream ends in a frame, the capture says that the device failed. A file that takes nothing disturbs nothing."""
    with tempfile.TemporaryDirectory() as folder:
        path = Path(folder) / "capture"
        on_stream("the end in a frame, captured", ["--capture", path], INIT + MKDIR[:30], [INIT_REPLY], ["device failed"], 4)
        judge("the end in a frame: its lines", path.read_text(), f"> {INIT.hex()}\n< {INIT_REPLY.hex()}\n= ended EIO\n")
    on_packets("a full file", ["--capture", "/dev/full"], TURNS[:2], ["capture refused"], 0)
    done = subprocess.run([PROGRAM, "serve", "--capture", "/nowhere/capture"], stdin=subprocess.DEVNULL,
                          capture_output=True, timeout=SECONDS, text=True)
    judge("no file", (done.returncode, done.stdout, done.stderr[:35]), (1, "", "cannot write /nowhere/capture: No s"))


def checked(turns):
    """A kernel that forgets more than it was given is accused as its frame comes, and `check` of the capture says the same."""
    on_packets("judged, an honest kernel", ["--check"], turns, [], 0)
    # Node 2 was given once.
    greedy = [(INIT, INIT_REPLY), (MKDIR, MKDIR_REPLY), (request(2, 10, 2, struct.pack("<Q", 3)), None)]
    fault = "kernel: forget of more than is counted: node 2 lookups 3"
    with tempfile.TemporaryDirectory() as folder:
        path = Path(folder) / "capture"
        on_packets("judged", ["--check", "--capture", path], greedy, [f"frame 5: {fault}"], 6)
        done = subprocess.run([PROGRAM, "check", path], capture_output=True, timeout=SECONDS, text=True)
        judge("judged: its capture", (done.stdout.splitlines()[0], done.returncode), (f"line 5: {fault}; given at line 4, inode 2, count 1", 6))
    on_packets("not judged", [], greedy, [], 0)
    # The fault does not hide that the device failed.
    on_stream("judged, the end in a frame", ["--check"], b"".join(frame for frame, _ in greedy) + INIT[:30],
              [INIT_REPLY, MKDIR_REPLY], [f"frame 5: {fault}", "device failed"], 4)
    # The frames between are counted too: a LOOKUP in a node that nobody gave, its reply, and a LOOKUP under its number.
    on_packets("judged, two faults", ["--check"],
               [*greedy[:2], (request(1, 8, 9, b"a\0"), reply(8, error=5)), (request(1, 8, 1, b"none\0"), reply(8, entry(0, 0, 0, bytes(88))))],
               ["frame 5: kernel: node that is not counted: node 9", "frame 7: kernel: number used twice: LOOKUP 8"], 6)


TURNS = [
    (INIT, INIT_REPLY),
    (MKDIR, MKDIR_REPLY),
    (LOOKUP, reply(6, error=2)),
    (FLUSH, reply(8, error=38)),
    (RMDIR, reply(12)),
    (FORGET, None),
]
# FLUSH is of a file that nobody opened, and FORGET's number is below RMDIR's.
TRACE = [
    "> INIT 2 0 56 major 7 minor 31 flags 0x0000000000042001 " + OFFERED,
    "< INIT 2 0 80 major 7 minor 31 max_write 4096 flags 0x0000000000042001 " + OFFERED,
    "> MKDIR 4 1 50 name a",
    "< MKDIR 4 0 144 entry node 2 generation 1 valid 1000 ms dir ino 2 size 0 nlink 1",
    "> LOOKUP 6 1 45 name none",
    "< LOOKUP 6 0 144 entry node 0 valid 0 ms",
    "> FLUSH 8 2 64 fh 0; kernel: file handle that is not open",
    "< FLUSH 8 ENOSYS 16",
    "> RMDIR 12 1 42 name a",
    "< RMDIR 12 0 16",
    "> FORGET 10 2 48 nlookup 1; kernel: number out of order",
]
MISSING = reply(6, entry(0, 0, 0, bytes(88)))


# A file of 513 bytes, and a directory beside it: each reply with attributes has their blocks.
BIG = attr(2, 513, 0o100644, 1)
LINKED = attr(2, 513, 0o100644, 2)
FOLDER = attr(3, 0, 0o40755, 1)
NO_ENTRY = entry(2, 1, 1, struct.pack("<QQ", 2, 513) + bytes(72))
BLOCKS = [
    (INIT, INIT_REPLY),
    (request(35, 4, 1, struct.pack("<IIII", 0x8042, 0o100644, 0, 0) + b"big\0"),
     reply(4, entry(2, 1, 1, attr(2, 0, 0o100644, 1)) + struct.pack("<QII", 1, 0, 0))),
    (request(16, 6, 2, struct.pack("<QQIIQII", 1, 0, 513, 0, 0, 0, 0) + b"x" * 513), reply(6, struct.pack("<II", 513, 0))),
    (request(3, 8, 2, bytes(16)), reply(8, struct.pack("<QII", 0, 0, 0) + BIG)),
    (request(1, 10, 1, b"big\0"), reply(10, entry(2, 1, 1, BIG))),
    (request(13, 12, 1, struct.pack("<Q", 2) + b"second\0"), reply(12, entry(2, 1, 1, LINKED))),
    (request(9, 14, 1, struct.pack("<II", 0o755, 0) + b"folder\0"), reply(14, entry(3, 2, 1, FOLDER))),
    (request(44, 16, 1, struct.pack("<QQIIQII", 0, 0, 4096, 0, 0, 0, 0)), reply(16, b"".join([
        entry(2, 1, 1, LINKED) + record(2, 1, 8, b"big"),
        entry(2, 1, 1, LINKED) + record(2, 2, 8, b"second"),
        entry(3, 2, 1, FOLDER) + record(3, 3, 4, b"folder"),
    ]))),
    # Bytes of the file that look like an entry without blocks are read as they are.
    (request(16, 18, 2, struct.pack("<QQIIQII", 1, 0, 128, 0, 0, 0, 0) + NO_ENTRY), reply(18, struct.pack("<II", 128, 0))),
    (request(15, 20, 2, struct.pack("<QQIIQII", 1, 0, 128, 0, 0, 0, 0)), reply(20, NO_ENTRY)),
]


def lookup(unique, name):
    return request(1, unique, 1, name + b"\0")


def rename(unique, old, new):
    return request(12, unique, 1, struct.pack("<Q", 1) + old + b"\0" + new + b"\0")


# ENAMETOOLONG (36) where nothing is wrong but that a name has more than 255 bytes, and EIO where more is.
LONG = b"n" * 256
LONG_NAMES = [
    (INIT, INIT_REPLY),
    (lookup(4, b"n" * 255), reply(4, entry(0, 0, 0, bytes(88)))),
    (lookup(6, LONG), reply(6, error=36)),
    (lookup(8, b"n" * 1024), reply(8, error=36)),
    (lookup(10, b"n" * 4135), reply(10, error=36)),
    (request(9, 12, 1, bytes(8) + LONG + b"\0"), reply(12, error=36)),
    (request(35, 14, 1, bytes(16) + LONG + b"\0"), reply(14, error=36)),
    (request(10, 16, 1, LONG + b"\0"), reply(16, error=36)),
    (request(11, 18, 1, LONG + b"\0"), reply(18, error=36)),
    (request(13, 20, 1, bytes(8) + LONG + b"\0"), reply(20, error=36)),
    (rename(22, LONG, b"b"), reply(22, error=36)),
    (rename(24, b"a", LONG), reply(24, error=36)),
    (rename(26, LONG, LONG), reply(26, error=36)),
    # A frame that is too long, a slash, a NUL and none, a bad name beside a long one, and names that are not too long.
    (lookup(28, b"n" * 4136), reply(28, error=5)),
    (lookup(30, LONG + b"/"), reply(30, error=5)),
    (lookup(32, LONG + b"\0n"), reply(32, error=5)),
    (request(1, 34, 1, LONG), reply(34, error=5)),
    (rename(36, LONG, b".."), reply(36, error=5)),
    (rename(38, b"", LONG), reply(38, error=5)),
    (rename(40, b"a/b", LONG), reply(40, error=5)),
    (request(12, 42, 1, bytes(8) + LONG + b"\0"), reply(42, error=5)),
    (lookup(44, b".."), reply(44, error=5)),
    # A body that only looks like a name.
    (request(3, 46, 1, LONG + b"\0"), reply(46, error=5)),
    (request(25, 48, 1, LONG + b"\0"), reply(48, error=38)),
]


def run():
    turns = [(frame, MISSING if frame is LOOKUP else wanted) for frame, wanted in TURNS]
    frames = [frame for frame, _ in turns]
    replies = [wanted for _, wanted in turns if wanted is not None]
    on_packets("packets", ["--trace", "--show"], turns, [*TRACE, "server"], 0)
    on_packets("packets, silent", [], turns, [], 0)
    on_stream("a stream", ["--trace", "--show"], b"".join(frames), replies, [*TRACE, "server"], 0)
    on_packets("blocks", [], BLOCKS, [], 0)
    without_blocking()
    # READDIRPLUS is left out: no directory is open.
    legal = [turn for turn in BLOCKS if turn[0][4] != 44]
    captured("a capture", [], legal, [], "faults: kernel 0 server 0 device 0, warnings 0")
    captured("a capture of what is traced", ["--trace"], turns[:2], TRACE[:4], "faults: kernel 0 server 0 device 0, warnings 0")
    captured_so_far()
    captured_stream()
    checked(legal)
    on_packets("long names", [], LONG_NAMES, [], 0)
    on_packets("long names of 7.15", ["--minor", "15"], [(lookup(2, LONG), reply(2, error=36))], [], 0)
    on_packets("a long name, in words", ["--trace"], [(lookup(2, LONG), reply(2, error=36))],
               ["> LOOKUP 2 1 297 name " + "n" * 256 + "; kernel: request before INIT",
                "< LOOKUP 2 ENAMETOOLONG 16"], 0)
    # A packet of no bytes is read as the other side's end.
    on_packets("an empty packet", ["--show"], [*turns[:2], (b"", None)], ["server 2:1:1"], 0)
    # The server holds node 2 once: nothing was forgotten.
    on_packets("a node is left", ["--show"], turns[:2], ["server 2:1:1"], 0)
    on_packets("validities", ["--found", "3000", "--missing", "250"], [
        (INIT, INIT_REPLY),
        (MKDIR, reply(4, entry(2, 1, 3, attr(2, 0, 0o40755, 1)))),
        (LOOKUP, reply(6, struct.pack("<QQQQII", 0, 0, 0, 0, 250_000_000, 0) + bytes(88))),
    ], [], 0)
    on_packets("INIT of a later kernel", ["--trace"], [(LONG_INIT, LONG_REPLY)], [
        "> INIT 2 0 104 major 7 minor 45 flags 0x0000000073fffffb " + LONG_OFFERED,
        TRACE[1],
    ], 0)
    # A reply to INIT of 7.15 ends after max_write, and READDIRPLUS (44) is not known.
    on_packets("7.15", ["--minor", "15"], [
        (INIT, reply(2, struct.pack("<IIIIHHI", 7, 15, 0, 0x1, 0, 0, 4096))),
        (request(44, 4, 1, bytes(40)), reply(4, error=38)),
    ], [], 0)
    # A header that says another length has no reply; a node that is not held has EIO.
    on_packets("faulty frames", ["--trace"], [
        (MKDIR + b"x", None),
        (b"short", None),
        (request(3, 6, 9, bytes(16)), reply(6, error=5)),
    ], [
        "> len 51: the frame has another length than it says; kernel: malformed request",
        "> len 5: the frame is too short for its header; kernel: malformed request",
        "> GETATTR 6 9 56; kernel: request before INIT; kernel: node that is not counted",
        "< GETATTR 6 EIO 16",
    ], 0)
    on_stream("the end in a frame", [], INIT + MKDIR[:30], [INIT_REPLY], ["device failed"], 4)
    on_stream("the end in a length", ["--show"], INIT + MKDIR[:3], [INIT_REPLY], ["device failed", "server"], 4)
    on_stream("a length of 39", [], struct.pack("<I", 39) + bytes(35), [], ["device failed"], 4)
    on_stream("a length over the room", [], struct.pack("<I", 131073), [], ["device failed"], 4)
    on_stream("nothing", [], b"", [], [], 0)
    for words, status in [
        (["--minor", "30"], 2), (["--found", "86400001"], 2), (["--found", "-1"], 2), (["--missing", "x"], 2),
        (["a", "b"], 2), (["/nowhere/socket"], 4),
    ]:
        done = subprocess.run([PROGRAM, "serve", *words], stdin=subprocess.DEVNULL, capture_output=True, timeout=SECONDS)
        judge(f"serve {' '.join(words)}", (done.returncode, done.stdout, done.stderr != b""), (status, b"", True))


run()
print(f"{judging.passed} checks of `serve` passed, {judging.failed} failed")
sys.exit(bool(judging.failed))
