#!/usr/bin/env python3
"""Has the built program's `drive --random` explore servers: honest ones, and each with one bug.

    explore.py [PROGRAM [HONEST]]

PROGRAM is the built program, or crates/fuseworld/out/fuseworld. `fuseworld serve` and the server of tests/drive_server.py are
driven under HONEST seeds each, 20 if it is left out: nothing is said to be wrong, and nothing is left counted; what is printed
is a script that comes to the same when `drive` runs it on a new server. Then 41 bugs are explored under 10 seeds each: 18 of
tests/drive_server.py, and 23 of a peer that stands before `serve`. A bug is found where a seed says that something is
wrong; examples/explore/shrink.py then leaves at most 20 lines of the first such script. Three bugs let a server keep a node too
long, which no frame can show: they are explored, and not judged. Ends with `N passed, M failed`, and status 1 where one failed.

    explore.py PROGRAM peer SOCK BUG

serves one connection at SOCK with one of the bugs of the peer.
"""
import collections
import os
import re
import socket
import struct
import subprocess
import sys
import tempfile
import threading
import time
from pathlib import Path

sys.dont_write_bytecode = True
import drive_server
import judging
from judging import judge

TOP = Path(__file__).resolve().parent.parent
PROGRAM = Path(sys.argv[1] if len(sys.argv) > 1 else TOP / "crates/fuseworld/out/fuseworld").resolve()
SECONDS = 120
HONEST = range(1, 1 + int(sys.argv[2]) if len(sys.argv) == 3 else 21)
SEEDS, EVENTS, LINES = range(1, 11), 400, 20
FAULTS = re.compile(r"(frame \d+: (server|kernel|device): |frame \d+: warning: (node given again|offset|listing)|reply to nothing|second reply|body is not|no reply|node \d+ (under|given)|the root given"
                    r"|server ended|device failed|differs: )")
LOOKUP, FORGET, GETATTR, MKDIR, RENAME, LINK, READ, WRITE, READDIR, CREATE, INTERRUPT, BATCH_FORGET, READDIRPLUS = 1, 2, 3, 9, 12, 13, 15, 16, 28, 35, 36, 42, 44
HEAD, REPLY, ENTRY = 40, 16, 128
# Where the attributes of an entry have the inode number and the mode, behind the head of the reply.
ENTRY_INO, ENTRY_MODE = REPLY + 40, REPLY + 40 + 60
# Of a peer that stands before an honest server.
BUGS = [
    "a forget drops its node, whatever its count",
    "a forget is counted double",
    "a lookup is not counted",
    "a READDIRPLUS is not counted",
    "a nodeid is given again under its generation",
    "a FORGET is answered",
    "len is too long",
    "len is too short",
    "attributes have a tail",
    "a record is not padded",
    "each offset is 0",
    "each offset is one too far",
    "MKDIR gives node 0",
    "a kind changes",
    "an inode number changes",
    "a file handle is stale behind RENAME",
    "a READ has too many bytes",
    "a WRITE is halved",
    "the number of links stays 1",
    "a reply is lost",
    "a lookup is counted double",
    "a forget is lost",
    "a forget is of one lookup",
]
# The server keeps a node too long, and no frame is another one.
UNSEEN = BUGS[-3:]


def frames(stream):
    """Each frame of a stream, cut by its length."""
    while len(size := stream.read(4)) == 4:
        yield size + stream.read(struct.unpack("<I", size)[0] - 4)


def entries(opcode, frame):
    """Where struct fuse_entry_out stands in the reply to a request of this opcode, if it has nodes."""
    if struct.unpack_from("<i", frame, 4)[0] != 0:
        return []
    if opcode in (LOOKUP, MKDIR, LINK, CREATE):
        return [16] if len(frame) >= 16 + ENTRY else []
    places, at = [], 16
    while opcode == READDIRPLUS and at + ENTRY + 24 <= len(frame):
        places.append(at)
        length = struct.unpack_from("<I", frame, at + ENTRY + 16)[0]
        at += ENTRY + (24 + length + 7) // 8 * 8
    return places


class Peer:
    """What stands between the kernel and an honest server, with one bug. It counts lookups as the protocol does."""

    def __init__(self, bug, kernel, server):
        self.bug, self.kernel, self.server = bug, kernel, server
        self.requests, self.counts, self.lock = {}, {}, threading.Lock()
        self.replied = threading.Condition(self.lock)
        # How many replies of each opcode came, and the file handles that are stale.
        self.replies, self.stale, self.opened = collections.Counter(), set(), set()
        # A nodeid of the kernel and the server's, both ways; and those that may be given again.
        self.to_server, self.to_kernel, self.free = {1: 1}, {1: 1}, []

    def forget(self, node, count):
        """The pairs that the server is told, in the place of this one."""
        had = self.counts.get(node, 0)
        self.counts[node] = max(0, had - count)
        if self.counts[node] == 0 and self.bug == "a nodeid is given again under its generation" and node in self.to_server:
            server = self.to_server.pop(node)
            del self.to_kernel[server]
            self.free.append(node)
            return [(server, count)]
        if self.bug == "a forget drops its node, whatever its count":
            count = max(had, count)
        if self.bug == "a forget is counted double":
            return [(node, count), (node, count)]
        if self.bug == "a forget is lost":
            return []
        if self.bug == "a forget is of one lookup":
            count = 1
        return [(self.to_server.get(node, node), count)]

    def request(self, frame):
        """The frames that the server is sent for one of the kernel."""
        opcode, unique, node = struct.unpack_from("<IQQ", frame, 4)
        if opcode in (FORGET, BATCH_FORGET):
            # What came before is done before.
            self.replied.wait_for(lambda: not self.requests, timeout=1)
            if self.bug == "a FORGET is answered":
                self.send(self.kernel, [struct.pack("<IiQ", REPLY, 0, unique)])
        elif opcode != INTERRUPT:
            self.requests[unique] = frame
        if opcode == FORGET:
            pairs = [(node, struct.unpack_from("<Q", frame, HEAD)[0])]
        elif opcode == BATCH_FORGET:
            count = struct.unpack_from("<I", frame, HEAD)[0]
            pairs = [struct.unpack_from("<QQ", frame, HEAD + 8 + 16 * place) for place in range(count)]
        else:
            return [self.renamed(opcode, frame)]
        return [forget_frame(unique, node, count) for pair in pairs for node, count in self.forget(*pair)]

    def renamed(self, opcode, frame):
        frame = bytearray(frame)
        places = [16] + ([HEAD] if opcode in (RENAME, LINK) else [])
        for place in places:
            node = struct.unpack_from("<Q", frame, place)[0]
            struct.pack_into("<Q", frame, place, self.to_server.get(node, node))
        return bytes(frame)

    def given(self, node):
        """The nodeid that the kernel is given for the server's."""
        if self.bug != "a nodeid is given again under its generation":
            return node
        if node not in self.to_kernel:
            other = self.free.pop(0) if self.free else max([*self.to_server, *self.free, 1]) + 1
            self.to_kernel[node], self.to_server[other] = other, node
        return self.to_kernel[node]

    def reply(self, frame):
        """The frames that the kernel is sent, and those that the server is."""
        frame, more = bytearray(frame), []
        error, unique = struct.unpack_from("<iQ", frame, 4)
        request = self.requests.pop(unique, bytes(HEAD))
        opcode = struct.unpack_from("<I", request, 4)[0]
        self.replied.notify_all()
        for place in entries(opcode, frame):
            node = struct.unpack_from("<Q", frame, place)[0]
            name = frame[place + ENTRY + 24:place + ENTRY + 26] if opcode == READDIRPLUS else b""
            if node == 0 or name[:1] == b"." and opcode == READDIRPLUS:
                continue
            kernel = self.given(node)
            self.counts[kernel] = self.counts.get(kernel, 0) + 1
            if self.bug == "a nodeid is given again under its generation":
                struct.pack_into("<QQ", frame, place, kernel, 0)
            if (self.bug, opcode) in (("a lookup is not counted", LOOKUP), ("a READDIRPLUS is not counted", READDIRPLUS)):
                more.append(forget_frame(0, node, 1))
        if error == 0:
            self.replies[opcode] += 1
            return self.altered(opcode, request, frame), more
        return [bytes(frame)], more

    def altered(self, opcode, request, frame):
        """The frames in the place of a reply without an error, by the bugs of replies."""
        bug, again = self.bug, self.replies[opcode] % 3 == 0
        if bug == "attributes have a tail" and opcode == GETATTR and again:
            frame += bytes(8)
        elif bug == "a READ has too many bytes" and opcode == READ:
            frame += bytes(8)
        elif bug == "a WRITE is halved" and opcode == WRITE:
            struct.pack_into("<I", frame, REPLY, struct.unpack_from("<I", frame, REPLY)[0] // 2)
        elif bug == "MKDIR gives node 0" and opcode == MKDIR and again:
            struct.pack_into("<Q", frame, REPLY, 0)
        elif bug == "a reply is lost" and opcode == LOOKUP and self.replies[opcode] > 20 and again:
            return []
        elif bug == "each offset is 0" and opcode == READDIR:
            self.each_offset(frame, lambda offset: 0)
        elif bug == "each offset is one too far" and opcode == READDIR:
            self.each_offset(frame, lambda offset: offset + 1)
        elif bug == "a record is not padded" and opcode == READDIR and len(frame) > REPLY + 24:
            length = struct.unpack_from("<I", frame, REPLY + 16)[0]
            del frame[REPLY + 24 + length:REPLY + (24 + length + 7) // 8 * 8]
        elif bug == "a file handle is stale behind RENAME" and opcode == RENAME:
            self.stale |= self.opened
        elif bug == "a kind changes" and opcode == LOOKUP and again:
            mode = struct.unpack_from("<I", frame, ENTRY_MODE)[0]
            struct.pack_into("<I", frame, ENTRY_MODE, 0o100644 if mode & 0o40000 else 0o40755)
        elif bug == "an inode number changes" and opcode == LOOKUP and again:
            struct.pack_into("<Q", frame, ENTRY_INO, 1000 + self.replies[opcode])
        self.links_stay(opcode, frame)
        self.note_handle(opcode, request, frame)
        return [self.with_length(frame)]

    def each_offset(self, frame, of):
        at = REPLY
        while at + 24 <= len(frame):
            struct.pack_into("<Q", frame, at + 8, of(struct.unpack_from("<Q", frame, at + 8)[0]))
            at += (24 + struct.unpack_from("<I", frame, at + 16)[0] + 7) // 8 * 8

    def links_stay(self, opcode, frame):
        if self.bug != "the number of links stays 1":
            return
        places = [place + 40 for place in entries(opcode, frame)] + ([REPLY + 16] if opcode == GETATTR else [])
        for place in places:
            struct.pack_into("<I", frame, place + 64, 1)

    def note_handle(self, opcode, request, frame):
        """Which file handles are open; one that is stale gives EBADF."""
        if self.bug != "a file handle is stale behind RENAME":
            return
        if opcode == CREATE:
            self.opened.add(struct.unpack_from("<Q", frame, REPLY + ENTRY)[0])
        if opcode in (READ, WRITE) and struct.unpack_from("<Q", request, HEAD)[0] in self.stale:
            frame[4:8] = struct.pack("<i", -9)
            del frame[REPLY:]

    def with_length(self, frame):
        wrong = {"len is too long": 8, "len is too short": -8}.get(self.bug, 0) if self.replies[GETATTR] % 5 == 4 else 0
        struct.pack_into("<I", frame, 0, len(frame) + wrong)
        return bytes(frame)

    def run(self):
        def requests():
            with self.kernel.makefile("rb") as stream:
                for frame in frames(stream):
                    with self.lock:
                        self.send(self.server, self.request(frame))
            self.server.shutdown(socket.SHUT_WR)

        thread = threading.Thread(target=requests, daemon=True)
        thread.start()
        with self.server.makefile("rb") as stream:
            for frame in frames(stream):
                with self.lock:
                    said, more = self.reply(frame)
                    self.send(self.server, more)
                    self.send(self.kernel, said)
        self.kernel.close()
        thread.join(timeout=SECONDS)

    def send(self, to, parts):
        try:
            for part in parts:
                to.sendall(part)
        except OSError:
            pass


def forget_frame(unique, node, count):
    return struct.pack("<IIQQIIIIQ", 48, FORGET, unique, node, 0, 0, 0, 0, count)


def wait_for(path):
    for _ in range(1000):
        if os.path.exists(path):
            return
        time.sleep(0.01)


class Started:
    """A server that listens at a new socket, by a command with the word SOCK."""

    def __init__(self, folder, command):
        self.path = f"{folder}/socket"
        if os.path.exists(self.path):
            os.unlink(self.path)
        self.process = subprocess.Popen([self.path if word == "SOCK" else str(word) for word in command], stdin=subprocess.DEVNULL,
                                        stdout=subprocess.DEVNULL, stderr=subprocess.DEVNULL)

    def __enter__(self):
        wait_for(self.path)
        return self.path

    def __exit__(self, *_):
        self.process.terminate()
        self.process.wait()


SERVE, TESTED = [PROGRAM, "serve", "SOCK"], [sys.executable, TOP / "tests/drive_server.py", "SOCK"]


def command_of(bug):
    return [sys.executable, __file__, PROGRAM, "peer", "SOCK", bug] if bug in BUGS else [*TESTED, bug]


def explore(folder, command, words):
    """What `drive` prints of a new server, its status, and what it says on standard error."""
    with Started(folder, command) as path:
        run = subprocess.run([PROGRAM, "drive", "--check", "--wait", "5000", *words, path], stdin=subprocess.DEVNULL, capture_output=True,
                             text=True, timeout=SECONDS)
    return run.stdout.splitlines(), run.returncode, run.stderr


def chosen(seed, words=()):
    return ["--random", "--seed", str(seed), "--events", str(EVENTS), *words]


def wrong(printed):
    """The lines that say that something is wrong."""
    return [line for line in printed if FAULTS.match(line.removeprefix("# "))]


def run_honest(folder, name, command):
    """Nothing is wrong, one seed is one run, and the output runs again."""
    lines = events = 0
    for seed in HONEST:
        printed, status, said = explore(folder, command, chosen(seed))
        judge(f"{name}, seed {seed}: status", (status, said, wrong(printed)), (0, "", []))
        judge(f"{name}, seed {seed}: nothing is counted at the end", printed[-1:], ["# kernel"])
        records = [line[2:] for line in printed if line.startswith("# ")]
        lines, events = lines + len(printed), events + len(printed) - len(records)
        if seed > 2:
            continue
        script = Path(folder) / "script"
        script.write_text("\n".join(printed) + "\n")
        judge(f"{name}, seed {seed}: runs again", explore(folder, command, [str(script)]), (records, 0, ""))
        judge(f"{name}, seed {seed}: seed 1 gives the same", explore(folder, command, chosen(1))[0] == printed, seed == 1)
    print(f"{name}: {len(HONEST)} seeds, {events} lines run, {lines} printed", flush=True)


def shrunk(folder, bug, printed):
    """How many lines are left of a script."""
    script = Path(folder) / "wrong"
    script.write_text("\n".join(printed) + "\n")
    words = [sys.executable, TOP / "examples/explore/shrink.py", "-p", PROGRAM, *command_of(bug), "--", script]
    run = subprocess.run(words, stdin=subprocess.DEVNULL, capture_output=True, text=True)
    if run.returncode:
        return run.stderr
    return len([line for line in Path(f"{script}.short").read_text().splitlines() if not line.startswith("#")])


def run_bug(folder, bug):
    words = ["--any"] if bug in (*drive_server.OPENING_BUGS, "each offset is one too far") else []
    found, first = [], None
    for seed in SEEDS:
        printed, _, _ = explore(folder, command_of(bug), chosen(seed, words))
        if wrong(printed):
            found.append(seed)
            first = first or printed
    if bug in UNSEEN:
        print(f"{bug}: by no frame; {len(found)} of {len(SEEDS)} seeds", flush=True)
        return
    judge(f"{bug}: is found", bool(found), True)
    if first:
        left = shrunk(folder, bug, first)
        judge(f"{bug}: lines left, {left}", isinstance(left, int) and left <= LINES, True)
        print(f"{bug}: {len(found)} of {len(SEEDS)} seeds, first {found[0]}: {wrong(first)[0][2:]}; {left} lines left", flush=True)


def serve_peer(path, bug):
    """Serves one connection with a bug of the peer, before a `fuseworld serve` of its own."""
    with tempfile.TemporaryDirectory() as folder, Started(folder, SERVE) as served:
        listener, behind = socket.socket(socket.AF_UNIX), socket.socket(socket.AF_UNIX)
        behind.connect(served)
        listener.bind(f"{path}.new")
        listener.listen()
        os.rename(f"{path}.new", path)
        Peer(bug, listener.accept()[0], behind).run()


def main():
    if sys.argv[2:3] == ["peer"]:
        return serve_peer(*sys.argv[3:])
    with tempfile.TemporaryDirectory() as folder:
        run_honest(folder, "serve", SERVE)
        run_honest(folder, "tests/drive_server.py", TESTED)
        for bug in [*drive_server.BUGS, *drive_server.OPENDIR_BUGS, *drive_server.OPENING_BUGS, *BUGS]:
            run_bug(folder, bug)
    print(f"{judging.passed} passed, {judging.failed} failed")
    return bool(judging.failed)


sys.exit(main())
