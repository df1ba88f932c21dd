#!/usr/bin/env python3
"""Runs the built program's command `drive` on a server of tests/drive_server.py and on peers that send chosen bytes, and
compares what it prints, its exit status and what it sent with what was worked out by hand.

Takes the program's path, or takes crates/fuseworld/out/fuseworld. Prints a line for each run that differs, and ends with
status 1 where there is one. Each run has 10 seconds.
"""
import os
import re
import resource
import signal
import socket
import struct
import subprocess
import sys
import tempfile
import threading
import time
from contextlib import contextmanager
from pathlib import Path

sys.dont_write_bytecode = True
from drive_server import (BATCH_FORGET, BUGS, CREATE, FORGET, INIT, MKDIR, OPEN, OPENDIR, OPENDIR_BUGS, OPENING_BUGS, READDIR, READDIRPLUS,
                          RELEASEDIR, Server, agreement, received, reply, send)
import judging
from judging import judge

TOP = Path(__file__).resolve().parent.parent
PROGRAM = Path(sys.argv[1] if len(sys.argv) > 1 else TOP / "crates/fuseworld/out/fuseworld").resolve()
SECONDS = 10
FAULTS = re.compile(r"reply to nothing|second reply|body is not|no reply's head|node \d+ (under|given)|the root given|differs: ")


@contextmanager
def served(words, script, peer):
    """The command that drives a peer, which has the other end of the connection, and a list for what the peer gives: nothing
    where nothing was connected."""
    with tempfile.TemporaryDirectory() as folder:
        path, file = f"{folder}/socket", Path(folder) / "script"
        file.write_text("\n".join(script) + "\n")
        listener = socket.socket(socket.AF_UNIX)
        listener.bind(path)
        listener.listen()
        listener.settimeout(SECONDS)
        gave = []

        def serve():
            try:
                connection, _ = listener.accept()
            except OSError:
                return
            with connection:
                connection.settimeout(SECONDS)
                gave.append(peer(connection))

        thread = threading.Thread(target=serve)
        thread.start()
        yield [PROGRAM, "drive", *words, file, path], gave
        # Where nothing was connected, the peer still waits for it.
        listener.shutdown(socket.SHUT_RDWR)
        thread.join()
        listener.close()


def drive(words, script, peer):
    """The lines that a run prints, its status, and what the peer gives, or `None`."""
    with served(words, script, peer) as (command, gave):
        run = subprocess.run(command, stdin=subprocess.DEVNULL, capture_output=True, text=True, timeout=SECONDS)
    return run.stdout.splitlines() + run.stderr.splitlines(), run.returncode, gave[0] if gave else None


def on_server(words, script, **choices):
    """The same on a server with a bug or none; the last is the requests that it was sent."""
    return drive(words, script, Server(**choices).serve)


CLOSE = object()


def answering(*answers):
    """A peer that sends the parts of the K-th answer at the K-th request but FORGET, each by a write of its own, and closes the
    connection at `CLOSE`. At other requests it sends nothing."""
    def peer(connection):
        left = list(answers)
        for opcode, *_ in received(connection):
            parts = left.pop(0) if left and opcode != FORGET else []
            send(connection, *(part for part in parts if part is not CLOSE))
            if CLOSE in parts:
                return
    return peer


def on_frames(words, script, *answers):
    """The lines that a run prints on such a peer, and its status."""
    return drive(words, script, answering(*answers))[:2]


# --- a server with a bug or none

CALLS = ["call mkdir /d", "call create /d/f", "call write 2 0 6869", "call stat /d/f", "call close 2", "call list /d 0",
         "call unlink /d/f", "call create /g", "call close 8", "call stat /g", "call stat /", "call stat /none"]
# The server's inode numbers and nodes rise from 2, and the K-th name of a directory has offset K.
CALLED = ["mounted", "call 1", "answer 1 0", "call 2", "answer 2 0", "call 3", "answer 3 0 2", "call 4", "answer 4 0 file 3 2 1",
          "call 5", "answer 5 0", "call 6", "answer 6 0 f:1:file", "call 7", "answer 7 0", "call 8", "answer 8 0",
          "call 9", "answer 9 0", "call 10", "answer 10 0 file 4 0 1", "call 11", "answer 11 0 dir 1 0 1", "call 12", "answer 12 2",
          "kernel 2:0:1 3:0:1 4:0:1"]
# How many of those lines are printed before each request is answered: INIT, MKDIR, CREATE, WRITE, GETATTR, RELEASE, OPENDIR,
# READDIR, RELEASEDIR, UNLINK, CREATE, RELEASE, GETATTR, GETATTR and LOOKUP.
BEFORE = [1, 2, 4, 6, 8, 11, 12, 12, 12, 14, 16, 19, 20, 22, 24]
MOUNT = ["mount 0 0", "read p 0", "write"]
MOUNTED = ["mounted", "read 2 INIT 56", "written 2 0"]
SIGNAL = [*MOUNT, "call stat /slow", "read p 0", "intr 1 soft", "read i", "write", "call stat /", "read p 0", "write"]
SIGNALLED = [*MOUNTED, "call 1", "read 4 LOOKUP 45", "interrupted 1 queued", "read 5 INTERRUPT 48", "written 4 0", "answer 1 4",
             "call 2", "read 6 GETATTR 56", "written 6 0", "answer 2 0 dir 1 0 1", "kernel"]
# Two lookups of a file, of which one is forgotten while the other's reply is on its way.
LOSE = [*MOUNT, "call create /f", "read p 0", "write", "call close 1", "read p 0", "write", "drop 1 f", "call stat /f",
        "read p 0", "evict 2", "read f 1", "write", "read p 0", "write"]
LOST = [*MOUNTED, "call 1", "read 4 CREATE 58", "written 4 0", "answer 1 0", "call 2", "answer 2 0", "read 6 RELEASE 64",
        "written 6 0", "dropped", "call 3", "read 8 LOOKUP 42", "evicted 2 1", "read 10 FORGET 48", "written 8 0",
        "read 12 GETATTR 56", "written 12 0", "answer 3 0 file 2 0 1", "kernel 2:0:1"]
FOUND = {
    "count lost": (CALLS, "differs: answer 4 (call stat /d/f, line 4): ESTALE 116, here 0 file 3 2 1"),
    "node reused": (CALLS, "node 3 given for two files at once: CREATE 18 of call 8, line 8: file 4, before file 3"),
    "two generations": (CALLS, "node 3 under two generations: CREATE 18 of call 8, line 8: 1, before 0"),
    "reply twice": (CALLS, "second reply: GETATTR 10 of call 4, line 4"),
    "reply after EINTR": (SIGNAL, "second reply: LOOKUP 4 of call 1, line 4"),
    "wrong length": (CALLS, "body is not its request's: GETATTR 10 of call 4, line 4: 112 bytes, 104 are right"),
    "another file": (CALLS, "node 3 given for two files at once: GETATTR 10 of call 4, line 4: dir 2, before file 3"),
    "root given": (CALLS, "the root given for a name: MKDIR 4 of call 1, line 1"),
    "reply to nothing": (CALLS, "reply to nothing: 1000"),
}

# What Linux answers otherwise than the world beside: CREATE opens a file that is there, and finds that a directory is one; a
# directory above what is moved onto it is not empty. A call of a file that was opened so has another number there than here.
OTHERWISE = ["call mkdir /d", "call create /d/f", "call write 2 0 6869", "call close 2", "call create /d/f", "call read 5 0 10",
             "call write 5 2 21", "call close 5", "call read 5 0 10", "call create /d", "call rename /d/f /d", "call mkdir /e",
             "call rename /d/f /e", "call open /d/f", "call read 14 0 10", "call close 14", "call create /d/g", "call write 17 0 00",
             "call close 17", "call stat /d/g", "call mkdir /d/d", "call create /d/d/f", "call close 22", "call rename /d/d/f /d"]
ANSWERED_OTHERWISE = ["answer 5 0", "answer 6 0 6869", "answer 9 9", "answer 10 21", "answer 11 39", "answer 13 21", "answer 15 0 686921",
                      "answer 24 39", "answers 24 differ 0"]
FOUND_OTHERWISE = {
    "a file is a directory": "differs: answer 5 (call create /d/f, line 5): EISDIR 21, here EEXIST 17",
    "a directory is opened": "differs: answer 10 (call create /d, line 10): 0, here EEXIST 17",
    "any directory is above": "differs: answer 13 (call rename /d/f /e, line 13): ENOTEMPTY 39, here EISDIR 21",
}


def form_of(script):
    return ["--beside"] if script is CALLS else []


def run_bugs():
    for opens in (True, False):
        judge(f"no bug, OPENDIR {opens}", on_server(["--beside"], CALLS, opens=opens)[:2], ([*CALLED, "answers 12 differ 0"], 0))
    judge("no bug, a signal", on_server([], SIGNAL)[:2], (SIGNALLED, 0))
    lines, status, requests = on_server([], LOSE)
    judge("no bug, a forget", (lines, status), (LOST, 0))
    judge("the forget's count", [body for opcode, _, body in requests if opcode == FORGET], [struct.pack("<Q", 1)])
    judge("count lost, by events", on_server([], LOSE, bug="count lost")[0][-2:], ["answer 3 116", "kernel 2:0:1"])
    for bug in BUGS:
        script, line = FOUND[bug]
        lines, status, _ = on_server(form_of(script), script, bug=bug)
        judge(f"{bug}: {line}", (line in lines, status), (True, 6))
        judge(f"{bug}, --report-only", on_server([*form_of(script), "--report-only"], script, bug=bug)[:2], (lines, 0))
        first = next((line for line in lines if FAULTS.match(line)), None)
        judge(f"{bug}: nothing else is said before", first in (line, "differs: answer 3 (call write 2 0 6869, line 3): ESTALE 116, here 0 2"), True)


def run_otherwise():
    lines, status, _ = on_server(["--beside"], OTHERWISE, opens_existing=True)
    judge("right answers that are other than here", ([line for line in ANSWERED_OTHERWISE if line not in lines], status), ([], 0))
    judge("CREATE that refuses what is there", on_server(["--beside"], OTHERWISE)[0][-1], "answers 24 differ 0")
    for bug in OPENING_BUGS:
        lines, status, _ = on_server(["--beside"], OTHERWISE, bug=bug, opens_existing=True)
        first = next((line for line in lines if FAULTS.match(line)), None)
        judge(bug, (first, status), (FOUND_OTHERWISE[bug], 6))


# --- what is sent in fields that are free

def run_fields():
    script = ["call create /f", "call close 1", "call open /f", "call open /f r", "call open /f w", "call open /f", "call list / 0"]
    for opens, offer, flags, sent in [(True, "0", 0x42041, (1, 7, 1)), (False, "4000100", 0x4042141, (1, 0, 0))]:
        lines, status, requests = on_server(["--calls", "--offer", offer], script, opens=opens)
        judge(f"fields: offer {offer}", (lines[-1], status), ("kernel 2:0:1", 0))
        of = lambda code, form, place: [struct.unpack_from(form, body, place)[0] for opcode, _, body in requests if opcode == code]
        judge("INIT's flags", of(INIT, "<I", 12), [flags])
        judge("CREATE's flags", of(CREATE, "<I", 0), [0x8042])
        judge("OPEN's flags", of(OPEN, "<I", 0), [0x8002, 0x8000, 0x8001, 0x8002])
        asked, handle, released = sent
        judge("OPENDIR's flags", of(OPENDIR, "<I", 0), [0x10000] * asked)
        judge("READDIR's fh", of(READDIR, "<Q", 0), [handle])
        judge("RELEASEDIR's fh", of(RELEASEDIR, "<Q", 0), [7] * released)
    lines, status, requests = on_server(["--calls", "--no-opendir"], ["call list / 0", "call list / 0"])
    judge("--no-opendir", [opcode for opcode, *_ in requests], [INIT, READDIR, READDIR])
    lines, status, requests = on_server(["--calls"], ["call list / 0", "call list / 0"], opens=False)
    judge("ENOSYS to OPENDIR counts for the connection", [opcode for opcode, *_ in requests], [INIT, OPENDIR, READDIR, READDIR])


# --- frames of a peer

AGREES = [reply(2, agreement())]
STAT = [*MOUNT, "call stat /", "read p 0", "write"]
STATED = [*MOUNTED, "call 1", "read 4 GETATTR 56"]
# How that request is named, in words and as JSON.
ASKED = "GETATTR 4 of call 1, line 4"
NAMED = '"unique":4,"opcode":"GETATTR","call":1,"line":4,'
ANSWERED = ["written 4 0", "answer 1 0 dir 1 0 1", "kernel"]
ATTR = reply(4, bytes(16) + Server().attr(1))
SHORT_WAIT = ["--wait", "500"]
NOTICE = struct.pack("<IiQ", 40, 2, 0) + bytes(24)
NOTIFIED = "notification 2 40"


def run_frames():
    whole = (STATED + ANSWERED, 0)
    judge("whole frames", on_frames([], STAT, AGREES, [ATTR]), whole)
    for cut in (1, 4, 15, 16, len(ATTR) - 1):
        judge(f"a frame in two pieces, cut at {cut}", on_frames([], STAT, AGREES, [ATTR[:cut], ATTR[cut:]]), whole)
    judge("two frames in one write", on_frames([], [*STAT, "write"], AGREES, [ATTR + reply(6)]),
          ([*STATED, *ANSWERED[:2], "written 6 2", "reply to nothing: 6", "kernel"], 6))
    for error in (5, -512):
        judge(f"an error of {error} in a reply", on_frames([], [*STAT, "write"], AGREES, [struct.pack("<IiQ", 16, error, 4), ATTR]),
              ([*STATED, "written 0 22", f"no reply's head: error {error}", *ANSWERED], 6))
    for length in (0, 4, 15, 131073, 0xffffffff):
        judge(f"a len of {length}", on_frames([], STAT, AGREES, [struct.pack("<IiQ", length, 0, 4)]), ([*STATED, "device failed", f"device failed: a frame of {length} bytes"], 4))
    for cut, part in [(2, "2 of 4 bytes of a frame's length"), (20, f"20 of {len(ATTR)} bytes of a frame")]:
        judge(f"a frame is cut short by the end after {cut} bytes", on_frames([], STAT, AGREES, [ATTR[:cut], CLOSE]),
              ([*STATED, "device failed", f"device failed: the stream ended after {part}"], 4))
        judge(f"a frame is cut short by silence after {cut} bytes", on_frames(SHORT_WAIT, STAT, AGREES, [ATTR[:cut]]),
              ([*STATED, "device failed", f"device failed: {part} came in time"], 4))
    judge("a notification", on_frames([], STAT, AGREES, [NOTICE, ATTR]), ([*STATED, NOTIFIED, *ANSWERED], 0))
    judge("no notification: number 0 without a code", on_frames([], [*STAT, "write"], AGREES, [reply(0), ATTR]),
          ([*STATED, "written 0 2", "reply to nothing: 0", *ANSWERED], 6))
    judge("a body beside an error", on_frames([], STAT, AGREES, [reply(4, bytes(8), error=2)]),
          ([*STATED, "written 4 22", f"body is not its request's: {ASKED}: 8 bytes, 0 are right", "answer 1 5", "kernel"], 6))
    judge("no reply", on_frames(SHORT_WAIT, STAT, AGREES), ([*STATED, f"no reply: {ASKED}"], 4))
    two = [*STAT[:-1], "call stat /", "read p 0", "write"]
    judge("no reply to several", on_frames(SHORT_WAIT, two, AGREES), ([*STATED, "call 2", "read 6 GETATTR 56", f"no reply: {ASKED} and 1 more"], 4))
    judge("no reply to INIT", on_frames([*SHORT_WAIT, "--calls"], ["call stat /"]), (["mounted", "no reply: INIT 2"], 4))
    judge("an end at once", drive(["--calls"], ["call stat /"], lambda connection: None)[:2], (["mounted", "server ended"], 4))


def run_abort():
    """A reply to a request that an abort ended is refused, and the server did nothing wrong."""
    ended = [*STATED, "aborted", "answer 1 103"]
    judge("a reply after an abort", on_frames([], [*STAT[:-1], "abort", "write"], AGREES, [ATTR]), ([*ended, "written 4 2", "kernel"], 0))


def run_closings():
    """The server closes in the place of its K-th reply."""
    for place, count in enumerate(BEFORE):
        server = Server()

        def peer(connection, left=place):
            for opcode, unique, node, body in received(connection):
                if left == 0:
                    return
                left -= 1
                send(connection, *server.frames(opcode, unique, node, body))
        judge(f"the end at reply {place + 1}", drive(["--calls"], CALLS, peer)[:2], (CALLED[:count] + ["server ended"], 4))


def run_agreements():
    live = [*STATED, *ANSWERED]
    ended = [*MOUNTED, "call 1", "answer 1 107", "refused 4 NotReady", "no reply"]
    for minor, lines in [(31, live), (32, live), (22, ended)]:
        wanted = (lines, 0 if lines is live else 4)
        judge(f"7.{minor}", on_frames([] if lines is live else SHORT_WAIT, STAT, [reply(2, agreement(minor))], [ATTR]), wanted)
    # Before 7.23 the body has 24 bytes. BATCH_FORGET came with 7.16, and a longer CREATE with 7.12.
    for minor, size, known in [(12, 24, 15), (14, 24, 15), (16, 24, 31), (19, 24, 31), (22, 24, 31), (23, 64, 31), (28, 64, 31), (30, 64, 31)]:
        wanted = ([*MOUNTED, f"7.{minor} taken as 7.{known}", *live[len(MOUNTED):]], 0)
        judge(f"7.{minor}", on_frames([], STAT, [reply(2, agreement(minor)[:size])], [ATTR]), wanted)
    for minor, size in [(28, 24), (23, 24), (11, 24), (14, 23), (19, 23)]:
        judge(f"7.{minor} of another length", on_frames(SHORT_WAIT, STAT, [reply(2, agreement(minor)[:size])], [ATTR]),
              ([*MOUNTED[:2], "written 2 22", f"body is not its request's: INIT 2: {size} bytes", *ended[3:]], 4))
    judge("INIT fails", on_frames(SHORT_WAIT, STAT, [reply(2, error=5)], [ATTR]), (ended, 4))


def run_opendir():
    script = [*MOUNT, "call stat /", "read p 0", "call list / 0", "read p 0", "write", "write"]
    own = 1 << 62
    opened = reply(own, struct.pack("<QII", 7, 0, 0))
    begun = [*MOUNTED, "call 1", "read 4 GETATTR 56", "call 2"]
    judge("a reply that comes before OPENDIR's waits", on_frames([], script, AGREES, [], [ATTR, opened], [reply(6)], [reply(own + 2)]),
          ([*begun, "read 6 READDIR 80", *ANSWERED[:2], "written 6 0", "answer 2 0", "kernel"], 0))
    wrong = [f"body is not its request's: OPENDIR {own}"]
    for said, error, lines in [(reply(own, error=13), 13, []), (reply(own, error=5), 5, []), (reply(own), 5, wrong), (reply(own, bytes(8)), 5, wrong)]:
        judge(f"OPENDIR is {error}", on_frames([], ["mount 0 0", "read p 0", "write", "call list / 0", "read p 0"], AGREES, [said]),
              ([*MOUNTED, "call 1", *lines, "read 4 READDIR 80", f"answer 1 {error}", "kernel"], 6 if lines else 0))


def run_opendir_bugs():
    """What a server does wrong at OPENDIR and RELEASEDIR is said."""
    script = ["call mkdir /d", "call list / 0", "call list / 0", "call stat /"]
    good = ["answer 1 0", "answer 2 0 d:1:dir", "answer 3 0 d:1:dir", "answer 4 0 dir 1 0 1"]
    own = 1 << 62
    faults = {"twice": "second reply: {0} {1}", "length": "body is not its request's: {0} {1}", "error": "no reply's head: unique {1}"}
    for bug in OPENDIR_BUGS:
        name, what = bug.split()
        lines, status, _ = on_server(["--calls"], script, bug=bug)
        answers = [line.replace(" 0 d:1:dir", " 5") for line in good] if bug == "OPENDIR length" else good
        judge(bug, ([line for line in lines if line.startswith("answer")], status), (answers, 6))
        # A directory that could not be opened is not released.
        numbers = (own, own + 2) if bug == "OPENDIR length" else (own, own + 4) if name == "OPENDIR" else (own + 2, own + 6)
        judge(f"{bug}: what is said", [line for line in lines if FAULTS.match(line)], [faults[what].format(name, number) for number in numbers])
    listing = [*MOUNT, "call list / 0", "read p 0", "write"]
    begun = [*MOUNTED, "call 1"]
    judge("an error of -512 to OPENDIR, and no other reply",
          on_frames(SHORT_WAIT, listing, AGREES, [struct.pack("<IiQ", 16, -512, own)]), ([*begun, f"no reply's head: unique {own}", "no reply"], 4))
    judge("an error of 5 to OPENDIR, said once", on_frames([], [*listing, "write"], AGREES,
          [struct.pack("<IiQ", 16, 5, own), reply(own, struct.pack("<QII", 7, 0, 0))], [reply(4)], [reply(own + 2)]),
          ([*begun, f"no reply's head: unique {own}", "read 4 READDIR 80", "written 0 22", "written 4 0", "answer 1 0", "kernel"], 6))


def run_releasedir():
    """No request is sent before RELEASEDIR is answered."""
    own, opened = 1 << 62, reply(1 << 62, struct.pack("<QII", 7, 0, 0))
    listing = [*MOUNT, "call list / 0", "read p 0", "write"]
    listed = [*MOUNTED, "call 1", "read 4 READDIR 80", "written 4 0"]

    def answering_late(seconds):
        """A server that answers RELEASEDIR so many seconds later, or never."""
        server = Server()

        def peer(connection):
            opcodes = []
            for opcode, unique, node, body in received(connection):
                opcodes.append(opcode)
                if opcode == RELEASEDIR and seconds is None:
                    continue
                if opcode == RELEASEDIR:
                    time.sleep(seconds)
                send(connection, *server.frames(opcode, unique, node, body))
            return opcodes
        return peer

    # The directory is evicted and forgotten as soon as it was listed.
    evicting = [*MOUNT, "call mkdir /d", "read p 0", "write", "call list /d 0", "read p 0", "write", "drop 1 d", "evict 2", "read f 1"]
    begun = [*MOUNTED, "call 1", "read 4 MKDIR 50", "written 4 0", "answer 1 0", "call 2", "read 6 READDIR 80", "written 6 0"]
    sent = [INIT, MKDIR, OPENDIR, READDIR, RELEASEDIR]
    judge("RELEASEDIR is answered late", drive(["--check"], evicting, answering_late(0.2)),
          ([*begun, "answer 2 0", "dropped", "evicted 2 1", "read 8 FORGET 48", "kernel"], 0, [*sent, FORGET]))
    judge("RELEASEDIR is not answered", drive([*SHORT_WAIT, "--check"], evicting, answering_late(None)), ([*begun, "no reply"], 4, sent))
    judge("RELEASEDIR is not answered, by calls", drive([*SHORT_WAIT, "--calls"], ["call list / 0", "call stat /"], answering_late(None)),
          (["mounted", "call 1", "no reply"], 4, [INIT, OPENDIR, READDIR, RELEASEDIR]))
    judge("the server ends at RELEASEDIR", on_frames([], listing, AGREES, [opened], [reply(4)], [CLOSE]), ([*listed, "server ended"], 4))
    judge("an error to RELEASEDIR", on_frames([], listing, AGREES, [opened], [reply(4)], [reply(own + 2, error=5)]),
          ([*listed, "answer 1 0", "kernel"], 0))
    two = [*MOUNT, "call list / 0", "call stat /", "read p 0", "read p 0", "write", "write"]
    judge("a reply that comes before RELEASEDIR's waits",
          on_frames([], two, AGREES, [opened], [], [reply(4)], [reply(6, ATTR[16:]), reply(own + 2)]),
          ([*MOUNTED, "call 1", "call 2", "read 4 READDIR 80", "read 6 GETATTR 56", "written 4 0", "answer 1 0", "written 6 0",
            "answer 2 0 dir 1 0 1", "kernel"], 0))
    judge("an error of 5 to RELEASEDIR, and no other reply",
          on_frames(SHORT_WAIT, listing, AGREES, [opened], [reply(4)], [struct.pack("<IiQ", 16, 5, own + 2)]),
          ([*MOUNTED, "call 1", "read 4 READDIR 80", f"no reply's head: unique {own + 2}", "written 4 0", "no reply"], 4))
    for count, last, status in [(9999, ["answer 1 0", "kernel"], 0), (10000, ["device failed: 10000 frames wait"], 4)]:
        judge(f"{count} frames wait before RELEASEDIR's reply",
              on_frames([], listing, AGREES, [opened], [reply(4)], [reply(6) * count + reply(own + 2)]), ([*listed, *last], status))


def run_many():
    """While the reply to OPENDIR is awaited 10,000 frames are kept for the kernel. What is not for it is printed, and not kept."""
    script = [*MOUNT, "call list / 0", "read p 0", "write"]
    begun = [*MOUNTED, "call 1"]
    opened = reply(1 << 62, struct.pack("<QII", 7, 0, 0))
    for count, last in [(9999, ["read 4 READDIR 80", "written 6 2", "reply to nothing: 6", "kernel"]), (10000, ["device failed: 10000 frames wait"])]:
        judge(f"{count} frames wait", on_frames([], script, AGREES, [reply(6) * count + opened]), ([*begun, *last], 6 if count < 10000 else 4))
    last = ["read 4 READDIR 80", "written 4 0", "answer 1 0", "kernel"]
    judge("20000 notifications", on_frames([], script, AGREES, [NOTICE * 20000 + opened], [reply(4)], [reply((1 << 62) + 2)]), ([*begun, *[NOTIFIED] * 20000, *last], 0))


def run_talking():
    """A server sends notifications for two seconds before it answers. Their lines are read while the wait goes on."""
    opened = reply(1 << 62, struct.pack("<QII", 7, 0, 0))
    listing = [*MOUNT, "call list / 0", "read p 0", "write"]
    listed = [*MOUNTED, "call 1", *[NOTIFIED] * 20, "read 4 READDIR 80", "written 4 0", "answer 1 0", "kernel"]
    for name, script, answers, lines in [("a reply", STAT, [ATTR], [*STATED, *[NOTIFIED] * 20, *ANSWERED]),
                                         ("OPENDIR's reply", listing, [opened, reply(4), reply((1 << 62) + 2)], listed)]:
        def talks(connection):
            """Says when it answers what was awaited."""
            frames = received(connection)
            for answer in AGREES:
                next(frames)
                send(connection, answer)
            next(frames)
            for _ in range(20):
                send(connection, NOTICE)
                time.sleep(0.1)
            answered = time.monotonic()
            send(connection, answers[0])
            for answer in answers[1:]:
                next(frames)
                send(connection, answer)
            for _request in frames:
                pass
            return answered

        with served([], script, talks) as (command, gave):
            run = subprocess.Popen(command, stdin=subprocess.DEVNULL, stdout=subprocess.PIPE, text=True)
            read = [(line.rstrip("\n"), time.monotonic()) for line in run.stdout]
            run.wait(timeout=SECONDS)
        judge(f"notifications before {name}", ([line for line, _ in read], run.returncode), (lines, 0))
        # The last may be on its way as the answer is sent.
        early = [line for line, at in read if line == NOTIFIED and at < gave[0]]
        judge(f"notifications before {name} are read as they come", len(early) >= 15, True)


def run_refusals():
    """An output that takes the lines before a notification and no more: status 5, once what was awaited has come."""
    for name, script, lines, answers in [
        ("a reply", STAT, STATED, [[NOTICE, ATTR]]),
        ("OPENDIR's reply", [*MOUNT, "call list / 0", "read p 0"], [*MOUNTED, "call 1"], [[NOTICE, NOTICE, reply(1 << 62, error=13)]]),
    ]:
        taken = "".join(line + "\n" for line in lines)

        def limit():
            signal.signal(signal.SIGXFSZ, signal.SIG_IGN)
            resource.setrlimit(resource.RLIMIT_FSIZE, (len(taken), len(taken)))

        with served([], script, answering(AGREES, *answers)) as (command, _), tempfile.TemporaryFile("w+") as out:
            run = subprocess.run(command, stdin=subprocess.DEVNULL, stdout=out, stderr=subprocess.PIPE, text=True, timeout=SECONDS, preexec_fn=limit)
            out.seek(0)
            judge(f"a notification before {name} is refused", (out.read(), run.stderr, run.returncode), (taken, "", 5))


def run_waits():
    """`--wait` is the time from a request to its reply, whatever comes between, and that for a request to be taken."""
    def ended(name, script, peer, last):
        began = time.monotonic()
        lines, status, _ = drive(SHORT_WAIT, script, peer)
        judge(name, (lines[-1] in last, status, time.monotonic() - began < SECONDS / 2), (True, 4, True))

    def agreeing(connection, *answers):
        """Sends an answer at each of the first requests, and goes on."""
        frames = received(connection)
        for answer in answers:
            next(frames)
            send(connection, answer)
        return frames

    def reads_nothing(connection):
        server = Server()
        entry = server.entry(server.make(server.files[1], b"f", bytearray())) + struct.pack("<QII", 1, 0, 0)
        agreeing(connection, AGREES[0], reply(4, entry))
        time.sleep(2)

    def talks(connection):
        next(agreeing(connection, AGREES[0]))
        try:
            while True:
                connection.sendall(NOTICE)
                time.sleep(0.01)
        except OSError:
            pass

    def dribbles(connection):
        next(agreeing(connection, AGREES[0]))
        try:
            for byte in ATTR:
                connection.sendall(bytes([byte]))
                time.sleep(0.1)
        except OSError:
            pass

    writes = [line for _ in range(100) for line in (f"call write 1 0 {'00' * 4096}", "read p 0")]
    ended("a server that reads nothing", [*MOUNT, "call create /f", "read p 0", "write", *writes], reads_nothing, ["device failed: a request was not taken in time"])
    # The time may be over between two frames or in the middle of one, whose rest has come then.
    ended("a server that keeps talking", STAT, talks, [f"no reply: {ASKED}"])
    parts = [f"device failed: {came} of 4 bytes of a frame's length came in time" for came in range(1, 4)]
    parts += [f"device failed: {came} of {len(ATTR)} bytes of a frame came in time" for came in range(4, len(ATTR))]
    ended("a reply of a byte a tenth of a second", STAT, dribbles, parts)


# --- the command line, and a socket of packets

def run_words():
    for words, script, line in [
        ([], ["mount 0 0", "take 0"], "line 2: unknown event"), ([], ["# of calls", "", "settle 0"], "line 3: unknown event"),
        ([], ["write 0"], "line 1: wrong words"), ([], ["call open / x"], "line 1: wrong words"),
        ([], ["tick 01"], "line 1: bad number"), ([], ["call write 1 0 0"], "line 1: bad text"),
        (["--calls"], ["mount 0 0"], "line 1: unknown event"), (["--calls"], ["call stat /", "write"], "line 2: unknown event"),
        (["--beside"], ["read p 0"], "line 1: unknown event"), (["--beside"], ["intr 1 soft"], "line 1: unknown event"),
    ]:
        judge(f"{words} {script}", drive(words, script, lambda connection: list(received(connection))), ([line], 1, None))
    for words, status in [(["--offer", "0x1", "x"], 2), (["--offer", "123456789", "x"], 2), (["--offer", "A", "x"], 2),
                          (["--wait", "0", "x"], 2), (["--wait", "86400001", "x"], 2), ([], 2), (["x", "y", "z"], 2),
                          (["/nowhere", "/nowhere"], 1), (["/nowhere"], 1), ([os.devnull, "/nowhere"], 4)]:
        run = subprocess.run([PROGRAM, "drive", *words], stdin=subprocess.DEVNULL, stdout=subprocess.PIPE, stderr=subprocess.PIPE, timeout=SECONDS)
        judge(f"drive {words}", (run.returncode, run.stdout, run.stderr != b""), (status, b"", True))
    alone = "--orders goes with FILE, --number and --nth alone"
    for words, line in [([*given, "x"], alone) for given in (["--orders", "x"], ["--orders", "--calls"], ["--orders", "--beside"],
                            ["--orders", "--no-opendir"], ["--orders", "--trace"], ["--orders", "--json"], ["--orders", "--check"],
                            ["--orders", "--capture", "y"], ["--orders", "--random"], ["--orders", "--any"], ["--orders", "--quick"], ["--orders", "--report-only"])] + [
                        (["--number", "x"], "--number and --nth go with --orders"), (["--nth", "1", "x"], "--number and --nth go with --orders"),
                        (["--any", "x"], "--any and --quick go with --random"), (["--quick", "x"], "--any and --quick go with --random"), (["--random", "--calls", "x"], "--random goes without --calls and --beside"),
                        (["--random", "--beside", "x"], "--random goes without --calls and --beside")]:
        run = subprocess.run([PROGRAM, "drive", *words], stdin=subprocess.DEVNULL, capture_output=True, text=True, timeout=SECONDS)
        judge(f"drive {words}", (run.returncode, run.stdout, run.stderr), (2, "", f"error: {line}\n"))
    for words, line in [(["drive", "/nowhere"], "cannot read /nowhere: No such file or directory (os error 2)"),
                        (["drive", os.devnull, "/nowhere"], "socket failed: No such file or directory (os error 2)"),
                        (["drive", os.devnull, os.devnull], "socket failed: Connection refused (os error 111)"),
                        (["serve", "/nowhere/socket"], "socket failed: No such file or directory (os error 2)"),
                        (["check", "/nowhere"], "cannot read /nowhere: No such file or directory (os error 2)"),
                        (["decode", "/nowhere"], "cannot read /nowhere: No such file or directory (os error 2)")]:
        run = subprocess.run([PROGRAM, *words], stdin=subprocess.DEVNULL, capture_output=True, text=True, timeout=SECONDS)
        judge(f"{words}", (run.stdout, run.stderr), ("", line + "\n"))


def run_input():
    """`drive -`: each line of standard input is run, and what it comes to printed, before the next is read."""
    with served([], ["unread"], Server().serve) as (command, gave):
        command = [*command[:2], "-", command[3]]
        run = subprocess.Popen(command, stdin=subprocess.PIPE, stdout=subprocess.PIPE, stderr=subprocess.PIPE, text=True, bufsize=1)

        def say(line, count=1):
            run.stdin.write(line + "\n")
            run.stdin.flush()
            return [run.stdout.readline().rstrip("\n") for _ in range(count)]

        judge("- mounts", [say(line) for line in MOUNT], [[line] for line in MOUNTED])
        judge("- passes over", say("# nothing", 0) + say("", 0), [])
        judge("- runs a line", say("call create /f"), ["call 1"])
        judge("- sends what it comes to", say("read p 0"), ["read 4 CREATE 58"])
        answer = say("write", 2)
        judge("- answers", answer, ["written 4 0", "answer 1 0"])
        # The next line has the number that was answered.
        judge("- is told what it was answered", say(f"call read {answer[1].split()[1]} 0 1"), ["call 2"])
        judge("- refuses", say("read i"), ["refused 2 NoSuch"])
        rest = run.communicate("read p 0\nwrite", timeout=SECONDS)
        judge("- ends", (rest[0].splitlines(), rest[1], run.returncode),
              (["read 6 READ 80", "written 6 0", "answer 2 0 -", "kernel 2:0:1"], "", 0))
    for words, lines, wanted in [
        ([], [*MOUNT, "call stat /none", "take 0", "read p 0"], ([*MOUNTED, "call 1", "line 5: unknown event"], 1)),
        ([], ["write 0"], (["line 1: wrong words"], 1)), ([], [], (["kernel"], 0)), ([], [*MOUNT, "abort"], ([*MOUNTED, "aborted", "kernel"], 0)),
        (["--calls"], ["call stat /", "read p 0"], (["mounted", "call 1", "answer 1 0 dir 1 0 1", "line 2: unknown event"], 1)),
        (SHORT_WAIT, [*MOUNT, "write", "call stat /"], ([*MOUNTED, "no reply"], 4)),
    ]:
        with served(words, ["unread"], Server().serve) as (command, _):
            command = [*command[:-2], "-", command[-1]]
            run = subprocess.run(command, input="".join(line + "\n" for line in lines), capture_output=True, text=True, timeout=SECONDS)
        judge(f"- {words} {lines}", (run.stdout.splitlines() + run.stderr.splitlines(), run.returncode), wanted)


def run_packets():
    """On a SOCK_SEQPACKET socket as standard input and output, the lines go to standard error."""
    for answers, wanted, status in [([AGREES[0], ATTR], [*STATED, *ANSWERED], 0), (AGREES, [*STATED, f"no reply: {ASKED}"], 4)]:
        ours, theirs = socket.socketpair(socket.AF_UNIX, socket.SOCK_SEQPACKET)
        theirs.setsockopt(socket.SOL_SOCKET, socket.SO_RCVTIMEO, struct.pack("ll", 0, 300_000))
        ours.settimeout(SECONDS)
        with tempfile.NamedTemporaryFile("w", suffix=".script") as file:
            file.write("\n".join(STAT) + "\n")
            file.flush()
            run = subprocess.Popen([PROGRAM, "drive", file.name], stdin=theirs, stdout=theirs, stderr=subprocess.PIPE, text=True)
            theirs.close()
            for answer in answers:
                ours.recv(1 << 17)
                ours.send(answer)
            lines = run.communicate(timeout=SECONDS)[1].splitlines()
        ours.close()
        judge("packets", (lines, run.returncode), (wanted, status))


def run_trace():
    """The lines are those of `decode`, but for the faults."""
    own = 1 << 62
    agreed = ["> INIT 2 0 56 major 7 minor 31 flags 0x0000000000042041 ASYNC_READ DONT_MASK DO_READDIRPLUS PARALLEL_DIROPS",
              "< INIT 2 0 80 major 7 minor 31 max_write 4096 flags 0x0000000000042001 ASYNC_READ DO_READDIRPLUS PARALLEL_DIROPS"]
    opendir, lists = f"> OPENDIR {own} 1 48 (of this command)", "1 80 fh {} offset 0 size 4096"
    of = lambda lines: [line for line in lines if line[0] in "<>"]
    lines = drive(["--calls", "--trace"], ["call stat /", "call list / 0"], Server().serve)[0]
    judge("--trace", of(lines)[:9], [
        *agreed, "> GETATTR 4 1 56", "< GETATTR 4 0 120 attr dir ino 1 size 0 nlink 1",
        opendir, f"< OPENDIR {own} 0 32 fh 7 (to this command)",
        f"> READDIR 6 {lists.format(7)}", "< READDIR 6 0 16", f"> RELEASEDIR {own + 2} 1 64 fh 7 (of this command)",
    ])
    # READDIR has no handle that was given, and a reply is to nothing: `decode` would say both.
    lines = on_frames(["--trace"], [*MOUNT, "call list / 0", "read p 0", "write", "write"], AGREES,
                      [NOTICE, reply(own, error=38)], [reply(1000), reply(4, error=2)])[0]
    judge("--trace of errors and notifications", of(lines), [
        *agreed, opendir, "< notification INVAL_INODE 40 node 0", f"< OPENDIR {own} ENOSYS 16 (to this command)",
        f"> READDIR 4 {lists.format(0)}", "< unique 1000 0 16", "< READDIR 4 ENOENT 16",
    ])
    # What is no reply by its head answers nothing, and the reply behind it is OPENDIR's.
    lines = on_frames(["--trace"], [*MOUNT, "call list / 0", "read p 0", "write"], AGREES, [struct.pack("<IiQ", 16, 5, own), reply(own, error=13)])[0]
    judge("--trace of an error that is positive", of(lines), [
        *agreed, opendir, f"< OPENDIR {own} EIO 16: the error number is out of range (to this command)", f"< OPENDIR {own} EACCES 16 (to this command)",
    ])


def on_captured(words, script, *answers):
    """The lines that a run with a capture prints on such a peer, its status, and what `check` says of the capture but the counts."""
    with tempfile.TemporaryDirectory() as folder:
        path = f"{folder}/capture"
        lines, status = on_frames([*words, "--capture", path], script, *answers)
        run = subprocess.run([PROGRAM, "check", path], capture_output=True, text=True, timeout=SECONDS)
        return lines, status, Path(path).read_text().splitlines(), run.stdout.splitlines()[:-2] + run.stderr.splitlines(), run.returncode


def run_check():
    """What breaks the rules of `check` is said as its frame goes over, and `check` of the capture says it of the same line."""
    for words, script, wanted in [(["--beside"], CALLS, [*CALLED, "answers 12 differ 0"]), ([], SIGNAL, SIGNALLED), ([], LOSE, LOST)]:
        for opens in (True, False):
            judge(f"--check of what is right, OPENDIR {opens}", on_server([*words, "--check"], script, opens=opens)[:2], (wanted, 0))
    begun = [*MOUNTED, "call 1", "read 4 GETATTR 56"]
    two = [*ANSWERED[:2], "written 4 2", f"second reply: {ASKED}", "kernel"]
    # Frame 1 is `= several readers`, where OPENDIRs may be sent. Then come INIT, its reply, GETATTR, its reply and that again.
    for words, number in [([], 6), (["--no-opendir"], 5)]:
        said = "server: second reply: unique 4"
        lines, status, capture, judged, found = on_captured([*words, "--check"], [*STAT, "write"], AGREES, [ATTR, ATTR])
        judge("--check of a second reply", (lines, status), ([*begun, *two[:2], f"frame {number}: {said}", *two[2:]], 6))
        judge("its capture", (len(capture), capture[-4::2], capture[-1]), (number, [f"< {AGREES[0].hex()}", f"< {ATTR.hex()}"], f"< {ATTR.hex()} ENOENT"))
        judge("its first line", capture[0] == "= several readers", not words)
        judge("check of it", (judged, found), ([f"line {number}: {said}; GETATTR read at line {number - 2}; answered at line {number - 1}"], 6))
    said = "server: body that is not its request's"
    lines, status, capture, judged, found = on_captured(["--check"], STAT, AGREES, [reply(4, bytes(8))])
    judge("--check of a short body", (lines, status),
          ([*begun, f"frame 5: {said}", "written 4 22", f"body is not its request's: {ASKED}: 8 bytes, 104 are right", "answer 1 5", "kernel"], 6))
    judge("check of its capture", (capture[-1], judged, found), (f"< {reply(4, bytes(8)).hex()} EINVAL", [f"line 5: {said}"], 6))
    judge("without --check", on_captured([], STAT, AGREES, [reply(4, bytes(8))])[1:], (6, capture, judged, found))
    judge("--check of no reply", on_captured([*SHORT_WAIT, "--check"], STAT, AGREES)[:2], ([*STATED, f"no reply: {ASKED}"], 4))
    lines = drive(["--capture", "/dev/full"], STAT, answering(AGREES, [ATTR]))
    judge("a full file", lines[:2], ([*STATED, *ANSWERED, "capture refused"], 0))
    lines, status = on_frames(["--capture", "/nowhere/capture"], STAT)
    judge("no file", (lines, status), (["cannot write /nowhere/capture: No such file or directory (os error 2)"], 1))


# --- calls that have names

def run_names():
    """A name stands for the number of its call: what is printed is that of the script with numbers."""
    numbered = CALLS
    named = ["call mkdir /d as made", "call create /d/f as F2", "call write F2 0 6869 as w", "call stat /d/f", "call close F2", *CALLS[5:7],
             "# call create /h as F2", "call create /g as F2", "call close F2", *CALLS[9:]]
    judge("names", on_server(["--calls"], named)[:2], on_server(["--calls"], numbered)[:2])
    # A refused call has no number, and its name stands for 0.
    refused = ["call stat / as early", *MOUNT, "call stat / as late", "intr early soft", "intr late fatal"]
    judge("the name of a refused call", on_frames([], refused, AGREES),
          (["refused 4 NotReady", *MOUNTED, "call 1", "refused 2 NoSuch", "interrupted 1 dequeued", "answer 1 4", "kernel"], 0))
    judge("as as a path", on_frames(["--calls"], ["call rename as x", "call stat as"], AGREES),
          (["mounted", "call 1", "answer 1 22", "call 2", "answer 2 22", "kernel"], 0))
    for name, script, said in [("an unknown name", ["call stat /", "call close F"], "line 2: bad number"),
                               ("a name that comes later", ["call close F", "call create /f as F"], "line 1: bad number"),
                               ("a bad line between names", ["call create /f as F", "# F", "call close F F"], "line 3: wrong words"),
                               ("a name of digits", ["call create /f as 2"], "line 1: wrong words")]:
        judge(name, drive(["--calls"], script, answering(AGREES)), ([said], 1, None))
    with served([], ["unread"], Server().serve) as (command, gave):
        lines = "\n".join([*MOUNT, "call create /f as F", "read p 0", "write", "call read F 0 1", "read p 0", "write", "call close G"])
        run = subprocess.run([*command[:2], "-", command[3]], input=lines, capture_output=True, text=True, timeout=SECONDS)
    judge("- names", (run.stdout.splitlines(), run.stderr, run.returncode), (
        [*MOUNTED, "call 1", "read 4 CREATE 58", "written 4 0", "answer 1 0", "call 2", "read 6 READ 80", "written 6 0", "answer 2 0 -"],
        "line 10: bad number\n", 1))


# --- lines that stand for several

# Two files are looked up, in a directory and in the root. The server's nodes rise from 2, and counts each lookup.
MADE = ["call mkdir /d", "call create /d/f", "call create /g", "call close 2", "call close 3"]
MADE_LINES = ["mounted", "call 1", "answer 1 0", "call 2", "answer 2 0", "call 3", "answer 3 0", "call 4", "answer 4 0", "call 5", "answer 5 0"]
FILES = [f"call create /{name}" for name in "abc"]


def run_expanded():
    """What a line that stands for several comes to is what the lines come to that it stands for."""
    # Names go before nodes, those of the lowest directory first; a directory waits for its names.
    single = ["drop 1 d", "drop 1 g", "drop 2 f", "evict 2", "evict 3", "evict 4"]
    said = ["dropped", "dropped", "dropped", "evicted 2 1", "evicted 3 1", "evicted 4 1"]
    for words in (["--calls"], ["--check", "--calls"]):
        judge(f"evict all {words}", on_server(words, [*MADE, "evict all", "forget"])[:2], ([*MADE_LINES, *said, "kernel"], 0))
        judge(f"its lines {words}", on_server(words, [*MADE, *single])[:2], ([*MADE_LINES, *said, "kernel"], 0))
    judge("evict all, beside", on_server(["--beside"], [*MADE, "evict all", "evict all"])[:2],
          ([*MADE_LINES, *said, "kernel", "answers 5 differ 0"], 0))
    judge("evict PATH", on_server(["--calls"], [*MADE, "evict /d/f", "evict /d", "evict /d", "evict /none", "evict /d/f", "evict /"])[:2],
          ([*MADE_LINES, "dropped", "evicted 3 1", "dropped", "evicted 2 1", *["refused 2 NoSuch"] * 4, "kernel 4:0:1"], 0))
    # The name leads to no file.
    judge("evict PATH of a missing name", on_server(["--calls"], ["call stat /none", "evict /none"])[:2],
          (["mounted", "call 1", "answer 1 2", "refused 2 NoSuch", "kernel"], 0))
    lines, status, requests = on_server(["--calls"], [*MADE, "evict all"])
    forgotten = [pair for opcode, node, body in requests if opcode in (FORGET, BATCH_FORGET)
                 for pair in ([(node, *struct.unpack("<Q", body))] if opcode == FORGET else struct.iter_unpack("<QQ", body[8:]))]
    judge("each node is forgotten", forgotten, [(2, 1), (3, 1), (4, 1)])
    # The K-th name of a directory has offset K: the first call lists all names, and the next none.
    for call, counts in [("list", "2:0:1 3:0:1 4:0:1"), ("listplus", "2:0:2 3:0:2 4:0:2")]:
        lines, status, requests = on_server(["--calls"], [*FILES, f"call {call} / all as All", "call stat /"])
        judge(f"call {call} PATH all", (lines[7:], status),
              (["call 4", "answer 4 0 a:1:file b:2:file c:3:file", "call 5", "answer 5 0", "call 6", "answer 6 0 dir 1 0 1", f"kernel {counts}"], 0))
        judge(f"its offsets, {call}", [struct.unpack_from("<Q", body, 8)[0] for opcode, _, body in requests if opcode in (READDIR, READDIRPLUS)], [0, 3])
    judge("a directory that is none", on_server(["--calls"], ["call list /none all", "call list / all"])[:2],
          (["mounted", "call 1", "answer 1 2", "call 2", "answer 2 0", "kernel"], 0))
    # Two forgets are read, one by one.
    begun = [*MOUNT, "call create /a", "read p 0", "write", "call create /b", "read p 0", "write", "call close 1", "read p 0", "write",
             "call close 2", "read p 0", "write"]
    lines, status, requests = on_server([], [*begun, "evict all", "forget", "forget", "show"])
    judge("forget", (lines[-8:], status), (["dropped", "dropped", "evicted 2 1", "evicted 3 1", "read 12 FORGET 48", "read 14 FORGET 48", "kernel", "kernel"], 0))
    # An abort leaves nothing, and a later call is answered at once.
    judge("an abort", on_server(["--calls"], [*MADE, "abort", "evict all", "evict /g", "call list / all"])[:2],
          ([*MADE_LINES, "aborted", "refused 4 NotReady", "call 6", "answer 6 107", "kernel"], 0))
    for words, script, said in [([], ["forget", "call list / all"], "line 2: bad number"), (["--calls"], ["evict all", "evict all all"], "line 2: wrong words"),
                                (["--calls"], ["# evict all", "evict all", "evict d"], "line 3: bad number"),
                                (["--calls"], ["call list / all", "forget", "call list \x7f all"], "line 3: bad text"),
                                (["--calls"], ["evict /\x7f"], "line 1: bad number"), (["--calls"], ["forget 1"], "line 1: unknown event")]:
        judge(f"{words} {script}", drive(words, script, answering(AGREES)), ([said], 1, None))
    # Standard input: a bad line has the number of its own among the lines that are run.
    for script, number in [([*MADE, "evict all", "forget", "read p 0"], 12), (["forget", "forget", "read p 0"], 1)]:
        with served(["--calls"], ["unread"], Server().serve) as (command, _):
            run = subprocess.run([*command[:-2], "-", command[-1]], input="".join(line + "\n" for line in script), capture_output=True, text=True, timeout=SECONDS)
        judge(f"- {script}", (run.stderr, run.returncode), (f"line {number}: unknown event\n", 1))


# --- lines as JSON objects

def run_json():
    """Each line as an object, with keys that say what its words are."""
    begun = ['{"event":"mounted","schema":1}', '{"event":"read","unique":2,"opcode":"INIT","len":56}', '{"event":"written","unique":2,"result":0}',
             '{"event":"call","call":1}', '{"event":"read","unique":4,"opcode":"GETATTR","len":56}']
    lines, status = on_frames(["--json"], STAT, AGREES, [NOTICE, ATTR])
    judge("--json", (lines, status), ([*begun, '{"event":"notification","code":2,"len":40}', '{"event":"written","unique":4,"result":0}',
          '{"event":"answer","call":1,"error":0,"values":["dir","1","0","1"]}', '{"event":"kernel","nodes":[]}'], 0))
    lines, status = on_frames(["--json", *SHORT_WAIT], STAT, AGREES)
    judge("--json of no reply", (lines, status), ([*begun, '{"event":"end",' + NAMED + f'"text":"no reply: {ASKED}"}}'], 4))
    lines, status = on_frames(["--json", "--check"], STAT, AGREES, [reply(4, bytes(8))])
    judge("--json of faults", (lines, status), ([*begun,
          '{"event":"fault","schema":1,"party":"server","frame":5,"text":"frame 5: server: body that is not its request\'s"}',
          '{"event":"written","unique":4,"result":22}', '{"event":"fault",' + NAMED + f'"text":"body is not its request\'s: {ASKED}: 8 bytes, 104 are right"}}',
          '{"event":"answer","call":1,"error":5,"values":[]}', '{"event":"kernel","nodes":[]}'], 6))


# --- lines that a seed chooses

def on_packets(words):
    """The lines that a run prints whose server is on standard input and output, a frame a packet, and its status."""
    ours, theirs = socket.socketpair(socket.AF_UNIX, socket.SOCK_SEQPACKET)
    theirs.setsockopt(socket.SOL_SOCKET, socket.SO_RCVTIMEO, struct.pack("ll", SECONDS, 0))
    ours.settimeout(SECONDS)
    server = Server()

    def serve():
        while frame := ours.recv(1 << 17):
            opcode, unique, node = struct.unpack_from("<IQQ", frame, 4)
            send(ours, *server.frames(opcode, unique, node, frame[40:]))

    run = subprocess.Popen([PROGRAM, "drive", *words, "-"], stdin=theirs, stdout=theirs, stderr=subprocess.PIPE, text=True)
    theirs.close()
    thread = threading.Thread(target=serve)
    thread.start()
    lines = run.communicate(timeout=SECONDS)[1].splitlines()
    thread.join()
    ours.close()
    return lines, run.returncode


def at_once(lines):
    """The calls of a run that began while others were under way, in each group of which an answer differs."""
    waiting, group, groups = set(), [], []
    for line in lines:
        if begun := re.match(r"# call (\d+)$", line):
            group = [*group, begun[1]] if waiting else [begun[1]]
            waiting.add(begun[1])
        elif answered := re.match(r"# answer (\d+) ", line):
            waiting.discard(answered[1])
        elif line.startswith("# differs: answer ") and len(group) > 1 and groups[-1:] != [group]:
            groups.append(group)
    return groups


def run_random():
    """One seed is one run, what is printed runs again, and a bug is found."""
    words = ["--random", "--seed", "1", "--events", "80"]
    lines, status, _ = on_server(words, [])
    judge("a seed: nothing is wrong", (status, [line for line in lines if FAULTS.search(line)], lines[-1]), (0, [], "# kernel"))
    judge("one seed is one run", on_server(words, [])[:2], (lines, 0))
    judge("its output runs again", on_server(["--check"], lines)[:2], ([line[2:] for line in lines if line.startswith("# ")], 0))
    judge("one seed is one run, on packets", on_packets(words), (lines, 0))
    longer = [*words[:-1], "300"]
    runs = [on_server([*longer, *more], [])[:2] for more in ([], ["--quick"])]
    judge("--quick looks over the tree at the end alone", ([status for _, status in runs], len({lines.count("call list / 0") for lines, _ in runs}),
          runs[0][0].count("call list / 0") > runs[1][0].count("call list / 0")), ([0, 0], 2, True))
    lines, status, _ = on_server(words, [], bug="reply twice")
    judge("a seed: a bug is found", (status, any(FAULTS.search(line) for line in lines)), (6, True))
    lines, status, _ = on_server(["--random", "--seed", "4", "--events", "200"], [], bug="another file")
    groups = [re.findall(r"\d+", line) for line in lines if line.startswith("# differs: no order of calls ")]
    judge("a seed: calls at once that are in no order", (status, len(groups) > 1, groups), (6, True, at_once(lines)))


for part in (run_bugs, run_otherwise, run_fields, run_frames, run_abort, run_closings, run_agreements, run_opendir, run_opendir_bugs, run_releasedir, run_many, run_talking, run_refusals, run_waits, run_words, run_input, run_packets, run_trace, run_check, run_names, run_expanded, run_json, run_random):
    part()
print(f"{judging.passed} passed, {judging.failed} failed")
sys.exit(bool(judging.failed))
