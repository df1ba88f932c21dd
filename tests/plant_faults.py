#!/usr/bin/env python3
"""Plants each fault of a session into a good one, at twenty places each, and looks whether the program finds it.

    plant_faults.py CAPTURE [PROGRAM] [PLACES]

CAPTURE is a session without a fault that begins with INIT. Its numbers are made eight times as large, so that free ones
stand between two. A fault is planted by changing, doubling, dropping, swapping or inserting lines, and the session is cut
BEHIND lines after it. `check` has to print the fault at its line, with its party and its words; of all else only what may
follow from it, as is said at each. Prints a table: the rule, how often it was planted and found, how many other lines
follow from it, and how many do not. Ends with status 1 where a fault is not found, or one is that does not follow.
"""
import re
import struct
import subprocess
import sys
import tempfile
from collections import Counter
from pathlib import Path

from fuse_frames import (DIRECTORY, EAGAIN, EIO, LINK, NAMES, REGULAR, entry, getattr_body, notification, numbers,
                         read_body, release_body, reply, request, text, write_body)

TOP = Path(__file__).resolve().parent.parent
# how many lines of the session come behind a fault, from how many first ones places are taken, and how many places
BEHIND, UPTO, PLACES = 40, 300, 20
# requests that nothing else depends on, and those that take no reply
QUIET = {"GETATTR", "STATFS", "READ", "LOOKUP", "WRITE", "GETXATTR", "READLINK", "SETATTR"}
NO_REPLY = {"FORGET", "BATCH_FORGET", "INTERRUPT", "NOTIFY_REPLY"}
ENTRIES = {"LOOKUP", "MKNOD", "MKDIR", "SYMLINK", "LINK", "CREATE", "TMPFILE"}
STRANGE = 0x123456789ABC


def number(frame, place, width):
    return int.from_bytes(frame[place:place + width], "little")


class Line:
    """A transfer of a capture: which way, its bytes, how many more there were, and what follows."""

    def __init__(self, way, frame, more=0, errno=""):
        self.way, self.frame, self.more, self.errno = way, frame, more, errno
        self.unique = number(frame, 8, 8)
        self.opcode = NAMES.get(number(frame, 4, 4), "") if way == ">" else ""
        self.error = -struct.unpack_from("<i", frame, 4)[0] if way == "<" and len(frame) >= 8 else 0

    def __str__(self):
        more = f" +{self.more}" if self.more else ""
        return f"{self.way} {self.frame.hex()}{more}" + (f" {self.errno}" if self.errno else "")


def spread(unique):
    return 8 * (unique & ~1) + (unique & 1)


def line_of(words):
    """A line of a capture, its numbers spread; None where it is no frame."""
    parts = words.split()
    if not parts or parts[0] not in "<>":
        return None
    parts = [part for part in parts if not part.startswith("@")]
    more = next((int(part[1:]) for part in parts if part.startswith("+")), 0)
    errno = parts[-1] if parts[-1].startswith("E") and parts[0] == "<" else ""
    frame = bytearray.fromhex(parts[1])
    line = Line(parts[0], frame, more, errno)
    if line.opcode != "NOTIFY_REPLY" and line.unique:
        frame[8:16] = numbers("Q", spread(line.unique))
    if line.opcode == "INTERRUPT":
        frame[40:48] = numbers("Q", spread(number(frame, 40, 8)))
    return Line(parts[0], bytes(frame), more, errno)


class State:
    """What a session has come to: enough of it to plant a fault."""

    def __init__(self):
        self.waiting, self.answered, self.forgets = {}, [], []
        self.counts, self.files, self.open = Counter(), {}, Counter()
        self.highest, self.max_write = 0, 4096

    def give(self, entry_bytes):
        node = number(entry_bytes, 0, 8)
        if node > 1:
            if not self.counts[node]:
                self.files[node] = (number(entry_bytes, 8, 8), number(entry_bytes, 100, 4), number(entry_bytes, 40, 8))
            self.counts[node] += 1

    def forget(self, node, lookups):
        self.counts[node] -= lookups

    def see(self, line):
        if line.way == ">":
            self.see_request(line)
        elif line.unique and not line.unique % 2 and line.unique in self.waiting and line.errno != "ENOENT":
            asked = self.waiting.pop(line.unique)
            self.answered.append(asked)
            if not line.errno and not line.error:
                self.see_answer(asked, line.frame)

    def see_request(self, line):
        frame, opcode = line.frame, line.opcode
        if opcode == "FORGET":
            self.forgets.append(line.unique)
            self.forget(number(frame, 16, 8), number(frame, 40, 8))
        elif opcode == "BATCH_FORGET":
            self.forgets.append(line.unique)
            for place in range(48, 48 + 16 * number(frame, 40, 4), 16):
                self.forget(number(frame, place, 8), number(frame, place + 8, 8))
        elif opcode not in NO_REPLY:
            self.waiting[line.unique] = line
            self.highest = max(self.highest, line.unique)
        if opcode in ("RELEASE", "RELEASEDIR"):
            self.open["file" if opcode == "RELEASE" else "directory", number(frame, 16, 8), number(frame, 40, 8)] -= 1

    def see_answer(self, asked, frame):
        node = number(asked.frame, 16, 8)
        if asked.opcode == "INIT":
            self.max_write = max(number(frame, 36, 4), 4096)
        if asked.opcode in ENTRIES:
            self.give(frame[16:144])
        if asked.opcode in ("CREATE", "TMPFILE"):
            self.open["file", number(frame, 16, 8), number(frame, 144, 8)] += 1
        if asked.opcode in ("OPEN", "OPENDIR"):
            self.open["file" if asked.opcode == "OPEN" else "directory", node, number(frame, 16, 8)] += 1
        if asked.opcode == "READDIRPLUS":
            self.see_records(frame)

    def see_records(self, frame):
        place = 16
        while place + 152 <= len(frame):
            size = number(frame, place + 144, 4)
            if not size or place + 152 + size > len(frame):
                break
            if frame[place + 152:place + 152 + size] not in (b".", b".."):
                self.give(frame[place:place + 128])
            place += (152 + size + 7) // 8 * 8

    # ---- what a fault may be planted on

    def free(self, turn=0):
        """A number that is in order and was not used, and others behind it."""
        return self.highest + 2 + 2 * turn

    def counted(self):
        return sorted(node for node, count in self.counts.items() if count > 0)

    def named(self):
        """The nodes that waiting requests name."""
        return {number(line.frame, place, 8) for line in self.waiting.values() for place in (16, 40, 56) if len(line.frame) >= place + 8}

    def opened(self, kind, count=None):
        return sorted(file for file, times in self.open.items() if file[0] == kind and (times == count if count else times > 0))


def with_reply(frame, *others):
    """A request, and its reply: the error EIO."""
    return [Line(">", frame), *others, Line("<", reply(number(frame, 8, 8), error=EIO))]


def pick(things, turn):
    return things[turn % len(things)] if things else None


# ---- faults. Each has a plan for a place of the session, or none where it cannot be planted there: the party and the rule,
# the lines that are put there, which of them has the fault, how many lines of the session they replace, and how lines
# begin that may follow.

def plan(rule, lines, faulty=0, takes=0, also=()):
    return rule, lines, faulty, takes, also


def malformed_request(s, line, turn):
    bad = [request("GETATTR", s.free(), 1, getattr_body(), length=55), request(4000, s.free(), 1),
           request("LOOKUP", s.free(), 1, text("a/b")), request("LOOKUP", s.free(), 1, b"a"), request("STATFS", s.free(), 1, b"\0")]
    return plan("kernel: malformed request", [Line(">", pick(bad, turn))])


def odd_number(s, line, turn):
    return plan("kernel: odd number", [Line(">", request("STATFS", s.free() + 1, 1))])


def number_used_twice(s, line, turn):
    old = pick(s.answered, 7 * turn)
    return old and plan("kernel: number used twice", with_reply(request("STATFS", old.unique, 1)))


def doubled_request(s, line, turn):
    """a request is doubled"""
    return line.opcode in QUIET and plan("kernel: number used twice", [line, line], 1, 1)


def number_out_of_order(s, line, turn):
    return plan("kernel: number out of order", with_reply(request("STATFS", s.highest - 2, 1)))


def swapped_requests(s, line, turn):
    """two requests are swapped"""
    follower = s.lines[s.place + 1]
    are_quiet = line.opcode in QUIET and follower.opcode in QUIET
    return are_quiet and plan("kernel: number out of order", [follower, line], 1, 2)


def interrupt(unique, original):
    return Line(">", request("INTERRUPT", unique, 0, numbers("Q", original)))


def interrupt_of_nothing(s, line, turn):
    old = pick(s.answered, 7 * turn)
    return old and plan("kernel: INTERRUPT of nothing", [interrupt(old.unique + 1, old.unique)])


def quiet(s):
    """A request that waits, of which no INTERRUPT is in the session."""
    return [unique for unique in sorted(s.waiting) if unique not in s.interrupted]


def interrupt_under_another(s, line, turn):
    unique = pick(quiet(s), turn)
    return unique and plan("kernel: INTERRUPT under another number", [interrupt(unique + 3, unique)])


def interrupt_too_often(s, line, turn):
    unique = pick(quiet(s), turn)
    return unique and plan("kernel: INTERRUPT too often", [interrupt(unique + 1, unique)] * 2, 1)


# of any removal that comes behind
MISSING = "kernel: removal of a name that is missing: "


def node_not_counted(s, line, turn):
    frames = [request("GETATTR", s.free(), STRANGE, getattr_body()), request("LOOKUP", s.free(), STRANGE, text("a")),
              request("RENAME", s.free(), 1, numbers("Q", STRANGE) + text("a", "b"))]
    return plan("kernel: node that is not counted", with_reply(pick(frames, turn)), also=(MISSING,))


def forget(s, node, lookups):
    return Line(">", request("FORGET", s.free(1), node, numbers("Q", lookups)))


def forget_of_the_root(s, line, turn):
    return plan("kernel: forget of the root", [forget(s, 1, turn)])


def forget_of_no_lookup(s, line, turn):
    node = pick(s.counted(), turn)
    return node and plan("kernel: forget of no lookup", [forget(s, node, 0)])


# A node that is not counted any more: what names it, uses it, forgets it or gives it is judged by its new count, and the
# kernel has no names in it.
def of_node(node):
    return (f"kernel: node that is not counted: node {node}\n", f"kernel: forget of more than is counted: node {node} ",
            f"kernel: forget of a node in use: node {node} ", MISSING)


def forget_of_more(s, line, turn):
    node = pick(s.counted(), turn) if turn % 2 else STRANGE
    return node and plan("kernel: forget of more than is counted", [forget(s, node, max(s.counts[node], 0) + 1)], also=of_node(node))


def forget_of_a_node_in_use(s, line, turn):
    used = [node for node in s.counted() if node in s.named() or any(file[1] == node for file, times in s.open.items() if times > 0)]
    node = pick(used, turn)
    return node and plan("kernel: forget of a node in use", [forget(s, node, s.counts[node])], also=of_node(node))


def handle_not_open(s, line, turn):
    node = pick(s.counted(), turn)
    frames = node and [request("READ", s.free(), node, read_body(STRANGE)), request("READDIR", s.free(), node, read_body(STRANGE)),
                       request("GETATTR", s.free(), node, getattr_body(STRANGE))]
    return node and plan("kernel: file handle that is not open", with_reply(pick(frames, turn)))


def release_of_what_is_not_open(s, line, turn):
    node = pick(s.counted(), turn)
    name = "RELEASE" if turn % 2 else "RELEASEDIR"
    return node and plan("kernel: RELEASE of what is not open", with_reply(request(name, s.free(), node, release_body(STRANGE))))


# The session goes on to use and release the file that was released here.
def release_beside_a_use(s, line, turn):
    file = pick(s.opened("file", 1) + s.opened("directory", 1), turn)
    if not file:
        return None
    kind, node, handle = file
    use, release = ("READ", "RELEASE") if kind == "file" else ("READDIR", "RELEASEDIR")
    first = Line(">", request(use, s.free(), node, read_body(handle)))
    last = Line(">", request(release, s.free(1), node, release_body(handle)))
    also = (f"kernel: file handle that is not open: node {node} file handle {handle}\n",
            f"kernel: RELEASE of what is not open: node {node} file handle {handle}\n")
    ends = [Line("<", reply(s.free(), error=EIO)), Line("<", reply(s.free(1)))]
    return plan("kernel: RELEASE beside a use", [first, last, *ends], 1, also=also)


def write_too_large(s, line, turn):
    file = pick(s.opened("file"), turn)
    if not file:
        return None
    size = s.max_write + 1 + turn
    frame = request("WRITE", s.free(), file[1], write_body(file[2], b"", size=size), length=80 + size)
    return plan("kernel: WRITE of more than was agreed", [Line(">", frame, size), Line("<", reply(s.free(), error=EIO))])


# Names that no answer of the session gave.
def name_that_is_missing(s, line, turn):
    frames = [request("UNLINK", s.free(), 1, text("never given")), request("RMDIR", s.free(), 1, text("never given")),
              request("RENAME", s.free(), 1, numbers("Q", 1) + text("never given", "a"))]
    return plan("kernel: removal of a name that is missing", with_reply(pick(frames, turn)))


def changed_name(s, line, turn):
    """the last byte of a removal's name is changed"""
    start = {"UNLINK": 40, "RMDIR": 40, "RENAME": 48}.get(line.opcode)
    if not start:
        return None
    frame = bytearray(line.frame)
    frame[frame.index(0, start) - 1] ^= 0x80
    return plan("kernel: removal of a name that is missing", [Line(">", bytes(frame))], takes=1)


def is_answer(s, line):
    return line.way == "<" and line.unique in s.waiting and not line.errno


def malformed_reply(s, line, turn):
    if not is_answer(s, line):
        return None
    bad = [reply(line.unique, b"\0" * 8, length=23), reply(line.unique, error=600), reply(line.unique, error=-EIO)]
    return plan("server: malformed reply", [Line("<", pick(bad, turn), errno="EINVAL")])


def reply_to_nothing(s, line, turn):
    return plan("server: reply to nothing", [Line("<", reply(s.free(), error=EIO), errno="ENOENT")])


# The device has accepted the reply.
def dropped_request(s, line, turn):
    """a request is dropped"""
    answer = s.lines[s.place + 1]
    is_next = line.opcode in ("GETATTR", "STATFS", "READ") and answer.way == "<" and answer.unique == line.unique
    also = ("device: reply to nothing accepted: ",)
    return is_next and plan("server: reply to nothing", [answer], takes=2, also=also)


def doubled_reply(s, line, turn):
    """an accepted reply is doubled"""
    also = ("device: reply to nothing accepted: ",)
    return is_plain(s, line) and plan("server: second reply", [line, line], 1, 1, also)


def second_reply(s, line, turn):
    old = pick(s.answered, 7 * turn)
    return old and plan("server: second reply", [Line("<", reply(old.unique, error=turn), errno="ENOENT")])


def reply_to_forget(s, line, turn):
    old = pick(s.forgets, turn)
    own = [] if old else [*looked_up(s, STRANGE, 5), forget(s, STRANGE, 1)]
    return plan("server: reply to FORGET", [*own, Line("<", reply(old or s.free(1)), errno="ENOENT")], len(own))


def reply_to_no_interrupt(s, line, turn):
    unique = pick(quiet(s), turn)
    return unique and plan("server: reply to no INTERRUPT", [Line("<", reply(unique + 1, error=EAGAIN))])


# A reply that says nothing of nodes or files: an error other than ENOSYS, or of one of these.
def is_plain(s, line):
    if not is_answer(s, line):
        return False
    return line.error not in (0, 38) or s.waiting[line.unique].opcode in ("GETATTR", "STATFS", "WRITE", "FLUSH", "RELEASE", "SETATTR")


def longer(line):
    frame = bytearray(line.frame + b"\0" * 8)
    frame[0:4] = numbers("I", number(line.frame, 0, 4) + 8)
    return bytes(frame)


def body_of_another(s, line, turn):
    return is_plain(s, line) and plan("server: body that is not its request's", [Line("<", longer(line), errno="EINVAL")], takes=1)


def more_than_was_asked(s, line, turn):
    file = pick(s.opened("file"), turn)
    asked = file and Line(">", request("WRITE", s.free(), file[1], write_body(file[2], b"abc")))
    return file and plan("server: more than was asked", [asked, Line("<", reply(s.free(), numbers("II", 4 + turn, 0)))], 1)


def looked_up(s, *answer):
    return [Line(">", request("LOOKUP", s.free(), 1, text("planted"))), Line("<", reply(s.free(), entry(*answer)))]


def entry_of_the_root(s, line, turn):
    return plan("server: entry of the root", looked_up(s, 1, 1, DIRECTORY), 1)


def entry_of_no_node(s, line, turn):
    asked = Line(">", request("MKDIR", s.free(), 1, numbers("II", 0o755, 0) + text("planted")))
    return plan("server: entry of no node", [asked, Line("<", reply(s.free(), entry(0, 0, DIRECTORY)))], 1)


def entry_of_no_kind(s, line, turn):
    return plan("server: entry of no kind", looked_up(s, STRANGE, 5, 0o644 + 0o10000 * pick([0, 3, 5, 15], turn)), 1)


def entry_of_another_kind(s, line, turn):
    asked = Line(">", request("MKDIR", s.free(), 1, numbers("II", 0o755, 0) + text("planted")))
    return plan("server: entry of another kind", [asked, Line("<", reply(s.free(), entry(STRANGE, 5, pick([REGULAR, LINK], turn))))], 1)


# A lookup more of a node that is counted: it is given back at once, so nothing follows.
def given_again(s, turn, rule, change):
    node = pick([node for node in s.counted() if node in s.files], turn)
    if not node:
        return None
    generation, mode, ino = change(*s.files[node])
    return plan(rule, [*looked_up(s, node, ino, mode, generation), forget(s, node, 1)], 1)


def two_generations(s, line, turn):
    return given_again(s, turn, "server: node of two generations", lambda generation, mode, ino: (generation + 1 + turn, mode, ino))


def two_kinds(s, line, turn):
    other = lambda mode: LINK if mode & 0o170000 != LINK & 0o170000 else REGULAR
    return given_again(s, turn, "server: node of two kinds", lambda generation, mode, ino: (generation, other(mode), ino))


def two_inode_numbers(s, line, turn):
    return given_again(s, turn, "server: node of two inode numbers", lambda generation, mode, ino: (generation, mode, ino + 1 + turn))


def malformed_notification(s, line, turn):
    bad = [notification(77), notification(2, numbers("Qq", 1, 0)), notification(3, numbers("QII", 1, 3, 0) + text("a/b")),
           notification(4, numbers("QQII", 1, 0, 9, 0)), notification(0)]
    return plan("server: malformed notification", [Line("<", pick(bad, turn), errno="EINVAL")])


# After the end each read and each accepted reply is one of the device.
AFTER_THE_END = ("device: read after the end\n", "device: reply accepted after the end: ")
END = Line("=", b"ended ENODEV".ljust(16))


def read_after_the_end(s, line, turn):
    return line.way == ">" and plan("device: read after the end", [END, line], 1, 1, AFTER_THE_END)


def accepted_after_the_end(s, line, turn):
    return is_answer(s, line) and plan("device: reply accepted after the end", [END, line], 1, 1, AFTER_THE_END)


# The server wrote it.
def accepted_reply_to_nothing(s, line, turn):
    old = pick(s.answered, 7 * turn)
    if turn % 2 and old:
        return plan("device: reply to nothing accepted", [Line("<", reply(old.unique, error=EIO))], also=("server: second reply: ",))
    return plan("device: reply to nothing accepted", [Line("<", reply(s.free(), error=EIO))], also=("server: reply to nothing: ",))


def accepted_wrong_body(s, line, turn):
    also = ("server: body that is not its request's\n",)
    return is_plain(s, line) and plan("device: body of another request accepted", [Line("<", longer(line))], takes=1, also=also)


def refused_reply(s, line, turn):
    refused = Line("<", line.frame, line.more, "EINVAL")
    return is_plain(s, line) and plan("device: right reply refused", [refused], takes=1)


# ---- faults of INIT: at its own lines, in twenty ways

def request_before_init(s, line, turn):
    names = "LOOKUP GETATTR STATFS OPENDIR GETXATTR LISTXATTR ACCESS MKDIR UNLINK RMDIR".split()
    bodies = {"LOOKUP": text("a"), "GETATTR": getattr_body(), "OPENDIR": numbers("Q", 0), "GETXATTR": numbers("Q", 0) + text("a"),
              "LISTXATTR": numbers("Q", 0), "ACCESS": numbers("Q", 0), "MKDIR": numbers("Q", 0) + text("a"), "UNLINK": text("a"),
              "RMDIR": text("a")}
    name = pick(names, turn)
    frame = Line(">", request(name, s.free(), 1, bodies.get(name, b"")))
    ended = [Line("<", reply(s.free(), error=EIO))] if turn >= len(names) else []
    return plan("kernel: request before INIT", [frame, *ended], also=(MISSING,))


def init_not_first(s, line, turn):
    first = bytearray(s.init)
    first[8:16] = numbers("Q", s.free())
    return plan("kernel: INIT is not first", with_reply(bytes(first)))


# Nothing is agreed: requests and replies are read as before INIT.
def init_of_another_version(s, line, turn):
    frame = bytearray(line.frame)
    frame[16:20] = numbers("I", turn if turn < 7 else turn + 1)
    also = ("kernel: malformed request\n", "server: body that is not its request's\n", "device: body of another request accepted: ")
    return plan("server: INIT of another version", [Line("<", bytes(frame))], takes=1, also=also)


def flags_not_offered(s, line, turn):
    offered = number(s.init, 52, 4) | number(s.init, 56, 4) << 32
    frame = bytearray(line.frame)
    bit = pick([bit for bit in range(64) if not offered >> bit & 1 and bit not in (4, 22, 29, 32, 34)], turn)
    flags = number(frame, 28, 4) | 1 << 30 | 1 << bit
    frame[28:32], frame[48:52] = numbers("I", flags & 0xFFFFFFFF), numbers("I", flags >> 32)
    return plan("server: flags that were not offered", [Line("<", bytes(frame))], takes=1)


AT_INIT = [request_before_init, init_of_another_version, flags_not_offered]
FAULTS = [
    malformed_request, init_not_first, odd_number, number_used_twice, doubled_request, number_out_of_order,
    swapped_requests, interrupt_of_nothing, interrupt_under_another, interrupt_too_often, node_not_counted,
    forget_of_the_root, forget_of_no_lookup, forget_of_more, forget_of_a_node_in_use, handle_not_open,
    release_of_what_is_not_open, release_beside_a_use, write_too_large, name_that_is_missing, changed_name, malformed_reply,
    reply_to_nothing, dropped_request, second_reply, doubled_reply, reply_to_forget, reply_to_no_interrupt, body_of_another,
    more_than_was_asked, entry_of_the_root, entry_of_no_node, entry_of_no_kind, entry_of_another_kind, two_generations, two_kinds,
    two_inode_numbers, malformed_notification, read_after_the_end, accepted_after_the_end, accepted_reply_to_nothing,
    accepted_wrong_body, refused_reply,
]


def spelled(line):
    """A line of a capture; one that begins with `=` has its words as bytes."""
    return f"= {line.frame.decode().strip()}" if line.way == "=" else str(line)


def judged(program, lines, folder):
    file = Path(folder) / "planted.capture"
    file.write_text("".join(f"{spelled(line)}\n" for line in lines))
    ran = subprocess.run([program, "check", file], capture_output=True, text=True)
    # a warning is no fault, and what the lines before say is not looked at
    return ran.returncode, [f"{line.partition(';')[0]}\n" for line in ran.stdout.splitlines()[:-2] if ": warning: " not in line]


def try_plan(program, folder, lines, place, planned):
    """Whether the fault was found at its line, and what else was printed: as follows from it, and not."""
    rule, new, faulty, takes, also = planned
    session = [*lines[:place], *new, *lines[place + takes:place + takes + BEHIND]]
    status, printed = judged(program, session, folder)
    wanted = f"line {place + faulty + 1}: {rule}"
    found = [line for line in printed if line.startswith(wanted)]
    others = [line for line in printed if line not in found]
    follows = [line for line in others if re.sub(r"^line \d+: ", "", line).startswith(tuple(also))] if also else []
    return status == 6 and len(found) == 1, follows, [line for line in others if line not in follows]


def states(lines, upto):
    """The session's state before each line."""
    state = State()
    state.init, state.lines = lines[0].frame, lines
    state.interrupted = {number(line.frame, 40, 8) for line in lines if line.opcode == "INTERRUPT"}
    for place, line in enumerate(lines[:min(upto, len(lines) - 1)]):
        state.place = place
        yield place, state, line
        state.see(line)


def places_of(fault, lines, upto, count):
    """Plans at places that are spread over the session."""
    if fault in AT_INIT:
        place, state, line = next(each for each in states(lines, upto) if each[0] == 1)
        return [(1, fault(state, line, turn)) for turn in range(count)]
    able = [place for place, state, line in states(lines, upto) if place > 8 and fault(state, line, 1) and fault(state, line, 0)]
    chosen = {able[turn * len(able) // count]: turn for turn in range(count)} if able else {}
    return [(place, fault(state, line, chosen[place])) for place, state, line in states(lines, upto) if place in chosen]


def main():
    capture = Path(sys.argv[1])
    program = sys.argv[2] if len(sys.argv) > 2 else TOP / "crates" / "fuseworld" / "out" / "fuseworld"
    count = int(sys.argv[3]) if len(sys.argv) > 3 else PLACES
    lines = [line for line in map(line_of, capture.read_text().splitlines()) if line]
    wrong = 0
    print("| Rule | Places | Found | Followed | Others |\n|---|---|---|---|---|")
    with tempfile.TemporaryDirectory() as folder:
        for fault in [*AT_INIT, *FAULTS]:
            plans = next((plans for upto in (UPTO, 4 * UPTO) if len(plans := places_of(fault, lines, upto, count)) == count),
                         None) or places_of(fault, lines, len(lines), count)
            tried = [(place, planned, try_plan(program, folder, lines, place, planned)) for place, planned in plans if planned]
            found, followed, others = (sum(part(result) for _, _, result in tried)
                                       for part in (lambda r: r[0], lambda r: len(r[1]), lambda r: len(r[2])))
            rule = tried[0][1][0] if tried else fault.__name__
            how = f", {fault.__doc__}" if fault.__doc__ else ""
            print(f"| {rule}{how} | {len(tried)} | {found} | {followed} | {others} |", flush=True)
            for place, planned, (is_found, _, strange) in tried:
                if not is_found or strange:
                    print(f"  at {place + 1}: {'found' if is_found else 'not found'} {''.join(strange)}", file=sys.stderr)
            wrong += len(tried) < count or found < len(tried) or others > 0
    return 1 if wrong else 0


if __name__ == "__main__":
    sys.exit(main())
