#!/usr/bin/env python3
"""The captures of tests/sessions, each with the lines that `fuseworld check` has to print.

Each session is written here a transfer at a time, with the faults that the definitions have of it behind it. Without
arguments the files are compared with what is written here, and the status is 1 where one differs; `--write` writes them.
"""
import sys
from pathlib import Path

from fuse_frames import (DIRECTORY, EAGAIN, EIO, ENOENT, ENOSYS, LINK, REGULAR, attributes, attributes_reply, copy_body,
                         entry, getattr_body, init_reply, init_request, notification, numbers, opened, read_body, record,
                         release_body, reply, request, setattr_body, text, write_body)
from judged_session import Session
import file_sessions
import warning_sessions

FOLDER = Path(__file__).resolve().parent / "sessions"


def malformed_requests():
    s = Session("Requests that are none: their length, opcode, names or size are wrong. They wait, and any reply will do.")
    s.begin()
    bad = "kernel: malformed request"
    s.read(request("LOOKUP", 4, 1, text("a"), length=43), bad)
    # without a whole header there is no number
    s.read(request("LOOKUP", 4, 1, text("a"))[:20], bad)
    s.read(request(99, 6, 1), bad)
    s.read(request(7, 8, 1), bad)
    s.read(request("LOOKUP", 10, 1, b"a"), bad)
    s.read(request("LOOKUP", 12, 1, text("")), bad)
    s.read(request("LOOKUP", 14, 1, text("a/b")), bad)
    s.read(request("LOOKUP", 16, 1, text("..")), bad)
    s.read(request("LOOKUP", 18, 1, text("a" * 1025)), bad)
    s.read(request("MKDIR", 20, 1, numbers("II", 0o755, 0) + text(".")), bad)
    s.read(request("RENAME", 22, 1, numbers("Q", 1) + text("a")), bad)
    s.read(request("GETATTR", 24, 1, getattr_body() + b"\0"), bad)
    s.read(request("WRITE", 26, 1, write_body(1, b"abc", size=4)), bad)
    s.read(request("BATCH_FORGET", 28, 0, numbers("IIQQ", 2, 0, 5, 1)), bad)
    s.write(reply(4, error=EIO))
    s.write(reply(6, error=ENOSYS))
    s.write(reply(8, b"\0" * 100))
    s.write(reply(10, b"\0" * 8), errno="EINVAL")
    s.write(reply(6, error=ENOSYS), "server: second reply: unique 6", errno="ENOENT")
    # a malformed BATCH_FORGET takes no reply, and its number counts as no request's
    s.write(reply(28), "server: reply to nothing: unique 28", errno="ENOENT")
    # numbers are judged here too
    s.read(request(99, 12, 1), bad, "kernel: number used twice: unique 12")
    # 1,024 bytes are a name
    s.ask("LOOKUP", 30, 1, text("a" * 1024), error=ENOENT)
    return s, s.end(unanswered=8)


def later_opcodes():
    s = Session("A kernel of a later minor than 45 may send opcodes above 53: they wait, and any reply will do.")
    s.read(init_request(minor=46))
    s.write(init_reply(minor=31))
    s.read(request(54, 4, 9, b"\0" * 24))
    s.write(reply(4, error=ENOSYS))
    s.read(request(55, 6, 1))
    s.write(reply(6, b"\0" * 300))
    s.read(request(56, 8, 1))
    s.write(reply(8), errno="EINVAL")
    s.read(request(54, 10, 1, length=41), "kernel: malformed request")
    s.read(request(19, 12, 1), "kernel: malformed request")
    s.read(request("LOOKUP", 14, 1, b"a"), "kernel: malformed request")
    return s, s.end(unanswered=3)


def resends():
    s = Session("After FUSE_NOTIFY_RESEND what waits is read once more, under its number with bit 63.")
    s.begin()
    again = 1 << 63
    s.ask("LOOKUP", 4, 1, text("a"), entry(2, 20))
    s.ask("OPEN", 6, 2, numbers("II", 0, 0), opened(5))
    s.read(request("STATFS", 8, 1))
    s.read(request("RELEASE", 10, 2, release_body(5)))
    s.write(notification(7))
    # the request has another number by now: that the device finds none under the old one is no end
    s.write(reply(8, b"\0" * 80), errno="ENOENT")
    s.read(request("STATFS", again + 8, 1))
    s.read(request("RELEASE", again + 10, 2, release_body(5)))
    s.write(reply(again + 8, b"\0" * 80))
    s.write(reply(again + 8, b"\0" * 80), f"server: second reply: unique {again + 8}", errno="ENOENT")
    s.write(notification(7))
    s.read(request("RELEASE", again + 10, 2, release_body(5)))
    s.write(reply(again + 10))
    s.read(request("RELEASE", again + 10, 2, release_body(5)), f"kernel: resend of nothing: unique {again + 10} of 10")
    s.ask("STATFS", 12, 1, answer=b"\0" * 80)
    s.read(request("STATFS", 12, 1), "kernel: number used twice: STATFS 12")
    return s, s.end(entries=1, unanswered=2)


def resends_unasked():
    s = Session("Without FUSE_NOTIFY_RESEND a number with bit 63 is one like others.")
    s.begin()
    s.write(notification(7), errno="EINVAL")
    s.read(request("STATFS", (1 << 63) + 8, 1))
    s.read(request("STATFS", 10, 1), "kernel: number out of order: STATFS 10")
    s.read(request("GETATTR", (1 << 63) + 10, 9, getattr_body()), "kernel: node that is not counted: node 9")
    return s, s.end(unanswered=3)


def requests_before_init():
    s = Session("Requests before INIT is accepted, and two INITs that are not first.")
    s.read(request("LOOKUP", 2, 1, text("a")), "kernel: request before INIT: LOOKUP")
    s.read(init_request(4), "kernel: INIT is not first: INIT")
    s.read(request("STATFS", 6, 1), "kernel: request before INIT: STATFS")
    s.write(init_reply(4))
    s.ask("STATFS", 8, 1, answer=b"\0" * 80)
    s.read(init_request(10), "kernel: INIT is not first: INIT")
    return s, s.end(unanswered=3)


def numbers_of_requests():
    s = Session("Numbers that are odd, used twice or out of order.")
    s.begin()
    s.read(request("STATFS", 5, 1), "kernel: odd number: STATFS 5")
    # its reply is one to it, and to no INTERRUPT
    s.write(reply(5, b"\0" * 80))
    s.ask("STATFS", 6, 1, answer=b"\0" * 80)
    s.read(request("GETATTR", 6, 1, getattr_body()), "kernel: number used twice: GETATTR 6")
    s.read(request("GETATTR", 6, 1, getattr_body()), "kernel: number used twice: GETATTR 6")
    s.ask("LOOKUP", 12, 1, text("a"), entry(2, 20))
    s.read(request("STATFS", 10, 1), "kernel: number out of order: STATFS 10")
    s.read(request("FORGET", 8, 2, numbers("Q", 1)), "kernel: number out of order: FORGET 8")
    # a FORGET is numbered as it is read: requests that were numbered before may follow
    s.ask("LOOKUP", 14, 1, text("a"), entry(2, 20))
    s.read(request("FORGET", 20, 2, numbers("Q", 1)))
    s.read(request("STATFS", 16, 1))
    s.read(request("STATFS", 20, 1), "kernel: number used twice: STATFS 20")
    return s, s.end(entries=2, forgotten=2, unanswered=4)


def several_readers():
    s = Session("Where several threads read, numbers need not rise, and none is read twice.")
    s.begin()
    s.line("= several readers")
    s.read(request("STATFS", 8, 1))
    s.read(request("STATFS", 6, 1))
    s.read(request("STATFS", 6, 1), "kernel: number used twice: STATFS 6")
    s.read(request("STATFS", 5, 1), "kernel: odd number: STATFS 5")
    # another thread may read an INTERRUPT before its request, or late, and a request that came before the end
    s.read(request("INTERRUPT", 11, 0, numbers("Q", 10)))
    s.write(reply(11, error=EAGAIN))
    s.ask("STATFS", 10, 1, answer=b"\0" * 80)
    s.write(reply(8, error=4))
    s.read(request("INTERRUPT", 9, 0, numbers("Q", 8)))
    s.read(request("INTERRUPT", 9, 0, numbers("Q", 8)))
    s.read(request("INTERRUPT", 13, 0, numbers("Q", 8)), "kernel: INTERRUPT under another number: INTERRUPT 13 of 8")
    s.line("= ended ENODEV")
    s.read(request("STATFS", 14, 1))
    s.write(reply(6, b"\0" * 80))
    return s, s.end(unanswered=2)


def several_writers():
    s = Session("Where another thread writes replies, numbers rise, and an INTERRUPT may be read after the reply.")
    s.begin()
    s.line("= several writers")
    s.ask("STATFS", 8, 1, answer=b"\0" * 80)
    s.read(request("INTERRUPT", 9, 0, numbers("Q", 8)))
    s.read(request("STATFS", 6, 1), "kernel: number out of order: STATFS 6")
    s.line("= ended ENODEV")
    s.read(request("STATFS", 10, 1))
    s.write(reply(10, b"\0" * 80))
    return s, s.end(unanswered=1)


def interrupts():
    s = Session("INTERRUPTs of what does not wait, under another number, and too often.")
    s.begin()
    s.read(request("STATFS", 4, 1))
    s.read(request("INTERRUPT", 5, 0, numbers("Q", 4)))
    s.read(request("INTERRUPT", 5, 0, numbers("Q", 4)), "kernel: INTERRUPT too often: INTERRUPT 5 of 4")
    s.write(reply(4, error=4))
    s.read(request("INTERRUPT", 5, 0, numbers("Q", 4)), "kernel: INTERRUPT of nothing: INTERRUPT 5 of 4")
    s.read(request("INTERRUPT", 91, 0, numbers("Q", 90)), "kernel: INTERRUPT of nothing: INTERRUPT 91 of 90")
    s.read(request("STATFS", 6, 1))
    s.read(request("INTERRUPT", 9, 0, numbers("Q", 6)), "kernel: INTERRUPT under another number: INTERRUPT 9 of 6")
    s.read(request("STATFS", 10, 1))
    s.read(request("INTERRUPT", 11, 0, numbers("Q", 10)))
    s.write(reply(11, error=EAGAIN))
    s.read(request("INTERRUPT", 11, 0, numbers("Q", 10)))
    s.write(reply(11))
    s.read(request("INTERRUPT", 11, 0, numbers("Q", 10)), "kernel: INTERRUPT too often: INTERRUPT 11 of 10")
    s.write(reply(10, b"\0" * 80))
    return s, s.end(unanswered=1)


def nodes_not_counted():
    s = Session("Nodes that requests name and no entry gave, or that were forgotten.")
    s.begin()
    s.read(request("GETATTR", 4, 9, getattr_body()), "kernel: node that is not counted: node 9")
    s.read(request("RENAME", 6, 1, numbers("Q", 8) + text("a", "b")), "kernel: node that is not counted: node 8",
           "kernel: removal of a name that is missing: RENAME 6")
    s.read(request("LINK", 8, 7, numbers("Q", 6) + text("a")), "kernel: node that is not counted: node 7",
           "kernel: node that is not counted: node 6")
    s.ask("LOOKUP", 10, 1, text("a"), entry(2, 20))
    s.read(request("FORGET", 12, 2, numbers("Q", 1)))
    s.read(request("READLINK", 14, 2), "kernel: node that is not counted: node 2")
    # a refused entry gives nothing
    s.read(request("LOOKUP", 16, 1, text("b")))
    s.write(reply(16, entry(3, 30)), "device: right reply refused: unique 16", errno="EINVAL")
    s.read(request("STATFS", 18, 3), "kernel: node that is not counted: node 3")
    return s, s.end(entries=1, forgotten=1, unanswered=5)


def names_that_are_missing():
    s = Session("Removals of names that no reply gave, that were removed, and in a directory that was forgotten.")
    s.begin()
    s.read(request("UNLINK", 4, 1, text("a")), "kernel: removal of a name that is missing: UNLINK 4")
    s.write(reply(4, error=ENOENT))
    s.ask("MKDIR", 6, 1, numbers("II", 0o755, 0) + text("d"), entry(2, 20, DIRECTORY))
    s.ask("LOOKUP", 8, 2, text("a"), entry(3, 30))
    s.ask("UNLINK", 10, 2, text("a"))
    s.read(request("RENAME", 12, 2, numbers("Q", 1) + text("a", "b")), "kernel: removal of a name that is missing: RENAME 12")
    s.write(reply(12, error=ENOENT))
    s.read(request("RMDIR", 14, 1, text("b")), "kernel: removal of a name that is missing: RMDIR 14")
    s.write(reply(14, error=ENOENT))
    s.ask("LOOKUP", 16, 2, text("c"), entry(4, 40))
    s.read(request("FORGET", 18, 2, numbers("Q", 1)))
    s.ask("LOOKUP", 20, 1, text("d"), entry(2, 20, DIRECTORY))
    s.read(request("UNLINK", 22, 2, text("c")), "kernel: removal of a name that is missing: UNLINK 22")
    # another thread may answer before
    s.line("= several readers")
    s.read(request("UNLINK", 24, 1, text("a")))
    return s, s.end(entries=4, forgotten=1, unanswered=2)


def forgets():
    s = Session("Forgets of the root, of no lookup, of more than is counted, and of a node in use.")
    s.begin()
    s.ask("LOOKUP", 4, 1, text("a"), entry(2, 20))
    s.ask("LOOKUP", 6, 1, text("a"), entry(2, 20))
    s.read(request("FORGET", 8, 1, numbers("Q", 1)), "kernel: forget of the root: node 1 lookups 1")
    s.read(request("FORGET", 10, 2, numbers("Q", 0)), "kernel: forget of no lookup: node 2 lookups 0")
    s.read(request("FORGET", 12, 2, numbers("Q", 3)), "kernel: forget of more than is counted: node 2 lookups 3")
    s.ask("LOOKUP", 14, 1, text("b"), entry(3, 30))
    s.ask("LOOKUP", 16, 1, text("c"), entry(4, 40))
    s.read(request("GETATTR", 18, 3, getattr_body()))
    s.ask("OPEN", 20, 4, numbers("II", 0, 0), opened(5))
    pairs = numbers("II", 4, 0) + numbers("QQQQQQQQ", 3, 1, 4, 1, 9, 1, 1, 0)
    s.read(request("BATCH_FORGET", 22, 0, pairs), "kernel: forget of a node in use: node 3 lookups 1",
           "kernel: forget of a node in use: node 4 lookups 1", "kernel: forget of more than is counted: node 9 lookups 1",
           "kernel: forget of the root: node 1 lookups 0")
    # one of two lookups may be forgotten while the node is in use
    s.ask("LOOKUP", 24, 1, text("d"), entry(6, 60))
    s.ask("LOOKUP", 26, 1, text("d"), entry(6, 60))
    s.read(request("GETATTR", 28, 6, getattr_body()))
    s.read(request("FORGET", 30, 6, numbers("Q", 1)))
    return s, s.end(entries=6, forgotten=1 + 0 + 3 + 1 + 1 + 1 + 0 + 1, unanswered=2)


def writes_cut_short():
    s = Session("WRITEs of more than INIT agreed on, 8,192 bytes; their data is not kept.")
    s.begin()
    s.ask("LOOKUP", 4, 1, text("a"), entry(2, 20))
    s.ask("OPEN", 6, 2, numbers("II", 0, 0), opened(5))
    for unique, size, faults in ((8, 8192, ()), (10, 8193, ("kernel: WRITE of more than was agreed: bytes 8193",))):
        s.read(request("WRITE", unique, 2, write_body(5, b"", size=size), length=80 + size), *faults, more=size)
        s.write(reply(unique, numbers("II", size, 0)))
    return s, s.end(entries=1)


def writes_of_a_page():
    s = Session("Where INIT agrees on fewer, WRITEs have up to 4,096 bytes.")
    s.begin(max_write=1)
    s.ask("LOOKUP", 4, 1, text("a"), entry(2, 20))
    s.ask("OPEN", 6, 2, numbers("II", 0, 0), opened(5))
    for unique, size, faults in ((8, 4096, ()), (10, 4097, ("kernel: WRITE of more than was agreed: bytes 4097",))):
        s.read(request("WRITE", unique, 2, write_body(5, b"", size=size), length=80 + size), *faults, more=size)
        s.write(reply(unique, error=EIO))
    return s, s.end(entries=1)


def replies():
    s = Session("Replies that are malformed, to nothing, second ones, and to what takes none.")
    s.begin()
    s.read(request("STATFS", 4, 1))
    s.write(reply(4, b"\0" * 80, length=95), "server: malformed reply", errno="EINVAL")
    s.write(reply(4, error=-5), "server: malformed reply", errno="EINVAL")
    s.write(reply(4, error=512), "server: malformed reply", errno="EINVAL")
    s.write(b"\x04\0\0\0", "server: malformed reply", errno="EINVAL")
    s.write(reply(4, error=511))
    s.write(reply(4, error=EIO), "server: second reply: unique 4", errno="ENOENT")
    s.write(reply(90, error=EIO), "server: reply to nothing: unique 90", errno="ENOENT")
    s.ask("LOOKUP", 6, 1, text("a"), entry(2, 20))
    s.read(request("FORGET", 8, 2, numbers("Q", 1)))
    s.write(reply(8), "server: reply to FORGET: unique 8", errno="ENOENT")
    s.read(request("BATCH_FORGET", 10, 0, numbers("II", 0, 0)))
    s.write(reply(10), "server: reply to FORGET: unique 10", errno="ENOENT")
    return s, s.end(entries=1, forgotten=1)


def replies_to_interrupts():
    s = Session("Replies to INTERRUPTs that were not read, of requests that wait, and of none.")
    s.begin()
    s.read(request("STATFS", 4, 1))
    s.write(reply(5, error=EAGAIN), "server: reply to no INTERRUPT: INTERRUPT of 4")
    s.write(reply(91, error=EAGAIN), "server: reply to nothing: INTERRUPT of 90", errno="ENOENT")
    s.read(request("INTERRUPT", 5, 0, numbers("Q", 4)))
    s.write(reply(5))
    s.write(reply(4, error=4))
    # the server may have met the INTERRUPT after its request
    s.write(reply(5, error=EAGAIN), errno="ENOENT")
    return s, s.end()


def bodies():
    s = Session("Replies whose bodies are not their requests', and which say more than was asked.")
    s.begin()
    other = "server: body that is not its request's"
    s.read(request("LOOKUP", 4, 1, text("a")))
    s.write(reply(4, opened(1)), other, errno="EINVAL")
    s.write(reply(4, entry(2, 20)), "server: second reply: unique 4", errno="ENOENT")
    s.read(request("STATFS", 6, 1))
    s.write(reply(6, b"\0" * 80, error=EIO), other, errno="EINVAL")
    s.ask("CREATE", 8, 1, numbers("IIII", 0, 0o644, 0, 0) + text("b"), entry(3, 30) + opened(5))
    s.read(request("READ", 10, 3, read_body(5, size=4)))
    s.write(reply(10, b"abcde"), other, errno="EINVAL")
    s.ask("READ", 12, 3, read_body(5, size=4), b"abcd")
    s.read(request("GETXATTR", 14, 3, numbers("II", 0, 0) + text("user.a")))
    s.write(reply(14, b"abcd"), other, errno="EINVAL")
    s.read(request("READLINK", 16, 3))
    s.write(reply(16), other, errno="EINVAL")
    more = ("server: more than was asked",)
    s.ask("WRITE", 18, 3, write_body(5, b"abc"), numbers("II", 4, 0), faults=more)
    s.ask("COPY_FILE_RANGE", 20, 3, copy_body(5, 3, 5, 10), numbers("II", 11, 0), faults=more)
    s.ask("COPY_FILE_RANGE_64", 22, 3, copy_body(5, 3, 5, 10), numbers("Q", 11), faults=more)
    s.ask("COPY_FILE_RANGE_64", 24, 3, copy_body(5, 3, 5, 10), numbers("Q", 10))
    # of what the device takes by its size only the server is accused
    s.ask("READLINK", 26, 3, b"", b"", faults=(other,))
    s.ask("OPENDIR", 28, 1, numbers("II", 0, 0), opened(7))
    s.ask("READDIR", 30, 1, read_body(7), record("a/b", 20, 1), faults=(other,))
    plus = entry(4, 40) + record("d", 40, 1) + entry(5, 50) + record("e/", 50, 2) + entry(6, 60) + record("f", 60, 3)
    s.ask("READDIRPLUS", 32, 1, read_body(7), plus, faults=(other,))
    # which of its entries count is not certain: they may be named and forgotten, and given for another file
    s.ask("GETATTR", 34, 6, getattr_body(), attributes_reply(61, REGULAR))
    s.read(request("FORGET", 36, 4, numbers("Q", 1)))
    s.read(request("FORGET", 38, 4, numbers("Q", 1)), "kernel: forget of more than is counted: node 4 lookups 1")
    s.read(request("READDIR", 40, 1, read_body(7, size=24)))
    s.write(reply(40, record("a", 20, 1)), other, "device: body of another request accepted: unique 40")
    # a caller of IOCTL may have room for a page or for more
    ioctl = numbers("iIII", 0, 0, 0, 0)
    s.ask("IOCTL", 42, 3, numbers("QIIQII", 5, 0, 0x5401, 0, 0, 0), ioctl + b"\0" * 4096)
    s.read(request("IOCTL", 44, 3, numbers("QIIQII", 5, 0, 0x5401, 0, 0, 0)))
    s.write(reply(44, ioctl + b"\0" * 4097), errno="EINVAL")
    s.read(request("IOCTL", 46, 3, numbers("QIIQII", 5, 0, 0x5401, 0, 0, 0)))
    s.write(reply(46, ioctl + b"\0" * 4096), "device: right reply refused: unique 46", errno="EINVAL")
    return s, s.end(entries=4, forgotten=2)


def init_of_another_length():
    s = Session("INIT's reply has 8, 24 or 64 bytes; the device takes any up to 64.")
    s.read(init_request())
    s.write(reply(2, numbers("IIIIHHII", 7, 31, 0, 0, 0, 0, 4096, 1)), "server: body that is not its request's")
    return s, s.end()


def entries():
    s = Session("Entries of the root, of no node, and of no kind.")
    s.begin()
    s.ask("LOOKUP", 4, 1, text("a"), entry(1, 1, DIRECTORY), faults=("server: entry of the root",))
    s.ask("LOOKUP", 6, 1, text("a"), entry(0, 0, 0))
    s.ask("MKDIR", 8, 1, numbers("II", 0o755, 0) + text("a"), entry(0, 0, DIRECTORY), faults=("server: entry of no node",))
    s.ask("LOOKUP", 10, 1, text("a"), entry(2, 20, 0o644), faults=("server: entry of no kind",))
    # whether the kernel counted it is not certain: it may name it, and forget it, and nothing is said of its file
    s.ask("LOOKUP", 12, 1, text("a"), entry(2, 21, 0o644, generation=1), faults=("server: entry of no kind",))
    s.ask("GETATTR", 14, 2, getattr_body(), attributes_reply(20, REGULAR))
    s.read(request("FORGET", 16, 2, numbers("Q", 2)))
    s.read(request("FORGET", 18, 2, numbers("Q", 1)), "kernel: forget of more than is counted: node 2 lookups 1")
    s.ask("OPENDIR", 20, 1, numbers("II", 0, 0), opened(5))
    listing = (entry(0, 0, 0) + record(".", 1, 1, 4) + entry(1, 1, DIRECTORY) + record("..", 1, 2, 4)
               + entry(3, 30) + record("b", 30, 3) + entry(1, 1, DIRECTORY) + record("c", 1, 4, 4)
               + entry(4, 40, 0) + record("d", 40, 5) + entry(0, 0, 0) + record("e", 50, 6))
    s.ask("READDIRPLUS", 22, 1, read_body(5), listing, faults=("server: entry of the root", "server: entry of no kind"))
    # a size of 2^63 and more is no fault, and not certain either
    s.ask("LOOKUP", 24, 1, text("f"), entry(6, 60, size=2**63))
    s.ask("LOOKUP", 26, 1, text("f"), entry(6, 61, size=2**63))
    # of what file a node is, the first entry says that counts for certain
    s.ask("LOOKUP", 28, 1, text("f"), entry(6, 62))
    s.ask("LOOKUP", 30, 1, text("f"), entry(6, 62))
    s.ask("LOOKUP", 32, 1, text("f"), entry(6, 63), faults=("server: node of two inode numbers: node 6 generation 0 inode 63",))
    return s, s.end(entries=9, forgotten=3)


def entries_of_another_kind():
    s = Session("What is made has another kind than was asked for: whether it counts is not certain, and it is not open.")
    s.begin()
    other = ("server: entry of another kind",)
    s.ask("MKDIR", 4, 1, numbers("II", 0o755, 0) + text("a"), entry(2, 20), faults=other)
    s.ask("SYMLINK", 6, 1, text("b", "to"), entry(3, 30), faults=other)
    s.ask("MKNOD", 8, 1, numbers("IIII", 0o010644, 0, 0, 0) + text("c"), entry(4, 40), faults=other)
    s.ask("CREATE", 10, 1, numbers("IIII", 0, 0o644, 0, 0) + text("d"), entry(5, 50, DIRECTORY) + opened(9), faults=other)
    s.read(request("FLUSH", 12, 5, numbers("QIIQ", 9, 0, 0, 0)), "kernel: file handle that is not open: node 5 file handle 9")
    s.write(reply(12))
    s.read(request("FORGET", 14, 5, numbers("Q", 1)))
    s.ask("LOOKUP", 16, 1, text("a"), entry(2, 21, DIRECTORY, generation=1))
    s.ask("MKNOD", 18, 1, numbers("IIII", 0o644, 0, 0, 0) + text("e"), entry(6, 60))
    s.ask("MKNOD", 20, 1, numbers("IIII", 0o010644, 0, 0, 0) + text("f"), entry(7, 70, 0o010644))
    s.ask("LINK", 22, 1, numbers("Q", 6) + text("g"), entry(6, 60))
    return s, s.end(entries=8, forgotten=1)


def exported():
    s = Session("With EXPORT_SUPPORT a LOOKUP of `.` may be of a node that is not counted, and one of `..` may give the root.")
    s.read(init_request(flags=16))
    s.write(init_reply(flags=16))
    s.ask("LOOKUP", 4, 9, text("."), entry(9, 90, DIRECTORY))
    s.ask("LOOKUP", 6, 9, text(".."), entry(1, 1, DIRECTORY))
    s.read(request("LOOKUP", 8, 8, text("..")), "kernel: node that is not counted: node 8")
    s.ask("LOOKUP", 10, 9, text("a"), entry(1, 1, DIRECTORY), faults=("server: entry of the root",))
    s.read(request("FORGET", 12, 9, numbers("Q", 1)))
    return s, s.end(entries=1, forgotten=1, unanswered=1)


def nodes_of_two_files():
    s = Session("Nodes that are counted, and given for another generation, kind or inode number.")
    s.begin()
    s.ask("LOOKUP", 4, 1, text("a"), entry(2, 20, generation=1))
    s.ask("LOOKUP", 6, 1, text("a"), entry(2, 20, generation=1))
    s.ask("LOOKUP", 8, 1, text("a"), entry(2, 21, DIRECTORY, generation=2),
          faults=("server: node of two generations: node 2 generation 2 inode 21",))
    s.ask("LOOKUP", 10, 1, text("a"), entry(2, 22, LINK, generation=1),
          faults=("server: node of two kinds: node 2 generation 1 inode 22",))
    s.ask("LOOKUP", 12, 1, text("a"), entry(2, 23, generation=1),
          faults=("server: node of two inode numbers: node 2 generation 1 inode 23",))
    s.ask("GETATTR", 14, 2, getattr_body(), attributes_reply(20, DIRECTORY), faults=("server: node of two kinds: node 2 inode 20",))
    s.ask("SETATTR", 16, 2, setattr_body(), attributes_reply(24, REGULAR),
          faults=("server: node of two inode numbers: node 2 inode 24",))
    s.ask("GETATTR", 18, 2, getattr_body(), attributes_reply(20, REGULAR))
    # forgotten, it may be of another file
    s.read(request("FORGET", 20, 2, numbers("Q", 5)))
    s.ask("LOOKUP", 22, 1, text("b"), entry(2, 30, DIRECTORY, generation=7))
    # nothing is known of the root's file
    s.ask("GETATTR", 24, 1, getattr_body(), attributes_reply(1, DIRECTORY))
    s.ask("GETATTR", 26, 1, getattr_body(), attributes_reply(99, DIRECTORY))
    return s, s.end(entries=6, forgotten=5)


def init_of_another_version():
    s = Session("INIT's reply is of protocol 8, and has flags that were not offered.")
    s.read(init_request(flags=1))
    s.write(init_reply(major=8, flags=1 | 32), "server: INIT of another version", "server: flags that were not offered",
            "not judged from here on: a side speaks another major version than 7")
    s.ask("STATFS", 4, 1, answer=b"\0" * 80)
    return s, s.end()


def frames_of_an_old_minor():
    s = Session("INIT agrees on 7.8, where entries have 120 bytes: what comes then is not judged.")
    s.read(init_request())
    s.write(init_reply(minor=8),
            "not judged from here on: the sides agreed below 7.9, where entries and attributes are shorter")
    s.ask("LOOKUP", 4, 1, text("a"), entry(2, 20)[:120])
    s.write(reply(4, entry(2, 20)[:120]), errno="ENOENT")
    s.read(request("FORGET", 6, 3, numbers("Q", 5)))
    s.read(request("GETATTR", 8, 9))
    s.line("= several readers")
    s.line("= ended ENODEV")
    return s, s.end()


def frames_of_a_later_minor():
    s = Session("Both sides speak 7.46, whose structs are not known. Faults before INIT's reply are named.")
    s.read(request("LOOKUP", 4, 1, text("a")), "kernel: request before INIT: LOOKUP")
    s.read(init_request(unique=6, minor=46), "kernel: INIT is not first: INIT")
    s.write(init_reply(unique=6, minor=46),
            "not judged from here on: the sides agreed above 7.45, whose structs are not known")
    s.write(reply(4, b"\0" * 200))
    s.read(request("LOOKUP", 8, 77, text("a")))
    return s, s.end(unanswered=1)


def security_contexts_without_a_length():
    s = Session("A kernel of 7.36 sends security contexts behind names; from 7.38 on the header says how long they are.")
    s.read(init_request(minor=36, flags=1 << 30, flags2=1))
    s.write(init_reply(minor=36, flags=1 << 30, flags2=1),
            "not judged from here on: security contexts follow names, and no frame says how long they are")
    s.read(request("MKDIR", 4, 1, numbers("II", 0o755, 0) + text("a") + b"\0" * 8))
    s.write(reply(4, entry(2, 20, DIRECTORY)))
    return s, s.end()


def flags_that_were_not_offered():
    s = Session("INIT's reply has a flag of the second word that was not offered.")
    s.read(init_request(flags=1 << 30, flags2=1))
    s.write(init_reply(flags=1 << 30, flags2=3), "server: flags that were not offered")
    return s, s.end()


def second_word_of_flags():
    s = Session("Without INIT_EXT the second word of flags says nothing.")
    s.read(init_request(flags=1, flags2=0))
    s.write(init_reply(flags=1, flags2=255))
    return s, s.end()


def notifications():
    s = Session("Notifications of each code, and malformed ones.")
    s.begin()
    bad = "server: malformed notification"
    s.write(notification(1, numbers("Q", 5)))
    s.write(notification(2, numbers("Qqq", 2, 0, -1)), errno="ENOENT")
    s.write(notification(3, numbers("QII", 1, 1, 0) + text("a")), errno="ENOENT")
    s.write(notification(4, numbers("QQII", 2, 0, 3, 0) + b"abc"), errno="ENOENT")
    s.write(notification(5, numbers("QQQII", 2, 2, 0, 3, 0)), errno="ENOENT")
    s.write(notification(6, numbers("QQII", 1, 2, 1, 0) + text("a")), errno="ENOENT")
    s.write(notification(8))
    s.write(notification(9, numbers("IIQQ", 1, 0, 0, 2)))
    s.write(notification(10), bad, errno="EINVAL")
    s.write(notification(0), bad, errno="EINVAL")
    s.write(notification(2, numbers("Qq", 2, 0)), bad, errno="EINVAL")
    s.write(notification(3, numbers("QII", 1, 2, 0) + text("a")), bad, errno="EINVAL")
    s.write(notification(3, numbers("QII", 1, 3, 0) + text("a/b")), bad, errno="ENOENT")
    s.write(notification(4, numbers("QQII", 2, 0, 4, 0) + b"abc"), bad, errno="EINVAL")
    s.write(notification(9, numbers("IIQQ", 2, 0, 0, 2)), bad, errno="EINVAL")
    return s, s.end()


def device():
    s = Session("What the device accepts and refuses.")
    s.begin()
    s.write(reply(90), "device: reply to nothing accepted: unique 90", "server: reply to nothing: unique 90")
    s.ask("STATFS", 4, 1, answer=b"\0" * 80)
    s.write(reply(4), "device: reply to nothing accepted: unique 4", "server: second reply: unique 4")
    s.read(request("STATFS", 6, 1))
    s.write(reply(6, b"\0" * 8), "server: body that is not its request's", "device: body of another request accepted: unique 6")
    s.read(request("STATFS", 8, 1))
    s.write(reply(8, b"\0" * 80), "device: right reply refused: unique 8", errno="EINVAL")
    # another error of the device says nothing of anyone
    s.read(request("STATFS", 10, 1))
    s.write(reply(10, b"\0" * 80), errno="EFAULT")
    return s, s.end()


def after_the_end():
    s = Session("The device's end: what is read or accepted behind it.")
    s.begin()
    s.read(request("STATFS", 4, 1))
    s.line("= ended ENODEV")
    s.write(reply(4, b"\0" * 80), errno="ENOENT")
    s.write(reply(4, b"\0" * 80), "device: reply accepted after the end: unique 4")
    s.read(request("STATFS", 6, 1), "device: read after the end")
    s.write(reply(90), "device: reply accepted after the end: unique 90", "server: reply to nothing: unique 90")
    s.line("= closed")
    return s, s.end(unanswered=1)


def after_a_lost_reply():
    s = Session("ENOENT to a reply that a request waits for shows the end too.")
    s.begin()
    s.read(request("STATFS", 4, 1))
    s.read(request("STATFS", 6, 1))
    s.write(reply(4, b"\0" * 80), errno="ENOENT")
    s.write(reply(6, b"\0" * 80), errno="ENOENT")
    s.read(request("STATFS", 8, 1), "device: read after the end")
    s.line("= ended ECONNABORTED")
    return s, s.end(unanswered=3)


# ---- sessions without a fault

def good_names():
    s = Session("Good: names. LOOKUP, MKNOD, MKDIR, SYMLINK, READLINK, LINK, RENAME, RENAME2, UNLINK, RMDIR.")
    s.begin()
    s.ask("LOOKUP", 4, 1, text("a"), error=ENOENT)
    s.ask("MKNOD", 6, 1, numbers("IIII", REGULAR, 0, 0o22, 0) + text("a"), entry(2, 20))
    s.ask("MKDIR", 8, 1, numbers("II", 0o755, 0o22) + text("d"), entry(3, 30, DIRECTORY))
    s.ask("SYMLINK", 10, 3, text("l", "../a"), entry(4, 40, LINK))
    s.ask("READLINK", 12, 4, answer=b"../a")
    s.ask("LINK", 14, 3, numbers("Q", 2) + text("b"), entry(2, 20))
    s.ask("RENAME", 16, 1, numbers("Q", 3) + text("a", "c"))
    s.ask("RENAME2", 18, 3, numbers("QII", 1, 1, 0) + text("c", "e"))
    s.ask("UNLINK", 20, 3, text("b"))
    s.ask("UNLINK", 22, 3, text("l"))
    s.ask("RMDIR", 24, 1, text("d"))
    pairs = numbers("II", 2, 0) + numbers("QQQQ", 4, 1, 3, 1)
    s.read(request("BATCH_FORGET", 26, 0, pairs))
    s.ask("UNLINK", 28, 1, text("e"))
    s.read(request("FORGET", 30, 2, numbers("Q", 2)))
    return s, s.end(entries=4, forgotten=4)


def good_attributes():
    s = Session("Good: attributes. GETATTR, SETATTR, STATX, ACCESS, STATFS, and those of extended attributes.")
    s.read(init_request(flags=1 << 29))
    s.write(init_reply(flags=1 << 29))
    s.ask("LOOKUP", 4, 1, text("a"), entry(2, 20))
    s.ask("GETATTR", 6, 2, getattr_body(), attributes_reply(20, REGULAR))
    s.ask("SETATTR", 8, 2, setattr_body(), attributes_reply(20, 0o100600))
    s.ask("STATX", 10, 2, numbers("IIQII", 0, 0, 0, 0, 0x7FF), b"\0" * 288)
    s.ask("ACCESS", 12, 2, numbers("II", 4, 0))
    s.ask("STATFS", 14, 2, answer=b"\0" * 80)
    s.ask("SETXATTR", 16, 2, numbers("IIII", 3, 0, 0, 0) + text("user.a/b") + b"abc")
    s.ask("GETXATTR", 18, 2, numbers("II", 0, 0) + text("user.a/b"), numbers("II", 3, 0))
    s.ask("GETXATTR", 20, 2, numbers("II", 3, 0) + text("user.a/b"), b"abc")
    s.ask("LISTXATTR", 22, 2, numbers("II", 0, 0), numbers("II", 9, 0))
    s.ask("LISTXATTR", 24, 2, numbers("II", 64, 0), text("user.a/b"))
    s.ask("REMOVEXATTR", 26, 2, text("user.a/b"))
    return s, s.end(entries=1)


def good_files():
    s = Session("Good: files. CREATE, TMPFILE, OPEN, READ, WRITE, locks, and the others that name a file handle.")
    s.begin()
    s.ask("CREATE", 4, 1, numbers("IIII", 2, 0o100644, 0o22, 0) + text("a"), entry(2, 20) + opened(5))
    s.ask("TMPFILE", 6, 1, numbers("IIII", 2, 0o100600, 0o22, 0) + text("/"), entry(3, 30) + opened(5))
    s.ask("OPEN", 8, 2, numbers("II", 0, 0), opened(6))
    s.ask("WRITE", 10, 2, write_body(5, b"abc"), numbers("II", 3, 0))
    s.ask("READ", 12, 2, read_body(6), b"abc")
    s.ask("GETATTR", 14, 2, getattr_body(6), attributes_reply(20, REGULAR, 3))
    s.ask("SETATTR", 16, 2, setattr_body(5), attributes_reply(20, REGULAR, 0))
    s.ask("LSEEK", 18, 2, numbers("QQII", 5, 0, 3, 0), numbers("Q", 3))
    s.ask("FALLOCATE", 20, 2, numbers("QQQII", 5, 0, 4096, 0, 0))
    s.ask("COPY_FILE_RANGE_64", 22, 2, copy_body(5, 3, 5, 3), error=ENOSYS)
    s.ask("COPY_FILE_RANGE", 24, 2, copy_body(5, 3, 5, 3), numbers("II", 3, 0))
    s.ask("IOCTL", 26, 2, numbers("QIIQII", 5, 0, 0x5401, 0, 0, 0), numbers("iIII", 0, 0, 0, 0))
    s.ask("POLL", 28, 2, numbers("QQII", 5, 1, 1, 0), numbers("II", 1, 0))
    lock = numbers("QQQQIIII", 5, 77, 0, 9, 1, 77, 0, 0)
    s.ask("GETLK", 30, 2, lock, numbers("QQII", 0, 9, 2, 0))
    s.ask("SETLK", 32, 2, lock)
    s.ask("SETLKW", 34, 2, lock)
    s.ask("BMAP", 36, 2, numbers("QII", 0, 4096, 0), numbers("Q", 8))
    s.ask("FSYNC", 38, 2, numbers("QII", 5, 0, 0))
    s.ask("FLUSH", 40, 2, numbers("QIIQ", 5, 0, 0, 77))
    s.ask("RELEASE", 42, 2, release_body(5))
    s.ask("READ", 44, 2, read_body(6), error=EIO)
    s.ask("RELEASE", 46, 2, release_body(6))
    s.ask("RELEASE", 48, 3, release_body(5))
    s.read(request("FORGET", 50, 3, numbers("Q", 1)))
    return s, s.end(entries=2, forgotten=1)


def good_directories():
    s = Session("Good: directories. OPENDIR, READDIR, READDIRPLUS, FSYNCDIR, RELEASEDIR; a record may be cut at the end.")
    s.begin()
    s.ask("OPENDIR", 4, 1, numbers("II", 0, 0), opened(5))
    plus = (entry(0, 0, 0) + record(".", 1, 1, 4) + entry(7, 70, DIRECTORY) + record("..", 1, 2, 4)
            + entry(2, 20) + record("a", 20, 3) + entry(3, 30, DIRECTORY) + record("d", 30, 4, 4))
    s.ask("READDIRPLUS", 6, 1, read_body(5), plus)
    s.ask("READDIR", 8, 1, read_body(5, offset=4), record("a", 20, 3) + record("d", 30, 4, 4)[:20])
    s.ask("READDIR", 10, 1, read_body(5, offset=4))
    s.ask("FSYNCDIR", 12, 1, numbers("QII", 5, 0, 0))
    s.ask("IOCTL", 14, 1, numbers("QIIQII", 5, 16, 0x5401, 0, 0, 0), numbers("iIII", 0, 0, 0, 0))
    s.ask("RELEASEDIR", 16, 1, release_body(5))
    s.read(request("BATCH_FORGET", 18, 0, numbers("II", 2, 0) + numbers("QQQQ", 2, 1, 3, 1)))
    return s, s.end(entries=2, forgotten=2)


def good_notifications():
    s = Session("Good: INTERRUPTs, a RETRIEVE and its NOTIFY_REPLY, whose number is the server's, mappings, SYNCFS, DESTROY.")
    s.begin()
    s.ask("LOOKUP", 4, 1, text("a"), entry(2, 20))
    s.write(notification(4, numbers("QQII", 2, 0, 3, 0) + b"abc"))
    s.write(notification(5, numbers("QQQII", 4, 2, 0, 3, 0)))
    s.read(request("NOTIFY_REPLY", 4, 2, numbers("QQIIQQ", 0, 0, 3, 0, 0, 0) + b"abc"))
    s.read(request("STATFS", 6, 1))
    s.read(request("INTERRUPT", 7, 0, numbers("Q", 6)))
    s.write(reply(7, error=EAGAIN))
    s.read(request("INTERRUPT", 7, 0, numbers("Q", 6)))
    s.write(reply(6, error=4))
    s.ask("OPEN", 8, 2, numbers("II", 0, 0), opened(5))
    s.ask("SETUPMAPPING", 10, 2, numbers("QQQQQ", 5, 0, 4096, 0, 0))
    # Linux says no file handle: -1
    s.ask("SETUPMAPPING", 12, 2, numbers("QQQQQ", 2**64 - 1, 0, 4096, 0, 0))
    s.ask("REMOVEMAPPING", 14, 2, numbers("I", 1) + numbers("QQ", 0, 4096))
    s.ask("SYNCFS", 16, 1, numbers("Q", 0))
    s.ask("RELEASE", 18, 2, release_body(5))
    s.read(request("FORGET", 20, 2, numbers("Q", 1)))
    s.ask("DESTROY", 22, 0)
    s.line("= ended ENODEV")
    return s, s.end(entries=1, forgotten=1)


def good_extensions():
    s = Session("Good: what INIT agreed on. A context of security behind a MKDIR, names of 4,095 bytes, LOOKUP of dots.")
    s.read(init_request(flags=1 << 30 | 1 << 22 | 16, flags2=1))
    s.write(init_reply(flags=1 << 30 | 1 << 22 | 16, flags2=1, max_pages=32))
    context = numbers("II", 24, 1) + text("selinux") + text("context")
    s.read(request("MKDIR", 4, 1, numbers("II", 0o755, 0) + text("d") + context, extensions=3))
    s.write(reply(4, entry(2, 20, DIRECTORY)))
    s.ask("LOOKUP", 6, 2, text("."), entry(2, 20, DIRECTORY))
    s.ask("LOOKUP", 8, 2, text("b" * 4095), error=36)
    return s, s.end(entries=2)


def good_minors():
    s = Session("Good: minor 9, and replies to INIT of 24 bytes. MKNOD and CREATE have shorter structs.")
    s.read(init_request(minor=9))
    s.write(reply(2, numbers("IIIIHHI", 7, 9, 0, 0, 0, 0, 4096)))
    s.ask("MKNOD", 4, 1, numbers("II", REGULAR, 0) + text("a"), entry(2, 20))
    s.ask("CREATE", 6, 1, numbers("II", 2, 0o100644) + text("b"), entry(3, 30) + opened(5))
    s.read(request("CREATE", 8, 1, numbers("IIII", 2, 0o100644, 0o22, 0) + text("c")), "kernel: malformed request")
    return s, s.end(entries=2, unanswered=1)


def lines_of_a_capture():
    s = Session("How lines may be written: comments, empty lines, CRLF, upper-case hex, +N, times, the server's end.")
    s.line("")
    s.begin()
    s.lines[-1] += "\r"
    s.line("#> not a line")
    s.line("\r")
    s.line("# CRLF behind a comment\r")
    s.counted["requests"] += 3
    s.counted["replies"] += 3
    s.line("> " + request("LOOKUP", 4, 1, text("a")).hex().upper())
    s.line("< @123 " + reply(4, entry(2, 20)).hex())
    s.line("> @0 " + request("STATFS", 6, 1).hex() + "\r")
    s.line("< @18446744073709551615 " + reply(6, length=96).hex() + " +80")
    s.line("> " + request("STATFS", 8, 1).hex() + " +0")
    s.line("< @5 " + reply(8, length=96).hex() + " +80 EINVAL", "device: right reply refused: unique 8")
    s.counted["refused"] += 1
    s.line("= closed")
    return s, s.end(entries=1)


SESSIONS = [
    malformed_requests, later_opcodes, requests_before_init, numbers_of_requests, resends, resends_unasked, several_readers,
    several_writers, interrupts, nodes_not_counted, names_that_are_missing, forgets, *file_sessions.SESSIONS,
    writes_cut_short, writes_of_a_page, replies, replies_to_interrupts, bodies, init_of_another_length, entries, entries_of_another_kind,
    exported, nodes_of_two_files, init_of_another_version, frames_of_an_old_minor, frames_of_a_later_minor,
    security_contexts_without_a_length, flags_that_were_not_offered, second_word_of_flags, notifications, device, after_the_end, after_a_lost_reply, good_names, good_attributes, good_files, good_directories, good_notifications,
    good_extensions, good_minors, lines_of_a_capture, *warning_sessions.SESSIONS,
]


def files():
    """The files of tests/sessions, each with its bytes."""
    for make in SESSIONS:
        session, expected = make()
        name = make.__name__.replace("_", "-")
        yield FOLDER / f"{name}.capture", "".join(f"{line}\n" for line in session.lines).encode()
        yield FOLDER / f"{name}.expected", expected.encode()


def main():
    wrong = 0
    for file, content in files():
        if sys.argv[1:] == ["--write"]:
            file.write_bytes(content)
        elif not file.exists() or file.read_bytes() != content:
            wrong += 1
            print(f"{file.name} is not what tests/session_frames.py writes")
    return 1 if wrong else 0


if __name__ == "__main__":
    sys.exit(main())
