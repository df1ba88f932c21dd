#!/usr/bin/env python3
"""The FUSE server of watch_server.py with one bug: buggy_server.py WORD LOG /dev/fd/N.

The first frame that is wrong stands in LOG with `!` for `<`. Where Linux refuses it, a right one follows. tests/watch_bugs.py
has the words, and what `check` has to print of each.
"""
import errno
import os
import re
import struct
import sys

from watch_server import FORGET, GETATTR, INIT, LOOKUP, MKDIR, NO_REPLY, READ, READDIR, ROOT, WRITE, Server, entry, framed

RMDIR, STATFS, READDIRPLUS = 11, 17, 44
INVAL_INODE, INVAL_ENTRY, UNKNOWN_CODE = 2, 3, 99
DO_READDIRPLUS, UNUSED_FLAG = 1 << 13, 1 << 2
OTHER_MODE = struct.pack("<I", 0o40755)


def put(frame, place, part):
    return frame[:place] + part + frame[place + len(part):]


class Buggy(Server):
    def __init__(self, word, *more):
        super().__init__(*more)
        self.word, self.is_done, self.lookups = word, False, 0

    def make(self, name):
        self.names[name] = max(self.names.values()) + 1
        return entry(self.names[name])

    def perform(self, opcode, node, body):
        if opcode == RMDIR:
            return b"" if self.names.pop(body[:-1], None) else -errno.ENOENT
        if opcode == STATFS:
            return bytes(80)
        if opcode == INIT and self.word == "record-of-another-kind":
            return struct.pack("<IIIIHHII", 7, 31, 131072, DO_READDIRPLUS, 0, 0, 4096, 1) + bytes(36)
        if opcode == READDIRPLUS:
            return b"".join(entry(self.names[name]) + record for name, record in self.each_record(body))
        return super().perform(opcode, node, body)

    def each_record(self, body):
        said = self.records(struct.unpack_from("<Q", body, 8)[0])
        while said:
            length = struct.unpack_from("<I", said, 16)[0]
            whole = 24 + (length + 7) // 8 * 8
            yield said[24:24 + length], said[:whole]
            said = said[whole:]

    def wrong(self, frame):
        """Writes the frame that has the bug. Later ones are right."""
        self.is_done = True
        self.note("!", frame)
        try:
            os.write(self.sink, frame)
        except OSError as fault:
            if fault.errno not in (errno.ENOENT, errno.EINVAL, errno.ENODEV, errno.EPIPE):
                raise

    def answer(self, frame):
        _, opcode, unique, node = struct.unpack_from("<IIQQ", frame)
        name = frame[40:-1] if opcode == LOOKUP else b""
        if opcode in NO_REPLY:
            if opcode == FORGET and self.word == "reply-to-forget" and not self.is_done:
                self.wrong(framed(unique))
            return
        said = self.perform(opcode, node, frame[40:])
        reply = framed(unique, error=said) if isinstance(said, int) else framed(unique, said)
        self.lookups += name == b"file"
        bug = None if self.is_done else BUGS[self.word](self, opcode, unique, name, reply)
        if bug is None:
            self.write(reply)
            return
        before, wrong, after = bug
        for right in before:
            self.write(right)
        self.wrong(wrong)
        for right in after:
            self.write(right)


def instead(where, change):
    """A bug: this reply is changed."""
    return lambda server, opcode, unique, name, reply: ([], change(reply), []) if where(server, opcode, name) else None


def before(where, made):
    """A bug: this frame comes before a reply."""
    return lambda server, opcode, unique, name, reply: ([], made(unique, reply), [reply]) if where(server, opcode, name) else None


def of(wanted):
    return lambda server, opcode, name: opcode == wanted


def lookup(server, opcode, name):
    return opcode == LOOKUP and name == b"file"


def second_lookup(server, opcode, name):
    return lookup(server, opcode, name) and server.lookups == 2


def twice(server, opcode, unique, name, reply):
    return ([reply], reply, []) if opcode == GETATTR else None


def longer(reply, more):
    return struct.pack("<I", len(reply) + len(more)) + reply[4:] + more


def note(code, body):
    return lambda unique, reply: framed(0, body, code)


def with_slash(reply):
    """The name of the first record."""
    return put(reply, 16 + 24, b"f/le")


BUGS = {
    "wrong-length": before(of(GETATTR), lambda unique, reply: put(reply, 0, struct.pack("<I", len(reply) + 4))),
    "positive-error": before(of(GETATTR), lambda unique, reply: framed(unique, error=errno.EIO)),
    "error-of-512": before(of(GETATTR), lambda unique, reply: framed(unique, error=-512)),
    "short-head": before(of(GETATTR), lambda unique, reply: framed(unique)[:12]),
    "unknown-number": before(of(GETATTR), lambda unique, reply: framed(1 << 40)),
    "twice": twice,
    "reply-to-forget": lambda *words: None,
    "reply-to-no-interrupt": before(of(GETATTR), lambda unique, reply: framed(unique | 1, error=-errno.EAGAIN)),
    "short-attributes": instead(of(GETATTR), lambda reply: struct.pack("<I", len(reply) - 8) + reply[4:-8]),
    "body-with-error": instead(lookup, lambda reply: put(reply, 4, struct.pack("<i", -errno.ENOENT))),
    "long-read": instead(of(READ), lambda reply: longer(reply, bytes(200000))),
    "record-with-a-slash": instead(of(READDIR), with_slash),
    "more-written": instead(of(WRITE), lambda reply: put(reply, 16, struct.pack("<I", 13))),
    "unknown-notification": before(of(GETATTR), note(UNKNOWN_CODE, bytes(24))),
    "short-notification": before(of(GETATTR), note(INVAL_INODE, bytes(16))),
    "notification-with-another-name": before(of(GETATTR), note(INVAL_ENTRY, struct.pack("<QII", ROOT, 9, 0) + b"file\0")),
    "entry-of-the-root": instead(lookup, lambda reply: put(reply, 16, struct.pack("<Q", ROOT))),
    "entry-of-no-node": instead(of(MKDIR), lambda reply: put(reply, 16, bytes(8))),
    "entry-of-no-kind": instead(lookup, lambda reply: put(reply, 16 + 40 + 60, struct.pack("<I", 0o644))),
    "entry-of-another-kind": instead(of(MKDIR), lambda reply: put(reply, 16 + 40 + 60, struct.pack("<I", 0o100644))),
    "second-generation": instead(second_lookup, lambda reply: put(reply, 24, struct.pack("<Q", 7))),
    "second-kind": instead(second_lookup, lambda reply: put(reply, 16 + 40 + 60, OTHER_MODE)),
    "second-inode": instead(second_lookup, lambda reply: put(reply, 16 + 40, struct.pack("<Q", 77))),
    "attributes-of-another-kind": instead(lambda server, opcode, name: opcode == GETATTR and server.lookups > 0,
                                          lambda reply: put(reply, 16 + 16 + 60, OTHER_MODE)),
    "record-of-another-kind": instead(lambda server, opcode, name: opcode == READDIRPLUS and server.lookups > 0,
                                      lambda reply: put(reply, 16 + 40 + 60, OTHER_MODE)),
    "another-version": instead(of(INIT), lambda reply: put(reply, 16, struct.pack("<I", 8))),
    "flag-that-was-not-offered": instead(of(INIT), lambda reply: put(reply, 28, struct.pack("<I", UNUSED_FLAG))),
}


def main():
    word, log, where = sys.argv[1:]
    end = int(re.fullmatch(r"/dev/fd/(\d+)", where)[1])
    with open(log, "w") as lines:
        Buggy(word, lines, end, end).run()


if __name__ == "__main__":
    main()
