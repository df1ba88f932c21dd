#!/usr/bin/env python3
"""A FUSE server with a file of 100,000 bytes, an empty directory, and directories that are made; tests/watch.sh runs it.

    watch_server.py LOG WHERE

Writes each frame to LOG: `>` a request once its read has ended, `<` a reply or notification before its write begins, `~` a
reply before it is spliced. WHERE is /dev/fd/N, `-` (frames come by standard input and go by standard output) or a folder,
where it mounts itself.

A MKDIR is answered 0.3 seconds after another thread has begun to send FUSE_NOTIFY_INVAL_ENTRY of its name. A LOOKUP of
`twice` is answered twice, one of `short` first by a frame whose `len` is wrong. Long READs of the file `spliced`, which has
the same bytes, are answered by splice(2), where Python has it. A WRITE changes nothing.
"""
import ctypes
import errno
import fcntl
import os
import re
import struct
import sys
import threading
import time

LOOKUP, FORGET, GETATTR, MKDIR, OPEN, READ, WRITE, RELEASE = 1, 2, 3, 9, 14, 15, 16, 18
FLUSH, INIT, OPENDIR, READDIR, RELEASEDIR, INTERRUPT, BATCH_FORGET = 25, 26, 27, 28, 29, 36, 42
INVAL_ENTRY = 3
NO_REPLY = (FORGET, BATCH_FORGET, INTERRUPT)
CONTENT = bytes(range(250)) * 400
ROOT, FILE, DIRECTORY, SPLICED = 1, 2, 3, 4
F_SETPIPE_SZ = 1031


def attributes(node):
    """struct fuse_attr."""
    is_file = node in (FILE, SPLICED)
    mode, size = (0o100644, len(CONTENT)) if is_file else (0o40755, 0)
    return struct.pack("<QQQQQQIIIIIIIIII", node, size, 0, 0, 0, 0, 0, 0, 0, mode, 1, 0, 0, 0, 4096, 0)


def entry(node):
    """struct fuse_entry_out, whose validity has passed at once."""
    return struct.pack("<QQQQII", node, 0, 0, 0, 0, 0) + attributes(node)


def framed(unique, body=b"", error=0):
    """struct fuse_out_header and a body."""
    return struct.pack("<IiQ", 16 + len(body), error, unique) + body


class Server:
    def __init__(self, log, source, sink):
        self.log, self.source, self.sink = log, source, sink
        self.names = {b"file": FILE, b"directory": DIRECTORY, b"spliced": SPLICED}
        self.lock = threading.Lock()

    def note(self, sign, frame):
        with self.lock:
            self.log.write(f"{sign} {frame.hex()}\n")
            self.log.flush()

    def write(self, frame):
        """The device's refusals are no fault of this server: it makes some of them on purpose."""
        self.note("<", frame)
        try:
            os.write(self.sink, frame)
        except OSError as fault:
            if fault.errno not in (errno.ENOENT, errno.EINVAL, errno.ENODEV, errno.EPIPE):
                raise

    def splice(self, frame):
        self.note("~", frame)
        source, sink = os.pipe()
        fcntl.fcntl(sink, F_SETPIPE_SZ, 1 << 20)
        os.write(sink, frame)
        os.splice(source, self.sink, len(frame))
        os.close(source)
        os.close(sink)

    def make(self, name):
        """A new directory. Its name is invalidated by another thread, which waits in the kernel for the reply."""
        begun = threading.Event()
        body = struct.pack("<QII", ROOT, len(name), 0) + name + b"\0"

        def invalidate():
            begun.set()
            self.write(framed(0, body, INVAL_ENTRY))
        threading.Thread(target=invalidate, daemon=True).start()
        begun.wait()
        time.sleep(0.3)
        self.names[name] = max(self.names.values()) + 1
        return entry(self.names[name])

    def records(self, offset):
        """struct fuse_dirent of each name behind an offset."""
        said = b""
        for place, (name, node) in enumerate(self.names.items(), 1):
            if place > offset:
                kind = 8 if node in (FILE, SPLICED) else 4
                said += struct.pack("<QQII", node, place, len(name), kind) + name + bytes(-len(name) % 8)
        return said

    def perform(self, opcode, node, body):
        """The body of a reply, or an error number."""
        if opcode == INIT:
            return struct.pack("<IIIIHHII", 7, 31, 131072, 0, 0, 0, 4096, 1) + bytes(36)
        if opcode == LOOKUP:
            name = body[:-1]
            return entry(self.names[name]) if node == ROOT and name in self.names else -errno.ENOENT
        if opcode == MKDIR:
            return self.make(body[8:-1])
        if opcode == GETATTR:
            return bytes(16) + attributes(node)
        if opcode in (OPEN, OPENDIR):
            return struct.pack("<QII", node, 0, 0)
        if opcode == WRITE:
            return struct.pack("<II", len(body) - 40, 0)
        if opcode in (READ, READDIR):
            offset, size = struct.unpack_from("<QI", body, 8)
            if opcode == READ:
                return CONTENT[offset:offset + size]
            return self.records(offset) if node == ROOT else b""
        return b"" if opcode in (FLUSH, RELEASE, RELEASEDIR) else -errno.ENOSYS

    def answer(self, frame):
        _, opcode, unique, node = struct.unpack_from("<IIQQ", frame)
        if opcode in NO_REPLY:
            return
        if opcode == LOOKUP and frame[40:] == b"short\0":
            self.write(struct.pack("<IiQ", 20, 0, unique))
        said = self.perform(opcode, node, frame[40:])
        reply = framed(unique, error=said) if isinstance(said, int) else framed(unique, said)
        if opcode == READ and node == SPLICED and len(reply) > 70000 and hasattr(os, "splice"):
            self.splice(reply)
        else:
            self.write(reply)
        if opcode == LOOKUP and frame[40:] == b"twice\0":
            self.write(reply)

    def run(self):
        while True:
            try:
                frame = os.read(self.source, 1 << 21)
            except OSError as fault:
                if fault.errno in (errno.ENOENT, errno.EINTR):
                    continue
                if fault.errno in (errno.ENODEV, errno.ECONNRESET):
                    return
                raise
            if not frame:
                return
            self.note(">", frame)
            self.answer(frame)


def mounted(folder):
    """The device, with a mount of it at a folder."""
    device = os.open("/dev/fuse", os.O_RDWR)
    options = f"fd={device},rootmode=40000,user_id={os.getuid()},group_id={os.getgid()}"
    if ctypes.CDLL(None, use_errno=True).mount(b"bare", folder.encode(), b"fuse", 6, options.encode()) != 0:
        sys.exit(f"mount: {os.strerror(ctypes.get_errno())}")
    return device


def main():
    log, where = sys.argv[1:]
    if where == "-":
        ends = 0, 1
    elif place := re.fullmatch(r"/dev/fd/(\d+)", where):
        ends = int(place[1]), int(place[1])
    else:
        ends = (mounted(where),) * 2
    with open(log, "w") as lines:
        Server(lines, *ends).run()


if __name__ == "__main__":
    main()
