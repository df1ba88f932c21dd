#!/usr/bin/env python3
"""A FUSE server in memory over a connected stream socket, with one bug or none; tests/run_drive.py and tests/explore.py drive it.

A LOOKUP of the name `slow` is answered once another request has come, or EINTR once its INTERRUPT has. RENAME refuses as
rename(2) of Linux does.

    drive_server.py SOCK [BUG]

serves one connection at SOCK. There the name `c` is the slow one, and is answered after a twentieth of a second too.
"""
import errno
import os
import select
import socket
import struct
import sys

LOOKUP, FORGET, GETATTR, MKDIR, UNLINK, RMDIR, RENAME, LINK, OPEN, READ, WRITE, RELEASE = 1, 2, 3, 9, 10, 11, 12, 13, 14, 15, 16, 18
INIT, OPENDIR, READDIR, RELEASEDIR, CREATE, INTERRUPT, BATCH_FORGET, READDIRPLUS = 26, 27, 28, 29, 35, 36, 42, 44
BUGS = ["count lost", "node reused", "two generations", "reply twice", "reply after EINTR", "wrong length", "another file",
        "root given", "reply to nothing"]
# Those at OPENDIR and RELEASEDIR: the reply comes twice, has 8 bytes too many, or its error is out of range and it comes then.
OPENDIR_BUGS = [f"{name} {what}" for name in ("OPENDIR", "RELEASEDIR") for what in ("twice", "length", "error")]
# Those of a server that opens what CREATE finds.
OPENING_BUGS = ["a file is a directory", "a directory is opened", "any directory is above"]


def reply(unique, body=b"", error=0):
    """struct fuse_out_header and a body."""
    return struct.pack("<IiQ", 16 + len(body), -error, unique) + body


def agreement(minor=31, flags=0x42001):
    """struct fuse_init_out of 7.23 and later."""
    return struct.pack("<IIIIHHII", 7, minor, 0, flags, 0, 0, 4096, 1) + bytes(36)


class Server:
    """Files by inode number, a dictionary of names or bytes; inode numbers and lookup counts by node id."""

    def __init__(self, bug=None, opens=True, opens_existing=False, slow=b"slow\0", patience=None):
        self.bug, self.opens, self.opens_existing = bug, opens, opens_existing
        self.slow, self.patience = slow, patience
        self.files, self.nodes, self.counts = {1: {}}, {1: 1}, {1: 1}
        self.unlinked = None
        self.held = None

    def links(self, ino):
        """How many names a file has; a directory has one link."""
        if isinstance(self.files[ino], dict):
            return 1
        return sum(list(names.values()).count(ino) for names in self.files.values() if isinstance(names, dict))

    def attr(self, ino):
        """struct fuse_attr."""
        file = self.files[ino]
        mode, size = (0o40755, 0) if isinstance(file, dict) else (0o100644, len(file))
        return struct.pack("<QQQQQQIIIIIIIIII", ino, size, 0, 0, 0, 0, 0, 0, 0, mode, self.links(ino), 0, 0, 0, 4096, 0)

    def entry(self, ino, is_counted=True):
        """struct fuse_entry_out: the name is valid for a second, and the lookup is counted."""
        node = next((node for node, of in self.nodes.items() if of == ino), ino)
        if self.bug in ("node reused", "two generations") and self.unlinked:
            node = self.unlinked
        if self.bug == "root given":
            node, is_counted = 1, False
        if is_counted:
            self.nodes[node] = ino
            self.counts[node] = self.counts.get(node, 0) + 1
        generation = 1 if self.bug == "two generations" and self.unlinked else 0
        return struct.pack("<QQQQII", node, generation, 1, 0, 0, 0) + self.attr(ino)

    def make(self, directory, name, file):
        """A new file under a name; its inode number."""
        if name in directory:
            raise FileExistsError(errno.EEXIST, name)
        ino = max(self.files) + 1
        self.files[ino], directory[name] = file, ino
        return ino

    def create(self, directory, name):
        """The inode number of the file that CREATE opens: a new one, or one that is there, as open(2) with O_CREAT."""
        if not self.opens_existing or name not in directory:
            return self.make(directory, name, bytearray())
        ino = directory[name]
        if self.bug == "a file is a directory" or (isinstance(self.files[ino], dict) and self.bug != "a directory is opened"):
            raise IsADirectoryError(errno.EISDIR, name)
        return ino

    def is_within(self, ino, top):
        """Whether a directory is another one, or below that."""
        below = self.files[top]
        return ino == top or (isinstance(below, dict) and any(self.is_within(ino, inner) for inner in below.values()))

    def rename(self, directory, old, new_directory, new):
        """What is moved replaces nothing, a file by a file, or an empty directory by a directory."""
        if not all(isinstance(self.files[ino], dict) for ino in (directory, new_directory)):
            raise NotADirectoryError(errno.ENOTDIR, "")
        moved, there = self.files[directory][old], self.files[new_directory].get(new)
        is_directory = isinstance(self.files[moved], dict)
        if is_directory and self.is_within(new_directory, moved):
            raise OSError(errno.EINVAL, "")
        if there == moved:
            return
        if there is not None and isinstance(self.files[there], dict):
            above = self.is_within(directory, there) or self.bug == "any directory is above"
            if above or is_directory and self.files[there]:
                raise OSError(errno.ENOTEMPTY, "")
            if not is_directory:
                raise OSError(errno.EISDIR, "")
        elif there is not None and is_directory:
            raise NotADirectoryError(errno.ENOTDIR, "")
        del self.files[directory][old]
        self.files[new_directory][new] = moved

    def forget(self, node, count):
        self.counts[node] -= count
        if self.counts[node] == 0:
            del self.counts[node], self.nodes[node]

    def perform(self, opcode, node, body):
        """The body of a reply."""
        if opcode == INIT:
            return agreement()
        if node not in self.nodes:
            raise OSError(errno.ESTALE, "")
        ino = self.nodes[node]
        file = self.files[ino]
        if opcode in (LOOKUP, MKDIR, CREATE, UNLINK, RMDIR, LINK):
            return self.perform_on_name(opcode, file, body)
        if opcode == RENAME:
            old, new = (name + b"\0" for name in body[8:].split(b"\0")[:2])
            self.rename(ino, old, self.nodes[struct.unpack_from("<Q", body)[0]], new)
            return b""
        if opcode == GETATTR:
            other = self.bug == "another file" and node == max(self.nodes) and node > 2
            return bytes(16) + self.attr(2 if other else ino) + bytes(8 if self.bug == "wrong length" else 0)
        if opcode in (OPEN, OPENDIR, READDIR, READDIRPLUS) and isinstance(file, dict) != (opcode != OPEN):
            raise OSError(errno.EISDIR if opcode == OPEN else errno.ENOTDIR, "")
        if opcode == OPEN or (opcode == OPENDIR and self.opens):
            return struct.pack("<QII", 7 if opcode == OPENDIR else ino, 0, 0)
        if opcode == READ:
            offset, size = struct.unpack_from("<QI", body, 8)
            return bytes(file[offset:offset + size])
        if opcode == WRITE:
            offset, size = struct.unpack_from("<QI", body, 8)
            file.extend(bytes(max(0, offset - len(file)) if size else 0))
            file[offset:offset + size] = body[40:]
            return struct.pack("<II", size, 0)
        if opcode in (READDIR, READDIRPLUS):
            return self.records(file, struct.unpack_from("<Q", body, 8)[0], opcode == READDIRPLUS)
        if opcode in (RELEASE, RELEASEDIR):
            return b""
        raise OSError(errno.ENOSYS, "")

    def perform_on_name(self, opcode, directory, body):
        if not isinstance(directory, dict):
            raise OSError(errno.ENOTDIR, "")
        if opcode == LOOKUP:
            return self.entry(directory[body])
        if opcode == MKDIR:
            return self.entry(self.make(directory, body[8:], {}))
        if opcode in (UNLINK, RMDIR):
            self.remove(opcode, directory, body)
            return b""
        if opcode == LINK:
            ino = self.nodes[struct.unpack_from("<Q", body)[0]]
            if body[8:] in directory:
                raise FileExistsError(errno.EEXIST, "")
            directory[body[8:]] = ino
            return self.entry(ino)
        made = self.create(directory, body[16:])
        return self.entry(made, self.bug != "count lost") + struct.pack("<QII", made, 0, 0)

    def remove(self, opcode, directory, name):
        file = self.files[directory[name]]
        if isinstance(file, dict) != (opcode == RMDIR):
            raise OSError(errno.ENOTDIR if opcode == RMDIR else errno.EISDIR, "")
        if opcode == RMDIR and file:
            raise OSError(errno.ENOTEMPTY, "")
        self.unlinked = directory.pop(name)

    def records(self, names, after, has_entries):
        """struct fuse_dirent of each name behind an offset, behind its entry or not: the K-th name has offset K."""
        said = b""
        for offset, (name, ino) in enumerate(names.items(), 1):
            if offset > after:
                kind = 4 if isinstance(self.files[ino], dict) else 8
                said += self.entry(ino) if has_entries else b""
                said += struct.pack("<QQII", ino, offset, len(name) - 1, kind) + name[:-1] + bytes(-(len(name) - 1) % 8)
        return said

    def answer(self, opcode, unique, node, body):
        """The frame of the reply to a request that is performed now."""
        try:
            return reply(unique, self.perform(opcode, node, body))
        except KeyError:
            return reply(unique, error=errno.ENOENT)
        except OSError as fault:
            return reply(unique, error=fault.errno)

    def frames(self, opcode, unique, node, body):
        """The frames that are sent once a request has come."""
        if opcode in (FORGET, BATCH_FORGET):
            pairs = [(node, *struct.unpack("<Q", body))] if opcode == FORGET else struct.iter_unpack("<QQ", body[8:])
            for pair in pairs:
                self.forget(*pair)
            return []
        held, self.held = self.held, None
        if opcode == INTERRUPT:
            if held is None or held[1] != struct.unpack("<Q", body)[0]:
                self.held = held
                return [reply(unique, error=errno.EAGAIN)]
            self.held = held if self.bug == "reply after EINTR" else None
            return [reply(held[1], error=errno.EINTR)]
        said = [self.answer(*held)] if held else []
        if opcode == LOOKUP and body == self.slow:
            self.held = (opcode, unique, node, body)
            return said
        said.append(self.answer(opcode, unique, node, body))
        if opcode in (OPENDIR, RELEASEDIR) and self.bug in OPENDIR_BUGS:
            name, what = self.bug.split()
            if name == ("OPENDIR" if opcode == OPENDIR else "RELEASEDIR"):
                return {"twice": said * 2, "length": [reply(unique, said[-1][16:] + bytes(8))],
                        "error": [struct.pack("<IiQ", 16, 5, unique), *said]}[what]
        if opcode == GETATTR and self.bug == "reply twice":
            said.append(said[-1])
        if opcode == GETATTR and self.bug == "reply to nothing":
            said.append(reply(1000))
        return said

    def serve(self, connection):
        """Answers each request until the end of the connection. Gives the requests, each its opcode, node and body."""
        requests = []

        def wait():
            while self.held and not select.select([connection], [], [], self.patience)[0]:
                held, self.held = self.held, None
                send(connection, self.answer(*held))

        for opcode, unique, node, body in received(connection, wait):
            requests.append((opcode, node, body))
            send(connection, *self.frames(opcode, unique, node, body))
        return requests


def send(connection, *parts):
    """Sends each part by a write of its own. What the other end does not take is lost."""
    try:
        for part in parts:
            connection.sendall(part)
    except OSError:
        pass


def exactly(connection, size):
    """So many bytes, or fewer where the connection ends."""
    said = b""
    while len(said) < size and (part := connection.recv(size - len(said))):
        said += part
    return said


def received(connection, wait=lambda: None):
    """Each request that comes, cut by its length: its opcode, unique, node and body."""
    try:
        while (wait(), len(head := exactly(connection, 40)) == 40)[1]:
            length, opcode, unique, node = struct.unpack_from("<IIQQ", head)
            yield opcode, unique, node, exactly(connection, length - 40)
    except ConnectionResetError:
        return


def main():
    listener = socket.socket(socket.AF_UNIX)
    listener.bind(f"{sys.argv[1]}.new")
    listener.listen()
    os.rename(f"{sys.argv[1]}.new", sys.argv[1])
    bug = sys.argv[2] if len(sys.argv) > 2 else None
    Server(bug, opens_existing=bug in OPENING_BUGS, slow=b"c\0", patience=0.05).serve(listener.accept()[0])


if __name__ == "__main__":
    main()
