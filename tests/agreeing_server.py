#!/usr/bin/env python3
"""A FUSE server of a folder that agrees to all that Linux offers: agreeing_server.py FOLDER /dev/fd/N [WORD ..].

It knows each opcode of 7.45 that a mount sends, and sends notifications of each kind but RESEND. Requests of locks that wait
are answered later, or by EINTR where their INTERRUPT comes. With the word `no-open` OPEN and OPENDIR are ENOSYS; with
`old` it agrees to 7.12, whose frames are shorter.
"""
import collections
import errno
import os
import select
import stat
import struct
import sys

NAMES = """LOOKUP FORGET GETATTR SETATTR READLINK SYMLINK . MKNOD MKDIR UNLINK RMDIR RENAME LINK OPEN READ WRITE STATFS RELEASE .
FSYNC SETXATTR GETXATTR LISTXATTR REMOVEXATTR FLUSH INIT OPENDIR READDIR RELEASEDIR FSYNCDIR GETLK SETLK SETLKW ACCESS CREATE
INTERRUPT BMAP DESTROY IOCTL POLL NOTIFY_REPLY BATCH_FORGET FALLOCATE READDIRPLUS RENAME2 LSEEK COPY_FILE_RANGE . . SYNCFS
TMPFILE STATX COPY_FILE_RANGE_64""".split()
OPCODES = {number: name for number, name in enumerate(NAMES, 1)}
# FUSE_WRITEBACK_CACHE, and io_uring, which goes beside the device.
NOT_AGREED, NOT_AGREED2 = 1 << 16, 1 << 9
INVAL_INODE, INVAL_ENTRY, STORE, RETRIEVE, DELETE, INC_EPOCH, PRUNE = 2, 3, 4, 5, 6, 8, 9
MODE, UID, GID, SIZE, ATIME, MTIME = (1 << bit for bit in range(6))
ROOT = 1
LATER = 30  # requests after which a lock that waits is answered, if none comes for a while before


def text(body, count):
    """The first names of a body, without their NULs."""
    return body.split(b"\0")[:count]


def number(body, place, kind="Q"):
    return struct.unpack_from("<" + kind, body, place)[0]


class Node:
    def __init__(self, file, lookups):
        self.file, self.lookups = file, lookups


class Agreeing:
    def __init__(self, folder, end, words):
        self.end, self.words = end, words
        self.nodes = {ROOT: Node(os.open(folder, os.O_PATH), 1)}
        self.known, self.next, self.count = {}, ROOT + 1, 0
        self.files, self.later = {}, collections.deque()
        self.names = collections.deque(maxlen=8)

    # Frames.

    def write(self, unique, body=b"", error=0):
        try:
            os.write(self.end, struct.pack("<IiQ", 16 + len(body), error, unique) + body)
        except BrokenPipeError:
            pass

    def attributes(self, found):
        times = [stamp % (1 << 64) for stamp in (int(found.st_atime), int(found.st_mtime), int(found.st_ctime))]
        rest = [found.st_nlink, found.st_uid, found.st_gid, found.st_rdev, found.st_blksize, 0]
        return struct.pack("<6Q10I", found.st_ino, found.st_size, found.st_blocks, *times, 0, 0, 0, found.st_mode, *rest)

    def entry(self, parent, name):
        return self.entry_of(os.open(name, os.O_PATH | os.O_NOFOLLOW, dir_fd=self.nodes[parent].file), (parent, name))

    def entry_of(self, file, place):
        found = os.fstat(file)
        key = found.st_dev, found.st_ino
        node = self.known.get(key)
        if node is None:
            node, self.next = self.next, self.next + 1
            self.known[key], self.nodes[node] = node, Node(file, 0)
        else:
            os.close(file)
        self.nodes[node].lookups += 1
        self.names.append((node, *place))
        return struct.pack("<QQQQII", node, 0, 1, 1, 0, 0) + self.attributes(found)

    def forget(self, node, lookups):
        held = self.nodes[node]
        held.lookups -= lookups
        if held.lookups == 0:
            found = os.fstat(held.file)
            del self.known[found.st_dev, found.st_ino], self.nodes[node]
            os.close(held.file)

    def path(self, node):
        return f"/proc/self/fd/{self.nodes[node].file}"

    def opened(self, node, flags):
        file = os.open(self.path(node), flags & ~(os.O_CREAT | os.O_NOFOLLOW | os.O_EXCL | 0o40000))
        self.files[file] = node
        return struct.pack("<QII", file, 0, 0)

    # Opcodes: each gives a body, or raises OSError.

    def do_LOOKUP(self, node, body):
        return self.entry(node, text(body, 1)[0])

    def do_GETATTR(self, node, _):
        return struct.pack("<QII", 1, 0, 0) + self.attributes(os.fstat(self.nodes[node].file))

    def do_SETATTR(self, node, body):
        valid, path = number(body, 0, "I"), self.path(node)
        if valid & MODE:
            os.chmod(path, number(body, 68, "I") & 0o7777)
        if valid & (UID | GID):
            os.chown(path, number(body, 76, "I") if valid & UID else -1, number(body, 80, "I") if valid & GID else -1)
        if valid & SIZE:
            os.truncate(path, number(body, 16))
        if valid & (ATIME | MTIME):
            found = os.fstat(self.nodes[node].file)
            accessed = number(body, 32) if valid & ATIME else int(found.st_atime)
            changed = number(body, 40) if valid & MTIME else int(found.st_mtime)
            os.utime(path, (accessed, changed))
        return self.do_GETATTR(node, body)

    def do_READLINK(self, node, _):
        return os.readlink(b"", dir_fd=self.nodes[node].file)

    def do_SYMLINK(self, node, body):
        name, target = text(body, 2)
        os.symlink(target, name, dir_fd=self.nodes[node].file)
        return self.entry(node, name)

    def do_MKNOD(self, node, body):
        name = text(body[16:], 1)[0]
        os.mknod(name, number(body, 0, "I"), number(body, 4, "I"), dir_fd=self.nodes[node].file)
        return self.entry(node, name)

    def do_MKDIR(self, node, body):
        name = text(body[8:], 1)[0]
        os.mkdir(name, number(body, 0, "I"), dir_fd=self.nodes[node].file)
        return self.entry(node, name)

    def do_UNLINK(self, node, body):
        os.unlink(text(body, 1)[0], dir_fd=self.nodes[node].file)
        return b""

    def do_RMDIR(self, node, body):
        os.rmdir(text(body, 1)[0], dir_fd=self.nodes[node].file)
        return b""

    def do_RENAME(self, node, body, names=8):
        old, new = text(body[names:], 2)
        os.rename(old, new, src_dir_fd=self.nodes[node].file, dst_dir_fd=self.nodes[number(body, 0)].file)
        return b""

    def do_RENAME2(self, node, body):
        if number(body, 8, "I"):
            raise OSError(errno.EINVAL, "flags")
        return self.do_RENAME(node, body, 16)

    def do_LINK(self, node, body):
        name = text(body[8:], 1)[0]
        os.link(self.path(number(body, 0)), name, dst_dir_fd=self.nodes[node].file, follow_symlinks=True)
        return self.entry(node, name)

    def do_OPEN(self, node, body):
        if "no-open" in self.words:
            raise OSError(errno.ENOSYS, "no-open")
        return self.opened(node, number(body, 0, "I"))

    do_OPENDIR = do_OPEN

    def do_CREATE(self, node, body):
        name = text(body[16:], 1)[0]
        flags, mode = struct.unpack_from("<II", body)
        file = os.open(name, flags & ~0o40000 | os.O_CREAT | os.O_NOFOLLOW, mode & 0o7777, dir_fd=self.nodes[node].file)
        entry = self.entry(node, name)
        self.files[file] = number(entry, 0)
        return entry + struct.pack("<QII", file, 0, 0)

    def do_TMPFILE(self, node, body):
        flags, mode = struct.unpack_from("<II", body)
        file = os.open(self.path(node), flags & ~0o40000 | os.O_TMPFILE, mode & 0o7777)
        entry = self.entry_of(os.open(f"/proc/self/fd/{file}", os.O_PATH), (ROOT, b"none"))
        self.files[file] = number(entry, 0)
        return entry + struct.pack("<QII", file, 0, 0)

    def borrowed(self, node, handle, flags):
        """The open file, or one for this request alone, and whether it is that."""
        return (handle, False) if handle in self.files else (os.open(self.path(node), flags), True)

    def do_READ(self, node, body):
        handle, offset, size = struct.unpack_from("<QQI", body)
        file, is_own = self.borrowed(node, handle, os.O_RDONLY)
        try:
            return os.pread(file, size, offset)
        finally:
            if is_own:
                os.close(file)

    def do_WRITE(self, node, body):
        handle, offset, size = struct.unpack_from("<QQI", body)
        file, is_own = self.borrowed(node, handle, os.O_WRONLY)
        try:
            return struct.pack("<II", os.pwrite(file, body[-size:] if size else b"", offset), 0)
        finally:
            if is_own:
                os.close(file)

    def do_STATFS(self, node, _):
        found = os.statvfs(self.path(node))
        return struct.pack("<5Q4I24x", found.f_blocks, found.f_bfree, found.f_bavail, found.f_files, found.f_ffree, found.f_bsize,
                           found.f_namemax, found.f_frsize, 0)

    def do_RELEASE(self, _, body):
        if self.files.pop(number(body, 0), None) is not None:
            os.close(number(body, 0))
        return b""

    do_RELEASEDIR = do_RELEASE

    def do_nothing(self, _node, _body):
        return b""

    do_FSYNC = do_FSYNCDIR = do_FLUSH = do_SETLK = do_SETLKW = do_ACCESS = do_DESTROY = do_SYNCFS = do_nothing

    def do_GETLK(self, _, body):
        return struct.pack("<QQII", 0, 0, 2, 0)

    def do_SETXATTR(self, node, body):
        size, flags = struct.unpack_from("<II", body)
        name = text(body[16:], 1)[0]
        os.setxattr(self.path(node), name, body[17 + len(name):17 + len(name) + size], flags)
        return b""

    def sized(self, value, size):
        if size == 0:
            return struct.pack("<II", len(value), 0)
        if len(value) > size:
            raise OSError(errno.ERANGE, "size")
        return value

    def do_GETXATTR(self, node, body):
        return self.sized(os.getxattr(self.path(node), text(body[8:], 1)[0]), number(body, 0, "I"))

    def do_LISTXATTR(self, node, body):
        names = os.listxattr(self.path(node))
        return self.sized(b"".join(name.encode() + b"\0" for name in names), number(body, 0, "I"))

    def do_REMOVEXATTR(self, node, body):
        os.removexattr(self.path(node), text(body, 1)[0])
        return b""

    def records(self, node, body, is_plus):
        offset, size = struct.unpack_from("<QI", body, 8)
        said = b""
        names = [b".", b"..", *sorted(os.listdir(os.fsencode(self.path(node))))]
        for place, name in enumerate(names[offset:], offset + 1):
            whole = 24 + (len(name) + 7) // 8 * 8 + (128 if is_plus else 0)
            if len(said) + whole > size:
                break
            record = struct.pack("<QQII", place, place, len(name), 0) + name + bytes(-len(name) % 8)
            if is_plus and name in (b".", b".."):
                record = bytes(128) + record
            elif is_plus:
                try:
                    record = self.entry(node, name) + record
                except OSError:
                    continue
            said += record
        return said

    def do_READDIR(self, node, body):
        return self.records(node, body, False)

    def do_READDIRPLUS(self, node, body):
        return self.records(node, body, True)

    def do_BMAP(self, _, body):
        return body[:8]

    def do_IOCTL(self, _node, _body):
        raise OSError(errno.ENOTTY, "ioctl")

    def do_POLL(self, _, body):
        return struct.pack("<II", number(body, 20, "I") & 5, 0)

    def do_FALLOCATE(self, node, body):
        handle, offset, length, mode = struct.unpack_from("<QQQI", body)
        if mode or handle not in self.files:
            raise OSError(errno.EOPNOTSUPP, "mode")
        os.posix_fallocate(handle, offset, length)
        return b""

    def do_LSEEK(self, node, body):
        handle, offset, whence = struct.unpack_from("<QQI", body)
        file, is_own = self.borrowed(node, handle, os.O_RDONLY)
        try:
            return struct.pack("<Q", os.lseek(file, offset, whence))
        finally:
            if is_own:
                os.close(file)

    def copied(self, node, body):
        source, place, other, sink, at, length = struct.unpack_from("<6Q", body)
        if source not in self.files or sink not in self.files:
            raise OSError(errno.EOPNOTSUPP, "no-open")
        return os.copy_file_range(source, sink, min(length, 1 << 30), place, at)

    def do_COPY_FILE_RANGE(self, node, body):
        return struct.pack("<II", self.copied(node, body), 0)

    def do_COPY_FILE_RANGE_64(self, node, body):
        return struct.pack("<Q", self.copied(node, body))

    def do_STATX(self, node, _):
        found = os.fstat(self.nodes[node].file)
        owner = found.st_nlink, found.st_uid, found.st_gid, found.st_mode
        head = struct.pack("<IIQIIIHHQQQQ", 0x7FF, found.st_blksize, 0, *owner, 0, found.st_ino, found.st_size, found.st_blocks, 0)
        times = b"".join(struct.pack("<qIi", int(stamp), 0, 0) for stamp in (found.st_atime, 0, found.st_ctime, found.st_mtime))
        return struct.pack("<QIIQQ", 1, 0, 0, 0, 0) + head + times + bytes(16 + 112)

    def do_INIT(self, _, body):
        flags = number(body, 12, "I") & ~NOT_AGREED
        if "old" in self.words:
            return struct.pack("<IIIIHHI", 7, 12, 65536, flags & 0xFFFF, 0, 0, 65536)
        flags2 = number(body, 16, "I") & ~NOT_AGREED2
        return struct.pack("<IIIIHHIIHHIIHH", 7, 45, 65536, flags, 12, 9, 65536, 1, 32, 0, flags2, 1, 0, 0) + bytes(20)

    # What comes.

    def notify(self):
        """A notification, whose kind is its turn's."""
        node, parent, name = self.names[0]
        turn = self.count // 40 % 8
        files = [one for one, _, _ in self.names if one in self.nodes and stat.S_ISREG(os.fstat(self.nodes[one].file).st_mode)]
        named = struct.pack("<QII", parent, len(name), turn == 2) + name + b"\0"
        if turn == 0:
            self.write(0, struct.pack("<QqQ", node, 0, 0), INVAL_INODE)
        elif turn in (1, 2):
            self.write(0, named, INVAL_ENTRY)
        elif turn == 3:
            self.write(0, struct.pack("<QQII", parent, node, len(name), 0) + name + b"\0", DELETE)
        elif turn == 4 and files:
            self.write(0, struct.pack("<QQII", files[0], 0, 4, 0) + b"1234", STORE)
        elif turn == 5 and files:
            self.write(0, struct.pack("<QQQII", self.count, files[-1], 0, 4096, 0), RETRIEVE)
        elif turn == 6:
            self.write(0, b"", INC_EPOCH)
        elif turn == 7:
            self.write(0, struct.pack("<IIQQ", 1, 0, 0, node), PRUNE)

    def answer(self, unique, opcode, node, body):
        try:
            said = getattr(self, f"do_{OPCODES[opcode]}")(node, body)
        except OSError as fault:
            self.write(unique, error=-(fault.errno if fault.errno < 512 else errno.EIO))
        except (KeyError, AttributeError):
            self.write(unique, error=-errno.ENOSYS)
        else:
            self.write(unique, said)

    def take(self, frame):
        _, opcode, unique, node, _, _, _, extensions, _ = struct.unpack_from("<IIQQIIIHH", frame)
        body, name = frame[40:len(frame) - 8 * extensions], OPCODES.get(opcode, ".")
        if name == "FORGET":
            self.forget(node, number(body, 0))
        elif name == "BATCH_FORGET":
            for place in range(number(body, 0, "I")):
                self.forget(*struct.unpack_from("<QQ", body, 8 + 16 * place))
        elif name == "INTERRUPT":
            place = next((later for later in self.later if later[1] == number(body, 0)), None)
            if place:
                self.later.remove(place)
                self.write(place[1], error=-errno.EINTR)
            else:
                self.write(unique, error=-errno.EAGAIN)
        elif name == "SETLKW":
            self.later.append((self.count + LATER, unique))
        elif name != "NOTIFY_REPLY":
            self.answer(unique, opcode, node, body)

    def run(self):
        while True:
            is_idle = self.later and not select.select([self.end], [], [], 0.05)[0]
            while self.later and (is_idle or self.later[0][0] <= self.count):
                self.write(self.later.popleft()[1])
            frame = os.read(self.end, 1 << 21)
            if not frame:
                return
            self.count += 1
            self.take(frame)
            if self.count % 40 == 0 and self.names and "old" not in self.words:
                self.notify()


def main():
    os.umask(0)
    folder, where, *words = sys.argv[1:]
    Agreeing(folder, int(where.rpartition("/")[2]), words).run()


main()
