"""Frames of linux/fuse.h, as bytes."""
import struct

OPCODES = {
    "LOOKUP": 1, "FORGET": 2, "GETATTR": 3, "SETATTR": 4, "READLINK": 5, "SYMLINK": 6, "MKNOD": 8, "MKDIR": 9, "UNLINK": 10,
    "RMDIR": 11, "RENAME": 12, "LINK": 13, "OPEN": 14, "READ": 15, "WRITE": 16, "STATFS": 17, "RELEASE": 18, "FSYNC": 20,
    "SETXATTR": 21, "GETXATTR": 22, "LISTXATTR": 23, "REMOVEXATTR": 24, "FLUSH": 25, "INIT": 26, "OPENDIR": 27, "READDIR": 28,
    "RELEASEDIR": 29, "FSYNCDIR": 30, "GETLK": 31, "SETLK": 32, "SETLKW": 33, "ACCESS": 34, "CREATE": 35, "INTERRUPT": 36,
    "BMAP": 37, "DESTROY": 38, "IOCTL": 39, "POLL": 40, "NOTIFY_REPLY": 41, "BATCH_FORGET": 42, "FALLOCATE": 43,
    "READDIRPLUS": 44, "RENAME2": 45, "LSEEK": 46, "COPY_FILE_RANGE": 47, "SETUPMAPPING": 48, "REMOVEMAPPING": 49,
    "SYNCFS": 50, "TMPFILE": 51, "STATX": 52, "COPY_FILE_RANGE_64": 53,
}
NAMES = {code: name for name, code in OPCODES.items()}
DIRECTORY, REGULAR, LINK = 0o040755, 0o100644, 0o120777
EIO, EAGAIN, ENOENT, ENOSYS = 5, 11, 2, 38


def request(opcode, unique, nodeid, body=b"", length=None, extensions=0):
    """struct fuse_in_header, and a body. `length` stands in place of the frame's own."""
    code = OPCODES.get(opcode, opcode)
    size = 40 + len(body) if length is None else length
    return struct.pack("<IIQQIIIHH", size, code, unique, nodeid, 1000, 1000, 77, extensions, 0) + body


def reply(unique, body=b"", error=0, length=None):
    """struct fuse_out_header, and a body. `error` is the errno, or 0."""
    return struct.pack("<IiQ", 16 + len(body) if length is None else length, -error, unique) + body


def notification(code, body=b"", length=None):
    return struct.pack("<IiQ", 16 + len(body) if length is None else length, code, 0) + body


def text(*names):
    return b"".join(name.encode() + b"\0" for name in names)


def numbers(form, *values):
    return struct.pack("<" + form, *values)


def attributes(ino, mode, size=0):
    """struct fuse_attr: 88 bytes."""
    return numbers("QQQQQQIIIIIIIIII", ino, size, 0, 1, 1, 1, 0, 0, 0, mode, 1, 0, 0, 0, 4096, 0)


def attributes_reply(ino, mode, size=0):
    """struct fuse_attr_out"""
    return numbers("QII", 1, 0, 0) + attributes(ino, mode, size)


def entry(nodeid, ino, mode=REGULAR, generation=0, size=0):
    """struct fuse_entry_out: 128 bytes."""
    return numbers("QQQQII", nodeid, generation, 1, 1, 0, 0) + attributes(ino, mode, size)


def opened(handle):
    """struct fuse_open_out"""
    return numbers("QII", handle, 0, 0)


def record(name, ino, offset, kind=8):
    """struct fuse_dirent, filled up to eight bytes"""
    data = numbers("QQII", ino, offset, len(name), kind) + name.encode()
    return data + b"\0" * (-len(data) % 8)


def init_request(unique=2, flags=0, flags2=0, major=7, minor=45):
    """struct fuse_init_in, with eleven words that are not used"""
    return request("INIT", unique, 0, numbers("IIIII", major, minor, 131072, flags, flags2) + b"\0" * 44)


def init_reply(unique=2, flags=0, flags2=0, major=7, minor=45, max_write=8192, max_pages=0):
    """struct fuse_init_out: 64 bytes."""
    body = numbers("IIIIHHIIHHI", major, minor, 131072, flags, 12, 9, max_write, 1, max_pages, 0, flags2)
    return reply(unique, body.ljust(64, b"\0"))


def read_body(handle, size=4096, offset=0):
    """struct fuse_read_in"""
    return numbers("QQIIQII", handle, offset, size, 0, 0, 0, 0)


def write_body(handle, data, size=None):
    """struct fuse_write_in, and the data"""
    return numbers("QQIIQII", handle, 0, len(data) if size is None else size, 0, 0, 0, 0) + data


def release_body(handle):
    """struct fuse_release_in"""
    return numbers("QIIQ", handle, 0, 0, 0)


def copy_body(handle, node, other, size):
    """struct fuse_copy_file_range_in"""
    return numbers("QQQQQQQ", handle, 0, node, other, 0, size, 0)


def getattr_body(handle=None):
    """struct fuse_getattr_in, with GETATTR_FH where there is a handle"""
    return numbers("IIQ", 0 if handle is None else 1, 0, handle or 0)


def setattr_body(handle=None):
    """struct fuse_setattr_in, with FATTR_FH where there is a handle"""
    return numbers("IIQ", 0 if handle is None else 64, 0, handle or 0).ljust(88, b"\0")
