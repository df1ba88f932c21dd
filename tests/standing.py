"""How many nodes are counted and files are open at the end of a capture, by what docs/CHECK.md says of both."""
import struct
from collections import Counter

from fuse_frames import OPCODES

ENTRIES = {"LOOKUP", "SYMLINK", "MKNOD", "MKDIR", "LINK"}
OPENINGS = {"OPEN", "OPENDIR"}
CREATIONS = {"CREATE", "TMPFILE"}
NAMES = {code: name for name, code in OPCODES.items()}
KINDS = {0o010000, 0o020000, 0o040000, 0o060000, 0o100000, 0o120000, 0o140000}


class Standing:
    """The counts of a capture's nodes, and how often its files are open."""

    def __init__(self):
        self.waiting = {}
        self.nodes = Counter()
        self.files = Counter()
        self.entries = 0
        self.forgotten = 0

    def forget(self, node, lookups):
        self.forgotten += lookups
        self.nodes[node] = max(0, self.nodes[node] - lookups)

    def given(self, node, ino):
        self.entries += 1
        self.nodes[node] += 1

    def opened(self, file):
        self.files[file] += 1

    def released(self, file):
        self.files[file] = max(0, self.files[file] - 1)

    def read(self, frame):
        if len(frame) < 40 or struct.unpack_from("<I", frame)[0] != len(frame):
            return
        code, unique, node = struct.unpack_from("<IQQ", frame, 4)
        name, body = NAMES.get(code), frame[40:]
        if name == "FORGET" and len(body) == 8:
            self.forget(node, *struct.unpack("<Q", body))
        elif name == "BATCH_FORGET" and len(body) >= 8 and len(body) == 8 + 16 * struct.unpack_from("<I", body)[0]:
            for at in range(8, len(body), 16):
                self.forget(*struct.unpack_from("<QQ", body, at))
        elif name in ("RELEASE", "RELEASEDIR") and len(body) == 24:
            self.released((name == "RELEASEDIR", node, *struct.unpack_from("<Q", body)))
        if name not in ("FORGET", "BATCH_FORGET", "INTERRUPT"):
            self.waiting[unique] = name, node, body

    def entry(self, body):
        """The node that an entry gives, if it gives one."""
        node = struct.unpack_from("<Q", body)[0]
        if node not in (0, 1):
            self.given(node, *struct.unpack_from("<Q", body, 40))
        return node

    def records(self, body):
        while len(body) >= 152:
            size = struct.unpack_from("<I", body, 144)[0]
            if size and body[152:152 + size] not in (b".", b".."):
                self.entry(body)
            body = body[(152 + size + 7) // 8 * 8:]

    def created(self, body):
        """CREATE and TMPFILE open what the kernel is certain to count: a regular file of less than 2^63 bytes."""
        node = self.entry(body)
        size, mode = struct.unpack_from("<Q", body, 48)[0], struct.unpack_from("<I", body, 100)[0]
        if node not in (0, 1) and mode & 0o170000 == 0o100000 and size < 1 << 63:
            self.opened((False, node, *struct.unpack_from("<Q", body, 128)))

    def write(self, frame, refusal):
        unique = struct.unpack_from("<Q", frame.ljust(16, b"\0"), 8)[0]
        if len(frame) < 16 or unique == 0 or refusal == "ENOENT" or unique not in self.waiting:
            return
        name, node, _ = self.waiting.pop(unique)
        body = frame[16:]
        if refusal or struct.unpack_from("<i", frame, 4)[0]:
            return
        if name in ENTRIES and len(body) == 128:
            self.entry(body)
        elif name in CREATIONS and len(body) == 144:
            self.created(body)
        elif name in OPENINGS and len(body) == 16:
            self.opened((name == "OPENDIR", node, *struct.unpack_from("<Q", body)))
        elif name == "READDIRPLUS":
            self.records(body)

    def line(self, text):
        words = text.rstrip("\r").split(" ")
        if words[0] not in ("<", ">"):
            return
        words = words[:1] + [word for word in words[1:] if not word.startswith("@")]
        frame = bytes.fromhex(words[1])
        if words[2:] and words[2].startswith("+"):
            frame += bytes(int(words.pop(2)))
        if words[0] == ">":
            self.read(frame)
        else:
            self.write(frame, "".join(words[2:]))

    def counts(self):
        return sum(count > 0 for count in self.nodes.values()), sum(count > 0 for count in self.files.values())
