"""What `fuseworld check` says behind a fault of the lines before, by what docs/CHECK.md says of it."""
import re
import struct

from standing import NAMES, Standing

REMEMBERED = 4096
AGAIN = 1 << 63
WITHOUT_REPLY = {"FORGET", "INTERRUPT", "NOTIFY_REPLY", "BATCH_FORGET"}
DIRECTORIES = {"READDIR", "READDIRPLUS", "RELEASEDIR", "FSYNCDIR", "OPENDIR"}
# What a fault is about, and the pairs of a kind and of what is said of it.
REQUEST, NODE, FILE = ("read", "answered"), ("given", "forgotten"), ("opened", "released")


class Past(Standing):
    """What the lines of a capture leave that later faults may be about."""

    def __init__(self):
        super().__init__()
        self.number = 0
        self.traces = []
        self.is_asked_again = self.is_malformed = False
        self.is_judged = True

    def trace(self, kind, key, words, behind=""):
        self.traces.append((kind, key, f"; {words} at line {self.number}{behind}"))

    def forget(self, node, lookups):
        super().forget(node, lookups)
        self.trace("forgotten", node, "forgotten", f", count {self.nodes[node]}")

    def given(self, node, ino):
        super().given(node, ino)
        self.trace("given", node, "given", f", inode {ino}, count {self.nodes[node]}")

    def opened(self, file):
        super().opened(file)
        self.trace("opened", file, "opened")

    def released(self, file):
        super().released(file)
        self.trace("released", file, "released")

    def read(self, frame):
        if len(frame) < 40:
            return
        code, unique = struct.unpack_from("<IQ", frame, 4)
        name = NAMES.get(code)
        if self.is_asked_again and unique >= AGAIN:
            self.waiting.pop(unique - AGAIN, None)
            self.waiting[unique] = name, struct.unpack_from("<Q", frame, 16)[0], frame[40:]
            return
        if name not in ("INTERRUPT", "NOTIFY_REPLY") and not (self.is_malformed and name in WITHOUT_REPLY):
            word = name if name and not self.is_malformed else "request"
            self.trace("read", unique, f"{word} read")
        super().read(frame)

    def write(self, frame, refusal):
        if len(frame) < 16 or self.is_malformed:
            return
        code, unique = struct.unpack_from("<IQ", frame, 4)
        if unique == 0:
            self.is_asked_again |= code == 7 and not refusal
        elif unique % 2 == 0 or unique in self.waiting:
            self.trace("answered", unique, "answered")
        super().write(frame, refusal)

    def line(self, text, faults=()):
        """The next line, and its faults."""
        self.number += 1
        self.is_malformed = any(": malformed re" in fault for fault in faults)
        if self.is_judged:
            super().line(text)
        self.is_judged &= not any(fault.startswith("not judged from here on") for fault in faults)

    def uses_directory(self, text):
        """Whether the open file that a line is about is a directory."""
        words = [word for word in text.split() if not word.startswith("@")]
        code, unique = struct.unpack_from("<IQ", bytes.fromhex(words[1]), 4)
        name = NAMES.get(code) if words[0] == ">" else self.waiting.get(unique, (None,))[0]
        return name in DIRECTORIES

    def about(self, text, fault):
        """The kinds of what is said of a fault of a line, and what it is about; or None."""
        words = fault.split(": ", 2)[2:]
        if not words:
            return None
        if found := re.fullmatch(r"node (\d+) file handle (\d+)", words[0]):
            return FILE, (self.uses_directory(text), int(found[1]), int(found[2]))
        if found := re.match(r"node (\d+)", words[0]):
            return NODE, int(found[1])
        if found := re.fullmatch(r"(?:.* of|unique|[A-Z_0-9]+) (\d+)", words[0]):
            return REQUEST, int(found[1])
        return None

    def behind(self, text, fault):
        """What stands behind a fault of the next line."""
        if about := self.about(text, fault):
            kinds, key = about
            last = {kind: words for kind, other, words in self.traces[-REMEMBERED:] if other == key and kind in kinds}
            return "".join(last.get(kind, "") for kind in kinds)
        return ""
