#!/usr/bin/env python3
"""Draws a script of calls by a seed, for `fuseworld drive --beside` on a server of an empty folder.

    draw_calls.py SEED [CALLS]

Two directories and nine files are made, opened, written, moved, linked and removed, with errors in between. What Linux
never sends is left out: calls on the wrong kind, RENAME onto the same file, CREATE of a file that is there.
"""
import random
import sys

DIRECTORIES = ["/d", "/e"]
FILES = [f"{directory}/{name}" for directory in ("", "/d", "/e") for name in "fgh"]


def parent(path):
    return path.rsplit("/", 1)[0]


class Drawing:
    """The lines so far, the open files by call number, the directories, and the inode of each name."""

    def __init__(self, seed):
        self.random = random.Random(seed)
        self.lines, self.calls, self.open = [], 0, []
        self.directories, self.names = {""}, {}

    def call(self, text):
        self.lines.append(f"call {text}")
        self.calls += 1

    def is_there(self, path):
        return path in self.names and parent(path) in self.directories

    def make(self, path, _other):
        if self.is_there(path):
            return
        self.call(f"create {path}")
        if parent(path) in self.directories:
            self.names[path] = self.calls
            self.open.append(self.calls)

    def open_file(self, path, _other):
        self.call(f"open {path}")
        if self.is_there(path):
            self.open.append(self.calls)

    def use(self, _path, _other):
        if not self.open:
            return
        handle, offset = self.random.choice(self.open), self.random.choice([0, 1, 100, 3990, 5000])
        if self.random.random() < 0.5:
            self.call(f"read {handle} {offset} {self.random.choice([1, 300, 4096])}")
        else:
            self.call(f"write {handle} {offset} {self.random.randbytes(self.random.choice([1, 10, 200])).hex()}")

    def close(self, _path, _other):
        if self.open:
            self.call(f"close {self.open.pop(self.random.randrange(len(self.open)))}")

    def unlink(self, path, _other):
        self.call(f"unlink {path}")
        self.names.pop(path, None)

    def rename(self, path, other):
        if path == other or (self.is_there(path) and self.names[path] == self.names.get(other)):
            return
        self.call(f"rename {path} {other}")
        if self.is_there(path) and parent(other) in self.directories:
            self.names[other] = self.names.pop(path)

    def link(self, path, other):
        self.call(f"link {path} {other}")
        if self.is_there(path) and parent(other) in self.directories:
            self.names.setdefault(other, self.names[path])

    def directory(self, _path, _other):
        path = self.random.choice(DIRECTORIES)
        if self.random.random() < 0.7:
            self.call(f"mkdir {path}")
            self.directories.add(path)
        else:
            self.call(f"rmdir {path}")
            if not any(parent(name) == path for name in self.names):
                self.directories.discard(path)

    def look(self, path, _other):
        self.call(self.random.choice([f"stat {path}", "list / 0", f"listplus {self.random.choice(DIRECTORIES)} 0"]))

    def tick(self, _path, _other):
        self.lines.append(f"tick {self.random.choice([500, 2000])}")


def draw(seed, calls):
    """The lines of a script of so many calls."""
    drawing = Drawing(seed)
    kinds = [(drawing.make, 4), (drawing.open_file, 2), (drawing.use, 6), (drawing.close, 2), (drawing.unlink, 2), (drawing.rename, 3),
             (drawing.link, 2), (drawing.directory, 4), (drawing.look, 4), (drawing.tick, 1)]
    while drawing.calls < calls:
        [(kind, _)] = drawing.random.choices(kinds, [weight for _, weight in kinds])
        kind(*drawing.random.choices(FILES, k=2))
    return drawing.lines


if __name__ == "__main__":
    print("\n".join(draw(int(sys.argv[1]), int(sys.argv[2]) if len(sys.argv) > 2 else 60)))
