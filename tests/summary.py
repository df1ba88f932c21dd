#!/usr/bin/env python3
"""The table of opcodes of captures, by what docs/CHECK.md says of it. The program is not asked.

    summary.py [--json] FILE             prints the table
    summary.py --program PROGRAM FILE..  compares it with what `check --summary` of the program prints above the counts, in
                                         words and as JSON; a line for each capture, and status 1 where one differs
"""
import json
import re
import struct
import subprocess
import sys
from collections import defaultdict
from fractions import Fraction

from fuse_frames import NAMES

NO_REPLY = {"FORGET", "BATCH_FORGET", "NOTIFY_REPLY"}
HEADING = "opcode requests replies errors median p90 max"
KEYS = HEADING.split()
OTHERS = re.compile(r'line \d+: not judged from here on: |requests |faults: |{"event":"(check|unjudged|counts)"')


class Opcode:
    """The counts of an opcode, and how long its replies took."""

    def __init__(self):
        self.requests = self.replies = self.errors = 0
        self.times = []

    def no_longer_for(self, share):
        """The smallest time such that at least this share of the times are no longer; None where there is none."""
        enough = [time for time in self.times
                  if Fraction(sum(other <= time for other in self.times), len(self.times)) >= share]
        return min(enough, default=None)

    def row(self):
        shares = Fraction(1, 2), Fraction(9, 10), Fraction(1)
        return [self.requests, self.replies, self.errors, *map(self.no_longer_for, shares)]


class Summary:
    """The table of a capture."""

    def __init__(self):
        self.waiting = {}
        self.opcodes = defaultdict(Opcode)

    def read(self, frame, time):
        code, unique = struct.unpack_from("<IQ", frame, 4) if len(frame) >= 40 else (None, None)
        name = NAMES.get(code, "unknown")
        self.opcodes[name].requests += 1
        if code is not None and name not in NO_REPLY:
            self.waiting[unique] = name, time

    def write(self, frame, refusal, time):
        if len(frame) < 16 or refusal == "ENOENT":
            return
        length, error, unique = struct.unpack_from("<IiQ", frame)
        if length != len(frame) or not -512 < error <= 0 or unique not in self.waiting or unique == 0:
            return
        name, asked = self.waiting.pop(unique)
        opcode = self.opcodes[name]
        opcode.replies += 1
        opcode.errors += error != 0
        if asked is not None and time is not None:
            opcode.times.append(max(0, time - asked))

    def line(self, text):
        words = text.rstrip("\r").split(" ")
        if words[0] not in ("<", ">"):
            return
        time = int(words.pop(1)[1:]) if words[1].startswith("@") else None
        frame = bytes.fromhex(words[1])
        if words[2:] and words[2].startswith("+"):
            frame += bytes(int(words.pop(2)))
        if words[0] == ">":
            self.read(frame, time)
        else:
            self.write(frame, "".join(words[2:]), time)

    def rows(self):
        """Each opcode that was read, in the order of their numbers, and then those that are not known."""
        order = [*(NAMES[code] for code in sorted(NAMES)), "unknown"]
        return [[name, *self.opcodes[name].row()] for name in order if name in self.opcodes]

    def words(self):
        return [HEADING, *(" ".join("-" if cell is None else str(cell) for cell in row) for row in self.rows())]

    def objects(self):
        return [json.dumps({"event": "opcode", **dict(zip(KEYS, row))}, separators=(",", ":")) for row in self.rows()]


def summary_of(file):
    summary = Summary()
    with open(file) as lines:
        for line in lines:
            summary.line(line.rstrip("\n"))
    return summary


def printed(program, *words):
    """What `check` prints between the lines on what is not judged, or the first object, and the counts."""
    lines = subprocess.run([program, "check", "--summary", *words], capture_output=True, text=True).stdout.splitlines()
    return [line for line in lines if not OTHERS.match(line)]


def compare(program, file):
    summary = summary_of(file)
    return printed(program, file) == summary.words() and printed(program, "--json", file) == summary.objects()


def main(words):
    if words[0] == "--program":
        wrong = 0
        for file in words[2:]:
            same = compare(words[1], file)
            wrong += not same
            print(f"{'ok' if same else 'not ok'} {file}")
        return 1 if wrong else 0
    summary = summary_of(words[-1])
    print("\n".join(summary.objects() if words[0] == "--json" else summary.words()))
    return 0


if __name__ == "__main__":
    sys.exit(main(sys.argv[1:]))
