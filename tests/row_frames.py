#!/usr/bin/env python3
"""Each beginning of each frame of the rows, and each frame with one byte more, given to one side alone.

usage: tests/row_frames.py [--program FILE]

A row of tests/rows is run once with its frames. Then `fuseworld kernel` does the kernel's events of the row alone, and
`fuseworld server` the server's: each has to print what the row has of them. Before each reply that the kernel takes it is
given every beginning of that reply, and the reply with one byte more: their length is not the one in their header, so
each is `written 22`, and nothing else changes. The server is given so each request: each is fault 1.
Prints a line for each row and side that differs, then `N passed, M failed`.
"""
import argparse
import subprocess
import sys
from pathlib import Path

TOP = Path(__file__).resolve().parent.parent
ROWS = TOP / "tests" / "rows"


class Link:
    """Frames on their way, in order."""

    def __init__(self):
        self.frames = []

    def put(self, frame):
        self.frames.append(frame)

    def take(self, place):
        return self.frames.pop(place)


class Side:
    """The lines for one side alone, and what it has to print."""

    def __init__(self):
        self.lines, self.wanted = [], []

    def add(self, line, *wanted):
        self.lines.append(line)
        self.wanted.extend(wanted)


def cut(frame):
    """Each beginning of a frame, and the frame with one byte more, in hex."""
    pieces = [frame[: 2 * size] for size in range(len(frame) // 2)]
    return [piece or "-" for piece in pieces] + [frame + "00"]


def events_of(program, name):
    """Each line of a row's script, with what it prints, and the frame that it puts, if it puts one."""
    script = ROWS / f"{name}.script"
    ran = subprocess.run([program, "run", "--hex", script], capture_output=True, text=True, check=True)
    printed = ran.stdout.splitlines()
    lines = [line for line in script.read_text().splitlines() if line and not line.startswith("#")]
    place = 0
    for line in lines:
        count = 2 if line == "show" else 1
        said = printed[place : place + count]
        place += count
        frame = None
        if place < len(printed) and printed[place].startswith("frame "):
            frame = printed[place].split(" ")[1]
            place += 1
        answers = []
        while place < len(printed) and printed[place].startswith("answer "):
            answers.append(printed[place])
            place += 1
        yield line, said, frame, answers
    assert place == len(printed), name


class Row:
    """A row as the lines of each side."""

    def __init__(self):
        self.kernel, self.server = Side(), Side()
        self.requests, self.replies, self.results = Link(), Link(), Link()
        self.copies = 0

    def is_refused(self, said):
        return said[0].startswith("refused ")

    def event(self, line, said, frame, answers):
        words = line.split(" ")
        handler = getattr(self, f"on_{words[0]}", None)
        if handler is not None:
            return handler(words, line, said, frame, answers)
        return self.kernel.add(line, *said, *answers)

    def on_mount(self, words, line, said, frame, answers):
        times = [int(word) for word in words[1:3]]
        if max(times) > 86_400_000:
            return self.server.add(line, *said)
        self.kernel.add("mount", *said)
        if not self.is_refused(said):
            self.server.add(line, *said)
            self.clear()
        return None

    def on_abort(self, words, line, said, frame, answers):
        self.kernel.add(line, *said, *answers)
        if not self.is_refused(said):
            self.server.add(line, *said)
            self.clear()

    def clear(self):
        self.requests, self.replies, self.results = Link(), Link(), Link()

    def on_show(self, words, line, said, frame, answers):
        self.kernel.add(line, said[0])
        self.server.add(line, said[1])

    def on_read(self, words, line, said, frame, answers):
        if frame is None:
            return self.kernel.add(line, *said)
        self.kernel.add(line, *said, f"frame {frame}")
        self.requests.put(frame)
        return None

    def on_take(self, words, line, said, frame, answers):
        if self.is_refused(said):
            return
        request = self.requests.take(int(words[1]))
        for piece in cut(request):
            self.server.add(f"take {piece}", None)
        self.server.add(f"take {request}", *said)
        self.copy(frame)

    def copy(self, frame):
        """A copy of a reply is sent."""
        if frame is None:
            return
        self.copies += 1
        self.server.wanted += [f"frame {frame}", f"copy {self.copies}"]
        self.replies.put((self.copies, frame))

    def on_do(self, words, line, said, frame, answers):
        self.server.add(line, *said)
        self.copy(frame)

    on_again = on_do

    def on_write(self, words, line, said, frame, answers):
        if self.is_refused(said):
            return
        copy, reply = self.replies.take(int(words[1]))
        for piece in cut(reply):
            self.kernel.add(f"write {piece}", "written 22")
        result = said[0].split(" ")[2]
        self.kernel.add(f"write {reply}", f"written {result}", *answers)
        self.results.put((copy, result))

    def on_settle(self, words, line, said, frame, answers):
        if self.is_refused(said):
            return
        copy, result = self.results.take(int(words[1]))
        self.server.add(f"settle {copy} {result}", f"settled {copy} {result}")


def faults_in(printed):
    """What is printed, where a fault of a frame and its error reply are one line."""
    kept = []
    for line in printed:
        if line.startswith("fault 1 "):
            kept.append(None)
        elif kept and kept[-1] is None and line.startswith("frame "):
            # An error reply to a cut frame has the header alone, and no copy is counted of it.
            if len(line) == len("frame ") + 32:
                continue
            kept.append(line)
        else:
            kept.append(line)
    return kept


def first_difference(wanted, printed):
    for place, (here, there) in enumerate(zip(wanted, printed), 1):
        if here != there:
            return f"line {place}: {there!r}, where {here!r} was expected"
    return f"{len(printed)} lines, where {len(wanted)} were expected"


def main():
    asked = argparse.ArgumentParser(description=__doc__, formatter_class=argparse.RawDescriptionHelpFormatter)
    asked.add_argument("--program", default=str(TOP / "crates/fuseworld/out/fuseworld"))
    program = asked.parse_args().program
    passed = failed = 0
    for script in sorted(ROWS.glob("*.script")):
        row = Row()
        for event in events_of(program, script.stem):
            row.event(*event)
        for name, side in (("kernel", row.kernel), ("server", row.server)):
            text = "".join(f"{line}\n" for line in side.lines)
            ran = subprocess.run([program, name], input=text, capture_output=True, text=True, check=True)
            printed = faults_in(ran.stdout.splitlines())
            is_same = printed == side.wanted
            passed, failed = passed + is_same, failed + (not is_same)
            if not is_same:
                print(f"{script.stem}, {name}: {first_difference(side.wanted, printed)}")
    print(f"{passed} passed, {failed} failed")
    return 1 if failed else 0


if __name__ == "__main__":
    sys.exit(main())
