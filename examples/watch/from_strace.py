#!/usr/bin/env python3
"""What strace saw of a FUSE server on its device, as a capture on standard output.

    strace -f -y -xx -s 1200000 -e trace=read,readv,write,writev -o TRACE SERVER-WORDS ..
    from_strace.py [-s BYTES] TRACE > CAPTURE

A read stands where it ended and a write where it began: what a request shows had happened before its read ended, and what
a reply causes happens after its write began. The other way round a good server is accused. Where more than one thread
read, the first line is `= several readers`: their reads may have ended in another order than the device's. Where another
thread than the one that reads writes replies, it is `= several writers`.

Standard error says what the trace does not show: a reply that was spliced, a write whose end was not seen, frames cut by
a smaller -s of strace (they have `+N` here), and an end. Status 1 where TRACE is no such trace, or of two sessions.
"""
import argparse
import re
import struct
import sys
from collections import deque

READ, WRITE, INIT = 15, 16, 26
# FORGET, INTERRUPT (whose reply is a choice), NOTIFY_REPLY and BATCH_FORGET.
NO_REPLY = (2, 36, 41, 42)
IN_HEADER, OUT_HEADER, WRITE_IN = 40, 16, 40
LINE = re.compile(r"(?:\[pid +(\d+)\] |(\d+) +)?(?:\d[\d:.]* )?(.*)", re.S)
CALL = re.compile(r"(readv?|writev?)\(\d+<((?:[^>\"]|->)*)>")
RESUMED = re.compile(r"<\.\.\. (readv?|writev?) resumed>")
RESULT = re.compile(r"\)\s+= (-?\d+|\?)(?: (E[A-Z0-9]+))?[^\"]*$")


def is_device(path):
    """With -xx a path is in hex, too."""
    return re.sub(r"\\x(..)", lambda pair: chr(int(pair[1], 16)), path).startswith("/dev/fuse")


class Call:
    """A read or write of the device, by one thread."""

    def __init__(self, thread, name, text):
        self.thread, self.is_write, self.text = thread, name.startswith("write"), text
        self.result = self.errno = None
        self.line = None

    def end(self):
        """Takes the result off the text. Gives whether there is one."""
        found = RESULT.search(self.text, max(0, len(self.text) - 300))
        if found is None:
            return False
        self.result, self.errno = None if found[1] == "?" else int(found[1]), found[2]
        self.text = self.text[:found.start()]
        return True

    def frame(self):
        """The bytes that are shown, and the frame's length."""
        parts = self.text.split('"')
        outside = "".join(parts[::2])
        shown = b""
        for at in range(1, len(parts), 2):
            shown += bytes.fromhex(parts[at].replace("\\x", ""))
            if parts[at + 1].startswith("..."):
                break
        sizes = [int(size) for size in re.findall(r"iov_len=(\d+)", outside)]
        asked = sum(sizes) if sizes else int(re.search(r"(\d+)$", outside)[1])
        return shown, self.result if self.result and self.result > 0 else asked


def calls(trace):
    """The calls on the device, each as it begins and as it ends: a call and whether it ended. None where a process ended."""
    waiting = {}
    for line in trace:
        first, second, text = LINE.fullmatch(line.rstrip("\n")).groups()
        thread = first or second
        if text.startswith("+++"):
            yield None, True
            continue
        is_unfinished = text.endswith("<unfinished ...>")
        text = text.removesuffix("<unfinished ...>").rstrip(" ") if is_unfinished else text
        if found := RESUMED.match(text):
            call = waiting.pop(thread, None)
            if call is None:
                continue
            call.text += text[found.end():]
        elif (found := CALL.match(text)) and is_device(found[2]):
            call = Call(thread, found[1], text[found.end():])
            yield call, False
        else:
            continue
        if is_unfinished:
            waiting[thread] = call
        elif call.end():
            yield call, True


class Capture:
    """Lines in their order. One whose call has not ended holds those behind it."""

    def __init__(self, out, kept):
        self.out, self.kept = out, kept
        self.lines = deque()
        self.unanswered, self.reads = {}, set()
        self.sessions = self.cut = self.unended = 0
        self.end = None

    def place(self):
        self.lines.append([None])
        return self.lines[-1]

    def fill(self, line, sign, call):
        shown, length = call.frame()
        self.cut += len(shown) < length
        fixed = self.note_request(shown) if sign == ">" else self.note_reply(shown, call.errno)
        if fixed is not None and self.kept is not None:
            shown = shown[:fixed + self.kept]
        more = f" +{length - len(shown)}" if len(shown) < length else ""
        line[0] = f"{sign} {shown.hex()}{more}{f' {call.errno}' if call.errno else ''}\n"

    def note_request(self, frame):
        """Bytes before the data of a WRITE; None of other requests."""
        _, opcode, unique = struct.unpack_from("<IIQ", frame)
        self.sessions += opcode == INIT
        if opcode == READ:
            self.reads.add(unique)
        if opcode not in NO_REPLY:
            self.unanswered[unique] = opcode
        return IN_HEADER + WRITE_IN if opcode == WRITE else None

    def note_reply(self, frame, errno):
        """Bytes before the data of a READ's reply; None of others."""
        if len(frame) < OUT_HEADER:
            return None
        unique = struct.unpack_from("<Q", frame, 8)[0]
        if errno != "EINVAL":
            self.unanswered.pop(unique, None)
        return OUT_HEADER if unique in self.reads else None

    def take(self, call, is_ended):
        if call is None:
            self.end = self.end or "closed"
        elif not is_ended:
            call.line = self.place() if call.is_write else None
        elif call.is_write and call.result is not None:
            self.fill(call.line, "<", call)
        elif not call.is_write and call.result:
            if call.result > 0:
                self.fill(self.place(), ">", call)
            elif call.errno in ("ENODEV", "ECONNABORTED"):
                self.end = f"ended {call.errno}"

    def flush(self, is_all=False):
        while self.lines and (is_all or self.lines[0][0]):
            line = self.lines.popleft()[0]
            self.unended += line is None
            self.out.write(line or "")

    def faults(self):
        """What the trace does not show."""
        if self.unanswered:
            reads = sum(opcode == READ for opcode in self.unanswered.values())
            yield (f"{len(self.unanswered)} requests have no reply here, {reads} of them READs: they were spliced, or never "
                   f"answered; the first is {next(iter(self.unanswered))}")
        if self.unended:
            yield f"{self.unended} writes whose end the trace does not show are left out"
        if self.cut:
            yield f"{self.cut} frames were cut by strace"
        if self.end is None:
            yield "no end of the device or the server is there"


def main():
    parser = argparse.ArgumentParser(description="What strace saw of a FUSE server, as a capture.")
    parser.add_argument("-s", type=int, metavar="BYTES", help="cut data of WRITE and READ to so many bytes")
    parser.add_argument("trace")
    words = parser.parse_args()
    readers, writers = set(), set()
    with open(words.trace) as trace:
        for call, is_ended in calls(trace):
            if is_ended and call and call.result and call.result > 0:
                (writers if call.is_write else readers).add(call.thread)
    if not readers:
        sys.exit("from_strace.py: no read of /dev/fuse is there; was it strace -f -y -xx?")
    capture = Capture(sys.stdout, words.s)
    if len(readers) > 1:
        print("= several readers")
    elif writers - readers:
        print("= several writers")
    with open(words.trace) as trace:
        for call, is_ended in calls(trace):
            capture.take(call, is_ended)
            capture.flush()
    capture.flush(is_all=True)
    if capture.end:
        print(f"= {capture.end}")
    for fault in capture.faults():
        print(f"from_strace.py: {fault}", file=sys.stderr)
    if capture.sessions > 1:
        sys.exit(f"from_strace.py: {capture.sessions} sessions are in this trace")


main()
