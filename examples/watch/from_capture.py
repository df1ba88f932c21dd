#!/usr/bin/env python3
"""A capture as pcap, so that other tools can open it, and back.

    from_capture.py CAPTURE > PCAP
    from_capture.py --back PCAP > CAPTURE

The pcap has link type USER0 (147), little-endian heads, nanoseconds and a packet a line. Each packet begins with 4 bytes:

    0  direction: 0 a request, 1 a reply or notification, 2 a line with `=`
    1  1 where the line has its time, as `@T`, else 0
    2  result, 2 bytes, little-endian: the errno by which the device refused the frame, by Linux's numbers, else 0

Behind them is the frame in its byte order, or the text behind `= `. Where the capture has `+N`, the packet's length on
the wire is N more than what is kept. A line without a time stands a microsecond behind the one before. Empty lines and
those that begin with `#` have no packet.

Wireshark refuses packets of over 262,144 bytes; a capture with the option -s has none so long.
"""
import errno
import struct
import sys

MAGIC, LINK_TYPE, SNAP_LENGTH = 0xA1B23C4D, 147, 1 << 28
SECOND, STEP = 10 ** 9, 1000  # nanoseconds
SIGNS = "><="


def name_of(number):
    return errno.errorcode.get(number, f"E{number}")


def number_of(name):
    """The errno of a name: one of Linux, or E and a number."""
    return int(name[1:]) if name[1:].isdigit() else getattr(errno, name)


def packet(line):
    """The bytes of a line's packet, how many more were in the frame, and the line's time or None."""
    sign, _, rest = line.partition(" ")
    direction = SIGNS.index(sign)
    if sign == "=":
        return struct.pack("<BBH", direction, 0, 0) + rest.encode(), 0, None
    words = rest.split()
    time = int(words.pop(0)[1:]) if words and words[0].startswith("@") else None
    frame = bytes.fromhex(words.pop(0)) if words else b""
    more = int(words.pop(0)[1:]) if words and words[0].startswith("+") else 0
    result = number_of(words.pop(0)) if words else 0
    if words or not frame:
        raise ValueError("wrong words")
    return struct.pack("<BBH", direction, time is not None, result) + frame, more, time


def line_of(data, more, time):
    """The line of a packet."""
    direction, has_time, result = struct.unpack_from("<BBH", data)
    if SIGNS[direction] == "=":
        return f"= {data[4:].decode()}"
    words = [SIGNS[direction]]
    words += [f"@{time}"] if has_time else []
    words += [data[4:].hex()]
    words += [f"+{more}"] if more else []
    words += [name_of(result)] if result else []
    return " ".join(words)


def to_pcap(lines, out):
    out.write(struct.pack("<IHHiIII", MAGIC, 2, 4, 0, 0, SNAP_LENGTH, LINK_TYPE))
    now = -STEP
    for number, line in enumerate(lines, 1):
        line = line.rstrip("\r\n")
        if not line or line.startswith("#"):
            continue
        try:
            data, more, time = packet(line)
        except (ValueError, AttributeError) as fault:
            sys.exit(f"from_capture.py: line {number}: {fault}")
        now = now + STEP if time is None else time
        if now >= SECOND << 32:
            sys.exit(f"from_capture.py: line {number}: a pcap has seconds of 32 bits")
        out.write(struct.pack("<IIII", now // SECOND, now % SECOND, len(data), len(data) + more) + data)


def to_capture(source, out):
    head = source.read(24)
    if len(head) < 24 or struct.unpack_from("<I", head)[0] != MAGIC or struct.unpack_from("<I", head, 20)[0] != LINK_TYPE:
        sys.exit(f"from_capture.py: no little-endian pcap of nanoseconds and link type {LINK_TYPE}")
    while len(record := source.read(16)) == 16:
        seconds, nanoseconds, kept, length = struct.unpack("<IIII", record)
        data = source.read(kept)
        if kept < 4 or len(data) < kept or data[0] >= len(SIGNS):
            sys.exit("from_capture.py: no packet of a capture")
        out.write(f"{line_of(data, length - kept, seconds * SECOND + nanoseconds)}\n")


def main():
    is_back = sys.argv[1:2] == ["--back"]
    files = sys.argv[2 if is_back else 1:]
    if len(files) != 1:
        sys.exit("usage: from_capture.py CAPTURE > PCAP, or from_capture.py --back PCAP > CAPTURE")
    if is_back:
        with open(files[0], "rb") as source:
            to_capture(source, sys.stdout)
    else:
        with open(files[0]) as lines:
            to_pcap(lines, sys.stdout.buffer)


main()
