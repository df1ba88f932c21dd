#!/usr/bin/env python3
"""Whether a reader of another make says of each vector of `fuseworld vectors --all` on standard input what that says.

It judges the lines that have `any`, by the sizes of the structs of linux/fuse.h 7.45, which stand here once more. They
are read as where INIT agreed on no flag. It also asks for the shortest and the longest frame of each opcode, each also
with a byte less and one more.
"""
import json
import struct
import sys

# Of each opcode: its name; how many bytes its struct has, with one letter a name (f of a file, a any other), and then
# where the count of its data or pairs stands; what its reply has: so many bytes, or what its request says.
ROWS = """
1 LOOKUP 0f 128; 2 FORGET 8 none; 3 GETATTR 16 104; 4 SETATTR 88 104; 5 READLINK 0 target; 6 SYMLINK 0fa 128;
8 MKNOD 16f 128; 9 MKDIR 8f 128; 10 UNLINK 0f 0; 11 RMDIR 0f 0; 12 RENAME 8ff 0; 13 LINK 8f 128; 14 OPEN 8 16;
15 READ 40 asked; 16 WRITE 40 data=56 8; 17 STATFS 0 80; 18 RELEASE 24 0; 20 FSYNC 16 0; 21 SETXATTR 8a data=40 0;
22 GETXATTR 8a sized; 23 LISTXATTR 8 sized; 24 REMOVEXATTR 0a 0; 25 FLUSH 24 0; 26 INIT 16 more init; 27 OPENDIR 8 16;
28 READDIR 40 records; 29 RELEASEDIR 24 0; 30 FSYNCDIR 16 0; 31 GETLK 48 24; 32 SETLK 48 0; 33 SETLKW 48 0;
34 ACCESS 8 0; 35 CREATE 16f 144; 36 INTERRUPT 8 0; 37 BMAP 16 8; 38 DESTROY 0 0; 39 IOCTL 32 data=64 ioctl;
40 POLL 24 8; 41 NOTIFY_REPLY 40 data=56 none; 42 BATCH_FORGET 8 pairs=40 none; 43 FALLOCATE 32 0;
44 READDIRPLUS 40 entries; 45 RENAME2 16ff 0; 46 LSEEK 24 8; 47 COPY_FILE_RANGE 56 8; 48 SETUPMAPPING 40 0;
49 REMOVEMAPPING 4 pairs=40 0; 50 SYNCFS 8 0; 51 TMPFILE 16a 144; 52 STATX 24 288; 53 COPY_FILE_RANGE_64 56 8
"""
LIMITS = {"f": 1024, "a": 4095}
# How much data, how many pairs and how many bytes behind INIT's struct the longest requests have, and how many bytes
# were asked for.
DATA, PAIRS, MORE, ASKED = 64, 3, 48, 320


def row_of(text):
    words = text.split()
    size = words[2].rstrip("fa")
    return int(words[0]), (words[1], int(size), words[2][len(size):], words[3] if len(words) > 4 else "", words[-1])


TABLE = dict(row_of(text) for text in ROWS.split(";"))


class Fault(Exception):
    """The first fault of a frame, in words."""


def need(holds, why):
    if not holds:
        raise Fault(why)


def need_length(frame, least):
    need(len(frame) >= least, "the frame is too short for its header")
    need(struct.unpack_from("<I", frame)[0] == len(frame) <= 1 << 24, "the frame has another length than it says")


def is_name(name, kind):
    return 1 <= len(name) <= LIMITS[kind] and (kind == "a" or b"/" not in name and name not in (b".", b".."))


def request(frame):
    need_length(frame, 40)
    code = struct.unpack_from("<I", frame, 4)[0]
    need(code in TABLE, "the opcode is not known")
    _, size, names, tail, _ = TABLE[code]
    need(len(frame) >= 40 + size, "the frame is too short for its struct")
    rest = frame[40 + size:]
    for kind in names:
        name, nul, rest = rest.partition(b"\0")
        need(nul and is_name(name, kind), "a name breaks the rules of names")
    if tail != "more":
        unit, place = (16 if tail[:5] == "pairs" else 1), tail.partition("=")[2]
        count = struct.unpack_from("<I", frame, int(place))[0] if place else 0
        need(len(rest) == unit * count, "the frame has another tail than it says")
    return code


def records(body, entry):
    """The names of the whole records."""
    while len(body) >= entry + 24:
        size = struct.unpack_from("<I", body, entry + 16)[0]
        end = entry + 24 + (size + 7) // 8 * 8
        if len(body) < end:
            return
        yield body[entry + 24:entry + 24 + size]
        body = body[end:]


def reply(code, asked, frame):
    kind = TABLE[code][4]
    need(kind != "none", "the opcode has no replies")
    need_length(frame, 16)
    error = struct.unpack_from("<i", frame, 4)[0]
    need(-511 <= error <= 0, "the error number is out of range")
    body = frame[16:]
    if error:
        need(not body, "the body is not of its kind")
        return
    sizes = {"target": range(1, 4096), "ioctl": range(16, 1 << 24), "init": (8, 24, 64)}
    sizes |= dict.fromkeys(("asked", "records", "entries"), range(asked + 1))
    sizes["sized"] = range(asked + 1) if asked else (8,)
    need(len(body) in (sizes[kind] if kind in sizes else (int(kind),)), "the body is not of its kind")
    if kind in ("records", "entries"):
        names = records(body, 128 if kind == "entries" else 0)
        need(all(1 <= len(name) <= 1024 and not set(name) & {0, ord("/")} for name in names),
             "a record's name breaks the rules of names")


def verdict(vector, frame):
    try:
        if vector["direction"] == "request":
            need(request(frame) == vector["opcode"], "another opcode")
        else:
            reply(vector["opcode"], vector["asked"], frame)
        return {"verdict": "ok"}
    except Fault as fault:
        return {"verdict": "fault", "why": str(fault)}


def lengths_of(code):
    """How long the frames are that are wanted, and how many bytes are asked for; None of a request."""
    _, size, names, tail, kind = TABLE[code]
    most = {"data": DATA, "pairs": 16 * PAIRS, "more": MORE}.get(tail.partition("=")[0], 0)
    yield None, 40 + size + 2 * len(names)
    yield None, 40 + size + sum(LIMITS[name] + 1 for name in names) + most
    asked = ASKED if kind in ("asked", "records", "entries", "sized") else 0
    bodies = {"none": (0,), "target": (1, 4095), "ioctl": (16, 16 + ASKED), "init": (8, 24, 64)}
    bodies |= dict.fromkeys(("asked", "records", "entries", "sized"), (0, ASKED))
    for body in bodies[kind] if kind in bodies else (int(kind),):
        yield asked, 16 + body
    if kind == "sized":
        yield 0, 24


def main():
    lines = [line for line in sys.stdin.read().splitlines() if '"any":true' in line]
    wrong, seen = [], set()
    for number, line in enumerate(lines, 1):
        vector = json.loads(line)
        said = {key: vector.pop(key) for key in ("verdict", "why") if key in vector}
        frame = bytes.fromhex(vector.pop("hex"))
        own = verdict(vector, frame)
        if said != own:
            wrong.append(f"line {number}: {line}\n    here: {own}")
        members = {"direction", "opcode", "name", "any"} | ({"asked"} if vector["direction"] == "reply" else set())
        if set(vector) != members or vector["name"] != TABLE[vector["opcode"]][0]:
            wrong.append(f"line {number}: {line}")
        seen.add((vector["opcode"], vector.get("asked"), len(frame), said["verdict"]))
        seen.add((vector["opcode"], vector.get("asked"), len(frame)))
    for code, row in TABLE.items():
        for asked, length in lengths_of(code):
            if (asked is None or row[4] != "none") and (code, asked, length, "ok") not in seen:
                wrong.append(f"no vector: {row[0]} {asked} {length}")
            wrong += [f"no vector: {row[0]} {asked} {other}" for other in (length - 1, length, length + 1)
                      if (code, asked, other) not in seen]
    if len(set(lines)) < len(lines):
        wrong.append(f"{len(lines)} vectors, of which {len(set(lines))} differ")
    print(*wrong, f"{len(lines)} vectors, {len(wrong)} wrong", sep="\n")
    return 1 if wrong else 0


if __name__ == "__main__":
    sys.exit(main())
