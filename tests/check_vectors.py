#!/usr/bin/env python3
"""Whether a decoder of another make says of each vector on standard input what `fuseworld vectors` says.

It reads the frames by Python's struct, from the tables of docs/PROTOCOL.md. It also asks for what the vectors are to
hold: 600 or more, no line twice, each opcode, both directions and minor versions, and each fault that a frame can have.
"""
import json
import struct
import sys

# Of each opcode: where its name stands, if it ends with one; or how many bytes its frame has.
NAMES = {1: 40, 9: 48, 10: 40, 11: 40, 12: 48, 13: 48, 35: 56}
SIZES = {2: 48, 3: 56, 14: 48, 15: 80, 18: 64, 26: 56, 28: 80, 36: 48, 44: 80}
REPLIES = {1: "entry", 9: "entry", 13: "entry", 3: "attr", 10: "", 11: "", 12: "", 18: "", 36: "", 14: "open", 15: "data", 16: "size", 26: "init", 28: "records", 35: "create", 44: "plus"}
FAULTS = {1: "Short", 2: "Length", 3: "Opcode", 4: "Name", 5: "Body", 6: "ErrorRange"}
FLAGS = 1 << 0 | 1 << 13 | 1 << 18
MAX_FRAME = 4176


class Fault(Exception):
    """The first fault of a frame, by its number."""


def need(holds, fault):
    if not holds:
        raise Fault(fault)


def numbers(layout, keys, frame, place):
    return dict(zip(keys.split(), map(str, struct.unpack_from("<" + layout, frame, place))))


def is_name(name, dots_too=False):
    return 1 <= len(name) <= 255 and not set(name) & {0, ord("/")} and (dots_too or name not in (b".", b".."))


def request_body(code, frame):
    if code in NAMES:
        place = NAMES[code]
        need(len(frame) >= place, 5)
        rest = frame[place:]
        names = rest.split(b"\0", 1) if code == 12 else [rest]
        need(len(names) == (2 if code == 12 else 1) and names[-1][-1:] == b"\0", 4)
        names[-1] = names[-1][:-1]
        need(all(map(is_name, names)), 4)
        fixed = numbers("Q", {12: "newdir", 13: "oldnodeid"}[code], frame, 40) if code in (12, 13) else {}
        return fixed | dict(zip(("old", "new") if code == 12 else ("name",), (name.hex() for name in names)))
    if code == 16:
        need(len(frame) >= 80 and struct.unpack_from("<I", frame, 56)[0] == len(frame) - 80, 5)
        return numbers("QQI", "fh offset size", frame, 40) | {"data": frame[80:].hex()}
    if code == 42:
        need(len(frame) >= 48 and struct.unpack_from("<I", frame, 40)[0] * 16 == len(frame) - 48, 5)
        return {"pairs": [numbers("QQ", "nodeid nlookup", frame, place) for place in range(48, len(frame), 16)]}
    need(len(frame) == SIZES[code], 5)
    layout, keys = {2: ("Q", "nlookup"), 15: ("QQI", "fh offset size"), 18: ("Q", "fh"), 26: ("II4xI", "major minor flags"), 28: ("8xQI", "offset size"), 36: ("Q", "unique"), 44: ("8xQI", "offset size")}.get(code, ("", ""))
    return known_flags(numbers(layout, keys, frame, 40))


def known_flags(body):
    return body | {"flags": str(int(body["flags"]) & FLAGS)} if "flags" in body else body


def request(minor, frame):
    need(len(frame) >= 40, 1)
    length, code, unique, node = struct.unpack_from("<IIQQ", frame)
    need(length == len(frame), 2)
    need((code in NAMES or code in SIZES or code in (16, 42)) and (minor > 15 or code not in (42, 44)), 3)
    need(len(frame) <= MAX_FRAME, 5)
    return {"unique": str(unique), "nodeid": str(0 if code in (26, 36, 42) else node), "body": request_body(code, frame)}


def attr(frame, place):
    return numbers("QQ44xII", "ino size mode nlink", frame, place)


def entry(frame, place):
    fields = numbers("QQQ8xI", "nodeid generation entry_valid entry_valid_nsec", frame, place)
    need(int(fields["entry_valid_nsec"]) < 10**9, 5)
    if fields["nodeid"] == "0":
        del fields["generation"]
        return fields
    return fields | {"attr": attr(frame, place + 40)}


def records(frame, plus):
    """The records, each judged for its parts before any for its name."""
    place, read = 16, []
    while place < len(frame):
        start = place + (128 if plus else 0)
        need(len(frame) >= start + 24, 5)
        size = struct.unpack_from("<I", frame, start + 16)[0]
        end = start + 24 + (size + 7) // 8 * 8
        need(len(frame) >= end, 5)
        name = frame[start + 24:start + 24 + size]
        dirent = numbers("QQ4xI", "ino off type", frame, start) | {"name": name.hex()}
        read.append(({"entry_out": entry(frame, place), "dirent": dirent} if plus else dirent, name))
        place = end
    need(all(is_name(name, True) for _, name in read), 4)
    return {"records": [record for record, _ in read]}


def reply_body(kind, frame):
    if kind in ("records", "plus"):
        return records(frame, kind == "plus")
    if kind == "data":
        return {"data": frame[16:].hex()}
    if kind == "init":
        need(len(frame) in (40, 80), 5)
        body = numbers("II4xI", "major minor flags", frame, 16)
        need(len(frame) == (40 if (body["major"], body["minor"]) == ("7", "15") else 80), 5)
        return known_flags(body)
    need(len(frame) == {"": 16, "entry": 144, "attr": 120, "open": 32, "size": 24, "create": 160}[kind], 5)
    if kind in ("entry", "create"):
        return {"entry": entry(frame, 16)} | (numbers("Q", "fh", frame, 144) if kind == "create" else {})
    if kind == "attr":
        return {"attr": attr(frame, 32)}
    return numbers({"open": "Q", "size": "I"}.get(kind, ""), {"open": "fh", "size": "size"}.get(kind, ""), frame, 16)


def reply(minor, code, frame):
    need(len(frame) >= 16, 1)
    length, error, unique = struct.unpack_from("<IiQ", frame)
    need(length == len(frame), 2)
    need(-511 <= error <= 0, 6)
    need(code in REPLIES and (minor > 15 or code != 44), 3)
    need(len(frame) <= MAX_FRAME, 5)
    return {"unique": str(unique), "error": str(error), "body": reply_body("" if error else REPLIES[code], frame)}


def verdict(direction, code, minor, frame):
    try:
        return {"verdict": "ok", "fields": request(minor, frame) if direction == "request" else reply(minor, code, frame)}
    except Fault as fault:
        return {"verdict": "fault", "number": fault.args[0], "name": FAULTS[fault.args[0]]}


def main():
    lines = sys.stdin.read().splitlines()
    wrong, seen = [], set()
    for number, line in enumerate(lines, 1):
        vector = json.loads(line)
        said = {key: vector.pop(key) for key in ("verdict", "fields", "number", "name") if key in vector}
        frame = bytes.fromhex(vector.pop("hex"))
        own = verdict(vector["direction"], vector["opcode"], vector["minor"], frame)
        if said != own:
            wrong.append(f"line {number}: {line}\n    here: {own}")
        at_the_place = int.from_bytes(frame[4:8], "little") if len(frame) >= 8 else None
        if vector["direction"] == "request" and vector["opcode"] != at_the_place or set(vector) != {"direction", "opcode", "minor"}:
            wrong.append(f"line {number}: {line}")
        seen.add((vector["direction"], vector["minor"], vector["opcode"], said["verdict"]))
        seen.add((vector["direction"], vector["minor"], said.get("name")))
    codes = {*NAMES, *SIZES, 16, 42}
    for minor in (15, 31):
        wanted = {("request", minor, code, "ok") for code in codes} | {("reply", minor, code, "ok") for code in REPLIES}
        wanted = {key for key in wanted if minor > 15 or key[2] not in (42, 44)}
        wanted |= {("request", minor, FAULTS[fault]) for fault in (1, 2, 3, 4, 5)} | {("reply", minor, FAULTS[fault]) for fault in FAULTS}
        wrong += [f"no vector: {' '.join(map(str, key))}" for key in sorted(wanted - seen, key=str)]
    if len(lines) < 600 or len(set(lines)) < len(lines):
        wrong.append(f"{len(lines)} vectors, of which {len(set(lines))} differ")
    print(*wrong, f"{len(lines)} vectors, {len(wrong)} wrong", sep="\n")
    return 1 if wrong else 0


if __name__ == "__main__":
    sys.exit(main())
