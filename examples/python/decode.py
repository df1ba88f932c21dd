#!/usr/bin/env python3
"""Prints what each frame of a capture is, a line a frame, by the shared object of include/fuseworld.h.

    FUSEWORLD_LIBRARY=path/to/libfuseworld_codec.so decode.py FILE

It does what examples/c/decode.c does, and prints the same.
"""
import ctypes
import os
import sys
from ctypes import c_int32, c_size_t, c_uint32, c_uint64

MINOR = 31
LOOKUP, FORGET, GETATTR, MKDIR, RENAME, LINK, OPEN, READ, WRITE, RELEASE = 1, 2, 3, 9, 12, 13, 14, 15, 16, 18
INIT, READDIR, CREATE, INTERRUPT, BATCH_FORGET, READDIRPLUS = 26, 28, 35, 36, 42, 44


class RequestHead(ctypes.Structure):
    _fields_ = [("unique", c_uint64), ("opcode", c_uint32), ("padding", c_uint32)]


class ReplyHead(ctypes.Structure):
    _fields_ = [("unique", c_uint64), ("error", c_int32), ("padding", c_uint32)]


class Request(ctypes.Structure):
    _fields_ = (
        [(name, c_uint64) for name in
         ("unique", "nodeid", "fh", "offset", "nlookup", "newdir", "oldnodeid", "interrupted")]
        + [(name, c_size_t) for name in
           ("name_offset", "name_length", "newname_offset", "newname_length", "data_offset", "data_length")]
        + [(name, c_uint32) for name in ("opcode", "size", "major", "minor", "flags", "padding")])


class Attr(ctypes.Structure):
    _fields_ = [("ino", c_uint64), ("size", c_uint64), ("mode", c_uint32), ("nlink", c_uint32)]


class Entry(ctypes.Structure):
    _fields_ = [("nodeid", c_uint64), ("generation", c_uint64), ("entry_valid", c_uint64),
                ("entry_valid_nsec", c_uint32), ("padding", c_uint32), ("attr", Attr)]


class Reply(ctypes.Structure):
    _fields_ = [("unique", c_uint64), ("error", c_int32), ("opcode", c_uint32), ("entry", Entry), ("fh", c_uint64),
                ("data_offset", c_size_t), ("data_length", c_size_t), ("size", c_uint32), ("major", c_uint32),
                ("minor", c_uint32), ("flags", c_uint32)]


class ForgetOne(ctypes.Structure):
    _fields_ = [("nodeid", c_uint64), ("nlookup", c_uint64)]


class Dirent(ctypes.Structure):
    _fields_ = [("ino", c_uint64), ("off", c_uint64), ("name_offset", c_size_t), ("name_length", c_size_t),
                ("type", c_uint32), ("padding", c_uint32)]


class DirentPlus(ctypes.Structure):
    _fields_ = [("entry", Entry), ("dirent", Dirent)]


def load():
    """The library, with the types of its calls."""
    library = ctypes.CDLL(os.environ.get("FUSEWORLD_LIBRARY", "libfuseworld_codec.so"))
    frame = [ctypes.c_char_p, c_size_t]
    place = ctypes.POINTER(c_size_t)
    types = {
        "read_request_head": frame + [ctypes.POINTER(RequestHead)],
        "read_reply_head": frame + [ctypes.POINTER(ReplyHead)],
        "read_request": [c_uint32] + frame + [ctypes.POINTER(Request)],
        "read_reply": [c_uint32, c_uint32] + frame + [ctypes.POINTER(Reply)],
        "next_pair": frame + [place, ctypes.POINTER(ForgetOne)],
        "next_record": frame + [place, ctypes.POINTER(Dirent)],
        "next_record_plus": frame + [place, ctypes.POINTER(DirentPlus)],
    }
    for name, arguments in types.items():
        function = getattr(library, "fuseworld_" + name)
        function.argtypes, function.restype = arguments, c_uint32
    for name in ("opcode_name", "fault_name"):
        function = getattr(library, "fuseworld_" + name)
        function.argtypes, function.restype = [c_uint32, ctypes.c_char_p, c_size_t], c_size_t
    return library


CODEC = load()


def name_of(call, number):
    buffer = ctypes.create_string_buffer(16)
    return buffer.value.decode() if call(number, buffer, len(buffer)) else "?"


def text(frame, offset, length):
    """A name. Bytes outside of 33 to 126 are printed as `?`."""
    return "".join(chr(byte) if 33 <= byte <= 126 else "?" for byte in frame[offset:offset + length])


def fields(struct, *names):
    return "".join(f" {name} {getattr(struct, name)}" for name in names)


def each(call, kind, frame, offset):
    """The pairs or records of a frame."""
    place, item = c_size_t(offset), kind()
    while call(frame, len(frame), place, item) == 0:
        yield item


def request_line(r, frame):
    line = f"> {name_of(CODEC.fuseworld_opcode_name, r.opcode)}" + fields(r, "unique", "nodeid")
    named = {FORGET: ["nlookup"], LINK: ["oldnodeid"], RENAME: ["newdir"], READ: ["fh", "offset", "size"],
             WRITE: ["fh", "offset"], RELEASE: ["fh"], INIT: ["major", "minor", "flags"], READDIR: ["offset", "size"],
             READDIRPLUS: ["offset", "size"], INTERRUPT: ["interrupted"]}
    line += fields(r, *named.get(r.opcode, []))
    if r.opcode == WRITE:
        line += f" bytes {r.data_length}"
    if r.opcode == BATCH_FORGET:
        for pair in each(CODEC.fuseworld_next_pair, ForgetOne, frame, r.data_offset):
            line += f" {pair.nodeid}:{pair.nlookup}"
    if r.name_length:
        line += " name " + text(frame, r.name_offset, r.name_length)
    if r.newname_length:
        line += " newname " + text(frame, r.newname_offset, r.newname_length)
    return line


def entry_words(entry):
    valid = f" valid {entry.entry_valid} {entry.entry_valid_nsec}"
    if entry.nodeid == 0:
        return " nodeid 0" + valid
    return fields(entry, "nodeid", "generation") + valid + fields(entry.attr, "ino", "size", "mode", "nlink")


def dirent_words(dirent, frame):
    name = text(frame, dirent.name_offset, dirent.name_length)
    return f" {name}:{dirent.off}:{dirent.ino}:{dirent.type}"


def body_words(r, frame):
    if r.opcode in (LOOKUP, MKDIR, LINK):
        return entry_words(r.entry)
    if r.opcode == CREATE:
        return entry_words(r.entry) + fields(r, "fh")
    if r.opcode == GETATTR:
        return fields(r.entry.attr, "ino", "size", "mode", "nlink")
    if r.opcode == READ:
        return f" bytes {r.data_length}"
    if r.opcode == READDIR:
        return "".join(dirent_words(d, frame) for d in each(CODEC.fuseworld_next_record, Dirent, frame, r.data_offset))
    if r.opcode == READDIRPLUS:
        pairs = each(CODEC.fuseworld_next_record_plus, DirentPlus, frame, r.data_offset)
        return "".join(f"{dirent_words(pair.dirent, frame)}:{pair.entry.nodeid}" for pair in pairs)
    named = {OPEN: ["fh"], WRITE: ["size"], INIT: ["major", "minor", "flags"]}
    return fields(r, *named.get(r.opcode, []))


def reply_line(r, frame):
    line = f"< {name_of(CODEC.fuseworld_opcode_name, r.opcode)}" + fields(r, "unique", "error")
    return line if r.error else line + body_words(r, frame)


def fault_line(direction, fault):
    return f"{direction} fault {fault} {name_of(CODEC.fuseworld_fault_name, fault)}"


def cut_init(frame):
    """Of a kernel of 7.36 or later, INIT has 104 bytes: the first 56 are the INIT of 7.31."""
    head = RequestHead()
    if CODEC.fuseworld_read_request_head(frame, len(frame), head) == 0 and head.opcode == INIT and len(frame) == 104:
        return b"\x38\0\0\0" + frame[4:56]
    return frame


def decode_request(frame, asked):
    frame = cut_init(frame)
    head, request = RequestHead(), Request()
    if CODEC.fuseworld_read_request_head(frame, len(frame), head) == 0:
        asked[head.unique] = head.opcode
    fault = CODEC.fuseworld_read_request(MINOR, frame, len(frame), request)
    return fault_line(">", fault) if fault else request_line(request, frame)


def decode_reply(frame, asked):
    head, reply = ReplyHead(), Reply()
    fault = CODEC.fuseworld_read_reply_head(frame, len(frame), head)
    if fault == 0:
        fault = CODEC.fuseworld_read_reply(MINOR, asked.get(head.unique, 0), frame, len(frame), reply)
    return fault_line("<", fault) if fault else reply_line(reply, frame)


def main():
    asked = {}
    with open(sys.argv[1], encoding="ascii") as capture:
        for line in capture:
            direction, frame = line[0], bytes.fromhex(line[2:])
            print(decode_request(frame, asked) if direction == ">" else decode_reply(frame, asked))


main()
