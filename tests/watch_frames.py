#!/usr/bin/env python3
"""Whether a capture has the frames that the server wrote down: watch_frames.py [WORDS ..] CAPTURE LOG.

LOG is of tests/watch_server.py. The requests have to be the same in their order, so the replies and notifications, and each
reply stands behind its request. Of the WORDS `cut` says that data is cut away (-s 0), `serial` that all
frames have one order, `unspliced` that the capture lacks the replies that were spliced. Prints a line for each fault, or
how many frames are the same.

Without `serial`, an end may come while frames are in the socket: up to three replies at the end of LOG are not in the
capture, or so many requests at the end of the capture not in LOG.
"""
import struct
import sys

READ, WRITE = 15, 16


def frames_of(path):
    """Sign, frame, bytes that were cut away and errno of each line but those with `=`."""
    with open(path) as lines:
        for line in lines:
            sign, *words = line.split()
            if sign == "=":
                continue
            more = next((int(word[1:]) for word in words if word[0] == "+"), 0)
            yield sign, bytes.fromhex(words[0]), more, next((word for word in words[1:] if word[0] == "E"), None)


def unique_of(frame):
    return struct.unpack_from("<Q", frame, 8)[0]


def kept_of(log, is_cut):
    """The log's frames as the capture should have them: sign, frame and bytes that were cut away."""
    reads = set()
    for sign, frame, _, _ in log:
        opcode = struct.unpack_from("<I", frame, 4)[0] if sign == ">" else None
        if opcode == READ:
            reads.add(unique_of(frame))
        kept = len(frame)
        if is_cut and opcode == WRITE:
            kept = 80
        if is_cut and opcode is None and unique_of(frame) in reads:
            kept = 16
        yield ">" if sign == ">" else "<", frame[:kept], len(frame) - kept


def main():
    *words, capture, log = sys.argv[1:]
    seen = list(frames_of(capture))
    said = [line for line in frames_of(log) if line[0] != "~" or "unspliced" not in words]
    wanted = list(kept_of(said, "cut" in words))
    got = [line[:3] for line in seen]
    faults = []
    for kind in "><":
        ours, theirs = ([line for line in lines if line[0] == kind] for lines in (got, wanted))
        longer, shorter = (ours, theirs) if kind == ">" else (theirs, ours)
        unseen = 0 if "serial" in words else 3
        if longer[:len(shorter)] != shorter or len(longer) > len(shorter) + unseen:
            place = next((at for at, (one, other) in enumerate(zip(ours, theirs)) if one != other), min(len(ours), len(theirs)))
            faults.append(f"{kind} {place} differs, of {len(ours)} and {len(theirs)}")
    if "serial" in words and got != wanted:
        faults.append("the order differs")
    asked = set()
    for sign, frame, _ in got:
        if sign == ">":
            asked.add(unique_of(frame))
        elif unique_of(frame) and unique_of(frame) not in asked:
            faults.append(f"reply {unique_of(frame)} stands before its request")
    print("\n".join(faults) if faults else f"{len(got)} frames")
    return 1 if faults else 0


sys.exit(main())
