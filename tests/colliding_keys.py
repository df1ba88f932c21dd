#!/usr/bin/env python3
"""What keys cost that a peer picks: nodeids, uniques and names that a hash of a fixed seed would put into one place.

usage: tests/colliding_keys.py [--program FILE] [--count N]

The keys are made from the rule of std's `FoldHasher`: they agree in the low bits of their hashes. N of them (12,000; of
names 3,000, since a tree has at most 4,096) are fed to `fuseworld kernel` and `fuseworld server`, and so are as many
drawn ones. Instructions are counted by callgrind. Prints a row a kind, then `N passed, M failed`; a kind fails where the
chosen keys cost more than 1.5 times as much. Without valgrind nothing is counted, and the last line says so.
"""
import argparse
import os
import random
import re
import shutil
import struct
import subprocess
import sys

TOP = os.path.dirname(os.path.dirname(os.path.abspath(__file__)))
LIMIT = 1.5
WORD = 2**64
# The hasher's seed, and its multiplier for a write of so many bytes.
SEED = 0x243F6A8885A308D3
MULTIPLIER = 0x9E3779B97F4A7C15
# How many low bits of a number's hash agree, and of a name's.
BITS, NAME_BITS = 20, 12


def fold(state, value, length):
    product = (state ^ value) * (MULTIPLIER ^ (2 * length))
    return (product ^ (product >> 64)) & (WORD - 1)


def short_vectors(multiplier):
    """Two short vectors of the numbers t with t * multiplier modulo 2^64, by Gauss's reduction."""
    a, b = (1, multiplier), (0, WORD)
    while True:
        if a[0] ** 2 + a[1] ** 2 > b[0] ** 2 + b[1] ** 2:
            a, b = b, a
        times = round((a[0] * b[0] + a[1] * b[1]) / (a[0] ** 2 + a[1] ** 2))
        if times == 0:
            return a, b
        b = (b[0] - times * a[0], b[1] - times * a[1])


def colliding_numbers(count, shift):
    """Numbers whose hashes agree in the low bits. `shift` is 0 or 1: the lowest bit of the hasher's input."""
    multiplier = MULTIPLIER ^ 16
    a, b = short_vectors(multiplier)
    room = 2 ** (64 - BITS)
    found = set()
    span = 0
    while len(found) < count:
        span += 64
        for i in range(-span, span):
            for j in range(-span, span):
                t, rest = i * a[0] + j * b[0], i * a[1] + j * b[1]
                # Below a third of the room the product of what is added below carries nothing upwards.
                if 0 < t < room and 0 <= rest < room // 3:
                    found.add(((t << BITS) | shift) ^ SEED)
    chosen = sorted(found)[:count]
    assert len({fold(SEED, key, 8) % 2**BITS for key in chosen}) == 1
    random.Random(1).shuffle(chosen)
    return chosen


def hash_of(words, name):
    """The hash of a name behind numbers, and its length: a number is one write, each byte is one."""
    state = SEED
    for word in (*words, len(name)):
        state = fold(state, word, 8)
    for byte in name:
        state = fold(state, byte, 1)
    return state


def colliding_names(count, words):
    """Names of eight letters whose hashes behind these numbers agree in the low bits."""
    letters = bytes(range(ord("a"), ord("z") + 1))
    draw, found, mask, multiplier = random.Random(2), [], 2**NAME_BITS - 1, MULTIPLIER ^ 2
    wanted = hash_of(words, b"aaaaaaaa") & mask
    start = SEED
    for word in (*words, 8):
        start = fold(start, word, 8)
    while len(found) < count:
        head = bytes(draw.choices(letters, k=5))
        state = start
        for byte in head:
            state = fold(state, byte, 1)
        for sixth in letters:
            before = fold(state, sixth, 1)
            for seventh in letters:
                behind = fold(before, seventh, 1)
                for last in letters:
                    product = (behind ^ last) * multiplier
                    if (product ^ (product >> 64)) & mask == wanted:
                        found.append(head + bytes((sixth, seventh, last)))
    chosen = sorted(set(found))[:count]
    assert len({hash_of(words, name) & mask for name in chosen}) == 1
    draw.shuffle(chosen)
    return chosen


def drawn_names(count):
    draw, letters = random.Random(3), bytes(range(ord("a"), ord("z") + 1))
    names = set()
    while len(names) < count:
        names.add(bytes(draw.choices(letters, k=8)))
    return sorted(names, key=lambda name: draw.random())


def drawn_numbers(count, lowest):
    draw = random.Random(4)
    return [draw.randrange(2**20, WORD // 2) * 2 + lowest for _ in range(count)]


# ---- frames (linux/fuse.h)


def request(opcode, unique, nodeid, body):
    return struct.pack("<IIQQIIIHH", 40 + len(body), opcode, unique, nodeid, 0, 0, 0, 0, 0) + body


def reply(unique, body, error=0):
    return struct.pack("<IiQ", 16 + len(body), error, unique) + body


def init_request():
    return request(26, 2, 0, struct.pack("<IIII", 7, 31, 131072, 0))


def init_reply():
    flags = 1 << 13  # FUSE_DO_READDIRPLUS
    return reply(2, struct.pack("<IIIIHHIIHH", 7, 31, 131072, flags, 0, 0, 4096, 1, 0, 0) + bytes(32))


def entry(nodeid):
    """A `struct fuse_entry_out` of a directory, without validity."""
    attr = struct.pack("<QQQQQQIIIIIIIIII", nodeid, 0, 0, 0, 0, 0, 0, 0, 0, 0o40755, 1, 0, 0, 0, 4096, 0)
    return struct.pack("<QQQQII", nodeid, 1, 0, 0, 0, 0) + attr


def direntplus(nodeid, offset, name):
    record = struct.pack("<QQII", nodeid, offset, len(name), 4) + name
    return entry(nodeid) + record + bytes(-len(record) % 8)


# ---- what is fed


def kernel_lists(nodeids):
    """A kernel that is given these nodeids, 25 a READDIRPLUS under the same names."""
    lines, unique = ["mount", "read p 0", f"write {init_reply().hex()}"], 4
    for first in range(0, len(nodeids), 25):
        records = [direntplus(node, place + 1, b"n%02d" % place) for place, node in enumerate(nodeids[first : first + 25])]
        lines += ["call listplus / 0", "read p 0", f"write {reply(unique, b''.join(records)).hex()}"]
        unique += 2
    return lines


def kernel_opens(nodeids):
    """A kernel that caches a name and opens a file for each of these nodeids."""
    lines, unique = ["mount", "read p 0", f"write {init_reply().hex()}"], 4
    for place, node in enumerate(nodeids):
        found = bytearray(entry(node))
        struct.pack_into("<Q", found, 16, 1000)
        struct.pack_into("<I", found, 40 + 60, 0o100644)
        body = bytes(found) + struct.pack("<QII", place + 1, 0, 0)
        lines += [f"call create /n{place}", "read p 0", f"write {reply(unique, body).hex()}"]
        unique += 2
    return lines


def kernel_names(names):
    """A kernel that caches these names as missing."""
    missing = bytearray(entry(0))
    struct.pack_into("<QQ", missing, 0, 0, 0)
    struct.pack_into("<Q", missing, 16, 1000)
    missing[40:] = bytes(len(missing) - 40)
    lines, unique = ["mount", "read p 0", f"write {init_reply().hex()}"], 4
    for name in names:
        lines += [f"call stat /{name.decode()}", "read p 0", f"write {reply(unique, bytes(missing)).hex()}"]
        unique += 2
    return lines


SERVER = ["mount 1000 0", f"take {init_request().hex()}", "do 2", "settle 1 0"]


def server_holds(uniques):
    """A server that holds a LOOKUP under each of these uniques, and then performs each."""
    takes = [f"take {request(1, unique, 1, b'none' + bytes(1)).hex()}" for unique in uniques]
    return [*SERVER, *takes, *(f"do {unique}" for unique in uniques)]


def server_makes(names):
    """A server that makes a directory of each of these names."""
    lines, unique = list(SERVER), 4
    for copy, name in enumerate(names, 2):
        frame = request(9, unique, 1, struct.pack("<II", 0o755, 0) + name + bytes(1))
        lines += [f"take {frame.hex()}", f"do {unique}", f"settle {copy} 0"]
        unique += 2
    return lines


def instructions(program, command, lines):
    words = ["valgrind", "--tool=callgrind", "--callgrind-out-file=/dev/null", program, command]
    ran = subprocess.run(words, input=("\n".join(lines) + "\n").encode(), stdout=subprocess.PIPE, stderr=subprocess.PIPE, check=True)
    if b"fault" in ran.stdout or b"refused" in ran.stdout:
        sys.exit(f"{command}: {re.search(b'.*(fault|refused).*', ran.stdout)[0].decode()}")
    return int(re.search(rb"Collected : (\d+)", ran.stderr)[1])


def kinds(count):
    few = min(count, 3000)
    yield "nodeids of READDIRPLUS", "kernel", kernel_lists, colliding_numbers(count, 1), drawn_numbers(count, 0), count
    yield "nodeids of open files", "kernel", kernel_opens, colliding_numbers(few, 1), drawn_numbers(few, 0), few
    yield "names looked up", "kernel", kernel_names, colliding_names(few, (1,)), drawn_names(few), few
    yield "uniques held", "server", server_holds, colliding_numbers(count, 1), drawn_numbers(count, 0), count
    yield "names made", "server", server_makes, colliding_names(few, ()), drawn_names(few), few


def main():
    wanted = argparse.ArgumentParser(description=__doc__, formatter_class=argparse.RawDescriptionHelpFormatter)
    wanted.add_argument("--program", default=os.path.join(TOP, "crates/fuseworld/out/fuseworld"))
    wanted.add_argument("--count", type=int, default=12000)
    words = wanted.parse_args()
    if shutil.which("valgrind") is None:
        print("skipped: colliding keys, as there is no valgrind")
        return 0
    passed = failed = 0
    print("| Keys | How many | Instructions a key, drawn | Colliding | Ratio |\n|---|---|---|---|---|")
    for name, command, made, colliding, drawn, size in kinds(words.count):
        costs = [instructions(words.program, command, made(keys)) / size for keys in (drawn, colliding)]
        ratio = costs[1] / costs[0]
        print(f"| {name} | {size:,} | {costs[0]:,.0f} | {costs[1]:,.0f} | {ratio:.2f} |", flush=True)
        passed, failed = passed + (ratio <= LIMIT), failed + (ratio > LIMIT)
    print(f"{passed} kinds of keys passed, {failed} failed")
    return 1 if failed else 0


if __name__ == "__main__":
    sys.exit(main())
