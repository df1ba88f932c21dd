#!/usr/bin/env python3
"""What `fuseworld check --json` has to print, by the lines in words that `fuseworld check` has to print.

`tests/check_json.py FILE` reads these lines. The keys are those of docs/CHECK.md.
"""
import json
import re
import sys

# What a fault is about, in words, and the keys of its values.
ABOUT = [
    (r"INTERRUPT (\d+) of (\d+)", ("unique", "original")),
    (r"INTERRUPT of (\d+)", ("original",)),
    (r"unique (\d+)", ("unique",)),
    (r"unique (\d+) of (\d+)", ("unique", "original")),
    (r"bytes (\d+)", ("bytes",)),
    (r"node (\d+)", ("nodeid",)),
    (r"node (\d+) lookups (\d+)", ("nodeid", "lookups")),
    (r"node (\d+) file handle (\d+)", ("nodeid", "fh")),
    (r"node (\d+) generation (\d+) inode (\d+)", ("nodeid", "generation", "ino")),
    (r"node (\d+) inode (\d+)", ("nodeid", "ino")),
    (r"node (\d+) error (\d+)", ("nodeid", "error")),
    (r"([A-Z_0-9]+) (\d+)", ("opcode", "unique")),
    (r"([A-Z_0-9]+)", ("opcode",)),
]


# What the lines before say, in words, and the keys of its values.
BEHIND = [
    (r"request read at line (\d+)", ("read_line",)),
    (r"([A-Z_0-9]+) read at line (\d+)", ("read_opcode", "read_line")),
    (r"answered at line (\d+)", ("answered_line",)),
    (r"given at line (\d+), inode (\d+), count (\d+)", ("given_line", "given_ino", "given_count")),
    (r"forgotten at line (\d+), count (\d+)", ("forgotten_line", "forgotten_count")),
    (r"opened at line (\d+)", ("opened_line",)),
    (r"released at line (\d+)", ("released_line",)),
]


def number(word):
    return int(word) if word.isdigit() else word


def about(words, forms=ABOUT):
    for form, keys in forms:
        found = re.fullmatch(form, words)
        if found:
            return dict(zip(keys, map(number, found.groups())))
    raise ValueError(words)


def fault(line):
    place, unjudged, why = line.removeprefix("line ").partition(": not judged from here on: ")
    if unjudged:
        return {"event": "unjudged", "line": int(place), "why": why}
    line, *behind = line.split("; ")
    _, place, party, rule, *rest = re.fullmatch(r"(line (\d+)): (\w+): ([^:]*)(?:: (.*))?", line).groups()
    named = about(rest[0]) if rest[0] else {}
    for words in behind:
        said = about(words, BEHIND)
        named |= {key: said[key] for key in ("read_line", *said) if key in said}
    if party == "warning":
        return {"event": "warning", "line": int(place), "rule": rule} | named
    return {"event": "fault", "line": int(place), "party": party, "rule": rule} | named


def main():
    *faults, counts, parties = open(sys.argv[1], encoding="utf-8").read().splitlines()
    words = (counts + parties.removeprefix("faults:").replace(",", "")).split()
    pairs = {key: int(value) for key, value in zip(words[::2], words[1::2])}
    for it in ({"event": "check", "schema": 1}, *map(fault, faults), {"event": "counts"} | pairs):
        print(json.dumps(it, separators=(",", ":")))


main()
