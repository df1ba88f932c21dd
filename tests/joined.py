#!/usr/bin/env python3
"""Whether `check --joined` names no fault that what went before may excuse: captures are cut, and what is left is judged.

    joined.py [--cuts N] PROGRAM FILE..    cuts each capture at N places, 20 without it, and judges each rest, then each rest
                                           with a reply written twice

What stands before a cut may go before a session that is joined, or the cut is passed over. The rest may have the faults
that the whole has on the same lines, and no other; of a node that is of two files the line may be another, where the
whole has such a fault before it. A second reply is named. What differs is printed, and the status is 1.
"""
import re
import subprocess
import sys
import tempfile

# What the lines before say is left out: the rest has not all of them.
LINE = re.compile(r"line (\d+): ([^;]*)")
TWO_FILES = ("node of two generations", "node of two kinds", "node of two inode numbers")


def faults(program, lines, *options):
    """The faults that the program prints of these lines: pairs of a line's place, from 0, and a text. None where it cannot read
    the lines, or says that the session cannot be judged."""
    with tempfile.NamedTemporaryFile("w", suffix=".capture") as capture:
        capture.write("\n".join(lines) + "\n")
        capture.flush()
        done = subprocess.run([program, "check", *options, capture.name], capture_output=True, text=True)
    if done.returncode not in (0, 6) or "not judged from here on" in done.stdout:
        return None
    return [(int(match[1]) - 1, match[2]) for match in map(LINE.match, done.stdout.splitlines()) if match]


def frame_of(line):
    """The hex of the frame that a line has, or none."""
    words = [word for word in line.split() if not word.startswith("@")]
    return words[1].lower() if words[:1] in (["<"], [">"]) else ""


def number_of(line):
    """The number of a frame that a line has, in hex."""
    return frame_of(line)[16:32]


def numbers_read(lines):
    return {number_of(line) for line in lines if line.startswith(">")}


def may_go_before(earlier, rest):
    """Whether one thread uses the device, nothing is asked for once more, and no number is read in both parts."""
    return not (any(line.startswith("= several") for line in earlier)
                or any(line.startswith("<") and frame_of(line)[8:32] == "07" + "0" * 22 for line in earlier)
                or numbers_read(earlier) & numbers_read(rest))


def answered(lines):
    """The place of the last reply that the device accepted, by words of one form, whose request stands before it and is no
    INTERRUPT; None where there is none."""
    read, found = set(), None
    for place, line in enumerate(lines):
        if line.startswith("> "):
            read.add(number_of(line))
        elif re.fullmatch("< [0-9a-f]+", line) and number_of(line) in read and int(number_of(line)[:2], 16) % 2 == 0:
            found = place
    return found


def excused(fault, whole, cut):
    """Whether the whole has this fault of a rest, or says of an earlier line that a node is of two files."""
    place, text = fault
    if (place + cut, text) in whole:
        return True
    return any(words in text for words in TWO_FILES) and any(
        before <= place + cut and any(words in other for words in TWO_FILES) for before, other in whole)


def try_cut(program, name, lines, whole, cut):
    """Judges what stands from a line on; how many of its faults are no faults of the whole, or are not named."""
    rest = lines[cut:]
    if not may_go_before(lines[:cut], rest):
        return 0
    wrong = [fault for fault in faults(program, rest, "--joined") or [] if not excused(fault, whole, cut)]
    for place, text in wrong:
        print(f"{name} from line {cut + 1}: line {place + cut + 1}: {text}")
    twice = answered(rest)
    if twice is None:
        return len(wrong)
    again = rest[:twice + 1] + [rest[twice] + " ENOENT"] + rest[twice + 1:]
    named = faults(program, again, "--joined")
    if named is not None and not any(place == twice + 1 and "second reply" in text for place, text in named):
        print(f"{name} from line {cut + 1}: the second reply behind line {twice + cut + 1} is not named")
        return len(wrong) + 1
    return len(wrong)


def main():
    words, count = sys.argv[1:], 20
    if words[0] == "--cuts":
        count, words = int(words[1]), words[2:]
    program, names = words[0], words[1:]
    wrong = 0
    for name in names:
        with open(name) as capture:
            lines = capture.read().split("\n")
        whole = faults(program, lines)
        if whole is None:
            continue
        cuts = sorted({1 + (len(lines) - 2) * part // count for part in range(count)})
        wrong += sum(try_cut(program, name, lines, whole, cut) for cut in cuts)
    return 1 if wrong else 0


if __name__ == "__main__":
    sys.exit(main())
