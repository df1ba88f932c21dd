#!/usr/bin/env python3
"""Tries `fuseworld drive --orders`: how many orders there are, by hand, and that each is a script that answers all calls.

    tests/orders.py [PROGRAM]       or FUSEWORLD=PROGRAM
"""
import os
import re
import subprocess
import sys
import tempfile
import time
from pathlib import Path

TOP = Path(__file__).resolve().parent.parent
PROGRAM = sys.argv[1] if len(sys.argv) > 1 else os.environ.get("FUSEWORLD", str(TOP / "crates/fuseworld/out/fuseworld"))
STAT = "together call stat /\n"
# Files of calls, and how many orders they have. With validity 0 each name is looked up, so `stat /` is one request, GETATTR, and
# `stat /a` two. Requests that each wait for none of the others come in any order: n of them in n! orders. Two calls of two
# requests are interleaved in 6 ways, a call of two beside one of one in 3. A step is put before the request, between it and its
# reply, or behind that; beside two requests, of which t are answered before it, k read before it and answered behind it, and r
# come behind it, there are 6 ways to have t + k + r = 2, for each of the two orders of the requests.
COUNTS = {
    "": 1,
    "call stat /\n": 1,
    STAT: 1,
    STAT * 2: 2,
    STAT * 3: 6,
    STAT * 4: 24,
    "call mkdir /a\ntogether call stat /a\n" + STAT: 3,
    "call mkdir /a\n" + "together call stat /a\n" * 2: 6,
    STAT * 2 + "# a comment parts no group\n\n" + STAT: 6,
    STAT * 2 + "call stat /\n" + STAT * 2: 4,
    STAT + "together tick 1\n": 3,
    "together tick 1\n" + STAT: 3,
    STAT * 2 + "together tick 1\n": 12,
    STAT + "together intr 1 soft\n": 3,
    # A fatal signal takes the unread request off its list.
    STAT + "together intr 1 fatal\n": 3,
    "call mkdir /a\ntick 1\ndrop 1 a\nevict 2\n" + STAT + "together forget\n": 3,
    # A call that is refused at once has no request.
    "together call close 9\n" + STAT: 1,
}
# Files that are refused, and what is said.
REFUSED = {
    STAT * 9: "line 9: too many calls together",
    STAT + "together tick 1\ntogether forget\n": "line 3: second step together",
    "mount 0 0\n": "line 1: unknown event",
    "forget\n": "line 1: unknown event",
    "together drop 1 a\n": "line 1: unknown event",
    "together\n": "line 1: unknown event",
    "call stat\n": "line 1: wrong words",
    "tick 01\n": "line 1: bad number",
    "tick 1\n" * 257: "line 257: too many lines",
    "call stat /\n" * 200: "an order has more than 256 messages",
}
HEAD = re.compile(r"^# order (\d+)\n", re.M)


def ran(text, *words):
    return subprocess.run([PROGRAM, "drive", "--orders", *words, "-"], input=text, capture_output=True, text=True, timeout=600)


def scripts(text):
    """The orders of a file, each by its script; their numbers have to count from 1."""
    parts = HEAD.split(ran(text).stdout)
    assert parts[0] == "" and parts[1::2] == [str(number + 1) for number in range(len(parts) // 2)], (text, parts)
    return parts[2::2]


def answers(script, folder):
    """How many calls are answered where the script drives this program's own server."""
    socket = folder / "socket"
    socket.unlink(missing_ok=True)
    (folder / "script").write_text(script)
    server = subprocess.Popen([PROGRAM, "serve", "--found", "0", str(socket)], stderr=subprocess.DEVNULL)
    try:
        while not socket.exists():
            time.sleep(0.01)
        said = subprocess.run([PROGRAM, "drive", str(folder / "script"), str(socket)], capture_output=True, text=True, timeout=60)
        assert said.returncode == 0 and "refused" not in said.stdout, (script, said)
        return len(re.findall("^answer ", said.stdout, re.M))
    finally:
        server.kill()
        server.wait()


def main():
    tries = 0
    for text, count in COUNTS.items():
        counted = ran(text, "--number")
        found = scripts(text)
        assert (counted.returncode, counted.stdout) == (0, f"{count}\n"), (text, count, counted)
        assert len(found) == count == len(set(found)), (text, count, found)
        last = ran(text, "--nth", str(count))
        assert (last.returncode, last.stdout) == (0, f"# order {count}\n{found[-1]}"), (text, last)
        past = ran(text, "--nth", str(count + 1))
        assert (past.returncode, past.stdout, past.stderr) == (1, "", f"no such order: there are {count}\n"), (text, past)
        tries += 4
    for text, said in REFUSED.items():
        refused = ran(text)
        assert (refused.returncode, refused.stdout, refused.stderr) == (1, "", f"{said}\n"), (text, refused)
        tries += 1
    with tempfile.TemporaryDirectory() as name:
        for text in ("call mkdir /a\ntogether call stat /a\n" + STAT, "call create /a\ntogether call unlink /a\ntogether call stat /a\n"):
            for script in scripts(text):
                assert answers(script, Path(name)) == script.count("call "), script
                tries += 1
    print(f"{tries} tries of orders: all as expected")


if __name__ == "__main__":
    main()
