#!/usr/bin/env python3
"""Runs the commands of README.md and docs/ with the built program, and compares what they print.

In a block that is marked `console` a line that begins with `$ ` is a command, and what follows is its output. Where the
command has `<<END`, the lines that begin with `> ` go on with it, up to `> END`. The blocks of a page are run in one
folder. Prints each command that differs, and ends with status 1 where there is one.
"""
import os
import re
import subprocess
import sys
import tempfile
from pathlib import Path

TOP = Path(__file__).resolve().parent.parent
PROGRAM = Path(os.environ.get("FUSEWORLD", TOP / "crates" / "fuseworld" / "out" / "fuseworld"))
PAGES = [TOP / "README.md", *sorted((TOP / "docs").glob("*.md"))]


def commands(block):
    """Each command of a block, and what it is to print."""
    found = []
    for line in block.splitlines():
        if line.startswith("$ "):
            found.append([line[2:], ""])
        elif line.startswith("> ") and "<<END" in found[-1][0] and not found[-1][0].endswith("\nEND"):
            found[-1][0] += "\n" + line[2:]
        else:
            found[-1][1] += line + "\n"
    return found


def run_page(page):
    """How many commands of a page print what they are to print, and how many do not."""
    passed, failed = 0, 0
    with tempfile.TemporaryDirectory() as folder:
        os.symlink(PROGRAM.resolve(), Path(folder) / "fuseworld")
        environment = {"PATH": f"{folder}:{os.environ['PATH']}"}
        for block in re.findall(r"^```console\n(.*?)^```", page.read_text(), re.M | re.S):
            for command, wanted in commands(block):
                ran = subprocess.run(["bash", "-c", command], cwd=folder, env=environment, capture_output=True, text=True)
                if ran.stdout == wanted and not ran.stderr:
                    passed += 1
                else:
                    failed += 1
                    print(f"{page.relative_to(TOP)}: $ {command}\nwanted:\n{wanted}printed:\n{ran.stdout}{ran.stderr}")
    return passed, failed


def main():
    counts = [run_page(page) for page in PAGES]
    passed, failed = (sum(column) for column in zip(*counts))
    print(f"{passed} commands of the documents passed, {failed} failed")
    return 1 if failed else 0


sys.exit(main())
