#!/usr/bin/env python3
"""Runs a FUSE server through every order of the messages of some calls, and prints the first order that goes wrong.

    orders.py [OPTIONS] SERVER-WORDS .. -- FILE

FILE has the calls, as `fuseworld drive --orders` reads them. The server is started anew for each order. It listens at the
Unix stream socket whose path stands in the place of the word SOCK; or it has /dev/fd/N in the place of the word MOUNT, by
examples/drive/launcher.c, which -l names once it is built.

An order goes wrong where `drive` says what the server did wrong, or the judge of sessions does, or where the run does not come
to its end; with --beside also where an answer is another than that of `fuseworld serve` at the same order. The status is 1 then,
and 0 where none does.
"""
import argparse
import re
import subprocess
import sys
import tempfile
from pathlib import Path

from shrink import WRONG, differing, over_launcher, over_socket, parse

HEAD = re.compile(r"# order (\d+)$")
# The longest that a kernel of fuseworld keeps a name. In an order each name is looked up anew, whatever the server says.
DAY = "tick 86400000\n"
ALL_RUN = (0, 6)


def parsed():
    parser = argparse.ArgumentParser(description=__doc__.splitlines()[0], usage="orders.py [OPTIONS] SERVER-WORDS .. -- FILE")
    parser.add_argument("-B", "--beside", action="store_true", help="compare the answers with those of `fuseworld serve` too")
    parser.add_argument("-m", "--most", type=int, default=0, help="how many orders are run at most; 0 for all")
    return parse(parser)


def orders(asked):
    """The orders as `drive --orders` prints them: the number of each, and its script. Ends the program where it fails."""
    printing = subprocess.Popen([asked.program, "drive", "--orders", asked.file], stdout=subprocess.PIPE, text=True)
    number, script = None, []
    try:
        for line in printing.stdout:
            if head := HEAD.match(line):
                if number is not None:
                    yield number, script
                number, script = int(head[1]), []
            else:
                script += [line, DAY] if line == "write\n" else [line]
        if printing.wait() != 0:
            sys.exit(printing.returncode)
        if number is not None:
            yield number, script
    finally:
        printing.stdout.close()
        printing.terminate()
        printing.wait()


def driven(asked, script, server):
    """How `drive` before a server ends at an order."""
    drive = [asked.program, "drive", "--check", *asked.option]
    asked = argparse.Namespace(**{**vars(asked), "server": server})
    with tempfile.TemporaryDirectory() as name:
        folder = Path(name)
        (folder / "script").write_text("".join(script))
        ran = (over_socket if "SOCK" in server else over_launcher)(asked, drive, folder)
    if ran.returncode in (1, 2):
        sys.exit(ran.stderr or ran.stdout)
    return ran


def found_at(asked, script):
    """Whether the server goes wrong at an order, and the lines of what is said."""
    if asked.before:
        subprocess.run(asked.before, shell=True, check=True)
    ran = driven(asked, script, asked.server)
    lines = (ran.stdout + ran.stderr).splitlines()
    if asked.beside:
        lines += differing(lines, driven(asked, script, [asked.program, "serve", "--found", "0", "SOCK"]).stdout.splitlines())
    return ran.returncode not in ALL_RUN or any(WRONG.match(line) for line in lines), lines


def main():
    asked = parsed()
    run = wrong = 0
    for number, script in orders(asked):
        run += 1
        is_wrong, lines = found_at(asked, script)
        if is_wrong and not wrong:
            print("".join([f"# order {number}\n", *script, *(f"# {line}\n" for line in lines)]), end="", flush=True)
        wrong += is_wrong
        if run == asked.most:
            break
    print(f"{run} orders, {wrong} wrong")
    return 1 if wrong else 0


if __name__ == "__main__":
    sys.exit(main())
