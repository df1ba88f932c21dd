#!/usr/bin/env python3
"""Has the built program's `drive --random` explore FUSE servers that others wrote, over the launcher of examples/drive.

    explore_servers.py [PROGRAM [SEEDS [NAME..]]]

PROGRAM is the built program, or crates/fuseworld/out/fuseworld; each server is driven under SEEDS seeds, 20 if that is left
out, each time in a new folder. Prints, for each server, how many lines were run, and each kind of finding with its number and
the first seed that has it; numbers of nodes, requests and calls are `-` there. With NAMEs only those servers are explored. A
server whose Debian package is not there is skipped. It judges nothing: examples/explore/README.md has what was found.
"""
import collections
import os
import re
import shutil
import subprocess
import sys
import tempfile
from pathlib import Path

sys.dont_write_bytecode = True
from real_servers import DRIVE, SERVERS, TOP, build, quiet

PROGRAM = Path(sys.argv[1] if len(sys.argv) > 1 else TOP / "crates/fuseworld/out/fuseworld").resolve()
SEEDS = range(1, 1 + (int(sys.argv[2]) if len(sys.argv) > 2 else 20))
NAMES = sys.argv[3:] or ["passthrough_ll", "passthrough", "passthrough_fh", "hello_ll", "hello", "loopback", "gocryptfs",
                         "fuse-overlayfs", "bindfs", "squashfuse_ll", "sshfs"]
WAIT = 2000  # milliseconds, for a reply
EVENTS = 400
SECONDS = 120  # the longest run
FINDING = re.compile(r"^# (frame \d+: (?:server|kernel|device|warning): .*|reply to nothing.*|second reply.*|body is not .*|no reply.*"
                     r"|node \d+ (?:under|given) .*|the root given .*|server ended|device failed.*|differs: answer .*)$")


def kind_of(finding):
    """A finding without the numbers that are each run's own; an answer that differs with the word of its call."""
    if match := re.match(r"differs: answer \d+ \(call (\S+).*\): (.*), here (.*)$", finding):
        return f"{match[1]}: {answer_of(match[2])}, here {answer_of(match[3])}"
    return re.sub(r"\b\d+\b", "-", re.sub(r"^frame \d+: ", "", finding))


def answer_of(words):
    """An answer by its error, or what it gives."""
    number, _, rest = words.partition(" ")
    if number != "0":
        return number
    rest = re.sub(r":\d+:", ":", rest)
    if ":" in rest:
        return " ".join(sorted(rest.split()))
    return re.sub(r"^(file|dir|other) \d+ (\d+) \d+", r"\1 \2", rest) if len(rest) < 40 else "bytes"


def findings_of(lines):
    """The findings of a run, without numbers."""
    return [kind_of(match[1]) for match in map(FINDING.match, lines) if match]


def explore(built, server, seed):
    """The status of a run, how many lines it has that are no comments, and its findings."""
    with tempfile.TemporaryDirectory() as name:
        folder = Path(name)
        server.prepare(folder)
        words = [built / "launcher", "-t", str(WAIT), PROGRAM, "drive", "--random", "--seed", str(seed), "--events", str(EVENTS), "--offer", "30", "-",
                 "--", *server.command(built, folder)]
        try:
            ran = subprocess.run(words, stdin=subprocess.DEVNULL, capture_output=True, timeout=SECONDS)
        except subprocess.TimeoutExpired:
            return "late", 0, ["no end"]
    lines = ran.stdout.decode(errors="replace").splitlines()
    return ran.returncode, sum(1 for line in lines if line and not line.startswith("#")), findings_of(lines)


def explore_all(built, server):
    kinds, first, statuses, run = collections.Counter(), {}, collections.Counter(), 0
    for seed in SEEDS:
        status, lines, found = explore(built, server, seed)
        statuses[status] += 1
        run += lines
        for finding in found:
            kinds[finding] += 1
            first.setdefault(finding, seed)
    said = ", ".join(f"status {status}: {count}" for status, count in sorted(statuses.items(), key=str))
    print(f"{server.name}: {len(SEEDS)} seeds, {run} lines, {said}")
    for kind, count in kinds.most_common():
        print(f"  {count} times, first under seed {first[kind]}: {kind}")
    sys.stdout.flush()


def main():
    servers = [SERVERS[name] for name in NAMES]
    there = [server for server in servers if server.is_there() and shutil.which("cc")]
    with tempfile.TemporaryDirectory() as name:
        built = Path(name)
        if there:
            quiet(["cc", "-O2", "-o", built / "launcher", DRIVE / "launcher.c"])
            build(built, [server.name for server in there])
        for server in servers:
            if server in there:
                explore_all(built, server)
            else:
                print(f"skipped: {server.name} ({server.package})")


if __name__ == "__main__":
    os.umask(0o022)
    main()
