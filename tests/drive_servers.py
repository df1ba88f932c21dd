#!/usr/bin/env python3
"""Runs the scripts of examples/drive on FUSE servers that others wrote, by the program's command `drive`.

Takes the program's path, or takes crates/fuseworld/out/fuseworld. A server whose Debian package is not there is skipped.
What a run prints is compared with the sections of examples/drive/calls.expected and races.expected that name its script
and its server; where there are several, any of them. Numbers that are each run's own are printed as `-`: see `told`.
Prints a line for each run that differs, and ends with status 1 where there is one.
"""
import os
import re
import resource
import select
import shutil
import subprocess
import sys
import tempfile
import time
from pathlib import Path

from real_servers import DRIVE, HELLO, SERVERS, TOP, build, put_cipher, put_folder, put_layers, quiet

PROGRAM = Path(sys.argv[1] if len(sys.argv) > 1 else TOP / "crates/fuseworld/out/fuseworld").resolve()
WAIT = 2000  # milliseconds, for a reply
IDLE = 0.5  # seconds without a line, after which a pipe is opened
SECONDS = 30  # the longest run
TURNS = 3  # how often a run is tried: which thread of a server comes first is not the script's
CALLS = ["below-a-file"]
CHANGES = ["read-write", "unlinked-but-open", "failed-rename", "long-name", "write-nothing", *CALLS, "rmdir-a-file", "unlink-a-directory",
           "rename-into-itself", "rename-onto-itself", "rename-onto-a-link"]
RACES = ["interrupt-after", "forget-between", "abort-and-mount"]
SLOW = ["late-reply", "interrupt-before", "unlink-while-opened"]
# The line that is printed of a server over go-fuse 2.1.0, and of no other; it stands in no section.
OLDER = "7.28 taken as 7.31"
OVER_GO_FUSE = ["loopback", "gocryptfs"]


def with_files(empty, place):
    """The same with the file and the pipe, of which `pipe` is another link."""
    def filled(folder):
        empty(folder)
        (folder / place / "hello").write_bytes(HELLO)
        os.mkfifo(folder / "pipe")
        os.link(folder / "pipe", folder / place / "slow")
    return filled


def put_cipher_files(folder):
    """gocryptfs makes two files, and the second is replaced by a pipe."""
    put_cipher(folder)
    script = folder / "make.script"
    script.write_text("call create /hello\ncall write 1 0 48656c6c6f20576f726c64210a\ncall close 1\n")
    launch(SERVERS["gocryptfs"], folder, script, "--calls")
    before = set((folder / "cipher").iterdir())
    script.write_text("call create /slow\ncall close 1\n")
    launch(SERVERS["gocryptfs"], folder, script, "--calls")
    [made] = set((folder / "cipher").iterdir()) - before
    made.unlink()
    os.mkfifo(folder / "pipe")
    os.link(folder / "pipe", made)


READS = ["read-only", *CALLS, *RACES]
WRITES = [*CHANGES, *RACES, *SLOW]
IN_FILES = with_files(put_folder, "files")
# The scripts of each server, and how its folder is prepared for scripts of events: with the file `hello` and the pipe
# `slow`. For scripts of calls it is empty.
DRIVEN = {
    "hello_ll_uds": (READS, None),
    "hello_ll": (READS, None),
    "hello": (READS, None),
    "squashfuse_ll": (READS, None),
    "passthrough": (WRITES, IN_FILES),
    "passthrough_fh": (WRITES, IN_FILES),
    "passthrough_ll": (WRITES, IN_FILES),
    "loopback": (WRITES, IN_FILES),
    "fuse-overlayfs": (WRITES, with_files(put_layers, "lower")),
    "gocryptfs": (WRITES, put_cipher_files),
}


def opened(pipe):
    """The pipe, opened for writing, or None while nobody opens it for reading."""
    try:
        return os.open(pipe, os.O_WRONLY | os.O_NONBLOCK)
    except OSError:
        return None


def output_of(words, slow=None):
    """What a command prints, and its status if that is not 0. Once nothing more comes, the pipe is opened for writing."""
    command = subprocess.Popen(words, stdin=subprocess.DEVNULL, stdout=subprocess.PIPE, stderr=subprocess.DEVNULL)
    text, writer, end = b"", None, time.monotonic() + SECONDS
    while time.monotonic() < end:
        if not select.select([command.stdout], [], [], IDLE)[0]:
            writer = opened(slow) if slow and writer is None else writer
            continue
        part = os.read(command.stdout.fileno(), 1 << 16)
        if not part:
            break
        text += part
    else:
        command.kill()
    if writer is not None:
        os.close(writer)
    # 6 says no more than the lines.
    status = command.wait()
    return text.decode() + (f"status {status}\n" if status not in (0, 6) else "")


def launch(server, folder, script, form, slow=None):
    """What a script prints on a server over the launcher."""
    still = ["setarch", "-R"] if server.has_addresses else []
    return output_of([BUILT / "launcher", "-t", str(WAIT), PROGRAM, "drive", *form.split(), script, "--", *still,
                      *server.command(BUILT, folder)], slow)


def connect(script, form):
    """What a script prints on hello_ll_uds, which listens at a socket."""
    socket = BUILT / "uds.sock"
    socket.unlink(missing_ok=True)
    listens = subprocess.Popen([BUILT / "hello_ll_uds"], stdin=subprocess.DEVNULL, stdout=subprocess.DEVNULL, stderr=subprocess.DEVNULL)
    for _ in range(100):
        if socket.exists():
            break
        time.sleep(0.02)
    said = output_of([PROGRAM, "drive", "--wait", str(WAIT), *form.split(), script, socket])
    listens.kill()
    listens.wait()
    return said


def run(server, script, node=None):
    """What a script prints on a server in a new folder, with `evict` of another node than 2 if one is given."""
    is_of_calls = script not in RACES + SLOW
    with tempfile.TemporaryDirectory() as name:
        folder = Path(name)
        filled = DRIVEN[server.name][1]
        (server.prepare if is_of_calls or filled is None else filled)(folder)
        file = DRIVE / f"{script}.script"
        if node:
            file = folder / "other.script"
            file.write_text((DRIVE / f"{script}.script").read_text().replace("evict 2\n", f"evict {node}\n"))
        form = "--beside" if is_of_calls else ""
        if server.words is None:
            return connect(file, form)
        return launch(server, folder, file, form, folder / "pipe" if script in SLOW else None)


def told(said):
    """The lines that are compared: of a script of calls those that differ from the world beside, of one of events all.
    Inode numbers, the sizes and links of directories, and node ids with their generations are `-`. Lists are sorted, and
    have no offsets."""
    lines = []
    is_beside = re.search(r"^answers \d+ differ", said, re.M) or "\nread " not in said
    for line in said.splitlines():
        if line == OLDER or is_beside and re.match(r"(mounted|call|answer|now|kernel)\b", line):
            continue
        # Which requests wait then is the server's own.
        line = re.sub(r"^no reply: .*", "no reply", line)
        line = re.sub(r"\bdir \d+ \d+ \d+", "dir - - -", line)
        line = re.sub(r"\b(file|other) \d+ (\d+) (\d+)", r"\1 - \2 \3", line)
        line = re.sub(r"(?:\S+:\d+:(?:dir|file|other),? ?)+", sorted_names, line)
        line = re.sub(r"^evicted \d+", "evicted -", line)
        if line.startswith("kernel"):
            line = " ".join(["kernel", *sorted(re.sub(r"^\d+:\d+", "-", node) for node in line.split()[1:])])
        lines.append(line)
    return "\n".join(lines)


def sorted_names(found):
    """The names of a list in rising order, and what stood behind them."""
    end = re.search(r",? ?$", found[0])[0]
    names = [re.sub(r":\d+:", ":", name) for name in found[0][:len(found[0]) - len(end)].split()]
    return " ".join(sorted(names)) + end


def sections():
    """What is expected of each script on each server: the texts, any of which will do."""
    found = {}
    for file in (DRIVE / "calls.expected", DRIVE / "races.expected"):
        for part in re.split(r"^== ", file.read_text(), flags=re.M)[1:]:
            head, *lines = part.rstrip("\n").split("\n")
            script, names = head.split(": ")
            text = "\n".join(line for line in lines if line and not line.startswith("#"))
            for name in names.split():
                found.setdefault((script, name), []).append(text)
    return found


def run_told(server, script):
    """What is compared of a run, and whether the server agreed on 7.28. Where node ids are addresses, a first run says which
    the file has."""
    said = run(server, script)
    node = re.search(r"^kernel (\d+):", said, re.M)
    if script == "forget-between" and node and node[1] != "2":
        said = run(server, script, node[1])
    return told(said), OLDER in said.splitlines()


def main():
    resource.setrlimit(resource.RLIMIT_CORE, (0, 0))
    servers = [SERVERS[name] for name in DRIVEN]
    there = [server for server in servers if server.is_there() and shutil.which("cc")]
    if there:
        quiet(["cc", "-O2", "-o", BUILT / "launcher", DRIVE / "launcher.c"])
        build(BUILT, [server.name for server in there])
    expected = sections()
    passed = failed = 0
    for server in servers:
        if server not in there:
            print(f"skipped: {server.name} ({server.package})")
            continue
        for script in DRIVEN[server.name][0]:
            for _turn in range(TURNS):
                got, is_older = run_told(server, script)
                is_right = got in expected.get((script, server.name), []) and is_older == (server.name in OVER_GO_FUSE)
                if is_right:
                    break
            if is_right:
                passed += 1
                continue
            failed += 1
            print(f"not ok: {script} on {server.name}\n{got}")
    skipped = len(servers) - len(there)
    print(f"{passed} passed, {failed} failed, {skipped} skipped")
    return 1 if failed else 0


with tempfile.TemporaryDirectory() as built:
    BUILT = Path(built)
    sys.exit(main())
