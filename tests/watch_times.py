#!/usr/bin/env python3
"""What the watcher costs: watch_times.py [PROGRAM].

Of each server: the processor time of `watch` and of `check` in microseconds a frame, and how many calls a second one caller
has, LOOKUP (a stat of a name that is not there) and WRITE of 4 KiB, on a bare mount, on a watched one, and on one whose
capture goes to `check` as it comes. The mounts stand side by side and take turns; the best turn of each counts.
"""
import os
import resource
import subprocess
import sys
import tempfile
import time
from pathlib import Path

from real_servers import SERVERS, build
from watched import TOP, Watched, is_mounted, processor_time, reason_to_skip, until

TURNS, SECONDS, BLOCK = 5, 0.4, bytes(4096)
TIMED = {"passthrough_ll": "", "passthrough": "", "loopback": "max_read=53248", "bindfs": ""}
# Entries that are valid for no time, so that each stat is a LOOKUP.
WORDS = {"passthrough_ll": ["-o", "cache=never"]}


def look(base):
    """Calls a second."""
    count, begun = 0, time.perf_counter()
    while (spent := time.perf_counter() - begun) < SECONDS:
        for number in range(100):
            try:
                os.stat(f"{base}/none{number}")
            except OSError:
                pass
        count += 100
    return count / spent


def write(base):
    file = os.open(f"{base}/file", os.O_WRONLY | os.O_CREAT)
    count, begun = 0, time.perf_counter()
    while (spent := time.perf_counter() - begun) < SECONDS:
        for number in range(100):
            os.pwrite(file, BLOCK, number * len(BLOCK))
        count += 100
    os.close(file)
    return count / spent


class Bare:
    """A mount by the server itself."""

    def __init__(self, built, folder, name):
        self.mount = folder / "mnt"
        self.mount.mkdir()
        command = [str(self.mount) if word in ("MOUNT", f"{folder}/mount") else word for word in command_of(built, folder, name)
                   if word != "env" and not word.startswith("LD_PRELOAD=")]
        self.server = subprocess.Popen(command, stdin=subprocess.DEVNULL, stdout=subprocess.DEVNULL, stderr=subprocess.DEVNULL)

    def __enter__(self):
        if not until(lambda: is_mounted(self.mount)):
            raise OSError("nothing is mounted")
        return self

    def __exit__(self, *_):
        while is_mounted(self.mount):
            subprocess.run(["umount", "-l", self.mount], check=False)
        self.server.wait()


def command_of(built, folder, name):
    command = SERVERS[name].command(built, folder)
    return [*command[:-1], *WORDS.get(name, []), command[-1]]


def prepared(folder, name):
    folder.mkdir()
    SERVERS[name].prepare(folder)
    return folder


def used_by_children():
    """Seconds of processor time of all that have ended."""
    used = resource.getrusage(resource.RUSAGE_CHILDREN)
    return used.ru_utime + used.ru_stime


def lines_of(capture):
    with open(capture, "rb") as lines:
        return sum(line[:1] in b"<>" for line in lines)


def time_server(program, built, folder, name):
    bare, watched, judged = (prepared(folder / kind, name) for kind in ("bare", "watched", "judged"))
    os.mkfifo(judged / "capture")
    judge = subprocess.Popen([program, "check", judged / "capture"], stdin=subprocess.DEVNULL, stdout=subprocess.DEVNULL)
    with Bare(built, bare, name) as first, \
            Watched(built, watched, command_of(built, watched, name), TIMED[name]) as second, \
            Watched(built, judged, command_of(built, judged, name), TIMED[name], has_capture=False) as third:
        best = {}
        for _turn in range(TURNS):
            for call in (look, write):
                for mount in (first, second, third):
                    best[call, mount] = max(best.get((call, mount), 0), call(mount.mount))
        # All lines are written once nothing is asked.
        time.sleep(0.2)
        watching, count = processor_time(second.watcher.pid), lines_of(second.capture)
        before = used_by_children()
        subprocess.run([program, "check", second.capture], stdout=subprocess.DEVNULL, check=False)
        judging = used_by_children() - before
        for mount in (second, third):
            mount.unmount()
            mount.await_end()
    judge.wait()
    print(f"{name}: {count:,} frames; watch {1e6 * watching / count:.1f} us a frame, check {1e6 * judging / count:.1f} us")
    for call, text in ((look, "LOOKUP"), (write, "4 KiB WRITE")):
        plain = best[call, first]
        print(f"  {text}: {plain:,.0f} a second; watched {best[call, second] / plain:.2f} of that, judged as it goes "
              f"{best[call, third] / plain:.2f}", flush=True)


def main():
    program = Path(sys.argv[1] if len(sys.argv) > 1 else TOP / "crates/fuseworld/out/fuseworld").resolve()
    with tempfile.TemporaryDirectory() as name:
        built = Path(name)
        if reason := reason_to_skip(built):
            print(f"skipped: {reason}")
            return 0
        there = [server for server in TIMED if SERVERS[server].is_there()]
        build(built, there)
        for server in TIMED:
            if server in there:
                with tempfile.TemporaryDirectory() as folder:
                    time_server(program, built, Path(folder), server)
            else:
                print(f"skipped: {server} ({SERVERS[server].package})")
    return 0


if __name__ == "__main__":
    sys.exit(main())
