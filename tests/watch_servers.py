#!/usr/bin/env python3
"""Watches FUSE servers that others wrote, and the program's own, on mounts under load, and judges each session by `check`.

    watch_servers.py [--program FILE] [--only WORD] [--frames N] [--keep FOLDER]

A server has sessions of three kinds. `all` has every load of watch_loads.py until the server has N frames in all (100,000), and
ends by umount. In `signals` callers are killed and signalled, requests wait in the kernel while the server is busy, and
`umount -l` comes while the mount is in use. `abort` ends by an abort of the connection in mid-load. One more, `strace`, is
of a server whose threads all read the device.

A fault that `check` finds is a failure, but where KNOWN says which server has it, and why. A server whose Debian package
is not there is skipped. With --keep the captures that have a fault are kept in FOLDER. Prints a line a session, and ends
with status 1 where one failed.
"""
import argparse
import os
import re
import shutil
import subprocess
import sys
import tempfile
import time
from collections import Counter
from pathlib import Path

from real_servers import NOTIFYING, SERVERS, Server, build, put_folder
from watch_loads import CHURN, GIT, KILL, LOADS, READ, READS, STATS, WRITES
from watched import TOP, Watched, reason_to_skip

TESTS = TOP / "tests"
SECONDS = 3  # of a load that has no end of its own
LONGEST = 120  # seconds for a load
SHOWN = 20  # of the faults of a session
SPLICED = "max_read=53248"
PERMISSIONS = "default_permissions"


class Sessions:
    """A server, more words for it, options of its mount, and its loads."""

    def __init__(self, server, words=(), options=PERMISSIONS, loads=WRITES, name=None, is_straced=False):
        self.name, self.server, self.words, self.options, self.loads = name or server.name, server, list(words), options, loads
        self.is_straced = is_straced


def passthrough_ll(name, *words, **more):
    return Sessions(SERVERS["passthrough_ll"], words, name=f"passthrough_ll, {name}", **more)


def agreeing(name, *words, **more):
    command = ["python3", f"{TESTS}/agreeing_server.py", "FOLDER/files", "MOUNT", *words]
    return Sessions(Server(name, "python3", ["python3"], command, put_folder), **more)


WATCHED = [
    passthrough_ll("one thread", "-s"),
    passthrough_ll("many threads", options="", is_straced=True),
    passthrough_ll("no caches", "-o", "cache=never"),
    passthrough_ll("all caches", "-o", "cache=always,writeback,xattr,flock"),
    Sessions(SERVERS["passthrough"]),
    Sessions(SERVERS["passthrough_fh"]),
    Sessions(SERVERS["hello_ll"], loads=READS),
    *(Sessions(SERVERS[name], loads=READS) for name in NOTIFYING),
    Sessions(SERVERS["loopback"], options=f"{SPLICED},{PERMISSIONS}"),
    Sessions(SERVERS["gocryptfs"], options=SPLICED),
    Sessions(SERVERS["fuse-overlayfs"]),
    Sessions(SERVERS["squashfuse_ll"], loads=READS),
    Sessions(SERVERS["bindfs"]),
    Sessions(SERVERS["unionfs"]),
    Sessions(SERVERS["mergerfs"]),
    Sessions(SERVERS["fuse2fs"]),
    Sessions(SERVERS["glusterfs"]),
    Sessions(SERVERS["ntfs-3g"]),
    Sessions(SERVERS["sshfs"]),
    Sessions(Server("serve", "none", [], ["PROGRAM", "serve", "STDIO"]), options="max_read=4096"),
    agreeing("agrees to all", options=""),
    agreeing("agrees to all, no opens", "no-open"),
    agreeing("agrees to 7.12", "old"),
]
# What `check` says of a server, by the server's name: party and rule.
TWO_FILES = {"server: node of two kinds", "server: node of two inode numbers"}
KNOWN = {
    # A LOOKUP beside a RENAME finds the new file below, and the old node in the tree of names.
    "passthrough": TWO_FILES,
    "passthrough_fh": TWO_FILES,
    # It agrees to 7.18, and does not know BATCH_FORGET.
    "ntfs-3g": {"server: reply to FORGET"},
}


def put_tree(outside):
    """What is copied into mounts: headers of C, which have names, folders and many sizes."""
    (outside / "tree").mkdir(parents=True)
    for name in ("linux", "asm-generic"):
        if (Path("/usr/include") / name).exists():
            shutil.copytree(Path("/usr/include") / name, outside / "tree" / name)


class Run:
    """The sessions of a server."""

    def __init__(self, words, built, sessions, folder):
        self.words, self.built, self.sessions, self.folder = words, built, sessions, folder
        self.outside = folder / "outside"
        put_tree(self.outside)
        self.frames = self.passed = self.failed = 0

    def start(self, name, *more):
        folder = self.folder / name
        folder.mkdir()
        server = self.sessions.server
        if self.sessions.loads is READS:
            shutil.copytree(self.outside / "tree", folder / "image")
            (folder / "image/hello").write_text("Hello World!\n")
        server.prepare(folder)
        for place in ("files", "lower"):
            if (folder / place).exists():
                shutil.copytree(self.outside / "tree", folder / place / "there/tree")
        command = server.command(self.built, folder)
        place = command.index("MOUNT") if "MOUNT" in command else len(command) - 1
        command[place:place] = self.sessions.words
        command = [str(self.words.program) if word == "PROGRAM" else word for word in command]
        return Watched(self.built, folder, command, self.sessions.options, ["-s", "0", *more])

    def begin(self, watched, load):
        """The processes of a load's scripts."""
        for script in load:
            script = script.replace("OUTSIDE", str(self.outside)).replace("TESTS", str(TESTS)).replace("SECONDS", str(SECONDS))
            yield subprocess.Popen(["timeout", "-k", "2", str(LONGEST), "sh", "-c", script], cwd=watched.mount,
                                   stdin=subprocess.DEVNULL, stdout=subprocess.DEVNULL, stderr=subprocess.DEVNULL)

    def load(self, watched, load):
        for process in list(self.begin(watched, load)):
            process.wait()

    def is_enough(self, watched):
        with open(watched.capture, "rb") as capture:
            return sum(part.count(b"\n") for part in iter(lambda: capture.read(1 << 20), b"")) >= self.words.frames

    def try_(self, session):
        try:
            session()
        except OSError as fault:
            self.failed += 1
            print(f"not ok: {self.sessions.name}: {session.__name__}: {fault}", flush=True)

    def all(self):
        with self.start("all") as watched:
            names = [name for name in self.sessions.loads if not name.startswith("stress-ng") or shutil.which("stress-ng")]
            for turn in range(20):
                for name in names:
                    if turn > 0 and self.is_enough(watched):
                        break
                    self.load(watched, LOADS[name])
            watched.unmount()
            self.judge("all", watched)

    def strace(self):
        if not shutil.which("strace") or subprocess.run(["strace", "-o", "/dev/null", "true"], check=False).returncode != 0:
            print("skipped: strace, or the right to trace")
            return
        folder = self.folder / "strace"
        folder.mkdir()
        self.sessions.server.prepare(folder)
        with Straced(self.built, folder) as watched:
            for name in ("churn", "stress-ng of names", "signals"):
                self.load(watched, LOADS[name])
            watched.unmount()
            self.judge("strace", watched)

    def signals(self):
        """A lazy unmount while processes work in the mount, which go on in it until they end."""
        with self.start("signals", "-k") as watched:
            processes = list(self.begin(watched, [KILL, STATS, CHURN]))
            time.sleep(SECONDS / 2)
            watched.unmount("-l")
            for process in processes:
                process.wait()
            self.judge("signals", watched)

    def abort(self):
        with self.start("abort") as watched:
            processes = list(self.begin(watched, [CHURN, READ if self.sessions.loads is READS else GIT]))
            time.sleep(SECONDS / 2)
            is_aborted = watched.abort()
            for process in processes:
                process.wait()
            if not is_aborted:
                print(f"skipped: {self.sessions.name}: abort ({watched.said.read_text(errors='replace').strip() or 'no fusectl'})")
            watched.unmount()
            self.judge("abort", watched)

    def judge(self, name, watched):
        is_ended = watched.await_end()
        said = subprocess.run([self.words.program, "check", watched.capture], stdin=subprocess.DEVNULL, capture_output=True, text=True)
        with open(watched.capture) as capture:
            count = sum(line[0] in "<>" for line in capture)
        self.frames += count
        known = KNOWN.get(self.sessions.server.name, set())
        faults = Counter(re.sub(r"^line \d+: (\w+: [^:]*).*", r"\1", line) for line in said.stdout.splitlines() if line.startswith("line "))
        other = {fault: many for fault, many in faults.items() if fault not in known and not fault.startswith("warning: ")}
        is_right = is_ended and said.returncode in (0, 6) and not other and watched.watcher.returncode == 0
        self.passed += is_right
        self.failed += not is_right
        text = ", ".join(f"{many} times {fault}" for fault, many in sorted(faults.items())) or "no fault"
        print(f"{'ok' if is_right else 'not ok'}: {self.sessions.name}: {name}: {count:,} frames, {text}", flush=True)
        if other:
            lines = [line for line in said.stdout.splitlines() if any(fault in line for fault in other)]
            print("\n".join(lines[:SHOWN]), flush=True)
        if not is_right and not other:
            print(f"  the watcher's status is {watched.watcher.returncode}, the judge's {said.returncode}: "
                  f"{watched.said.read_text(errors='replace')[-500:]} {said.stderr[-500:]}", flush=True)
        if self.words.keep and (faults or not is_right):
            file = "-".join(re.findall(r"\w+", f"{self.sessions.name} {name}"))
            shutil.copy(watched.capture, self.words.keep / f"{file}.capture")
            (self.words.keep / f"{file}.verdict").write_text(said.stdout)


class Straced(Watched):
    """A bare mount of passthrough_ll's threads, which strace looks at: several readers."""

    def __init__(self, built, folder):
        self.mount, self.capture, self.said, self.trace = (folder / name for name in ("mnt", "capture", "said", "trace"))
        self.mount.mkdir()
        self.has_capture = False
        server = SERVERS["passthrough_ll"].command(built, folder)
        with open(self.said, "wb") as said:
            self.watcher = subprocess.Popen(
                ["strace", "-f", "-y", "-xx", "-s", "1200000", "-e", "trace=read,readv,write,writev", "-o", self.trace,
                 *server[:-1], self.mount], stdin=subprocess.DEVNULL, stdout=said, stderr=said)

    def await_end(self, seconds=60):
        is_ended = super().await_end(seconds)
        with open(self.capture, "w") as capture:
            subprocess.run(["python3", TOP / "examples/watch/from_strace.py", "-s", "0", self.trace], stdout=capture, check=True)
        return is_ended


def words_of():
    parser = argparse.ArgumentParser(description="Sessions of real servers, judged.")
    parser.add_argument("--program", type=Path, default=TOP / "crates/fuseworld/out/fuseworld")
    parser.add_argument("--only", default="", metavar="WORD", help="servers whose name has it")
    parser.add_argument("--frames", type=int, default=100_000, help="of a server's first session")
    parser.add_argument("--keep", type=Path, metavar="FOLDER", help="for captures that have a fault")
    words = parser.parse_args()
    words.program = words.program.resolve()
    return words


def main():
    words = words_of()
    failed = skipped = passed = frames = 0
    with tempfile.TemporaryDirectory() as name:
        built = Path(name)
        if reason := reason_to_skip(built):
            print(f"skipped: {reason}")
            return 0
        for tool in ("stress-ng", "git", "tar", "strace"):
            if not shutil.which(tool):
                print(f"skipped: loads by {tool}")
        watched = [sessions for sessions in WATCHED if words.only in sessions.name]
        there = [sessions for sessions in watched if sessions.server.is_there()]
        build(built, {sessions.server.name for sessions in there})
        for sessions in watched:
            if sessions not in there:
                print(f"skipped: {sessions.name} ({sessions.server.package})")
                skipped += 1
                continue
            with tempfile.TemporaryDirectory() as folder:
                run = Run(words, built, sessions, Path(folder))
                for session in (run.all, run.signals, run.abort, *([run.strace] if sessions.is_straced else [])):
                    run.try_(session)
                failed += run.failed
                passed += run.passed
                frames += run.frames
    print(f"{passed} sessions passed, {failed} failed, {skipped} servers skipped; {frames:,} frames")
    return 1 if failed else 0


if __name__ == "__main__":
    os.environ["LC_ALL"] = "C"
    sys.exit(main())
