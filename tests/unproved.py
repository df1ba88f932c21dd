#!/usr/bin/env python3
"""Builds the program without proofs, and prints its path: crates/fuseworld/out/fuseworld-unproved.

`rt try` builds a program without proofs, runs it, and keeps no file of it. Here it runs `serve`, which waits for a
connection, and the file that runs is copied. It is compiled with checks and without optimizing, so it is slow, and
what the proofs rule out ends it with a message. Where no source has changed since, it is not built again.

What is built is a copy of the sources whose version is another, so that `--version` says that nothing is proved.
"""
import hashlib
import os
import re
import shutil
import signal
import subprocess
import sys
import tempfile
import time
from pathlib import Path

TOP = Path(__file__).resolve().parent.parent
CRATE = TOP / "crates" / "fuseworld"
PROGRAM = CRATE / "out" / "fuseworld-unproved"
STAMP = CRATE / "out" / "fuseworld-unproved.sources"
WORDS = ["serve", "waits"]
VERSION = re.compile(r'(VERSION: &str = "\S+) \(.*\)"')
UNPROVED = r'\1-unproved (no proofs)"'


def sources():
    """A digest of all that the build reads of the repository, and of what it changes."""
    digest = hashlib.sha256(UNPROVED.encode())
    for file in [TOP / "crates.txt", *sorted(TOP.glob("crates/*/src/**/*.rt"))]:
        digest.update(f"{file.relative_to(TOP)}\n".encode() + file.read_bytes())
    return digest.hexdigest()


def copied_to(folder):
    """Copies the sources into the folder, with the other version; returns the program's crate there."""
    shutil.copytree(TOP / "crates", folder / "crates", ignore=shutil.ignore_patterns("out"))
    for name in ("crates.txt", "HANDLES"):
        shutil.copy(TOP / name, folder)
    crate = folder / "crates" / "fuseworld"
    source = folder / "crates" / "fw_tasks" / "src" / "version.rt"
    text, found = VERSION.subn(UNPROVED, source.read_text())
    if found != 1:
        sys.exit(f"{source.relative_to(folder)} has no version of the form that {Path(__file__).name} changes")
    source.write_text(text)
    return crate


def running_in(folder):
    """The file below the folder that a process runs, by a loader of the toolchain, with the words of `catch`; or None."""
    for process in Path("/proc").iterdir():
        try:
            words = (process / "cmdline").read_text().split("\0")[-4:-1] if process.name.isdigit() else []
        except OSError:
            continue  # it has ended
        if words[1:] == WORDS and words[0].startswith(f"{folder}/"):
            return Path(words[0])
    return None


def catch(folder):
    """Has the program built and run in the folder, and copies it; returns what was said where that fails, else None."""
    said = folder / "said"
    with said.open("wb") as log:
        tried = subprocess.Popen(["rt", "try", "--", *WORDS], cwd=copied_to(folder), stdin=subprocess.DEVNULL, stdout=log,
                                 stderr=subprocess.STDOUT, env={**os.environ, "TMPDIR": str(folder)})
    try:
        while tried.poll() is None:
            if file := running_in(folder):
                shutil.copyfile(file, f"{PROGRAM}.new")
                os.chmod(f"{PROGRAM}.new", 0o755)
                os.replace(f"{PROGRAM}.new", PROGRAM)
                return None
            time.sleep(0.05)
    finally:
        tried.send_signal(signal.SIGTERM)
        tried.wait()
    return said.read_text(errors="replace").replace(str(folder), str(TOP))


def main():
    if shutil.which("rt") is None:
        print("rt is not on the path: it takes the toolchain of Rattle (README.md)", file=sys.stderr)
        return 1
    wanted = sources()
    if not (PROGRAM.exists() and STAMP.exists() and STAMP.read_text() == wanted):
        print("building without proofs, a minute or more ..", file=sys.stderr)
        PROGRAM.parent.mkdir(exist_ok=True)
        with tempfile.TemporaryDirectory(prefix="fuseworld-unproved-") as folder:
            if fault := catch(Path(folder)):
                print(fault, end="", file=sys.stderr)
                return 1
        STAMP.write_text(wanted)
    print("built without proofs: nothing of it is proved, and its --version says so", file=sys.stderr)
    print(os.path.relpath(PROGRAM))
    return 0


sys.exit(main())
