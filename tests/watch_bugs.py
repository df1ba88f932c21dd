#!/usr/bin/env python3
"""Watches a server that has one bug (tests/buggy_server.py) on a mount, once for each bug, and looks whether `check` names
the rule, at the line of the wrong frame: watch_bugs.py [PROGRAM].

The rules are those of docs/CHECK.md. Each of the server's has a bug here. Prints a line for each bug that is not named, or
where something else is said, and ends with status 1 where there is one.
"""
import re
import subprocess
import sys
import tempfile
from pathlib import Path

from watched import TOP, Watched, reason_to_skip

# What is done in each mount; a call that waits on ends after 5 seconds.
LOAD = """cat file; stat file; printf "twelve bytes" >> file; stat file; ls -l; mkdir new; rmdir new; stat file; cat file; ls -l"""
WANTED = {
    "wrong-length": "malformed reply",
    "positive-error": "malformed reply",
    "error-of-512": "malformed reply",
    "short-head": "malformed reply",
    "unknown-number": "reply to nothing",
    "twice": "second reply",
    "reply-to-forget": "reply to FORGET",
    "reply-to-no-interrupt": "reply to no INTERRUPT",
    "short-attributes": "body that is not its request's",
    "body-with-error": "body that is not its request's",
    "long-read": "body that is not its request's",
    "record-with-a-slash": "body that is not its request's",
    "more-written": "more than was asked",
    "unknown-notification": "malformed notification",
    "short-notification": "malformed notification",
    "notification-with-another-name": "malformed notification",
    "entry-of-the-root": "entry of the root",
    "entry-of-no-node": "entry of no node",
    "entry-of-no-kind": "entry of no kind",
    "entry-of-another-kind": "entry of another kind",
    "second-generation": "node of two generations",
    "second-kind": "node of two kinds",
    "second-inode": "node of two inode numbers",
    "attributes-of-another-kind": "node of two kinds",
    "record-of-another-kind": "node of two kinds",
    "another-version": "INIT of another version",
    "flag-that-was-not-offered": "flags that were not offered",
}


def rules_of_the_server():
    """By docs/CHECK.md: the tables whose heading names the server, and the rules of INIT that begin with it."""
    text = (TOP / "docs/CHECK.md").read_text()
    for section in re.split(r"^### ", text, flags=re.M)[1:]:
        heading = section.split("\n", 1)[0]
        for rule, said in re.findall(r"^\| `([^`]+)` \| ([^|]+)\|", section, re.M):
            if heading.startswith("The server") or (heading == "INIT" and said.startswith("Server")):
                yield rule


def line_of_the_bug(log, capture):
    """The line of the capture that has the frame with `!` of the log: both have what the server wrote in one order."""
    with open(log) as lines:
        written = [line[0] for line in lines if line[0] in "<!"]
    if "!" not in written:
        return None
    with open(capture) as lines:
        places = [number for number, line in enumerate(lines, 1) if line[0] == "<"]
    place = written.index("!")
    return places[place] if place < len(places) else None


def try_bug(program, built, folder, word):
    """Why the bug is not named as it should be, or None."""
    log = folder / "log"
    server = ["python3", str(TOP / "tests/buggy_server.py"), word, str(log), "MOUNT"]
    with Watched(built, folder, server, more=()) as watched:
        for call in LOAD.split("; "):
            subprocess.run(["timeout", "-k", "1", "5", "sh", "-c", f'cd "$0" && {call}', watched.mount], check=False,
                           stdin=subprocess.DEVNULL, stdout=subprocess.DEVNULL, stderr=subprocess.DEVNULL)
        watched.unmount()
        if not watched.await_end():
            return "the watcher does not end"
        line = line_of_the_bug(log, watched.capture)
        said = subprocess.run([program, "check", watched.capture], stdin=subprocess.DEVNULL, capture_output=True, text=True)
    if line is None:
        return "the wrong frame did not come"
    wanted = f"line {line}: server: {WANTED[word]}"
    faults = [found[0] for text in said.stdout.splitlines() if (found := re.match(r"line \d+: \w+: [^:]*", text))]
    other = [fault for fault in faults if fault != wanted and ": warning: " not in fault]
    if said.returncode != 6 or wanted not in faults or other:
        return f"wanted {wanted}\n{said.stdout}{said.stderr}"
    return None


def main():
    program = Path(sys.argv[1] if len(sys.argv) > 1 else TOP / "crates/fuseworld/out/fuseworld").resolve()
    passed = failed = 0
    rules, tried = set(rules_of_the_server()), set(WANTED.values())
    if rules != tried:
        failed += 1
        print(f"not ok: rules without a bug {sorted(rules - tried)}, and bugs of no rule {sorted(tried - rules)}")
    with tempfile.TemporaryDirectory() as name:
        built = Path(name)
        if reason := reason_to_skip(built):
            print(f"skipped: {reason}")
            return 0
        for word in WANTED:
            (built / word).mkdir()
            fault = try_bug(program, built, built / word, word)
            passed += fault is None
            failed += fault is not None
            if fault:
                print(f"not ok: {word}: {fault}")
    print(f"{passed} bugs of a server named, {failed} failed")
    return 1 if failed else 0


if __name__ == "__main__":
    sys.exit(main())
