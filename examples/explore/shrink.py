#!/usr/bin/env python3
"""Shrinks a script of `fuseworld drive` at which a FUSE server goes wrong, until no line of it can go.

    shrink.py [OPTIONS] SERVER-WORDS .. -- SCRIPT

The server is started anew for each try. It listens at the Unix stream socket whose path stands in the place of the word
SOCK; or it has /dev/fd/N in the place of the word MOUNT, by examples/drive/launcher.c, which -l names once it is built.

A fault is a line in which `drive` says what the server did wrong, or that it ended or sent no whole frame, or in which the
judge of sessions does, without its numbers. Where there is none, it is the first answer that `fuseworld serve` gives otherwise
at the same script, as `--random` compares answers; and where all are alike, what the judge warns of. The first fault of the
whole script is kept, or the one that -f names, as "no reply". Where the calls alone show it, carried one after another, they
are what is left: a script for `drive --calls`. Else a call goes with its own requests and replies, or a line alone. SCRIPT.short
is the script that is left, whose calls have names where others name them, with what `drive` prints of it as comments;
SCRIPT.short.capture what went over the device, and SCRIPT.short.svg a picture of it.
"""
import argparse
import errno
import os
import re
import subprocess
import sys
import tempfile
import time
from pathlib import Path

WRONG = re.compile(r"(reply to nothing|second reply|no reply's head|body is not its request's|node \d+ under two generations"
                   r"|node \d+ given for two files at once|the root given for a name|differs: |frame \d+: server: |no reply: |server ended|device failed)")
ODD = re.compile(r"frame \d+: warning: ")
# What names a request, and what stands behind it; and the words of a call whose answer differs. Each script has others.
ASKED = re.compile(r": [A-Z]+ \d+( of call|:|$| and ).*")
CALLED = re.compile(r" \(.*\): ")
# The lines that name a call by its number, and which word that is.
NAMES_CALL = {"intr": 1, "call read": 2, "call write": 2, "call close": 2}


def parse(parser):
    """The options of a program that runs a server on a file anew each time, with its own; the server's words, and the file."""
    parser.add_argument("-p", "--program", default="fuseworld", help="the program, if not fuseworld")
    parser.add_argument("-l", "--launcher", default="launcher", help="the launcher, for a server that takes MOUNT")
    parser.add_argument("-o", "--option", action="append", default=[], help="an option of drive, as -o=--beside; may come again")
    parser.add_argument("-b", "--before", help="a command of the shell that goes before each run, as to empty a folder")
    parser.add_argument("-w", "--wait", type=int, default=2000, help="for how many milliseconds a reply is waited for")
    # The server's words may begin with -, as its own options.
    parser.add_argument("server", nargs=argparse.REMAINDER, metavar="SERVER-WORDS")
    words = sys.argv[1:]
    if "--" not in words or len(words) - words.index("--") != 2:
        parser.error("-- and the file come last")
    asked = parser.parse_args(words[:words.index("--")])
    if not asked.server:
        parser.error("the server's words are missing")
    asked.file = words[-1]
    return asked


def parsed():
    parser = argparse.ArgumentParser(description=__doc__.splitlines()[0], usage="shrink.py [OPTIONS] SERVER-WORDS .. -- SCRIPT")
    parser.add_argument("-f", "--fault", help="the fault to keep: a text that its line has")
    asked = parse(parser)
    asked.script = Path(asked.file)
    asked.is_beside = asked.is_odd = False
    asked.form = []
    return asked


def place_of_call(words):
    """Which word of a line names another call, if one does."""
    at = NAMES_CALL.get(words[0], NAMES_CALL.get(" ".join(words[:2])))
    return at if at is not None and at < len(words) else None


def name_in(words):
    """The name that a line gives its call, or None."""
    return words[-1] if words[0] == "call" and len(words) > 4 and words[-2] == "as" else None


def named(lines):
    """The lines with names for the calls that others name by their numbers, so that a line can go alone."""
    result = [line.split(" ") for line in lines]
    calls = [words for words in result if words[0] == "call"]
    for words in result:
        at = place_of_call(words)
        if at is not None and words[at].isdigit() and 0 < int(words[at]) <= len(calls):
            call = calls[int(words[at]) - 1]
            if name_in(call) is None:
                call += ["as", f"C{words[at]}"]
            words[at] = name_in(call)
    return [" ".join(words) for words in result]


def without_names(lines):
    """The lines without the names of calls that no line names."""
    said = [line.split(" ") for line in lines]
    used = {words[at] for words in said if (at := place_of_call(words)) is not None}
    return [" ".join(words if name_in(words) in used or name_in(words) is None else words[:-2]) for words in said]


def is_whole(lines):
    """Whether each name in the lines is that of a call before."""
    names = set()
    for words in (line.split(" ") for line in lines):
        at = place_of_call(words)
        if at is not None and words[at][:1].isalpha() and words[at] not in names:
            return False
        names.add(name_in(words))
    return True


def over_socket(asked, drive, folder):
    """Runs the server at a socket, and `drive` before it; returns what that printed."""
    socket = folder / "socket"
    socket.unlink(missing_ok=True)
    words = [str(socket) if word == "SOCK" else word for word in asked.server]
    server = subprocess.Popen(words, stdin=subprocess.DEVNULL, stdout=subprocess.DEVNULL, stderr=subprocess.DEVNULL)
    try:
        end = time.monotonic() + 5
        while not socket.exists() and server.poll() is None and time.monotonic() < end:
            time.sleep(0.01)
        words = [*drive, "--wait", str(asked.wait), str(folder / "script"), str(socket)]
        return subprocess.run(words, stdin=subprocess.DEVNULL, capture_output=True, text=True, timeout=600)
    finally:
        server.kill()
        server.wait()


def over_launcher(asked, drive, folder):
    words = [asked.launcher, "-t", str(asked.wait), *drive, str(folder / "script"), "--", *asked.server]
    return subprocess.run(words, stdin=subprocess.DEVNULL, capture_output=True, text=True, timeout=600)


def said_of(answer):
    """What answers are compared by: not by inode numbers and offsets, nor by the size and links of a directory."""
    words = answer.split(" ")[2:]
    if len(words) == 5 and words[1] in ("dir", "file"):
        return words[1:2] + (words[3:5] if words[1] == "file" else [])
    if words[1:] and all(word.count(":") == 2 for word in words[1:]):
        return sorted(re.sub(":.*:", ":", word) for word in words[1:] if not re.match(r"\.\.?:", word))
    return words


def differing(lines, others):
    """The first answer that is another one than that to the same call on another server."""
    answers = {line.split(" ")[1]: line for line in others if line.startswith("answer ")}
    for line in lines:
        here = answers.get(line.split(" ")[1]) if line.startswith("answer ") else None
        if here and said_of(line) != said_of(here):
            return [f"differs: answer {line.split(' ')[1]}: {said_answer(line)}, here {said_answer(here)}"]
    return []


def listing_fault(script, lines):
    """The first listing from the offset of a name on that gives other names than those behind it in the listing before."""
    calls = [line.split(" ") for line in script if line.startswith("call ")]
    begun = [line.split(" ")[1] for line in lines if re.match(r"call \d+$", line)]
    called = {number: words for number, words in zip(begun, calls) if number != "0"}
    listed = None
    for words in (line.split(" ") for line in lines if line.startswith("answer ")):
        call = called.get(words[1], [])
        names = [name.split(":") for name in words[3:]]
        if call[1:2] not in (["list"], ["listplus"]) or words[2] != "0":
            listed = None
        elif call[3] == "0":
            listed = call[:3], names
        elif listed and listed[0] == call[:3] and (places := [at for at, name in enumerate(listed[1]) if name[1] == call[3]]):
            behind = listed[1][places[0] + 1:]
            if sorted(name[0] for name in behind) != sorted(name[0] for name in names):
                return [f"differs: answer {words[1]} (call {' '.join(call[1:])}): it does not go on behind a name"]
    return []


def said_answer(line):
    """What an answer's line says behind the call, with the name of an error."""
    words = line.split(" ")[2:]
    name = errno.errorcode.get(int(words[0])) if words[:1] != ["0"] else None
    return " ".join([*([name] if name else []), *words])


def tried(asked, script, capture=None):
    """What `drive` prints of a script, and which answer differs where that is looked for."""
    said = driven(asked, script, capture)
    if not asked.is_beside:
        return said
    honest = argparse.Namespace(**{**vars(asked), "server": [asked.program, "serve", "SOCK"], "before": None})
    lines = said.splitlines()
    return "\n".join([said, *(differing(lines, driven(honest, script, None).splitlines()) or listing_fault(script, lines))])


def driven(asked, script, capture):
    """What `drive` prints of a script."""
    drive = [asked.program, "drive", "--check", *asked.form, *asked.option, *(["--capture", str(capture)] if capture else [])]
    with tempfile.TemporaryDirectory() as name:
        folder = Path(name)
        (folder / "script").write_text("".join(f"{line}\n" for line in script))
        if asked.before:
            subprocess.run(asked.before, shell=True, check=True)
        ran = (over_socket if "SOCK" in asked.server else over_launcher)(asked, drive, folder)
    if ran.returncode in (1, 2):
        sys.exit(ran.stderr or ran.stdout)
    return ran.stdout


def fault_in(line, asked):
    """The fault that a line says, without its numbers and the request or call that it names: the one that is asked for, or any;
    or None."""
    is_fault = asked.fault in line if asked.fault else (ODD if asked.is_odd else WRONG).match(line)
    if not is_fault:
        return None
    if not line.startswith("frame "):
        line = CALLED.sub(": ", line) if line.startswith("differs: ") else ASKED.sub("", line)
    return re.sub(r"\d+", "N", line)


def of_calls(lines, is_evicted, is_whole_listing):
    """The lines that `drive --calls` takes, each call in one. Where so asked all that is dropped or evicted goes at once, and a
    listing goes on by itself."""
    result = []
    for words in (line.split(" ") for line in lines):
        if words[0] not in ("call", "tick", "drop", "evict", "abort"):
            continue
        if is_whole_listing and words[1:2] in (["list"], ["listplus"]) and len(words) == 4:
            words[3] = "all"
        elif is_evicted and words[0] in ("drop", "evict"):
            words = ["evict", "all"]
        line = " ".join(words)
        if words[-1] != "all" or result[-1:] != [line]:
            result.append(line)
    return result


class Steps:
    """The lines of a script with the call that each belongs to, so that a call can go with its own requests and replies."""

    def __init__(self, lines, printed):
        self.lines = lines
        # The call of each line, or the line itself; and at which lines a request of the call is queued.
        self.owners, self.queues = list(range(len(lines))), [None] * len(lines)
        records = self.records(printed)
        self.is_known = len(records) == len(lines)
        if not self.is_known:
            return
        coming, of_request, first = 2, {}, {}
        for place, (record, others) in enumerate(records):
            words = record.split(" ")
            owner = None
            if words[0] == "mounted":
                coming, of_request, owner = 2, {}, place
                self.queues[place] = place
            elif words[0] == "call" and words[1] != "0":
                owner = first[words[1]] = place
            elif words[0] in ("read", "written"):
                owner = of_request.get(int(words[1]) & ~1)
                if words[0] == "read" and words[2].endswith("FORGET"):
                    coming += 2
            elif words[0] == "interrupted":
                owner = first.get(words[1])
            if owner is None:
                continue
            self.owners[place] = owner
            call = next((number for number, at in first.items() if at == owner), None)
            is_queued = words[0] in ("mounted", "call") or words[0] == "written" and words[2] == "0" and call is not None
            if is_queued and f"answer {call}" not in others:
                of_request[coming], self.queues[place] = owner, owner
                coming += 2

    @staticmethod
    def records(printed):
        """What each line printed first, and the answers behind it."""
        records = []
        for line in printed:
            words = line.split(" ")
            if words[0] == "answer" and records:
                records[-1][1].append(" ".join(words[:2]))
            elif words[0] in ("mounted", "call", "read", "written", "refused", "interrupted", "dropped", "evicted", "now", "aborted"):
                records.append((line, []))
            elif line == "kernel" or line.startswith("kernel "):
                records.append((line, []))
        # The end of the script prints the nodes once more.
        return records[:-1]

    def script(self, kept):
        """These lines, in which `read p K` names the same request as in all of them."""
        if not self.is_known:
            return [self.lines[place] for place in kept]
        result, pending, left = [], [], set(kept)
        for place in kept:
            line = self.lines[place]
            owner = self.owners[place]
            if line.startswith("read p ") and owner != place:
                if owner in pending:
                    line = f"read p {pending.index(owner)}"
                    pending.remove(owner)
            if self.queues[place] is not None:
                pending.append(self.queues[place])
            result.append(line)
        return result


def shrunk(count, is_wrong, owners):
    """The places of lines of which none can go: parts of them, and calls with all that is theirs, are left out as long as what is
    left is wrong."""
    # Nothing behind the fault is needed.
    without, wrong = 0, count
    while without + 1 < wrong:
        middle = (without + wrong) // 2
        if is_wrong(list(range(middle))):
            wrong = middle
        else:
            without = middle
    kept = list(range(wrong))

    def leave_out(part, step, of):
        """Leaves out each part of so many units that can go; lines are of the unit that is their owner."""
        nonlocal kept
        start = 0
        while start < len(units := sorted({of[place] for place in kept})):
            gone = set(units[start:start + part])
            rest = [place for place in kept if of[place] not in gone]
            if rest and is_wrong(rest):
                kept = rest
            else:
                start += step

    def leave_out_all(of):
        """Leaves out ever smaller parts, each behind the one before, until no unit can go alone."""
        part = max(1, len({of[place] for place in kept}) // 2)
        while True:
            before = len(kept)
            leave_out(part, part, of)
            if part == 1 and len(kept) == before:
                return
            part = max(1, part // 2)

    alone = list(range(count))
    while True:
        before = len(kept)
        leave_out_all(owners)
        leave_out_all(alone)
        # Some go together or not at all, and do not stand where a part begins.
        for of, parts in ((owners, (6, 4, 3, 2)), (alone, (4, 3, 2))):
            for part in parts:
                leave_out(part, 1, of)
        if len(kept) == before:
            return kept


def first_fault(asked, script):
    """The first fault of a script, in the way in which there is one, or None."""
    for asked.is_beside, asked.is_odd in ((False, False), (True, False), (False, True)):
        for line in tried(asked, script).splitlines():
            if fault_in(line, asked):
                return line
    return None


def shortest(asked, lines, said):
    """The script that is left, in a form that `asked` has from then on, and how many tries it took."""
    fault, tries = fault_in(said, asked), 0

    def is_faulty(script):
        nonlocal tries
        if not script or not is_whole(script):
            return False
        tries += 1
        return any(fault_in(line, asked) == fault for line in tried(asked, script).splitlines())

    asked.form = ["--calls"]
    for script in carried(lines):
        if is_faulty(script):
            places = shrunk(len(script), lambda kept: is_faulty([script[place] for place in kept]), list(range(len(script))))
            return [script[place] for place in places], tries
    asked.form = []
    steps = Steps(lines, driven(asked, lines, None).splitlines())
    places = shrunk(len(lines), lambda kept: is_faulty(steps.script(kept)), steps.owners)
    return steps.script(places), tries


def carried(lines):
    """The scripts of the calls alone."""
    for is_evicted, is_whole_listing in ((True, True), (True, False), (False, True), (False, False)):
        yield of_calls(lines, is_evicted, is_whole_listing)


def main():
    asked = parsed()
    lines = named([line for line in asked.script.read_text().splitlines() if line and not line.startswith("#")])
    said = first_fault(asked, lines)
    if not said:
        sys.exit("the server does nothing wrong at this script")
    script, tries = shortest(asked, lines, said)
    script = without_names(script)
    short = Path(f"{asked.script}.short")
    capture = Path(f"{short}.capture")
    words = tried(asked, script, capture)
    run = " ".join(["drive", "--check", *asked.form, *asked.option])
    short.write_text("".join([f"# {run}\n", *(f"{line}\n" for line in script), *(f"# {line}\n" for line in words.splitlines())]))
    checked = subprocess.run([asked.program, "check", str(capture)], capture_output=True, text=True).stdout
    found = re.search(r"^line (\d+): server", checked, re.M)
    around = found[1] if found else str(len(capture.read_text().splitlines()))
    with open(f"{short}.svg", "wb") as picture:
        subprocess.run([asked.program, "draw", "--around", around, str(capture)], stdout=picture, check=True)
    print(f"{said}\n{len(lines)} lines, {len(script)} left after {tries} tries: {short}", file=sys.stderr)
    print(short.read_text(), end="")
    return 0


if __name__ == "__main__":
    sys.exit(main())
