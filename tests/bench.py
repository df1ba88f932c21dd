#!/usr/bin/env python3
"""Counts what a line of a script costs, and how that grows: instructions under callgrind, or nanoseconds without it.

usage: tests/bench.py [--program FILE] [--beside FILE] [--counts N,N,N] [--only WORD] [--keep FOLDER]

Each row is a kind of script at three sizes, less what its preparation costs alone, and the exponent: 0 where a line
costs the same at every size, 1 where it costs ten times as much over ten times as many. With `--beside` another
program runs the same scripts, and a row has what both cost and the ratio at each size.
"""
import argparse
import math
import os
import random
import re
import shutil
import subprocess
import sys
import tempfile
import time
from concurrent.futures import ThreadPoolExecutor

# As long as a cached name can be valid, in milliseconds.
LONG = 86_400_000

TOP = os.path.dirname(os.path.dirname(os.path.abspath(__file__)))


class Script:
    """Lines of a script. Requests are numbered as the kernel numbers them: 2, 4, 6 and so on."""

    def __init__(self, found_ms=1000, missing_ms=0):
        self.lines = []
        self.unique = 2
        self.calls = 0
        self.add(f"mount {found_ms} {missing_ms}")
        self.trip()
        self.prepared = 0

    def add(self, *lines):
        self.lines.extend(lines)

    def take_unique(self):
        self.unique += 2
        return self.unique - 2

    def call(self, words):
        """Begins a call, and gives its number."""
        self.add(f"call {words}")
        self.calls += 1
        return self.calls

    def trip(self, before=0):
        """One request from the kernel to the server and back, behind so many on their link."""
        unique = self.take_unique()
        self.add("read p 0", f"take {before}", f"do {unique}", "write 0", "settle 0")

    def ask(self, words, trips=1, before=0):
        """A call with its trips."""
        call = self.call(words)
        for _ in range(trips):
            self.trip(before)
        return call

    def prepare(self):
        """What the script has so far is not counted."""
        self.prepared = len(self.lines)


# ---- what a script can grow without limit


def copies(n, takes):
    """So many copies of one reply on the reply link: each is taken, and its result settled."""
    script = Script()
    script.call("stat /")
    unique = script.take_unique()
    script.add("read p 0", "take 0", f"do {unique}")
    script.prepare()
    script.add(*[f"again {unique}"] * n)
    for place in takes(n):
        script.add(f"write {place}", "settle 0")
    return script


def results(n, takes):
    """So many results of writes on their link."""
    script = Script()
    script.call("stat /")
    unique = script.take_unique()
    script.add("read p 0", "take 0", f"do {unique}", *[f"again {unique}"] * n)
    script.prepare()
    script.add(*["write 0"] * n)
    script.add(*[f"settle {place}" for place in takes(n)])
    return script


def front(n):
    return [0] * n


def end(n):
    return range(n - 1, -1, -1)


def opened(n):
    """A file that is open so many times, and the numbers of the calls that opened it."""
    script = Script()
    script.ask("create /f")
    script.ask("mkdir /a")
    return script, [script.ask("open /f") for _ in range(n)]


def opens(n):
    """So many open files: each opening."""
    script = Script()
    script.ask("create /f")
    script.prepare()
    for _ in range(n):
        script.ask("open /f")
    return script


def closed(n, takes, part):
    """So many RELEASEs, which are read, taken, performed, answered and settled one kind after another."""
    script, numbers = opened(n)
    steps = [[f"call close {number}" for number in numbers]]
    uniques = [script.take_unique() for _ in numbers]
    places = list(takes(n))
    order = [uniques[place] for place in takes(n)] if takes is end else uniques
    steps.append(["read p 0"] * n)
    steps.append([f"take {place}" for place in places])
    steps.append([f"do {unique}" for unique in order])
    steps.append([f"write {place}" for place in places])
    steps.append([f"settle {place}" for place in places])
    for step in steps[:part]:
        script.add(*step)
    script.prepare()
    script.add(*steps[part])
    return script


def random_order(n):
    places = list(range(n))
    random.Random(1).shuffle(places)
    return places


def drawn(n, part):
    """Held requests that are performed in an order that is drawn, their replies, which are written so, and their kept
    replies, which are settled so."""
    script, numbers = opened(n)
    script.add(*[f"call close {number}" for number in numbers])
    uniques = [script.take_unique() for _ in numbers]
    script.add(*["read p 0"] * n, *["take 0"] * n)
    if part == "held":
        script.prepare()
    script.add(*[f"do {uniques[place]}" for place in random_order(n)])
    if part == "replies":
        script.prepare()
        script.add(*["write 0"] * n)
    if part == "kept":
        script.prepare()
        script.add(*[f"again {uniques[place]}" for place in random_order(n)])
    return script


def evicting(script, before=0, rounds=200):
    """A directory is looked up, its name dropped and its node, which is 3, given up, round after round, behind so many
    requests on their link."""

    def give_up():
        script.add("drop 1 a", "evict 3", "read f 1", f"take {before}")
        script.take_unique()

    give_up()
    script.prepare()
    for _ in range(rounds):
        script.ask("stat /a", 2, before)
        give_up()
    return script


def evict_beside_opens(n):
    script, _numbers = opened(n)
    return evicting(script)


def evict_beside_releases(n):
    script, numbers = opened(n)
    script.add(*[f"call close {number}" for number in numbers], *["read p 0"] * n)
    script.unique += 2 * n
    return evicting(script, n)


def signals_beside_releases(n, rounds=200):
    """A call is begun and signalled fatally before its request is read, round after round."""
    script, numbers = opened(n)
    script.add(*[f"call close {number}" for number in numbers])
    script.unique += 2 * n
    script.calls += n
    script.prepare()
    for _ in range(rounds):
        script.add(f"intr {script.call('stat /')} fatal")
        script.take_unique()
    return script


def forgets(n):
    """So many forgets are queued, and read one by one."""
    script = Script()
    script.ask("mkdir /a")
    script.prepare()
    for _ in range(n):
        script.add("drop 1 a", "evict 2")
        script.ask("stat /a", 2)
    script.add(*["read f 1"] * n, *["take 0"] * n)
    return script


def interrupts(n):
    """An INTERRUPT that overtakes its request is answered EAGAIN, and queued again, so many times."""
    script = Script()
    call = script.call("stat /")
    script.take_unique()
    script.add("read p 0")
    script.prepare()
    script.add(f"intr {call} soft")
    for _ in range(n):
        script.add("read i", "take 1", "write 0", "settle 0")
    return script


def names(n):
    """So many cached names, of files that are missing: each is looked up once, and found missing again."""
    script = Script(LONG, LONG)
    script.prepare()
    for name in range(n):
        script.ask(f"stat /n{name}")
    for name in range(n):
        script.call(f"stat /n{name}")
    return script


def nodes(n):
    """So many counted nodes, whose directories were removed."""
    script = Script()
    script.prepare()
    for _ in range(n):
        script.ask("mkdir /a")
        script.ask("rmdir /a")
    return script


# ---- calls over a tree of a given size


def stat(rounds):
    """Each `stat` looks up, since a second passes before it."""
    script = Script()
    script.ask("mkdir /a")
    script.prepare()
    for _ in range(rounds):
        script.add("tick 1000")
        script.ask("stat /a", 2)
    return script


def look_ups(n, rounds=1500):
    """Cached names are looked up in turn, and one is dropped each round."""
    script = Script(LONG, LONG)
    for name in range(n):
        script.ask(f"mkdir /d{name}")
    script.prepare()
    for place in range(rounds):
        name = f"d{place % n}"
        script.add(f"drop 1 {name}")
        script.ask(f"stat /{name}", 2)
    return script


def transfers(rounds, words):
    script = Script()
    script.ask("create /f")
    script.ask("write 1 0 " + "00" * 4096)
    script.prepare()
    for _ in range(rounds):
        script.ask(words)
    return script


def full_file(rounds):
    """Writes of 4,096 bytes into a file of 65,536."""
    script = Script()
    script.ask("create /f")
    for place in range(16):
        script.ask(f"write 1 {4096 * place} " + "00" * 4096)
    script.prepare()
    for place in range(rounds):
        script.ask(f"write 1 {4096 * (place % 16)} " + "00" * 4096)
    return script


def listing(rounds, word):
    """A directory of 25 names is listed."""
    script = Script()
    script.ask("mkdir /l")
    script.ask("create /l/f")
    for name in range(24):
        script.ask(f"link /l/f /l/{name}")
    script.prepare()
    for _ in range(rounds):
        script.ask(f"{word} /l 0")
    return script


def made(n):
    """So many names are made in a directory."""
    script = Script(LONG, LONG)
    script.ask("mkdir /l")
    script.prepare()
    for name in range(n):
        script.ask(f"mkdir /l/{name}")
    return script


def pages(n, word, a_page):
    """So many names are made in a directory, which is then listed page by page."""
    script = made(n)
    script.prepare()
    # Offsets are the names' cookies, which rise by one from that of /l, which is 1.
    for first in range(1, n + 1, a_page):
        script.ask(f"{word} /l {first}")
    return script


class Drawn:
    """Lines of all kinds, drawn, over a few names of the root, which are looked up each time."""

    def __init__(self, n):
        self.drawing = random.Random(7)
        self.script = Script(0, 0)
        self.kinds = {}
        self.files = []
        self.script.prepare()
        while len(self.script.lines) - self.script.prepared < n:
            self.drawing.choice([self.look, self.look, self.make, self.remove, self.transfer, self.signal, self.pass_by])()

    def serve(self, words, trips=1):
        """A call whose replies are at times sent twice."""
        call = self.script.call(words)
        for _ in range(trips):
            unique = self.script.take_unique()
            self.script.add("read p 0", "take 0", f"do {unique}")
            copies = self.drawing.choice([1, 1, 1, 2, 3])
            self.script.add(*[f"again {unique}"] * (copies - 1))
            self.script.add(*["write 0"] * copies, *["settle 0"] * copies)
        return call

    def look(self):
        name = self.drawing.choice("abcdefgh")
        there = name in self.kinds
        self.serve(f"stat /{name}", 2 if there else 1)
        if there and self.drawing.random() < 0.3:
            self.script.add(f"drop 1 {name}")

    def make(self):
        name = self.drawing.choice("abcdefgh")
        word = self.drawing.choice(["mkdir", "create"])
        call = self.serve(f"{word} /{name}")
        if name not in self.kinds:
            self.kinds[name] = word
            if word == "create":
                self.files.append(call)

    def remove(self):
        name = self.drawing.choice("abcdefgh")
        word = self.drawing.choice(["unlink", "rmdir"])
        self.serve(f"{word} /{name}")
        if self.kinds.get(name) == {"unlink": "create", "rmdir": "mkdir"}[word]:
            del self.kinds[name]

    def transfer(self):
        if not self.files:
            return
        handle = self.drawing.choice(self.files)
        if self.drawing.random() < 0.3:
            self.files.remove(handle)
            self.serve(f"close {handle}")
        elif self.drawing.random() < 0.5:
            self.serve(f"read {handle} 0 64")
        else:
            self.serve(f"write {handle} {self.drawing.randrange(64)} 616263")

    def signal(self):
        """A call that is signalled before its request is read: a fatal one ends it."""
        call = self.script.call("stat /")
        self.script.take_unique()
        self.script.add(f"intr {call} fatal")

    def pass_by(self):
        self.script.add(f"tick {self.drawing.randrange(1500)}", "evict 9999")


def at_random(n):
    return Drawn(n).script


# ---- the rows: a name, what makes a script of a size, and the sizes

SMALL = [100, 300, 1000]


def rows(counts):
    grown = [
        ("copies of a reply, from the front", lambda n: copies(n, front)),
        ("copies of a reply, from the end", lambda n: copies(n, end)),
        ("results of writes, from the front", lambda n: results(n, front)),
        ("results of writes, from the end", lambda n: results(n, end)),
        ("open files: each opening", opens),
        ("RELEASEs: each close", lambda n: closed(n, front, 0)),
        ("RELEASEs: each read, the oldest first", lambda n: closed(n, front, 1)),
        ("requests, taken from the front", lambda n: closed(n, front, 2)),
        ("requests, taken from the end", lambda n: closed(n, end, 2)),
        ("held requests, the oldest first", lambda n: closed(n, front, 3)),
        ("held requests, the newest first", lambda n: closed(n, end, 3)),
        ("held requests, in a drawn order", lambda n: drawn(n, "held")),
        ("kept replies: another copy, in a drawn order", lambda n: drawn(n, "kept")),
        ("replies, taken from the front", lambda n: closed(n, front, 4)),
        ("replies, taken from the end", lambda n: closed(n, end, 4)),
        ("replies, in a drawn order", lambda n: drawn(n, "replies")),
        ("kept replies, settled, the oldest first", lambda n: closed(n, front, 5)),
        ("kept replies, settled, the newest first", lambda n: closed(n, end, 5)),
        ("evict beside so many open files", evict_beside_opens),
        ("evict beside so many RELEASEs", evict_beside_releases),
        ("signals beside so many RELEASEs", signals_beside_releases),
        ("forgets", forgets),
        ("INTERRUPTs", interrupts),
        ("cached names", names),
        ("nodes", nodes),
    ]
    sized = [(name, made, counts) for name, made in grown]
    sized += [
        ("`stat`, looked up each time", stat, [300, 1000, 3000]),
        ("look-ups, one name dropped each round", look_ups, [16, 512, 4096]),
        ("reads of 4,096 bytes", lambda n: transfers(n, "read 1 0 4096"), SMALL),
        ("writes of 4,096 bytes", lambda n: transfers(n, "write 1 0 " + "00" * 4096), SMALL),
        ("writes into a file of 65,536 bytes", full_file, SMALL),
        ("`list` of 25 names", lambda n: listing(n, "list"), SMALL),
        ("`listplus` of 25 names", lambda n: listing(n, "listplus"), SMALL),
        ("names made", made, [256, 1024, 4095]),
        ("names listed page by page", lambda n: pages(n, "list", 100), [256, 1024, 4095]),
        ("the same by READDIRPLUS", lambda n: pages(n, "listplus", 20), [256, 1024, 4095]),
        ("all kinds of lines, drawn", at_random, [1000, 10000, 30000]),
    ]
    return sized


# ---- measuring


class Bench:
    def __init__(self, program, beside, folder):
        self.program = program
        self.beside = beside
        self.folder = folder
        self.counts = shutil.which("valgrind") is not None

    def cost_of(self, program, lines, name):
        """Instructions, or nanoseconds, of a run."""
        path = os.path.join(self.folder, name)
        with open(path, "w", encoding="ascii") as out:
            out.write("\n".join(lines) + "\n")
        try:
            return self.instructions(program, path) if self.counts else self.nanoseconds(program, path)
        finally:
            os.remove(path)

    def instructions(self, program, path):
        words = ["valgrind", "--tool=callgrind", "--callgrind-out-file=/dev/null", program, "run", path]
        ran = subprocess.run(words, stdout=subprocess.DEVNULL, stderr=subprocess.PIPE, check=True)
        return int(re.search(rb"Collected : (\d+)", ran.stderr)[1])

    def nanoseconds(self, program, path):
        least = math.inf
        for _ in range(5):
            before = time.perf_counter_ns()
            subprocess.run([program, "run", path], stdout=subprocess.DEVNULL, check=True)
            least = min(least, time.perf_counter_ns() - before)
        return least

    def lines_cost(self, program, name, made, sizes):
        """What a line costs at each size, less the preparation."""
        costs = []
        for size in sizes:
            script = made(size)
            whole = self.cost_of(program, script.lines, f"{abs(hash((program, name)))}-{size}")
            before = script.lines[: script.prepared]
            alone = self.cost_of(program, before, f"{abs(hash((program, name)))}-{size}-before")
            costs.append((whole - alone) / (len(script.lines) - script.prepared))
        return costs

    def line_of(self, name, made, sizes):
        """A row of the table."""
        costs = self.lines_cost(self.program, name, made, sizes)
        sized = ", ".join(f"{size:,}" for size in sizes)
        printed = " | ".join(f"{cost:,.0f}" for cost in costs)
        if self.beside is not None:
            others = self.lines_cost(self.beside, name, made, sizes)
            other = ", ".join(f"{cost:,.0f}" for cost in others)
            ratio = ", ".join(f"{cost / max(by, 1):.2f}" for cost, by in zip(costs, others))
            return f"| {name} | {sized} | {printed} | {other} | {ratio} |"
        grown = math.log(max(costs[-1], 1) / max(costs[0], 1)) / math.log(sizes[-1] / sizes[0])
        return f"| {name} | {sized} | {printed} | {grown:.2f} |"


def main():
    wanted = argparse.ArgumentParser(description=__doc__, formatter_class=argparse.RawDescriptionHelpFormatter)
    wanted.add_argument("--program", default=os.path.join(TOP, "crates/fuseworld/out/fuseworld"))
    wanted.add_argument("--beside", help="another program, which runs the same scripts")
    wanted.add_argument("--counts", default="1000,10000,100000")
    wanted.add_argument("--only", default="")
    wanted.add_argument("--keep", help="writes the scripts into this folder, and measures nothing")
    words = wanted.parse_args()
    chosen = [row for row in rows([int(n) for n in words.counts.split(",")]) if words.only in row[0]]
    if words.keep:
        return keep(chosen, words.keep)
    with tempfile.TemporaryDirectory() as folder:
        beside = os.path.abspath(words.beside) if words.beside else None
        bench = Bench(os.path.abspath(words.program), beside, folder)
        further = "Beside | Ratio" if beside else "Exponent"
        print(f"| Script | Sizes | {'Instructions' if bench.counts else 'Nanoseconds'} a line | | | {further} |")
        print("|---|---|---|---|---|---|" + ("---|" if beside else ""))
        with ThreadPoolExecutor(len(os.sched_getaffinity(0)) if bench.counts else 1) as pool:
            for line in pool.map(lambda row: bench.line_of(*row), chosen):
                print(line, flush=True)
    return 0


def keep(chosen, folder):
    os.makedirs(folder, exist_ok=True)
    for number, (_name, made, sizes) in enumerate(chosen):
        for size in sizes:
            with open(os.path.join(folder, f"{number}-{size}.script"), "w", encoding="ascii") as out:
                out.write("\n".join(made(size).lines) + "\n")
    return 0


if __name__ == "__main__":
    sys.exit(main())
