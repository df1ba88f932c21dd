#!/usr/bin/env python3
"""Whether the worked runs of the definitions are the scripts of tests/rows, event for event and record for record.

A worked run is crates/fuse_runs/specs/NAME.antt, which the gate computes in the definitions; its script is the row
of the same name. A record has no opcode and no length, so these are left out of the row's output. Prints a line for each
run that differs, then `N passed, M failed`, and ends with status 1 where one does.
"""
import re
import sys
from pathlib import Path

TOP = Path(__file__).resolve().parent.parent
ROWS = TOP / "tests" / "rows"
WORKED = TOP / "crates" / "fuse_runs" / "specs"
REFUSALS = ["Busy", "NoSuch", "InterruptFirst", "NotReady", "Full", "NoCopy", "NoMemory", "Exhausted", "BadTime", "LinkLost"]
WORDS = {"Held": "held", "Forgot": "forgot", "Marked": "marked", "Ignored": "ignored", "Again": "again"}
RESULTS = {"Accepted": "0", "NoEntry": "2", "Invalid": "22"}
KINDS = {"Directory": "dir", "Regular": "file"}
# Scripts without a worked run: nothing happens, or the run is another row's with its frames printed.
NO_RUN = {"empty-script", "lookup-frame-in-hex"}
# Worked runs without a script: each shows a case of the definitions that the program's rows do not print.
NO_ROW = {"DequeuedReadOfAClosedFile", "RenameOverABoundName"}


def tokens_of(text):
    return re.findall(r'"[^"]*"|[A-Za-z_][\w.]*|\d+|\[\]|∷|\+\+|[(){};=]|×|≡|,', text)


class Terms:
    """The terms of a list in the definitions' notation: an application is a list, headed by its word."""

    def __init__(self, text):
        self.tokens, self.place = tokens_of(text), 0

    def next(self):
        return self.tokens[self.place] if self.place < len(self.tokens) else None

    def take(self):
        self.place += 1
        return self.tokens[self.place - 1]

    def atom(self):
        token = self.take()
        if token == "(":
            inner = self.term()
            while self.next() == ",":
                self.take()
                inner = ("pair", inner, self.term())
            assert self.take() == ")"
            return inner
        if token == "record":
            assert self.take() == "{"
            fields = {}
            while self.next() != "}":
                name = self.take()
                assert self.take() == "="
                fields[name] = self.term()
                if self.next() == ";":
                    self.take()
            self.take()
            return fields
        if token == "[]":
            return []
        if token.startswith('"'):
            return list(token[1:-1].encode())
        return int(token) if token.isdigit() else token

    def application(self):
        words = [self.atom()]
        while self.next() is not None and re.match(r'"|[A-Za-z_(]|\d|\[', self.next()):
            words.append(self.atom())
        if words[0] == "codes":
            return words[1]
        if words[0] == "replicate":
            return [words[2]] * words[1]
        return words[0] if len(words) == 1 else words

    def term(self):
        first = self.application()
        if self.next() == "∷":
            self.take()
            return [first, *self.term()]
        if self.next() == "++":
            self.take()
            return [*first, *self.term()]
        return first


def text_of(codes):
    return bytes(codes).decode()


def word_of(name):
    return name.split(".")[-1]


def bytes_in_hex(codes):
    return bytes(codes).hex() or "-"


def call_line(call):
    name, *rest = [word_of(call[0]), *call[1:]]
    if name == "write":
        return f"write {rest[0]} {rest[1]} {bytes_in_hex(rest[2])}"
    name = {"opening": "open"}.get(name, name)
    return " ".join([name, *(text_of(part) if isinstance(part, list) else str(part) for part in rest)])


def event_line(event):
    """An event as the line of a script."""
    words = event if isinstance(event, list) else [event]
    name, rest = word_of(words[0]), words[1:]
    if name == "mount":
        minor = word_of(rest[2])[1:]
        return f"mount {rest[0]} {rest[1]}" + ("" if minor == "31" else f" {minor}")
    if name == "call":
        return f"call {call_line(rest[0])}"
    if name == "drop_name":
        return f"drop {rest[0]} {text_of(rest[1])}"
    if name == "intr":
        return f"intr {rest[0]} {'fatal' if rest[1] == 'true' else 'soft'}"
    name = {"read_interrupt": "read i", "read_forgets": "read f", "read_pending": "read p", "perform": "do"}.get(name, name)
    return " ".join([name, *map(str, rest)])


def answer_words(answer):
    words = answer if isinstance(answer, list) else [answer]
    name, rest = word_of(words[0]), words[1:]
    if name == "failed":
        return str(rest[0])
    if name == "done":
        return "0"
    if name == "attributes":
        kind = KINDS[word_of(rest[0]["kind"])]
        return f"0 {kind} {rest[0]['ino']} {rest[0]['size']} {rest[0]['nlink']}"
    if name == "written":
        return f"0 {rest[0]}"
    if name == "content":
        return f"0 {bytes_in_hex(rest[0])}"
    names = [f"{text_of(row['name'])}:{row['offset']}:{KINDS[word_of(row['kind'])]}" for row in rest[0]]
    return " ".join(["0", *names])


def record_line(record):
    """A record as the line of an output, without opcode and length."""
    name, rest = record[0], record[1:]
    if name == "refused":
        return f"refused {word_of(rest[0])}"
    if name == "answered":
        return f"answer {rest[0]} {answer_words(rest[1])}"
    words = rest[0] if isinstance(rest[0], list) else [rest[0]]
    name, rest = word_of(words[0]), words[1:]
    if name == "taken":
        return f"taken {rest[0]} {WORDS[word_of(rest[1])]}"
    if name == "performed":
        return f"done {rest[0]} {rest[1]}" + (" lost" if rest[2] == "true" else "")
    if name in ("written", "settled"):
        return f"{name} {rest[0]} {RESULTS[word_of(rest[1])]}"
    if name == "interrupted":
        return f"interrupted {rest[0]} {word_of(rest[1]).lower()}"
    name = {"is_read": "read", "begun": "call", "sent_again": "again"}.get(name, name)
    return " ".join([name, *map(str, rest)])


def nodes_line(side, nodes):
    listed = []
    for node in nodes:
        listed.append(":".join(map(str, (node[1][1], node[1][2], node[2]))))
    return " ".join([side, *listed])


def shortened(line):
    """A line of an output without opcode and length, and a refusal without its number."""
    words = line.split(" ")
    if words[0] == "read":
        return " ".join(words[:2])
    if words[0] == "done":
        return " ".join(words[:3] + [word for word in words[3:] if word == "lost"])
    if words[0] == "again":
        return " ".join(words[:2])
    if words[0] == "refused":
        return f"refused {words[2]}"
    return line


def lists_in(text, name):
    """The lists NAME_0, NAME_1 .. of a worked run."""
    found = re.findall(rf"^{name}_\d+ =\n(.*?)(?=\n\n|\Z)", text, re.M | re.S)
    return [Terms(body).term() for body in found]


def shown_in(text):
    """What `show` prints after each list of events, or None where it is not shown."""
    claim = re.search(r"^IsComputed =(.*)\Z", text, re.M | re.S)[1]
    lines = {}
    for place, kernel, server in re.findall(r"nodes_shown worlds_(\d+)\s+≡\s+\(\((.*?)\), \((.*?)\)\)\)", claim, re.S):
        terms = [Terms(f"({side})").term() for side in (kernel, server)]
        lines[int(place)] = [nodes_line(side, nodes) for side, nodes in zip(("kernel", "server"), terms)]
    return lines


def run_of(text):
    """The script and the output of a worked run."""
    shown = shown_in(text)
    script, output = [], []
    for place, (events, records) in enumerate(zip(lists_in(text, "events"), lists_in(text, "records"))):
        script += map(event_line, events)
        output += map(record_line, records)
        if place in shown:
            script.append("show")
            output += shown[place]
    return script, output


def row_of(name):
    lines = (ROWS / f"{name}.script").read_text().split("\n")
    script = [line for line in lines if line and not line.startswith("#")]
    return script, [shortened(line) for line in (ROWS / f"{name}.expected").read_text().split("\n") if line]


def first_difference(run, row):
    for place, (here, there) in enumerate(zip(run, row), 1):
        if here != there:
            return f"line {place}: {here!r} in the definitions, {there!r} in the row"
    return f"{len(run)} lines in the definitions, {len(row)} in the row"


def main():
    runs = {file.stem: file for file in WORKED.glob("*.antt") if file.stem not in ("Lib", "LockStep")}
    rows = {"".join(part.capitalize() for part in file.stem.split("-")): file.stem for file in ROWS.glob("*.script")}
    wrong = [f"{name}: no row of that name" for name in runs if name not in rows and name not in NO_ROW]
    wrong += [f"{row}: no worked run of that name" for name, row in rows.items() if name not in runs and row not in NO_RUN]
    compared = 0
    for name in sorted(set(runs) & set(rows)):
        run, row = run_of(runs[name].read_text()), row_of(rows[name])
        compared += 1
        for what, here, there in zip(("event", "record"), run, row):
            if here != there:
                wrong.append(f"{rows[name]}: {what}, {first_difference(here, there)}")
    for line in wrong:
        print(line)
    print(f"{compared - len({line.split(':')[0] for line in wrong})} passed, {len(wrong)} failed")
    return 1 if wrong else 0


if __name__ == "__main__":
    sys.exit(main())
