#!/usr/bin/env python3
"""Turns what `fuseworld drive --json` prints, on standard input, into JUnit XML, or into TAP with --tap.

A test is a call: its name is its number, and its line where that was printed, as --random does. It fails where its
answer is another than in the world beside, where a fault names it, or names none and is printed before the next call,
and where the run ends without its answer. What is printed before the first call belongs to the test `mount`. Status 1 where a test fails.
"""
import json
import re
import sys
from xml.sax.saxutils import quoteattr


def read_tests(lines):
    """The tests in turn: a name, and the texts of what was wrong."""
    tests, numbers, line = [("mount", [])], {}, ""
    for event in map(json.loads, lines):
        if event["event"] == "line":
            line = event["text"]
        elif event["event"] == "call":
            behind = f" {line}" if line.startswith("call ") else ""
            numbers[event["call"]] = len(tests)
            tests.append((f"call {event['call']}{behind}", []))
            line = ""
        elif event["event"] in ("fault", "end"):
            found = re.search(r"^differs: answer (\d+)| of call (\d+), line ", event["text"])
            place = numbers.get(int(found[1] or found[2]), -1) if found else -1
            tests[place][1].append(event["text"])
    return tests


def print_tap(tests):
    print(f"TAP version 13\n1..{len(tests)}")
    for number, (name, wrong) in enumerate(tests, 1):
        print(f"{'not ok' if wrong else 'ok'} {number} - {name.replace('#', '_')}", *wrong, sep="\n# ")


def print_junit(tests):
    failed = sum(bool(wrong) for _, wrong in tests)
    print(f'<testsuite name="fuseworld drive" tests="{len(tests)}" failures="{failed}">')
    for name, wrong in tests:
        failures = "".join(f"<failure message={quoteattr(text)}/>" for text in wrong)
        print(f"<testcase classname=\"drive\" name={quoteattr(name)}>{failures}</testcase>")
    print("</testsuite>")


if __name__ == "__main__":
    found = read_tests(sys.stdin)
    (print_tap if sys.argv[1:] == ["--tap"] else print_junit)(found)
    sys.exit(any(wrong for _, wrong in found))
