#!/usr/bin/env python3
"""Writes the rows of tests/rows into crates/fw_tests/src/tests/rows.rt, whose tests refuse each growth of memory in them.

    test_rows.py            writes them
    test_rows.py --check    says whether they are as it would write them: `N passed, M failed`, status 1 where one is not

Each `Row` of that file has its name by hand, in a list of at most eight; this writes its script, without comments, and
its output.
"""
import re
import sys
from pathlib import Path

TOP = Path(__file__).resolve().parent.parent
ROWS = TOP / "tests" / "rows"
SOURCE = TOP / "crates" / "fw_tests" / "src" / "tests" / "rows.rt"
WIDTH = 118
INDENT = " " * 12
ROW = re.compile(r'(?P<pad> +)name: "(?P<name>[\w-]+)",\n +script: "[^"]*",\n +output: "[^"]*",\n')


def literal(field, text):
    """A field with a text but its comments, in lines of the source that are filled."""
    line, lines = f'{field}: "', []
    for piece in (f"{part}\\n" for part in text.splitlines() if part and not part.startswith("#")):
        if len(line) + len(piece) > WIDTH and line != INDENT:
            lines.append(line + "\\")
            line = INDENT
        line += piece
    return "\n".join([*lines, line + '",\n'])


def row_of(match):
    """The row of this name, as it stands in tests/rows."""
    name, pad = match["name"], match["pad"]
    script, output = ((ROWS / f"{name}.{end}").read_text() for end in ("script", "expected"))
    return f'{pad}name: "{name}",\n' + literal(f"{pad}script", script) + literal(f"{pad}output", output)


def main(words):
    source = SOURCE.read_text()
    if words == ["--check"]:
        rows = list(ROW.finditer(source))
        wrong = [match["name"] for match in rows if match[0] != row_of(match)]
        missing = {row.stem for row in ROWS.glob("*.script")} - {match["name"] for match in rows}
        for name in wrong:
            print(f"rows.rt: {name} is not the row of tests/rows: run tests/test_rows.py")
        for name in sorted(missing):
            print(f"rows.rt: {name} is missing")
        print(f"{len(rows) - len(wrong)} passed, {len(wrong) + len(missing)} failed")
        return bool(wrong or missing)
    if words:
        sys.exit(__doc__.strip())
    SOURCE.write_text(ROW.sub(row_of, source))
    return False


if __name__ == "__main__":
    sys.exit(main(sys.argv[1:]))
