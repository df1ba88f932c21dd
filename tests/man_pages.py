#!/usr/bin/env python3
"""Writes the man pages of section 5 from the documents, so that each fact is in one place; run it when these change.

    man_pages.py            writes man/fuseworld-script.5 and man/fuseworld-capture.5
    man_pages.py --check    compares them with what it would write, and ends with status 1 where one differs
"""
import re
import sys
from pathlib import Path

TOP = Path(__file__).resolve().parent.parent
# Of each page: its one line, and its sections: heading, document, section there, and which of its blocks, or all.
PAGES = {
    "fuseworld-script": ("the events that fuseworld runs", [
        ("DESCRIPTION", "SCRIPTS.md", "Lines of a script", slice(0, 1)),
        ("LINES", "SCRIPTS.md", "Lines of a script", slice(1, None)),
        ("OUTPUT", "SCRIPTS.md", "What is printed", slice(0, 2)),
        ("REFUSALS", "SCRIPTS.md", "What is printed", slice(2, None)),
        ("FAULTS", "SCRIPTS.md", "Faults of a script, and exit statuses", slice(0, 2)),
    ]),
    "fuseworld-capture": ("a recorded session of the FUSE protocol", [
        ("DESCRIPTION", "CHECK.md", "Lines of a capture", slice(1, None)),
        ("LINES", "CHECK.md", "Lines of a capture", slice(0, 1)),
        ("IN WORDS", "SCRIPTS.md", "A capture in words", slice(0, None)),
    ]),
}


def section(document, heading):
    """The blocks of a section, without samples: a paragraph is a text, a table a list of rows of cells."""
    text = (TOP / "docs" / document).read_text()
    found = re.search(rf"^## {re.escape(heading)}\n(.*?)(?=^## |\Z)", text, re.M | re.S)
    if found is None:
        sys.exit(f"docs/{document} has no section {heading!r}, which {__file__} puts into a man page")
    blocks = []
    for block in re.sub(r"^```.*?^```$", "", found[1], flags=re.M | re.S).strip().split("\n\n"):
        lines = [line for line in block.split("\n") if line]
        if lines and lines[0].startswith("|"):
            blocks.append([[cell.strip() for cell in line.strip("|").split(" | ")] for line in lines[2:]])
        elif lines and not lines[0].startswith("!["):
            blocks.append(" ".join(lines))
    return blocks


def in_roff(text):
    """A line of a document as one of a man page: code is bold, a link its words."""
    text = re.sub(r"\[([^]]*)\]\([^)]*\)", r"\1", text).replace("\\", "\\e").replace("-", "\\-")
    text = re.sub(r"`([^`]*)`", r"\\fB\1\\fR", text)
    return f"\\&{text}" if text[:1] in (".", "'") else text


def in_page(block):
    if isinstance(block, str):
        return f".PP\n{in_roff(block)}\n"
    return "".join(f".TP\n{in_roff(term)}\n{in_roff(' | '.join(rest))}\n" for term, *rest in block)


def page(name):
    title, sections = PAGES[name]
    version = re.search(r'^\.TH .*', (TOP / "man" / "fuseworld.1").read_text(), re.M)[0].replace(" 1 ", " 5 ", 1)
    version = version.replace("FUSEWORLD", name.upper(), 1).replace("User Commands", "File Formats")
    text = f'.\\" Written by tests/man_pages.py from the documents.\n{version}\n.SH NAME\n{name} \\- {title}\n'
    for heading, document, where, blocks in sections:
        body = "".join(map(in_page, section(document, where)[blocks]))
        text += f".SH {heading}\n" + (body[4:] if body.startswith(".PP\n") else body)
    others = [other for other in PAGES if other != name]
    return text + ".SH SEE ALSO\n.BR fuseworld (1),\n" + ",\n".join(f".BR {other} (5)" for other in others) + "\n"


def main():
    checks, stale = sys.argv[1:] == ["--check"], []
    for name in PAGES:
        file, text = TOP / "man" / f"{name}.5", page(name)
        if checks and not (file.exists() and file.read_text() == text):
            stale.append(file)
            print(f"{file.relative_to(TOP)} is not what the documents say: run tests/man_pages.py")
        elif not checks:
            file.write_text(text)
    return 1 if stale else 0


sys.exit(main())
