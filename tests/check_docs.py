#!/usr/bin/env python3
"""Whether what the documents name is there: files, crates, rows, edits, definitions, functions and make's targets.

A lone word in backticks has to be a word of a source outside its comments, or in the name of a file, a folder or a crate.
In the tables whose second column is "Definition", each rule has to lead to a definition, a function and a test; in the one
whose second is "Word" that word has to stand in each file, and one with `::` in no other source but tests.
Each sample of Rust has to be lines of crates/callers, and each sample that names a file lines of that file. The version
has to be the program's everywhere; ARCHITECTURE.md has each crate below those that it uses. Each row with a line has to
begin with a comment that says what it shows.

Comments of sources, definitions and proofs name an identifier in backticks, or it is a name of linux/fuse.h; they have
none of the words that WORDS.md refuses, and no verb that a renaming broke. Prints a line for each fault, and
ends with status 1 where there is one.
"""
import re
import sys
from pathlib import Path

TOP = Path(__file__).resolve().parent.parent
PAGES = [*(TOP / f"{name}.md" for name in ("README", "CONTRIBUTING", "SECURITY", "CHANGELOG")), *sorted((TOP / "docs").glob("*.md"))]
CRATES = {folder.name for folder in (TOP / "crates").iterdir() if (folder / "src").is_dir()}
CODE = {crate: "\n".join(file.read_text() for file in (TOP / "crates" / crate / "src").rglob("*.rt")) for crate in CRATES}
EDITS = {(file.parts[-2], file.stem) for file in TOP.glob("tests/wrong_bodies/*/*.edit")}
ROWS = {file.stem for file in TOP.glob("tests/rows/*.script")}
TARGETS = set(re.findall(r"^([\w-]+):", (TOP / "Makefile").read_text(), re.M))
# Words with a hyphen that are no rows and no edits, a word of `rt plant`, and how the names of calls that take a minor end.
WORDS = {"must-fail", "not-run", "proves", "_at"}
# Pages with names of linux/fuse.h, which are in comments of the sources.
OF_LINUX = {"PROTOCOL.md", "DIFFERENCES.md", "WORDS.md"}
# What comments may name without backticks: names of linux/fuse.h and of open(2) and socket(2) in capitals, its structs, and these
# fields of them.
CAPITALS = re.compile(r"(FUSE|O|SOCK|RENAME)_[A-Z0-9_]+")
FLAGS = set("ASYNC_READ DO_READDIRPLUS EXPORT_SUPPORT INIT_EXT MAX_PAGES PARALLEL_DIROPS SETXATTR_EXT".split())
CODES = set(re.findall(r'codes "(\w+)"', "".join(file.read_text() for file in TOP.glob("crates/fuse_*/specs/*Table.antt"))))
FIELDS = set("""attr_valid attr_valid_nsec congestion_threshold entry_out entry_valid entry_valid_nsec getattr_flags lock_owner
    map_alignment max_background max_pages max_readahead max_write open_flags read_flags release_flags time_gran
    write_flags""".split())
STRUCTS = set("""attr attr_out batch_forget_in create_in dirent direntplus entry_out forget_in forget_one getattr_in in_header
    init_in init_out interrupt_in link_in mkdir_in notify_code opcode open_in open_out out_header read_in release_in rename_in
    write_in write_out""".split())
# What is told apart is no listed file.
APART = re.compile(r"\b(told|tells?)( the same)? apart\b")
BROKEN = re.compile(r"\b(has|have|would|can) (?!themselves\b|thousands\b)\w+(ches|nds|kes|ves)\b")
# The crates that draw pictures, and may say so.
PICTURES = {"fw_draw", "fuseworld"}
MODULES = {}
for file in [*TOP.glob("crates/*/specs/**/*.antt"), *TOP.glob("crates/*/proofs/*.antt"), *TOP.glob("crates/fuse_theorem/proofs/*/[A-Z]*.antt")]:
    MODULES[file.stem] = MODULES.get(file.stem, "") + file.read_text()
SOURCES = [file for part in ("src", "specs", "proofs") for file in TOP.glob(f"crates/*/{part}/**/*") if file.suffix in (".rt", ".antt")]
FILES = [f"/{file.relative_to(TOP)}" for file in [*SOURCES, *PAGES, *TOP.glob("tests/*.*"), *TOP.iterdir()]]
TEXT = "\n".join(file.read_text() for file in SOURCES)
KNOWN = {*re.findall(r"\w+", re.sub(r"(//|--).*", "", TEXT)), *re.findall(r"\w+", "\n".join(FILES)), *WORDS}
KNOWN_OF_LINUX = KNOWN | set(re.findall(r"\w+", TEXT))

def has_word(text, word):
    return re.search(rf"(?<![\w-]){re.escape(word)}(?![\w-])", text) is not None

def declares(text, name):
    return re.search(rf"\b(record|data) {re.escape(name)}\b", text) is not None

def is_item(code, name):
    return re.search(rf"\b(fn|struct|enum|trait|type|mod|const|static|ghost) {re.escape(name)}\b", code) is not None

def leads(token, page):
    """Whether a name on a page leads somewhere; None where it is none of those that are looked up."""
    if re.fullmatch(r"(crates|tests|docs|examples|include|man|completions)/[\w./-]+", token):
        return "/out/" in token or (TOP / token).exists()
    if re.fullmatch(r"(\w+/)*\w+\.(rt|antt|md|py|sh)", token):
        return any(file.endswith(f"/{token}") for file in FILES)
    if match := re.fullmatch(r"make ([\w-]+)( \S+)?", token):
        return match[1] in TARGETS
    if re.fullmatch(r"[a-z0-9]+(-[a-z0-9]+)+", token):
        return token in ROWS | WORDS or any(edit == token for _, edit in EDITS)
    if match := re.fullmatch(r"(\w+)/([a-z0-9-]+)", token):
        return match.groups() in EDITS
    if match := re.fullmatch(r"([A-Z]\w*/[A-Z]\w*)(?:\.(\w+))?", token):
        return any(match[2] is None or has_word(file.read_text(), match[2]) for file in TOP.glob(f"crates/*/specs/{match[1]}.antt"))
    if match := re.fullmatch(r"([A-Z]\w*)\.(\w+)", token):
        where = [MODULES[match[1]]] if match[1] in MODULES else [text for text in MODULES.values() if declares(text, match[1])]
        is_one = len([*TOP.glob(f"crates/fuse_spec/specs/*/{match[1]}.antt")]) < 2
        return is_one and any(has_word(text, match[2]) for text in where)
    if re.fullmatch(r"\w+(::\w+)+", token):
        first, *rest = token.split("::")
        code = [CODE[first]] if first in CRATES else [code for code in CODE.values() if is_item(code, first)]
        return any(all(is_item(text, name) for name in rest) for text in code)
    if re.fullmatch(r"\w+", token):
        return token in (KNOWN_OF_LINUX if page.name in OF_LINUX else KNOWN) or any(crate.startswith(token) for crate in CRATES)
    return None

def names(cell):
    return re.findall(r"`([^`]+)`", cell)

def rule_is_whole(definitions, code, shown):
    """Whether a rule's row leads to a definition, a function and what shows it."""
    crate = "fuse_spec"
    defined = []
    for name in names(definitions):
        if name in CRATES:
            crate = name
        elif "." not in name:
            defined.append(any(has_word(file.read_text(), name) for file in (TOP / "crates" / crate / "specs").rglob("*.antt")))
    here = None
    functions = []
    for name in names(code):
        if name in CRATES:
            here = name
        else:
            functions.append(here is not None and all(is_item(CODE[here], part) for part in name.split("::")))
    return all(defined) and functions and all(functions) and (shown.strip() != "")

def unlike_callers(page):
    """The samples of Rust on a page that do not stand, line after line, in a source of crates/callers."""
    flat = lambda text: [line.strip() for line in text.strip().split("\n")]
    sources = ["\n".join(flat(file.read_text())) for file in (TOP / "crates" / "callers" / "src").glob("*.rt")]
    samples = re.findall(r"```rust\n(.*?)```", page.read_text(), re.S)
    return [sample for sample in samples if not any("\n".join(flat(sample)) in source for source in sources)]

def unlike_files(page):
    """The samples on a page that name a file, and do not stand in it line after line."""
    flat = lambda text: [line.strip() for line in text.strip().split("\n")]
    for name, sample in re.findall(r"```\w+ (\S+)\n(.*?)```", page.read_text(), re.S):
        lines, wanted = flat((TOP / name).read_text()), flat(sample)
        if not any(lines[place:place + len(wanted)] == wanted for place in range(len(lines))):
            yield f"{name} has no such lines: {sample}"

def word_faults(word, listed):
    """Which files of a row have not its word, or have it and are not listed."""
    said = re.compile(rf"\b{word}\b", 0 if "::" in word else re.I)
    for file in listed:
        if not said.search((TOP / "crates" / file).read_text()):
            yield f"{file} has no {word}"
    if "::" in word:
        sources = [file.relative_to(TOP / "crates") for file in TOP.glob("crates/*/src/**/*.rt") if said.search(file.read_text())]
        yield from (f"{file} has {word} too" for file in map(str, sources)
                    if file not in listed and not re.match(r"\w+_tests/|callers/", file))

def uncommented_rows():
    """The rows with a line whose first line is no comment."""
    return [script for script in sorted(TOP.glob("tests/rows/*.script")) if not re.match(r"# \S|$", script.read_text())]

def versions():
    """Where the version and the logic stand, with what stands there: they have to agree."""
    program = re.search(r'VERSION: &str = "(\S+) \((.*)\)"', (TOP / "crates/fw_tasks/src/version.rt").read_text())
    yield "README.md", program[2], re.search(r"^Proved with .*?`(logic \S+)`", (TOP / "README.md").read_text(), re.M)[1]
    yield "CHANGELOG.md", program[1], re.search(r"^## (\S+)$", (TOP / "CHANGELOG.md").read_text(), re.M)[1]
    yield "man/fuseworld.1", f"fuseworld {program[1]}", re.search(r'^\.TH .*?"(.*?)"', (TOP / "man/fuseworld.1").read_text(), re.M)[1]

def out_of_order():
    """The crates of ARCHITECTURE.md's list that stand above one that they use; the tests are its last line."""
    rows = re.findall(r"^- (`[^:]*):", (TOP / "docs/ARCHITECTURE.md").read_text(), re.M)
    place = {crate: number for number, row in enumerate(rows) for crate in names(row)}
    tests = max(place.values())
    for line in (TOP / "crates.txt").read_text().split("\n")[1:-1]:
        crate, uses = line.split(":")[0].split()[0], line.split(":")[1].split()
        if crate not in place:
            yield f"{crate} is not in ARCHITECTURE.md"
        yield from (f"{crate} stands above {low} in ARCHITECTURE.md" for low in uses
                    if crate in place and place.get(low, -1) > place[crate] and place[low] != tests)

def refused_words():
    """The words behind "not" in WORDS.md, which comments may not have."""
    listed = re.findall(r"^- .*; not: (.+)$", (TOP / "docs/WORDS.md").read_text(), re.M)
    words = [word.strip() for cell in listed for word in cell.split(",")]
    return re.compile(rf"\b({'|'.join(words)})\b", re.I)

def comments(file):
    """The comments of a source, a paragraph at a time, without what is in backticks: its first line, and its text."""
    sign = "//[/!]?" if file.suffix == ".rt" else "--"
    found = []
    for number, line in enumerate(file.read_text().split("\n"), 1):
        if match := re.match(rf"\s*{sign}(.*)", line) or re.match(rf'[^"]*\s{sign}\s(.*)', line):
            is_next = found and found[-1][1] == number - 1 and match[1].strip()
            found[-1:] = [*found[-1:], (number, number, match[1])] if not is_next else [(found[-1][0], number, f"{found[-1][2]}{match[1]}")]
    return [(first, re.sub(r"`[^`]*`", "`", text)) for first, _, text in found]

def is_of_linux(word):
    return CAPITALS.fullmatch(word) or word.rstrip("s") in FLAGS | CODES or word in FIELDS or word.startswith("fuse_") and word[5:] in STRUCTS

def comment_faults():
    refused = refused_words()
    for file in SOURCES:
        name = file.relative_to(TOP)
        may_draw = name.parts[1] in PICTURES
        for number, text in comments(file):
            words = [word for word in re.findall(r"\w*_\w+", text) if not is_of_linux(word)]
            words += [match[0] for match in refused.finditer(APART.sub("", text)) if not (may_draw and match[0].lower().startswith("draw"))]
            words += [match[0] for match in BROKEN.finditer(text)]
            yield from (f"{name}:{number}: the comment says {word}" for word in words)

def main():
    wrong = [f"{place}: {there}, and fuseworld --version has {program}" for place, program, there in versions() if program != there]
    wrong += [f"{page.relative_to(TOP)}: no lines of crates/callers: {sample}" for page in PAGES for sample in unlike_callers(page)]
    wrong += [f"{page.relative_to(TOP)}: {fault}" for page in PAGES for fault in unlike_files(page)]
    wrong += [f"{script.relative_to(TOP)}: no comment at its head" for script in uncommented_rows()]
    wrong += out_of_order()
    wrong += comment_faults()
    for page in PAGES:
        in_rules = in_words = False
        for number, line in enumerate(page.read_text().split("\n"), 1):
            place = f"{page.relative_to(TOP)}:{number}"
            for link in re.findall(r"\]\(([^)#:]+)\)", line):
                if not (page.parent / link).exists():
                    wrong.append(f"{place}: {link}")
            for name in names(line):
                if leads(name, page) is False:
                    wrong.append(f"{place}: {name}")
            # `crate`: `function`, `function` ..
            for crate, listed in re.findall(r"`(\w+)`: ((?:`[\w:]+`(?:, | and )?)+)", line):
                for name in names(listed) if crate in CRATES else []:
                    if not all(has_word(CODE[crate], part) for part in name.split("::")):
                        wrong.append(f"{place}: {crate}: {name}")
            cells = line.split("|")[1:-1]
            if len(cells) > 1 and cells[1].strip() == "Definition":
                in_rules = True
            elif len(cells) > 1 and cells[1].strip() == "Word":
                in_words = True
            elif not cells:
                in_rules = in_words = False
            elif in_words and "---" not in line:
                wrong += [f"{place}: {fault}" for fault in word_faults(cells[1].strip(), names(cells[2]))]
            elif in_rules and "---" not in line and not rule_is_whole(*cells[1:4]):
                wrong.append(f"{place}: the rule {cells[0].strip()}")
    for fault in wrong:
        print(fault)
    return 1 if wrong else 0

sys.exit(main())
