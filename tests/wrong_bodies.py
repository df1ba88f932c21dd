#!/usr/bin/env python3
"""Whether the prover refuses each wrong body of tests/wrong_bodies, outside the gate.

tests/wrong_bodies/CRATE/NAME.edit turns a body of that crate into a wrong one, in the form of a must-fail edit. Each is
tried in a copy of the tree (with what earlier checks kept, so that only what the edit turns is proved again): a line each
with the clause that refused it, then `N passed, M failed`. Names of crates as arguments try those alone. Status 1 where
one is not refused, or has no verdict.

A proof file answers goals by their names. Where a wrong body has no longer such a goal, the check ends there and says
nothing of the clause: that is no verdict, and the proof file has to be adapted in the edit's favour by hand.
"""
import re
import shutil
import subprocess
import sys
import tempfile
import time
from pathlib import Path

TOP = Path(__file__).resolve().parent.parent
EDITS = TOP / "tests" / "wrong_bodies"

# What rt says where a proof answers a goal, or cites a part of one, that the wrong body does not have.
GONE = re.compile(r"only because a proof file names what the edit took away")


def copy_of_the_tree(room):
    """The crates as they stand, with what their checks kept, and nothing else."""
    for name in ("crates.txt", "HANDLES"):
        shutil.copy(TOP / name, room)
    shutil.copytree(TOP / "crates", room / "crates", symlinks=True, ignore=shutil.ignore_patterns("must-fail"))
    return room


def try_crate(room, crate, edits):
    """Tries the edits of a crate, one after another: a name and what rt said of it, for each."""
    folder = room / "crates" / crate / "must-fail"
    folder.mkdir(exist_ok=True)
    for edit in edits:
        shutil.copy(edit, folder)
    ran = subprocess.run(["rt", "must-fail", crate], cwd=room, stdout=subprocess.PIPE, stderr=subprocess.STDOUT, text=True)
    shutil.rmtree(folder)
    for edit in edits:
        said = re.search(rf"must-fail {re.escape(crate)}/{re.escape(edit.name)}: (.*)", ran.stdout)
        yield edit.stem, said[1] if said else f"rt said nothing of it: {ran.stdout[-200:]}"


def clause_in(said):
    """The clause that refused it, as rt names it, and the line whose function has it."""
    placed = re.search(r"(src/[\w/]+\.rt:\d+).*?\(`([^`]*)`\)", said)
    if placed:
        return f"{placed[2]} ({placed[1]})"
    named = re.search(r"error: `([^`]*)`", said)
    return named[1] if named else said


def main(names):
    passed, failed, start = 0, 0, time.monotonic()
    with tempfile.TemporaryDirectory(prefix="wrong-bodies-") as made:
        room = copy_of_the_tree(Path(made))
        for folder in sorted(EDITS.iterdir()):
            edits = sorted(folder.glob("*.edit"))
            if not edits or names and folder.name not in names:
                continue
            for name, said in try_crate(room, folder.name, edits):
                ended = said.startswith("refused, as it must be")
                is_refused = ended and not GONE.search(said)
                why = f"by {clause_in(said)}" if is_refused else said
                verdict = "refused" if is_refused else "NO VERDICT" if ended else "NOT REFUSED"
                print(f"{verdict} {folder.name}/{name}: {why}", flush=True)
                passed, failed = passed + is_refused, failed + (not is_refused)
    print(f"{time.monotonic() - start:.0f} seconds")
    print(f"{passed} passed, {failed} failed")
    return 1 if failed else 0


if __name__ == "__main__":
    sys.exit(main(sys.argv[1:]))
