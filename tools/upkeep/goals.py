"""Lists the goals of a crate that took longest to prove, in the checks whose work its out/incremental keeps.

    tools/goals CRATE [COUNT]

prints a line `SECONDS FUNCTION GOAL` for each of the COUNT (20) dearest. A goal without an answer is searched: one that stands here and has none is worth
an answer. The times are those that the toolchain notes in its files, in a form that none of its guides promises: where none is found, it ends with 1.
"""

import pathlib
import re
import sys

TOP = pathlib.Path(__file__).resolve().parent.parent.parent
SHOWN = 20
# What a file notes of a declaration: its name and, within so many characters, the microseconds of each phase of its check.
NOTE = re.compile(r'"name":"([^"]+)"(.{0,3000}?)"phases":\[([0-9,]+)\]', re.DOTALL)


def times(crate):
    """The seconds of each goal, with its function."""
    found = {}
    for file in (TOP / "crates" / crate / "out" / "incremental").rglob(f"Rattle-{crate}-proofs.*.Proof*.oantt"):
        function = file.name.removeprefix(f"Rattle-{crate}-proofs.").partition(".Proof")[0]
        for name, _, phases in NOTE.findall(file.read_bytes().decode(errors="replace")):
            found[function, name] = sum(map(int, phases.split(","))) / 1e6
    return found


def main(words):
    if words[:1] in (["--help"], ["-h"]):
        print(__doc__)
        return
    if len(words) not in (1, 2) or not (TOP / "crates" / words[0]).is_dir():
        sys.exit(__doc__)
    found = times(words[0])
    if not found:
        sys.exit(f"tools/goals: out/ of {words[0]} notes no times")
    for (function, goal), seconds in sorted(found.items(), key=lambda each: -each[1])[: int(words[1]) if len(words) == 2 else SHOWN]:
        print(f"{seconds:7.2f} {function} {goal}")
