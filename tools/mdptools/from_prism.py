"""Prints a model in DRN from PRISM's explicit files, as `prism MODEL.prism -exportmodel OUT.all` writes them.

    tools/from_prism PREFIX > OUT.drn           of PREFIX.tra, and PREFIX.lab, PREFIX.sta, PREFIX.srew, PREFIX1.trew .. where they are
    tools/from_prism FILE.. > OUT.drn           of these files; NAME=FILE.srew gives the reward structure its name

A reward of a transition becomes what its choice earns in expectation, exactly. Probabilities are taken as they are spelled: rounded ones are for ROWS
`scaled` (or let PRISM compute exactly, by -exact). The formats are those of PRISM's manual, from memory: no version of PRISM was run. A line that isn't of
its format is refused with its number, and status 2.
"""

import pathlib
import re
import sys

from . import drn, prism


def files_of(words):
    """The files that the words name: pairs of a reward structure's name, or nothing, and a path."""
    if len(words) == 1 and not words[0].endswith(prism.KINDS):
        prefix = pathlib.Path(words[0])
        form = re.compile(re.escape(prefix.name) + r"(\d*)(\.[a-z]+)")
        found = [path for path in sorted(prefix.parent.glob("*")) if (match := form.fullmatch(path.name)) and match[2] in prism.KINDS]
        return [("", path) for path in found]
    pairs = [word.rpartition("=") for word in words]
    return [(name, pathlib.Path(path)) for name, _, path in pairs]


def main(words):
    if not words or words[0] in ("-h", "--help"):
        print(__doc__.strip())
        sys.exit(0 if words else 2)
    try:
        files = files_of(words)
        if not files:
            raise drn.Unclear(words[0], 0, "there are no files with this prefix")
        model = prism.read(files)
        sys.stdout.reconfigure(encoding="utf-8", errors="surrogateescape")
        sys.stdout.writelines(line + "\n" for line in drn.lines_to_write(model))
    except drn.Unclear as unclear:
        sys.stderr.write(f"tools/from_prism: {unclear}\n")
        sys.exit(2)
