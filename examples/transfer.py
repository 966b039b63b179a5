#!/usr/bin/env python3
"""Prints a file transfer over a line that loses some, as a model.

    python3 examples/transfer.py CHUNKS

Each chunk is tried up to three times; where the third try fails, the transfer has failed. The first two tries are made fast, in one step, or with
care, in two; the third one as it comes. A try is lost with probability 1/10, 1/5 and 1/2, with care with 1/50 and 1/10. The reward `sent` counts tries.
"""

import pathlib
import sys

sys.dont_write_bytecode = True
sys.path.insert(0, str(pathlib.Path(__file__).resolve().parent.parent / "tools"))

from mdptools import drn  # noqa: E402

if sys.argv[1:2] in (["--help"], ["-h"]):
    print(__doc__)
    sys.exit()

CHUNKS = int(sys.argv[1])
DONE, FAILED = 5 * CHUNKS, 5 * CHUNKS + 1


def action(name, reward, *entries):
    print(*drn.choice_lines(sorted(entries), name, [reward], "\t"), sep="\n")


def tries(first, following):
    """The five states of a chunk: the first try, its second step with care, the second try, its second step with care, and the third try."""
    for state, lost, careful, arrives, is_late in ((first, "1/10", "1/50", "9/10", False), (first + 2, "1/5", "1/10", "4/5", True)):
        print(drn.state_line(state, ["init"] * (state == 0)))
        action("fast", 1, (state + 2, lost), (following, arrives))
        action("careful", 1, (state + 1, 1))
        print(drn.state_line(state + 1))
        action("careful", 0, (state + 2, careful), (following, "9/10" if is_late else "49/50"))
    print(drn.state_line(first + 4))
    action("last", 1, (following, "1/2"), (FAILED, "1/2"))


print(*drn.head(["sent"], FAILED + 1, 7 * CHUNKS + 2), sep="\n")
for chunk in range(CHUNKS):
    tries(5 * chunk, 5 * (chunk + 1) if chunk + 1 < CHUNKS else DONE)
for state, label in ((DONE, "done"), (FAILED, "failed")):
    print(drn.state_line(state, [label]))
    action("rest", 0, (state, 1))
