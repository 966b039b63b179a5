#!/usr/bin/env python3
"""Prints a retransmission protocol as a model.

    python3 examples/retransmission.py CHUNKS TRIES

A file is sent in chunks (as in Helmink, Sellink and Vaandrager 1994). A frame is lost with 1/50, and with 1/100 where it is sent with care; its acknowledgment
is lost with 1/100. Then the chunk is tried again, up to TRIES times in all; where the last try fails, the transfer has failed.
"""

import pathlib
import sys

sys.dont_write_bytecode = True
sys.path.insert(0, str(pathlib.Path(__file__).resolve().parent.parent / "tools"))

from mdptools import drn  # noqa: E402

if sys.argv[1:2] in (["--help"], ["-h"]):
    print(__doc__)
    sys.exit()

CHUNKS, TRIES = map(int, sys.argv[1:])
SENT, FAILED = 2 * CHUNKS * TRIES, 2 * CHUNKS * TRIES + 1


def number(chunk, attempt, is_there):
    """The number of a state: of the next chunk where this one is through, or of the failure where all tries are used up."""
    if attempt == TRIES:
        return FAILED
    return min(2 * (chunk * TRIES + attempt) + is_there, SENT)


def action(name, *entries):
    print(*drn.choice_lines(sorted(entries), name, tab="\t"), sep="\n")


print(*drn.head(["-"], FAILED + 1, 3 * CHUNKS * TRIES + 2), sep="\n")
for chunk in range(CHUNKS):
    for attempt in range(TRIES):
        frame, there, again = number(chunk, attempt, 0), number(chunk, attempt, 1), number(chunk, attempt + 1, 0)
        print(drn.state_line(frame, ["init"] * (frame == 0) + [drn.quoted(f"chunk {chunk + 1}, try {attempt + 1}")]))
        action("fast", (there, "49/50"), (again, "1/50"))
        action("careful", (there, "99/100"), (again, "1/100"))
        print(drn.state_line(there, [drn.quoted(f"chunk {chunk + 1}, try {attempt + 1}, there")]))
        action("acknowledge", (number(chunk + 1, 0, 0), "99/100"), (again, "1/100"))
for state, label in ((SENT, "sent"), (FAILED, "failed")):
    print(drn.state_line(state, [label]))
    action("rest", (state, 1))
