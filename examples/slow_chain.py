#!/usr/bin/env python3
"""Prints a Markov chain in DRN on which value iteration is slow (as in Haddad and Monmege 2018).

    python3 examples/slow_chain.py STEPS      at least 1

The chain starts in the middle of a line of 2 STEPS + 1 states. From the middle it goes to either side with 1/2. At each later step it goes one state
further with 1/2, and else back to the middle. The state at one end is labelled `goal`. By symmetry it is reached with probability 1/2.
"""

import pathlib
import sys

sys.dont_write_bytecode = True
sys.path.insert(0, str(pathlib.Path(__file__).resolve().parent.parent / "tools"))

from mdptools import drn  # noqa: E402


def row(state, middle):
    """The targets, each with 1/2."""
    further = state + 1 if state > middle else state - 1
    return (middle - 1, middle + 1) if state == middle else sorted((middle, further))


def main():
    if sys.argv[1:2] in (["--help"], ["-h"]):
        print(__doc__)
        return
    middle = int(sys.argv[1])
    states = 2 * middle + 1
    print(*drn.head([], states, states, is_chain=True), sep="\n")
    for state in range(states):
        print(drn.state_line(state, ["init"] * (state == middle) + ["goal"] * (state == states - 1)))
        entries = [(state, 1)] if state in (0, states - 1) else [(target, "1/2") for target in row(state, middle)]
        print(*drn.choice_lines(entries, "on"), sep="\n")


if __name__ == "__main__":
    main()
