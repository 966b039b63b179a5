#!/usr/bin/env python3
"""Prints a Markov chain in DRN: one bets 1 on red again and again, at a wheel with one zero.

    python3 examples/roulette.py STAKE GOAL      0 < STAKE < GOAL

State s is that one has s. One begins with STAKE, wins 1 with 18/37, loses 1 with 19/37, and stops with nothing or with GOAL, the label `rich`.
With r = 19/18, rich is reached from STAKE with probability (r^STAKE - 1) / (r^GOAL - 1).
"""

import pathlib
import sys

sys.dont_write_bytecode = True
sys.path.insert(0, str(pathlib.Path(__file__).resolve().parent.parent / "tools"))

from mdptools import drn  # noqa: E402


def main():
    if sys.argv[1:2] in (["--help"], ["-h"]):
        print(__doc__)
        return
    stake, goal = map(int, sys.argv[1:])
    print(*drn.head([], goal + 1, goal + 1, is_chain=True), sep="\n")
    for state in range(goal + 1):
        print(drn.state_line(state, ["init"] * (state == stake) + ["rich"] * (state == goal)))
        row = [(state, 1)] if state in (0, goal) else [(state - 1, "19/37"), (state + 1, "18/37")]
        print(*drn.choice_lines(row, "bet"), sep="\n")


if __name__ == "__main__":
    main()
