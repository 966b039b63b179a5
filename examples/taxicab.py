#!/usr/bin/env python3
"""Prints Howard's taxicab (Howard 1960, chapter 4) as a model in DRN.

    python3 examples/taxicab.py

A driver in town A, B or C cruises, drives to the nearest cab stand, or waits for a call by radio, which town B hasn't. Each way has its own chances of
the town where the next trip ends, and a trip has a fare by its town. Rewards of DRN belong to choices, so the reward `fare` of a choice is the
expected fare of its trip. The driver starts in town A, the state labelled `init`.
"""

import fractions
import pathlib
import sys

sys.dont_write_bytecode = True
sys.path.insert(0, str(pathlib.Path(__file__).resolve().parent.parent / "tools"))

from mdptools import drn  # noqa: E402

# For each town its choices: the name, the chances of a trip to A, B and C, and the fares of these trips.
TOWNS = [
    [("cruise", "1/2 1/4 1/4", "10 4 8"), ("stand", "1/16 3/4 3/16", "8 2 4"), ("radio", "1/4 1/8 5/8", "4 6 4")],
    [("cruise", "1/2 0 1/2", "14 0 18"), ("stand", "1/16 7/8 1/16", "8 16 8")],
    [("cruise", "1/4 1/4 1/2", "10 2 8"), ("stand", "1/8 3/4 1/8", "6 4 2"), ("radio", "3/4 1/16 3/16", "4 0 8")],
]


def numbers(words):
    return [fractions.Fraction(word) for word in words.split()]


def main():
    if sys.argv[1:2] in (["--help"], ["-h"]):
        print(__doc__)
        return
    print(*drn.head(["fare"], len(TOWNS), sum(map(len, TOWNS))), sep="\n")
    for town, choices in enumerate(TOWNS):
        print(drn.state_line(town, ["init"] * (town == 0) + ["ABC"[town]]))
        for name, chances, fares in choices:
            row = numbers(chances)
            expected = sum(chance * fare for chance, fare in zip(row, numbers(fares)))
            print(*drn.choice_lines([(target, chance) for target, chance in enumerate(row) if chance], name, [expected]), sep="\n")


if __name__ == "__main__":
    main()
