#!/usr/bin/env python3
"""Prints the shared coin of Aspnes and Herlihy (1990) as a model in DRN.

    python3 examples/shared_coin.py PROCESSES BOUND      PROCESSES at least 1, BOUND at least 1

Each process repeats three steps: it flips a coin of its own, counts a shared counter up (heads) or down (tails), and checks the counter. Where
that stands at BOUND times PROCESSES or above, the process decides for heads; at minus that or below, for tails; else it begins again. A scheduler
lets one undecided process after the other make a step, and sees all that has happened.

Labels: `init`, `finished` where all processes have decided, `heads` where all decided for heads, `tails` where all decided for tails, `disagree`
where some decided for each. The reward `steps` counts the steps. This is the model of Kwiatkowska, Norman and Segala (2001), with the counter from 0.
"""

import pathlib
import sys

sys.dont_write_bytecode = True
sys.path.insert(0, str(pathlib.Path(__file__).resolve().parent.parent / "tools"))

from mdptools import drn  # noqa: E402

FLIP, UP, DOWN, CHECK, HEADS, TAILS = range(6)
DECIDED = (HEADS, TAILS)


def step(counter, process, bound):
    """The counter and the process after its step, each with its probability."""
    if process == FLIP:
        return [("1/2", counter, UP), ("1/2", counter, DOWN)]
    if process == UP:
        return [("1", counter + 1, CHECK)]
    if process == DOWN:
        return [("1", counter - 1, CHECK)]
    return [("1", counter, HEADS if counter >= bound else TAILS if counter <= -bound else FLIP)]


def choices(state, bound):
    """Each choice, with its name, its reward and its entries: the processes that may make a step, or a rest where all have decided."""
    counter, processes = state
    for i, process in enumerate(processes):
        if process not in DECIDED:
            after = step(counter, process, bound)
            yield f"process-{i + 1}", [1], [((to, processes[:i] + (now,) + processes[i + 1:]), value) for value, to, now in after]
    if all(process in DECIDED for process in processes):
        yield "rest", [0], [(state, "1")]


def labels(state):
    decided = set(state[1])
    if not decided <= set(DECIDED):
        return []
    return ["finished", "disagree" if len(decided) == 2 else "heads" if HEADS in decided else "tails"]


def main():
    if sys.argv[1:2] in (["--help"], ["-h"]):
        print(__doc__)
        return
    processes, bound = int(sys.argv[1]), int(sys.argv[1]) * int(sys.argv[2])
    lines = drn.explored(["steps"], (0, (FLIP,) * processes), labels, lambda state: choices(state, bound))
    print(*lines, sep="\n")


if __name__ == "__main__":
    main()
