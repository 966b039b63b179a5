#!/usr/bin/env python3
"""Value iteration in floating-point numbers, as it is often done, to show that its answer can be wrong.

    python3 examples/value_iteration.py MODEL max|min LABEL [CHANGE]

It starts with 1 at the states with LABEL and 0 elsewhere, and replaces all values by the best expected ones until no value changes by CHANGE, 10^-6
where nothing is said, or more. Then it prints the value of the state labelled `init`, and after how many steps it stopped. It doesn't judge the model.
"""

import pathlib
import sys

sys.dont_write_bytecode = True
sys.path.insert(0, str(pathlib.Path(__file__).resolve().parent.parent / "tools"))

from mdptools import drn  # noqa: E402


def read(path):
    """The choices of each state, a list of rows; and the states of each label."""
    model = drn.read(path)
    states = [[[(target, float(value)) for target, value in choice.row] for choice in state.choices] for state in model.states]
    return states, {label: set(model.states_with(label)) for label in model.labels()}


def iterate(states, goals, best, change):
    """The values at which the iteration stops, and after how many steps."""
    values = [float(state in goals) for state in range(len(states))]
    steps = 0
    while True:
        after = [
            1.0 if state in goals else best(sum(value * values[target] for target, value in row) for row in rows)
            for state, rows in enumerate(states)
        ]
        steps += 1
        if max(abs(new - old) for new, old in zip(after, values)) < change:
            return after, steps
        values = after


def main():
    if sys.argv[1:2] in (["--help"], ["-h"]):
        print(__doc__)
        return
    path, direction, label = sys.argv[1:4]
    change = float(sys.argv[4]) if len(sys.argv) > 4 else 1e-6
    states, labels = read(path)
    values, steps = iterate(states, labels[label], {"max": max, "min": min}[direction], change)
    for state in labels["init"]:
        print(f"{values[state]:.6f} after {steps} steps")


if __name__ == "__main__":
    main()
