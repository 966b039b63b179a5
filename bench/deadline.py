#!/usr/bin/env python3
"""Measures `curve` and `bounds` of an until with a deadline beside plain sweeps in C doubles.

A robot on a square of SIDE by SIDE tiles goes north, east, south or west and slips to the right of its way with 1/10; walls hold it. One tile in seven is a
hole, drawn by SIDE, which it can't leave. The last tile has the charger. The question is the best probability of coming to it within STEPS steps by way of
tiles that aren't holes.

For each SIDE and STEPS: the states and transitions; the processor time of `curve`, of `bounds` and of the reading alone (a curve of no step), each the whole
program at DIGITS digits, the least of RUNS runs; the peer's, bench/iteration.c, which makes as many sweeps over the same file in doubles and writes the values;
how many times the peer's `curve` and `bounds` take; whether the curve's last line lies within what `bounds` says at the first state; and how far the peer's
value lies outside of it.
Usage: bench/deadline.py [SIDE STEPS ..] (100 tiles a side and 300 steps, 30 and 1000 if nothing is said). It needs gcc, and bin/mdp built.
"""

import pathlib
import random
import resource
import subprocess
import sys
import tempfile
from fractions import Fraction

sys.dont_write_bytecode = True
TOP = pathlib.Path(__file__).resolve().parent.parent
sys.path.insert(0, str(TOP / "tools"))

from mdptools import drn  # noqa: E402

PROGRAM = TOP / "out" / "mdp"
DIGITS = 9
RUNS = 5
WAYS = [("north", 0, -1), ("east", 1, 0), ("south", 0, 1), ("west", -1, 0)]


def robot(side):
    """The lines of the model: which tiles are holes from the length of its side."""
    draw = random.Random(side)
    last = side * side - 1
    holes = {s for s in range(1, last) if draw.randrange(7) == 0}
    yield from drn.head([], side * side)
    for s in range(side * side):
        yield drn.state_line(s, ["init"] * (s == 0) + ["floor"] * (s not in holes) + ["charger"] * (s == last))
        for way, (name, *_) in enumerate(WAYS):
            row = {s: Fraction(1)} if s in holes else moved(side, s, way)
            yield from drn.choice_lines(sorted(row.items()), name)


def moved(side, s, way):
    """The row of a choice to go that way."""
    row = {}
    for (_, right, down), part in ((WAYS[way], Fraction(9, 10)), (WAYS[(way + 1) % 4], Fraction(1, 10))):
        x, y = s % side + right, s // side + down
        target = y * side + x if 0 <= x < side and 0 <= y < side else s
        row[target] = row.get(target, 0) + part
    return row


def timed_once(words):
    """The output of a program that ends well, and its processor time in seconds."""
    before = resource.getrusage(resource.RUSAGE_CHILDREN)
    ran = subprocess.run([str(word) for word in words], stdout=subprocess.PIPE, stderr=subprocess.DEVNULL, check=True)
    after = resource.getrusage(resource.RUSAGE_CHILDREN)
    return ran.stdout.decode(), after.ru_utime + after.ru_stime - before.ru_utime - before.ru_stime


def timed(words):
    """Its output, and the least time of some runs."""
    runs = [timed_once(words) for _ in range(RUNS)]
    return runs[0][0], min(seconds for _, seconds in runs)


def pair(line):
    """The lower and the upper value at the end of a line."""
    return [Fraction(word) for word in line.split()[-2:]]


def bounds_of(text):
    """What `bounds` says at the first state."""
    return next([Fraction(word) for word in line.split()[2:4]] for line in text.split("\n") if line.startswith("state 0 "))


def measure(side, steps, folder):
    """Prints a line for a robot and a deadline; whether all values agree."""
    path = folder / "robot.drn"
    drn.write(path, robot(side))
    until = [path, "exact", "max", "until", "floor", "charger"]
    curve, curve_time = timed([PROGRAM, "curve", *until, steps, DIGITS])
    bounds, bounds_time = timed([PROGRAM, "bounds", *until, steps, DIGITS])
    _, read_time = timed([PROGRAM, "curve", *until, 0, DIGITS])
    peer, peer_time = timed([folder / "iteration", path, 0, 0, "max", "within", "floor", "charger", steps])
    (low, high), (lower, upper), (value, _) = pair(curve.split("\n")[-3]), bounds_of(bounds), pair(peer.split("\n")[0])
    is_within, outside = lower <= low <= high <= upper, float(max(lower - value, value - upper, 0))
    transitions = sum(1 for line in path.read_text().split("\n") if " : " in line)
    print(
        f"{side} {steps}: {side * side} states, {transitions} transitions; curve {curve_time:.3f} s, bounds {bounds_time:.3f} s, reading {read_time:.3f} s; "
        f"peer {peer_time:.3f} s; {curve_time / peer_time:.1f} and {bounds_time / peer_time:.1f} times the peer; last line within bounds: {'yes' if is_within else 'no'}; peer outside by {outside:.1e}",
        flush=True,
    )
    return is_within and outside < 1e-9


def main():
    if sys.argv[1:2] in (["--help"], ["-h"]):
        print(__doc__)
        return
    numbers = [int(word) for word in sys.argv[1:]] or [100, 300, 30, 1000]
    with tempfile.TemporaryDirectory() as name:
        folder = pathlib.Path(name)
        subprocess.run(["gcc", "-O2", "-o", folder / "iteration", TOP / "bench" / "iteration.c", "-lm"], check=True)
        ends = [measure(side, steps, folder) for side, steps in zip(numbers[::2], numbers[1::2], strict=True)]
    sys.exit(0 if all(ends) else 1)


if __name__ == "__main__":
    main()
