#!/usr/bin/env python3
"""Measures how long one evaluation of a chain by state elimination takes, and how much memory.

    line N     state s stays with 2/3 and goes on to s + 1 with 1/3: elimination makes no new entry
    random N   state s goes to two greater states with 1/2 each, drawn with a fixed seed: no new entry either
    grid N     N layers of N states; a state goes to two states of the next layer with 1/2 each. Layers are numbered so that those in between
               are eliminated first (by the bits of a layer's number in opposite order), so rows grow up to N entries
    hub N      the first state goes to each of N states with equal chance, and each of these to the goal: no new entry, and one long row

Each is a Markov chain whose last state is the goal, so `solve` takes one round: a pass over the graph, one evaluation, the comparison of each
state's one choice, and the check of the certificate. What is timed is the whole program, reading and writing too. Writes for each chain the
least time of RUNS runs, the greatest memory (where that is less than the script itself takes, some 40 MB, the latter), the status, and the
machine's load. The program has to be built (bin/mdp builds it).
Usage: bench/elimination.py [CHAIN N ..] (a line, a random chain and a hub of 1000, 10000 and 100000 states and a grid of 100 if nothing is said).
"""
import os
import random
import subprocess
import sys
import tempfile
import time

sys.dont_write_bytecode = True
TOP = os.path.join(os.path.dirname(os.path.abspath(__file__)), "..")
sys.path.insert(0, os.path.join(TOP, "tools"))

from mdptools import drn  # noqa: E402

PROGRAM = os.path.join(TOP, "out", "mdp")
RUNS = 3


def line(size):
    return [[(s, "2/3"), (s + 1, "1/3")] for s in range(size - 1)]


def random_chain(size):
    draws, rows = random.Random(7), []
    for s in range(size - 1):
        a, b = draws.randrange(s + 1, size), draws.randrange(s + 1, size)
        rows.append([(a, "1")] if a == b else [(min(a, b), "1/2"), (max(a, b), "1/2")])
    return rows


def grid(width):
    order = sorted(range(width), key=lambda layer: int(format(layer, "010b")[::-1], 2))
    place = {layer: number for number, layer in enumerate(order)}
    rows = [None] * (width * width)
    for layer in range(width):
        for i in range(width):
            if layer + 1 == width:
                row = [(width * width, "1")]
            else:
                targets = sorted({place[layer + 1] * width + i, place[layer + 1] * width + (i + 1) % width})
                row = [(target, "1/2") for target in targets] if len(targets) == 2 else [(targets[0], "1")]
            rows[place[layer] * width + i] = row
    return rows


def hub(size):
    return [[(s, "1/%d" % size) for s in range(1, size + 1)]] + [[(size + 1, "1")]] * size


KINDS = {"line": line, "random": random_chain, "grid": grid, "hub": hub}


def chain_lines(rows):
    """The lines of a chain with a goal behind the states of these rows."""
    yield from drn.head([], len(rows) + 1, is_chain=True)
    for s, row in enumerate([*rows, [(len(rows), 1)]]):
        yield drn.state_line(s, ["goal"] * (s == len(rows)))
        yield from drn.choice_lines(row)


def solve(model):
    """Seconds, greatest memory in kilobytes, and status of one run of the program."""
    start = time.perf_counter()
    child = subprocess.Popen([PROGRAM, "solve", model, "exact", "max", "reach", "goal"], stdout=subprocess.DEVNULL)
    _, status, used = os.wait4(child.pid, 0)
    return time.perf_counter() - start, used.ru_maxrss, os.waitstatus_to_exitcode(status)


def main():
    if sys.argv[1:2] in (["--help"], ["-h"]):
        print(__doc__)
        return
    words = sys.argv[1:] or "line 1000 line 10000 line 100000 random 1000 random 10000 random 100000 grid 100 hub 1000 hub 10000 hub 100000".split()
    with tempfile.TemporaryDirectory() as folder:
        model = os.path.join(folder, "chain.drn")
        for kind, size in zip(words[::2], words[1::2]):
            drn.write(model, chain_lines(KINDS[kind](int(size))))
            seconds, memory, status = min(solve(model) for _ in range(RUNS))
            print("%s %s: %.3f s, %.1f MB, status %d, load %.1f" % (kind, size, seconds, memory / 1024, status, os.getloadavg()[0]))


if __name__ == "__main__":
    main()
