#!/usr/bin/env python3
"""Measures how fast the program reads large model files, and its peak memory.

Writes two models of so many transitions (a million if nothing is said) into a folder that it removes again: a ring of states with four targets each, and
one in which a single row holds half of the transitions, with descending targets. Runs `check` on each with a certificate that has another number of
states, so that the whole file is read and no rule is judged, and prints the megabytes read in a second and the peak memory for each transition.
Usage: bench/reading.py [TRANSITIONS], up to 2,000,000. The program has to be built (bin/mdp builds it).
"""
import os
import subprocess
import sys
import tempfile
import time

sys.dont_write_bytecode = True
TOP = os.path.join(os.path.dirname(os.path.abspath(__file__)), "..")
sys.path.insert(0, os.path.join(TOP, "tools"))

from mdptools import certificates, drn  # noqa: E402

PROGRAM = os.path.join(TOP, "out", "mdp")


def lines_of(states, row_of):
    """The lines of a model with one choice a state, whose row a function gives."""
    yield from drn.head([], states, states)
    for s in range(states):
        yield drn.state_line(s, ["init"] * (s == 0) + ["goal"] * (s == 1))
        yield from drn.choice_lines(row_of(s), "0", tab="\t")


def write_ring(path, transitions):
    """States in a ring; each has one choice with four targets, of 1/4 each."""
    states = max(5, transitions // 4)
    drn.write(path, lines_of(states, lambda s: [((s + step) % states, "0.25") for step in (1, 2, 3, 4)]))


def write_long_row(path, transitions):
    """State 0 goes to each state with the same probability, the greatest target first; the others stay."""
    states = max(5, transitions // 2)
    drn.write(path, lines_of(states, lambda s: [(s, 1)] if s else ((t, f"1/{states}") for t in reversed(range(states)))))


def measure(name, model, cert, transitions):
    size = os.path.getsize(model)
    start = time.monotonic()
    child = subprocess.Popen([PROGRAM, "check", model, "exact", cert], stdout=subprocess.PIPE, text=True)
    text = child.stdout.read().strip()
    _, status, usage = os.wait4(child.pid, 0)
    seconds = time.monotonic() - start
    peak = usage.ru_maxrss * 1024
    print("%s: %s (status %d)" % (name, text, os.waitstatus_to_exitcode(status)))
    print("%d transitions, %.1f MB: %.2f s, %.1f MB/s, peak %.1f MB, %.0f bytes a transition" % (
        transitions, size / 1e6, seconds, size / 1e6 / seconds, peak / 1e6, peak / transitions))


def main():
    if sys.argv[1:2] in (["--help"], ["-h"]):
        print(__doc__)
        return
    transitions = int(sys.argv[1]) if len(sys.argv) > 1 else 1_000_000
    with tempfile.TemporaryDirectory() as folder:
        model = os.path.join(folder, "large.drn")
        cert = os.path.join(folder, "small.cert")
        with open(cert, "w") as file:
            file.write(certificates.text_of("mdp-certificate 1", 'upper reach "goal"', "0 1", ["1"]))
        for name, write in (("ring", write_ring), ("long row", write_long_row)):
            write(model, transitions)
            measure(name, model, cert, transitions)


if __name__ == "__main__":
    main()
