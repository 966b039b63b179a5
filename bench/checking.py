#!/usr/bin/env python3
"""Measures the checker, bin/check, on a model of up to 2^20 states and certificates with a line for each of them.

The model: each state but the last goes on to the next one or to the last, the goal, with one half each; each step costs 1. Its certificates are written
here (neighbours have different ranks, so that each state has a line): the greatest probability of the goal (1), the least cost until the goal (2), both
exact, and the same probability as bounds. The checker reads the model and the certificate, judges all rules and writes `yes`. Beside it `check` and `bounds-check` of bin/mdp, which call the same function, and
tools/recheck, the second opinion in Python, where the model isn't too large for it.
Usage: bench/checking.py [STATES ..] (2^16 and 2^20 if nothing is said).
"""

import pathlib
import subprocess
import sys
import tempfile
import time

sys.dont_write_bytecode = True
TOP = pathlib.Path(__file__).resolve().parent.parent
sys.path.insert(0, str(TOP / "tools"))

from mdptools import certificates, drn  # noqa: E402

RECHECKED = 2**17


def model(states):
    yield from drn.head(["cost"], states, states)
    for s in range(states):
        yield drn.state_line(s, ["init"] * (s == 0) + ["goal"] * (s == states - 1))
        row = [(s + 1, "1/2"), (states - 1, "1/2")] if s < states - 2 else [(states - 1, 1)]
        yield from drn.choice_lines(row, rewards=[0 if s == states - 1 else 2 if s == states - 2 else 1])


def certificates_of(states):
    """The kind of each certificate, and its text."""
    ranks = [1 + s % 2 for s in range(states - 1)] + [0]
    yield "reach", certificates.text_of("mdp-certificate 2", 'max reach "goal"', "0 1", [f"1 0 {rank}" for rank in ranks])
    yield "reward", certificates.text_of("mdp-certificate 2", 'min reward "cost" "goal"', "0 2", [f"{2 * (rank > 0)} 0 {rank}" for rank in ranks])
    yield "bounds", certificates.text_of("mdp-bounds 1", 'max reach "goal"', "0 1 1", [f"1 1 0 {rank}" for rank in ranks])


def timed(*words):
    start = time.monotonic()
    text = subprocess.run([str(word) for word in words], stdout=subprocess.PIPE, check=False).stdout
    return f"{text.decode().strip()} in {time.monotonic() - start:.2f} s"


def measure(states, folder):
    path, cert = folder / "model.drn", folder / "cert"
    drn.write(path, model(states))
    for kind, text in certificates_of(states):
        cert.write_text(text)
        command = "bounds-check" if kind == "bounds" else "check"
        found = [f"bin/check {timed(TOP / 'bin' / 'check', path, 'exact', cert)}",
                 f"{command} {timed(TOP / 'bin' / 'mdp', command, path, 'exact', cert)}"]
        if states <= RECHECKED:
            found.append(f"tools/recheck {timed(TOP / 'tools' / 'recheck', path, 'exact', cert)}")
        print(f"{states} states, {kind}, {len(text) / 1e6:.1f} MB: {'; '.join(found)}", flush=True)


def main():
    if sys.argv[1:2] in (["--help"], ["-h"]):
        print(__doc__)
        return
    with tempfile.TemporaryDirectory() as name:
        for states in map(int, sys.argv[1:] or (2**16, 2**20)):
            measure(states, pathlib.Path(name))


if __name__ == "__main__":
    main()
