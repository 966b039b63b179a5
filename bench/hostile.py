#!/usr/bin/env python3
"""Runs the program on models and certificates at its limits, made here, and prints for each the text, the status, the seconds and the peak memory.

A text that is due is said beside each case; the script ends with 1 where another one comes, or where the program ends by a signal. The files are
made in a temporary folder, the greatest has 2^30 bytes and one more; the whole takes some minutes. A peak is never below that of the script
itself, from which the program is started.
Usage: bench/hostile.py [CASE ..] (all cases if nothing is said; `bench/hostile.py --list` names them).
"""

import itertools
import os
import subprocess
import sys
import tempfile
import time

sys.dont_write_bytecode = True
TOP = os.path.join(os.path.dirname(os.path.abspath(__file__)), "..")
sys.path.insert(0, os.path.join(TOP, "tools"))

from mdptools import certificates, drn  # noqa: E402

PROGRAM = os.path.join(TOP, "bin", "mdp")

HEAD_LINES = len([*drn.head([], 1)])
MOST_LINE = 65536
MOST_STATES = 1 << 20
MOST_FILE = 1 << 30


def write_model(path, states, lines, names=()):
    drn.write(path, itertools.chain(drn.head(names, states), lines))


def ends(s, states):
    """The labels of a state where the first one is the initial one, and the last one the goal."""
    return ["init"] if s == 0 else ["goal"] if s == states - 1 else []


def coin(path, comment):
    """One state that stays, and a goal, behind a comment."""
    lines = [drn.state_line(0, ["init"]), *drn.choice_lines([(0, "1/2"), (1, "1/2")]), drn.state_line(1, ["goal"]), *drn.choice_lines([(1, 1)])]
    write_model(path, 2, [comment, *lines])


def comment_line(length):
    """A comment of so many bytes without its line feed."""
    return "//" + "x" * (length - 2)


def long_line(folder):
    coin(folder + "/model.drn", comment_line(MOST_LINE))
    return ["solve", "model.drn", "exact", "max", "reach", "goal"], "mdp-certificate 2"


def longer_line(folder):
    coin(folder + "/model.drn", comment_line(MOST_LINE + 1))
    return ["solve", "model.drn", "exact", "max", "reach", "goal"], f"model line {HEAD_LINES + 1} long-line"


def ring_lines(states, choices):
    """A ring: each choice goes to the next state with 1/2, and to another one with 1/2."""
    for s in range(states):
        yield drn.state_line(s, ends(s, states))
        for c in range(choices):
            yield from drn.choice_lines([((s + 1) % states, "1/2"), ((s + 2 + c) % states, "1/2")])


def many_states(folder):
    write_model(folder + "/model.drn", MOST_STATES, ring_lines(MOST_STATES, 1))
    return ["horizon", "model.drn", "exact", "max", "-", "goal", "1"], "mdp-horizon 1"


def too_many_states(folder):
    write_model(folder + "/model.drn", MOST_STATES + 1, [])
    return ["solve", "model.drn", "exact", "max", "reach", "goal"], f"model line {HEAD_LINES - 1} too-many"


def line_lines(states):
    """A line of states, the last of them the goal: each goes on."""
    for s in range(states):
        yield drn.state_line(s, ends(s, states))
        yield from drn.choice_lines([(min(s + 1, states - 1), 1)])


def deep_solve(folder):
    write_model(folder + "/model.drn", MOST_STATES, line_lines(MOST_STATES))
    return ["solve", "model.drn", "exact", "max", "reach", "goal"], "mdp-certificate 2"


def many_choices(folder):
    write_model(folder + "/model.drn", MOST_STATES, ring_lines(MOST_STATES, 4))
    return ["horizon", "model.drn", "exact", "max", "-", "goal", "1"], "mdp-horizon 1"


def too_many_choices(folder):
    choices = itertools.repeat([*drn.choice_lines([(0, 1)])], 4 * MOST_STATES + 1)
    write_model(folder + "/model.drn", 1, itertools.chain([drn.state_line(0, ["goal"])], itertools.chain.from_iterable(choices)))
    return ["solve", "model.drn", "exact", "max", "reach", "goal"], f"model line {HEAD_LINES + 2 + 2 * 4 * MOST_STATES} too-many"


def wide_rows(states, entries):
    """Four choices a state, each with a row of equal entries to the next states."""
    for s in range(states):
        yield drn.state_line(s, ends(s, states))
        yield from [*drn.choice_lines([((s + 1 + t) % states, f"1/{entries}") for t in range(entries)])] * 4


def many_entries(folder):
    write_model(folder + "/model.drn", MOST_STATES, wide_rows(MOST_STATES, 4))
    return ["horizon", "model.drn", "exact", "min", "-", "goal", "1"], "mdp-horizon 1"


def many_labels(folder):
    """1,024 labels of 255 bytes, 16 at each of 64 states."""
    names = [("%04d" % n).rjust(255, "x") for n in range(1024)]
    states = ([drn.state_line(s, names[16 * s : 16 * s + 16]), *drn.choice_lines([(s, 1)])] for s in range(64))
    write_model(folder + "/model.drn", 64, itertools.chain.from_iterable(states))
    return ["solve", "model.drn", "exact", "max", "reach", names[1023]], "mdp-certificate 2"


def many_rewards(folder):
    """16 reward models at 100,000 states with two choices each."""
    states, rewards = 100_000, [f"{n}/7" for n in range(16)]

    def lines():
        for s in range(states):
            yield drn.state_line(s, ["goal"] * (s == states - 1), rewards)
            yield from [*drn.choice_lines([(min(s + 1, states - 1), 1)], "a", rewards)] * 2

    write_model(folder + "/model.drn", states, lines(), [f"reward{n}" for n in range(16)])
    return ["solve", "model.drn", "exact", "max", "reward", "reward15", "goal"], "mdp-certificate 2"


def fill(path, length):
    """A small model behind comments, of exactly so many bytes."""
    body = [drn.state_line(0, ["init", "goal"]), *drn.choice_lines([(0, 1)])]
    left = length - sum(len(line) + 1 for line in [*drn.head([], 1), *body])
    blocks = left // (MOST_LINE + 1) - 1
    left -= blocks * (MOST_LINE + 1)
    comments = itertools.chain(itertools.repeat(comment_line(MOST_LINE), blocks), [comment_line(left // 2 - 1), comment_line(left - left // 2 - 1)])
    write_model(path, 1, itertools.chain(comments, body))


def great_file(folder):
    fill(folder + "/model.drn", MOST_FILE)
    return ["solve", "model.drn", "exact", "max", "reach", "goal"], "mdp-certificate 2"


def greater_file(folder):
    fill(folder + "/model.drn", MOST_FILE + 1)
    return ["solve", "model.drn", "exact", "max", "reach", "goal"], "long model"


def great_certificate(folder):
    """2^20 states, each with a line of its own in the certificate."""
    write_model(folder + "/model.drn", MOST_STATES, line_lines(MOST_STATES))
    says = (f"1 0 {rank}" for rank in reversed(range(MOST_STATES)))
    drn.write(folder + "/given.cert", certificates.lines_to_write("mdp-certificate 2", 'max reach "goal"', "0 1", MOST_STATES, says))
    return ["check", "model.drn", "exact", "given.cert"], "yes"


def forged_at_the_end(folder):
    """The same with a rank at the last state but one to which that of the state before doesn't fall."""
    words, _ = great_certificate(folder)
    path = folder + "/given.cert"
    with open(path) as file:
        text = file.read()
    last = MOST_STATES - 2
    with open(path, "w") as file:
        file.write(text.replace("state %d 1 0 1\n" % last, "state %d 1 0 5\n" % last))
    return words, "denied rule 8 state %d choice 0" % (last - 1)


def halves_lines(states, back):
    """A goal, states that go back to some one with 1/2 and on to the next with 1/2, and a last one that stays."""
    for s in range(states):
        yield drn.state_line(s, ["goal"] if s == 0 else ["init"] * (s == states - 1))
        yield from drn.choice_lines([(back(s), "1/2"), (s + 1, "1/2")] if 0 < s < states - 1 else [(s, 1)])


def falling_lines(states):
    """Each state goes to the one before it or to the next one; the last one stays. So no state but the goal surely reaches it, and the states fall away one
    by one, from the last."""
    return halves_lines(states, lambda s: s - 1)


def falling(size):
    def made(folder):
        write_model(folder + "/model.drn", size, falling_lines(size))
        return ["solve", "model.drn", "exact", "min", "reward", "-", "goal"], "mdp-certificate 2"

    return made


def nested_lines(states):
    """Each state goes to the goal or to the next one; the last one stays. So the states fall away in as many rounds as there are."""
    return halves_lines(states, lambda s: 0)


def nested(size):
    def made(folder):
        write_model(folder + "/model.drn", size, nested_lines(size))
        return ["solve", "model.drn", "exact", "min", "reward", "-", "goal"], "mdp-certificate 2"

    return made


def earning_lines(states):
    """In each state one may stay or go to the next one; in the last one alone a step earns. So each state is an end component, and each but the last takes its exit."""
    for s in range(states):
        yield drn.state_line(s, ["init"] * (s == 0))
        yield from drn.choice_lines([(s, 1)], rewards=[int(s == states - 1)])
        yield from drn.choice_lines([(s + 1, 1)], rewards=[0]) if s < states - 1 else ()


def earning(size):
    def made(folder):
        write_model(folder + "/model.drn", size, earning_lines(size))
        return ["solve", "model.drn", "exact", "max", "mean", "-"], "mdp-certificate 2"

    return made


def staying_lines(states):
    """Each state stays, so it is an end component by itself, and none is left."""
    for s in range(states):
        yield drn.state_line(s, ["init"] * (s == 0))
        yield from drn.choice_lines([(s, 1)], rewards=[s % 7])


def staying(size):
    def made(folder):
        write_model(folder + "/model.drn", size, staying_lines(size))
        return ["solve", "model.drn", "exact", "max", "mean", "-"], "mdp-certificate 2"

    return made


def pair_lines(states):
    """Two states each go to each other, so each pair is an end component, and none is left."""
    for s in range(states):
        yield drn.state_line(s, ["init"] * (s == 0))
        yield from drn.choice_lines([(s ^ 1, 1)], rewards=[s % 7])


def pairs(size):
    def made(folder):
        write_model(folder + "/model.drn", size, pair_lines(size))
        return ["solve", "model.drn", "exact", "max", "mean", "-"], "mdp-certificate 2"

    return made


def needed(size):
    """A line: each state goes to the next one, and the last one is the goal, so no state can go."""

    def made(folder):
        write_model(folder + "/model.drn", size, line_lines(size))
        return ["witness", "model.drn", "exact", "max", "goal", "1"], "mdp-certificate 2"

    return made


def many_discounted(folder):
    write_model(folder + "/model.drn", MOST_STATES, ring_lines(MOST_STATES, 1))
    return ["discount", "model.drn", "exact", "max", "-", "0"], "mdp-discount 1"


def cut_certificate(folder):
    """A certificate of 2^20 states whose last line lacks its LF."""
    words, _ = great_certificate(folder)
    path = folder + "/given.cert"
    with open(path, "rb+") as file:
        file.seek(-1, os.SEEK_END)
        file.truncate()
    return words, "cert line %d end" % (MOST_STATES + 5)


CASES = {
    "long_line": long_line,
    "longer_line": longer_line,
    "many_labels": many_labels,
    "many_rewards": many_rewards,
    "many_states": many_states,
    "too_many_states": too_many_states,
    "deep_solve": deep_solve,
    "many_choices": many_choices,
    "too_many_choices": too_many_choices,
    "many_entries": many_entries,
    "great_file": great_file,
    "greater_file": greater_file,
    "great_certificate": great_certificate,
    "forged_at_the_end": forged_at_the_end,
    "cut_certificate": cut_certificate,
    "falling_1000": falling(1000),
    "falling_2000": falling(2000),
    "falling_4000": falling(4000),
    "falling_10000": falling(10_000),
    "nested_1000": nested(1000),
    "nested_2000": nested(2000),
    "nested_4000": nested(4000),
    "earning_1000": earning(1000),
    "earning_2000": earning(2000),
    "earning_10000": earning(10_000),
    "earning_100000": earning(100_000),
    "staying_10000": staying(10_000),
    "staying_20000": staying(20_000),
    "staying_100000": staying(100_000),
    "pairs_10000": pairs(10_000),
    "pairs_20000": pairs(20_000),
    "pairs_100000": pairs(100_000),
    "needed_500": needed(500),
    "needed_1000": needed(1000),
    "needed_2000": needed(2000),
    "many_discounted": many_discounted,
}


def measured(words, folder):
    """The first line that the program writes, its status (below 0: a signal), its seconds and its peak memory in MB."""
    with open(os.path.join(folder, "out"), "wb") as out:
        began = time.monotonic()
        child = subprocess.Popen([PROGRAM, *words], cwd=folder, stdout=out)
        _, wait_status, usage = os.wait4(child.pid, 0)
        seconds = time.monotonic() - began
    with open(os.path.join(folder, "out"), "rb") as out:
        line = out.readline(300).decode(errors="replace").rstrip("\n")
    return line, os.waitstatus_to_exitcode(wait_status), seconds, usage.ru_maxrss / 1024


def tried(name):
    """Whether the case comes out as is due."""
    with tempfile.TemporaryDirectory() as folder:
        words, due = CASES[name](folder)
        size = sum(os.path.getsize(os.path.join(folder, file)) for file in words if file in ("model.drn", "given.cert"))
        line, status, seconds, memory = measured(words, folder)
    good = line == due and status >= 0
    print("%-18s %8.1f MB  %-40s status %2d  %7.2f s  %6.0f MB%s" % (name, size / 1e6, line[:40], status, seconds, memory, "" if good else "  NOT DUE: " + due))
    sys.stdout.flush()
    return good


def main():
    if sys.argv[1:2] in (["--help"], ["-h"]):
        print(__doc__)
        return
    names = sys.argv[1:] or list(CASES)
    if names == ["--list"]:
        print(*CASES, sep="\n")
        return
    subprocess.run([PROGRAM], stdout=subprocess.DEVNULL, check=False)
    results = [tried(name) for name in names]
    sys.exit(0 if all(results) else 1)


if __name__ == "__main__":
    main()
