#!/usr/bin/env python3
"""Measures `solve`, `discount` and the checks of their certificates on models that the script writes; for `reach`, `mean` and `discount` beside an
exact linear program of the same query.

    layered LAYERS WIDTH   a layered MDP: each state but the last two has two choices, each of two draws of a small generator; a choice of a layer
                           goes to one or two states of the next one, one of the last layer to the goal or to a failing state
    random STATES          a sparse MDP: two choices a state, each with 1/2 to two states drawn with a fixed seed from the next 50; the last two
                           states are the goal and a failing one
    reward LAYERS WIDTH    the layered MDP with a cost of each choice, drawn too, whose last layer goes to the goal alone: the least cost until it
    mean LAYERS WIDTH      the same with a goal that earns nothing and goes back to state 0: the greatest mean payoff
    discount LAYERS WIDTH  the same with a goal that stays: the greatest discounted reward with factor 1/2

What is timed is the whole program, reading and writing too. The linear program (least sum of values that cover each choice; for the mean payoff of
gains, with a bias that covers each choice too) goes to `glpsol --exact` of Debian's glpk-utils where that is installed, in the same run, for at most
LIMIT seconds; only its time is compared, and the value of state 0. The rounds of policy iteration for `reach` are counted by the script itself.
Usage: bench/solving.py [layered L W | random N | reward L W | mean L W | discount L W ..] (some of each if nothing is said).
"""
import os
import random
import re
import shutil
import subprocess
import sys
import tempfile
import time

sys.dont_write_bytecode = True
TOP = os.path.join(os.path.dirname(os.path.abspath(__file__)), "..")
sys.path.insert(0, os.path.join(TOP, "tools"))

from mdptools import certificates, drn  # noqa: E402
from mdptools.trying import layered, layered_lines  # noqa: E402

PROGRAM = os.path.join(TOP, "bin", "mdp")
LIMIT = 120
MODELS = "layered 10 100 layered 40 100 layered 100 160 random 4000 reward 10 100 reward 40 100 mean 10 100 mean 40 100 discount 10 100 discount 40 100"


def random_model(size):
    draws = random.Random(7)
    goal, failing = size - 2, size - 1
    states = []
    for s in range(size - 2):
        nearest = [t for t in range(s + 1, min(s + 51, size))] + [max(0, s - draws.randrange(1, 20))]
        states.append([sorted(set(draws.choice(nearest) for _ in range(2))) for _ in range(2)])
    return states + [[[goal]], [[failing]]]


def costly_model(layers, width):
    """The layered model whose last layer goes to the goal alone, and a cost from 1 to 9 of each of its choices."""
    states = layered(layers, width)
    goal = layers * width
    states[goal - width : goal] = [[[goal]] * 2 for _ in range(width)]
    draws = random.Random(7)
    return states, [[draws.randrange(1, 10) for _ in choices] for choices in states[:goal]] + [[0], [0]]


def returning_model(layers, width):
    """The costly model whose goal goes back to state 0."""
    states, rewards = costly_model(layers, width)
    states[layers * width] = [[0]]
    return states, rewards


def write_program(path, least, rows, free=()):
    """The linear program in CPLEX's format: the least sum of some variables under which each row, weights by variable, is at least its bound. Each
    weight is a multiple of 1/4 and each bound a whole number, so all numbers are exact."""
    with open(path, "w") as file:
        file.write("Minimize\n total: " + "\n + ".join(least) + "\nSubject To\n")
        for weights, bound in rows:
            terms = ["%+.10g %s" % (weight, name) for name, weight in weights.items() if weight]
            if terms:
                file.write(" %s >= %.10g\n" % (" ".join(terms), bound))
        file.write("Bounds\n" + "".join(" %s free\n" % name for name in free) + "End\n")


def covers(letter, s, targets, factor=1.0):
    """The weights of what state s has above the mean of the targets times the factor."""
    weights = {"%s%d" % (letter, s): 1.0}
    for target in targets:
        name = "%s%d" % (letter, target)
        weights[name] = weights.get(name, 0.0) - factor / len(targets)
    return weights


def each_choice(states):
    return [(s, c, targets) for s, choices in enumerate(states) for c, targets in enumerate(choices)]


def reach_program(path, states):
    goal = len(states) - 2
    rows = [(covers("z", s, targets), 0) for s, _, targets in each_choice(states) if s != goal]
    write_program(path, ["z%d" % s for s in range(len(states))], [*rows, ({"z%d" % goal: 1.0}, 1)])


def mean_program(path, states, rewards):
    gains = [(covers("z", s, targets), 0) for s, _, targets in each_choice(states)]
    biases = [({"z%d" % s: 1.0, **covers("h", s, targets)}, rewards[s][c]) for s, c, targets in each_choice(states)]
    write_program(path, ["z%d" % s for s in range(len(states))], gains + biases, ["h%d" % s for s in range(len(states))])


def discount_program(path, states, rewards):
    rows = [(covers("z", s, targets, 0.5), rewards[s][c]) for s, c, targets in each_choice(states)]
    write_program(path, ["z%d" % s for s in range(len(states))], rows)


def reach_ranks(states):
    """The least number of steps from each state to the goal, where there is a way."""
    goal = len(states) - 2
    before = [[] for _ in states]
    for s, choices in enumerate(states):
        for targets in choices:
            for target in targets:
                before[target].append(s)
    ranks, layer = {goal: 0}, [goal]
    while layer:
        layer = [s for t in layer for s in before[t] if s not in ranks and ranks.setdefault(s, ranks[t] + 1)]
    return ranks


def worth(values, targets):
    return sum(values[target] for target in targets) / len(targets)


def evaluated(states, ranks, policy):
    """The values of a policy, by sweeps from the last state on until nothing changes."""
    goal = len(states) - 2
    values = [1.0 if s == goal else 0.0 for s in range(len(states))]
    moved = 1.0
    while moved > 1e-15:
        moved = 0.0
        for s in reversed(range(len(states))):
            if s in ranks and s != goal:
                value = worth(values, states[s][policy[s]])
                moved, values[s] = max(moved, abs(value - values[s])), value
    return values


def rounds_of(states):
    """How many policies the program's search evaluates, counted in floating point by the same rule: it begins with the first choices on shortest ways,
    and each next policy takes, at each state, the first of the best choices where that is better than the present value."""
    ranks = reach_ranks(states)
    nearer = lambda s, targets: any(t in ranks and ranks[t] < ranks[s] for t in targets)
    policy = [next(c for c, targets in enumerate(choices) if nearer(s, targets)) if ranks.get(s) else 0 for s, choices in enumerate(states)]
    rounds, changed = 0, True
    while changed:
        values, changed, rounds = evaluated(states, ranks, policy), False, rounds + 1
        for s, choices in enumerate(states):
            if ranks.get(s):
                best = values[s]
                for c, targets in enumerate(choices):
                    if worth(values, targets) > best + 1e-12:
                        best, policy[s], changed = worth(values, targets), c, True
    return rounds


def timed(words, **options):
    start = time.time()
    ended = subprocess.run(words, stdout=subprocess.PIPE, stderr=subprocess.DEVNULL, check=False, **options)
    return ended.stdout.decode(), ended.returncode, time.time() - start


def peer(folder, program, *query):
    """What the exact linear program that is written by a function takes, and its seconds."""
    if shutil.which("glpsol") is None:
        return "glpsol isn't installed", None
    path, answer = os.path.join(folder, "query.lp"), os.path.join(folder, "query.txt")
    program(path, *query)
    try:
        _, _, seconds = timed(["glpsol", "--exact", "--lp", path, "-o", answer], timeout=LIMIT)
    except subprocess.TimeoutExpired:
        return "glpsol --exact: more than %d s" % LIMIT, None
    with open(answer) as file:
        found = re.search(r"\bz0\s+\S+\s+(\S+)", file.read())
    return "glpsol --exact: %.2f s, value of state 0 %s" % (seconds, found.group(1) if found else "?"), seconds


def measure(folder, name, states, query, rewards=None, program=None, rounds=""):
    """A query, given by its first word and those behind the row rule, and the check of its certificate; and its linear program, if there is one."""
    model, cert = os.path.join(folder, "model.drn"), os.path.join(folder, "model.cert")
    drn.write(model, layered_lines(states, rewards))
    command, *behind = query
    text, status, solved = timed([PROGRAM, command, model, "exact", *behind])
    print("%s: %d states, %d choices, load %.1f" % (name, len(states), sum(len(c) for c in states), os.getloadavg()[0]))
    if status != 0:
        print("  %s: status %d after %.2f s: %s" % (" ".join(query), status, solved, text.split("\n")[0]))
        return
    with open(cert, "w") as file:
        file.write(text)
    said, _, checked = timed([PROGRAM, "discount-check" if command == "discount" else "check", model, "exact", cert])
    value = certificates.of_bytes(text.encode(), cert).lower[0]
    print("  %s: %.2f s, %svalue of state 0 %.6f; check: %.2f s, %s" % (" ".join(query), solved, rounds, value, checked, said.strip()))
    if program is not None:
        line, seconds = peer(folder, program, *([states] if rewards is None else [states, rewards]))
        print("  %s%s" % (line, "" if seconds is None else ", %.0f times as long" % (seconds / solved)))


def measure_reach(folder, name, states):
    measure(folder, name, states, ["solve", "max", "reach", "goal"], program=reach_program, rounds="%d rounds, " % rounds_of(states))


def measure_layers(folder, kind, layers, width):
    """Measures a model of layers, by the query that its word names."""
    name = "%s %d %d" % (kind, layers, width)
    if kind == "layered":
        measure_reach(folder, name, layered(layers, width))
    elif kind == "reward":
        states, rewards = costly_model(layers, width)
        measure(folder, name, states, ["solve", "min", "reward", "-", "goal"], rewards)
    elif kind == "mean":
        states, rewards = returning_model(layers, width)
        measure(folder, name, states, ["solve", "max", "mean", "-"], rewards, mean_program)
    else:
        states, rewards = costly_model(layers, width)
        measure(folder, name, states, ["discount", "max", "-", "1/2"], rewards, discount_program)


def measure_named(folder, words):
    """Measures the model that the first words name; the words behind them."""
    if words[0] == "random":
        measure_reach(folder, " ".join(words[:2]), random_model(int(words[1])))
        return words[2:]
    measure_layers(folder, words[0], int(words[1]), int(words[2]))
    return words[3:]


def main():
    if sys.argv[1:2] in (["--help"], ["-h"]):
        print(__doc__)
        return
    words = sys.argv[1:] or MODELS.split()
    with tempfile.TemporaryDirectory() as folder:
        while words:
            words = measure_named(folder, words)


if __name__ == "__main__":
    main()
