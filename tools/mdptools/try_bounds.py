"""Tries `bounds` on all models of examples/: each label, also by way of some states that are drawn, also within a deadline; each reward name until each
label, in the mean, within a deadline, and discounted; both directions and several numbers of digits. The same on models that are hard for its search:
a row with denominators of 90 bits together, a walk that takes a million steps, end components of reward 0, rewards of 10^30; and the queries of all
worked rows of `solve` that are answered. On a model of parts that are left with 10^-6, and on a walk on a square, mean payoffs and a reward, with 9
digits: there lower and upper are to lie near to each other too, which nothing promises.

    tools/try_bounds [PROGRAM]      PROGRAM is a built program, or bin/mdp, where none is named

`bounds-check` has to accept each certificate for its model, and where `solve`, `horizon` or `discount` gives the values, they have to lie between the
lower and the upper ones. A query that doesn't fit the model has the refusal of that command. For each deadline `curve` is tried too: with no step,
with one and with all the exact value of the initial state has to lie between its lower and its upper one, which on the models of examples/ are as
near as the digits say. Ends with 0 where that is so, and else with 1, after a line for each query where it isn't.
"""

import concurrent.futures
import os
import pathlib
import random
import sys
import tempfile
from fractions import Fraction

from . import certificates, drn
from .trying import TOP, columns, model_text, run, take_words

EXAMPLES = sorted((TOP / "examples").glob("*.drn"))
DIGITS = ["3", "9", "15", "30"]
STEPS = ["3", "15"]
FACTORS = ["9/10", "9999/10000"]
# What is asked of models on which the search is slow, and how far apart lower and upper may lie, with 9 digits.
NEAR = {("max", "mean", "cost"): Fraction(1, 10**7), ("min", "mean", "cost"): Fraction(1, 10**7), ("min", "reward", "cost", "goal"): Fraction(1, 10)}


def exact_words(model, rule, direction, objective, *others):
    """The command that asks for the values of which `bounds` is asked for bounds."""
    if objective == "until" and len(others) == 3:
        return "horizon", model, rule, direction, *others
    if objective in ("total", "discount"):
        return objective, model, rule, direction, *others
    return "solve", model, rule, direction, objective, *others


def wrong_at(model, rule, query):
    """What is wrong with the bounds of a query for each number of digits: lines, of which there are none where all is well."""
    exact, status = run(*exact_words(model, rule, *query))
    for digits in DIGITS:
        place = f"bounds {model} {rule} {' '.join(query)} {digits}"
        text, ended = run("bounds", model, rule, *query, digits)
        if exact.startswith(b"query ") and (text, ended) == (exact, status):
            continue
        if ended != 0:
            yield f"{place}: {text} and status {ended}"
            continue
        if text.startswith(b"mdp-bounds 1\n") and accepted(model, rule, text) != (b"yes\n", 0):
            yield f"{place}: bounds-check doesn't say yes"
        if status == 0 and not all(low <= value <= high for (value,), (low, high) in zip(columns(exact, 1), columns(text, 2), strict=True)):
            yield f"{place}: an exact value isn't between the bounds"


def has_deadline(query):
    return query[1] == "total" or len(query) == 5 and query[1] == "until"


def wrong_curve(model, rule, query):
    """What is wrong with the curve up to the deadline of a query: lines, of which there are none where all is well."""
    *words, steps = query
    place = f"curve {model} {rule} {' '.join(query)} 9"
    text, status = run("curve", model, rule, *query, "9")
    starts = drn.read(model).states_with("init")
    if status != 0 or len(starts) != 1:
        if (text, status, len(starts) == 1) != (b"query init\n", 4, False):
            yield f"{place}: {text} and status {status}"
        return
    points = certificates.of_bytes(text, place).curve
    if len(points) != int(steps) + 1:
        yield f"{place}: the numbers of steps"
    for k in {"0", "1", steps}:
        exact, ended = run(*exact_words(model, rule, *words, k))
        low, high = points[int(k)]
        if ended == 0 and not low <= list(columns(exact, 1))[min(starts)][0] <= high:
            yield f"{place}: the exact value within {k} steps isn't between the bounds"
        if low == high or pathlib.Path(model).name.removeprefix("way-") not in {path.name for path in EXAMPLES}:
            continue
        if high - low > Fraction(1, 10**9):
            yield f"{place}: lower and upper lie far apart within {k} steps"


def far_apart(model, query):
    """What is wrong with the bounds of a query with 9 digits, which are to lie near to each other: a line, or none where all is well."""
    text, status = run("bounds", model, "exact", *query, "9")
    if status != 0 or accepted(model, "exact", text) != (b"yes\n", 0):
        yield f"bounds {model} exact {' '.join(query)} 9: status {status}, or bounds-check doesn't say yes"
    elif max((high - low for low, high in columns(text, 2) if low != high), default=0) > NEAR[query]:
        yield f"bounds {model} exact {' '.join(query)} 9: lower and upper lie far apart"


def accepted(model, rule, text):
    """What `bounds-check` says of a certificate."""
    with tempfile.NamedTemporaryFile() as cert:
        cert.write(text)
        cert.flush()
        return run("bounds-check", model, rule, cert.name)


def wide_row():
    """Three denominators that are primes of 30 bits, and what is left of 1."""
    parts = [Fraction(2**28, 1073741789), Fraction(2**27, 1073741783), Fraction(2**26, 1073741741)]
    row = dict(enumerate([*parts, 1 - sum(parts)]))
    return model_text([("init", [(1, row), (2, {1: "1/3", 3: "2/3"})]), ("", [(3, {0: "1/7", 2: "6/7"})]), ("goal", [(0, {2: 1})]), ("", [(1, {3: 1}), (5, {0: "1/11", 3: "10/11"})])])


def long_walk(states):
    """A fair walk from the middle to either end takes a quarter of the square of its states."""
    inner = [("init" if s == states // 2 else "", [(1, {s - 1: "1/2", s + 1: "1/2"})]) for s in range(1, states - 1)]
    return model_text([("end", [(0, {0: 1})]), *inner, ("end goal", [(0, {states - 1: 1})])])


def free_loops():
    """Two states between which one goes for nothing, with two ways out."""
    return model_text([("init", [(0, {1: 1}), (5, {2: "1/3", 1: "2/3"})]), ("", [(0, {0: 1}), (2, {2: "1/7", 3: "6/7"})]), ("goal", [(0, {2: 1})]), ("", [(1, {0: 1})])])


def great_rewards():
    return model_text([("init", [(10**30, {0: "1/3", 1: "2/3"}), ("1/1000000007", {0: "9/10", 1: "1/10"})]), ("goal", [(10**29, {0: "1/7", 1: "6/7"})])])


def slow_parts(states, parts):
    """Parts of one size with three choices a state, each to four states of its part that are drawn, and with 10^-6 to one of all; the last state is a goal."""
    draw = random.Random(states)
    size = states // parts

    def choice(state):
        first = state // size * size
        inner = sorted({first + draw.randrange(size) for _ in range(4)})
        cuts = sorted(draw.sample(range(1, 100), len(inner) - 1))
        entries = {target: Fraction(high - low, 100) for target, low, high in zip(inner, [0, *cuts], [*cuts, 100], strict=True)}
        entries[inner[0]] -= Fraction(1, 10**6)
        other = draw.randrange(states)
        return draw.randrange(1, 1000), {**entries, other: entries.get(other, 0) + Fraction(1, 10**6)}

    return model_text([(" ".join(["init"] * (s == 0) + ["goal"] * (s == states - 1)), [choice(s) for _ in range(3)]) for s in range(states)])


def square(side):
    """A walk on a square: each state has two choices, a fair step to one of its neighbours and one with drawn weights; a step over the edge stays. The last is a goal."""
    draw = random.Random(side)

    def choice(x, y, weights):
        entries = {}
        for weight, (right, down) in zip(weights, ((1, 0), (-1, 0), (0, 1), (0, -1)), strict=True):
            target = min(max(x + right, 0), side - 1) * side + min(max(y + down, 0), side - 1)
            entries[target] = entries.get(target, 0) + Fraction(weight, sum(weights))
        return draw.randrange(1, 1000), entries

    places = [(x, y) for x in range(side) for y in range(side)]
    labels = {0: "init", side * side - 1: "goal"}
    return model_text([(labels.get(x * side + y, ""), [choice(x, y, [1] * 4), choice(x, y, [draw.randrange(1, 10) for _ in range(4)])]) for x, y in places])


def hard_models(folder):
    """The models that are hard for the search, written into a folder."""
    for name, text in [("wide-row", wide_row()), ("long-walk", long_walk(2001)), ("free-loops", free_loops()), ("great-rewards", great_rewards())]:
        path = pathlib.Path(folder) / f"{name}.drn"
        path.write_text(text)
        yield path


def with_way(paths, folder):
    """Copies of models in which three of four states, drawn, have the label `way`."""
    for path in paths:
        draw = random.Random(path.name)
        copy = pathlib.Path(folder) / f"way-{path.name}"
        drn.copy(path, copy, {"way": {s for s in range(len(drn.read(path).states)) if draw.random() < 0.75}})
        yield copy


def way_queries(paths):
    """Each of these models with the queries of its labels on a way through `way`, also within a deadline."""
    for path in paths:
        labels = [label for label in drn.read(path).labels() if label != "way"]
        for label in labels:
            for direction in ("max", "min"):
                yield from ((str(path), "exact", (direction, "until", "way", label, *steps)) for steps in ((), ("15",)))


def queries(paths):
    """Each model with the queries of its labels and its reward names."""
    for path in paths:
        model = drn.read(path)
        labels, names = model.labels(), sorted(model.names)
        objectives = [("reach", label) for label in labels]
        objectives += [("reward", name, label) for name in names for label in labels]
        objectives += [("mean", name) for name in names]
        objectives += [("until", "-", label, steps) for label in labels for steps in STEPS]
        objectives += [("total", name, steps) for name in names for steps in STEPS]
        objectives += [("discount", name, factor) for name in names for factor in FACTORS]
        for objective in objectives:
            for direction in ("max", "min"):
                yield str(path), "exact", (direction, *objective)


def worked_queries():
    """The models and the queries of the rows of `solve` that are answered."""
    for row in sorted((TOP / "crates" / "mdp_app" / "data" / "rows").iterdir()):
        words = (row / "words").read_text().split("\n")[:-1]
        if words[:1] == ["solve"] and (row / "status").read_text().strip() == "0":
            yield str(row / words[1]), words[2], tuple(words[3:])


def main(words):
    take_words(words, __doc__)
    with tempfile.TemporaryDirectory() as folder, concurrent.futures.ThreadPoolExecutor(os.cpu_count()) as at_once:
        slow = []
        for name, text in [("slow-parts", slow_parts(2000, 40)), ("square", square(130))]:
            path = pathlib.Path(folder) / f"{name}.drn"
            path.write_text(text)
            slow += [(str(path), query) for query in NEAR]
        models = [*EXAMPLES, *hard_models(folder)]
        asked = [*queries(models), *way_queries(list(with_way(models, folder))), *worked_queries()]
        deadlines = [query for query in asked if has_deadline(query[2])]
        wrong = [line for lines in at_once.map(lambda query: list(wrong_at(*query)), asked) for line in lines]
        wrong += [line for lines in at_once.map(lambda query: list(wrong_curve(*query)), deadlines) for line in lines]
        wrong += [line for lines in at_once.map(lambda query: list(far_apart(*query)), slow) for line in lines]
    print(*wrong, f"bounds of {len(asked) + len(slow)} queries, curves of {len(deadlines)}, {len(wrong)} wrong", sep="\n")
    sys.exit(1 if wrong or not asked else 0)
