"""Holds the rounds of policy iteration in `solve` and `discount` against their definition: here each round evaluates its policy by eliminating all
states, the greatest first, and then compares all choices of all states. The program keeps what it solved, and looks in each further round only at the
states that come to a change. Models are drawn, some with long denominators, so that terms are past width in each round and at each step.

    tools/try_rounds [PROGRAM]      PROGRAM is a built program, or bin/mdp, where none is named

The queries are `solve MODEL exact DIR reach goal`, `solve MODEL exact DIR reward cost goal` and `discount MODEL exact DIR cost FACTOR`, each for
`max` and for `min`. Where one is answered, the values and the choices of all states have to be those that are found here; where a term is past width,
the whole text. Ends with 0 where that is so, and else with 1, after a line for each model where it isn't.
"""

import concurrent.futures
import math
import os
import pathlib
import random
import sys
import tempfile
from dataclasses import dataclass
from fractions import Fraction

from drn_model import crossed, plus, written

from .trying import columns, model_text, run, take_words

MODELS = 120
FACTORS = ["1/2", "9/10", "999/1000", "999999/1000000"]


@dataclass
class Choice:
    """What a choice earns and where it leads; whether a policy may take it; the factor by which a step counts less, or None."""

    reward: Fraction
    row: list
    may: bool = True
    factor: Fraction = None

    def worth(self, values):
        """What it is worth under values, with the terms that are written."""
        if self.factor is None:
            return summed(self.reward, self.row, values)
        return plus(self.reward, times(self.factor, summed(Fraction(0), self.row, values)))

    def entries(self):
        """Its row in the equation of a policy."""
        return self.row if self.factor is None else [(target, times(self.factor, value)) for target, value in self.row]


class PastWidth(Exception):
    """A term is past width: what was computed, and the state for which."""


def times(x, y):
    written(*(x * y).as_integer_ratio())
    return x * y


def summed(start, row, values):
    for target, value in row:
        start = plus(start, times(value, values[target]))
    return start


def put_into(row, constant, pivot, pivot_constant):
    """The equation of a state with that of the eliminated one, `pivot`, in the place of its last entry."""
    *entries, (_, factor) = sorted(row.items())
    left = dict(entries)
    for target, value in sorted(pivot.items()):
        left[target] = plus(left.get(target, Fraction(0)), times(factor, value))
    return left, plus(constant, times(factor, pivot_constant))


def eliminate(rows, constants, state):
    """Solves the equation of the greatest state that is left for its value, and puts it into those of the smaller ones."""
    own = rows[state].pop(state, None)
    if own is not None:
        rest = plus(Fraction(1), -own)
        rows[state] = {target: times(value, 1 / rest) for target, value in rows[state].items()}
        constants[state] = times(constants[state], 1 / rest)
    for other in range(state):
        if state in rows[other]:
            rows[other], constants[other] = put_into(rows[other], constants[other], rows[state], constants[state])


def evaluated(states, policy):
    """The values of a policy. A state is a number, its value, or a list of choices."""
    at = 0
    try:
        values = [Fraction(0) if isinstance(state, list) else state for state in states]
        rows, constants = [{} for _ in states], [Fraction(0)] * len(states)
        for at, state in enumerate(states):
            if isinstance(state, list):
                row = state[policy[at]].entries()
                constants[at] = summed(state[policy[at]].reward, [(t, p) for t, p in row if not isinstance(states[t], list)], values)
                rows[at] = {t: p for t, p in row if isinstance(states[t], list)}
        for at in reversed(range(len(states))):
            eliminate(rows, constants, at)
        solution = []
        for at in range(len(states)):
            solution.append(summed(constants[at], sorted(rows[at].items()), solution))
    except OverflowError:
        raise PastWidth("evaluate", at, policy[at]) from None
    return [x if isinstance(state, list) else state for state, x in zip(states, solution, strict=True)]


def improved(states, policy, values, is_max):
    """The policy with the best choice of each state that has a better one than its own."""
    best = list(policy)
    for at, state in enumerate(states):
        leader = values[at]
        for choice, taken in enumerate(state if isinstance(state, list) else []):
            if not taken.may:
                continue
            try:
                worth = taken.worth(values)
                left, right = crossed(worth, leader)
            except OverflowError:
                raise PastWidth("compare", at, choice) from None
            if left > right if is_max else left < right:
                leader, best[at] = worth, choice
    return best


def solved(states, policy, is_max):
    """The rounds, and at their end the policy with its values; or the text of the first term past width."""
    number = 0
    while True:
        try:
            values = evaluated(states, policy)
            after = improved(states, policy, values, is_max)
        except PastWidth as found:
            kind, state, choice = found.args
            return f"too-wide part whole round {number} kind {kind} state {state} choice {choice}\npolicy {' '.join(map(str, policy))}\n"
        if after == policy:
            return policy, values
        number, policy = number + 1, after


# ---- the problems: the states, the first policy, and the states at which a value is infinite


def ranked(count, first, joins):
    """Ranks from the first states on: a further state has the next rank where it joins those that have one."""
    ranks, rank = dict.fromkeys(first, 0), 0
    while True:
        near = [s for s in range(count) if s not in ranks and joins(s, ranks)]
        if not near:
            return ranks
        rank += 1
        ranks.update(dict.fromkeys(near, rank))


def first_choices(choices, holds):
    """The first choice of each state of which this holds, else 0."""
    return [next((c for c, choice in enumerate(of_state) if holds(s, choice)), 0) for s, of_state in enumerate(choices)]


def targets(choice):
    return [target for target, _ in choice.row]


def ways_to(choices, first, blocked=()):
    """Ranks by shortest ways to the first states, and the first choice of each state on one."""
    ranks = ranked(len(choices), first, lambda s, done: s not in blocked and any(t in done for choice in choices[s] for t in targets(choice)))
    return ranks, first_choices(choices, lambda s, choice: s in ranks and any(t in ranks and ranks[t] < ranks[s] for t in targets(choice)))


def avoiding(choices, goal):
    """The states at which the goal can be avoided, and the first choice of each that does so."""
    found = set(range(len(choices))) - {goal}
    while True:
        fewer = {s for s in found if any(found.issuperset(targets(choice)) for choice in choices[s])}
        if fewer == found:
            return found, first_choices(choices, lambda s, choice: s in found and found.issuperset(targets(choice)))
        found = fewer


def sure(choices, goal):
    """The states from which some policy comes to the goal with certainty, and the first choice of each that does so on a shortest way."""
    found = set(range(len(choices)))
    while True:
        inside = lambda choice: found.issuperset(targets(choice))
        ranks = ranked(len(choices), [goal], lambda s, done: any(inside(choice) and any(t in done for t in targets(choice)) for choice in choices[s]))
        if set(ranks) == found:
            return found, first_choices(choices, lambda s, choice: s in found and inside(choice) and any(ranks[t] < ranks[s] for t in targets(choice)))
        found = set(ranks)


def reach_problem(choices, goal, is_max):
    rows = [[Choice(Fraction(0), choice.row) for choice in of_state] for of_state in choices]
    if is_max:
        ranks, first = ways_to(rows, [goal])
        is_open = ranks.keys() - {goal}
    else:
        avoided, first = avoiding(rows, goal)
        is_open = set(range(len(rows))) - avoided - {goal}
    return [Fraction(1) if s == goal else of_state if s in is_open else Fraction(0) for s, of_state in enumerate(rows)], first, set()


def reward_problem(choices, goal, is_max):
    if is_max:
        avoided, keep = avoiding(choices, goal)
        infinite, go = ways_to(choices, avoided, [goal])
        first = [keep[s] if s in avoided else go[s] for s in range(len(choices))]
        finite = set(range(len(choices))) - infinite.keys()
    else:
        finite, first = sure(choices, goal)
    may = lambda choice: is_max or finite.issuperset(targets(choice))
    states = [[Choice(choice.reward, choice.row, may(choice)) for choice in of_state] if s in finite and s != goal else Fraction(0) for s, of_state in enumerate(choices)]
    return states, first, set(range(len(choices))) - finite


def discount_problem(choices, factor):
    return [[Choice(choice.reward, choice.row, True, factor) for choice in of_state] for of_state in choices], [0] * len(choices), set()


# ---- the models


def drawn(seed):
    """The choices of some states, of which the last two are the goal and one from which it can't be reached. First choices have short numbers."""
    draw = random.Random(seed)
    count, longest = draw.randrange(4, 14), draw.choice([50, 10**9, 10**12, 10**15, 10**18])

    def row(first):
        targets = sorted(draw.sample(range(count), draw.randrange(1, min(4, count))))
        most = 8 if first else longest
        bottom = draw.randrange(max(len(targets), most // 2), most + len(targets))
        cuts = sorted(draw.sample(range(1, bottom), len(targets) - 1))
        return [(t, Fraction(high - low, bottom)) for t, low, high in zip(targets, [0, *cuts], [*cuts, bottom], strict=True)]

    def choice(first):
        return Choice(Fraction(draw.randrange(0, 8 if first else longest), 1 if first else draw.randrange(1, longest)), row(first))

    return [[choice(c == 0) for c in range(draw.randrange(1, 4))] for _ in range(count - 2)] + [[Choice(Fraction(0), [(s, Fraction(1))])] for s in (count - 2, count - 1)]


def wrong_query(path, words, problem, is_max):
    """How the program's answer to a query differs; else the round of the term past width, or that it is answered, in a list."""
    states, first, infinite = problem
    due, (text, _) = solved(states, first, is_max), run(*words)
    place = " ".join(map(str, words))
    if isinstance(due, str):
        return due.split(" ")[4:5] if text.decode() == due else f"{place}: {text.decode()!r} is written, and {due!r} is due"
    if text.startswith(b"too-wide part whole ") and (b" kind check " in text or text.count(b" state - ")):
        return ["check"]
    found = list(columns(text, 2))
    right = [(math.inf if s in infinite else value, choice) for s, (value, choice) in enumerate(zip(due[1], due[0], strict=True))]
    kept = [s for s in range(len(states)) if isinstance(states[s], list)]
    same = len(found) == len(right) and all(found[s][0] == right[s][0] for s in range(len(right))) and all(found[s][1] == right[s][1] for s in kept)
    return ["answered"] if same else f"{place}: {found} is written, and {right} is due"


def wrong_at(folder, seed):
    """For each query of the model of this seed what `wrong_query` says."""
    choices = drawn(seed)
    goal = len(choices) - 2
    path = pathlib.Path(folder) / f"{seed}.drn"
    labels = {0: "init", goal: "goal"}
    path.write_text(model_text([(labels.get(s, ""), [(choice.reward, dict(choice.row)) for choice in of_state]) for s, of_state in enumerate(choices)]))
    factor = FACTORS[seed % len(FACTORS)]
    for direction in ("max", "min"):
        is_max = direction == "max"
        yield wrong_query(path, ["solve", path, "exact", direction, "reach", "goal"], reach_problem(choices, goal, is_max), is_max)
        yield wrong_query(path, ["solve", path, "exact", direction, "reward", "cost", "goal"], reward_problem(choices, goal, is_max), is_max)
        yield wrong_query(path, ["discount", path, "exact", direction, "cost", factor], discount_problem(choices, Fraction(factor)), is_max)


def main(words):
    take_words(words, __doc__)
    with tempfile.TemporaryDirectory() as folder, concurrent.futures.ThreadPoolExecutor(os.cpu_count()) as at_once:
        ends = [end for of_model in at_once.map(lambda seed: list(wrong_at(folder, seed)), range(MODELS)) for end in of_model]
    wrong = [end for end in ends if isinstance(end, str)]
    late = sum(end[0] not in ("0", "answered", "check") for end in ends if end not in wrong)
    print(*wrong, f"rounds of {len(ends)} queries, {late} of them too wide behind the first round, {len(wrong)} wrong", sep="\n")
    sys.exit(1 if wrong or not late else 0)
