"""Values of small models by their meaning: over all policies without memory, one after the other. For tests: it takes as long as there are policies."""

import itertools
import math
from fractions import Fraction

from . import drn


def policies(model):
    """Each choice of a choice at each state."""
    return itertools.product(*(range(len(state.choices)) for state in model.states))


def chain_of(model, policy):
    """The rows of a policy."""
    return [dict(state.choices[choice].row) for state, choice in zip(model.states, policy)]


def solved(rows, constants):
    """The solution of x = constants + rows x over fractions, where that has exactly one."""
    size = len(constants)
    matrix = [[Fraction(int(s == t)) - rows[s].get(t, 0) for t in range(size)] + [Fraction(constants[s])] for s in range(size)]
    for column in range(size):
        pivot = next(line for line in range(column, size) if matrix[line][column])
        matrix[column], matrix[pivot] = matrix[pivot], matrix[column]
        matrix[column] = [value / matrix[column][column] for value in matrix[column]]
        for line in range(size):
            if line != column and matrix[line][column]:
                factor = matrix[line][column]
                matrix[line] = [value - factor * own for value, own in zip(matrix[line], matrix[column])]
    return [line[size] for line in matrix]


def can_reach(rows, goals, stays):
    """The states from which goals are reached with some chance, by way of the states that stay."""
    found = set(goals)
    while True:
        more = {s for s in range(len(rows)) if s in stays and s not in found and any(t in found for t in rows[s])}
        if not more:
            return found
        found |= more


def chance(rows, goals, stays):
    """The probabilities of reaching goals by way of the states that stay."""
    open_states = can_reach(rows, goals, stays) - set(goals)
    kept = [{t: p for t, p in rows[s].items() if t in open_states} if s in open_states else {} for s in range(len(rows))]
    return solved(kept, [sum(p for t, p in rows[s].items() if t in goals) if s in open_states else int(s in goals) for s in range(len(rows))])


def closed_classes(rows):
    """The sets of states that a chain doesn't leave, and within which it comes from each state to each other one."""
    reached = [{t for t in range(len(rows)) if s in can_reach(rows, {t}, set(range(len(rows))))} for s in range(len(rows))]
    return {frozenset(reached[s]) for s in range(len(rows)) if all(s in reached[t] for t in reached[s])}


def always(rows, safe):
    """The probabilities of staying at safe states for ever: of coming, by safe states, to a class of safe states that isn't left."""
    ends = {s for part in closed_classes(rows) if part <= safe for s in part}
    return chance(rows, ends, safe)


def until_goal(rows, earned, goals):
    """The expected rewards until a goal, infinite where goals are missed with some chance."""
    whole, size = set(range(len(rows))), len(rows)
    sure = {s for s, value in enumerate(chance(rows, goals, whole)) if value == 1}
    kept = [{t: p for t, p in rows[s].items() if t not in goals} if s in sure and s not in goals else {} for s in range(size)]
    values = solved(kept, [earned[s] if s in sure and s not in goals else 0 for s in range(size)])
    return [values[s] if s in sure else math.inf for s in range(size)]


def average(rows, earned):
    """The long-run averages: by each closed class the weights of its states, and the chances of coming to it."""
    total = [Fraction(0)] * len(rows)
    for part in closed_classes(rows):
        first, *rest = sorted(part)
        weights = {first: Fraction(1)}
        inner = solved([{rest.index(t): rows[t][s] for t in rest if s in rows[t]} for s in rest], [rows[first].get(s, 0) for s in rest])
        weights |= dict(zip(rest, inner))
        gain = sum(weights[s] * earned[s] for s in part) / sum(weights.values())
        total = [value + gain * share for value, share in zip(total, chance(rows, part, set(range(len(rows)))))]
    return total


def best(model, direction, value_of):
    """The best value of each state over all policies; `value_of` gives the values of rows and rewards by policy."""
    pick = max if direction == "max" else min
    found = [value_of(chain_of(model, policy), policy) for policy in policies(model)]
    return [pick(values[s] for values in found) for s in range(len(model.states))]


def rewards_of(model, policy, number):
    return [state.choices[choice].rewards[number] for state, choice in zip(model.states, policy)]


def steps(model, direction, count, first, fixed, number=None):
    """Values by going back step by step: `first` with none left; a state of `fixed` keeps its value; `number` is the reward that is earned, or none."""
    pick, values = max if direction == "max" else min, list(first)
    for _ in range(count):
        values = [
            fixed[s]
            if s in fixed
            else pick((0 if number is None else choice.rewards[number]) + sum(p * values[t] for t, p in choice.row) for choice in state.choices)
            for s, state in enumerate(model.states)
        ]
    return values


# ---- a stand-in for the program: the same words, and texts that say the same values


def stand_in(words):
    """What the program would write on words, as text; of a certificate only what its reader here takes: no bounds, no ranks."""
    command, path, _, direction, *rest = words
    model, objective = drn.read(path), list(rest)
    kind = {"horizon": "until", "total": "total", "discount": "discount"}.get(command) or objective.pop(0)
    values = value_of_words(model, direction, kind, objective)
    claim = " ".join(["claim", direction, kind, *(f'"{word}"' if place < {"until": 2, "reward": 2}.get(kind, 1) else word for place, word in enumerate(objective))])
    starts = model.states_with("init")
    init = f"init {starts[0]} {text(values[starts[0]])}" if len(starts) == 1 else "init -"
    version = {"horizon": "mdp-horizon 1", "total": "mdp-horizon 1", "discount": "mdp-discount 1"}.get(command, "mdp-certificate 1")
    behind = {"reach": " 0 0", "until": " 0 0", "reward": " 0 0", "mean": " 0 0 0", "discount": " 0"}[kind] if "horizon" not in version else ""
    lines = [version, claim, f"states {len(values)}", init, *(f"state {s} {text(value)}{behind}" for s, value in enumerate(values)), "end", ""]
    return "\n".join(lines)


def text(value):
    return "inf" if value == math.inf else str(value)


def value_of_words(model, direction, kind, words):
    """The values that words ask for."""
    whole, size = set(range(len(model.states))), len(model.states)
    states = lambda label: whole if label == "-" else set(model.states_with(label))
    if kind == "reach":
        return best(model, direction, lambda rows, _: chance(rows, states(words[0]), whole))
    if kind == "until" and len(words) == 2:
        return best(model, direction, lambda rows, _: chance(rows, states(words[1]), states(words[0])))
    if kind == "until":
        goals, stays = states(words[1]), states(words[0])
        fixed = {s: Fraction(int(s in goals)) for s in whole if s in goals or s not in stays}
        return steps(model, direction, int(words[2]), [Fraction(int(s in goals)) for s in range(size)], fixed)
    number = model.names.index(words[0])
    if kind == "total":
        return steps(model, direction, int(words[1]), [Fraction(0)] * size, {}, number)
    if kind == "reward":
        return best(model, direction, lambda rows, policy: until_goal(rows, rewards_of(model, policy, number), states(words[1])))
    if kind == "mean":
        return best(model, direction, lambda rows, policy: average(rows, rewards_of(model, policy, number)))
    factor = Fraction(words[1])
    scaled = lambda rows: [{t: factor * p for t, p in row.items()} for row in rows]
    return best(model, direction, lambda rows, policy: solved(scaled(rows), rewards_of(model, policy, number)))
