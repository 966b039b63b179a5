"""Tries `bounds .. witness` beside `witness`, and beside values by their meaning, over all policies without memory.

    tools/try_subsystems [PROGRAM]      PROGRAM is a built program, or bin/mdp, where none is named

Small models are drawn by a fixed seed. Of each are asked both directions, a label and a way to it along states of another, and thresholds at the exact value of
the initial state, below it and above it. A certificate has to be one of what was asked, tools/recheck has to say yes to it, and the exact best value without each
state that is marked `kept` has to be below the threshold. What is `below` has to be a value that isn't under the exact one and is under the threshold. `witness`
has to end as well, with the same status. On the models of examples/ each label is asked for at about half of the best probability: there tools/recheck alone judges.

Ends with 0 where that is so, and else with 1, after a line for each query where it isn't.
"""

import concurrent.futures
import os
import pathlib
import sys
import tempfile
from fractions import Fraction

from . import certificates, drn, plain
from .try_recheck import drawn_model, recheck, second_opinion
from .trying import TOP, columns, run, take_words

DRAWN = 80
HAIR = Fraction(1, 10**9)
# The objectives, as the words behind the direction, without the threshold.
OBJECTIVES = [("B",), ("until", "A", "B")]
EXAMPLES = sorted((TOP / "examples").glob("*.drn"))


class Cut:
    """A model with what is asked of it: values by their meaning on the states that are left."""

    def __init__(self, model, direction, words):
        self.model, self.direction = model, direction
        self.goals = set(model.states_with(words[-1]))
        self.stays = set(model.states_with(words[1])) if len(words) == 3 else set(range(len(model.states)))
        (self.start,) = model.states_with("init")
        self.known = {}

    def value(self, kept):
        """The best probability from the start, where a state that is neither kept nor a goal is left with a loop."""
        kept = frozenset(kept)
        if kept not in self.known:
            states = [state if s in kept or s in self.goals else self.looped(s, state) for s, state in enumerate(self.model.states)]
            left = drn.Model(self.model.names, states)
            values = plain.best(left, self.direction, lambda rows, _: plain.chance(rows, self.goals, self.stays & kept | self.goals))
            self.known[kept] = values[self.start]
        return self.known[kept]

    def looped(self, s, state):
        return drn.State(state.rewards, state.labels, [drn.Choice([Fraction(0)] * len(self.model.names), "", [(s, Fraction(1))])])


def claim_of(direction, words, threshold):
    """The second line of the certificate that is asked for."""
    names = " ".join(word if len(words) == 3 and not place else f'"{word}"' for place, word in enumerate(words))
    return f"claim {direction} witness {names} {threshold}"


def wrong_certificate(cut, read_model, text, claim, threshold):
    """What is wrong with a certificate of a small model."""
    said = second_opinion(read_model, text)
    if said != (b"yes\n", 0):
        yield f"tools/recheck says {said}"
        return
    found = certificates.of_bytes(text, "certificate")
    if found.claim != claim:
        yield f"the claim is {found.claim}"
    kept = {s for s, mark in enumerate(found.marks) if mark != "-"}
    if kept & cut.goals:
        yield "a goal is kept"
    if cut.value(kept) < threshold:
        yield f"the exact value is {cut.value(kept)}"
    for s, mark in enumerate(found.marks):
        if mark == "kept" and cut.value(kept - {s}) >= threshold:
            yield f"state {s} is marked as needed, and the exact value without it is {cut.value(kept - {s})}"


def wrong_answer(cut, read_model, path, words, threshold):
    """What is wrong with the answers of one query; and how many states each keeps."""
    direction = cut.direction
    text, status = run("bounds", path, "exact", direction, "witness", *words, str(threshold))
    exact, ended = run("witness", path, "exact", direction, *words, str(threshold))
    value = cut.value(range(len(cut.model.states)))
    if status != ended:
        yield f"{text} and status {status}, and witness {exact} and {ended}"
    if status == 0:
        yield from wrong_certificate(cut, read_model, text, claim_of(direction, words, threshold), threshold)
    elif status == 11:
        above = Fraction(text.decode().split()[1])
        if not value <= above < threshold:
            yield f"{text}, and the exact value is {value}"
    else:
        yield f"{text} and status {status}"


def wrong_model(folder, seed):
    """What is wrong with the answers about a drawn model: lines; and how many queries there were."""
    path = pathlib.Path(folder) / f"drawn-{seed}.drn"
    path.write_text(drawn_model(seed))
    model, read_model = drn.read(path), recheck.Model(path.read_bytes(), False)
    wrong, count = [], 0
    for words in OBJECTIVES:
        if not all(model.states_with(label) for label in words if label != "until"):
            continue
        for direction in ("max", "min"):
            cut = Cut(model, direction, words)
            value = cut.value(range(len(model.states)))
            for threshold in sorted({Fraction(0), value / 3, value * (1 - HAIR), value, value + HAIR, Fraction(2)}):
                count += 1
                place = f"bounds {path.name} exact {direction} witness {' '.join(words)} {threshold}"
                wrong += [f"{place}: {line}" for line in wrong_answer(cut, read_model, path, words, threshold)]
    return wrong, count


def wrong_example(path):
    """What is wrong with subsystems of a model of examples/: lines; and how many queries there were."""
    model, read_model = drn.read(path), recheck.Model(path.read_bytes(), False)
    starts, wrong, count = model.states_with("init"), [], 0
    for label in model.labels() if len(starts) == 1 else []:
        for direction in ("max", "min"):
            text, _ = run("bounds", path, "exact", direction, "reach", label, "9")
            low, _ = list(columns(text, 2))[starts[0]]
            half = Fraction(int(low / 2 * 10**9), 10**9)
            found, status = run("bounds", path, "exact", direction, "witness", label, str(half))
            count += 1
            said = second_opinion(read_model, found) if status == 0 else (found, status)
            if said != (b"yes\n", 0):
                wrong.append(f"bounds {path.name} exact {direction} witness {label} {half}: {said}")
    return wrong, count


def main(words):
    take_words(words, __doc__)
    with tempfile.TemporaryDirectory() as folder, concurrent.futures.ThreadPoolExecutor(os.cpu_count()) as at_once:
        found = [*at_once.map(lambda seed: wrong_model(folder, seed), range(DRAWN)), *at_once.map(wrong_example, EXAMPLES)]
    wrong, asked = [line for lines, _ in found for line in lines], sum(count for _, count in found)
    print(*wrong, f"subsystems of {asked} queries, {len(wrong)} wrong", sep="\n")
    sys.exit(1 if wrong or not asked else 0)
