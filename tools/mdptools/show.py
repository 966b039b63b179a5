"""Shows a text of the program as a table for people.

    tools/show TEXT [MODEL]      a certificate, a policy, the values of one, a table of steps, or a curve; with the labels and names of a model
    tools/show --test            tries all texts of examples/ and of the worked rows

It judges nothing: it shows what `check` accepts, and many a text that `check` refuses. A text that it can't follow ends with a line that names
the file and its line, and status 2.

Each number stands as it is. Where it isn't short as a decimal, one of six digits stands beside it: behind ≈ the nearest, behind ≤ one that isn't
below the number, where that bounds from above, and behind ≥ one that isn't above it, where it bounds from below. Choices are numbered from 0;
with a model their names stand behind. Of bounds it says how far apart they are at most, and of those of a witness how many states are kept.
"""

import decimal
import pathlib
import re
import sys
from dataclasses import dataclass, field
from fractions import Fraction

from . import certificates, drn
from .drn import Unclear, fraction
from .shown import table

TOP = pathlib.Path(__file__).resolve().parent.parent.parent

# How a decimal is rounded, by the mark in front of it.
ROUNDING = {"≈": decimal.ROUND_HALF_EVEN, "≤": decimal.ROUND_CEILING, "≥": decimal.ROUND_FLOOR}


def rounded(number, mark):
    """The decimal of six digits that belongs to a fraction and a mark, and whether it is the fraction itself."""
    context = decimal.Context(prec=6, rounding=ROUNDING[mark])
    found = context.divide(decimal.Decimal(number.numerator), decimal.Decimal(number.denominator))
    return found, not context.flags[decimal.Inexact]


def decimal_text(number, mark):
    """What stands beside a fraction: nothing beside a whole number, else a decimal, with its mark where it isn't the fraction itself."""
    if number.denominator == 1:
        return ""
    found, is_same = rounded(number, mark)
    text = format(found, "f" if -5 <= found.adjusted() < 15 else "e")
    return f"= {text}" if is_same else f"{mark} {text}"


# How a value is spelled that is infinite, or that bounds nothing.
INFINITE = ("inf", "-inf")


def number_cells(word, mark):
    """A number as it is spelled, and its decimal."""
    return [word, "" if word in INFINITE else decimal_text(fraction(word), mark)]


# ---- the text

# How the second line is spelled, what it says, and the columns of a state's line. A column is a name and the mark of its decimals; `choice`,
# `rank` and `mark` are taken as they are.
VALUE = [("value", "≈"), ("choice", ""), ("rank", "")]
NAME = '"([^"]*)"'
CLAIMS = [
    (rf"claim upper reach {NAME}", 'upper bounds of the probability of reaching "{0}"', [("at most", "≤")]),
    (rf"claim (max|min) reach {NAME}", 'the {0} probability of reaching "{1}"', VALUE),
    (rf"claim (max|min) until {NAME} {NAME}", 'the {0} probability of reaching "{2}" on a way through "{1}"', VALUE),
    (rf"claim (max|min) reward {NAME} {NAME}", 'the {0} expected reward "{1}" until "{2}"', VALUE),
    (rf"claim (max|min) mean {NAME}", 'the {0} mean payoff "{1}"', [("gain", "≈"), ("bound", "≈"), ("bias", "≈"), ("choice", "")]),
    (rf"claim (max) witness {NAME} (\S+)", 'states on which some policy reaches "{1}" with at least {2}', [("mark", "")]),
    (rf"claim (max) witness until {NAME} {NAME} (\S+)", 'states on which some policy reaches "{2}" with at least {3} on a way through "{1}"', [("mark", "")]),
    (rf"claim (min) witness {NAME} (\S+)", 'states on which every policy reaches "{1}" with at least {2}', [("at least", "≥"), ("rank", ""), ("mark", "")]),
    (
        rf"claim (min) witness until {NAME} {NAME} (\S+)",
        'states on which every policy reaches "{2}" with at least {3} on a way through "{1}"',
        [("at least", "≥"), ("rank", ""), ("mark", "")],
    ),
    (rf"claim (max|min) discount {NAME} (\S+)", 'the {0} reward "{1}" without end, each step {2} times the one before it', [("value", "≈"), ("choice", "")]),
    (rf"claim (max|min) until {NAME} {NAME} (\d+)", 'the {0} probability of reaching "{2}" within {3} steps on a way through "{1}"', [("value", "≈")]),
    (rf"claim (max|min) (?:reward|total) {NAME} (\d+)", 'the {0} total reward "{1}" within {2} steps', [("value", "≈")]),
    (rf"policy reach {NAME}", 'the probability with which the policy reaches "{0}"', [("value", "≈")]),
    (rf"policy until {NAME} {NAME}", 'the probability with which the policy reaches "{1}" on a way through "{0}"', [("value", "≈")]),
]
# The second line of a curve.
CURVES = [
    (rf"claim (max|min) until {NAME} {NAME}", 'the {0} probability of reaching "{2}" on a way through "{1}" within a number of steps'),
    (rf"claim (max|min) total {NAME}", 'the {0} total reward "{1}" within a number of steps'),
]
BETWEEN = [("lower", "≥"), ("upper", "≤")]
# What a line of bounds of a witness has.
KEPT = {"max": [("at least", "≥"), ("choice", ""), ("rank", ""), ("mark", "")], "min": [("at least", "≥"), ("rank", ""), ("mark", "")]}
WORDS = {"max": "greatest", "min": "least"}


@dataclass
class Shown:
    """What a text says."""

    title: str = ""
    notes: list = field(default_factory=list)
    columns: list = field(default_factory=list)
    states: list = field(default_factory=list)
    flows: list = field(default_factory=list)
    steps: dict = field(default_factory=dict)
    curve: list = field(default_factory=list)
    count: int = 0
    is_bounds: bool = False
    is_curve: bool = False
    has_steps: bool = False
    marks: list = field(default_factory=list)
    gaps: list = field(default_factory=list)


class Reader(certificates.Reader):
    """Reads a text line by line; `model` gives labels and names, and may be missing."""

    WHY = "this line isn't one of a text of the program, or doesn't fit the model"

    def __init__(self, model):
        super().__init__()
        self.model = model
        self.shown = Shown()
        self.is_subsystem = False

    def labels(self, s):
        return " ".join(filter(None, [self.model.states[s].name, *self.model.states[s].labels])) if self.model else ""

    def choice(self, s, word):
        """A choice by its number, and its name where it has one."""
        if not self.model:
            return str(int(word))
        name = self.model.states[s].choices[int(word)].name
        return word if name == word else f"{int(word)} {name}".strip()

    def cells(self, s, words):
        """What stands in the table for the words of a state."""
        if len(words) != len(self.shown.columns):
            raise ValueError(words)
        for (name, mark), word in zip(self.shown.columns, words):
            if mark:
                yield from number_cells(word, mark)
            elif name == "choice":
                # A state that isn't kept has a loop in place of its choices.
                yield "" if self.is_subsystem and words[-1] == "-" else self.choice(s, word)
            else:
                yield word

    def claim(self, text):
        for spelled, title, columns in [(*claim, BETWEEN) for claim in CURVES] if self.shown.is_curve else CLAIMS:
            found = re.fullmatch(spelled, text)
            if found:
                self.shown.title = title.format(*(WORDS.get(word, word) for word in found.groups()))
                if self.shown.has_steps:
                    self.shown.title = self.shown.title.replace(' on a way through "-"', "")
                self.is_subsystem = self.shown.is_bounds and "witness" in spelled
                if self.is_subsystem:
                    self.shown.columns = KEPT[found[1]]
                else:
                    self.shown.columns = BETWEEN + columns[1:] if self.shown.is_bounds else columns
                return
        raise ValueError(text)

    def begin(self, text):
        super().begin(text)
        self.shown.is_bounds = text in ("mdp-bounds 1", "mdp-horizon-bounds 1")
        self.shown.is_curve = text == "mdp-curve 1"
        self.shown.has_steps = text in ("mdp-curve 1", "mdp-horizon 1", "mdp-horizon-bounds 1")
        if text == "mdp-policy 1":
            self.shown.title, self.shown.columns = "a policy", [("choice", "")]

    def size(self, words):
        self.shown.count = int(words[0])
        if self.model and self.shown.count != len(self.model.states):
            raise ValueError("the model has another number of states")

    def deadline(self, words):
        if not self.shown.is_curve:
            raise ValueError(words)
        self.shown.count = int(words[0])

    def note(self, name, words):
        """The lines of the whole text: the initial state, the spread, the remainder, and better choices of a policy."""
        if name == "improve":
            direction, *place = words
            where = "none" if place == ["none"] else f"choice {self.choice(int(place[0]), place[1])} at state {place[0]}"
            self.shown.notes.append(f"better for the {WORDS[direction]} one: {where}")
        elif name == "init":
            said = [f", {column} {' '.join(number_cells(word, mark)).rstrip()}" for word, (column, mark) in zip(words[1:], self.shown.columns)]
            where = "none, or more than one" if words == ["-"] else f"{words[0]} {self.labels(int(words[0]))}".strip()
            self.shown.notes.append(f"initial state: {where}{''.join(said)}")
        else:
            (value,) = words
            self.shown.notes.append(f"{name}: {' '.join(number_cells(value, '≤')).rstrip()}")

    def states(self, first, last, words):
        """The lines of the states from one to another with the same words: each its own with a model, and one for all without."""
        if self.is_subsystem:
            if words[-1] not in certificates.MARKS:
                raise ValueError(words)
            self.shown.marks += [words[-1]] * (last - first + 1)
        elif self.shown.is_bounds and not any(word in INFINITE for word in words[:2]):
            self.shown.gaps.append(fraction(words[1]) - fraction(words[0]))
        if not self.model and first != last:
            self.shown.states.append((f"{first} to {last}", "", *self.cells(first, words)))
            return
        for s in range(first, last + 1):
            self.shown.states.append((str(s), self.labels(s), *self.cells(s, words)))

    def point(self, first, last, words):
        """The line of a curve for the numbers of steps from one to another."""
        if first != (self.shown.curve[-1][1] + 1 if self.shown.curve else 0) or last < first:
            raise ValueError(words)
        if not any(word in INFINITE for word in words):
            self.shown.gaps.append(fraction(words[1]) - fraction(words[0]))
        self.shown.curve.append((first, last, *self.cells(None, words)))

    def choose(self, state, words):
        self.states(state, state, words)

    def keep(self, words):
        self.states(int(words[0]), int(words[0]), words[1:])

    def flow(self, words):
        s, choice, amount = int(words[0]), *words[1:]
        self.shown.flows.append((str(s), self.labels(s), self.choice(s, choice), *number_cells(amount, "≈")))

    def step(self, left, words):
        self.shown.steps[left] = words


# ---- the table


def names_of(columns):
    return [word for name, mark in columns for word in ([name, "decimal"] if mark else [name])]


def stretches(reader, s):
    """The choices of a state by the number of steps that are left, from the most on, neighbours with one choice together."""
    found = []
    for left in sorted(reader.shown.steps, reverse=True):
        choice = reader.choice(s, reader.shown.steps[left][s])
        if found and found[-1][2] == choice:
            found[-1][1] = left
        else:
            found.append([left, left, choice])
    return ", ".join(f"{first if first == last else f'{first} to {last}'}: {choice}" for first, last, choice in found)


def read(path, model_path=None):
    reader = Reader(None if model_path is None else drn.read(model_path))
    reader.read(path)
    return reader


def shown_text(reader):
    shown = reader.shown
    gap = [f"lower and upper differ by at most: {' '.join(number_cells(str(max(shown.gaps)), '≤')).rstrip()}"] if shown.gaps else []
    if shown.marks:
        needed, others = shown.marks.count("kept"), shown.marks.count("open")
        gap = [f"kept: {needed + others} states, {needed} of them shown to be needed"]
    parts = [[shown.title, f"{shown.count} {'steps' if shown.is_curve else 'states'}", *shown.notes, *gap]]
    if shown.curve:
        rows = [(str(first) if first == last else f"{first} to {last}", *cells) for first, last, *cells in shown.curve]
        parts.append(table(["steps", *names_of(shown.columns)], rows))
    if shown.states:
        parts.append(table(["state", "labels", *names_of(shown.columns)], shown.states))
    if shown.flows:
        parts.append(table(["flow of", "labels", "choice", "amount", "decimal"], shown.flows))
    if shown.steps:
        rows = [(str(s), reader.labels(s), stretches(reader, s)) for s in range(shown.count)]
        parts.append(table(["state", "labels", "steps left: choice"], rows))
    return "\n\n".join("\n".join(part) for part in parts) + "\n"


# ---- the test


def texts_to_try():
    """The texts of examples/ and of the rows, each with its model where it fits one, and whether it has to be shown."""
    for path in sorted((TOP / "examples").iterdir()):
        if path.suffix in (".cert", ".policy"):
            yield path, None, True
    for row in sorted((TOP / "crates" / "mdp_app" / "data" / "rows").iterdir()):
        words, due = (row / "words").read_text().split("\n")[:-1], (row / "stdout").read_text(errors="surrogateescape")
        if due.startswith("mdp-"):
            yield row / "stdout", row / words[1], True
        if words and words[0] in ("bounds-check", "check", "discount-check", "policy") and len(words) > 3 and (row / words[3]).is_file():
            yield row / words[3], None, due.split(" ")[0] not in ("cert", "policy", "model", "read-fault", "long")
            if due == "yes\n" or due.startswith("mdp-"):
                yield row / words[3], row / words[1], True


def try_text(path, model, has_to):
    """What is wrong with the table of a text: with a model each state has its line, but for those that a witness leaves out."""
    try:
        reader = read(path, model)
        text = shown_text(reader)
    except Unclear as unclear:
        return str(unclear) if has_to else ""
    lines = reader.shown.count if model and ("mark", "") not in reader.shown.columns and not reader.shown.is_curve else 0
    return "" if text.count("\n") >= lines + 2 else f"{path}: a state isn't shown"


def try_rounding():
    """What is wrong with the decimals: those behind ≤ are never below their fraction, those behind ≥ never above it."""
    numbers = [fraction(f"{sign}{a}/{b}") for sign in ("", "-") for a in (1, 2, 10**30 + 1, 2**127 - 1) for b in (3, 7, 8, 10**30, 2**127 - 1)]
    for number in numbers:
        below, above = (Fraction(rounded(number, mark)[0]) for mark in "≥≤")
        if not below <= number <= above or (below == above) != rounded(number, "≈")[1]:
            yield f"{number} is rounded to {below} and {above}"


def test():
    texts = list(texts_to_try())
    wrong = [*try_rounding(), *(problem for problem in (try_text(*text) for text in texts) if problem)]
    print(*wrong, f"{len(texts)} tables, {len(wrong)} wrong", sep="\n")
    sys.exit(1 if wrong else 0)


def main(words):
    if words[:1] in (["--help"], ["-h"]):
        print(__doc__)
        return
    if words == ["--test"]:
        test()
    if len(words) not in (1, 2):
        sys.stderr.write("usage: tools/show TEXT [MODEL], or tools/show --test\n")
        sys.exit(2)
    try:
        sys.stdout.reconfigure(encoding="utf-8", errors="surrogateescape")
        sys.stdout.write(shown_text(read(*words)))
    except Unclear as unclear:
        sys.stderr.write(f"{unclear}\n")
        sys.exit(2)
