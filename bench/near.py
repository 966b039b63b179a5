#!/usr/bin/env python3
"""Asks `bounds` some two hundred queries of models that it makes itself, and says how near lower and upper come to what DIGITS asks for.

The models are the families of bench/families.py, and those of bench/bounds.py and bench/deadline.py; bench/near.txt has what is asked of each. Asked is that at
each state upper less lower is at most 10^-DIGITS, or that times the magnitude of the upper value where that is above 1. Where both are the same infinite
value nothing is lacking.

For each query: the states; the gap asked; the gap had at the initial state and the greatest over all states, each over the magnitude of the upper value where
that is above 1; the processor time of the whole program. At the end each answer that is wider than asked at some state, with the reason as far as it is
known; and a table by family.

    --program PATH     asks that program, and not the one that was built last
    --quick            models of at most some thousand states alone: below a minute
    --only WORD        what has WORD in its line alone
    --against PATH     asks this program too, and says how near it comes, and the time of the first over its own
    --check            judges each text: a certificate by `bounds-check`; of a deadline, which has none, lower and upper have to hold between them what
                       sweeps in floats come to
    --limit SECONDS    ends a query after so much processor time (300)

Ends with 1 where more than 3 in 100 are wider than asked, or a judge says no.
"""

import argparse
import pathlib
import resource
import signal
import subprocess
import sys
import tempfile
from dataclasses import dataclass
from fractions import Fraction
from functools import cached_property
from math import inf

sys.dont_write_bytecode = True
TOP = pathlib.Path(__file__).resolve().parent.parent
sys.path.insert(0, str(TOP / "tools"))

import bounds  # noqa: E402
import deadline  # noqa: E402
import families  # noqa: E402
from mdptools import drn, facts, trying  # noqa: E402
from mdptools.certificates import width  # noqa: E402

# So many in 100 may be wider than asked.
MOST_WIDER = 3
ASKED = TOP / "bench" / "near.txt"
# The line of it from which on --quick leaves out all.
LARGE = "# From here on --quick leaves out all."
NAMES = "retransmission drift cliff wells leak gambler queue windy power election crowds cluster inventory aloha islands".split()
FAMILIES = {"robot": deadline.robot, **{name: getattr(families, name) for name in NAMES}}


@dataclass
class Asked:
    """A query of a model: the words behind the row rule, of which the last one is DIGITS."""

    model: str
    words: list

    @property
    def name(self):
        return f"{self.model}, {' '.join(self.words)}"

    @property
    def family(self):
        return self.model.split()[0]

    @property
    def has_deadline(self):
        return self.words[1] == "total" or len(self.words) == 6 and self.words[1] == "until"

    @property
    def gap(self):
        return Fraction(1, 10 ** int(self.words[-1]))


@dataclass
class ModelFile:
    """A model in a file, which is read here only where that is needed."""

    path: pathlib.Path
    states: int

    @cached_property
    def model(self):
        return drn.read(self.path)

    @cached_property
    def bits(self):
        """The bits of the longest denominator of a row."""
        return facts.denominators(self.model)[1].bit_length()


@dataclass
class Found:
    """What a program answers: its text, nothing where it ends otherwise, how it ended, and its processor time in seconds."""

    text: bytes
    ended: str
    seconds: float

    @cached_property
    def pairs(self):
        """The lower and the upper value of each state."""
        return list(trying.columns(self.text, 2))

    @cached_property
    def most(self):
        """How wide it is, at the state where it is widest."""
        return inf if self.ended else max(width(low, high) for low, high in self.pairs)

    @cached_property
    def at_start(self):
        """How wide it is at the initial state."""
        if self.ended:
            return inf
        start = next(line.split()[1] for line in self.text.split(b"\n", 5) if line.startswith(b"init "))
        return width(*self.pairs[int(start)])


def asked_of(is_quick):
    """The models, each with what is asked of it."""
    lines = ASKED.read_text().split("\n")
    lines = [line for line in lines[: lines.index(LARGE) if is_quick else None] if line and not line.startswith("#")]
    for model, queries in zip(lines[::2], lines[1::2], strict=True):
        yield model, [Asked(model, query.split()) for query in queries.split(";")]


def model_file(model, path):
    kind, *sizes = model.split()
    if kind in FAMILIES:
        drn.write(path, FAMILIES[kind](*map(int, sizes)))
    else:
        path.write_bytes(bounds.text_of(kind, *sizes))
    with path.open() as lines:
        states = next(next(lines) for line in lines if line == "@nr_states\n")
    return ModelFile(path, int(states))


def answered(program, path, asked, limit):
    began = bounds.spent()
    words = [program, "bounds", path, "exact", *asked.words]
    stop = lambda: resource.setrlimit(resource.RLIMIT_CPU, (limit, limit + 1))
    ran = subprocess.run(words, stdout=subprocess.PIPE, stderr=subprocess.DEVNULL, preexec_fn=stop, check=False)
    seconds = bounds.spent() - began
    if ran.returncode == 0:
        return Found(ran.stdout, "", seconds)
    is_late = ran.returncode == -signal.SIGXCPU
    return Found(b"", f"no answer in {limit} s" if is_late else f"status {ran.returncode} {ran.stdout[:60].decode().strip()}", seconds)


# ---- why an answer is wide


def digits_of(value):
    """How many digits behind the point a value has; 37 where it is no decimal fraction of fewer."""
    return next((digits for digits in range(37) if 10**digits % value.denominator == 0), 37)


def reasons(asked, found, file):
    """Why an answer is wider than asked, as far as the text and the model tell."""
    if found.ended:
        yield found.ended
        return
    wide = [(low, high) for low, high in found.pairs if width(low, high) > asked.gap]
    yield f"at {len(wide)} of {file.states} states"
    unbounded = sum(inf in (abs(low), abs(high)) for low, high in wide)
    if unbounded:
        yield f"{unbounded} of them have no number on one side"
    if asked.words[1] in ("reach", "until") and (0, 1) in wide:
        yield f"{wide.count((0, 1))} of them lie between 0 and 1"
    digits = max((digits_of(value) for pair in wide for value in pair if abs(value) != inf), default=37)
    if digits < 37:
        yield f"values have {digits} digits" + f", and each of {asked.words[-2]} steps rounds" * asked.has_deadline
    yield f"the denominator of a row has up to {file.bits} bits"


# ---- judges


def judged(program, file, asked, found):
    """Whether a judge says yes to an answer, and its words."""
    if asked.has_deadline:
        is_held = swept_between(file.model, asked, found.pairs)
        return is_held, f"sweeps {'within' if is_held else 'OUTSIDE'}"
    cert = file.path.with_suffix(".cert")
    cert.write_bytes(found.text)
    ran = subprocess.run([program, "bounds-check", file.path, "exact", cert], stdout=subprocess.PIPE, stderr=subprocess.DEVNULL, check=False)
    said = ran.stdout.decode().strip()
    return said == "yes", f"bounds-check {said}"


def swept_between(model, asked, pairs):
    """Whether the values within the deadline, by sweeps in floats, lie between lower and upper, up to what floats lose."""
    direction, kind, *names, steps, _ = asked.words
    best, is_until, states = max if direction == "max" else min, kind == "until", range(len(model.states))
    place = 0 if is_until else model.names.index(names[0])
    rows = [[(float(each.rewards[place]) * (not is_until), [(t, float(p)) for t, p in each.row]) for each in state.choices] for state in model.states]
    goals = set(model.states_with(names[1]) if is_until else [])
    ways = set(states if names[0] == "-" or not is_until else model.states_with(names[0])) - goals
    values = [float(s in goals) for s in states]
    for _ in range(int(steps)):
        values = [best(r + sum(p * values[t] for t, p in row) for r, row in rows[s]) if s in ways else values[s] for s in states]
    room = 1e-9 * max(1.0, *map(abs, values))
    return all(low - room <= value <= high + room for value, (low, high) in zip(values, pairs, strict=True))


# ---- what is printed


@dataclass
class Measured:
    """What is kept of an answer: how wide it is over what was asked, at the initial state and at most; its time, and that of the other program; why it is
    wider than asked, where it is; whether a judge said no."""

    asked: Asked
    at_start: float
    most: float
    seconds: float
    other_seconds: float
    why: str
    is_refused: bool


def measure(asked, file, options):
    """Asks a query and prints its line."""
    found, other, is_held = answered(options.program, file.path, asked, options.limit), None, True
    had = f"had {float(found.at_start):.1e}, at most {float(found.most):.1e}"
    said = [f"{asked.name}: {file.states} states", f"asked {float(asked.gap):.0e}, {had}", f"{found.seconds:.2f} s"]
    if options.against:
        other = answered(options.against, file.path, asked, options.limit)
        said.append(f"the other at most {float(other.most):.1e} in {other.seconds:.2f} s, ratio {found.seconds / max(other.seconds, 1e-3):.2f}")
    if options.check and not found.ended:
        is_held, words = judged(options.program, file, asked, found)
        said.append(words)
    why = ", ".join(reasons(asked, found, file)) if found.most > asked.gap else ""
    print("; ".join([*said, *["WIDER"] * bool(why)]), flush=True)
    parts = [float(gap / asked.gap) for gap in (found.at_start, found.most)]
    return Measured(asked, *parts, found.seconds, other.seconds if other else 0, why, not is_held)


def measure_all(options):
    with tempfile.TemporaryDirectory() as folder:
        for model, asked in asked_of(options.quick):
            chosen = [each for each in asked if options.only in each.name]
            file = model_file(model, pathlib.Path(folder) / "model.drn") if chosen else None
            yield from (measure(each, file, options) for each in chosen)


def table(answers):
    """A table with a row for each family: how many queries, how many answers wider than asked, how wide over what was asked, and the times."""
    yield "| family | queries | wider | wider at the initial state | widest, over what was asked | s | slowest s |"
    yield "| --- | --- | --- | --- | --- | --- | --- |"
    for family in dict.fromkeys(each.asked.family for each in answers):
        own = [each for each in answers if each.asked.family == family]
        times = [each.seconds for each in own]
        words = [family, len(own), sum(each.most > 1 for each in own), sum(each.at_start > 1 for each in own), f"{max(each.most for each in own):.2g}"]
        yield f"| {' | '.join(map(str, words))} | {sum(times):.2f} | {max(times):.2f} |"


def counted(name, some, answers):
    return f"{name}: {len(some)}, or {100 * len(some) / len(answers):.1f} in 100"


def summary(answers):
    wide, at_start = [each for each in answers if each.most > 1], [each for each in answers if each.at_start > 1]
    seconds, others = sum(each.seconds for each in answers), sum(each.other_seconds for each in answers)
    yield f"{len(answers)} queries, {seconds:.1f} s" + f", the other program {others:.1f} s, ratio {seconds / max(others, 1e-3):.2f}" * (others > 0)
    yield f"{counted('wider than asked at some state', wide, answers)}; {counted('at the initial state', at_start, answers)}"
    for each in wide:
        yield f"  {each.asked.name}: {each.most:.2g} times what was asked, {each.at_start:.2g} at the initial state; {each.why}"
    yield from (f"  {each.asked.name}: a judge says no" for each in answers if each.is_refused)
    yield from table(answers)


def options_of(words):
    parser = argparse.ArgumentParser(description=__doc__, formatter_class=argparse.RawDescriptionHelpFormatter, usage="bench/near.py [OPTION ..]")
    parser.add_argument("--program", type=pathlib.Path, default=trying.built_program())
    parser.add_argument("--against", type=pathlib.Path)
    parser.add_argument("--only", default="")
    parser.add_argument("--limit", type=int, default=300)
    parser.add_argument("--quick", action="store_true")
    parser.add_argument("--check", action="store_true")
    return parser.parse_args(words)


def main(words):
    options = options_of(words)
    answers = list(measure_all(options))
    if not answers:
        sys.exit(f"bench/near.py: nothing has {options.only} in it")
    print(*summary(answers), sep="\n")
    is_near = 100 * sum(each.most > 1 for each in answers) <= MOST_WIDER * len(answers)
    sys.exit(0 if is_near and not any(each.is_refused for each in answers) else 1)


if __name__ == "__main__":
    main(sys.argv[1:])
