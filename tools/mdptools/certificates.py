"""The one reader of the texts that the program writes, for tools/ and bench/: certificates, values within a deadline, curves, policies. It judges nothing:
a text that it can't follow is `Unclear`, with the line. tools/recheck, which judges, has a reader of its own."""

import math
import re
from dataclasses import dataclass, field
from fractions import Fraction
from functools import lru_cache

from .drn import Unclear, lines_of

INFINITE = {"inf": math.inf, "-inf": -math.inf}
# Those of bounds of a witness: kept and needed, kept, and not kept.
MARKS = ("kept", "open", "-")
VERSION = re.compile("mdp-(bounds 1|certificate [12]|curve 1|discount 1|horizon 1|horizon-bounds 1|policy 1|value 1)")


@dataclass
class Text:
    """What a text says. `lower` and `upper` have a value for each state; the two are the same list where the values are exact, and bounds of a witness, which
    has `marks`, have no upper ones. `steps` has, by the number of steps that are left, the choices; `curve` has pairs of lower and upper by the number of
    steps, from 0 on."""

    version: str = ""
    claim: str = ""
    size: int = 0
    start: int = None
    lower: list = field(default_factory=list)
    upper: list = field(default_factory=list)
    choices: list = field(default_factory=list)
    marks: list = field(default_factory=list)
    steps: dict = field(default_factory=dict)
    curve: list = field(default_factory=list)

    @property
    def is_bounds(self):
        return self.version in ("mdp-bounds 1", "mdp-horizon-bounds 1", "mdp-curve 1")


@lru_cache(1 << 16)
def number(word):
    """The number of a word; `inf` and `-inf` are floats."""
    return INFINITE[word] if word in INFINITE else Fraction(word)


def width(low, high):
    """How far apart two values are, over the magnitude of the upper one where that is above 1: what DIGITS speaks of."""
    if low == high:
        return Fraction(0)
    return math.inf if math.inf in (abs(low), abs(high)) else (high - low) / max(1, abs(high))


def place_of(name, words):
    """From which state, or number of steps, to which one a line speaks, and what it says of them."""
    ends = 2 if name == "run" else 1
    return int(words[0]), int(words[ends - 1]), words[ends:]


def stretches(text):
    """The lines of states in a text that is given as bytes: from which state to which one, and the words behind."""
    for line in text.decode().split("\n"):
        name, *words = line.split(" ")
        if name in ("state", "run"):
            yield place_of(name, words)


class Reader:
    """Reads a text line by line, and hands what each line says to the method for it. A method refuses its line by an error; here each of them does."""

    WHY = "this line isn't one of a text of the program"
    # So many lines are read where the text is cut before its end.
    LEAST = 1

    def __init__(self):
        self.version = ""

    def refuse(self, *words):
        raise ValueError(words)

    claim = size = note = deadline = states = choose = keep = flow = step = point = refuse

    def begin(self, line):
        """Takes the first line."""
        if not VERSION.fullmatch(line):
            raise ValueError(line)
        self.version = line

    def line(self, line):
        name, *words = line.split(" ")
        if name in ("claim", "policy"):
            self.claim(line)
        elif name in ("step", "run") and self.version == "mdp-curve 1":
            self.point(*place_of(name, words))
        elif name in ("state", "run"):
            self.states(*place_of(name, words))
        elif name in ("choose", "step"):
            (self.choose if name == "choose" else self.step)(int(words[0]), words[1:])
        elif name in ("init", "spread", "remainder", "improve"):
            self.note(name, words)
        elif name in ("states", "steps", "keep", "flow"):
            {"states": self.size, "steps": self.deadline, "keep": self.keep, "flow": self.flow}[name](words)
        else:
            raise ValueError(line)

    def end(self):
        """Looks at the whole."""

    def take(self, path, lines):
        """Takes the lines of a text; the path stands in the message where one is refused."""
        at = 0
        try:
            self.begin(lines[0])
            for at in range(1, max(len(lines) - 2, self.LEAST)):
                self.line(lines[at])
            if lines[-2:] != ["end", ""]:
                raise ValueError("end")
            self.end()
        except (ValueError, IndexError, KeyError, TypeError, ArithmeticError) as error:
            raise Unclear(path, at + 1, self.WHY) from error

    def read(self, path):
        self.take(path, lines_of(path))


class Values(Reader):
    """Reads the values and choices of a text. `places` has where, behind the number of a state, lower, upper and choice stand."""

    def __init__(self):
        super().__init__()
        self.text, self.places = Text(), (0, 0, None)

    def begin(self, line):
        super().begin(line)
        self.text.version = line

    def claim(self, line):
        self.text.claim = line
        words = re.sub('"[^"]*"', '""', line).split(" ")
        is_bounds, kind = self.text.is_bounds, words[2] if len(words) > 2 else ""
        if is_bounds and kind == "witness":
            self.places = (0, 0, 1 if words[1] == "max" else None)
            return
        choice = {"reach": 1, "until": 1, "reward": 1, "mean": 3, "discount": 1}.get(kind)
        if "horizon" in self.text.version or self.text.version == "mdp-value 1" or words[1] in ("upper", "reach"):
            choice = None
        self.places = (0, int(is_bounds), None if choice is None else choice + is_bounds)

    def size(self, words):
        self.text.size = int(words[0])

    def note(self, name, words):
        if name == "init":
            self.text.start = None if words[0] == "-" else int(words[0])

    def states(self, first, last, words):
        low, high, choice = self.places
        values, count = self.text, last - first + 1
        if first != len(values.lower) and self.text.version != "mdp-policy 1" or count < 1:
            raise ValueError(words)
        if self.text.version == "mdp-policy 1":
            values.choices.append(int(words[0]))
            return
        values.lower += [number(words[low])] * count
        if high != low:
            values.upper += [number(words[high])] * count
        if choice is not None:
            values.choices += [int(words[choice])] * count
        if words[-1] in MARKS:
            values.marks += [words[-1]] * count

    def choose(self, state, words):
        self.states(state, state, words)

    def step(self, left, words):
        self.text.steps[left] = words

    def point(self, first, last, words):
        if first != len(self.text.curve) or last < first:
            raise ValueError(words)
        self.text.curve += [(number(words[0]), number(words[1]))] * (last - first + 1)

    def passed(self, *words):
        """Passes over what has no value and no choice."""

    deadline = keep = flow = passed

    def end(self):
        if not self.text.marks:
            self.text.upper = self.text.upper or self.text.lower


def read(path):
    """What a file says."""
    reader = Values()
    reader.read(path)
    return reader.text


def of_bytes(text, name):
    """What a text says that is given as bytes; the name stands in the message where it can't be followed."""
    reader = Values()
    reader.take(name, text.decode().split("\n"))
    return reader.text


def lines_to_write(version, claim, start, size, states):
    """The lines of a certificate: the first one, its claim, the number of states, what it says of the initial state, and what it says of each state."""
    yield from (version, f"claim {claim}", f"states {size}", f"init {start}")
    yield from (f"state {s} {says}" for s, says in enumerate(states))
    yield "end"


def text_of(version, claim, start, states):
    return "".join(line + "\n" for line in lines_to_write(version, claim, start, len(states), states))


def policy_of(choices):
    """The text of a policy."""
    return "\n".join(["mdp-policy 1", f"states {len(choices)}", *(f"choose {s} {choice}" for s, choice in enumerate(choices)), "end", ""])
