"""The one reader and writer of models in DRN for tools/, bench/ and examples/. It judges nothing: it takes what bin/mdp reads (docs/profile.md), and
many a text that bin/mdp refuses. A text that it can't follow is `Unclear`, with the line."""

import pathlib
import re
import sys
from dataclasses import dataclass
from fractions import Fraction

MOST_STATES = 1 << 20


class Unclear(Exception):
    """A text that can't be followed: the file, and the line where there is one."""

    def __init__(self, path, number, why):
        where = f" line {number}" if number else ""
        super().__init__(f"{path}{where}: {why}")
        self.number = number


class Choice:
    """A choice: what it earns by each reward name, its state's own rewards included; its action's name; its row of targets and probabilities."""

    __slots__ = ("name", "rewards", "row")

    def __init__(self, rewards, name, row=None):
        self.rewards, self.name, self.row = rewards, name, [] if row is None else row


class State:
    """A state; `name` is the valuation that Storm writes in a comment behind the state's line, where there is one."""

    __slots__ = ("choices", "labels", "name", "rewards")

    def __init__(self, rewards, labels, choices=None, name=""):
        self.rewards, self.labels, self.choices, self.name = rewards, labels, [] if choices is None else choices, name


@dataclass
class Model:
    names: list
    states: list
    is_chain: bool = False

    def labels(self):
        return sorted({label for state in self.states for label in state.labels})

    def states_with(self, label):
        return [s for s, state in enumerate(self.states) if label in state.labels]


def fraction(word):
    """The number that a numeral of a model, or of a certificate, spells."""
    if not re.fullmatch(r"-?[0-9]+(/[0-9]+|(\.[0-9]+)?([eE][+-]?[0-9]{1,4})?)", word):
        raise ValueError(word)
    return Fraction(word)


def rewards_of(bracket, count):
    values = [fraction(word.strip()) for word in bracket.split(",")] if bracket.strip() else [Fraction(0)] * count
    if len(values) != count:
        raise ValueError(bracket)
    return values


STATE = re.compile(r"state[ \t]+([0-9]+)[ \t]*(\[[^]]*\])?(.*)", re.DOTALL)
ENTRY = re.compile(r"([0-9]+)[ \t]*:[ \t]*(\S+)")
LABELS = re.compile(r'"([^"]*)"|([^\s"]+)')


class Reader:
    """Reads a model line by line; a header entry whose value stands in the next line waits for it. Without `has_rows` rewards and rows are passed over."""

    def __init__(self, path, most, has_rows):
        self.path, self.most, self.has_rows = path, most, has_rows
        self.number, self.waits, self.names, self.announced, self.states, self.is_chain = 0, None, ["-"], None, None, False
        self.is_behind_state = False

    def header(self, text):
        if self.waits == "reward_models" and not text.startswith("@"):
            self.names = text.split() or ["-"]
        elif self.waits == "nr_states":
            self.announced = int(text)
            if self.announced > self.most:
                raise Unclear(self.path, self.number, f"{self.announced} states are too many, the most are {self.most}")
        elif self.waits is None or text.startswith("@"):
            return self.entry(text)
        self.waits = None
        return None

    def entry(self, text):
        self.waits = None
        found = re.match(r"@(type|value_type):[ \t]*(\S*)", text)
        if text == "@model":
            self.states = []
        elif text in ("@parameters", "@reward_models", "@nr_states", "@nr_choices"):
            self.waits = text[1:]
        elif not found:
            raise ValueError(text)
        elif found[1] == "type":
            self.is_chain = found[2] == "DTMC"

    def state(self, found):
        number, bracket, rest = found.groups()
        if int(number) != len(self.states):
            raise ValueError(number)
        rewards = rewards_of(bracket[1:-1] if bracket else "", len(self.names)) if self.has_rows else ()
        self.states.append(State(rewards, [sys.intern(quoted or bare) for quoted, bare in LABELS.findall(rest)]))

    def action(self, rest):
        cut, earned, state = rest.rindex("[") if rest.endswith("]") else len(rest), (), self.states[-1]
        if self.has_rows:
            earned = [a + b for a, b in zip(state.rewards, rewards_of(rest[cut + 1 : -1], len(self.names)))]
        state.choices.append(Choice(earned, sys.intern(rest[:cut].strip())))

    def body(self, text):
        if text == "action" or text.startswith(("action ", "action\t")):
            self.action(text[len("action") :].strip())
        elif text.startswith("state"):
            found = STATE.fullmatch(text)
            if not found:
                raise ValueError(text)
            self.state(found)
        elif self.has_rows or ":" not in text:
            entry = ENTRY.fullmatch(text)
            if not entry:
                raise ValueError(text)
            self.states[-1].choices[-1].row.append((int(entry[1]), fraction(entry[2])))

    def line(self, text):
        self.number += 1
        text = text.strip(" \t\r\n")
        if text.startswith("//"):
            if self.is_behind_state and text.startswith("//["):
                self.states[-1].name = " ".join(text[2:].split())
            return
        if self.states is None:
            if text or self.waits in ("parameters", "reward_models"):
                self.header(text)
        elif text:
            self.body(text)
            self.is_behind_state = text.startswith("state")

    def model(self):
        if self.states is None or len(self.states) != self.announced:
            raise Unclear(self.path, self.number + 1, "the model is cut short")
        for s, state in enumerate(self.states):
            if not state.choices or any(target >= len(self.states) for choice in state.choices for target, _ in choice.row):
                raise Unclear(self.path, 0, f"state {s} has no choice, or an entry to no state")
        return Model(self.names, self.states, self.is_chain)


def lines_of(path):
    """The lines of a text, each without its line feed; what is behind the last line feed is the last one."""
    try:
        return pathlib.Path(path).read_bytes().decode("utf-8", "surrogateescape").split("\n")
    except OSError as error:
        raise Unclear(path, 0, error.strerror) from error


def read(path, most=MOST_STATES, has_rows=True):
    """The model in a file. Without `has_rows` it has no rewards and no rows, and is read faster."""
    reader = Reader(path, most, has_rows)
    try:
        with open(path, encoding="utf-8", errors="surrogateescape", newline="\n") as lines:
            for text in lines:
                reader.line(text)
    except OSError as error:
        raise Unclear(path, 0, error.strerror) from error
    except (ValueError, IndexError, ArithmeticError) as error:
        raise Unclear(path, reader.number, "this line isn't one of a model") from error
    return reader.model()


# ---- texts


def quoted(label):
    return f'"{label}"'


def head(names, states, choices=None, is_chain=False):
    """The lines in front of the states: the reward names, how many states there are and, where that is given, how many choices."""
    yield f"@type: {'DTMC' if is_chain else 'MDP'}"
    yield from ("@parameters", "", "@reward_models", "" if names == ["-"] else " ".join(names), "@nr_states", str(states))
    yield from () if choices is None else ("@nr_choices", str(choices))
    yield "@model"


def bracket(rewards):
    """A word with the rewards; none where there are none."""
    return [f"[{', '.join(map(str, rewards))}]"] if rewards else []


def state_line(number, labels=(), rewards=()):
    return " ".join(["state", str(number), *bracket(rewards), *labels])


def choice_lines(row, name="", rewards=(), tab=""):
    """The lines of a choice: its name where it has one, its rewards where they are given, and its entries as they come."""
    yield " ".join([f"{tab}action", *([name] if name else []), *bracket(rewards)])
    for target, value in row:
        yield f"{tab}{tab}{target} : {value}"


def lines_to_write(model):
    """The lines of a model. A choice has its whole reward, where that isn't 0, and a state none."""
    yield from head(model.names, len(model.states), sum(len(state.choices) for state in model.states), model.is_chain)
    for s, state in enumerate(model.states):
        yield state_line(s, map(quoted, state.labels))
        if state.name:
            yield f"//{state.name}"
        for choice in state.choices:
            yield from choice_lines(sorted(choice.row), choice.name, choice.rewards if any(choice.rewards) else (), "\t")


def text_of(model):
    return "".join(line + "\n" for line in lines_to_write(model))


def explored(names, start, labels, choices):
    """The lines of the model of all states to which a first one leads, numbered as they are found; the first one has the label `init` more. `labels` gives
    the labels of a state, `choices` its choices: of each the name, the rewards, and the entries, each a state and its probability."""
    states, numbers, lines, actions = [start], {start: 0}, [], 0
    for state in states:
        lines.append(state_line(numbers[state], ["init"] * (state == start) + labels(state)))
        for name, rewards, entries in choices(state):
            actions += 1
            for target, _ in entries:
                if target not in numbers:
                    numbers[target] = len(states)
                    states.append(target)
            lines += choice_lines([(numbers[target], value) for target, value in entries], name, rewards)
    yield from head(names, len(states), actions)
    yield from lines


def write(path, lines):
    """Writes lines to a file, each with its line feed."""
    with open(path, "w", encoding="utf-8") as file:
        file.writelines(line + "\n" for line in lines)


# ---- copies


def copied_state(text, labels, reward):
    """A line of a state with labels more and, where one is given, with this reward in the place of its own."""
    found = STATE.fullmatch(text.rstrip(" \t\r\n"))
    number, own, rest = found.groups()
    own = (own or "") if reward is None else f"[{reward}]"
    return " ".join(filter(None, [f"state {number}", own, rest.strip(), *map(quoted, labels)])) + "\n"


def copied_lines(lines, labels, reward):
    """The lines of a model with labels more: a name and the numbers of its states for each; and with a reward of 1 at some states, a name and their
    numbers, in the place of all other rewards. All other lines stay as they are."""
    state, waits, is_behind = -1, False, False
    for line in lines:
        text = line.strip(" \t\r\n")
        if is_behind and text.startswith("state"):
            state += 1
            line = copied_state(text, [label for label, states in labels.items() if state in states], None if reward is None else int(state in reward[1]))
        elif is_behind and reward is not None and re.match(r"action(?:[ \t]|\Z)", text) and text.endswith("]"):
            line = "\t" + text[: text.rindex("[")].rstrip() + "\n"
        elif not is_behind and reward is not None and not text.startswith("//"):
            if text == "@model" or waits:
                line = f"@reward_models\n{reward[0]}\n@model\n" if text == "@model" else line if text.startswith("@") else ""
            elif text == "@reward_models":
                line = ""
            waits = text == "@reward_models"
        is_behind = is_behind or text == "@model"
        yield line


def copy(path, target, labels, reward=None):
    """Writes a copy of a model to a file, as `copied_lines` says."""
    with open(path, encoding="utf-8", errors="surrogateescape", newline="\n") as lines:
        with open(target, "w", encoding="utf-8", errors="surrogateescape", newline="\n") as out:
            out.writelines(copied_lines(lines, labels, reward))
