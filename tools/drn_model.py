"""Reads a model in the profile of docs/profile.md, or says why it is refused; with sums of fractions whose terms stay within 127 bits.

tools/recheck stands on it.
"""

import re
from fractions import Fraction
from functools import lru_cache
from math import gcd, lcm

WIDEST, LARGEST, MOST_BYTES, LONGEST_LINE = 2**127 - 1, 10**36, 2**30, 65536
MOST_TRANSITIONS, MOST = 2**24, {b"@nr_states": 2**20, b"@nr_choices": 2**22}


class Answer(Exception):
    """The status and the text that are due."""


class Broken(Exception):
    """A rule of a text is broken: the kind, and the line where it isn't the one that is read."""


def refuse_if(holds, kind, line=None):
    if holds:
        raise Broken(kind, line)


def answer_if(holds, status, text):
    if holds:
        raise Answer(status, text)


def written(*terms):
    if max(terms) > WIDEST or min(terms) < -WIDEST:
        raise OverflowError
    return terms


def crossed(x, y):
    """The numerators of two fractions over their least common denominator."""
    common = gcd(x.denominator, y.denominator)
    return written(x.numerator * (y.denominator // common), y.numerator * (x.denominator // common))


def plus(x, y):
    written(sum(crossed(x, y)), lcm(x.denominator, y.denominator))
    return x + y


STATE = re.compile(rb"state[ \t]+([0-9]+)((?:[ \t\[!{].*)?)", re.DOTALL)
TRANSITION = re.compile(rb"([0-9]+)[ \t]*:[ \t]*(.+)", re.DOTALL)
LABEL = rb'(?:"[^"]{1,255}"|[^ \t"]{1,255})'


def natural(digits):
    """The number of these digits; where it is past all limits, maybe another one that is."""
    return int(digits.lstrip(b"0")[:40] or b"0")


@lru_cache(2**16)
def numeral(text):
    """The number that a numeral of a model spells."""
    found = re.fullmatch(rb"([0-9]+)(?:/([0-9]+)|(?:\.([0-9]+))?(?:[eE]([+-]?)([0-9]+))?)", text)
    refuse_if(not found or found[2] and not natural(found[2]), "number")
    whole_digits, bottom, behind, sign, exponent = found.groups(b"")
    if bottom:
        top, bottom = natural(whole_digits), natural(bottom)
    else:
        digits = (whole_digits + behind).rstrip(b"0")
        shift = natural(exponent) * (-1 if sign == b"-" else 1) + len(whole_digits) - len(digits) if natural(digits) else 0
        refuse_if(abs(shift) > 36, "large")
        top, bottom = natural(digits) * 10 ** max(shift, 0), 10 ** max(-shift, 0)
    refuse_if(max(top, bottom) > LARGEST, "large")
    return Fraction(top, bottom)


class Model:
    """A model; a choice is its rewards and its row, which is pairs of a target and a probability, ascending by target."""

    def __init__(self, data, scaled):
        self.scaled, self.is_chain, self.announced, self.names = scaled, False, {}, [b"-"]
        self.choices, self.labels, self.choice_count, self.transition_count = [], {}, 0, 0
        self.seen, self.own, self.row, self.row_line, self.state_line = set(), [], None, 0, 0
        self.number, lines = 0, self.contents(data)
        try:
            text = next(lines)
            while text != b"@model":
                text = self.entry(text, lines) if text else next(lines)
            refuse_if(not {b"@type:", b"@nr_states"} <= self.seen, "header")
            for text in lines:
                if text:
                    self.body(text)
            self.close_row()
            refuse_if(self.choices and not self.choices[-1], "no-choice", self.state_line)
            refuse_if(len(self.choices) != self.announced[b"@nr_states"], "count")
            refuse_if(self.announced.get(b"@nr_choices", self.choice_count) != self.choice_count, "count")
        except StopIteration:
            raise Answer(3, f"model line {self.number} end") from None
        except Broken as broken:
            raise Answer(3, f"model line {broken.args[1] or self.number} {broken.args[0]}") from None

    def contents(self, data):
        """What each line holds that is no comment."""
        lines = data.removesuffix(b"\n").split(b"\n") if data else []
        for self.number, text in enumerate(lines, 1):
            refuse_if(len(text) > LONGEST_LINE, "long-line")
            text = text.removesuffix(b"\r").strip(b" \t")
            if not text.startswith(b"//"):
                yield text
        self.number = len(lines) + 1

    def entry(self, text, lines):
        """Reads an entry with the line that belongs to it, and answers the line behind."""
        refuse_if(text == b"@placeholders", "parametric")
        found = re.fullmatch(rb"(@(?:value_)?type:)(.*)|@(?:parameters|reward_models|nr_states|nr_choices)", text, re.DOTALL)
        refuse_if(not found, "header")
        name, word, text = found[1] or text, (found[2] or b"").strip(b" \t"), b""
        refuse_if(name in self.seen or found[1] and not re.fullmatch(rb"[^ \t]+", word), "header")
        self.seen.add(name)
        if found[1]:
            refuse_if(name == b"@type:" and word not in (b"MDP", b"DTMC"), "type")
            self.is_chain = self.is_chain or name == b"@type:" and word == b"DTMC"
        elif name in MOST:
            while not text:
                text = next(lines)
            refuse_if(not text.isdigit(), "number")
            self.announced[name] = natural(text)
            refuse_if(self.announced.get(b"@nr_states") == 0, "count")
            refuse_if(self.announced[name] > MOST[name], "too-many")
        else:
            text = next(lines)
            if text.startswith(b"@"):
                return text
            refuse_if(text and name == b"@parameters", "parametric")
            names = re.findall(rb"[^ \t]+", text)
            refuse_if(len(set(names)) < len(names) or any(not re.fullmatch(rb'[^"\r]{1,255}', name) for name in names), "header")
            refuse_if(len(names) > 16, "too-many")
            self.names = names or self.names
        return next(lines)

    def body(self, text):
        entry = TRANSITION.fullmatch(text)
        if entry:
            return self.transition(natural(entry[1]), entry[2])
        state, is_state, is_action = STATE.fullmatch(text), re.match(rb"state[ \t]+[0-9]", text), re.match(rb"action(?:[ \t]|\Z)", text)
        if is_state or is_action:
            self.close_row()
        refuse_if(is_state and self.choices and not self.choices[-1], "no-choice", self.state_line)
        if state:
            return self.state(natural(state[1]), state[2].strip(b" \t"))
        refuse_if(not is_action or not self.choices, "shape")
        return self.action(text[len(b"action") :].strip(b" \t"))

    def rewards(self, bracket):
        values = [value.strip(b" \t") for value in bracket.split(b",")]
        if values == [b""]:
            return [0] * len(self.names)
        refuse_if(len(values) != len(self.names), "reward")
        return [-numeral(value[1:]) if value.startswith(b"-") else numeral(value) for value in values]

    def state(self, number, rest):
        refuse_if(number != len(self.choices), "order")
        refuse_if(number == self.announced[b"@nr_states"], "count")
        refuse_if(rest[:1] in (b"!", b"{"), "type")
        found = re.fullmatch(rb"(?:\[([^\]]*)(\]?))?(.*)", rest, re.DOTALL)
        refuse_if(found[2] == b"", "reward")
        self.own, rest = self.rewards(found[1] or b""), found[3].strip(b" \t")
        refuse_if(not re.fullmatch(rb"(?:%s(?:[ \t]+|\Z))*" % LABEL, rest), "label")
        labels = [label.strip(b'"') for label in re.findall(LABEL, rest)]
        for label in labels:
            self.labels.setdefault(label, set()).add(number)
        refuse_if(len(labels) > 64 or len(self.labels) > 1024, "too-many")
        self.choices.append([])
        self.state_line = self.number

    def action(self, rest):
        opening, has_bracket = rest.rfind(b"["), rest.endswith(b"]")
        refuse_if(has_bracket and opening < 0, "shape")
        earned = self.rewards(rest[opening + 1 : -1] if has_bracket else b"")
        refuse_if(self.is_chain and self.choices[-1], "choices")
        self.choice_count += 1
        refuse_if(self.choice_count > MOST[b"@nr_choices"], "too-many")
        try:
            earned = [plus(own, more) for own, more in zip(self.own, earned)]
        except OverflowError:
            refuse_if(True, "large")
        refuse_if(any(max(abs(number.numerator), number.denominator) > LARGEST for number in earned), "large")
        self.choices[-1].append((earned, []))
        self.row, self.row_line = {}, self.number

    def transition(self, target, value):
        refuse_if(self.row is None, "shape")
        refuse_if(target >= self.announced[b"@nr_states"], "target")
        refuse_if(target in self.row, "twice")
        refuse_if(value.startswith(b"-"), "negative")
        self.row[target] = numeral(value)
        self.transition_count += 1
        refuse_if(self.transition_count > MOST_TRANSITIONS, "too-many")

    def close_row(self):
        if self.row is None:
            return
        row, self.row, common = sorted((target, value) for target, value in self.row.items() if value), None, 1
        for _, value in row:
            common = lcm(common, value.denominator)
            refuse_if(common > LARGEST, "row-wide", self.row_line)
        parts = [value.numerator * (common // value.denominator) for _, value in row]
        total = sum(parts)
        refuse_if(abs(total - common) * 1000 > (common if self.scaled else 0), "row-sum", self.row_line)
        refuse_if(total // gcd(total, *parts) > LARGEST, "row-wide", self.row_line)
        self.choices[-1][-1][1].extend(row if total == common else [(entry[0], Fraction(part, total)) for entry, part in zip(row, parts)])
