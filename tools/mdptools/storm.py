"""Models as Storm writes them where bin/mdp refuses the file: placeholders are put in, a compressed file is unpacked, and what can't be mended is named with its
line. Written from memory of Storm's format, and tried on files that were written by hand in these forms."""

import gzip
import re

from .drn import Unclear

# What is refused, and what to do: a form of a line, whether it stands in front of @model, and the advice.
ADVICE = [
    (r"@type:\s*CTMC", True, "a chain in continuous time isn't read: for questions without time export its embedded chain, a model of type dtmc"),
    (r"@type:\s*Markov Automaton", True, "a Markov automaton isn't read: for questions without time make it an MDP, each Markovian state a choice with its jump probabilities"),
    (r"@type:\s*(POMDP|SMG|PTG)", True, "observations and players aren't read: as an MDP, without them, the greatest value is an upper bound of theirs"),
    (r"state\s+\d+\s*!", False, "a rate isn't read: for questions without time export the embedded chain"),
    (r"state\s+\d+\s*\{", False, "an observation isn't read: as an MDP, without them, the greatest value is an upper bound"),
    (r".*:\s*\[", False, "an interval isn't read: ask a model with the lower and one with the upper ends, where these are distributions"),
    (r"(action|state)\b.*\[[^]]*\b(inf|Infinity|INFINITY)\b", False, "an infinite reward isn't read: let the choice lead to a state of its own that is no goal; its reward until the goal is infinite then"),
    (r".*:\s*(inf|nan|Infinity|NaN)", False, "this value is no probability"),
]
ENTRY = re.compile(r"(\s*\d+\s*:\s*)(\$\S+|.*\$.*)")
NUMBER = re.compile(r"-?\d+(/\d+|(\.\d+)?([eE][+-]?\d+)?)")


def lines_of(path):
    """The lines of a file, unpacked where it is compressed by gzip."""
    try:
        with open(path, "rb") as file:
            is_packed = file.read(2) == b"\x1f\x8b"
        opened = gzip.open(path, "rb") if is_packed else open(path, "rb")
        with opened as file:
            return file.read().decode("utf-8", "surrogateescape").split("\n")
    except (OSError, EOFError) as error:
        raise Unclear(path, 0, getattr(error, "strerror", None) or str(error)) from None


def refuse_what_cannot_be(path, number, text, is_header):
    for form, of_header, advice in ADVICE:
        if of_header == is_header and re.match(form, text.strip()):
            raise Unclear(path, number, advice)


def placeholder(path, number, text):
    """A line `$NAME : VALUE`."""
    found = re.fullmatch(r"\s*(\$\S+)\s*:\s*(\S.*?)\s*", text)
    if not found or not NUMBER.fullmatch(found[2]):
        raise Unclear(path, number, "the value of a placeholder is a number: give the parameters of the model their values before it is built")
    return found[1], found[2]


def put_in(path, number, text, values):
    """A line with the values in the places of their placeholders."""

    def value(found):
        if found[0] not in values:
            raise Unclear(path, number, f"no placeholder has the name {found[0]}")
        return values[found[0]]

    return re.sub(r"\$[A-Za-z0-9_]+", value, text) if re.match(r"\s*(\d+\s*:|action|state)", text) else text


def mended(path):
    """The lines of a model that bin/mdp reads."""
    values, is_header, is_inside = {}, True, False
    for number, text in enumerate(lines_of(path), 1):
        words = text.strip()
        refuse_what_cannot_be(path, number, text, is_header)
        is_inside = words == "@placeholders" or is_inside and not words.startswith("@")
        is_header = is_header and words != "@model"
        if words == "@placeholders":
            continue
        if is_inside:
            if words:
                name, value = placeholder(path, number, text)
                values[name] = value
            continue
        yield put_in(path, number, text, values) if "$" in text and not is_header else text
