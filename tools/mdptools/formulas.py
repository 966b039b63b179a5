"""Formulas of states over labels, evaluated on a model. A set of states is a whole number: bit s stands for state s."""

import difflib

from . import properties
from .properties import Unsupported


def bits_of(states, size):
    """The set of some states."""
    found = bytearray(size // 8 + 1)
    for state in states:
        found[state >> 3] |= 1 << (state & 7)
    return int.from_bytes(found, "little")


def states_of(bits):
    """The states of a set, ascending."""
    data = bits.to_bytes(bits.bit_length() // 8 + 1, "little")
    return [8 * place + bit for place, byte in enumerate(data) if byte for bit in range(8) if byte >> bit & 1]


class Labels:
    """The labels of a model and their states; `decide` gives the states of an operator with a bound inside a formula."""

    def __init__(self, model, decide=None):
        self.size, self.decide = len(model.states), decide
        self.all, found = (1 << self.size) - 1, {}
        for s, state in enumerate(model.states):
            for label in state.labels:
                found.setdefault(label, []).append(s)
        self.bits = {label: bits_of(states, self.size) for label, states in found.items()}

    def label(self, formula):
        if formula.name in self.bits:
            return self.bits[formula.name]
        if formula.name == "deadlock":
            raise Unsupported('no state of this model has the label "deadlock": in DRN each state has a choice, and a deadlock shows only where the file has that label',
                              formula.start, formula.end)
        near = difflib.get_close_matches(formula.name[:100], self.bits, 1)
        hint = f'; do you mean "{near[0]}"?' if near else ""
        names = ", ".join(f'"{name}"' for name in list(self.bits)[:12])
        raise Unsupported(f'no state of this model has the label "{formula.name[:100]}"{hint} Its labels: {names or "none"}', formula.start, formula.end)

    def states(self, formula):
        """The set of the states at which a formula holds."""
        if isinstance(formula, properties.Truth):
            return self.all if formula.holds else 0
        if isinstance(formula, properties.Label):
            return self.label(formula)
        if isinstance(formula, properties.Not):
            return self.all & ~self.states(formula.inner)
        if isinstance(formula, properties.Many):
            found = self.states(formula.parts[0])
            for part in formula.parts[1:]:
                more = self.states(part)
                found = found & more if formula.sign == "&" else found | more
            return found
        return self.decide(formula)
