"""Numbers, tables, JSON and CSV for people: nothing here is computed with floats but what is drawn."""

import csv
import io
import math
import re
from fractions import Fraction

SHORT = 24


def is_number(value):
    return isinstance(value, (int, Fraction))


def exact(value):
    """A number as it is: a fraction in lowest terms, inf or -inf."""
    return str(value) if is_number(value) else ("inf" if value > 0 else "-inf")


def decimal(value, places, up=None):
    """A number with so many places behind the point; `up` rounds to the next one above, not `up` to the one below, and nothing to the nearest one."""
    scaled = value * 10**places
    whole = round(scaled) if up is None else math.ceil(scaled) if up else math.floor(scaled)
    digits = str(abs(whole)).rjust(places + 1, "0")
    text = digits[: len(digits) - places] + (f".{digits[len(digits) - places :]}" if places else "")
    return ("-" if whole < 0 else "") + text


def magnitude(value):
    """The least e with |value| below 10^e, of a number that isn't 0."""
    top, bottom = abs(value.numerator), value.denominator
    guess = len(str(top)) - len(str(bottom))
    return guess if Fraction(top, bottom) < Fraction(10) ** guess else guess + 1


def terminating(value, most=15):
    """The places that a number needs as a decimal, where they are at most so many; else nothing."""
    bottom, places = value.denominator, 0
    while bottom > 1 and places < most:
        places += 1
        bottom //= math.gcd(bottom, 10)
    return places if bottom == 1 else None


def nearest(value, digits=9):
    """A decimal of so many digits that count, with its mark: = where it is the number itself, and else ≈."""
    places = terminating(value)
    if places is not None and len(exact(abs(value.numerator))) <= 15:
        return f"= {decimal(value, places)}"
    size = magnitude(value)
    if -6 < size < 16:
        return f"≈ {decimal(value, max(digits - size, 0))}"
    return f"≈ {decimal(value / Fraction(10) ** (size - 1), digits - 1)}e{size - 1}"


def exact_text(value):
    """An exact number for people: a short one as it is with a decimal, a long one as a decimal alone."""
    if not is_number(value) or Fraction(value).denominator == 1:
        return exact(value)
    text, beside = exact(value), nearest(value)
    if len(text) <= SHORT:
        return f"{text} {beside}"
    return f"{beside} (exact, a fraction of {len(text) - 1} digits)"


def places_for(low, high):
    """So many places that two different numbers, rounded away from each other, lie hardly further apart."""
    return min(max(2 - magnitude(high - low), 0), 60)


def sided(value, up, places):
    """A bound as a decimal, rounded away from the value that it bounds."""
    if not is_number(value):
        return exact(value)
    own = terminating(value, 60)
    return decimal(value, min(places, own) if own is not None else places, up)


def certain(low, high):
    """The digits with which both numbers begin, so also each number between them; nothing where there are none behind the point."""
    if not (is_number(low) and is_number(high)) or low < 0:
        return ""
    places = 0
    while places < 60 and math.floor(low * 10 ** (places + 1)) == math.floor(high * 10 ** (places + 1)):
        places += 1
    text = decimal(low, places, False)
    return f"{text}.." if places and re.search("[1-9]", text) else ""


def text_of(low, high):
    """A value for people, by a lower and an upper one."""
    if low == high:
        return exact_text(low)
    if not is_number(high):
        return "not known" if not is_number(low) else f"at least {exact_text(low)}, with no upper bound"
    if not is_number(low):
        return f"at most {exact_text(high)}, with no lower bound"
    places, known = places_for(low, high), certain(low, high)
    return f"from {sided(low, False, places)} to {sided(high, True, places)}{f', certain is {known}' if known else ''}"


def cells(low, high, is_exact):
    """The cells of a value in a table."""
    if is_exact:
        return [exact(low), nearest(low)[2:] if is_number(low) and Fraction(low).denominator > 1 else ""]
    places = places_for(low, high) if is_number(low) and is_number(high) and low != high else 12
    return [sided(low, False, places), sided(high, True, places)]


def table(head, rows):
    """Lines of aligned cells; a column that is empty throughout is left out. Cells of digits alone stand to the right."""
    columns = [column for column in zip(head, *rows) if any(column[1:])]
    widths = [max(map(len, column)) for column in columns]
    sides = [str.rjust if all(re.fullmatch(r"-?\d\S*|-?inf|", cell) for cell in column[1:]) else str.ljust for column in columns]
    for line in zip(*columns):
        yield "  ".join(side(cell, width) for side, cell, width in zip(sides, line, widths)).rstrip()


def csv_text(head, rows):
    """Lines of values with commas between, by RFC 4180 but for the line ends."""
    out = io.StringIO()
    writer = csv.writer(out, lineterminator="\n")
    writer.writerow(head)
    writer.writerows(rows)
    return out.getvalue()
