"""Holds tools/recheck against the program on certificates that are broken.

    tools/try_recheck [PROGRAM]      PROGRAM is the built program, or bin/mdp, where none is named

Certificates of each kind are those of the worked rows that tools/recheck accepts, and those that the program writes for models that are drawn. A copy is
broken once, or a few times, by a fixed seed: a number is changed, a line goes or comes twice, two lines or the words of two states are exchanged, there is
a state more or fewer, the claim is another one, the first line is another one, or the text is cut. Both have to answer each with the same text and status.

Ends with 0 where that is so, and else with 1, after a line for each certificate where it isn't, which is kept in a file that the line names.
"""

import collections
import concurrent.futures
import importlib.machinery
import importlib.util
import os
import pathlib
import random
import re
import subprocess
import sys
import tempfile
from fractions import Fraction

from .trying import PROGRAM, TOP, built_program, model_text, take_words

LOADER = importlib.machinery.SourceFileLoader("recheck", str(TOP / "tools" / "recheck"))
recheck = importlib.util.module_from_spec(importlib.util.spec_from_loader("recheck", LOADER))
LOADER.exec_module(recheck)

ROWS = TOP / "crates" / "mdp_app" / "data" / "rows"
BROKEN, MODELS, MOST_STATES = 4000, 30, 40
# The command that judges a text, by its first line, beside `check`, which judges each.
COMMANDS = {b"mdp-discount 1": "discount-check", b"mdp-bounds 1": "bounds-check"}
NAMES = [b"A", b"B", b"init", b"cost", b"-", b"goal", b"nowhere"]
MARKS = [b"kept", b"open", b"-"]
OBJECTIVES = [
    b'claim %s reach "%s"',
    b'claim %s until "%s" "%s"',
    b'claim %s reward "%s" "%s"',
    b'claim %s mean "%s"',
    b'claim %s witness "%s" 1/2',
    b'claim %s witness until "%s" "%s" 1/3',
    b'claim %s discount "%s" 9/10',
    b'claim upper reach "%s"',
]


# ---- the two judges


def second_opinion(model, text):
    """What tools/recheck says of a text, and its status."""
    try:
        recheck.Judge(model, recheck.Certificate(text))
    except recheck.Answer as answer:
        status, said = answer.args
        return f"{said}\n".encode(), status
    return b"yes\n", 0


def command_of(text):
    return COMMANDS.get(text.partition(b"\n")[0], "check")


def run(program, *words):
    ended = subprocess.run([program, *words], stdout=subprocess.PIPE, stderr=subprocess.DEVNULL, check=False)
    return ended.stdout, ended.returncode


# ---- the certificates


def kind_of(text):
    """The first line of a certificate, and the words of its claim that are no names."""
    first, claim = text.split(b"\n")[:2]
    return (first.replace(b"certificate 1", b"certificate 2") + b" " + re.sub(rb'"[^"]*"', b"", claim)).split(b" ")[0:6:1][:6]


def drawn_model(seed):
    """A model of some states with the labels A and B and rewards, mostly not below 0."""
    draw = random.Random(seed)
    count, halves = draw.randrange(2, 7), draw.random() < 0.5

    def row():
        targets = draw.sample(range(count), draw.randrange(1, min(4, count + 1)))
        bottom = 2 ** draw.randrange(2, 4) if halves else draw.randrange(len(targets) + 1, 12)
        cuts = sorted(draw.sample(range(1, bottom), len(targets) - 1))
        return {t: Fraction(high - low, bottom) for t, low, high in zip(targets, [0, *cuts], [*cuts, bottom], strict=True)}

    def labels(s):
        return " ".join(["init"] * (s == 0) + ["A"] * (draw.random() < 0.7) + ["B"] * (s == count - 1 or draw.random() < 0.1))

    least = draw.choice([0, 0, 0, -2])
    return model_text([(labels(s), [(Fraction(draw.randrange(least, 4), draw.randrange(1, 3)), row()) for _ in range(draw.randrange(1, 4))]) for s in range(count)])


def queries():
    """The words that ask for a certificate of each kind, behind the direction."""
    for objective in (["reach", "B"], ["until", "A", "B"], ["reward", "cost", "B"], ["mean", "cost"]):
        yield ["solve"], objective
        yield ["bounds"], [*objective, "2"]
    yield ["discount"], ["cost", "9/10"]
    yield ["bounds"], ["discount", "cost", "3/4", "2"]
    yield ["witness"], ["B", "1/4"]
    yield ["witness"], ["until", "A", "B", "1/5"]
    yield ["bounds"], ["witness", "B", "1/4"]
    yield ["bounds"], ["witness", "until", "A", "B", "1/5"]


def written_certificates(program, folder):
    """Models that are drawn, and what the program writes for each query."""
    for seed in range(MODELS):
        path = pathlib.Path(folder) / f"drawn-{seed}.drn"
        path.write_text(drawn_model(seed))
        for command, words in queries():
            for direction in ("max", "min"):
                text, status = run(program, *command, path, "exact", direction, *words)
                if status == 0:
                    yield path, "exact", text


def worked_certificates():
    """The certificates of the worked rows, and those that are due to them."""
    for row in sorted(ROWS.iterdir()):
        words, due = (row / "words").read_text().split("\n")[:-1], (row / "stdout").read_bytes()
        if words[:1] in (["check"], ["bounds-check"], ["discount-check"]) and due == b"yes\n":
            yield row / words[1], words[2], (row / words[3]).read_bytes()
        if words[:1] in (["solve"], ["witness"], ["discount"], ["bounds"]) and due.startswith((b"mdp-certificate", b"mdp-discount", b"mdp-bounds")):
            yield row / words[1], words[2], due


def by_kind(certificates):
    """The certificates that tools/recheck accepts, of models that aren't large, each with its model: lists by their kinds."""
    models, found = {}, collections.defaultdict(list)
    for path, rule, text in certificates:
        if (path, rule) not in models:
            models[path, rule] = recheck.Model(path.read_bytes(), rule == "scaled")
        model = models[path, rule]
        if len(model.choices) <= MOST_STATES and second_opinion(model, text) == (b"yes\n", 0):
            found[b" ".join(kind_of(text))].append((path, rule, model, text))
    return dict(sorted(found.items()))


# ---- the breaking


def other_number(draw, word, text):
    """Another number, or mark, in the place of one: near to it, one that stands elsewhere in the text, or one of some that are special."""
    if word in MARKS:
        return draw.choice([*MARKS, b"wide"])
    found = re.findall(rb"(?<= )-?[0-9]+(?:/[0-9]+)?(?=[ \n])", text)
    special = [b"0", b"1", b"2", b"1/2", b"-1", b"inf", b"-inf", b"4294967295", b"4294967296", b"01", b"2/4", b"1/1"]
    wide = [b"%d/%d" % (2**126 + 1, 2**127 - 1), b"1/%d" % (2**127 - 1), b"%d" % (2**127 - 1), b"1/%d" % 3**79, b"1/%d" % 2**126, b"1/%d" % 2**127]
    number = Fraction(word.decode()) if re.fullmatch(rb"-?[0-9]+(/[1-9][0-9]*)?", word) else Fraction(0)
    near = [str(x).encode() for x in (number + 1, number - 1, -number, number / 2, number * 2, number + Fraction(1, 1000), number - Fraction(1, 7), 1 - number)]
    return draw.choice(draw.choice([near, near, found or near, special, wide]))


def joined(lines):
    """Lines with those of states, whose words are given for each state, in runs that are as long as they can be."""
    found = []
    for line in lines:
        if isinstance(line, tuple) and found and isinstance(found[-1], list) and found[-1][2] == line[1]:
            found[-1][1] = line[0]
        else:
            found.append([line[0], line[0], line[1]] if isinstance(line, tuple) else line)
    return [line if isinstance(line, bytes) else b" ".join([b"state %d" % line[0]] * (line[0] == line[1]) + [b"run %d %d" % (line[0], line[1])] * (line[0] != line[1]) + line[2]) for line in found]


def split(text):
    """The lines of a text, those of states as their number and words, each state for itself."""
    for line in text.split(b"\n")[:-1]:
        name, *words = line.split(b" ")
        if name in (b"state", b"run"):
            first, last = int(words[0]), int(words[name == b"run"])
            if last - first > 2**16:
                raise ValueError(line)
            yield from ((s, words[1 + (name == b"run") :]) for s in range(first, last + 1))
        else:
            yield line


def rejoined(text, change):
    """A text whose states are changed, in the runs of its version."""
    lines = list(split(text))
    change(lines)
    if text.startswith((b"mdp-certificate 1\n", b"mdp-discount 1\n")):
        return b"".join((line if isinstance(line, bytes) else b" ".join([b"state %d" % line[0], *line[1]])) + b"\n" for line in lines)
    return b"".join(line + b"\n" for line in joined(lines))


def state_number(draw, text):
    """A number of one state's line is another one; of the initial state mostly in the line `init` too."""

    def change(lines):
        places = [i for i, line in enumerate(lines) if isinstance(line, tuple)]
        if not places:
            return
        at = draw.choice(places)
        s, words = lines[at][0], list(lines[at][1])
        k = draw.randrange(len(words))
        words[k] = other_number(draw, words[k], text)
        lines[at] = (s, words)
        init = lines[3].split(b" ")
        if init[:2] == [b"init", b"%d" % s] and k < len(init) - 2 and draw.random() < 0.9:
            lines[3] = b" ".join([*init[: 2 + k], words[k], *init[3 + k :]])

    return rejoined(text, change)


def any_number(draw, text):
    places = list(re.finditer(rb"(?<= )(?:-?[0-9]+(?:/[0-9]+)?|-?inf)(?=[ \n])", text))
    if not places:
        return text
    place = draw.choice(places)
    return text[: place.start()] + other_number(draw, place[0], text) + text[place.end() :]


def line_gone(draw, text):
    lines = text.split(b"\n")
    del lines[draw.randrange(len(lines))]
    return b"\n".join(lines)


def line_twice(draw, text):
    lines = text.split(b"\n")
    at = draw.randrange(len(lines))
    return b"\n".join(lines[: at + 1] + lines[at:])


def lines_exchanged(draw, text):
    lines = text.split(b"\n")
    one, other = draw.randrange(len(lines)), draw.randrange(len(lines))
    lines[one], lines[other] = lines[other], lines[one]
    return b"\n".join(lines)


def states_exchanged(draw, text):
    def change(lines):
        places = [i for i, line in enumerate(lines) if isinstance(line, tuple)]
        if places:
            one, other = draw.choice(places), draw.choice(places)
            lines[one], lines[other] = (lines[one][0], lines[other][1]), (lines[other][0], lines[one][1])

    return rejoined(text, change)


def other_size(draw, text):
    """A state more or fewer, in the line `states`, in the lines of the states, or in both."""
    where = draw.choice(["count", "lines", "both"])
    more = draw.random() < 0.7

    def change(lines):
        places = [i for i, line in enumerate(lines) if isinstance(line, tuple)]
        size = int(lines[2].split(b" ")[1])
        if where != "lines":
            lines[2] = b"states %d" % (size + 1 if more else max(size - 1, 0))
        if where != "count" and places:
            if more:
                lines.insert(places[-1] + 1, (size, lines[draw.choice(places)][1]))
            else:
                del lines[places[-1]]

    return rejoined(text, change)


def other_claim(draw, text):
    lines = text.split(b"\n")
    claim = lines[1]
    way = draw.randrange(4)
    if way == 0:
        claim = claim.replace(b"max", b"min") if b"max" in claim else claim.replace(b"min", b"max")
    elif way == 1:
        names = list(re.finditer(rb'"[^"]*"', claim))
        name = draw.choice(names)
        claim = claim[: name.start()] + b'"' + draw.choice(NAMES) + b'"' + claim[name.end() :]
    elif way == 2:
        form = draw.choice(OBJECTIVES)
        words = [draw.choice([b"max", b"min"])] * form.startswith(b"claim %s") + [draw.choice(NAMES[:5]) for _ in range(form.count(b'"%s"'))]
        claim = form % tuple(words)
    else:
        claim = re.sub(rb"reach|until", lambda found: b"until" if found[0] == b"reach" else b"reach", claim)
        claim = re.sub(rb'until ("[^"]*")$', rb'until "A" \1', claim) if b"until" in claim else re.sub(rb'reach "[^"]*" ', b"reach ", claim)
    return b"\n".join([lines[0], claim, *lines[2:]])


def other_version(draw, text):
    versions = [b"mdp-certificate 1", b"mdp-certificate 2", b"mdp-bounds 1", b"mdp-discount 1", b"mdp-certificate 3", b"mdp-policy 1"]
    return draw.choice(versions) + b"\n" + text.partition(b"\n")[2]


def byte_gone(draw, text):
    at = draw.randrange(len(text))
    return draw.choice([text[:at], text[:at] + text[at + 1 :], text[:at] + bytes([draw.choice(b" \n\t0a/-\"")]) + text[at + 1 :]])


WAYS = [state_number] * 6 + [any_number] * 3 + [states_exchanged] * 2 + [other_claim] * 2 + [line_gone, line_twice, lines_exchanged, other_size, other_version, byte_gone]


def broken(seed, kinds):
    """A certificate that is broken: its kind, its model, and the text."""
    draw = random.Random(seed)
    kind = list(kinds)[seed % len(kinds)]
    path, rule, model, text = draw.choice(kinds[kind])
    for _ in range(draw.choice([1, 1, 1, 2, 3])):
        way = draw.choice(WAYS)
        try:
            text = way(draw, text) or text
        except (ValueError, IndexError, AttributeError, TypeError, ZeroDivisionError):
            # The text is broken so far that this way has no place in it.
            continue
    return kind, path, rule, model, text


# ---- the trial


def compared(program, folder, seed, kinds):
    """The kind and the answer, and what is wrong where the two don't agree."""
    kind, path, rule, model, text = broken(seed, kinds)
    cert = pathlib.Path(folder) / f"{seed}.cert"
    cert.write_bytes(text)
    due = second_opinion(model, text)
    found = run(program, "check" if seed % 2 else command_of(text), path, rule, cert)
    said = b" ".join(due[0].split()[:3] if due[0].startswith((b"denied", b"cert")) else due[0].split()[:2])
    if found == due:
        cert.unlink()
        return kind, re.sub(rb"line", b"text", said), ""
    kept = pathlib.Path(tempfile.gettempdir()) / f"broken-{seed}.cert"
    kept.write_bytes(text)
    return kind, said, f"{kept} of {path} {rule}: the program says {found}, and tools/recheck {due}"


def main(words):
    take_words(words, __doc__)
    program = PROGRAM[0] if PROGRAM else built_program()
    with tempfile.TemporaryDirectory() as folder, concurrent.futures.ThreadPoolExecutor(os.cpu_count()) as at_once:
        kinds = by_kind([*worked_certificates(), *written_certificates(program, folder)])
        ends = list(at_once.map(lambda seed: compared(program, folder, seed, kinds), range(BROKEN)))
    wrong = [text for _, _, text in ends if text]
    refused = sum(said != b"yes" for _, said, _ in ends)
    answers = len({said for _, said, _ in ends})
    print(*wrong, f"{BROKEN} broken certificates of {len(kinds)} kinds, {refused} refused in {answers} ways, {len(wrong)} wrong", sep="\n")
    sys.exit(1 if wrong or not refused else 0)
