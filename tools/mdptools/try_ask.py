"""Tries bin/ask.

    tools/try_ask --test     what needs no program: properties and formulas that are drawn, on models that are drawn, against their meaning over all
                             policies; each refusal of examples/properties.txt; models by way of PRISM's files and back
    tools/try_ask [--solver PROGRAM]
                             that, and with the program each line of examples/properties.txt, some of the drawn properties, a break by the user, a full
                             disk, a model that is no model, a property of 1 MB

Ends with 0 where all is as it is due, and else with 1, after a line for each that isn't.
"""

import concurrent.futures
import gzip
import json
import math
import os
import pathlib
import random
import re
import signal
import subprocess
import sys
import tempfile
import time
from fractions import Fraction

from . import asking, drn, formulas, plain, prism, program, properties

TOP = pathlib.Path(__file__).resolve().parent.parent.parent
TABLE = TOP / "examples" / "properties.txt"
PRISM, STORM = TOP / "examples" / "prism", TOP / "examples" / "storm"
FORMULAS, PROPERTIES, BY_PROGRAM = 3000, 2500, 60
# The words `--solver PROGRAM`, where they are given.
SOLVER = []
LABELS = ["a", "b", "not c", "init"]


# ---- what is drawn


def drawn_model(draw, is_chain):
    """A model of a few states with the rewards `x` and `y`."""
    size, states = draw.randrange(1, 5), []
    for s in range(size):
        labels = [label for label in LABELS if (label == "init") == (s == 0) and (s == 0 or draw.random() < 0.5)] if s else ["init"] + [label for label in LABELS[:3] if draw.random() < 0.4]
        choices = []
        for _ in range(1 if is_chain else draw.randrange(1, 4)):
            targets = sorted(draw.sample(range(size), draw.randrange(1, size + 1)))
            weights = [draw.randrange(1, 5) for _ in targets]
            row = [(target, Fraction(weight, sum(weights))) for target, weight in zip(targets, weights, strict=True)]
            choices.append(drn.Choice([Fraction(draw.randrange(0, 4)), Fraction(draw.randrange(-3, 4))], draw.choice(["", "go", "wait"]), row))
        states.append(drn.State([Fraction(0)] * 2, [label for label in labels if label != "init" or s == 0], choices))
    return drn.Model(["x", "y"], states, is_chain)


def drawn_formula(draw, labels, depth=3):
    """A formula as a tree of tuples."""
    kind = draw.choice(["label"] * 3 + ["true", "false"] + ["!", "&", "|", "=>", "<=>"] * (depth > 0))
    if kind == "label":
        return "label", draw.choice(labels)
    if kind in ("true", "false"):
        return (kind,)
    return (kind, *(drawn_formula(draw, labels, depth - 1) for _ in range(1 if kind == "!" else 2)))


BINDS = {"<=>": 0, "=>": 1, "|": 2, "&": 3, "!": 4, "label": 5, "true": 5, "false": 5}


def spelled(draw, tree, least=0):
    """A formula as PRISM writes it, in brackets where they are due, and in some places where they aren't."""
    kind, *parts = tree
    if kind == "label":
        found = f'"{parts[0]}"'
    elif kind == "!":
        found = "!" + spelled(draw, parts[0], 4)
    elif not parts:
        found = kind
    else:
        left, right = BINDS[kind] + (kind == "=>"), BINDS[kind] + (kind == "<=>")
        found = f"{spelled(draw, parts[0], left)}{draw.choice([' ', ''])}{kind}{draw.choice([' ', ''])}{spelled(draw, parts[1], right)}"
    return f"({found})" if BINDS[kind] < least or draw.random() < 0.1 else found


def holds(tree, labels):
    """Whether a formula holds at a state with these labels."""
    kind, *parts = tree
    if kind == "label":
        return parts[0] in labels
    if not parts:
        return kind == "true"
    first, *others = [holds(part, labels) for part in parts]
    if kind == "!":
        return not first
    return {"&": first and others[0], "|": first or others[0], "=>": not first or others[0], "<=>": first == others[0]}[kind]


def where(tree, model):
    return {s for s, state in enumerate(model.states) if holds(tree, state.labels)}


def used(model):
    return sorted({label for state in model.states for label in state.labels})


# ---- properties by their meaning


def drawn_way(draw, model):
    """The brackets of a P: their text, and a function that gives the values for a direction."""
    labels = used(model)
    goal, stay, count = drawn_formula(draw, labels), drawn_formula(draw, labels), draw.choice([None, None, 0, 1, 2, 5])
    goals, stays, whole, size = where(goal, model), where(stay, model), set(range(len(model.states))), len(model.states)
    deadline = "" if count is None else draw.choice([f"<={count}", f"<{count + 1}"])
    kind = draw.choice("FGU")
    indicator = [Fraction(int(s in goals)) for s in range(size)]
    if kind == "G":
        text = f"G{deadline} {spelled(draw, goal)}"
        zero = {s: Fraction(0) for s in whole - goals}
        if count is None:
            return text, lambda direction: plain.best(model, direction, lambda rows, _: plain.always(rows, goals))
        return text, lambda direction: plain.steps(model, direction, count, indicator, zero)
    stays = whole if kind == "F" else stays
    text = f"F{deadline} {spelled(draw, goal)}" if kind == "F" else f"{spelled(draw, stay)} U{deadline} {spelled(draw, goal)}"
    fixed = {s: indicator[s] for s in whole if s in goals or s not in stays}
    if count is None:
        return text, lambda direction: plain.best(model, direction, lambda rows, _: plain.chance(rows, goals, stays))
    return text, lambda direction: plain.steps(model, direction, count, indicator, fixed)


def drawn_reward(draw, model):
    """An R with its brackets, as `drawn_way`, and the text in front of the direction."""
    labels, size = used(model), len(model.states)
    kind = draw.choice(["F", "C", "LRA", "discount", "share"])
    name = "x" if kind == "F" else draw.choice("xy")
    tree = drawn_formula(draw, labels)
    shares = [Fraction(int(s in where(tree, model))) for s in range(size)]
    head, earned = f'R{{"{name}"}}', lambda policy: plain.rewards_of(model, policy, model.names.index(name))
    if draw.random() < 0.2:
        head, earned = f"R{{{spelled(draw, ('|', tree, tree))}}}", lambda _: shares
    by_policy = lambda value_of: lambda direction: plain.best(model, direction, lambda rows, policy: value_of(rows, earned(policy)))
    if kind == "F":
        goals = where(goal := drawn_formula(draw, labels), model)
        return head, f"F {spelled(draw, goal)}", by_policy(lambda rows, earned: plain.until_goal(rows, earned, goals))
    if kind == "C":
        count = draw.randrange(6)
        return head, f"C<={count}", lambda direction: totals(model, direction, count, earned)
    if kind == "LRA":
        return head, draw.choice(["LRA", "S"]), by_policy(plain.average)
    if kind == "share":
        return draw.choice(["S", "LRA"]), spelled(draw, tree), lambda direction: plain.best(model, direction, lambda rows, _: plain.average(rows, shares))
    factor = draw.choice([Fraction(0), Fraction(1, 2), Fraction(9, 10)])
    scaled = lambda rows: [{t: factor * p for t, p in row.items()} for row in rows]
    return head, f"C{{{draw.choice([str(factor), str(float(factor))])}}}", by_policy(lambda rows, earned: plain.solved(scaled(rows), earned))


def totals(model, direction, count, earned):
    """The best totals within some steps, where each choice's reward is that of a policy that takes it."""
    pick, values = max if direction == "max" else min, [Fraction(0)] * len(model.states)
    for _ in range(count):
        sums = []
        for s, state in enumerate(model.states):
            reward = lambda choice: earned([choice if t == s else 0 for t in range(len(model.states))])[s]
            sums.append(pick(reward(c) + sum(p * values[t] for t, p in choice.row) for c, choice in enumerate(state.choices)))
        values = sums
    return values


RELATIONS = {">=": lambda x, y: x >= y, ">": lambda x, y: x > y, "<=": lambda x, y: x <= y, "<": lambda x, y: x < y}


def drawn_property(draw, model):
    """A property, and what it is to come to: a value, or a truth."""
    if draw.random() < 0.5:
        head, (inner, values_for) = "P", drawn_way(draw, model)
    else:
        head, inner, values_for = drawn_reward(draw, model)
    directions = ["max", "min"] + [""] * model.is_chain
    direction = draw.choice(directions)
    values = values_for(direction or "max")
    if draw.random() < 0.5:
        return value_property(draw, model, f"{head}{direction}=? [ {inner} ]", values)
    relation = draw.choice(list(RELATIONS))
    if draw.random() < 0.3:
        direction, values = "", values_for("min" if relation[0] == ">" else "max")
    finite = [value for value in values if value != math.inf] or [Fraction(1)]
    threshold = abs(draw.choice(finite) + draw.choice([0, 0, Fraction(1, 7)]))
    return truth_property(draw, model, f"{head}{direction}{relation}{threshold} [ {inner} ]", [RELATIONS[relation](value, threshold) for value in values])


def value_property(draw, model, text, values):
    label = draw.choice(used(model))
    states = [s for s, state in enumerate(model.states) if label in state.labels]
    pick, kind = draw.choice(["min", "max"]), draw.randrange(5)
    found = {"min": min, "max": max}[pick](values[s] for s in states)
    if kind == 0:
        return f'filter({pick}, {text}, "{label}")', found
    if kind == 1:
        return f'{text[:-1]}{{"{label}"}}{{{pick}}} ]', found
    return text, values[0]


def truth_property(draw, model, text, truth):
    label, kind = draw.choice(used(model)), draw.randrange(7)
    there = [truth[s] for s, state in enumerate(model.states) if label in state.labels]
    if kind < 3:
        pick, found = [("forall", all(there)), ("exists", any(there)), ("count", sum(there))][kind]
        return f'filter({pick}, {text}, "{label}")', found
    if kind == 3:
        return f'!({text}) | "{label}"', not truth[0] or label in model.states[0].labels
    if kind == 4:
        sure = plain.best(model, "min", lambda rows, _: plain.chance(rows, {s for s, held in enumerate(truth) if held}, set(range(len(truth)))))
        return f"Pmin=? [ F {text} ]", sure[0]
    return text, truth[0]


# ---- trials without the program


def try_formula(seed):
    """What is wrong with a formula of this seed, or nothing."""
    draw = random.Random(f"formula {seed}")
    model = drawn_model(draw, False)
    tree = drawn_formula(draw, used(model), 5)
    text = spelled(draw, tree)
    found = formulas.Labels(model).states(properties.Parser(text).formula())
    if formulas.states_of(found) != sorted(where(tree, model)):
        yield f"formula {text}: {formulas.states_of(found)} and not {sorted(where(tree, model))}"


def run_stand_in(tool, words, output, seconds=None, what=""):
    """In the place of a run: the values by their meaning, and of a check its yes."""
    said = plain.stand_in([str(word) for word in words]) if tool.name == "solver" else "yes\n"
    pathlib.Path(output).write_text(said)
    return program.Ended(0, said.split("\n")[0], "", 0)


def session_of(model, folder, seed, solver, checker):
    path = pathlib.Path(folder) / f"{str(seed).replace(' ', '-')}.drn"
    path.write_text(drn.text_of(model))
    options = asking.Options(keep=pathlib.Path(folder) / "kept")
    return asking.Session(path, drn.read(path, has_rows=False), options, solver, checker)


def outcome(session, text):
    """What a property comes to."""
    (asked,) = properties.parse(text)
    result = asking.of_property(session, asked)
    if result.count is not None:
        return result.count[0]
    return result.low if result.truth is None else result.truth


def try_property(folder, seed, solver, checker):
    """What is wrong with a property of this seed, or nothing."""
    draw = random.Random(f"property {seed}")
    model = drawn_model(draw, draw.random() < 0.3)
    text, due = drawn_property(draw, model)
    session = session_of(model, folder, seed, solver, checker)
    try:
        found = outcome(session, text)
    except (asking.Refused, properties.Unsupported) as refused:
        found = f"{type(refused).__name__} {refused}"
    finally:
        session.close()
    if found != due or isinstance(found, bool) != isinstance(due, bool):
        yield f"property {seed}: {text}: {found} and not {due}"


def try_without_program():
    """What is wrong, line by line, where no program is run."""
    for seed in range(FORMULAS):
        yield from try_formula(seed)
    tools = [program.Tool(pathlib.Path(name), name, "", False) for name in ("solver", "checker")]
    whole, program.run = program.run, run_stand_in
    try:
        with tempfile.TemporaryDirectory() as folder:
            for seed in range(PROPERTIES):
                yield from try_property(folder, seed, *tools)
    finally:
        program.run = whole
    yield from try_prism()
    yield from try_storm()


# ---- models by way of PRISM's files


# Files of examples/prism with one line that is changed: the file, the number of the line, its text, and words of the message.
BROKEN = [
    ("coin.tra", 1, "3 4", "source, target and probability"),
    ("coin.tra", 1, "3 4 6", "6 lines are announced"),
    ("coin.tra", 1, "3 5 5", "5 choices are announced"),
    ("coin.tra", 1, "0 0 0", "a model has 1 to"),
    ("coin.tra", 1, "three 4 5", "a number is due"),
    ("coin.tra", 2, "0 0 3 1 stay", "a state is due"),
    ("coin.tra", 2, "0 0 0", "probability"),
    ("coin.tra", 2, "0 0 0 one stay", "a number is due in the place of one"),
    ("coin.tra", 2, "0 2 0 1 stay", "of a choice before its last one"),
    ("coin.tra", 4, "0 1 1 2/3 take", "has a transition to 1 already"),
    ("coin.tra", 4, "0 1 2 2/3 toss", "has another action"),
    ("coin.tra", 6, "1 1 2 1", "state 2 has no transition"),
    ("coin.lab", 1, "init goal", "the numbers and names of all labels"),
    ("coin.lab", 2, "0 0", "a colon"),
    ("coin.lab", 2, "0: 7", "no label has the number 7"),
    ("coin.lab", 3, "3: 2", "a state is due"),
    ("coin.sta", 1, "s,d", "names of the variables"),
    ("coin.sta", 3, "1:(1)", "2 values are due"),
    ("coin1.srew", 3, "4 1", "the model has 3 states"),
    ("coin1.srew", 3, "3 2", "2 lines are announced"),
    ("coin1.srew", 4, "0 Infinity", "in the place of Infinity"),
    ("coin1.srew", 4, "0", "a state and a number"),
    ("coin2.trew", 3, "3 2", "3 numbers are due"),
    ("coin2.trew", 4, "0 0 1 3", "no such transition"),
    ("coin2.trew", 5, "0 1 1 3", "has a reward already"),
    ("coin2.trew", 5, "0 1 2 x", "in the place of x"),
]


def try_broken(folder):
    """What is wrong with the refusals of files of PRISM, or nothing."""
    names = sorted(path.name for path in PRISM.glob("coin*"))
    for broken, number, text, words in BROKEN:
        for name in names:
            lines = (PRISM / name).read_text().split("\n")
            if name == broken:
                lines[number - 1] = text
            (pathlib.Path(folder) / name).write_text("\n".join(lines))
        ended = subprocess.run([TOP / "tools" / "from_prism", f"{folder}/coin"], capture_output=True, check=False)
        said = ended.stderr.decode()
        if ended.returncode != 2 or broken not in said or not any(part in said for part in words.split("|")) or " line " not in said:
            yield f"{broken} with {text} in line {number}: status {ended.returncode}, {said}"


def of_states(model):
    """What a model says of its states, to be compared."""
    return model.names, [(s.labels, [(c.rewards, c.name, sorted(c.row)) for c in s.choices]) for s in model.states]


def try_back(folder):
    """What is wrong with the models of examples/ that are written as files of PRISM and read again, or nothing."""
    for path in sorted((TOP / "examples").glob("*.drn")):
        model = drn.read(path)
        for state in model.states:
            for choice in state.choices:
                choice.name = choice.name.replace(" ", "_")
        for ending, text in prism.texts_of(model).items():
            (pathlib.Path(folder) / f"{path.stem}{ending}").write_text(text)
        files = [("", file) for file in sorted(pathlib.Path(folder).glob(f"{path.stem}*")) if re.fullmatch(r"\d*\.[a-z]+", file.name.removeprefix(path.stem))]
        found = drn.read(written(folder, prism.read(files)))
        if of_states(found) != of_states(model) or found.is_chain != model.is_chain:
            yield f"{path.name} is another model by way of PRISM's files"


def written(folder, model):
    path = pathlib.Path(folder) / "written"
    path.write_text(drn.text_of(model))
    return path


def try_prism():
    """What is wrong with models by way of PRISM's files, or nothing."""
    with tempfile.TemporaryDirectory() as folder:
        yield from try_back(folder)
    with tempfile.TemporaryDirectory() as folder:
        yield from try_broken(folder)
    for name in ("coin", "die"):
        ended = subprocess.run([TOP / "tools" / "from_prism", PRISM / name], capture_output=True, check=False)
        if ended.stdout.decode() != (PRISM / f"{name}.drn").read_text():
            yield f"tools/from_prism examples/prism/{name} prints another model than {name}.drn"


# ---- models as Storm writes them

# The file of examples/storm with one line that is changed: the number of the line, its text, and words of the message.
STORM_BROKEN = [
    (3, "@type: CTMC", "embedded chain"),
    (3, "@type: Markov Automaton", "Markovian state"),
    (3, "@type: POMDP", "observations"),
    (7, "$0 : 1/x", "the value of a placeholder"),
    (8, "$7 : 0.6666666666666666", "no placeholder has the name $1"),
    (16, "state 0 !5 [0] init", "a rate"),
    (16, "state 0 {3} [0] init", "an observation"),
    (16, "state 0 [Infinity] init", "an infinite reward"),
    (18, "\taction stay [inf]", "an infinite reward"),
    (19, "\t\t0 : [0.9, 1]", "an interval"),
    (19, "\t\t0 : inf", "no probability"),
]


def try_storm():
    """What is wrong with what tools/from_storm makes of files in Storm's forms, or nothing."""
    whole = (STORM / "coin-placeholders.drn").read_text()
    packed = gzip.compress(whole.encode())
    with tempfile.NamedTemporaryFile(suffix=".drn") as file:
        for text in (whole.encode(), packed):
            pathlib.Path(file.name).write_bytes(text)
            ended = subprocess.run([TOP / "tools" / "from_storm", file.name], capture_output=True, check=False)
            if ended.stdout.decode() != (STORM / "coin.drn").read_text():
                yield f"tools/from_storm: {ended.stdout}, {ended.stderr}"
        for number, text, words in STORM_BROKEN:
            lines = whole.split("\n")
            lines[number - 1] = text
            pathlib.Path(file.name).write_text("\n".join(lines))
            ended = subprocess.run([TOP / "tools" / "from_storm", file.name], capture_output=True, check=False)
            place = number if "name $1" not in words else 22
            if ended.returncode != 2 or words not in ended.stderr.decode() or f" line {place}:" not in ended.stderr.decode():
                yield f"tools/from_storm, line {number} {text}: status {ended.returncode}, {ended.stderr}"


# ---- trials of bin/ask as it runs


ASK = TOP / "bin" / "ask"


def asked(words, **how):
    """What bin/ask writes on words, on both ways out, and its status."""
    ended = subprocess.run([ASK, *SOLVER, *words], cwd=TOP, stdin=subprocess.DEVNULL, capture_output=True, check=False, **how)
    return ended.stdout.decode(), ended.stderr.decode(), ended.returncode


def table():
    """The lines of examples/properties.txt: model, property, answer."""
    lines = [line for line in TABLE.read_text().split("\n") if line and not line.startswith("#")]
    return [(*head.split(": ", 1), answer) for head, answer in (line.rsplit(" --> ", 1) for line in lines)]


def refusal(text, said):
    """Whether a message has the words that are due, and marks the place that is due."""
    place, words = text.split(" ", 1)
    lines = said.rstrip("\n").split("\n")
    return len(lines) == 3 and words in lines[0] and lines[2].index("^") - 1 == int(place)


def is_answer(found, status, due):
    """Whether an answer is the one that is due."""
    low, high = (Fraction(word) if word and word != "inf" else word for word in (found.get("lower"), found.get("upper")))
    if due in ("true", "false"):
        return found["holds"] == (due == "true") and status == (due == "false")
    if due == "never":
        return status == 1 and found["steps"] is None
    if "steps" in found or "count" in found:
        return status == 0 and (found.get("steps") == int(due) or found.get("count") == [int(due)] * 2)
    if "curve" in found:
        pairs = [(Fraction(point["lower"]), Fraction(point["upper"])) for point in found["curve"]]
        return status == 0 and len(pairs) == len(due.split()) and all(near(*pair, Fraction(value)) for pair, value in zip(pairs, due.split()))
    if due.startswith("~ "):
        return status == 0 and near(low, high, Fraction(due[2:]))
    return status == 0 and low == high == (due if due == "inf" else Fraction(due))


def near(low, high, value):
    return low <= value <= high and high - low <= Fraction(1, 10**9)


def is_vouched(found):
    """Whether each evidence is a certificate with a yes, or belongs to a deadline."""
    return all(one["verdict"] == "yes" or one["command"].split(",")[0] in ("horizon", "total", "bounds", "curve") for one in found["evidence"])


def try_line(line):
    """What is wrong with a line of the table, or nothing."""
    model, text, due = line
    out, said, status = asked([f"examples/{model}", text, "--json"])
    if due.startswith("refused "):
        return "" if status == 2 and refusal(due.removeprefix("refused "), said) else f"{model}: {text}: status {status}, {said}"
    if status not in (0, 1):
        return f"{model}: {text}: status {status}, {said}"
    (found,) = json.loads(out)["answers"]
    return "" if is_answer(found, status, due) and is_vouched(found) else f"{model}: {text}: {found} and not {due}"


def try_by_program(folder, solver, checker):
    """What is wrong with some drawn properties where the program answers and a checker checks."""
    for seed in range(BY_PROGRAM):
        yield from try_property(folder, f"program {seed}", solver, checker)


# ---- what goes wrong from outside


SLEEPS = """#!/bin/sh
echo $$ > "{0}/pid"
sleep 1000 &
echo $! > "{0}/child"
wait
"""


def is_alive(file):
    """Whether the process whose number is in a file is still at work: one that is over may wait for its parent to ask."""
    status = pathlib.Path("/proc") / pathlib.Path(file).read_text().strip() / "status"
    return status.exists() and not re.search(r"^State:\s*[ZX]", status.read_text(), re.MULTILINE)


def is_over(files, seconds=10):
    """Whether these processes are over, soon: on a busy machine one that was ended may need a moment for it."""
    until = time.monotonic() + seconds
    while any(is_alive(file) for file in files):
        if time.monotonic() > until:
            return False
        time.sleep(0.05)
    return True


def try_break(folder):
    """A break by the user ends bin/ask with 130, and all that it started."""
    # Behind `&` a shell has a script ignore breaks, and what the script starts would ignore them too.
    signal.signal(signal.SIGINT, signal.default_int_handler)
    solver = pathlib.Path(folder) / "sleeps"
    solver.write_text(SLEEPS.format(folder))
    solver.chmod(0o755)
    words = [ASK, "examples/coin.drn", 'Pmax=? [ F "goal" ]', "--solver", solver, "--keep", f"{folder}/kept"]
    with subprocess.Popen(words, cwd=TOP, stdin=subprocess.DEVNULL, stdout=subprocess.PIPE, stderr=subprocess.PIPE) as started:
        for _ in range(200):
            if (pathlib.Path(folder) / "child").exists():
                break
            time.sleep(0.05)
        time.sleep(0.2)
        started.send_signal(signal.SIGINT)
        try:
            _, said = started.communicate(timeout=30)
        except subprocess.TimeoutExpired:
            started.kill()
            _, said = started.communicate()
    if started.returncode != 130 or b"broken off" not in said:
        yield f"a break: status {started.returncode}, {said}"
    if not is_over([f"{folder}/pid", f"{folder}/child"]):
        yield "a break: the solver is still at work"
    limited = [*words[1:3], "--solver", solver, "--seconds", "0.3", "--exact", "--keep", f"{folder}/kept"]
    out, said, status = asked(limited) if not SOLVER else ("", "longer than", 5)
    if status != 5 or "longer than" not in said or is_alive(f"{folder}/pid"):
        yield f"a limit of time: status {status}, {said}"


def try_forged(folder):
    """A solver whose certificate is wrong, or answers another question, and one that can't decide: nothing of it is taken for an answer."""
    forges, question = pathlib.Path(folder) / "forges", 'Pmax=? [ F "goal" ]'
    coin = "examples/coin.drn"
    undecided = 'filter(forall, P>=3570467226624/9701533484425 [ F "rich" ], "init")'
    trials = [
        ("coin-loop.cert", [coin, question], 1, "denied rule 8 state 0 choice 0"),
        ("coin-greatest.cert", [coin, question.replace("max", "min")], 70, "another question"),
        ("machine-least-cost.cert", [coin, question], 70, "another question"),
        ("coin-unreduced.cert", [coin, question], 9, "cert line 5 number"),
    ]
    for cert, words, due, text in trials:
        forges.write_text(f'#!/bin/sh\nexec cat "{TOP}/examples/{cert}"\n')
        forges.chmod(0o755)
        ended = subprocess.run([ASK, *words, "--solver", forges, "--keep", f"{folder}/kept"], cwd=TOP, capture_output=True, check=False)
        if ended.returncode != due or text not in ended.stderr.decode() or ended.stdout:
            yield f"{cert} for {words[1]}: status {ended.returncode}, {ended.stdout} {ended.stderr}"
    for text in (undecided, 'P=? [ F P>=3570467226624/9701533484425 [ F "rich" ] ]'):
        out, said, status = asked(["examples/roulette.drn", text, "--keep", f"{folder}/kept"])
        if status != 5 or "at state" not in out + said:
            yield f"a bound that isn't decided: status {status}, {out} {said}"


# In the place of matplotlib: it writes what it is told to draw.
DRAWS = """
class Told:
    def __init__(self, lines): self.lines = lines
    def __getattr__(self, name): return lambda *values, **named: self.lines.append(f"{name} {values} {named}")
    def savefig(self, path): open(path, "w").write("\\n".join(self.lines))
def subplots(**named): return [Told(lines := []), Told(lines)]
"""


def try_plot(folder):
    """What is drawn of an experiment; without matplotlib a message says how to get it."""
    package = pathlib.Path(folder) / "with" / "matplotlib"
    package.mkdir(parents=True)
    (package / "__init__.py").write_text("def use(name): pass\n")
    (package / "pyplot.py").write_text(DRAWS)
    none = pathlib.Path(folder) / "without" / "matplotlib.py"
    none.parent.mkdir()
    none.write_text("raise ImportError\n")
    words = ["examples/machine.drn", 'Pmax=? [ F<=k "broken" ]', "--const", "k=0:3", "--plot", f"{folder}/x.svg", "--keep", f"{folder}/kept"]
    _, said, status = asked(words, env={**os.environ, "PYTHONPATH": str(none.parent)})
    if status != 2 or "pip install matplotlib" not in said:
        yield f"--plot without matplotlib: status {status}, {said}"
    _, said, status = asked(words, env={**os.environ, "PYTHONPATH": str(package.parent)})
    drawn = pathlib.Path(folder, "x.svg").read_text() if status == 0 else said
    if "plot ([0, 1, 2, 3], [0.0, 0.0, 0.25, 0.5])" not in drawn or "'k, steps'" not in drawn or "probability" not in drawn:
        yield f"--plot: status {status}, {drawn}"
    _, said, status = asked([*words[:1], 'Pmax=? [ F "broken" ]', *words[4:]], env={**os.environ, "PYTHONPATH": str(package.parent)})
    if status != 2 or "an experiment" not in said:
        yield f"--plot of no experiment: status {status}, {said}"


def try_full_disk():
    """Where nothing can be written the status is 7, as that of bin/mdp."""
    question = ["examples/coin.drn", 'Pmax=? [ F "goal" ]']
    with open("/dev/full", "wb") as full:
        ended = subprocess.run([ASK, *SOLVER, *question], cwd=TOP, stdin=subprocess.DEVNULL, stdout=full, stderr=subprocess.PIPE, check=False)
    if ended.returncode != 7 or b"Traceback" in ended.stderr:
        yield f"a full disk: status {ended.returncode}, {ended.stderr}"
    for name in ("--certificate", "--policy"):
        _, said, status = asked([*question, name, "/dev/full"])
        if status != 7 or "Traceback" in said:
            yield f"a full disk, {name}: status {status}, {said}"


def try_files(folder):
    """Files that aren't what they are to be, and a property of 1 MB."""
    noise, long_text, deep, empty = (pathlib.Path(folder) / name for name in ("noise", "long", "deep", "empty"))
    noise.write_bytes(random.Random(1).randbytes(5000))
    goal = '"goal"'
    long_text.write_text(f"Pmax=? [ F {' | '.join([goal] * 115000)} ]")
    deep.write_text(f"Pmax=? [ F {'(' * 500000}{goal}{')' * 500000} ]")
    empty.write_text("// nothing\n")
    question, coin = 'Pmax=? [ F "goal" ]', "examples/coin.drn"
    trials = [
        ([noise, question], 3, "model line 1 header"),
        ([noise], 3, "model line 1 header"),
        (["examples", question], 6, "read-fault model"),
        ([f"{folder}/none", question], 6, "read-fault model"),
        ([coin, "--properties", f"{folder}/none"], 6, "No such file"),
        ([coin, "--properties", noise], 2, "sign"),
        ([coin, "--properties", empty], 2, "no property"),
        ([coin, "--properties", long_text], 0, ""),
        ([coin, "--properties", deep], 2, "levels deep"),
        ([coin, question, "--digits", "31"], 2, "1 to 30"),
        ([coin, question, "--const", "k"], 2, "k=1:100"),
        ([coin, question, "--plot", f"{folder}/x.txt"], 2, ".svg, .png, .pdf"),
        ([coin, question, "--where", "goal"], 2, "in quotes"),
        ([coin, 'Pmax=? [ F<=2 "goal" ]', "--policy", f"{folder}/x"], 2, "table of choices"),
    ]
    for words, due, text in trials:
        out, said, status = asked(words, timeout=60)
        if status != due or text not in said or "Traceback" in said or len(out) > 2000:
            yield f"{' '.join(map(str, words))[:200]}: status {status}, {out[:300]} {said[:500]}"


def try_with_program():
    """What is wrong, line by line, where the program is run."""
    lines, solver = table(), program.solver(SOLVER[-1] if SOLVER else "")
    program.prepare(solver)
    with concurrent.futures.ThreadPoolExecutor(os.cpu_count()) as at_once:
        yield from filter(None, at_once.map(try_line, lines))
    with tempfile.TemporaryDirectory() as folder:
        yield from try_by_program(folder, solver, program.checker())
        yield from try_break(folder)
        yield from try_files(folder)
        yield from try_forged(folder)
        yield from try_plot(folder)
    yield from try_full_disk()


def main(words):
    if words[:1] in (["--help"], ["-h"]):
        print(__doc__)
        return
    if words[:1] == ["--solver"]:
        SOLVER.extend(words[:2])
        words = words[2:]
    if words not in ([], ["--test"]):
        sys.exit("usage: tools/try_ask [--solver PROGRAM], or tools/try_ask --test")
    wrong, said = list(try_without_program()), f"{FORMULAS} formulas and {PROPERTIES} properties without a program"
    if not words:
        wrong += try_with_program()
        said += f", {BY_PROGRAM} with it, {len(table())} lines of {TABLE.relative_to(TOP)}"
    print(*wrong, f"{said}, {len(wrong)} wrong", sep="\n")
    sys.exit(1 if wrong else 0)
