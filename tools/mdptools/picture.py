"""Draws a model, and what a certificate says of it, as text for Graphviz.

    tools/picture MODEL [CERT] > out.dot      and then, with Graphviz: dot -Tsvg out.dot > out.svg
    tools/picture --kept MODEL CERT > out.dot draws of the states only those that a witness keeps and the goals that these come to, and one more for all others
    tools/picture --test                      tries all models and certificates of examples/ and of the worked rows

It judges nothing: it takes what `check` accepts, and draws many a text that they refuse. A text that it can't follow ends with a line that
names the file and its line, and status 2; so does a picture of more than 400 states.

States are ellipses with their number, their valuation where the model has it in comments, and labels, and with a certificate their value, or their
lower and upper one, and rank (for a mean payoff gain and bias). Choices are small points; what a choice earns stands at the edge to it. The policy's
choices and entries are bold, all others grey. Goals have a double line, states of infinite value a dashed one, and states that are cut a dotted one:
those that a witness doesn't keep, and of `until` those that have neither label. Kept states are filled; those that weren't shown to be needed (marked
`wide` or `open`) are filled darker. The flow through a choice stands at its edge. A value of more than 12 characters is followed by a decimal of three places.
"""

import pathlib
import re
import shlex
import shutil
import subprocess
import sys
from dataclasses import dataclass, field

from . import certificates, drn
from .drn import Unclear, fraction

TOP = pathlib.Path(__file__).resolve().parent.parent.parent
MOST_STATES = 400
LONGEST_VALUE = 12
# The name of the state that stands for all that aren't drawn.
OTHERS = "others"


# ---- the certificate


@dataclass
class Evidence:
    """What a certificate says: for each state its lines of text, and the choices that its policy or its flows take."""

    title: str
    goals: set = field(default_factory=set)
    reward: int = None
    says: dict = field(default_factory=dict)
    policy: dict = field(default_factory=dict)
    infinite: set = field(default_factory=set)
    kept: dict = field(default_factory=dict)
    flows: dict = field(default_factory=dict)
    cuts: bool = False
    cut: set = field(default_factory=set)
    is_bounds: bool = False


def shown(value):
    """A fraction as it is; a long one also as a decimal of three places."""
    text = str(value)
    if text == "inf" or len(text) <= LONGEST_VALUE:
        return text
    return f"{text} ~{float(fraction(text)):.3f}"


def claim_of(line, model):
    """The kind of a claim, and what stands for its names: the goals, and the place of the reward."""
    kinds = "reach|until|mean|reward|witness until|witness|discount"
    found = re.fullmatch(rf'claim (?:upper (?P<upper>reach)|(?:max|min) (?P<kind>{kinds})) "(?P<first>[^"]*)"(?: "(?P<second>[^"]*)")?(?: [0-9/]+)?', line)
    if not found:
        raise ValueError(line)
    kind, _, until = (found["upper"] and "upper" or found["kind"]).partition(" ")
    label = found["second"] if "until" in (kind, until) or kind == "reward" else found["first"]
    goals = {s for s, state in enumerate(model.states) if kind not in ("mean", "discount") and label in state.labels}
    cut = {s for s, state in enumerate(model.states) if "until" in (kind, until) and s not in goals and found["first"] not in state.labels}
    reward = model.names.index(found["first"]) if kind in ("mean", "reward", "discount") else None
    return kind, Evidence(title=line, goals=goals, reward=reward, cuts=kind == "witness", cut=cut)


def bounds_words(kind, words):
    """The same of a lower and an upper value; infinite is a state whose lower value is."""
    low, high, *others = words
    if kind == "mean":
        _, _, choice = others
        return [f"gain {shown(low)}", f"to {shown(high)}"], int(choice), False
    if kind == "discount":
        (choice,) = others
        return [f"from {shown(low)}", f"to {shown(high)}"], int(choice), False
    choice, rank = others
    return [f"from {shown(low)}", f"to {shown(high)}", f"rank {int(rank)}"], int(choice), low == "inf"


def subsystem_words(words):
    """What a kept state shows, and its choice, which `min` doesn't name."""
    low, *choice, rank = words
    return [f"at least {shown(low)}", f"rank {int(rank)}"], int(choice[0]) if choice else None


def state_words(kind, words):
    """The lines that a state shows, the choice of the policy, and whether the value is infinite."""
    if kind == "upper":
        (value,) = words
        return [f"at most {shown(value)}"], None, False
    if kind == "mean":
        gain, _, bias, choice = words
        return [f"gain {shown(gain)}", f"bias {shown(bias)}"], int(choice), False
    value, choice, *rank = words
    if len(rank) != (kind != "discount"):
        raise ValueError(words)
    return [f"value {shown(value)}", *(f"rank {int(number)}" for number in rank)], int(choice), value == "inf"


def fits(evidence, model):
    """Whether all that a certificate names is there."""
    choices = [*evidence.policy.items(), *evidence.flows]
    states = {*evidence.says, *evidence.kept}
    return all(s < len(model.states) for s in states) and all(s < len(model.states) and c < len(model.states[s].choices) for s, c in choices)


# The kinds of claims that a text of a first line has.
KINDS = {
    "mdp-bounds 1": ("reach", "until", "reward", "mean", "discount", "witness"),
    "mdp-certificate 1": ("upper", "reach", "until", "reward", "mean", "witness"),
    "mdp-certificate 2": ("upper", "reach", "until", "reward", "mean", "witness"),
    "mdp-discount 1": ("discount",),
}


class Reader(certificates.Reader):
    """Reads a certificate for a model, whose claim is its second line."""

    WHY = "this line isn't one of a certificate for the model"
    LEAST = 2

    def __init__(self, model):
        super().__init__()
        self.model, self.kind, self.evidence, self.direction = model, "", None, ""

    def begin(self, line):
        if line not in KINDS:
            raise ValueError(line)
        super().begin(line)

    def line(self, line):
        if (self.evidence is None) != line.startswith("claim "):
            raise ValueError(line)
        super().line(line)

    def claim(self, line):
        self.kind, self.evidence = claim_of(line, self.model)
        self.direction = line.split(" ")[1]
        self.evidence.is_bounds = self.version == "mdp-bounds 1"
        if self.kind not in KINDS[self.version]:
            raise ValueError(line)

    def size(self, words):
        """Passes over the number of states: each state is looked for in the model."""

    def note(self, name, words):
        """Passes over the initial state, and over what is said of the whole."""
        if name == "improve":
            raise ValueError(name)

    def subsystem(self, first, last, words):
        """The line of states of bounds of a witness."""
        *words, mark = words
        if mark not in certificates.MARKS or len(words) != 2 + (self.direction == "max"):
            raise ValueError(mark)
        says, choice = subsystem_words(words)
        for s in range(first, last + 1):
            if s >= len(self.model.states):
                raise ValueError(s)
            if mark != "-":
                self.evidence.kept[s], self.evidence.says[s] = mark, says
            if mark != "-" and choice is not None and s not in self.evidence.goals | self.evidence.cut:
                self.evidence.policy[s] = choice

    def states(self, first, last, words):
        if self.kind == "witness":
            if not self.evidence.is_bounds:
                raise ValueError(words)
            self.subsystem(first, last, words)
            return
        says, choice, infinite = (bounds_words if self.evidence.is_bounds else state_words)(self.kind, words)
        for s in range(first, last + 1):
            self.evidence.says[s] = says
            if choice is not None and s not in self.evidence.goals | self.evidence.cut:
                self.evidence.policy[s] = choice
            if infinite:
                self.evidence.infinite.add(s)

    def keep(self, words):
        state, *values, mark = words
        if mark not in ("kept", "wide"):
            raise ValueError(mark)
        self.evidence.kept[int(state)] = mark
        if values:
            value, rank = values
            self.evidence.says[int(state)] = [f"at least {shown(value)}", f"rank {int(rank)}"]

    def flow(self, words):
        state, choice, amount = words
        self.evidence.policy.setdefault(int(state), int(choice))
        self.evidence.flows[int(state), int(choice)] = shown(amount)

    def end(self):
        if not fits(self.evidence, self.model):
            raise ValueError("end")


def read_certificate(path, model):
    reader = Reader(model)
    reader.read(path)
    return reader.evidence


# ---- the picture


def quoted(text):
    return '"' + text.replace("\\", "\\\\").replace('"', '\\"').replace("\n", "\\n") + '"'


def attributes(**values):
    return "[" + ", ".join(f"{name}={quoted(str(value))}" for name, value in values.items() if value != "") + "]"


def state_look(s, evidence):
    """The outline and the filling of a state."""
    look = {}
    styles = []
    if evidence is None:
        return look
    if s in evidence.goals:
        look["peripheries"] = 2
    if s in evidence.infinite:
        styles.append("dashed")
    if s in evidence.cut or evidence.cuts and s not in evidence.kept and s not in evidence.goals:
        styles.append("dotted")
    if s in evidence.kept:
        styles.append("filled")
        look["fillcolor"] = "#f6d58a" if evidence.kept[s] == "kept" else "#d9a441"
    if styles:
        look["style"] = ",".join(styles)
    return look


def state_line(s, state, evidence):
    says = evidence.says.get(s, []) if evidence else []
    text = "\n".join([str(s), *filter(None, [state.name, " ".join(state.labels)]), *says])
    return f"  s{s} {attributes(label=text, **state_look(s, evidence))};"


def earned(choice, evidence, names):
    """What a choice earns, by the reward that the claim names, or by all."""
    if evidence is not None and evidence.reward is not None:
        value = choice.rewards[evidence.reward]
        return "" if value == 0 else f"earns {shown(value)}"
    pairs = [(name, value) for name, value in zip(names, choice.rewards) if value != 0]
    parts = (shown(value) if names == ["-"] else f"{name} {shown(value)}" for name, value in pairs)
    return f"earns {', '.join(parts)}" if pairs else ""


def edge_look(taken, evidence):
    """How an edge is drawn: bold on the policy, grey beside it, plain where there is no policy."""
    if evidence is None or not evidence.policy:
        return {}
    return {"style": "bold"} if taken else {"color": "grey60", "fontcolor": "grey60"}


def joined_row(row, shown_states):
    """The entries of a row by the names of their targets; those of states that aren't drawn are together."""
    entries = {}
    for target, chance in row:
        name = f"s{target}" if shown_states is None or target in shown_states else OTHERS
        entries[name] = entries.get(name, 0) + chance
    return entries


def choice_lines(s, c, choice, evidence, names, shown_states):
    taken = evidence is not None and evidence.policy.get(s) == c
    look = edge_look(taken, evidence)
    flow = [f"flow {evidence.flows[s, c]}"] if evidence and (s, c) in evidence.flows else []
    says = "\n".join(flow + [text for text in [earned(choice, evidence, names)] if text])
    point = f"s{s}c{c}"
    yield f"  {point} {attributes(shape='point', color=look.get('color', ''))};"
    yield f"  s{s} -> {point} {attributes(arrowhead='none', label=says, **look)};"
    for name, chance in joined_row(choice.row, shown_states).items():
        if chance != 0:
            yield f"  {point} -> {name} {attributes(label='' if chance == 1 else shown(chance), **look)};"


def kept_and_goals(model, evidence):
    """The states that a witness keeps, and the goals that they come to."""
    reached = {target for s in evidence.kept for choice in model.states[s].choices for target, chance in choice.row if chance}
    return evidence.kept.keys() | (evidence.goals & (reached | set(model.states_with("init"))))


def picture(model, evidence, shown_states=None):
    drawn_states = range(len(model.states)) if shown_states is None else sorted(shown_states)
    yield "digraph model {"
    yield "  rankdir=LR;"
    yield '  node [fontname="Helvetica", fontsize="11"];'
    yield '  edge [fontname="Helvetica", fontsize="10"];'
    if evidence is not None:
        yield f"  label={quoted(evidence.title)};"
    for s in drawn_states:
        yield state_line(s, model.states[s], evidence)
    if len(drawn_states) < len(model.states):
        yield f"  {OTHERS} {attributes(label=f'{len(model.states) - len(drawn_states)} others', style='dotted')};"
    for s in drawn_states:
        for c, choice in enumerate(model.states[s].choices):
            yield from choice_lines(s, c, choice, evidence, model.names, shown_states)
    yield "}"


def drawn(model_path, cert_path=None):
    model = drn.read(model_path, MOST_STATES)
    evidence = None if cert_path is None else read_certificate(cert_path, model)
    return model, evidence, "\n".join(picture(model, evidence)) + "\n"


def drawn_kept(model_path, cert_path):
    """The same of the states that a witness keeps alone."""
    model = drn.read(model_path)
    evidence = read_certificate(cert_path, model)
    if not evidence.cuts:
        raise Unclear(cert_path, 2, "only a witness keeps states")
    states = kept_and_goals(model, evidence)
    if len(states) > MOST_STATES:
        raise Unclear(model_path, 0, f"{len(states)} states are too many to draw, the most are {MOST_STATES}")
    return model, evidence, "\n".join(picture(model, evidence, states)) + "\n"


# ---- the test

TOKEN = re.compile(r'\s*(?:("(?:[^"\\]|\\.)*")|([A-Za-z0-9_.]+)|(->)|([{}\[\];=,]))')


def tokens_of(text):
    place = 0
    text = text.rstrip()
    while place < len(text):
        found = TOKEN.match(text, place)
        if not found:
            raise ValueError(text[place : place + 40])
        place = found.end()
        yield found[0].strip()


def statements_of(text):
    """The statements of a picture, read strictly: each a list of names, and its attributes. Everything else is an error."""
    tokens = list(tokens_of(text))
    if tokens[:3] != ["digraph", "model", "{"] or tokens[-1] != "}":
        raise ValueError("not one graph")
    place = 3
    while tokens[place] != "}":
        end = tokens.index(";", place)
        yield statement_of(tokens[place:end])
        place = end + 1
    if place != len(tokens) - 1:
        raise ValueError("behind the graph")


def statement_of(tokens):
    if len(tokens) == 3 and tokens[1] == "=":
        return [], {tokens[0]: tokens[2]}
    cut = tokens.index("[") if "[" in tokens else len(tokens)
    names, rest = tokens[:cut], tokens[cut:]
    if names[1::2] != ["->"] * (len(names) // 2) or not all(re.fullmatch("[a-z][a-z0-9]*", name) for name in names[::2]):
        raise ValueError(tokens)
    return names[::2], attributes_of(rest)


def attributes_of(tokens):
    if not tokens:
        return {}
    if tokens[-1] != "]" or any(comma != "," for comma in tokens[4:-1:4]):
        raise ValueError(tokens)
    inner = tokens[1:-1]
    pairs = [inner[at : at + 4] for at in range(0, len(inner), 4)]
    if any(len(pair) < 3 or pair[1] != "=" or not pair[2].startswith('"') for pair in pairs):
        raise ValueError(tokens)
    return {pair[0]: pair[2] for pair in pairs}


def wrong_in(model, evidence, text):
    """What a picture lacks: each state, each choice and each entry stands there once, and exactly the policy's edges are bold."""
    statements = list(statements_of(text))
    nodes = [names[0] for names, _ in statements if len(names) == 1 and names[0] not in ("node", "edge")]
    edges = [tuple(names) for names, _ in statements if len(names) == 2]
    places = [(s, c) for s, state in enumerate(model.states) for c in range(len(state.choices))]
    due_nodes = [f"s{s}" for s in range(len(model.states))] + [f"s{s}c{c}" for s, c in places]
    due_edges = [(f"s{s}", f"s{s}c{c}") for s, c in places]
    due_edges += [(f"s{s}c{c}", f"s{target}") for s, c in places for target, chance in model.states[s].choices[c].row if chance]
    bold = {tuple(names) for names, look in statements if len(names) == 2 and look.get("style") == '"bold"'}
    policy = {(f"s{s}", f"s{s}c{c}") for s, c in evidence.policy.items()} if evidence else set()
    found = sorted(nodes) == sorted(due_nodes) and sorted(edges) == sorted(due_edges)
    return "" if found and {edge for edge in bold if "c" not in edge[0]} == policy else "a state, a choice or an entry is missing or there twice"


def wrong_kept(model, evidence, text):
    """What the picture of the kept states lacks: they, their choices, and the entries of these stand there once."""
    statements, states = list(statements_of(text)), kept_and_goals(model, evidence)
    nodes = {names[0] for names, _ in statements if len(names) == 1 and names[0] not in ("node", "edge")}
    edges = [tuple(names) for names, _ in statements if len(names) == 2]
    due = [(f"s{s}", f"s{s}c{c}") for s in states for c in range(len(model.states[s].choices))]
    rows = [(f"s{s}c{c}", choice.row) for s in states for c, choice in enumerate(model.states[s].choices)]
    due += [(point, target) for point, row in rows for target in {f"s{t}" if t in states else OTHERS for t, chance in row if chance}]
    due_nodes = {f"s{s}" for s in states} | {point for _, point in due[: len(rows)]}
    found = sorted(edges) == sorted(due) and nodes - {OTHERS} == due_nodes and (OTHERS in nodes) == (len(states) < len(model.states))
    return "" if found else "a kept state, a choice or an entry is missing or there twice"


def dot_refuses(text):
    """What Graphviz says against a picture, where it is installed."""
    if shutil.which("dot") is None:
        return ""
    ended = subprocess.run(["dot", "-Tsvg"], input=text.encode(), stdout=subprocess.PIPE, stderr=subprocess.PIPE, check=False)
    return "" if ended.returncode == 0 and b"</svg>" in ended.stdout else f"dot: {ended.stderr.decode()[:200]}"


def begins_discounted(path):
    return path.is_file() and path.read_bytes().startswith(b"mdp-discount ")


def pairs_to_try():
    """The models and certificates of examples/ and of the rows, and whether `check` or `bounds-check` says yes to the pair. Those of `discount` aren't drawn."""
    yield from ((path, None, True) for path in sorted((TOP / "examples").glob("*.drn")))
    for line in (TOP / "README.md").read_text().split("\n"):
        words = shlex.split(line.partition("#")[0]) if line.startswith("bin/mdp check ") else []
        if words:
            yield TOP / words[2], TOP / words[4], line.partition("#")[2].strip() in ("yes", "")
    for row in sorted((TOP / "crates" / "mdp_app" / "data" / "rows").iterdir()):
        words = (row / "words").read_text().split("\n")
        if words[0] in ("check", "bounds-check") and len(words) == 5 and not begins_discounted(row / words[3]):
            yield row / words[1], row / words[3], (row / "stdout").read_text() == "yes\n"


def try_pair(model_path, cert_path, accepted):
    """What is wrong with the picture of a pair. A pair that is refused may have none, for a stated cause."""
    try:
        model, evidence, text = drawn(model_path, cert_path)
    except Unclear as unclear:
        return f"{unclear}" if accepted and "states are too many" not in str(unclear) else ""
    problem = wrong_in(model, evidence, text) or dot_refuses(text)
    if not problem and evidence and evidence.cuts:
        *_, text = drawn_kept(model_path, cert_path)
        problem = wrong_kept(model, evidence, text) or dot_refuses(text)
    return problem and f"{model_path} {cert_path}: {problem}"


def test():
    pairs = list(pairs_to_try())
    wrong = [problem for problem in (try_pair(*pair) for pair in pairs) if problem]
    print(*wrong, f"{len(pairs)} pictures, {len(wrong)} wrong", sep="\n")
    sys.exit(1 if wrong else 0)


def main(words):
    if words[:1] in (["--help"], ["-h"]):
        print(__doc__)
        return
    if words == ["--test"]:
        test()
    is_kept = words[:1] == ["--kept"]
    if len(words) not in (1, 2) and not is_kept or is_kept and len(words) != 3:
        sys.stderr.write("usage: tools/picture MODEL [CERT] > out.dot, tools/picture --kept MODEL CERT, or tools/picture --test\n")
        sys.exit(2)
    try:
        sys.stdout.write((drawn_kept(*words[1:]) if is_kept else drawn(*words))[2])
    except Unclear as unclear:
        sys.stderr.write(f"{unclear}\n")
        sys.exit(2)
