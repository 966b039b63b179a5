"""Which command of the program answers a property, what is run for it, and what the answer says. Nothing here is proved: of each number the evidence says
which program wrote it, and which one checked it."""

import hashlib
import math
import pathlib
import re
import shutil
import tempfile
from dataclasses import dataclass, field, replace
from fractions import Fraction

from . import certificates, drn, program
from .formulas import Labels, bits_of, states_of
from .properties import Label, Query, Range, Unsupported

MOST_DIGITS, MORE_DIGITS = 30, 3
FLIPPED = {"max": "min", "min": "max"}
TURNED = {">=": "<=", ">": "<", "<=": ">=", "<": ">"}
UNDECIDED = 5


class Refused(Exception):
    """The program, or this one, refuses a question: the status, the text, and what to do where that is known."""

    def __init__(self, status, text, more=""):
        super().__init__(text)
        self.status, self.text, self.more = status, text, more


@dataclass
class Options:
    """How the questions are asked."""

    rows: str = ""
    digits: int = 9
    relative: int = 0
    seconds: float = 60
    ways: tuple = ("exact", "bounds")
    keep: pathlib.Path = program.TOP / "out" / "ask"
    lists_states: bool = False


@dataclass
class Question:
    """One call of the program: the words behind its rule of rows, and what is made of its values."""

    model: pathlib.Path
    direction: str
    kind: str
    stay: str = ""
    goal: str = ""
    name: str = ""
    steps: object = None
    factor: object = None
    is_complement: bool = False

    def words(self):
        """The command of the exact answer, that of bounds, and the words behind the direction."""
        if self.kind == "until" and self.steps is None:
            return "solve", "bounds", ["until", self.stay, self.goal] if self.stay else ["reach", self.goal]
        if self.kind == "until":
            return "horizon", "bounds", ["until", self.stay or "-", self.goal, str(self.steps)]
        if self.kind == "total":
            return "total", "bounds", ["total", self.name, str(self.steps)]
        if self.kind == "discount":
            return "discount", "bounds", ["discount", self.name, str(self.factor)]
        return "solve", "bounds", [self.kind, self.name, self.goal][: 3 if self.goal else 2]

    def claims(self):
        """The second lines of texts that answer it. A total of rewards within a deadline is spelled in two ways."""
        kind, *names = self.words()[2]
        number = [names.pop()] if self.steps is not None or self.kind == "discount" else []
        kinds = ["total", "reward"] if kind == "total" else [kind]
        return [" ".join(["claim", self.direction, each, *(f'"{name}"' for name in names), *number]) for each in kinds]


@dataclass
class Evidence:
    """What stands behind a number: the words of the call, its file, the two programs, and the verdict."""

    command: str
    file: pathlib.Path
    model: pathlib.Path
    rows: str
    solver: object
    checker: object = None
    verdict: str = ""
    is_bounds: bool = False


@dataclass
class Answer:
    """The values of a question at each state; where `is_known` is given, at these states alone."""

    question: Question
    lower: list
    upper: list
    choices: list
    evidence: Evidence
    digits: int = 0
    is_known: object = None

    @property
    def is_exact(self):
        return self.lower is self.upper or self.lower == self.upper


@dataclass
class Result:
    """What a property comes to."""

    asked: object
    low: object = None
    high: object = None
    truth: object = None
    count: object = None
    least: object = None
    answer: object = None
    curve: list = field(default_factory=list)
    evidence: list = field(default_factory=list)
    notes: list = field(default_factory=list)
    is_range: bool = False
    is_bound: bool = False


def decided(low, high, relation, threshold):
    """Whether a value between two numbers meets a bound; nothing where these don't decide it."""
    if relation in (">=", ">"):
        return True if (low >= threshold if relation == ">=" else low > threshold) else (False if (high < threshold if relation == ">=" else high <= threshold) else None)
    turned = decided(-high, -low, TURNED[relation], -threshold)
    return turned


def gap(low, high):
    return 0 if low == high else high - low


class Session:
    """A model with what is asked of it. `evidence` and `notes` are those of the property that is being answered."""

    def __init__(self, path, model, options, solver, checker):
        self.path, self.model, self.options, self.solver, self.checker = pathlib.Path(path), model, options, solver, checker
        options.keep.mkdir(parents=True, exist_ok=True)
        self.work = pathlib.Path(tempfile.mkdtemp(prefix="at-work-", dir=options.keep))
        self.labels = Labels(model, self.nested)
        self.size, self.rows = len(model.states), options.rows or "exact"
        self.is_chain = all(len(state.choices) == 1 for state in model.states)
        self.starts = states_of(self.labels.bits.get("init", 0))
        self.evidence, self.notes, self.copies = [], [], {}

    def close(self):
        """Takes away what isn't kept."""
        shutil.rmtree(self.work, ignore_errors=True)

    # ---- copies of the model

    def file(self, key, suffix):
        """A file for something that belongs to a key, in a folder of this run alone; `kept` moves it to where it stays."""
        digest = hashlib.sha256(repr((str(self.path.resolve()), key)).encode("utf-8", "surrogateescape")).hexdigest()[:8]
        return self.work / f"{self.path.stem}-{digest}{suffix}"

    def kept(self, file):
        """Moves a whole file to where it is kept: another run that keeps one of the same name meets no half of one."""
        return pathlib.Path(shutil.move(file, self.options.keep / file.name))

    def note(self, text):
        if text not in self.notes:
            self.notes.append(text)

    def label_of(self, formula, bits, source, added):
        """The label of a formula; where it is none, one that is put into `added`."""
        if isinstance(formula, Label) and formula.name in self.labels.bits and formula.name != "-":
            return formula.name
        name = " ".join(source[formula.start : formula.end].replace('"', "").split())[:100].encode()[:200].decode("utf-8", "ignore") or "asked"
        while name in self.labels.bits or name == "-" or added.get(name, bits) != bits:
            name += "'"
        added[name] = bits
        return name

    def copied(self, added, reward):
        """The model, or where that is needed a copy with labels more and another reward."""
        if not added and reward is None:
            return self.path
        key = repr((sorted(added.items()), reward))
        if key not in self.copies:
            target = self.file(key, ".drn")
            drn.copy(self.path, target, {name: set(states_of(bits)) for name, bits in added.items()}, reward and (reward[0], set(states_of(reward[1]))))
            self.copies[key] = self.kept(target)
        target = self.copies[key]
        labels = [f'the label "{name}"' for name in added] + ([f'the reward "{reward[0]}", 1 at each state of it'] if reward else [])
        self.note(f"asked of a copy of the model, {shown_path(target)}, with {' and '.join(labels)}")
        return target

    # ---- questions

    def direction_of(self, query):
        if query.direction or query.relation:
            return query.direction or ("min" if query.relation in (">=", ">") else "max")
        if not self.is_chain:
            name = {"LRA": "LRA"}.get(query.operator, query.operator)
            raise Unsupported(f"this model is a decision process: ask {name}max=? or {name}min=?", query.start, query.start + len(name))
        return "max"

    def reward_of(self, query):
        """The reward name that a query asks for, and the states where it is 1 in a copy of the model, where that is needed."""
        names, given = self.model.names, query.reward
        if query.path.kind == "mean" and query.path.goal is not None:
            given = query.path.goal
        elif given is None and len(names) == 1:
            return names[0], None
        elif given is None:
            raise Unsupported(f"the model has the reward names {', '.join(names)}: write R{{\"{names[0]}\"}}", query.start, query.start + 1)
        elif isinstance(given, Label) and given.name in names:
            return given.name, None
        elif isinstance(given, Label) and given.name.isdigit() and given.name not in self.labels.bits and 1 <= int(given.name) <= len(names):
            return names[int(given.name) - 1], None
        elif isinstance(given, Label) and given.name not in self.labels.bits:
            raise Unsupported(f'neither a reward nor a label has the name "{given.name[:100]}". The reward names: {", ".join(names)}', given.start, given.end)
        return self.indicator(given)

    def indicator(self, formula):
        bits = self.labels.states(formula)
        name = re.sub(r'[\s"]+', "", self.source[formula.start : formula.end])[:100] or "share"
        return name, bits

    def question(self, query, source):
        """The call that answers a query; nothing where no state is a goal."""
        self.source = source
        path, direction = query.path, self.direction_of(query)
        name, bits = self.reward_of(query) if query.operator != "P" else ("", None)
        added, stay, goal = {}, "", ""
        if path.kind in ("until", "reward"):
            goals = self.labels.states(path.goal)
            stays = None if path.stay is None else self.labels.states(path.stay)
            if not goals:
                return None
            goal = self.label_of(path.goal, goals, source, added)
            if stays is not None:
                stay = self.label_of(path.stay, stays, source, added) if stays else goal
        model = self.copied(added, None if bits is None else (name, bits))
        steps = path.steps if isinstance(path.steps, int) else None
        direction = FLIPPED[direction] if path.is_complement else direction
        return Question(model, direction, path.kind, stay, goal, name, steps, path.factor, path.is_complement)

    # ---- runs

    def call(self, command, question, objective, output, seconds=None):
        """Runs the solver; where its rows don't add to 1, once more with the rule `scaled`."""
        while True:
            words = [command, question.model, self.rows, question.direction, *objective]
            ended = program.run(self.solver, words, output, seconds, f"{command} {' '.join(objective)}")
            if not (self.rows == "exact" and not self.options.rows and re.fullmatch(r"model line \d+ row-sum", ended.first)):
                return ended
            self.rows = "scaled"

    def refuse(self, ended):
        """Ends where the program refuses."""
        if ended.status is None or ended.status < 0 or ended.status > 11:
            raise Refused(70, f"{self.solver.name} ended with {ended.status}", ended.errors[-2000:])
        raise Refused(ended.status, ended.first[:500], ended.errors[-2000:])

    def exact(self, question):
        """The exact answer; nothing where it is too wide, or takes too long."""
        command, _, objective = question.words()
        objective = objective[1:] if command in ("horizon", "discount", "total") else objective
        output = self.file((command, objective, question.direction, str(question.model)), ".cert" if question.steps is None else ".table")
        ended = self.call(command, question, objective, output, self.options.seconds)
        so_bounds = ", so bounds were asked for" if "bounds" in self.options.ways else ""
        if ended.status == 0:
            return self.answer(question, command, output)
        if ended.status is None:
            self.note(f"{command} took longer than {self.options.seconds:g} seconds{so_bounds}")
        elif ended.first.startswith("too-wide"):
            self.note(f"{command} is too wide: its fractions need more than 127 bits{so_bounds}")
        elif ended.first != "query steps":
            self.refuse(ended)
        return None

    def bounds(self, question, digits):
        """Bounds of so many digits; of a deadline that is too long for a table those of the initial state alone."""
        _, command, objective = question.words()
        output = self.file((command, objective, question.direction, str(question.model)), ".cert" if question.steps is None else ".table")
        ended = self.call(command, question, [*objective, str(digits)], output)
        if ended.first == "query steps":
            return self.last_of_curve(question, digits)
        if ended.status != 0:
            self.refuse(ended)
        return self.answer(question, f"{command}, {digits} digits", output, digits)

    def last_of_curve(self, question, digits):
        pairs, evidence = self.curve(question, question.steps, digits)
        low, high = pairs[-1]
        unknown = [-math.inf] * self.size, [math.inf] * self.size
        start = self.starts[0]
        unknown[0][start], unknown[1][start] = low, high
        return Answer(replace(question, is_complement=False), *unknown, [], evidence, digits, start)

    def curve(self, question, steps, digits):
        """Lower and upper value at the initial state for each number of steps up to one."""
        if len(self.starts) != 1:
            raise Refused(4, "query init", "a curve is that of the one initial state")
        objective = [*replace(question, steps=steps).words()[2], str(digits)]
        output = self.file(("curve", objective, question.direction, str(question.model)), ".curve")
        ended = self.call("curve", question, objective, output)
        if ended.status != 0:
            self.refuse(ended)
        text = certificates.read(output)
        pairs, due = text.curve, [claim.rpartition(" ")[0] for claim in replace(question, steps=steps).claims()]
        if text.claim not in due or len(pairs) != steps + 1 or text.start != self.starts[0]:
            raise Refused(70, f"{self.solver.name} answers another question: {text.claim[:200]}", f"asked was {due[0][:200]} with {steps} steps")
        if question.is_complement:
            pairs = [(1 - high, 1 - low) for low, high in pairs]
        return pairs, self.vouched(Evidence(f"curve, {digits} digits", self.kept(output), question.model, self.rows, self.solver, is_bounds=True))

    def vouched(self, evidence):
        self.evidence.append(evidence)
        return evidence

    def answer(self, question, command, output, digits=0):
        """What a text says, once it is checked where it is a certificate."""
        text = certificates.read(output)
        start = self.starts[0] if len(self.starts) == 1 else None
        if text.claim not in question.claims() or len(text.lower) != self.size or text.start != start:
            raise Refused(70, f"{self.solver.name} answers another question: {text.claim[:200]}", f"asked was {question.claims()[0][:200]}")
        evidence = Evidence(command, output, question.model, self.rows, self.solver, is_bounds=text.is_bounds)
        if question.steps is None:
            self.check(evidence)
        evidence.file = self.kept(output)
        lower, upper = text.lower, text.upper
        if question.is_complement:
            lower, upper = [1 - value for value in upper], [1 - value for value in lower]
        return Answer(question, lower, upper if text.is_bounds else lower, text.choices, self.vouched(evidence), digits)

    def check(self, evidence):
        """Has the certificate checked; another word than yes ends all."""
        output = pathlib.Path(f"{evidence.file}.verdict")
        ended = program.run(self.checker, [evidence.model, evidence.rows, evidence.file], output, None, f"{self.checker.name} {evidence.file.name}")
        output.unlink()
        evidence.checker, evidence.verdict = self.checker, ended.first
        if ended.status != 0 or ended.first != "yes":
            status = ended.status if ended.status and 0 < ended.status <= 11 else 70
            raise Refused(status, f"{self.checker.name} doesn't accept the certificate: {ended.first[:200]}", f"{shown_path(self.kept(evidence.file))} has it; nothing is claimed")

    # ---- values

    def values(self, query, source, is_enough):
        """The answer to a query, exact or with bounds that are enough, as far as digits go."""
        if not isinstance(query.path.steps, (int, type(None))):
            raise Unsupported("an experiment and <=? are asked of the initial state alone, without a filter", query.path.start, query.path.end)
        question = self.question(query, source)
        if question is None:
            return self.without_goal(query)
        found = self.exact(question) if "exact" in self.options.ways else None
        if found is not None or "bounds" not in self.options.ways:
            return found or self.nothing()
        digits, before = max(self.options.digits, min(self.options.relative, MOST_DIGITS)), None
        while True:
            found = self.bounds(question, digits)
            apart = sum((gap(low, high) for low, high in zip(found.lower, found.upper) if gap(low, high) < math.inf), Fraction(0))
            if is_enough(found) or digits == MOST_DIGITS or apart == before:
                return found
            digits, before = min(MOST_DIGITS, digits + MORE_DIGITS), apart
            self.evidence.pop()

    def nothing(self):
        raise Refused(5, "there is no exact answer", "; ".join(self.notes))

    def without_goal(self, query):
        """The answer where no state is a goal: nothing has to be computed."""
        value = (Fraction(int(query.path.is_complement))) if query.operator == "P" else math.inf
        self.note("no state of the model is one that has to be reached, so nothing was computed")
        values = [value] * self.size
        return Answer(None, values, values, [], None)

    def nested(self, query):
        """The states at which an operator with a bound holds, inside a formula."""
        if not isinstance(query.path.steps, (int, type(None))) or query.where is not None:
            raise Unsupported("inside a formula a deadline is a number, and there is no filter", query.start, query.end)
        found = self.values(query, self.source, lambda answer: None not in truths(answer, query))
        holds = truths(found, query)
        if None in holds:
            s = holds.index(None)
            raise Refused(UNDECIDED, f"at state {s} it can't be decided whether {self.source[query.start:query.end][:200]}",
                          f"the value there is from {found.lower[s]} to {found.upper[s]}")
        return bits_of([s for s, truth in enumerate(holds) if truth], self.size)


def truths(answer, query):
    """For each state whether its value meets the bound of a query; nothing where that isn't known."""
    return [decided(low, high, query.relation, query.threshold) for low, high in zip(answer.lower, answer.upper)]


def shown_path(path):
    """A path as a user writes it: from here where it is below here."""
    try:
        return str(pathlib.Path(path).resolve().relative_to(pathlib.Path.cwd()))
    except ValueError:
        return str(path)


# ---- properties


def near_enough(options, states):
    """Whether lower and upper are as near at these states as is asked for."""

    def is_enough(answer):
        pairs = [(answer.lower[s], answer.upper[s]) for s in states]
        if options.relative:
            return all(low == high or 0 < low and gap(low, high) * 10**options.relative <= low for low, high in pairs)
        return all(certificates.width(low, high) * 10**options.digits <= 1 for low, high in pairs if gap(low, high) < math.inf)

    return is_enough


def decided_at(query, states):
    return lambda answer: all(decided(answer.lower[s], answer.upper[s], query.relation, query.threshold) is not None for s in states)


def picked(answer, states, pick):
    """The least or the greatest value of some states, by its lower and upper one."""
    best = min if pick == "min" else max
    return best(answer.lower[s] for s in states), best(answer.upper[s] for s in states)


def all_true(found):
    """Whether all are true, where nothing stands for what isn't known."""
    return False if False in found else None if None in found else True


def of_query(session, query, result, states=None, pick=""):
    """The value, or the truth, of a query at the initial state, or at other states."""
    source = result.asked.source
    states = session.starts if states is None else states
    if not states:
        raise Refused(4, "query init", 'no state has the label "init": ask filter(min, .., "label"), or give a state that label')
    is_enough = decided_at(query, states) if query.relation and not pick else near_enough(session.options, states)
    answer = session.values(query, source, is_enough)
    result.answer = answer
    result.low, result.high = picked(answer, states, "min")[0], picked(answer, states, "max")[1]
    if pick:
        result.low, result.high = picked(answer, states, pick)
    elif len(states) > 1 and result.low != result.high:
        result.is_range = answer.is_exact
        session.note(f"over {len(states)} states, from the least value to the greatest")
    if query.relation and not pick:
        result.truth = all_true([decided(answer.lower[s], answer.upper[s], query.relation, query.threshold) for s in states])
    elif query.relation:
        result.truth = decided(result.low, result.high, query.relation, query.threshold)
    result.is_bound = bool(query.relation)
    if not answer.is_exact and not (query.relation and result.truth is not None):
        digits_note(session, answer, is_enough(answer))


def digits_note(session, answer, is_enough):
    """Says whether more digits would bring lower and upper nearer."""
    if session.options.relative and not is_enough:
        session.note(f"{answer.digits} digits don't make {session.options.relative} of the value certain; fractions of 127 bits end at about 38 digits, and 30 are the most that can be asked")
    elif not is_enough:
        session.note(f"{answer.digits} digits brought lower and upper no nearer than that")
    elif answer.digits < MOST_DIGITS:
        session.note(f"--digits {min(answer.digits + MORE_DIGITS, MOST_DIGITS)} brings lower and upper nearer")


def of_experiment(session, query, result):
    """The table of an experiment: lower and upper for each number of steps."""
    steps, question = query.path.steps, session.question(query, result.asked.source)
    if question is None:
        value = Fraction(int(query.path.is_complement))
        result.curve = [(k, value, value) for k in steps.numbers()]
        return
    pairs, _ = session.curve(question, steps.last, max(session.options.digits, session.options.relative))
    result.curve = [(k, *pairs[k]) for k in steps.numbers()]
    if query.relation:
        session.note("an experiment shows the values; of a bound ask <=?")


def of_least(session, query, result):
    """The least number of steps with which a bound is met."""
    result.is_bound = True
    if not query.relation:
        raise Unsupported("<=? asks for the least number of steps with which a bound is met: write a bound, as Pmax>=0.99", query.start, query.path.end)
    question, digits, steps = session.question(query, result.asked.source), session.options.digits, 64
    if question is None or is_never(session, query, result.asked.source):
        result.truth, result.least = False, math.inf
        return
    before = len(session.evidence)
    while steps <= 1 << 17:
        del session.evidence[before:]
        pairs, _ = session.curve(question, steps, digits)
        found = settled(session, question, query, [decided(low, high, query.relation, query.threshold) for low, high in pairs])
        known = found.index(True) if True in found else len(found)
        if None in found[:known] and digits < MOST_DIGITS:
            digits = min(MOST_DIGITS, digits + MORE_DIGITS)
        elif None in found[:known]:
            session.note(f"at {found.index(None)} steps {MOST_DIGITS} digits don't decide it")
            return
        elif known < len(found):
            result.truth, result.least, (result.low, result.high) = True, known, pairs[known]
            return
        else:
            steps *= 8
    session.note(f"with {steps // 8} steps the bound isn't met yet")


def settled(session, question, query, found, most=8):
    """The same, where the first few numbers of steps that bounds don't decide are decided by their exact values, if these aren't too wide."""
    known = found.index(True) if True in found else len(found)
    if None not in found[:known] or not most:
        return found
    k = found.index(None)
    answer = session.exact(replace(question, steps=k))
    if answer is None:
        return found
    value = answer.lower[session.starts[0]]
    truth = decided(value, value, query.relation, query.threshold)
    return [*found[:k], truth, *found[k + 1 :]] if truth else settled(session, question, query, [*found[:k], False, *found[k + 1 :]], most - 1)


def is_never(session, query, source):
    """Whether the value without a deadline shows that the bound is never met; only a probability has one here."""
    rises = query.relation in (">=", ">")
    if query.operator != "P" or rises == query.path.is_complement:
        return False
    whole = replace(query, path=replace(query.path, steps=None))
    answer = session.values(whole, source, decided_at(query, session.starts))
    return all(decided(answer.lower[s], answer.upper[s], query.relation, query.threshold) is False for s in session.starts)


def of_filter(session, tree, result):
    """A filter over the states of a formula."""
    session.source = result.asked.source
    bits = session.labels.all if tree.where is None else session.labels.states(tree.where)
    states, inner = states_of(bits), tree.inner
    if not states:
        raise Unsupported("no state of the model is one of these", tree.where.start, tree.where.end)
    if isinstance(inner, Query) and not inner.relation:
        if tree.pick not in ("min", "max", "state") or tree.pick == "state" and len(states) > 1:
            raise Unsupported(f"filter({tree.pick}, ..) of values isn't taken: of values min and max are, and state of one state", tree.start, tree.end)
        return of_query(session, inner, result, states, "min" if tree.pick == "state" else tree.pick)
    if tree.pick in ("min", "max"):
        raise Unsupported("the least and the greatest are those of a value, as filter(min, Pmax=? [ .. ], ..)", tree.start, tree.end)
    if not isinstance(inner, Query):
        holds = bits & session.labels.states(inner)
        truth = [bool(holds >> s & 1) for s in states]
    else:
        answer = session.values(inner, result.asked.source, decided_at(inner, states))
        result.answer, of_all = answer, truths(answer, inner)
        truth = [of_all[s] for s in states]
    return count_truth(session, tree.pick, truth, states, result)


def count_truth(session, pick, truth, states, result):
    """What a filter says of whether something holds at states, where nothing stands for what isn't known."""
    result.is_bound = pick != "count"
    if pick == "count":
        result.count = (truth.count(True), truth.count(True) + truth.count(None))
    elif pick == "exists":
        result.truth = True if True in truth else None if None in truth else False
    else:
        result.truth = all_true(truth)
    if None in truth:
        session.note(f"at state {states[truth.index(None)]} it isn't decided")


def of_property(session, asked):
    """What a property comes to."""
    session.evidence, session.notes, session.source = [], [], asked.source
    result, tree = Result(asked), asked.tree
    is_alone = isinstance(tree, Query) and tree.where is None
    if is_alone and isinstance(tree.path.steps, Range):
        of_experiment(session, tree, result)
    elif is_alone and tree.path.steps == "?":
        of_least(session, tree, result)
    elif isinstance(tree, Query):
        where = None if tree.where is None else states_of(session.labels.states(tree.where))
        of_query(session, tree, result, where, tree.pick)
    elif hasattr(tree, "pick"):
        of_filter(session, tree, result)
    else:
        holds = session.labels.states(tree)
        result.is_bound, result.truth = True, all(holds >> s & 1 for s in session.starts)
    if session.rows != (session.options.rows or "exact"):
        session.note("the rows don't add to 1 exactly: they are read by the rule `scaled`, each divided by its sum")
    result.evidence, result.notes = session.evidence, session.notes
    return result
