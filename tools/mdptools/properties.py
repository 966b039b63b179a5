"""Properties as PRISM writes them: their words, their syntax trees, and where in the text each part stands. docs/ask.md has the grammar. It was
written by PRISM's manual from memory."""

import re
from dataclasses import dataclass
from fractions import Fraction

MOST_DEPTH = 50
MOST_STEPS = 9_999_999
TOKENS = re.compile(
    r'(?P<blank>\s+|//[^\n]*)|(?P<name>"[^"\n]*")|(?P<number>\d+(?:\.\d+)?(?:[eE][+-]?\d+)?)|(?P<word>[A-Za-z_][A-Za-z0-9_]*)'
    r"|(?P<sign><=>|=>|<=|>=|!=|=\?|[()\[\]{}!&|<>=?,:;/+*.-])"
)
RELATIONS = (">=", ">", "<=", "<")
PICKS = ("min", "max", "forall", "exists", "count", "state")


class Unsupported(Exception):
    """A property that can't be taken: why, and where in the text."""

    def __init__(self, why, start, end=None):
        super().__init__(why)
        self.why, self.start, self.end = why, start, end


@dataclass
class Token:
    kind: str
    text: str
    start: int
    end: int


@dataclass
class Truth:
    holds: bool
    start: int
    end: int


@dataclass
class Label:
    name: str
    start: int
    end: int


@dataclass
class Not:
    inner: object
    start: int
    end: int


@dataclass
class Many:
    """Formulas between the same sign, `&` or `|`."""

    sign: str
    parts: list
    start: int
    end: int


@dataclass
class Range:
    """The whole numbers of an experiment."""

    name: str
    first: int
    last: int
    step: int

    def numbers(self):
        return range(self.first, self.last + 1, self.step)


@dataclass
class Path:
    """What a value is asked of. `kind` is until, reward, total, mean or discount; `steps` is a number, a Range, or `?`, where there is a deadline."""

    kind: str
    start: int
    end: int = 0
    stay: object = None
    goal: object = None
    is_complement: bool = False
    steps: object = None
    factor: object = None


@dataclass
class Query:
    """An operator `P`, `R` or `LRA`; `direction` is max, min or nothing; without `relation` the value is asked. `where` and `pick` are those of
    PRISM's `{"label"}{min}`."""

    operator: str
    direction: str
    relation: str
    threshold: object
    reward: object
    path: Path
    start: int
    end: int
    where: object = None
    pick: str = ""


@dataclass
class Filter:
    """`filter(pick, of, where)`: over the states of a formula, or over all."""

    pick: str
    inner: object
    where: object
    start: int
    end: int


@dataclass
class Property:
    """A property with its name, where it has one, and the text in which it stands."""

    name: str
    text: str
    tree: object
    source: str

    def words(self):
        return " ".join(self.text.split())


def tokens_of(text):
    """The tokens of a text, without blanks and comments, and one for its end."""
    found, place = [], 0
    while place < len(text):
        match = TOKENS.match(text, place)
        if not match:
            raise Unsupported('a quote isn\'t closed: write "label"' if text[place] == '"' else "no property has this sign", place)
        if match.lastgroup != "blank":
            found.append(Token(match.lastgroup, match[0], place, match.end()))
        place = match.end()
    return [*found, Token("end", "", len(text), len(text))]


class Parser:
    """Reads tokens from left to right. `constants` has the number, or the Range, of each name."""

    def __init__(self, text, constants=None, labels=None):
        self.text, self.tokens, self.at, self.depth = text, tokens_of(text), 0, 0
        self.constants = dict(constants or {})
        self.labels = dict(labels or {})

    @property
    def now(self):
        return self.tokens[self.at]

    def next(self):
        token = self.now
        self.at += token.kind != "end"
        return token

    def sees(self, *texts):
        return self.now.text in texts and self.now.kind in ("sign", "word")

    def takes(self, *texts):
        return self.next().text if self.sees(*texts) else ""

    def need(self, text, why=""):
        if not self.sees(text):
            self.refuse(why or f"{text} is due here")
        return self.next()

    def refuse(self, why, token=None):
        token = token or self.now
        raise Unsupported(why, token.start, max(token.end, token.start + 1))

    def inner(self, read):
        """What `read` reads, one level deeper."""
        self.depth += 1
        if self.depth > MOST_DEPTH:
            self.refuse(f"the formula is more than {MOST_DEPTH} levels deep: give a part of it a label in the model")
        found = read()
        self.depth -= 1
        return found

    # ---- numbers

    def number(self):
        """Sums and differences of products of numbers and constants; or a Range, alone."""
        value = self.product()
        while self.sees("+", "-"):
            sign, more = self.next(), self.product()
            if isinstance(value, Range) or isinstance(more, Range):
                self.refuse("an experiment's name stands alone, not in a sum", sign)
            value = value + more if sign.text == "+" else value - more
        return value

    def product(self):
        value = self.factor()
        while self.sees("*", "/"):
            sign, more = self.next(), self.factor()
            if isinstance(value, Range) or isinstance(more, Range) or sign.text == "/" and not more:
                self.refuse("a number is due on both sides, and behind / another one than 0", sign)
            value = value * more if sign.text == "*" else value / more
        return value

    def factor(self):
        token = self.next()
        if token.kind == "number":
            if len(token.text) > 60 or abs(int((re.search("[eE](.*)", token.text) or [0, 0])[1])) > 60:
                self.refuse("this number is too long", token)
            return Fraction(token.text)
        if token.text == "(":
            value = self.inner(self.number)
            self.need(")")
            return value
        if token.kind == "word" and token.text in self.constants:
            value = self.constants[token.text]
            return self.range_of(token) if value is None else value
        if token.kind == "word":
            return self.range_of(token)
        return self.refuse("a number is due here", token)

    def range_of(self, token):
        """`k=1:100` or `k=1:5:100`: the numbers of an experiment."""
        if not self.sees("="):
            self.refuse(f"the constant {token.text} has no value: give it one by --const {token.text}=5, or several by --const {token.text}=1:100", token)
        self.next()
        numbers = [self.whole("a whole number is due here")]
        while self.takes(":"):
            numbers.append(self.whole("a whole number is due here"))
        return range_by(token.text, numbers, lambda why: self.refuse(why, token))

    def whole(self, why):
        token = self.next()
        if token.kind != "number" or not token.text.isdigit() or int(token.text) > MOST_STEPS:
            self.refuse(why if not token.text.isdigit() else f"at most {MOST_STEPS} steps can be asked", token)
        return int(token.text)

    # ---- formulas of states

    def formula(self):
        """A formula of states: `<=>` binds least, then `=>`, `|`, `&` and `!`."""
        left = self.implication()
        while self.sees("<=>"):
            self.next()
            right = self.implication()
            ends = left.start, right.end
            both = [Many("|", [Not(left, *ends), right], *ends), Many("|", [Not(right, *ends), left], *ends)]
            left = Many("&", both, *ends)
        return left

    def implication(self):
        left = self.chain("|", lambda: self.chain("&", self.plain))
        if not self.sees("=>"):
            return left
        self.next()
        right = self.inner(self.implication)
        return Many("|", [Not(left, left.start, left.end), right], left.start, right.end)

    def chain(self, sign, read):
        parts = [read()]
        while self.takes(sign):
            parts.append(read())
        return parts[0] if len(parts) == 1 else Many(sign, parts, parts[0].start, parts[-1].end)

    def plain(self):
        token = self.next()
        if token.text == "!" and token.kind == "sign":
            inner = self.inner(self.plain)
            return Not(inner, token.start, inner.end)
        if token.text == "(" and token.kind == "sign":
            found = self.inner(self.formula)
            self.need(")", "here a bracket ) is due, or one of & | => inside it")
            return found
        if token.kind == "name":
            return self.labels.get(token.text[1:-1]) or Label(token.text[1:-1], token.start, token.end)
        if token.kind == "word":
            return self.word(token)
        return self.refuse('a formula of states is due here: a label in quotes as "goal", true, false, !, a bracket or P>=0.5 [ .. ]', token)

    def word(self, token):
        """A word where a formula of states is due."""
        if token.text in ("true", "false"):
            return Truth(token.text == "true", token.start, token.end)
        if token.text in ("F", "G", "X", "U", "W", "R") and not (token.text == "R" and self.sees("{", "=?", *RELATIONS)):
            self.refuse(f"{token.text} can't stand inside a formula: one F, G or U at the head of the brackets is what is taken; "
                        f'the nearest is a bound on a probability, as P>=1 [ F "goal" ]', token)
        if token.text in ("A", "E"):
            self.refuse(f"{token.text} isn't taken: the nearest is {'P>=1' if token.text == 'A' else 'P>0'} [ .. ]", token)
        if token.text == "filter":
            self.refuse("a filter stands at the head of a property alone", token)
        if token.text == "multi":
            self.refuse("several objectives at once aren't taken: the nearest is one property for each objective", token)
        if re.fullmatch("P(max|min)?|R(max|min)?|S(max|min)?|LRA(max|min)?", token.text):
            self.at -= 1
            found = self.inner(self.query)
            if not found.relation:
                self.refuse("a value can't stand inside a formula: write a bound, as P>=0.5 [ .. ]", token)
            return found
        if token.text in self.constants or self.sees("=", "<", ">", "<=", ">=", "!="):
            self.refuse(f"a model in DRN has no variables: give the states a label in the model, as \"{token.text}\"", token)
        return self.refuse(f'a label stands in quotes: "{token.text}"', token)

    # ---- operators

    def query(self):
        head = self.next()
        found = re.fullmatch("(P|R|S|LRA)(max|min)?", head.text)
        if not found:
            self.refuse('a property begins with P, R, S, LRA or filter, as Pmax=? [ F "goal" ]', head)
        operator, direction = {"S": "LRA"}.get(found[1], found[1]), found[2] or ""
        reward = self.reward() if operator == "R" and self.sees("{") else None
        direction = direction or self.takes("max", "min")
        relation, threshold = self.relation()
        self.need("[", f"here [ is due, as in P=? [ F \"goal\" ]")
        path = {"P": self.way, "R": self.earned, "LRA": self.share}[operator]()
        where, pick = self.old_filter()
        end = self.need("]", "here ] is due: one F, G or U at the head of the brackets is what is taken").end
        late, late_pick = self.old_filter()
        return Query(operator, direction, relation, threshold, reward, path, head.start, end, where or late, pick or late_pick)

    def reward(self):
        """`{"name"}`, or a formula of states in these brackets."""
        self.need("{")
        found = Label(self.next().text, self.now.start, self.now.end) if self.now.kind == "number" else self.formula()
        self.need("}")
        return found

    def relation(self):
        if self.takes("=?"):
            return "", None
        if self.sees("=") and self.tokens[self.at + 1].text == "?":
            self.at += 2
            return "", None
        relation = self.takes(*RELATIONS)
        if not relation:
            self.refuse("=? is due here, or a bound as >=0.99")
        token, threshold = self.now, self.number()
        if isinstance(threshold, Range):
            self.refuse("a bound is one number", token)
        return relation, threshold

    def old_filter(self):
        if not self.sees("{"):
            return None, ""
        self.next()
        where = self.formula()
        self.need("}")
        self.need("{", "behind the states {min} or {max} is due")
        pick = self.takes("min", "max") or self.refuse("min or max is due here")
        self.need("}")
        return where, pick

    def deadline(self):
        """`<=k` or `<k` behind F, G, U and C."""
        token, sign = self.now, self.takes("<=", "<")
        if not sign:
            if self.sees(">=", ">", "=", "["):
                self.refuse("of deadlines <=k and <k are taken")
            if self.sees("{"):
                self.refuse("a deadline counts steps, as F<=10: the nearest is that")
            return None
        if self.takes("?"):
            return "?" if sign == "<=" else self.refuse("<=? asks for the least number of steps", token)
        token, steps = self.now, self.number()
        if isinstance(steps, Range):
            return steps if sign == "<=" else self.refuse("an experiment's deadline is <=k", token)
        steps -= sign == "<"
        if steps != int(steps) or not 0 <= steps <= MOST_STEPS:
            self.refuse(f"a deadline is a whole number from 0 to {MOST_STEPS}", token)
        return int(steps)

    def way(self):
        """What stands in the brackets of P."""
        token = self.now
        if self.sees("X"):
            self.refuse('X isn\'t taken: the nearest is F<=1 "goal", which counts the first state too')
        if self.sees("F", "G"):
            self.next()
            steps = self.deadline()
            goal = self.formula()
            self.no_more(token)
            if token.text == "G":
                return Path("until", token.start, goal.end, None, Not(goal, goal.start, goal.end), True, steps)
            return Path("until", token.start, goal.end, None, goal, False, steps)
        stay = self.formula()
        if self.sees("W", "R"):
            self.refuse(f"{self.now.text} isn't taken: write it by its complement, as \"a\" W \"b\": 1 - Pmin=? [ !\"b\" U (!\"a\" & !\"b\") ] for the greatest probability")
        self.need("U", "here U is due: F, G or U has to stand in the brackets of P")
        steps = self.deadline()
        goal = self.formula()
        self.no_more(token)
        return Path("until", token.start, goal.end, None if isinstance(stay, Truth) and stay.holds else stay, goal, False, steps)

    def no_more(self, token):
        if self.sees("U", "W", "R"):
            self.refuse(f"behind {token.text} one formula of states is taken, and no {self.now.text}: temporal logic beyond one F, G or U isn't")

    def earned(self):
        """What stands in the brackets of R."""
        token = self.next()
        if token.text == "F":
            if self.sees("<=", "<"):
                self.refuse("a reward until a goal has no deadline here: the nearest is C<=k")
            goal = self.formula()
            return Path("reward", token.start, goal.end, None, goal)
        if token.text in ("S", "LRA") and token.kind == "word":
            return Path("mean", token.start, token.end)
        if token.text == "C" and self.sees("{"):
            return self.discounted(token)
        if token.text == "C":
            steps = self.deadline()
            if steps is None:
                self.refuse('a total without end isn\'t taken: the nearest are F "goal", C<=k, and C{9/10} with a discount', token)
            return Path("total", token.start, self.now.start, steps=steps)
        near = 'I=k isn\'t taken: the nearest is the difference of C<=k+1 and C<=k in a chain' if token.text == "I" else 'in the brackets of R stands F "goal", C<=k, LRA or C{9/10}'
        return self.refuse(near, token)

    def discounted(self, token):
        self.need("{")
        place, factor = self.now, self.number()
        if isinstance(factor, Range) or not 0 <= factor < 1:
            self.refuse("a discount is a number from 0 on and below 1", place)
        end = self.need("}").end
        return Path("discount", token.start, end, factor=factor)

    def share(self):
        """What stands in the brackets of S and LRA: in the long run, the share of steps at these states."""
        token, goal = self.now, self.formula()
        return Path("mean", token.start, goal.end, goal=goal)

    # ---- properties

    def filter(self):
        head = self.next()
        self.need("(")
        token = self.next()
        if token.text not in PICKS:
            self.refuse(f"filter({token.text}, ..) isn't taken: the nearest are {', '.join(PICKS)}, and --states for all values", token)
        self.need(",")
        inner = self.top()
        where = self.formula() if self.takes(",") else None
        return Filter(token.text, inner, where, head.start, self.need(")").end)

    def top(self):
        """A filter, a query, or a formula of states, which may begin with a query."""
        if self.sees("filter"):
            return self.inner(self.filter)
        if not re.fullmatch("(P|R|S|LRA)(max|min)?", self.now.text):
            return self.formula()
        at = self.at
        found = self.query()
        if found.relation and self.sees("&", "|", "=>", "<=>"):
            self.at = at
            return self.formula()
        return found

    def statement(self):
        """One property, or nothing for a constant or a label, which are kept."""
        if self.sees("const"):
            return self.constant()
        if self.sees("label", "formula"):
            return self.definition()
        name = ""
        if self.now.kind == "name" and self.tokens[self.at + 1].text == ":":
            name = self.next().text[1:-1]
            self.next()
        first, tree = self.now.start, self.top()
        return Property(name, self.text[first : self.tokens[self.at - 1].end], tree, self.text)

    def constant(self):
        self.next()
        self.takes("int", "double", "bool")
        token = self.next()
        if token.kind != "word":
            self.refuse("a constant's name is due here", token)
        if self.takes("="):
            value = self.number()
            self.constants.setdefault(token.text, value)
        else:
            self.constants.setdefault(token.text, None)
        self.need(";", "; is due behind a constant")

    def definition(self):
        if self.next().text == "formula":
            self.refuse("a formula of variables isn't taken: a model in DRN has labels alone")
        token = self.next()
        if token.kind != "name":
            self.refuse('a label\'s name in quotes is due here, as label "bad" = !"good";', token)
        self.need("=")
        self.labels[token.text[1:-1]] = self.formula()
        self.need(";", "; is due behind a label")

    def properties(self):
        found = []
        while self.now.kind != "end":
            if self.takes(";"):
                continue
            statement = self.statement()
            if statement:
                found.append(statement)
            if statement and self.now.kind != "end" and not self.sees(";") and not self.begins_anew():
                self.refuse("the property ends before this: each is one P, R, S, LRA, filter or formula of states, and ; stands between two")
        return found

    def begins_anew(self):
        """Whether the next token begins a line."""
        return "\n" in self.text[self.tokens[self.at - 1].end : self.now.start]


def range_by(name, numbers, refuse):
    """The Range of `A`, `A:B` or `A:STEP:B`."""
    if len(numbers) not in (1, 2, 3):
        refuse("an experiment is FIRST:LAST or FIRST:STEP:LAST")
    first, last, step = numbers[0], numbers[-1], numbers[1] if len(numbers) == 3 else 1
    if first > last or step < 1 or last > MOST_STEPS:
        refuse(f"an experiment's numbers ascend, and are at most {MOST_STEPS}")
    return Range(name, first, last, step)


def constant_of(text):
    """The name and the number, or Range, that `--const NAME=..` gives."""
    found = re.fullmatch(r"([A-Za-z_]\w*)=([0-9][0-9./eE:+-]*)", text)
    if not found:
        raise Unsupported("a constant is given as k=5, k=1:100 or k=1:5:100", 0)
    if ":" in found[2]:
        words = found[2].split(":")
        if not all(word.isdigit() and len(word) < 9 for word in words):
            raise Unsupported("an experiment has whole numbers", 0)

        def refuse(why):
            raise Unsupported(why, 0)

        return found[1], range_by(found[1], list(map(int, words)), refuse)
    return found[1], Parser(found[2]).number()


def parse(text, constants=None):
    """The properties of a text."""
    return Parser(text, constants).properties()


def message_of(text, unsupported, width=100):
    """Two lines that show a place in a text: what stands there, and a mark below it."""
    start, end = unsupported.start, unsupported.end or unsupported.start + 1
    line_start, line_end = text.rfind("\n", 0, start) + 1, text.find("\n", start)
    line = text[line_start : line_end if line_end >= 0 else len(text)]
    at = start - line_start
    first = max(0, at - width // 2)
    part = line[first : first + width].replace("\t", " ")
    dots = ".." if first else ""
    mark = "^" * max(1, min(end - start, len(part) - (at - first)))
    where = f"line {text.count(chr(10), 0, start) + 1}: " if "\n" in text.strip() else ""
    return f"  {where}{dots}{part}{'..' if first + width < len(line) else ''}\n  {' ' * (len(where) + len(dots) + at - first)}{mark}"
