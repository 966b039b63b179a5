"""Families of models as case studies have them, for bench/near.py. Each is a function of a few numbers that gives the lines of a model in DRN; the first state
has the label `init`. What is drawn is drawn from the numbers."""

import pathlib
import random
import sys
from fractions import Fraction

sys.dont_write_bytecode = True
sys.path.insert(0, str(pathlib.Path(__file__).resolve().parent.parent / "tools"))

from mdptools import drn  # noqa: E402


def merged(*entries):
    """The entries of a row, those of one target together and none of 0."""
    row = {}
    for target, value in entries:
        row[target] = row.get(target, 0) + Fraction(value)
    return [(target, value) for target, value in row.items() if value]


def choice(rewards, *entries):
    return "", rewards, merged(*entries)


def coin(target, other, value):
    """The entries of a step that comes to `target` with this probability, and else to `other`."""
    return (target, value), (other, 1 - Fraction(value))


def retransmission(chunks, tries):
    """A file is sent in chunks. A frame is lost with 1/50, with care, which costs twice as much, with 1/100; its acknowledgment with 1/100. A chunk may be
    sent again `tries` times."""

    def choices(state):
        if state in ("sent", "failed"):
            return [choice([0], (state, 1))]
        chunk, attempt, is_sent = state
        again = (chunk, attempt + 1, False) if attempt < tries else "failed"
        following = (chunk + 1, 0, False) if chunk + 1 < chunks else "sent"
        if is_sent:
            return [choice([0], *coin(again, following, "1/100"))]
        return [choice([cost], *coin(again, (chunk, attempt, True), lost)) for cost, lost in ((1, "1/50"), (2, "1/100"))]

    return drn.explored(["cost"], (0, 0, False), lambda state: [state, "over"] if state in ("sent", "failed") else [], choices)


def drift(size):
    """A walk from the middle of a line that drifts down: a step up is made with 1/3, at twice the cost with 2/5. It ends at `low` and `high`."""

    def choices(at):
        if at in (0, size):
            return [choice([0], (at, 1))]
        return [choice([cost], *coin(at + 1, at - 1, up)) for cost, up in ((1, "1/3"), (2, "2/5"))]

    return drn.explored(["cost"], size // 2, lambda at: {0: ["low", "over"], size: ["high", "over"]}.get(at, []), choices)


def cliff(size):
    """A walk that drifts away from a cliff: a step to it is made with 1/4 or 1/3, and else one back. At the start one may try to go home in place of that,
    which comes off with 1/1000."""

    def choices(at):
        if at in ("home", size):
            return [choice([0], (at, 1))]
        steps = [choice([1], (at + 1, near), (max(at - 1, 0), 1 - near)) for near in (Fraction(1, 4), Fraction(1, 3))]
        return [*steps, choice([2], *coin("home", 1, "1/1000"))] if at == 0 else steps

    return drn.explored(["cost"], 0, lambda at: {"home": ["home", "over"], size: ["cliff", "over"]}.get(at, []), choices)


def wells(size):
    """A walk on a line that is drawn to its nearer end, by 2/3 or 3/5 a step, so that its halves are hardly left. One earns 1 a step in the left half, 3 in
    the right half, and one less where it is drawn less."""

    def choices(at):
        outward = -1 if at < 0 else 1
        for less, drawn in ((0, Fraction(2, 3)), (1, Fraction(3, 5))):
            drawn = drawn if at else Fraction(1, 2)
            ways = coin(min(max(at + outward, -size), size), at - outward, drawn)
            yield choice([(1 if at < 0 else 3) - less], *ways)

    return drn.explored(["cost"], -size, lambda at: {-size: ["left"], size: ["right"]}.get(at, ["between"]), choices)


def leak(size, digits):
    """A fair walk from the middle of a line, which is lost with 10^-digits in a step, or with a tenth of that at a greater cost."""

    def choices(at):
        if at in (0, size, "lost"):
            return [choice([0], (at, 1))]
        ways = (1, Fraction(1, 10**digits)), (3, Fraction(1, 10 ** (digits + 1)))
        return [choice([cost], ("lost", lost), (at + 1, (1 - lost) / 2), (at - 1, (1 - lost) / 2)) for cost, lost in ways]

    ends = {0: ["low", "over"], size: ["high", "over"], "lost": ["lost", "over"]}
    return drn.explored(["cost"], size // 2, lambda at: ends.get(at, []), choices)


def gambler(goal):
    """Bets of 1, won with 49/100, or of 10 where one has as much and lacks as much, won with 12/25, from half of the goal until one has it or nothing."""

    def choices(at):
        if at in (0, goal):
            return [choice([0], (at, 1))]
        bets = [(1, "49/100"), *([(10, "12/25")] if 10 <= at <= goal - 10 else [])]
        return [choice([bet], *coin(at + bet, at - bet, won)) for bet, won in bets]

    return drn.explored(["cost"], goal // 2, lambda at: {0: ["broke", "over"], goal: ["rich", "over"]}.get(at, []), choices)


def queue(size):
    """Two queues and one server, which serves one of them with 1/2 in a step; else somebody comes to the first with 3/10, to the second with 1/5. One who finds
    no room is lost. The reward `cost` is how many wait, `lost` counts the lost ones."""

    def choices(state):
        first, second = state
        came = [((min(first + 1, size), second), "3/10"), ((first, min(second + 1, size)), "1/5")]
        lost = Fraction(3, 10) * (first == size) + Fraction(1, 5) * (second == size)
        for served in ((max(first - 1, 0), second), (first, max(second - 1, 0))):
            yield choice([first + second, lost], *came, (served, "1/2"))

    labels = lambda state: ["full"] * (state == (size, size)) + ["short"] * (max(state) < size // 2)
    return drn.explored(["cost", "lost"], (0, 0), labels, choices)


def windy(side, wind):
    """A robot on a square goes north, east, south or west; with `wind` tenths it is blown to the west in place of that, and with 10^-9 it breaks down."""

    def choices(state):
        if state in ("broken", (side - 1, side - 1)):
            return [choice([0], (state, 1))]
        x, y = state
        broken, blown = Fraction(1, 10**9), Fraction(wind, 10)
        beside = [(x, y - 1), (x + 1, y), (x, y + 1), (x - 1, y)]
        places = [tuple(min(max(at, 0), side - 1) for at in place) for place in beside]
        return [choice([1], ("broken", broken), (place, 1 - blown - broken), (places[3], blown)) for place in places]

    ends = {"broken": ["broken", "over"], (side - 1, side - 1): ["goal", "over"]}
    return drn.explored(["steps"], (0, 0), lambda state: ends.get(state) or ["calm"] * (state[1] % 7 != 3), choices)


def power(room):
    """A disk that is on, asleep or waking, and requests that wait. In a step one comes with 3/10, and while the disk is on one is served with 4/5; `cost` is
    the energy and how many wait, `lost` counts those that find no room."""
    # of each mode its energy, and what becomes of it by each choice
    modes = {"on": (10, [{"on": 1}, {"asleep": 1}]), "asleep": (1, [{"asleep": 1}, {"waking": 1}]), "waking": (12, [{"on": "1/4", "waking": "3/4"}])}

    def counts(mode, waiting):
        """How many wait after a step, and with which probability."""
        for came, comes in ((1, Fraction(3, 10)), (0, Fraction(7, 10))):
            for served, serves in ((1, Fraction(4, 5)), (0, Fraction(1, 5))) if mode == "on" and waiting else ((0, 1),):
                yield min(waiting + came - served, room), comes * serves

    def choices(state):
        mode, waiting = state
        energy, ways = modes[mode]
        for way in ways:
            entries = [((after, count), Fraction(value) * part) for after, value in way.items() for count, part in counts(mode, waiting)]
            yield choice([energy + waiting, Fraction(3, 10) * (waiting == room)], *entries)

    labels = lambda state: ["full"] * (state[1] == room) + ["asleep"] * (state == ("asleep", 0)) + ["light"] * (state[1] < room // 2)
    return drn.explored(["cost", "lost"], ("on", 0), labels, choices)


def election(processes, numbers):
    """Processes elect a leader: in each round each one that is left draws a number, by a fair die or by one that has the highest number with 1/2, as a
    scheduler says; those that have the highest number of all are left."""

    def drawn(active, drawing, highest, holders, number):
        """How many are left, how many still draw, the highest number of this round, and how many have it, after a process has drawn a number."""
        if number > highest:
            highest, holders = number, 1
        elif number == highest:
            holders += 1
        return (active, drawing - 1, highest, holders) if drawing > 1 else (holders, holders, 0, 0)

    def choices(state):
        if state[0] == 1:
            return [choice([0], (state, 1))]
        fair = [Fraction(1, numbers)] * numbers
        biased = [Fraction(1, 2 * (numbers - 1))] * (numbers - 1) + [Fraction(1, 2)]
        return [choice([int(state[2] == 0)], *((drawn(*state, number), part) for number, part in enumerate(die, 1))) for die in (fair, biased)]

    labels = lambda state: ["elected"] * (state[0] == 1) + ["many"] * (state[0] >= 3)
    return drn.explored(["rounds"], (processes, processes, 0, 0), labels, choices)


def crowds(members, runs):
    """Messages are handed from member to member, five in six of them good, until one is delivered, with 1/5 or 1/3, or a bad one sees who handed it on. Is
    the sender seen more often than all others?"""

    def choices(state):
        run, is_sender, seen, others = state
        if run == runs:
            yield choice([0], (state, 1))
            return
        done = (run + 1, True, seen, others)
        caught = (run + 1, True, seen + 1, others) if is_sender else (run + 1, True, seen, others + 1)
        for delivered in (Fraction(1, 5), Fraction(1, 3)):
            on = (1 - delivered) * Fraction(5, 6)
            back = on / members
            handed = [((run, True, seen, others), back), ((run, False, seen, others), on - back)]
            yield choice([1], (done, delivered), (caught, (1 - delivered) / 6), *handed)

    labels = lambda state: ["over"] * (state[0] == runs) + ["suspect"] * (state[0] == runs and state[2] > state[3]) + ["hidden"] * (state[2] <= 1)
    return drn.explored(["hops"], (0, True, 0, 0), labels, choices)


def cluster(size):
    """Two clusters of machines, each behind a switch, and a line between them. In a step one of them breaks, or one that is broken, as is chosen, is
    repaired. `repairs` counts repairs, `down` the steps in which fewer machines can be used than three quarters of one cluster has."""
    rates = [Fraction(1, 500), Fraction(1, 500), Fraction(1, 4000), Fraction(1, 4000), Fraction(1, 5000)]
    total = 1 + 2 * size * rates[0] + sum(rates[2:])
    whole = (size, size, 1, 1, 1)

    def less(state, part, count):
        return tuple(has - count * (place == part) for place, has in enumerate(state))

    def choices(state):
        broken = [(less(state, part, 1), state[part] * rates[part] / total) for part in range(5) if state[part]]
        for repaired in [part for part in range(5) if state[part] < whole[part]] or [None]:
            speed = Fraction(0) if repaired is None else Fraction(1, 1 + repaired) / total
            stays = 1 - speed - sum(value for _, value in broken)
            yield choice([speed, int(is_down(state))], *broken, (less(state, repaired, -1), speed), (state, stays))

    def is_down(state):
        usable = max(state[0] * state[2], state[1] * state[3], (state[0] + state[1]) * min(state[2:]))
        return 4 * usable < 3 * size

    return drn.explored(["repairs", "down"], whole, lambda state: ["down"] * is_down(state) + ["good"] * (state[2:] == (1, 1, 1)), choices)


def inventory(size):
    """A stock of so many pieces at most: some are ordered in a step, at a cost of 4 and 2 each; holding costs 1 each, and a buyer in vain 12. From 0 to 3 are
    asked for."""

    def choices(stock):
        for order in sorted({0, 1, 3, 5, size - stock}):
            if order <= size - stock:
                have = stock + order
                asked = list(enumerate([Fraction(1, 10), Fraction(3, 10), Fraction(2, 5), Fraction(1, 5)]))
                short = sum(max(count - have, 0) * part for count, part in asked)
                yield choice([have + (4 + 2 * order if order else 0) + 12 * short], *((max(have - count, 0), part) for count, part in asked))

    return drn.explored(["cost"], size, lambda stock: ["none"] * (stock == 0) + ["some"] * (0 < stock < size), choices)


def aloha(stations):
    """Stations send in slots, each with one over a number that is chosen; a slot in which one alone sends is good. One more has something to send with 1/50.
    Where many send, rows have long denominators."""

    def choices(state):
        for share in (2, 4, stations) if state else ():
            good = Fraction(state, share) * (1 - Fraction(1, share)) ** (state - 1)
            more = Fraction(1, 50) if state < stations else Fraction(0)
            yield choice([1], (state - 1, good), (min(state + 1, stations), (1 - good) * more), (state, (1 - good) * (1 - more)))
        if state == 0:
            yield choice([0], (0, 1))

    labels = {0: ["done"], stations: ["crowded"]}
    return drn.explored(["slots"], stations // 2, lambda state: labels.get(state, []), choices)


def islands(parts, size):
    """Parts, each a ring with rewards from -5 to 5 that is walked round at two speeds. Two in three of them can be left where the ring begins: for one of
    the next two parts, or for one that is drawn."""
    draw = random.Random(parts * size)
    earned = [[draw.randrange(-5, 6) for _ in range(size)] for _ in range(parts)]
    drawn = [draw.randrange(parts) for _ in range(parts)]

    def choices(state):
        part, at = state
        for pay, stay in ((0, "1/3"), (-1, "1/7")):
            yield choice([earned[part][at] + pay], *coin(state, (part, (at + 1) % size), stay))
        if at == 0 and part % 3:
            others = (part + 1, "2/5"), (part + 2, "2/5"), (drawn[part], "1/5")
            yield choice([0], *(((other % parts, size // 2), value) for other, value in others))

    return drn.explored(["cost"], (1, 0), lambda state: ["goal"] * (state[0] == 3), choices)


def scattered(states):
    """Three choices a state, each to three states that are drawn from all; with 1/100 the first one comes to a goal or to a trap, as is drawn."""
    draw = random.Random(states)
    ends = ["goal", "trap"]

    def choices(state):
        if state in ends:
            return [choice([0], (state, 1))]
        own = random.Random(states * 1000003 + state)
        parts = [sorted(own.sample(range(1, 99), 2)) for _ in range(3)]
        return [choice([1], *((own.randrange(states), Fraction(part, 100)) for part in (low, high - low, 99 - high)), (own.choice(ends), "1/100")) for low, high in parts]

    return drn.explored(["steps"], draw.randrange(states), lambda state: [state] if state in ends else [], choices)
