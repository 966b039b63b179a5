"""Models from PRISM's explicit files: transitions (.tra), labels (.lab), rewards of states (.srew) and of transitions (.trew), valuations (.sta). Written by
PRISM's manual from memory, and tried on files that were written by hand. Where versions of PRISM differ, all forms known are read: lines that begin with #
at the head of a file, with or without the name of the reward structure; transitions with and without the names of actions."""

import re
from dataclasses import dataclass, field
from fractions import Fraction

from . import drn
from .drn import Unclear, fraction, lines_of

KINDS = (".tra", ".lab", ".srew", ".trew", ".sta")


@dataclass
class File:
    """The lines of a file with their numbers, without those that begin with #, and what these say the reward structure is called."""

    path: str
    lines: list
    name: str = ""


@dataclass
class Draft:
    """A model that is being put together. A choice is its action's name and its row; `rewards` has, by the name of a reward structure, what each state
    and what each transition earns."""

    is_chain: bool
    size: int
    choices: list
    labels: dict = field(default_factory=dict)
    rewards: dict = field(default_factory=dict)
    valuations: dict = field(default_factory=dict)


def read_file(path):
    found = File(str(path), [])
    texts = lines_of(path)
    for number, text in enumerate(texts, 1):
        text = text.strip()
        if text.startswith("#"):
            named = re.search('[Rr]eward structure[ :]*"([^"]+)"', text)
            found.name = named[1] if named else found.name
        elif text:
            found.lines.append((number, text))
    if not found.lines:
        raise Unclear(path, len(texts), "the file has no lines")
    return found


def whole(file, number, word, most, what):
    """A whole number below a limit."""
    if not re.fullmatch("[0-9]{1,9}", word) or int(word) >= most:
        raise Unclear(file.path, number, f"{what} is due in the place of {word[:40]}" + (f", below {most}" if word.isdigit() else ""))
    return int(word)


def value(file, number, word):
    try:
        return fraction(word)
    except (ValueError, ArithmeticError):
        raise Unclear(file.path, number, f"a number is due in the place of {word[:40]}") from None


def head(file, counts):
    """The numbers of the first line, of which there are so many."""
    number, text = file.lines[0]
    words = text.split()
    if len(words) not in counts:
        raise Unclear(file.path, number, f"{' or '.join(map(str, counts))} numbers are due: states, for a decision process choices, and lines")
    return [whole(file, number, word, 1 << 32, "a number") for word in words]


def count_lines(file, due):
    if len(file.lines) - 1 != due:
        raise Unclear(file.path, file.lines[-1][0], f"{due} lines are announced behind the first one, and {len(file.lines) - 1} are there")


def transitions(file):
    """The draft of a model by its transitions."""
    size, *counts = head(file, (2, 3))
    if not 1 <= size <= drn.MOST_STATES:
        raise Unclear(file.path, file.lines[0][0], f"a model has 1 to {drn.MOST_STATES} states")
    draft = Draft(len(counts) == 1, size, [[] for _ in range(size)])
    for number, text in file.lines[1:]:
        transition(file, number, text.split(), draft)
    count_lines(file, counts[-1])
    for s, choices in enumerate(draft.choices):
        if not choices or None in choices:
            raise Unclear(file.path, file.lines[-1][0], f"state {s} has no transition{' of a choice before its last one' if choices else ': PRISM adds loops at deadlocks by itself'}")
    if not draft.is_chain and sum(map(len, draft.choices)) != counts[0]:
        raise Unclear(file.path, file.lines[0][0], f"{counts[0]} choices are announced, and {sum(map(len, draft.choices))} are there")
    return draft


def transition(file, number, words, draft):
    """A line: source, of a decision process the choice, target, probability, and the action's name where it has one."""
    least = 3 if draft.is_chain else 4
    if len(words) not in (least, least + 1):
        raise Unclear(file.path, number, f"{'source, target' if draft.is_chain else 'source, choice, target'} and probability are due, and maybe an action's name")
    source = whole(file, number, words[0], draft.size, "a state")
    choice = 0 if draft.is_chain else whole(file, number, words[1], 1 << 22, "a choice")
    target = whole(file, number, words[least - 2], draft.size, "a state")
    name = words[least] if len(words) > least else ""
    choices = draft.choices[source]
    choices += [None] * (choice + 1 - len(choices))
    choices[choice] = choices[choice] or (name, {})
    if target in choices[choice][1]:
        raise Unclear(file.path, number, f"choice {choice} of state {source} has a transition to {target} already")
    if choices[choice][0] != name and not draft.is_chain:
        raise Unclear(file.path, number, f"choice {choice} of state {source} has another action in a line before")
    choices[choice][1][target] = value(file, number, words[least - 1])


def add_labels(file, draft):
    """The labels: the first line numbers them, and each other one has a state and the numbers of its labels."""
    number, text = file.lines[0]
    if not re.fullmatch(r'([0-9]+="[^"]+"\s*)+', text):
        raise Unclear(file.path, number, 'the numbers and names of all labels are due, as 0="init" 1="deadlock" 2="goal"')
    names = {int(key): name for key, name in re.findall(r'([0-9]+)="([^"]+)"', text)}
    for number, text in file.lines[1:]:
        found = re.fullmatch(r"([0-9]+)\s*:((?:\s*[0-9]+)*)", text)
        if not found:
            raise Unclear(file.path, number, "a state, a colon and numbers of labels are due")
        s = whole(file, number, found[1], draft.size, "a state")
        for word in found[2].split():
            if int(word) not in names:
                raise Unclear(file.path, number, f"no label has the number {word}")
            draft.labels.setdefault(s, []).append(names[int(word)])


def add_state_rewards(file, name, draft):
    size, count = head(file, (2,))
    if size != draft.size:
        raise Unclear(file.path, file.lines[0][0], f"the model has {draft.size} states, and not {size}")
    earned = draft.rewards.setdefault(name, ({}, {}))[0]
    for number, text in file.lines[1:]:
        words = text.split()
        if len(words) != 2:
            raise Unclear(file.path, number, "a state and a number are due")
        s = whole(file, number, words[0], draft.size, "a state")
        if s in earned:
            raise Unclear(file.path, number, f"state {s} has a reward already")
        earned[s] = value(file, number, words[1])
    count_lines(file, count)


def add_transition_rewards(file, name, draft):
    """What transitions earn: of a choice it counts as the expected one."""
    least = 3 if draft.is_chain else 4
    *sizes, count = head(file, (least - 1,))
    if sizes[0] != draft.size:
        raise Unclear(file.path, file.lines[0][0], f"the model has {draft.size} states, and not {sizes[0]}")
    earned = draft.rewards.setdefault(name, ({}, {}))[1]
    for number, text in file.lines[1:]:
        words = text.split()
        if len(words) not in (least, least + 1):
            raise Unclear(file.path, number, f"{'source, target' if draft.is_chain else 'source, choice, target'} and a number are due")
        place = (whole(file, number, words[0], draft.size, "a state"), 0 if draft.is_chain else whole(file, number, words[1], 1 << 22, "a choice"))
        target = whole(file, number, words[least - 2], draft.size, "a state")
        choices = draft.choices[place[0]]
        if place[1] >= len(choices) or target not in choices[place[1]][1] or (place, target) in earned:
            raise Unclear(file.path, number, "the model has no such transition, or it has a reward already")
        earned[place, target] = value(file, number, words[least - 1])
    count_lines(file, count)


def add_valuations(file, draft):
    """The values of the variables: they become the names of the states."""
    number, text = file.lines[0]
    names = [name.strip() for name in text.strip("()").split(",")]
    if not text.startswith("(") or not text.endswith(")"):
        raise Unclear(file.path, number, "the names of the variables are due, as (x,y)")
    for number, text in file.lines[1:]:
        found = re.fullmatch(r"([0-9]+):\((.*)\)", text)
        values = found[2].split(",") if found else []
        if len(values) != len(names):
            raise Unclear(file.path, number, f"a state and {len(names)} values are due, as 0:(1,2)")
        draft.valuations[whole(file, number, found[1], draft.size, "a state")] = f"[{' & '.join(f'{x}={y}' for x, y in zip(names, values))}]"


def model_of(draft):
    """The model: a choice's reward is its state's, and what its transitions earn in expectation."""
    names, states = list(draft.rewards) or ["-"], []
    for s, choices in enumerate(draft.choices):
        state = drn.State([], list(dict.fromkeys(draft.labels.get(s, []))), [], draft.valuations.get(s, ""))
        for c, (name, row) in enumerate(choices):
            rewards = [own.get(s, 0) + sum(p * by.get(((s, c), t), 0) for t, p in row.items()) for own, by in draft.rewards.values()]
            state.choices.append(drn.Choice(list(map(Fraction, rewards)) or [Fraction(0)], name, sorted(row.items())))
        states.append(state)
    return drn.Model(names, states, draft.is_chain)


def name_of(file, given, stem, number, count):
    """The name of a reward structure: the given one; that in its file; or by the number behind its file's name. One alone needs none."""
    name = given or file.name
    if name and re.search(r'[\s"]', name):
        name = re.sub(r'[\s"]+', "_", name)
    return name or ("-" if count == 1 else f"reward{number}")


def read(files):
    """The model of some files: pairs of a reward structure's name, or nothing, and a path."""
    by_kind = {kind: [(name, path) for name, path in files if str(path).endswith(kind)] for kind in KINDS}
    strange = [path for _, path in files if not str(path).endswith(KINDS)]
    if strange or len(by_kind[".tra"]) != 1:
        raise Unclear(strange[0] if strange else "the files", 0, f"one file .tra is due, and others are {', '.join(KINDS[1:])}")
    draft = transitions(read_file(by_kind[".tra"][0][1]))
    for _, path in by_kind[".lab"]:
        add_labels(read_file(path), draft)
    for _, path in by_kind[".sta"]:
        add_valuations(read_file(path), draft)
    for kind, add in ((".srew", add_state_rewards), (".trew", add_transition_rewards)):
        for place, (given, path) in enumerate(by_kind[kind], 1):
            file, number = read_file(path), int((re.search(r"(\d*)\.[a-z]+$", str(path)) or ["", ""])[1] or place)
            add(file, name_of(file, given, path, number, max(len(by_kind[".srew"]), len(by_kind[".trew"]))), draft)
    return model_of(draft)


def texts_of(model):
    """The files of a model, by their endings: what PRISM would write, for trials. Rewards of choices become those of their transitions."""
    counts = [len(model.states), *([] if model.is_chain else [sum(len(state.choices) for state in model.states)])]
    rows = [(s, c, choice) for s, state in enumerate(model.states) for c, choice in enumerate(state.choices)]
    entries = [(s, c, t, p, choice) for s, c, choice in rows for t, p in choice.row]
    place = lambda s, c, t: f"{s} {t}" if model.is_chain else f"{s} {c} {t}"
    labels = list(dict.fromkeys(["init", "deadlock", *(label for state in model.states for label in state.labels)]))
    files = {".tra": [" ".join(map(str, [*counts, len(entries)])), *(f"{place(s, c, t)} {p} {choice.name}".strip() for s, c, t, p, choice in entries)]}
    files[".lab"] = [" ".join(f'{number}="{label}"' for number, label in enumerate(labels))]
    files[".lab"] += [f"{s}: {' '.join(str(labels.index(label)) for label in state.labels)}" for s, state in enumerate(model.states) if state.labels]
    for number, name in enumerate(model.names, 1):
        lines = [f"{place(s, c, t)} {choice.rewards[number - 1]}" for s, c, t, _, choice in entries if choice.rewards[number - 1]]
        files[f"{number}.trew"] = [f'# Reward structure "{name}"', "# Transition rewards", " ".join(map(str, [*counts, len(lines)])), *lines]
    return {ending: "".join(line + "\n" for line in lines) for ending, lines in files.items()}
