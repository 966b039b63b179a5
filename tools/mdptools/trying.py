"""What tools/try_bounds, tools/try_recheck, tools/try_rounds, examples/check and bench/ share: they run the program, read its texts, and write models."""

import pathlib
import subprocess
import sys
from fractions import Fraction

from . import certificates
from .drn import Choice, Model, State, choice_lines, head, state_line, text_of

TOP = pathlib.Path(__file__).resolve().parent.parent.parent
# The program that is run, where the command line names one.
PROGRAM = []


def built_program():
    """The program that was built last; bin/mdp, which builds one, where there is none."""
    places = [TOP / "out" / "mdp", TOP / "crates" / "mdp_app" / "out" / "mdp_app"]
    return max((path for path in places if path.exists()), key=lambda path: path.stat().st_mtime, default=TOP / "bin" / "mdp")


def take_words(words, doc):
    """Prints the help where it is asked for, and ends; a word may name the program that is run in place of bin/mdp."""
    if words[:1] in (["--help"], ["-h"]):
        print(doc)
        sys.exit(0)
    if len(words) > 1:
        sys.exit(f"usage: tools/{pathlib.Path(sys.argv[0]).name} [PROGRAM]")
    PROGRAM.extend(pathlib.Path(word).resolve() for word in words)


def run(*words):
    """What the program writes on these words, and its status."""
    program = PROGRAM[0] if PROGRAM else TOP / "bin" / "mdp"
    ended = subprocess.run([program, *words], cwd=TOP, stdout=subprocess.PIPE, stderr=subprocess.DEVNULL, check=False)
    return ended.stdout, ended.returncode


def columns(text, count):
    """The first words behind the number of each state in a certificate, as numbers."""
    for first, last, words in certificates.stretches(text):
        yield from [tuple(map(certificates.number, words[:count]))] * (last + 1 - first)


def model_text(states):
    """A model in DRN with the reward name `cost`: for each state its labels, and its choices as a reward and entries."""
    choice = lambda reward, entries: Choice([Fraction(reward)], "", [(target, Fraction(value)) for target, value in entries.items()])
    return text_of(Model(["cost"], [State([], labels.split(), [choice(*each) for each in choices]) for labels, choices in states]))


def layered(layers, width):
    """The model that `drill 7 LAYERS WIDTH` draws: the choices of each state, each a list of different targets with equal shares. The last two states are
    the goal and a failing one."""
    number = 7 % 65537
    goal, failing = layers * width, layers * width + 1
    states = []
    for layer in range(layers):
        for _ in range(width):
            choices = []
            for _ in range(2):
                targets = []
                for _ in range(2):
                    number = (75 * number + 74) % 65537
                    target = (layer + 1) * width + number % width if layer + 1 < layers else (goal if number % 2 == 0 else failing)
                    targets.append(target)
                choices.append(sorted(set(targets)))
            states.append(choices)
    return states + [[[goal]], [[failing]]]


def layered_lines(states, rewards=None):
    """The lines of such a model, with a reward of each choice where these are given; the last state but one has the label `goal`."""
    yield from head([], len(states))
    for s, choices in enumerate(states):
        yield state_line(s, ["init"] * (s == 0) + ["goal"] * (s == len(states) - 2))
        for c, targets in enumerate(choices):
            row = [(target, f"1/{len(targets)}") for target in targets]
            yield from choice_lines(row, "a", [rewards[s][c]]) if rewards else choice_lines(row)
