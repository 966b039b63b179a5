#!/usr/bin/env python3
"""Makes RESULTS.md: runs the scripts of this folder one after the other, and writes a table for each question, all of one commit and one run.

    bench/results.py                    lists the questions
    bench/results.py NAME..             runs those, and prints their sections
    bench/results.py --write            runs all, and writes the page

The programs have to be built before (bin/mdp and bin/check build them), and nothing else should be at work. All of it takes an hour or two.
"""

import os
import pathlib
import re
import subprocess
import sys
import time
from dataclasses import dataclass

TOP = pathlib.Path(__file__).resolve().parent.parent
PAGE = TOP / "bench" / "RESULTS.md"
# The kinds of models of bench/components.py, in the order in which it measures them.
COMPONENTS = [*["ring"] * 3, *["chain"] * 4, *["waiting"] * 3]


@dataclass
class Question:
    """What is asked; what stands before the table; the script and its words; what of its output makes a row, by names that are the columns."""

    title: str
    about: str
    words: str
    pattern: str
    # How the script may end.
    statuses: tuple = (0,)


QUESTIONS = {
    "large": Question(
        "How long does a large model take, and how much memory?",
        "`bounds` at 9 digits of layered models (two choices a state, some eight transitions; a state goes to states of the next two layers) and of random ones (three "
        "choices, each to four states), and what `bounds-check` takes; processor time, the reading of the model included. Beside it a plain iteration in C doubles on the "
        "same file, which makes no certificate: interval iteration, and relative value iteration for a mean payoff, until the gap is 10^-9 of the greatest value, "
        "or for 60 s.",
        "bounds.py layers 1000 layers 10000 layers 100000 layers 1000000 random 10000 random 100000",
        r"^(?P<model>\w+) \d+, (?P<query>[^:]+): (?P<states>\d+) states, \d+ transitions; bounds (?P<bounds_s>[\d.]+) s, reading [\d.]+ s, "
        r"(?P<bytes_a_transition>\d+) B a transition, gap (?P<gap>[^,]+), .*?; bounds-check \w+ in (?P<bounds_check_s>[\d.]+) s; "
        r"peer (?P<iteration_s>[\d.]+) s \(iteration \S+ s, \S+ sweeps, gap (?P<gap_of_it>\S+)\)",
    ),
    "slow": Question(
        "And where values come slowly?",
        "The same on models on which sweeps are slow: the shared coin of two processes, bets on red, two halves that are left with 10^-6, and walks on a square and in a cube, "
        "where rows fill as nodes are eliminated.",
        "bounds.py coin 10 coin 50 roulette 1000 halves 2000 square 100 square 200 cube 20",
        "",
    ),
    "near": Question(
        "How near do lower and upper come to what DIGITS asks for?",
        "Some two hundred queries of `bounds`, of families of models as case studies have them, with all objectives and deadlines. An answer is wider than asked where, at "
        "some state, upper less lower is more than 10^-DIGITS, and more than that part of the upper value where it is above 1. `bench/near.py` lists these, with the reason as far "
        "as it is known. Processor time of the whole program.",
        "near.py",
        r"^\| (?P<family>[a-z]\w*) \| (?P<queries>\d+) \| (?P<wider>\d+) \| (?P<wider_at_the_initial_state>\d+) \| (?P<widest_over_what_was_asked>\S+) \| "
        r"(?P<s>[\d.]+) \| (?P<slowest_s>[\d.]+) \|$",
        statuses=(0, 1),
    ),
    "witness": Question(
        "How many states does a witness keep, and what does it take?",
        "`bounds .. witness` beside `witness`, of families of models; the threshold is a part of the value of the initial state. A state that is kept is needed where the best "
        "probability without it is shown to be below the threshold. Processor time of the whole program.",
        "witness.py",
        r"^(?P<model>[a-z][^,\n]*), (?P<query>\S[^:\n]*?) (?P<part>\S+): (?P<states>\d+) states, threshold \S+; bounds keeps (?P<bounds_keeps>\S+), (?P<needed>\S+) of them "
        r"needed, in (?P<bounds_s>[\d.]+) s, [^;]*; witness (?:keeps (?P<witness_keeps>\d+)|(?P<or_ends>.+?)) in (?P<witness_s>[\d.]+) s$",
    ),
    "deadline": Question(
        "What does a deadline take?",
        "`curve` and `bounds` of an until within so many steps at 9 digits: a robot on a square, a seventh of whose tiles are holes; the whole program. Beside them as many "
        "sweeps in C doubles over the same file.",
        "deadline.py",
        r"^\d+ (?P<steps>\d+): (?P<states>\d+) states, (?P<transitions>\d+) transitions; curve (?P<curve_s>[\d.]+) s, bounds (?P<bounds_s>[\d.]+) s, "
        r"reading (?P<reading_s>[\d.]+) s; peer (?P<sweeps_in_doubles_s>[\d.]+) s; .*",
    ),
    "exact": Question(
        "What does an exact answer take, beside an exact linear program?",
        "`solve` and `discount` on layered models with two choices a state; the whole program, with the check of its certificate. `glpsol --exact` has the linear program "
        "of the same query, for at most 120 s. The rounds of policy iteration are counted by the script.",
        "solving.py layered 10 20 layered 20 50 layered 40 100 layered 80 200 reward 20 50 reward 40 100 mean 10 20 mean 20 50 mean 40 100 discount 10 20 discount 20 50",
        r"^\w+ [\d ]+: (?P<states>\d+) states, .*\n  (?P<query>.+?): (?P<s>[\d.]+) s, (?:(?P<rounds>\d+) rounds, )?value of state 0 \S+; "
        r"check: (?P<check_s>[\d.]+) s, \w+(?:\n  glpsol --exact: (?P<glpsol>more than \d+ s|[\d.]+ s))?",
    ),
    "checking": Question(
        "What does a check take?",
        "Certificates with a line for each state.",
        "checking.py",
        r"^(?P<states>\d+) states, (?P<certificate>[^,]+), (?P<MB>[\d.]+) MB: bin/check \w+ in (?P<bin_check_s>[\d.]+) s; \S+ \w+ in (?P<bin_mdp_s>[\d.]+) s"
        r"(?:; tools/recheck \w+ in (?P<recheck_s>[\d.]+) s)?",
    ),
    "reading": Question(
        "How fast is a model read?",
        "A ring of states with four targets each, and a model in which one row has half of the transitions, with descending targets.",
        "reading.py",
        r"^(?P<model>[a-z ]+): .*\n(?P<transitions>\d+) transitions, (?P<MB>[\d.]+) MB: (?P<s>[\d.]+) s, (?P<MB_a_second>[\d.]+) MB/s, peak [\d.]+ MB, "
        r"(?P<bytes_a_transition>\d+) bytes",
    ),
    "evaluation": Question(
        "What does one evaluation take?",
        "`solve` of Markov chains, by state elimination: a line, a random sparse chain, a grid in an order that fills rows, and a hub, whose first state goes to all others.",
        "elimination.py",
        r"^(?P<chain>\w+) (?P<size>\d+): (?P<s>[\d.]+) s, (?P<MB>[\d.]+) MB, status 0",
    ),
    "components": Question(
        "What do components take?",
        "Strong components and end components of a ring, of a chain whose states fall away in one round, and of one where each state may stay.",
        "components.py",
        r"^(?P<states>\d+) states\ncomponents: (?P<components_us>\d+) us, .*\nend_components: (?P<end_components_us>\d+) us, (?P<ends>\d+) of them",
    ),
    "passes": Question(
        "What do passes over the graph take?",
        "A chain, each state of which stays or goes on to the next one.",
        "passes.py",
        r"^(?P<states>\d+) states\nmay_reach: (?P<may_reach_us>\d+) us, .*\nmust_meet: (?P<must_meet_us>\d+) us, .*\nsure_some: (?P<sure_some_us>\d+) us, .*",
    ),
    "limits": Question(
        "What happens at the limits?",
        "Models and certificates at the limits, and such on which rounds or components are many; reading and writing included. `bench/hostile.py` has what each name means.",
        "hostile.py",
        r"^(?P<input>\S+) +(?P<MB>[\d.]+) MB  (?P<text>.{40}) status +(?P<status>-?\d+) +(?P<s>[\d.]+) s +(?P<MB_at_most>\d+) MB",
    ),
    "memory": Question(
        "What is written where memory is refused?",
        "Each request of the program for memory is refused in turn: each run ended with the row's text or with `memory`. Of two models that are refused at the same line, "
        "the one with more comments behind it asks for no more.",
        "memory.py",
        r"^(?P<row>\S.*?) +(?P<requests>\d+) requests, +(?P<refusals_that_end_in_memory>\d+) refusals end in memory",
    ),
    "fractions": Question(
        "What does the arithmetic cost?",
        "Nanoseconds of one operation on two fractions, in `Frac` and in GMP's rationals, and how many of a million were past width.",
        "fraction_arithmetic.py",
        r"^(?P<operation>\w+) +(?P<bits>\d+) +(?P<ours_ns>[\d.]+) +(?P<GMP_ns>[\d.]+) +(?P<ratio>[\d.]+) +(?P<past_width>\d+)$",
    ),
}
QUESTIONS["slow"].pattern = QUESTIONS["large"].pattern


def table(question, text):
    """The rows that a script printed, as a table."""
    rows = [found.groupdict() for found in re.finditer(question.pattern, text, re.MULTILINE)]
    if not rows:
        sys.exit(f"bench/results.py: {question.words} printed no row:\n{text[-2000:]}")
    if question.words == "components.py":
        rows = [{"model": kind, **row} for kind, row in zip(COMPONENTS, rows)]
    lines = [list(rows[0]), ["---"] * len(rows[0]), *([(value or "").strip() for value in row.values()] for row in rows)]
    lines[0] = [name.replace("_", " ") for name in lines[0]]
    return "\n".join(f"| {' | '.join(line)} |" for line in lines)


def section(name):
    """Runs a script, and gives what it answers to its question."""
    question = QUESTIONS[name]
    began = os.getloadavg()[0]
    sys.stderr.write(f"bench/results.py: {question.words}\n")
    script, *words = question.words.split()
    ran = subprocess.run([sys.executable, TOP / "bench" / script, *words], stdout=subprocess.PIPE, check=False)
    if ran.returncode not in question.statuses:
        sys.exit(f"bench/results.py: {question.words} ended with {ran.returncode}")
    made = f"By `bench/{question.words}`, at a load of {began:.1f}."
    return f"## {question.title}\n\n{question.about} {made}\n\n{table(question, ran.stdout.decode())}\n"


def head():
    """What holds of all tables."""
    said = subprocess.run([TOP / "bin" / "mdp", "--version"], stdout=subprocess.PIPE, check=True).stdout.decode().split("\n")
    commit, toolchain = said[0].removeprefix("bin/mdp "), said[1]
    return (
        "# Measured times\n\nNothing here is promised. The same run may take twice as long at another time. "
        f"Made by `bench/results.py --write` in one run on {time.strftime('%Y-%m-%d')}: commit {commit}, {toolchain}, {os.cpu_count()} processors.\n"
    )


def main():
    words = sys.argv[1:]
    if words[:1] in (["--help"], ["-h"]):
        print(__doc__)
    elif words == ["--write"]:
        PAGE.write_text("\n".join([head(), *map(section, QUESTIONS)]))
    elif not words:
        print(*(f"{name:12} {question.title}" for name, question in QUESTIONS.items()), sep="\n")
    elif set(words) <= set(QUESTIONS):
        print(*map(section, words), sep="\n")
    else:
        sys.exit(__doc__)


if __name__ == "__main__":
    main()
