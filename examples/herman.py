#!/usr/bin/env python3
"""Prints Herman's ring (Herman 1990) as a Markov chain in DRN.

    python3 examples/herman.py PROCESSES           an odd number, at least 3
    python3 examples/herman.py PROCESSES bits      the same with the bits of the processes as states

The processes stand in a ring, and some hold a token; how many is odd. In each round each token stays where it is or moves to the next process, by a
fair coin of its own, all at once. Where two tokens meet, both vanish. The ring is stable where one token is left.

A state is the places of the tokens, up to a turn of the ring, which changes no probability: of all turns the one whose places come first. It has a
comment with its places. States with fewer tokens come first. Labels: `stable` where one token is left, `init` at three tokens that are as far apart
as can be. The reward `rounds` is 1 in each round.

In Herman's protocol each process has a bit, and a token where its bit is that of its left neighbour. With a token it flips a coin for its next bit;
without one it takes the bit of its left neighbour. With `bits` a state is these bits, process 0 the highest.
"""

import collections
import itertools
import pathlib
import sys

sys.dont_write_bytecode = True
sys.path.insert(0, str(pathlib.Path(__file__).resolve().parent.parent / "tools"))

from mdptools import drn  # noqa: E402


def turned(tokens, count):
    """The least of all turns of the ring."""
    return min(tuple(sorted((place - first) % count for place in tokens)) for first in tokens)


def moved(tokens, count):
    """How many of the equally likely outcomes of all coins lead to each state of tokens."""
    outcomes = collections.Counter()
    for coins in itertools.product((0, 1), repeat=len(tokens)):
        arrived = collections.Counter((place + coin) % count for place, coin in zip(tokens, coins))
        outcomes[turned([place for place, many in arrived.items() if many == 1], count)] += 1
    return outcomes


def held(bits):
    """The processes with a token."""
    return tuple(i for i in range(len(bits)) if bits[i] == bits[i - 1])


def flipped(bits):
    """The same for a state of bits."""
    outcomes = collections.Counter()
    for coins in itertools.product((0, 1), repeat=len(held(bits))):
        flips = dict(zip(held(bits), coins))
        outcomes[tuple(flips.get(i, bits[i - 1]) for i in range(len(bits)))] += 1
    return outcomes


def chain(count, has_bits):
    """The states; what gives the tokens of one, and what the outcomes of a round from it."""
    if has_bits:
        states = list(itertools.product((0, 1), repeat=count))
        return states, held, flipped
    states = [state for many in range(1, count + 1, 2) for state in sorted({turned(tokens, count) for tokens in itertools.combinations(range(count), many)})]
    return states, lambda state: state, lambda state: moved(state, count)


def main():
    if sys.argv[1:2] in (["--help"], ["-h"]):
        print(__doc__)
        return
    count = int(sys.argv[1])
    if count < 3 or count % 2 == 0:
        sys.exit("examples/herman.py: the number of processes is odd and at least 3")
    states, tokens, outcomes = chain(count, sys.argv[2:] == ["bits"])
    numbers = {state: number for number, state in enumerate(states)}
    apart = turned([count * i // 3 for i in range(3)], count)
    start = next(state for state in states if turned(tokens(state), count) == apart)
    print(*drn.head(["rounds"], len(states), len(states), is_chain=True), sep="\n")
    for state in states:
        many = len(tokens(state))
        print("// tokens at", *tokens(state))
        print(drn.state_line(numbers[state], ["init"] * (state == start) + ["stable"] * (many == 1)))
        row = sorted((numbers[target], f"{ways}/{2 ** many}") for target, ways in outcomes(state).items())
        print(*drn.choice_lines(row, "round", [1]), sep="\n")


if __name__ == "__main__":
    main()
