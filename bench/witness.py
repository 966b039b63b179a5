#!/usr/bin/env python3
"""Measures `bounds .. witness` beside `witness`: how many states each keeps, and in what time.

The models are families of bench/families.py, and those of bench/bounds.py and bench/deadline.py, of some hundred, some thousand and some hundred thousand
states. Of each is asked a threshold that is a part of the lower value with 9 digits, in six decimal digits, rounded down.

For each query: the states; how many `bounds .. witness` keeps, how many of these it shows to be needed, its processor time as a whole program, and what
`bounds-check` says of its text; how many states `witness` keeps, or how it ends, and its time.

    --program PATH     asks that program, and not the one that was built last
    --quick            leaves out models of more than 5,000 states
    --only WORD        what has WORD in its line alone
    --limit SECONDS    ends a query after so much processor time (120)

Ends with 1 where `bounds-check` refuses a text, or an answer is none of a certificate, `undecided` and `memory`.
"""

import argparse
import pathlib
import resource
import signal
import subprocess
import sys
import tempfile
from dataclasses import dataclass
from fractions import Fraction

sys.dont_write_bytecode = True
TOP = pathlib.Path(__file__).resolve().parent.parent
sys.path.insert(0, str(TOP / "tools"))

import bounds  # noqa: E402
import near  # noqa: E402
from families import scattered  # noqa: E402
from mdptools import certificates, trying  # noqa: E402

near.FAMILIES["scattered"] = scattered
# A model, the query, and the part of its value that is asked for.
ASKED = """
retransmission 16 2: max failed 1/2, max failed 9/10, min failed 1/2
crowds 10 6: max suspect 1/2, min suspect 1/2
gambler 100: max rich 1/2, max broke 9/10, min rich 9/10
windy 10 3: max goal 1/2, min broken 1/2
robot 12: max until floor charger 1/2, max until floor charger 9/10
election 6 5: max elected 1/2, min elected 1/2
scattered 100: max goal 1/2, min goal 1/2
layers 200: max goal 1/2, min careful 1/2
retransmission 160 2: max failed 1/2, min failed 1/2
crowds 10 13: max suspect 1/2, min suspect 1/2
gambler 1000: max broke 1/2, min broke 9/10
windy 32 3: max goal 1/2, min broken 1/2
robot 32: max until floor charger 1/2
election 12 6: max elected 1/2
scattered 1000: max goal 1/2, min goal 1/2
layers 1000: min careful 1/2
retransmission 16600 2: max failed 1/2
crowds 10 64: max suspect 1/2
gambler 100000: max broke 1/2
robot 312: max until floor charger 1/2
election 20 10: max elected 1/2
scattered 100000: max goal 1/2, min goal 1/2
layers 100000: min careful 1/2
"""
MOST_QUICK = 5000


@dataclass
class Found:
    """What a program answers, how it ended, and its processor time in seconds."""

    text: bytes
    status: int
    seconds: float

    @property
    def ended(self):
        """The first words of a refusal; nothing of a certificate."""
        if self.status == -signal.SIGXCPU:
            return "no answer in time"
        return "" if self.status == 0 else " ".join(self.text.decode().split("\n")[0].split()[:1]) or f"status {self.status}"

    @property
    def kept(self):
        """How many states are kept, and how many of them are marked as needed."""
        if self.text.startswith(b"mdp-bounds"):
            marks = certificates.of_bytes(self.text, "certificate").marks
        else:
            marks = [line.split()[-1] for line in self.text.decode().split("\n") if line.startswith("keep ")]
        return sum(mark != "-" for mark in marks), marks.count("kept")


def answered(limit, *words):
    began = bounds.spent()
    stop = lambda: resource.setrlimit(resource.RLIMIT_CPU, (limit, limit + 1))
    ran = subprocess.run([str(word) for word in words], stdout=subprocess.PIPE, stderr=subprocess.DEVNULL, preexec_fn=stop, check=False)
    return Found(ran.stdout, ran.returncode, bounds.spent() - began)


def rounded(value):
    """Six digits of a number, rounded down, as a numeral."""
    power = 0
    while 0 < value < 1:
        value, power = value * 10, power + 1
    return f"{int(value * 10**5)}e-{power + 5}" if power <= 31 else "0"


def threshold_of(found, part):
    """A part of the lower value of the initial state."""
    start = next(line.split() for line in found.text.decode().split("\n") if line.startswith("init "))
    return rounded(Fraction(start[2]) * part)


def measure(model, query, file, options):
    """Asks a query and prints its line; whether all is well with it."""
    direction, *words, part = query.split()
    objective = words if len(words) > 1 else ["reach", *words]
    value = answered(options.limit, options.program, "bounds", file.path, "exact", direction, *objective, "9")
    if value.status:
        print(f"{model}, {direction} {' '.join(words)}: {file.states} states; bounds ends with {value.ended}", flush=True)
        return False
    threshold = threshold_of(value, Fraction(part))
    found = answered(options.limit, options.program, "bounds", file.path, "exact", direction, "witness", *words, threshold)
    exact = answered(options.limit, options.program, "witness", file.path, "exact", direction, *words, threshold)
    said = "no certificate"
    if not found.status:
        cert = file.path.with_suffix(".cert")
        cert.write_bytes(found.text)
        said = "bounds-check " + answered(options.limit, options.program, "bounds-check", file.path, "exact", cert).text.decode().strip()
    kept, needed = ("-", "-") if found.status else found.kept
    print(
        f"{model}, {direction} {' '.join(words)} {part}: {file.states} states, threshold {threshold}; bounds keeps {kept}, {needed} of them needed, "
        f"in {found.seconds:.2f} s, {found.ended or said}; witness {exact.ended or f'keeps {exact.kept[0]}'} in {exact.seconds:.2f} s",
        flush=True,
    )
    return said == "bounds-check yes" or found.ended in ("undecided", "memory", "no answer in time")


def measure_all(options):
    with tempfile.TemporaryDirectory() as folder:
        for line in filter(None, ASKED.split("\n")):
            model, queries = line.split(": ")
            chosen = [query for query in queries.split(", ") if options.only in f"{model}, {query}"]
            if not chosen or options.quick and max(map(int, model.split()[1:])) > MOST_QUICK:
                continue
            file = near.model_file(model, pathlib.Path(folder) / "model.drn")
            if not options.quick or file.states <= MOST_QUICK:
                yield from (measure(model, query, file, options) for query in chosen)


def options_of(words):
    parser = argparse.ArgumentParser(description=__doc__, formatter_class=argparse.RawDescriptionHelpFormatter, usage="bench/witness.py [OPTION ..]")
    parser.add_argument("--program", type=pathlib.Path, default=trying.built_program())
    parser.add_argument("--only", default="")
    parser.add_argument("--limit", type=int, default=120)
    parser.add_argument("--quick", action="store_true")
    return parser.parse_args(words)


def main(words):
    options = options_of(words)
    ends = list(measure_all(options))
    if not ends:
        sys.exit(f"bench/witness.py: nothing has {options.only} in it")
    sys.exit(0 if all(ends) else 1)


if __name__ == "__main__":
    main(sys.argv[1:])
