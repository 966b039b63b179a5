"""Makes the pictures of docs/ again, and holds the groups of crates in docs/architecture.md against crates.txt.

    tools/draw --write    writes the diagram of the groups in docs/architecture.md, between its two marks; and docs/pictures/NAME.svg, models of examples/
                          with their certificates, by tools/picture and Graphviz's dot
    tools/draw --check    writes nothing, and ends with 1 after a line for each thing that is wrong; so does tools/draw alone

The page is read for the groups: each heading `### GROUP` that has rows `| [CRATE](..) | .. |` below it is a group of these crates. A sentence
`**Invariant: WHO never stands on WHAT.**` says that no crate of WHO stands on one of WHAT, directly or by others. WHO and WHAT are lists of crates and of
names of groups; `this group` is that of the heading above, `another group` all the others, and behind `but for` stand those of WHO that may.

Wrong are: a crate in no group or in two, a crate that isn't there, a group without an invariant, a crate that breaks one, and a diagram of other groups.
"""

import pathlib
import re
import subprocess
import sys

TOP = pathlib.Path(__file__).resolve().parent.parent.parent
ARCHITECTURE = TOP / "docs" / "architecture.md"
BEGIN, END = "<!-- from crates.txt, by tools/draw -->\n", "<!-- up to here -->\n"
INVARIANT = re.compile(r"\*\*Invariant: (.+?) never stands? on (.+?)\.\*\*", re.DOTALL)
PICTURES = {
    "machine-least-cost": ("machine.drn", "machine-least-cost.cert"),
    "server-least-energy": ("server.drn", "server-least-energy.cert"),
    "transfer-risk": ("transfer.drn", "transfer-risk.cert"),
    "retransmission-risk": ("--kept", "retransmission-4.drn", "retransmission-risk.cert"),
}


def crates():
    """The crates of the repository, lowest first as crates.txt lists them, and those that each uses."""
    lines = [line.partition("#")[0].strip() for line in (TOP / "crates.txt").read_text().split("\n")]
    uses = {name: rest.split() for name, _, rest in (line.partition(":") for line in lines if line)}
    return {name: [other for other in others if other in uses] for name, others in uses.items()}


def below(uses, name):
    """All crates on which one stands."""
    return set(uses[name]).union(*(below(uses, other) for other in uses[name]))


def direct(uses, name):
    """The crates that one uses, without those on which another of them stands."""
    deep = set().union(*(below(uses, other) for other in uses[name]))
    return [other for other in uses[name] if other not in deep]


def groups(text):
    """The groups of the page, by their names: the crates of each in the order of the page, and what is written of it."""
    parts = (part.partition("\n") for part in re.split(r"^###? ", text, flags=re.MULTILINE)[1:])
    found = {name: (re.findall(r"^\| \[(mdp_\w+)\]", body, re.MULTILINE), body) for name, _, body in parts}
    return {name: group for name, group in found.items() if group[0]}


def meant(words, own, members):
    """The crates that a list in an invariant of the group `own` means; the program ends where a word of it is neither a crate nor a group."""
    names = {name.lower(): list_of for name, list_of in members.items()}
    others = [crate for name, list_of in members.items() if name != own for crate in list_of]
    names.update({"this group": members[own], "another group": others}, **{crate: [crate] for crate in members[own] + others})
    words = " ".join(words.split()).lower()
    known = "|".join(sorted(map(re.escape, names), key=len, reverse=True))
    left = re.sub(rf"\b({known})\b", "", words)
    if re.search(r"\w", re.sub(r"\b(and|or)\b", "", left)):
        sys.exit(f"tools/draw: what is meant by `{words}` in the invariant of `{own}`?")
    return [crate for name in re.findall(rf"\b({known})\b", words) for crate in names[name]]


def broken(uses, members, own, body):
    """A line for each crate that breaks an invariant of a group, and one where the group has none."""
    found = INVARIANT.findall(body)
    if not found:
        yield f"the group `{own}` has no invariant"
    for who, what in found:
        who, _, may = who.partition("but for")
        forbidden = set(meant(what, own, members))
        for crate in sorted(set(meant(who, own, members)) - set(meant(may, own, members))):
            for other in sorted(below(uses, crate) & forbidden):
                yield f"{crate} stands on {other}: `{own}` says that it never does"


def faults(text):
    """A line for each thing that is wrong with the page."""
    uses, found = crates(), groups(text)
    members = {name: list_of for name, (list_of, _) in found.items()}
    listed = [crate for list_of in members.values() for crate in list_of]
    yield from (f"{crate} is in {listed.count(crate)} groups, and not in one" for crate in uses if listed.count(crate) != 1)
    gone = sorted(set(re.findall(r"\bmdp_\w+\b", text)) - set(uses))
    yield from (f"{crate} is no crate of crates.txt" for crate in gone)
    if gone:
        return
    for own, (_, body) in found.items():
        yield from broken(uses, members, own, body)
    if with_diagram(text) != text:
        yield "the diagram isn't that of the groups: tools/draw --write"


def diagram(text):
    """The groups, and an arrow from each to those that it stands on, with the topmost crates there that its crates use, but for those of tests."""
    uses = crates()
    members = {name: list_of for name, (list_of, _) in groups(text).items()}
    node = {name: f"g{at}" for at, name in enumerate(members, 1)}
    used = {name: {other for crate in list_of if not crate.endswith("_tests") for other in direct(uses, crate)} for name, list_of in members.items()}
    yield "```mermaid"
    yield "graph BT"
    for name, list_of in members.items():
        yield f'  {node[name]}["{name}: {len(list_of)} crates"]'
    for name in members:
        for other, list_of in members.items():
            doors = [crate for crate in list_of if crate in used[name]]
            if doors and other != name:
                yield f'  {node[name]} -->|"{"<br>".join(doors)}"| {node[other]}'
    yield "```"


def with_diagram(text):
    front, begin, rest = text.partition(BEGIN)
    _, end, back = rest.partition(END)
    if not begin or not end:
        sys.exit(f"tools/draw: {ARCHITECTURE} lacks the marks of its diagram")
    return front + BEGIN + "\n".join(diagram(text)) + "\n" + END + back


def draw_examples():
    folder = TOP / "docs" / "pictures"
    folder.mkdir(exist_ok=True)
    for name, (*options, model, cert) in PICTURES.items():
        examples = TOP / "examples"
        text = subprocess.run([TOP / "tools" / "picture", *options, examples / model, examples / cert], stdout=subprocess.PIPE, check=True).stdout
        subprocess.run(["dot", "-Tsvg", "-o", folder / f"{name}.svg"], input=text, check=True)


def main(words):
    if words[:1] in (["--help"], ["-h"]):
        print(__doc__)
        return
    if words not in ([], ["--check"], ["--write"]):
        sys.exit(__doc__)
    text = ARCHITECTURE.read_text()
    if words != ["--write"]:
        sys.exit("\n".join(f"tools/draw: docs/architecture.md: {fault}" for fault in faults(text)) or 0)
    ARCHITECTURE.write_text(with_diagram(text))
    draw_examples()
