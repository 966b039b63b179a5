"""Makes docs/promises.md from the sources: each public call with the names of its clauses, the definitions that they cite, and its proof.

    tools/promises --write      writes docs/promises.md
    tools/promises --check      says whether it is what would be written, as tools/promises alone does

Ends with 1 where the page isn't, and where tools/promises.txt names a call or a clause that isn't in the sources, or links to what isn't there.

What stands in tools/promises.txt:

    the introduction, up to the first line `== CRATE`
    == CRATE                    a crate; what stands behind it, up to the first `* `, is copied
    * CALLS | CLAUSES | TEXT    what these clauses of these calls say; with `-` for CLAUSES, all that no other line of these calls has

A call is `function`, `Type::method` or `Trait::method`; a type or a trait alone is all its calls that no other line names. A public call without a
line comes with the first sentence of its comment, and a crate that isn't there with the comment of its root. What a user wants comes before how it is
computed: the clauses of MEANT come first, those of COMPUTED last.
"""

import pathlib
import re
import sys
from dataclasses import dataclass, field

from .imports import of_specs

TOP = pathlib.Path(__file__).resolve().parent.parent.parent
PAGE, TEXTS = TOP / "docs" / "promises.md", TOP / "tools" / "promises.txt"
TESTS = {"mdp_tests"}

# Clauses that say what an answer means, which come first, and those that say how it is computed or that there is only one, which come last.
MEANT = ["max", "min", "bound", "best", "sub_max", "sub_min", "within", "solves", "true_claim", "holds", "rules"]
COMPUTED = ["path", "written", "verdict", "once", "one_end", "one_round", "one_value", "value", "wide", "place", "each", "one_each"]


class Wrong(Exception):
    """tools/promises.txt and the sources don't fit."""


# ---- the sources


@dataclass
class Clause:
    name: str
    text: str


@dataclass
class Call:
    crate: str
    file: pathlib.Path
    owner: str  # the type or the trait, or nothing
    name: str
    trait: str  # the trait that is implemented, or nothing
    comment: str
    clauses: list = field(default_factory=list)
    uses: dict = field(default_factory=dict)  # the definitions that its file names, with their files

    @property
    def title(self):
        return f"{self.owner}::{self.name}" if self.owner else self.name

    @property
    def proof(self):
        """The folder of its proof, where it has one."""
        folder = TOP / "crates" / self.crate / "proofs" / self.file.stem
        found = [folder / owner / self.name for owner in (self.owner + self.trait, self.owner)] if self.owner else [folder / self.name]
        return next((path for path in found if path.is_dir()), None)


def crates():
    names = [line.split(":")[0] for line in (TOP / "crates.txt").read_text().split("\n") if line.startswith("mdp_")]
    return [name for name in names if name not in TESTS]


def exported(crate):
    """The names that the crate's root hands on; none where it is a program, all of whose public items count."""
    root = TOP / "crates" / crate / "src" / "lib.rt"
    if not root.exists():
        return None
    lists = re.findall(r"^pub use [a-z_:]+::(\{[^}]*\}|\w+);", root.read_text(), re.MULTILINE)
    return {name for names in lists for name in re.findall(r"\w+", names)}


def specs_file(crate, path):
    return TOP / "crates" / crate / "specs" / (path.replace(".", "/") + ".antt")


def defining(file, name):
    """The file that defines a name which this one defines or passes on; None where that is the toolchain's."""
    for crate, path, names, _ in [found for line in file.read_text().split("\n") for found in of_specs(line, is_passed_on=True)]:
        if name in names:
            other = specs_file(crate, path)
            return defining(other, name) if other.exists() else None
    return file


def definitions(text):
    """The definitions that the `ghost use` lines of a text name, each with its file."""
    found = {}
    for crate, path, names, _ in [found for line in text.split("\n") for found in of_specs(line)]:
        file = specs_file(crate, path)
        for name in names:
            if file.exists() and defining(file, name):
                found[name] = defining(file, name)
    return found


def clauses_of(lines):
    """The `ensures` clauses among the lines of a contract; one may run over several lines."""
    text = "\n".join(lines)
    starts = [found for found in re.finditer(r"^ +(ensures|requires)\b ?(\w*) ?\{", text, re.MULTILINE)]
    ends = [found.start() for found in starts[1:]] + [len(text)]
    return [Clause(found[2], text[found.end() : end]) for found, end in zip(starts, ends) if found[1] == "ensures"]


def contract(lines, first):
    """The lines of an item's head, up to the brace of its body or to a semicolon."""
    indent = re.match(r" *", lines[first])[0]
    for last in range(first, len(lines)):
        opens = lines[last].endswith("{") and (last == first or lines[last].startswith(indent + ")"))
        if opens or lines[last] in (indent + "{", indent + "{}") or lines[last].endswith(";"):
            return lines[first : last + 1]
    return lines[first:]


def comment(lines, first):
    """The first sentence of the comment above a line."""
    above = first
    while above and re.match(r" *(///|#\[)", lines[above - 1]):
        above -= 1
    text = " ".join(re.sub(r"^ */// ?", "", line) for line in lines[above:first] if "///" in line)
    return re.match(r"(.*?)(?:\.(?= |$)|$)", text)[1]


def calls_of_file(crate, file, public):
    lines = file.read_text().split("\n")
    uses, owner, trait, kind = definitions("\n".join(lines)), "", "", ""
    for number, line in enumerate(lines):
        block = re.match(r"(?:pub )?(impl|trait)\b(?:<.*?>(?= ))? ?(.*)\{", line)
        if block:
            head = re.sub(r"<[^<>]*(?:<[^<>]*>[^<>]*)*>", "", block[2]).strip()
            kind = block[1]
            trait, _, owner = head.rpartition(" for ")
            trait, owner = trait.strip(), re.match(r"\w*", owner.strip())[0]
        elif line == "}":
            owner = trait = kind = ""
        found = re.match(r"( *)(pub )?fn (\w+)", line)
        if not found:
            continue
        is_member = bool(found[1])
        is_public = bool(found[2]) or is_member and (kind == "trait" or bool(trait))
        if not is_public or public is not None and (owner if is_member else found[3]) not in public:
            continue
        call = Call(crate, file, owner if is_member else "", found[3], trait if is_member else "", comment(lines, number), uses=uses)
        call.clauses = clauses_of(contract(lines, number))
        if call.clauses:
            yield call


def calls_of(crate):
    public = exported(crate)
    files = sorted((TOP / "crates" / crate / "src").rglob("*.rt"))
    return [call for file in files if not file.stem.endswith("tests") for call in calls_of_file(crate, file, public)]


# ---- tools/promises.txt


@dataclass
class Line:
    names: list
    clauses: list
    text: str


@dataclass
class Section:
    crate: str
    text: str
    lines: list


def texts():
    """The introduction, and a section for each crate."""
    intro, *parts = re.split(r"^== ", TEXTS.read_text(), flags=re.MULTILINE)
    sections = []
    for part in parts:
        crate, _, body = part.partition("\n")
        text, *entries = re.split(r"^\* ", body, flags=re.MULTILINE)
        lines = []
        for entry in entries:
            cells = " ".join(entry.split()).split(" | ")
            if len(cells) != 3:
                raise Wrong(f"{crate}: not three cells: {entry}")
            lines.append(Line(re.split(r", ", cells[0]), cells[1].strip("- ").split(), cells[2]))
        sections.append(Section(crate.strip(), text.strip(), lines))
    return intro.strip(), sections


# ---- the page


def link(path, text):
    return f"[{text}](../{path.relative_to(TOP)})"


def ordered(names):
    """The names of clauses: what an answer means, then the others, then how it is computed."""
    return sorted(dict.fromkeys(names), key=lambda name: (MEANT.index(name) if name in MEANT else len(MEANT), name in COMPUTED))


def matching(calls, name, taken):
    """The calls that a name of tools/promises.txt means; a type or a trait means those that no line names."""
    exact = [call for call in calls if call.title == name]
    return exact or [call for call in calls if call.owner == name and call.title not in taken]


def implemented(crate, name):
    """The trait whose clauses are all that a type has, and its file."""
    for file in sorted((TOP / "crates" / crate / "src").glob("*.rt")):
        found = re.search(rf"^impl(?:<.*?>)? (\w+)(?:<.*?>)? for {name}\b", file.read_text(), re.MULTILINE)
        if found and found[1] != "Model" and f"pub struct {name}" in file.read_text():
            return file, found[1]
    raise Wrong(f"{crate}: no public call {name}")


def clause_cell(clauses, many):
    named = [f"`{name}`" for name in ordered(clause.name for clause in clauses if clause.name)]
    unnamed = sum(not clause.name for clause in clauses)
    if not unnamed:
        return ", ".join(named)
    if named:
        return ", ".join([*named, "and one without a name" if unnamed == 1 else "and others without a name"])
    return "one clause" if unnamed == 1 else "one clause each" if many else f"{unnamed} clauses"


def definition_cell(clauses, uses):
    """Links to the definitions that the clauses cite: relations, and where there are none, all."""
    words = dict.fromkeys(word for clause in clauses for word in re.findall(r"[^\W\d][\w-]*", clause.text))
    found = [word for word in words if word in uses and uses[word].stem != "Mdp"]
    relations = [word for word in found if word[0].isupper()]
    return ", ".join(link(uses[word], f"`{word}`") for word in relations or found)


def proof_cell(calls):
    folders = [call.proof for call in calls]
    if not any(folders):
        return ""
    if len(calls) == 1:
        return link(folders[0], "proof")
    return ", ".join(link(folder, f"`{call.name}`") for call, folder in zip(calls, folders) if folder)


def row(first, calls, clauses, text):
    uses = {name: file for call in calls for name, file in call.uses.items()}
    cells = [first, clause_cell(clauses, len(calls) > 1), text, definition_cell(clauses, uses), proof_cell(calls) if first else ""]
    return "| " + " | ".join(cell or " " for cell in cells).replace("  ", " ") + " |"


def first_cell(line_names, calls):
    files = dict.fromkeys(call.file for call in calls)
    names = ", ".join(f"`{name}`" for name in line_names)
    return f"{names} ({', '.join(link(file, file.name) for file in files)})"


def rows_of(section, calls):
    """The rows of a crate, in the order of tools/promises.txt, and behind them those of the calls that it doesn't name."""
    taken = {name for line in section.lines for name in line.names}
    groups = {}
    for line in section.lines:
        groups.setdefault(tuple(line.names), []).append(line)
    named = set()
    for names, lines in groups.items():
        members = []
        for name in names:
            members += matching(calls, name, taken)
        if not members:
            file, trait = implemented(section.crate, names[0])
            yield f"| `{names[0]}` ({link(file, file.name)}) | those of `{trait}` | {lines[0].text} | | |"
            continue
        named |= {(call.file, call.title, call.trait) for call in members}
        clauses = [clause for call in members for clause in call.clauses]
        known = {clause.name for clause in clauses}
        said = {name for line in lines for name in line.clauses}
        if said - known:
            raise Wrong(f"{section.crate}: {', '.join(names)} has no clause {', '.join(sorted(said - known))}")
        rest = [clause for clause in clauses if clause.name not in said]
        left = {clause.name for clause in rest if clause.name}
        if left and all(line.clauses for line in lines):
            raise Wrong(f"{section.crate}: {', '.join(names)}: no line for the clauses {', '.join(sorted(left))}")
        first = first_cell(names, members)
        for line in sorted(lines, key=lambda line: bool(line.clauses) and set(line.clauses) <= set(COMPUTED)):
            shown = [clause for clause in clauses if clause.name in line.clauses or clause in rest and (not line.clauses or first and not clause.name)]
            yield row(first, members, shown, line.text)
            first = ""
    for call in calls:
        if (call.file, call.title, call.trait) not in named:
            yield row(first_cell([call.title], [call]), [call], call.clauses, call.comment[:1].lower() + call.comment[1:])


def is_named(name, path):
    """Whether a source or a definition has the name, as the last part of `Type::name`."""
    word = re.escape(name.split("::")[-1])
    return path.is_dir() or bool(re.search(rf"(?<![\w-]){word}(?![\w-])", path.read_text()))


def check_links(text):
    """Refuses a link to no file, or under a name that the file doesn't have; answers the sources that are linked to."""
    links = [(label, TOP / "docs" / path) for label, path in re.findall(r"\[([^\]]*)\]\((\.\./[^)#]*)\)", text)]
    for label, path in links:
        if not path.exists() or not all(is_named(name, path) for name in re.findall(r"`([\w:]+)`", label)):
            raise Wrong(f"{label} isn't in {path.resolve().relative_to(TOP)}")
    return "\n".join(path.read_text() for _, path in links if path.suffix == ".rt")


def check_clauses(intro, sources):
    """Refuses a promise whose clause or call no linked source has."""
    lists = re.findall(r"- Clauses?: (.*?)(?=\n *- |\n\n)", intro, re.DOTALL)
    for name in {name for text in lists for name in re.findall(r"(?<!\[)`(\w+)`", text)}:
        if not re.search(rf"\b(?:ensures|fn) {name}\b", sources):
            raise Wrong(f"the introduction: no source that it links to has the clause or the call {name}")


def about(crate):
    """What the root of a crate says of it."""
    root = next(root for name in ("lib.rt", "main.rt") if (root := TOP / "crates" / crate / "src" / name).exists())
    return " ".join(re.findall(r"^//! ?(.*)$", root.read_text(), re.MULTILINE))


def page():
    intro, sections = texts()
    check_clauses(intro, check_links(TEXTS.read_text()))
    order = crates()
    strange = {section.crate for section in sections} - set(order)
    if strange:
        raise Wrong(f"no crate {', '.join(sorted(strange))} in crates.txt")
    sections += [Section(crate, about(crate), []) for crate in set(order) - {section.crate for section in sections}]
    sections.sort(key=lambda section: order.index(section.crate))
    index = [f"[{section.crate}](#{section.crate})" for section in sections]
    parts = [intro, ",\n".join(", ".join(index[i : i + 4]) for i in range(0, len(index), 4)) + "."]
    for section in sections:
        calls = calls_of(section.crate)
        parts.append(f"### {section.crate}")
        parts += [section.text] if section.text else []
        rows = list(rows_of(section, calls))
        if rows:
            parts.append("\n".join(["| call | clauses | what they say | definitions | proof |", "|---|---|---|---|---|", *rows]))
    return "\n\n".join(parts) + "\n"


def main(words):
    if words[:1] in (["--help"], ["-h"]):
        print(__doc__)
        return
    if words not in ([], ["--check"], ["--write"]):
        sys.exit("usage: tools/promises [--check|--write]")
    try:
        text = page()
    except Wrong as wrong:
        sys.exit(f"tools/promises: {wrong}")
    if words == ["--write"]:
        PAGE.write_text(text)
    elif PAGE.read_text() != text:
        sys.exit("tools/promises: docs/promises.md isn't what the sources and tools/promises.txt say: tools/promises --write")
