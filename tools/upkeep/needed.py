"""Compares with docs/checker.md the definitions that the theorems of mdp_checker need, for each kind of claim, in reading order, each behind those that it
needs itself; and how many there are, and how many lines of code.

    tools/needed --check                        says whether the page differs, and ends with 1 then; so does tools/needed alone
    tools/needed --write                        writes them into the page
    tools/needed CRATE FILE NAME..              prints those that these definitions of crates/CRATE/specs/FILE.antt need
    tools/needed --without CASE,.. CRATE FILE NAME..    without the clauses whose left side has one of these constructors

What std defines, the types that the code declares (`specs.declared`), and the constructors and fields of a type aren't counted. Nor is what stands alone in
a field of a record that nothing here reads, where it holds a function, as how words are read that are only written, or a proof, as that a fraction is in
lowest terms.
"""

import functools
import pathlib
import re
import sys
import textwrap

from .imports import modules, of_specs

TOP = pathlib.Path(__file__).resolve().parent.parent.parent
PAGE = TOP / "docs" / "checker.md"
BEGIN, END = "<!-- from specs/, by tools/needed -->\n", "<!-- up to here -->\n"
HEAD = re.compile(r"^ *(?:infix[lr]? .*|(?:(?:pub|abbrev|unfoldable) )*(?:(?P<type>record|data) )?(?:pub )?(?P<name>[^\s:(){}]+) .*)$")
FIELD = re.compile(r"^  pub (\w+) : (.*)$")
WORD = re.compile(r"[^\s(){},;]+")

# What the clauses of `run` and `run_on_files` cite of the words, the sources and the files, and the definitions of the two theorems: one of a model in the
# text that is written of it, and one of any text of a model.
FRAME = [("mdp_checker", "Words", name) for name in ("asked", "model_path", "cert_path")]
FRAME += [("mdp_command", "Streams", name) for name in ("input", "output")] + [("mdp_command", "Opened", "OnFiles")]
OF_TEXT, OF_ANY = [FRAME + [("mdp_checker", "Run", name)] for name in ("IsYesTrueOfText", "IsYesTrue")]
# The kinds of claims, by the first line of a certificate, each with the constructors of its cases. A yes is to one of them, and then the clauses of the others
# don't apply.
KINDS = {
    "`mdp-certificate 1` or `2`": {
        "`reach`": "Exact reach policy",
        "`until`": "Exact until policy",
        "`reward`": "Exact reward rewards",
        "`mean`": "Exact mean gains",
        "`upper`": "Exact upper bounds",
        "`witness`": "Exact witness flow floor",
    },
    "`mdp-bounds 1`": {
        "bounds of `reach`": "Bounds reach probabilities",
        "bounds of `until`": "Bounds until probabilities",
        "bounds of `reward`": "Bounds reward rewards",
        "bounds of `mean`": "Bounds mean gains",
    },
    "`mdp-discount 1`": {"`discount`": "Discounted"},
    "`mdp-bounds 1` of a discounted reward": {"bounds of `discount`": "DiscountedBounds"},
    "`mdp-bounds 1` of a witness": {"bounds of `witness`": "SubsystemBounds"},
}
KIND_CASES = ("Exact", "Discounted", "Bounds", "DiscountedBounds", "SubsystemBounds")
CASES = {case for kinds in KINDS.values() for cases in kinds.values() for case in cases.split()}


def file_path(crate, path):
    return TOP / "crates" / crate / "specs" / (path.replace(".", "/") + ".antt")


class File:
    """A file of specs/: its definitions, each with its text, and what its names mean."""

    def __init__(self, crate, path):
        self.crate, self.path = crate, path
        self.texts, self.names, self.modules, self.fields = {}, {}, {}, {}
        self.cases, self.declared, self.of_std = set(), set(), set()
        lines = file_path(crate, path).read_text().split("\n")
        at = None
        for line in lines:
            line = line.split("--")[0].rstrip()
            uses = of_specs(line)
            for use in uses:
                self.read_use(*use)
            self.read_other(line)
            if not uses and re.match(r"^(?:  )?(?:pub |abbrev |unfoldable |record |data )", line) and not re.match(r"^  pub \w+ :", line):
                name = HEAD.match(line)
                at = name["name"] if name and name["name"] else at
                self.texts.setdefault(at, "")
            elif own := re.match(r"^([^\s:(){}]+) : ", line):
                at = own[1]
                self.texts.setdefault(at, "")
            if at is not None:
                self.texts[at] = self.texts.get(at, "") + line + "\n"
            if field := FIELD.match(line):
                self.fields.setdefault(field[1], []).append(field[2])
        # a constructor stands for its type
        for name, text in list(self.texts.items()):
            if re.match(r" *(pub )?data ", text):
                for line in text.split("\n")[1:]:
                    made = re.match(r"^ +(\S+) :", line)
                    if made:
                        self.names[made[1]] = (self.crate, self.path, name)
        self.cases |= set(self.names) & CASES

    def read_use(self, crate, path, names, alias):
        """What a line `use` brings in."""
        if not crate.startswith("mdp_"):
            return
        if ".declared" in "." + path:
            self.cases |= set(names) & CASES if path.endswith("CertificateKind.TheVariants") else set()
            self.declared |= {each.partition(" as ")[2] or each for each in names if ".TheVariants" not in path}
            return
        if not file_path(crate, path).exists():
            # the constructors of a type
            path, _, name = path.rpartition(".")
            if alias:
                self.names[alias] = (crate, path, name)
            for each in names:
                self.names[each.partition(" as ")[2] or each] = (crate, path, name)
            return
        if alias:
            self.modules[alias] = (crate, path)
        for name in names:
            given, _, own = name.partition(" as ")
            self.names[own or given] = (crate, path, given)

    def read_other(self, line):
        """The names that a line `use` brings in from outside the repository."""
        found = re.match(r"^(?:pub )?use (?!Rattle\.mdp_)(\S.*)$", line)
        if found:
            self.of_std |= {each for _, names, _ in modules(found[1]) for each in names}

    def means(self, word):
        """The definition that a word of a text names, or none."""
        if word in self.texts:
            return self.crate, self.path, word
        if word in self.names:
            return self.names[word]
        front, _, rest = word.partition(".")
        if front in self.modules:
            return (*self.modules[front], rest)
        return self.means(front) if rest and front else None

    def text(self, name, without):
        """The text of a definition, without the clauses of these cases."""
        kept, is_left_out = [], False
        for line in self.texts[name].split("\n"):
            left, equals, _ = (line + " ").partition(" = ")
            if WORD.findall(left)[:1] == [name] and equals:
                cases = set(re.findall(r"\((\S+) ", left)) | set(left.split()[1:]) & set(KIND_CASES)
                is_left_out = bool(cases & without & self.cases)
            elif not line.startswith("    "):
                is_left_out = False
            if not is_left_out:
                kept.append(line)
        return "\n".join(kept)


@functools.cache
def read_file(crate, path):
    return File(crate, path)


@functools.cache
def cited(file, text):
    """What a text of a file cites: fields of records, names from outside and declared types, and definitions."""
    read, outside, others = set(), set(), []
    for word in WORD.findall(text):
        read |= set(word.split(".")[1:])
        # an operator such as ≤ℚ is defined as ◌≤ℚ◌
        forms = (word, f"◌{word}◌", f"{word}◌")
        outside |= {("std", form) for form in forms if form in file.of_std} | {("declared", form) for form in forms if form in file.declared}
        others += [other for other in map(file.means, forms) if other]
    return read, outside, list(dict.fromkeys(others))


def without_fields(text, names):
    """The text of a definition, without what its records name in these fields."""
    kept, at = "", 0
    for field in re.finditer(r"(?<=[{;])\s*(\w+) = ", text):
        if field.start() < at or field[1] not in names:
            continue
        kept += text[at : field.start()]
        at, depth = field.end(), 0
        while depth or text[at] not in ";}":
            depth += (text[at] in "({") - (text[at] in ")}")
            at += 1
    return kept + text[at:]


class Needed:
    """The definitions that these need, and they, in reading order, without the clauses of these cases."""

    def __init__(self, roots, without=()):
        self.without, self.files, self.read = set(without), set(), set()
        self.visit_all(roots)
        self.read, before = set(), None
        while self.read != before:
            before = set(self.read)
            self.visit_all(roots)

    def visit_all(self, roots):
        self.order, self.seen, self.words = [], set(), set()
        self.left_out = self.unread_fields()
        for root in roots:
            self.visit(root)

    def unread_fields(self):
        """The fields of records that hold functions and proofs, and that nothing here reads."""
        types = {}
        for file in self.files:
            for name, found in file.fields.items():
                types.setdefault(name, []).extend(found)
        return {name for name, found in types.items() if name not in self.read and all("→" in each or each.startswith("T ") for each in found)}

    def visit(self, found):
        crate, path, name = found
        file = read_file(crate, path)
        self.files.add(file)
        if name not in file.texts:
            inner = file.names.get(name)
            return self.visit(inner) if inner and inner != found else None
        if found in self.seen:
            return None
        self.seen.add(found)
        read, outside, others = cited(file, without_fields(file.text(name, self.without), self.left_out))
        self.read |= read
        self.words |= outside
        for other in others:
            if other != found:
                self.visit(other)
        self.order.append(found)
        return None

    def outside(self, where):
        """How many names these cite of std, or of the types that the code declares."""
        return sum(place == where for place, _ in self.words)


def listed(order):
    """A line for each file, with the names of its definitions."""
    by_file = {}
    for crate, path, name in order:
        by_file.setdefault((crate, path), []).append(name)
    return [
        textwrap.fill(
            f"- {crate}, [{path}](../{file_path(crate, path).relative_to(TOP)}): {', '.join(f'`{name}`' for name in names)}",
            150, subsequent_indent="  ", break_long_words=False, break_on_hyphens=False)
        for (crate, path), names in by_file.items()
    ]


def lines_of_code(crate):
    """How many lines of a crate's src/ are code: no comment, no contract and no line `use`."""
    count, clause = 0, False
    for path in (TOP / "crates" / crate / "src").rglob("*.rt"):
        for line in path.read_text().split("\n"):
            text = line.strip()
            if re.match(r"(requires|ensures|ghost)\b", text):
                clause = text.count("{") > text.count("}")
            elif clause:
                clause = "}" not in text
            elif text and not text.startswith(("//", "use ", "#!")):
                count += 1
    return count


def common(lists):
    """What is in all of these lists, in the order of the first one."""
    first, *others = lists
    return [found for found in first if all(found in other for other in others)]


def behind(order, *others):
    """What is in this list and in none of the others."""
    return [found for found in order if not any(found in other for other in others)]


def all_of(lists):
    """What is in some of these lists, in their order."""
    return list(dict.fromkeys(found for order in lists for found in order))


def needed_by_kind(roots):
    """For each kind what these need."""
    return {kind: Needed(roots, CASES - set(cases.split())).order for kinds in KINDS.values() for kind, cases in kinds.items()}


def part(title, order):
    """A list with its title and its number."""
    return [f"**{title}**: {len(order)}", "", *listed(order), ""] if order else []


def page_part():
    """The part of the page that is made here."""
    of_text, of_any = needed_by_kind(OF_TEXT), needed_by_kind(OF_ANY)
    every = common(of_text.values())
    lines = ["| a yes to | of a model in the written text | of any text of a model |", "|---|---|---|"]
    lines += [f"| {kind} | {len(of_text[kind])} | {len(of_any[kind])} |" for kind in of_text]
    lines += [f"| some kind | {len(all_of(of_text.values()))} | {len(all_of(of_any.values()))} |", ""]
    whole = Needed(OF_TEXT + OF_ANY)
    lines += [f"These speak of {whole.outside('std')} names of the toolchain's library, and of {whole.outside('declared')} types that the code declares.", ""]
    crates = re.search(r"^mdp_checker:(.*)$", (TOP / "crates.txt").read_text(), re.MULTILINE)[1].split() + ["mdp_checker"]
    lines += [f"There are {sum(map(lines_of_code, crates))} lines of code in the {len(crates)} crates (without comments, contracts and imports).", ""]
    lines += part("Every kind", every)
    for first_line, kinds in KINDS.items():
        shared = behind(common([of_text[kind] for kind in kinds]), every)
        lines += part(f"{first_line} adds", shared)
        for kind in kinds:
            lines += part(f"{kind} adds to that", behind(of_text[kind], every, shared))
    lines += part("any text of a model adds", behind(all_of(of_any.values()), all_of(of_text.values())))
    return BEGIN + "\n".join(lines[:-1]) + "\n" + END


def main(words):
    if words[:1] in (["--help"], ["-h"]):
        print(__doc__)
        return
    sys.setrecursionlimit(10_000)
    without = set()
    if words[:1] == ["--without"] and len(words) > 2:
        without, words = set(words[1].split(",")), words[2:]
        if without - CASES:
            sys.exit(f"no such case: {', '.join(sorted(without - CASES))}; the cases are {', '.join(sorted(CASES))}")
    if len(words) > 2:
        order = Needed([(*words[:2], name) for name in words[2:]], without).order
        print(*listed(order), len(order), sep="\n")
        return
    if without or words not in ([], ["--check"], ["--write"]):
        sys.exit(__doc__)
    page = PAGE.read_text()
    due = page[: page.index(BEGIN)] + page_part() + page[page.index(END) + len(END) :]
    if words == ["--write"]:
        PAGE.write_text(due)
    elif page != due:
        sys.exit("docs/checker.md: the definitions aren't those of the sources: tools/needed --write")
