"""Has the prover check wrong bodies, those of tools/wrong_bodies.txt, and says of each whether it is refused.

    tools/wrong_bodies [--crate NAME] [--again] [--list]
    tools/wrong_bodies --test

The gate tries one wrong body a crate (must-fail/), since each costs a whole check of its crate. Here those that stand in different functions of a crate
share a copy of it and one check, which proves those functions alone; one that calls another of them is tried again without it. As many crates are tried at
a time as there are processors and memory for them. What was found is kept in out/wrong-bodies beside a sum over the crate's sources, the entry and the
toolchain, so a later call goes on where this one stopped; what each check printed is beside it. --again forgets what is kept, --crate tries the
bodies of one crate alone, --list prints the table and what is kept of it. The libraries below are those that tools/build keeps, where it has all of them
(bin/mdp), and else those that `rt check` makes and keeps in out/rlib.

    refused   a goal of the function itself is open, or an answer that is written for it doesn't fit
    unclear   a name is gone that the answers written for it speak of, which by itself shows nothing, and without them the prover proves neither it nor
              the real body: read the clause
    proved    the function is proved
    failed    it can't be applied, doesn't compile, or the check gave no verdict

Entries with a line `proved:` are known to be proved, and it says why that is right, or which clause is missing. Ends with 1 where another one is
proved, where one of these is refused, or where one failed. With --test it proves nothing: it looks at the table alone. Each crate, file and function is
there, each old text stands once, where the function is; each new one differs; names are unique; and there are at least 300.
"""

import argparse
import collections
import concurrent.futures
import dataclasses
import hashlib
import json
import pathlib
import re
import shutil
import subprocess
import sys
import tempfile
import threading
import time

from . import build

TOP = pathlib.Path(__file__).resolve().parent.parent.parent
TABLE = TOP / "tools" / "wrong_bodies.txt"
KEPT = TOP / "out" / "wrong-bodies"
FEWEST, SECONDS = 300, 3600
FIELDS = ("wrong", "clause", "seen", "proved")
LOCK = threading.Lock()


# ---- the table


@dataclasses.dataclass
class Body:
    """A wrong body: where it stands, what is wrong with it, the clause that refuses it, what a user would have seen, and its edits, old and new."""

    name: str
    crate: str
    file: str
    function: str
    texts: dict
    edits: list

    def path(self, crates=TOP / "crates"):
        return crates / self.crate / "src" / self.file

    def full(self):
        """The function's name, as the prover prints it."""
        return f"{self.crate}::{self.function}"

    def is_alone(self):
        """Whether it changes what stands outside its function, so that others of the same copy could be refused for it."""
        return any(re.match(r"(pub(\([a-z]+\))? )?const ", old) for old, _ in self.edits)

    def answers(self):
        """The folder of what is written for the proof of its function, in its crate."""
        return f"proofs/{self.function.replace('::', '/')}/"

    def applied(self, text):
        """The text of the file with the edits; None where an old text doesn't stand there once."""
        for old, new in self.edits:
            if text.count(old) != 1:
                return None
            text = text.replace(old, new)
        return text

    def sum(self, source):
        """A sum over what the verdict on it is about: the sources of its crate, given as a sum, and itself."""
        return hashlib.sha256(repr((source, self.file, self.function, self.edits)).encode()).hexdigest()


def entries():
    """The wrong bodies of the table, in its order."""
    found = []
    for number, line in enumerate(TABLE.read_text().split("\n"), 1):
        field, _, text = line.partition(": ")
        if line.startswith("== "):
            found.append(Body(*line[3:].split(" ", 3), {}, []))
        elif line.startswith("-"):
            found[-1].edits.append([line[1:], ""])
        elif line.startswith("|"):
            found[-1].edits[-1][0] += "\n" + line[1:]
        elif line.startswith("+"):
            edit = found[-1].edits[-1]
            edit[1] += ("\n" if edit[1] else "") + line[1:]
        elif field in FIELDS:
            found[-1].texts[field] = text
        elif line and not line.startswith("#"):
            sys.exit(f"{TABLE.relative_to(TOP)}: line {number} can't be read: {line}")
    return found


def function_at(text, place):
    """The name of the function in which a place of a source stands, or that follows it where it stands in none."""
    before = re.findall(r"^ *(?:pub(?:\([a-z]+\))? )?(?:const )?fn (\w+)", text[:place], re.MULTILINE)
    return before[-1] if before else ""


def functions_of(text):
    """The functions of a source, as the prover names them behind the module: a method behind its type, which has the name of its trait and of that one's
    types at its end."""
    found, owner = set(), ""
    for line in text.split("\n"):
        head = re.match(r"impl(?:<.*?>)? (?:(\w+)(<.*?>)? for )?(\w+)", line)
        function = re.match(r" *(?:pub(?:\([a-z]+\))? )?(?:const )?fn (\w+)", line)
        if head:
            owner = "".join([head[3], head[1] or "", *re.findall(r"\b[A-Z]\w*", head[2] or "")]) + "::"
        elif function:
            found.add(owner + function[1])
        elif line == "}":
            owner = ""
    return found


def wrong_with(body, lines):
    """What is wrong with an entry, or nothing."""
    if body.crate not in lines or not body.path().is_file():
        yield f"there is no file {body.path().relative_to(TOP)}"
        return
    text = body.path().read_text()
    if body.function.split("::", 1)[-1] not in functions_of(text):
        yield f"there is no function {body.function} in {body.path().relative_to(TOP)}"
    for old, new in body.edits:
        if text.count(old) != 1:
            yield f"its old text stands {text.count(old)} times in {body.path().relative_to(TOP)}: {old}"
        elif not body.is_alone() and function_at(text, text.index(old) + len(old)) != body.function.split("::")[-1]:
            yield f"its old text stands in the function {function_at(text, text.index(old) + len(old))}, not in {body.function}"
        if old == new:
            yield "its new text is the old one"
    if not body.edits:
        yield "it has no edit"
    yield from (f"it has no line {field}:" for field in FIELDS[:3] if not body.texts.get(field) and not (field == "clause" and body.texts.get("proved")))


def test(bodies):
    """Says what is wrong with the table, and ends with 1 where anything is."""
    lines = build.lines_of_crates()
    wrong = [f"{TABLE.name}: {body.name}: {text}" for body in bodies for text in wrong_with(body, lines)]
    counts = collections.Counter(body.name for body in bodies)
    wrong += [f"{TABLE.name}: {name} stands there {count} times" for name, count in counts.items() if count > 1]
    if len(bodies) < FEWEST:
        wrong.append(f"{TABLE.name}: there are {len(bodies)}, and not {FEWEST}")
    print(*wrong, f"{len(bodies)} wrong bodies of {len({body.crate for body in bodies})} crates, {len(wrong)} wrong", sep="\n")
    sys.exit(1 if wrong else 0)


# ---- what is kept


def kit():
    """The folder of the toolchain."""
    return pathlib.Path(shutil.which("rt") or sys.exit("tools/wrong_bodies: rt isn't on the PATH")).resolve().parent.parent


def source_sum(name):
    """A sum over the files of a crate and the toolchain."""
    made = hashlib.sha256((kit() / "KIT-ID").read_bytes())
    crate = TOP / "crates" / name
    for file in build.files_of(crate):
        made.update(repr((str(file.relative_to(crate)), file.read_bytes())).encode())
    return made.hexdigest()


def kept_of(name):
    """What is kept of a crate: the ends of its wrong bodies, and why, by their sums."""
    try:
        return json.loads((KEPT / f"{name}.json").read_text())
    except (OSError, ValueError):
        return {}


def keep(name, kept):
    KEPT.mkdir(parents=True, exist_ok=True)
    (KEPT / f"{name}.new").write_text(json.dumps(kept, indent=1))
    (KEPT / f"{name}.new").rename(KEPT / f"{name}.json")


# ---- the libraries below


class Libraries:
    """Where the libraries are that the crates stand on: those that tools/build keeps, where it has all of them; else those of `rt check`."""

    def __init__(self, folder, names):
        self.lines = build.lines_of_crates()
        self.deps = build.uses(self.lines)
        needed = set().union(*(build.below(name, self.deps) for name in names))
        self.room = build.Room(folder, [name for name in self.lines if name in needed], self.lines, self.deps)
        self.is_built = all([self.room.take(name) for name in self.lines if name in needed])
        if not self.is_built:
            for name in self.tops(names):
                subprocess.run(["rt", "check", "--only", ""], cwd=TOP / "crates" / name, stdin=subprocess.DEVNULL, stdout=subprocess.DEVNULL, check=False)
        lacking = [name for name in self.lines if name in needed and not self.rlib(name).is_dir()]
        if lacking:
            sys.exit(f"tools/wrong_bodies: there are no libraries of {', '.join(lacking)}")

    def tops(self, names):
        """Those of the crates that no other one of them stands on."""
        return [name for name in names if not any(name in build.below(other, self.deps) for other in names)]

    def rlib(self, name):
        return self.room.rlib(name) if self.is_built else TOP / "crates" / name / "out" / "rlib" / f"{name}.rlib"

    def words(self, name, functions, kept):
        """The command that checks functions of a crate alone."""
        of_kit = [other for other in self.lines[name].partition(":")[2].split() if other not in self.lines]
        words = ["--crate-name", name, "src/main.rt" if (TOP / "crates" / name / "src" / "main.rt").is_file() else "src/lib.rt"]
        for other in ["std", *of_kit]:
            words += ["--extern", f"{other}={kit()}/rlibs/{other}.rlib"]
        for other in self.deps[name]:
            words += ["--extern", f"{other}={self.rlib(other)}"]
        for folder in [kit() / "rlibs", *(self.rlib(other).parent for other in sorted(build.below(name, self.deps)))]:
            words += ["-L", f"dependency={folder}"]
        words += ["--antt-project", f"{kit()}/rattle/logic/antt-project.json", "--logic-built", f"{kit()}/logic_built"]
        words += ["--links", f"{name}=", "--incremental", str(kept)]
        for function in functions:
            words += ["--only", function]
        return [f"{kit()}/bin/rattle", "check", *words]


# ---- the trial


def rounds(bodies):
    """The bodies of a crate in groups, each with at most one of a function."""
    groups, places = [], collections.Counter()
    for body in bodies:
        place = places[body.function]
        places[body.function] += 1
        groups += [[] for _ in range(place + 1 - len(groups))]
        groups[place].append(body)
    alone = [[body] for group in groups for body in group if body.is_alone()]
    return [group for group in ([body for body in group if not body.is_alone()] for group in groups) if group] + alone


def copied(name, bodies, place, way):
    """Copies a crate and puts wrong bodies into it; those that can't be applied. `bare` is without the answers that are written for them, and `real` so too,
    but with the bodies that stand there."""
    for part in build.PARTS:
        if (TOP / "crates" / name / part).is_dir():
            shutil.copytree(TOP / "crates" / name / part, place / "crates" / name / part)
    failed = []
    for body in bodies:
        path = body.path(place / "crates")
        text = body.applied(path.read_text()) if path.is_file() else None
        if text is None:
            failed.append(body)
        elif way != "real":
            path.write_text(text)
        if way != "wrong":
            (place / "crates" / name / body.answers() / "Answers.antt").unlink(missing_ok=True)
    return failed


def end_of(body, said):
    """How the check of a wrong body ended, and the words that say so. A function waits where it calls one that isn't proved: then its goals aren't tried."""
    found = [line.partition(": ")[2] for line in said if line.startswith(f"fn {body.full()}: ")]
    if not found:
        return "failed", "the check says nothing of its function"
    if found[-1] in ("proved", "could not tell"):
        return ("proved" if found[-1] == "proved" else "failed"), found[-1]
    errors = [line for line in said if body.answers() in line and ": error: " in line]
    if errors:
        is_gone = all(re.search(" has no (field )?`", line) for line in errors)
        return ("unclear" if is_gone else "refused"), " ".join(errors)[:400]
    own = re.sub(r"^(no proof|not proved)[:;]? ?(expected \w+ in \S+; )?", "", found[-1])
    return ("waits" if own.startswith("it calls ") else "refused"), own or found[-1]


def checked_once(name, bodies, trial, folder, checked, way):
    """Puts wrong bodies into a copy and checks their functions: those that can't be applied, and the lines that the check printed."""
    failed = copied(name, bodies, folder, way)
    words = trial.libraries.words(name, [body.function for body in bodies if body not in failed], checked)
    try:
        ended = subprocess.run(words, cwd=folder / "crates" / name, stdin=subprocess.DEVNULL, capture_output=True, timeout=SECONDS, check=False)
        said = (ended.stdout + ended.stderr).decode(errors="replace").split("\n")
    except subprocess.TimeoutExpired:
        said = [f"no verdict in {SECONDS} seconds"]
    (KEPT / "said").mkdir(parents=True, exist_ok=True)
    (KEPT / "said" / f"{bodies[0].name}-{way}.txt").write_text("\n".join(said))
    return failed, said


def tried_once(name, bodies, trial, checked, way):
    """How the checks of wrong bodies ended that share a copy, and whether they compile."""
    with tempfile.TemporaryDirectory(dir=trial.room) as folder:
        failed, said = checked_once(name, bodies, trial, pathlib.Path(folder), checked, way)
    ends = {body.name: ("failed", "it can't be applied") for body in failed}
    well = [body for body in bodies if body not in failed]
    if any(line.startswith("fn ") for line in said):
        return {**ends, **{body.name: end_of(body, said) for body in well}}, True
    error = next((line for line in said if line.startswith("error")), said[-1])
    return {**ends, **{body.name: ("failed", error) for body in well}}, not well


def tried(name, bodies, trial, checked, way="wrong"):
    """The same, where those of several that don't compile are tried by halves, and those that wait for another again without it."""
    ends, compiles = tried_once(name, bodies, trial, checked, way)
    again = [body for body in bodies if ends[body.name][0] == "waits"] if compiles else bodies
    if len(bodies) == 1:
        return {name: ("failed" if end == "waits" else end, why) for name, (end, why) in ends.items()}
    half = len(again) if len(again) < len(bodies) else len(again) // 2
    for part in (again[:half], again[half:]):
        ends.update(tried(name, part, trial, checked, way) if part else {})
    return ends


def tried_twice(name, bodies, trial, checked):
    """The same, where those whose answers speak of a name that is gone are tried again without answers, as the real bodies are then: one that is proved all
    the same is proved, and one that isn't, where the real one is, is refused."""
    ends = tried(name, bodies, trial, checked)
    again = [body for body in bodies if ends[body.name][0] == "unclear"]
    bare, real = (tried(name, again, trial, checked, way) if again else {} for way in ("bare", "real"))
    for body in again:
        end, why = bare[body.name]
        if end == "proved":
            ends[body.name] = end, why
        elif end == "refused" and real[body.name][0] == "proved":
            ends[body.name] = end, f"without answers, where the real body is proved: {why}"
    return ends


class Trial:
    """What the trials share: the libraries, and a room for copies."""

    def __init__(self, room, libraries):
        self.room, self.libraries = room, libraries

    def try_crate(self, name, bodies):
        """Tries the wrong bodies of a crate, group by group: what was checked for one group needn't be for the next."""
        checked = pathlib.Path(tempfile.mkdtemp(dir=self.room))
        for group in rounds(bodies):
            self.try_group(name, group, checked)

    def try_group(self, name, bodies, checked):
        """Tries wrong bodies of a crate that stand in different functions, and keeps what was found."""
        began, source = time.monotonic(), source_sum(name)
        ends = tried_twice(name, bodies, self, checked)
        with LOCK:
            keep(name, {**kept_of(name), **{body.sum(source): [body.name, *ends[body.name]] for body in bodies}})
            print(f"{name}: {len(bodies)} in {time.monotonic() - began:.0f} seconds", flush=True)
            print(*(f"    {body.name}: {' '.join(ends[body.name])[:180]}" for body in bodies), sep="\n", flush=True)


def untried(bodies):
    """Those wrong bodies of which nothing is kept."""
    ends = ends_kept(bodies)
    return [body for body in bodies if ends[body.name][0] == "untried"]


def try_all(by_crate):
    """Tries the wrong bodies of which nothing is kept, those of the crates that take longest first."""
    left = {name: untried(bodies) for name, bodies in by_crate.items()}
    left = {name: bodies for name, bodies in left.items() if bodies}
    if not left:
        return
    with tempfile.TemporaryDirectory(prefix="wrong-bodies-", dir=build.place_of_copies()) as folder:
        trial = Trial(pathlib.Path(folder), Libraries(pathlib.Path(folder), [*left]))
        order = sorted(left, key=lambda name: -build.times_of(name, trial.libraries.deps)[0])
        with concurrent.futures.ThreadPoolExecutor(build.processors()) as at_once:
            for done in [at_once.submit(trial.try_crate, name, left[name]) for name in order]:
                done.result()


def ends_kept(bodies):
    """What is kept of each wrong body: how it ended, and why."""
    sources = {name: source_sum(name) for name in {body.crate for body in bodies}}
    kept = {name: kept_of(name) for name in sources}
    return {body.name: kept[body.crate].get(body.sum(sources[body.crate]), ["", "untried", ""])[1:] for body in bodies}


def say_ends(bodies, ends):
    """Prints what isn't as it is to be, and how many ended how; whether all is as it is to be."""
    due = {body.name: "proved" if "proved" in body.texts else "refused" for body in bodies}
    for body in bodies:
        end, why = ends[body.name]
        if end != due[body.name]:
            print(f"{end}: {body.name}: {body.full()}: {body.texts['wrong']}\n    {body.texts.get('clause', '')}\n    {why}")
    counts = collections.Counter((due[body.name], ends[body.name][0]) for body in bodies)
    for known, title in (("refused", "wrong bodies"), ("proved", "that are known to be proved")):
        found = {end: count for (other, end), count in counts.items() if other == known}
        print(f"{sum(found.values())} {title}: {', '.join(f'{count} {end}' for end, count in sorted(found.items()))}")
    return not any(end == "failed" or end == "untried" or {end, known} == {"proved", "refused"} for known, end in counts)


def main(words):
    parser = argparse.ArgumentParser(usage="tools/wrong_bodies [--crate NAME] [--again] [--list] [--test]", description=__doc__)
    parser.formatter_class = argparse.RawDescriptionHelpFormatter
    for flag in ("again", "list", "test"):
        parser.add_argument(f"--{flag}", action="store_true")
    parser.add_argument("--crate", metavar="NAME")
    words = parser.parse_args(words)
    bodies = entries()
    if words.test:
        test(bodies)
    bodies = [body for body in bodies if words.crate in (None, body.crate)]
    if not bodies:
        sys.exit(f"tools/wrong_bodies: no entry of {words.crate}")
    by_crate = {name: [body for body in bodies if body.crate == name] for name in {body.crate: 0 for body in bodies}}
    if words.list:
        ends = ends_kept(bodies)
        print(*(f"{body.name}: {body.full()}: {body.texts['wrong']}: {ends[body.name][0]}" for body in bodies), sep="\n")
        return
    for name in by_crate if words.again else []:
        keep(name, {})
    try_all(by_crate)
    sys.exit(0 if say_ends(bodies, ends_kept(bodies)) else 1)
