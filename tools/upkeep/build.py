"""Proves and compiles a program and the crates below it, each once those that it stands on are done, as many at a time as there are processors.

    tools/build CRATE
    tools/build --test

tries which crate had best begin next, and with how many jobs, on the times that the crates are thought to take, and leaves the program in
crates/CRATE/out/CRATE. It prints a line `crate NAME: N seconds` where a crate is done, and ends with 1 where one fails, after the last lines that the
toolchain printed of it. bin/mdp and bin/check call it. With --test it builds nothing, and ends with 1 where the crates that a build of some program copies
name one that it doesn't copy.

A library is built as `rt ci` does it, with what others can cite of it and without its checked proofs (`rattle build --statements`): the crates above read
less so. It works on a copy of the sources, and keeps each library in its crate's out/rlib/statements, beside a sum over all that it was made from. A later
build takes it from there where that sum is the same. `rt lib` and `rt check` replace out/rlib where they build a library of their own.
"""

import contextlib
import functools
import hashlib
import os
import pathlib
import shutil
import subprocess
import sys
import tempfile
import time
import uuid

TOP = pathlib.Path(__file__).resolve().parent.parent.parent
PARTS = ("src", "specs", "proofs")
LINES_SHOWN = 20
# About how many seconds a crate takes: to begin; to read what it calls, for each line of code in the crates below; and to be proved, for each line of its code,
# for each `?` in it, and for each line of its proofs. Fitted to the times of 21 crates; specs/ costs next to nothing.
BEGIN, READ = 10, 0.0012
CODE_LINE, QUESTION_MARK, PROOF_LINE = 0.113, 0.93, 0.002
# Each job reads for itself, and what all of them proved is read once more: by so much that takes longer with more than one.
MORE_READ = 1.3
# What the proofs of a crate may take, in bytes, and the most jobs that a build gains from. How many of the crates that can begin are looked at.
MEMORY, MOST_JOBS, LOOKED_AT = 3_000_000_000, 4, 3


# ---- the crates


def lines_of_crates():
    """The lines of crates.txt that name a crate, by its name."""
    lines = [line.partition("#")[0].strip() for line in (TOP / "crates.txt").read_text().split("\n")]
    return {line.partition(":")[0]: line for line in lines if line}


def uses(lines):
    """The crates of this repository that each one uses, lowest first as crates.txt lists them."""
    found = {name: line.partition(":")[2].split() for name, line in lines.items()}
    return {name: [other for other in others if other in found] for name, others in found.items()}


def below(name, deps):
    """The crates that one stands on, and those that these stand on: its line of crates.txt names only those whose items it speaks of."""
    found = set()
    waiting = [*deps[name]]
    while waiting:
        other = waiting.pop()
        if other not in found:
            found.add(other)
            waiting.extend(deps[other])
    return found


def files_of(crate):
    """The files that a crate is made from, in order."""
    return sorted(file for part in PARTS for file in (crate / part).rglob("*") if file.is_file())


# ---- how long a crate takes


@functools.cache
def count(name, part, what):
    """How often some bytes stand in the files of a part of a crate."""
    return sum(file.read_bytes().count(what) for file in (TOP / "crates" / name / part).rglob("*") if file.is_file())


def times_of(name, deps):
    """About how many seconds a crate takes with one job, with two, up to the most."""
    reading = BEGIN + READ * sum(count(other, "src", b"\n") for other in below(name, deps))
    proving = CODE_LINE * count(name, "src", b"\n") + QUESTION_MARK * count(name, "src", b"?") + PROOF_LINE * count(name, "proofs", b"\n")
    return [reading + proving, *(MORE_READ * reading + proving / jobs for jobs in range(2, MOST_JOBS + 1))]


def ways_from(names, deps, times):
    """How long the longest way from each crate to the program takes, with both included, each crate with one job. The program's own name is the last."""
    ways = {}
    for name in reversed(names):
        ways[name] = times[name][0] + max((way for other, way in ways.items() if name in deps[other]), default=0)
    return ways


def processors():
    """How many builds there may be at a time: one a processor, as far as the free memory holds them."""
    found = len(os.sched_getaffinity(0))
    for line in pathlib.Path("/proc/meminfo").read_text().split("\n"):
        if line.startswith("MemAvailable:"):
            found = min(found, 1024 * int(line.split()[1]) // MEMORY)
    return max(found, 1)


# ---- the copy, and what is kept


def link_or_copy(one, other):
    """A name more for a file that isn't changed any more; a copy where the disk is another one."""
    try:
        os.link(one, other)
    except OSError:
        shutil.copy2(one, other)


class Room:
    """A folder with a copy of the sources, and the libraries that are built of them."""

    def __init__(self, folder, names, lines, deps):
        self.folder, self.lines, self.deps = folder, lines, deps
        self.kit = pathlib.Path(shutil.which("rt")).resolve().parent.parent
        for name in names:
            for part in PARTS:
                if (TOP / "crates" / name / part).is_dir():
                    shutil.copytree(TOP / "crates" / name / part, folder / "crates" / name / part)
        # the libraries that are built, each with a number of its own: one fits only those that it was built over
        self.built = {}

    def sum_of(self, name):
        """A sum over all that a crate is made from: its files, its line of crates.txt, the toolchain and the libraries that it uses, which are built."""
        made = hashlib.sha256((self.kit / "KIT-ID").read_bytes())
        crate = self.folder / "crates" / name
        for file in files_of(crate):
            made.update(repr((str(file.relative_to(crate)), file.read_bytes())).encode())
        made.update(repr((self.lines[name], [self.built[other] for other in self.deps[name]])).encode())
        return made.hexdigest()

    def is_program(self, name):
        return (self.folder / "crates" / name / "src" / "main.rt").is_file()

    def rlib(self, name):
        return self.folder / "rlibs" / name / f"{name}.rlib"

    def kept(self, name):
        return TOP / "crates" / name / "out" / "rlib" / "statements"

    def take(self, name):
        """Takes the library that is kept of a crate, where it was made from the same, and says whether it was. Another build may be replacing it."""
        if not self.built.keys() >= set(self.deps[name]):
            return False
        try:
            made, number = (self.kept(name) / "sum").read_text().split()
            if made != self.sum_of(name):
                return False
            shutil.copytree(self.kept(name) / f"{name}.rlib", self.rlib(name), copy_function=link_or_copy)
        except (OSError, ValueError):
            shutil.rmtree(self.rlib(name), ignore_errors=True)
            return False
        self.built[name] = number
        return True

    def keep(self, name):
        """Keeps a library that was built, in place of what was kept of its crate; where another build keeps its own just then, that one stays."""
        self.built[name] = uuid.uuid4().hex
        kept = self.kept(name)
        kept.parent.mkdir(parents=True, exist_ok=True)
        with tempfile.TemporaryDirectory(dir=kept.parent) as new:
            shutil.copytree(self.rlib(name), pathlib.Path(new) / "whole" / f"{name}.rlib", copy_function=link_or_copy)
            (pathlib.Path(new) / "whole" / "sum").write_text(f"{self.sum_of(name)} {self.built[name]}")
            shutil.rmtree(kept, ignore_errors=True)
            with contextlib.suppress(OSError):
                os.rename(pathlib.Path(new) / "whole", kept)

    def words(self, name, jobs):
        """The command that proves and compiles a crate."""
        of_kit = [other for other in self.lines[name].partition(":")[2].split() if other not in self.lines]
        words = ["--crate-name", name, "src/main.rt" if self.is_program(name) else "src/lib.rt"]
        for other in ["std", *of_kit]:
            words += ["--extern", f"{other}={self.kit}/rlibs/{other}.rlib"]
        for other in self.deps[name]:
            words += ["--extern", f"{other}={self.rlib(other)}"]
        for folder in [self.kit / "rlibs", *(self.rlib(other).parent for other in sorted(below(name, self.deps)))]:
            words += ["-L", f"dependency={folder}"]
        words += ["--antt-project", f"{self.kit}/rattle/logic/antt-project.json", "--logic-built", f"{self.kit}/logic_built"]
        words += ["--links", f"{name}=", "--jobs", str(jobs)]
        if self.is_program(name):
            words += ["--toolchain", f"{self.kit}/toolchain", "--backend", "llvm", "-o", f"{self.folder}/{name}.o"]
        else:
            self.rlib(name).parent.mkdir(parents=True, exist_ok=True)
            words += ["--statements", "-o", str(self.rlib(name))]
        return [f"{self.kit}/bin/rattle", "build", *words]

    def link(self, name):
        """Links the program and leaves it in its crate's out/; the lines that were printed where that fails."""
        out = TOP / "crates" / name / "out"
        out.mkdir(exist_ok=True)
        words = ["--target", "x86_64-unknown-linux-gnu", "--toolchain", f"{self.kit}/toolchain", "-o", f"{self.folder}/{name}"]
        words += [f"{self.folder}/{name}.o", f"{self.kit}/c/libos_c.a", f"{self.kit}/c/liblibc_c.a"]
        ran = subprocess.run([f"{self.kit}/bin/rattle-link", *words], stdin=subprocess.DEVNULL, stdout=subprocess.PIPE, stderr=subprocess.STDOUT, errors="replace")
        if ran.returncode == 0:
            shutil.copy2(f"{self.folder}/{name}", out / f"{name}.{os.getpid()}")
            os.rename(out / f"{name}.{os.getpid()}", out / name)
            return []
        return ran.stdout.splitlines() or ["the program could not be linked"]


# ---- the build


class Build:
    """A crate that is being built, with so many jobs."""

    def __init__(self, name, room, jobs):
        self.name, self.jobs = name, jobs
        self.began = time.monotonic()
        self.log = tempfile.TemporaryFile()
        self.process = subprocess.Popen(
            room.words(name, jobs), cwd=room.folder / "crates" / name, stdin=subprocess.DEVNULL, stdout=self.log, stderr=subprocess.STDOUT
        )

    def seconds(self):
        return int(time.monotonic() - self.began)

    def last_lines(self):
        self.log.seek(0)
        lines = self.log.read().decode(errors="replace").splitlines()
        return [line for line in lines if not line.endswith(": proved") and not line.startswith("statements ")][-LINES_SHOWN:]


class Plan:
    """Which crates begin, and with how many jobs, by the times that they are thought to take. A crate that runs is a triple: when it ends, its name, its jobs."""

    def __init__(self, names, deps, most):
        self.deps, self.most = deps, most
        self.times = {name: times_of(name, deps) for name in names}
        self.ways = ways_from(names, deps, self.times)

    def ready(self, waiting, built):
        """The crates that can begin, those with the longest ways first."""
        return sorted((name for name in waiting if built.issuperset(self.deps[name])), key=lambda name: -self.ways[name])

    def free(self, running):
        return self.most - sum(jobs for _, _, jobs in running)

    def plainly(self, waiting, running, built):
        """One job for each crate that can begin, and what is over then for the one with the longest way."""
        free = self.free(running)
        ready = self.ready(waiting, built)[: max(free, 0)]
        return [(name, 1 if place else min(1 + free - len(ready), MOST_JOBS)) for place, name in enumerate(ready)]

    def end(self, waiting, running, built, begins=True):
        """When all is built, where from now on, or from when the next crate is done, crates begin plainly."""
        now, waiting, running, built = 0, {*waiting}, [*running], {*built}
        while waiting or running:
            for name, jobs in self.plainly(waiting, running, built) if begins else []:
                waiting.remove(name)
                running.append((now + self.times[name][jobs - 1], name, jobs))
            begins = True
            first = min(running)
            running.remove(first)
            now = first[0]
            built.add(first[1])
        return now

    def next(self, waiting, running, built):
        """The crate that begins now, and its jobs: those with which all is built soonest. None where none can begin, or where it is better to wait for one to end,
        and then to begin with more jobs."""
        ready, free = self.ready(waiting, built)[:LOOKED_AT], self.free(running)
        choices = [(name, jobs) for name in ready for jobs in range(1, min(free, MOST_JOBS) + 1)]

        def end_with(choice):
            name, jobs = choice
            return self.end([other for other in waiting if other != name], [*running, (self.times[name][jobs - 1], name, jobs)], built)

        best = min(choices, key=end_with, default=None)
        if best and running and self.end(waiting, running, built, begins=False) < end_with(best):
            return None
        return best


def begin(waiting, running, room, plan):
    """Begins the crates that can be built now, while a processor is free. One that took longer than thought is thought to take a quarter more."""
    while True:
        ends = [(max(plan.times[each.name][each.jobs - 1] - each.seconds(), each.seconds() / 4), each.name, each.jobs) for each in running]
        chosen = plan.next(waiting, ends, {*room.built})
        if chosen is None:
            return
        name, jobs = chosen
        running.append(Build(name, room, jobs))
        waiting.remove(name)


def build(waiting, room, plan):
    """Builds the crates that wait; the name and the last lines of the first build that fails, or None."""
    running = []
    while waiting or running:
        begin(waiting, running, room, plan)
        time.sleep(0.2)
        for each in [each for each in running if each.process.poll() is not None]:
            running.remove(each)
            if each.process.returncode != 0:
                for other in running:
                    other.process.terminate()
                return each.name, each.last_lines()
            if not room.is_program(each.name):
                room.keep(each.name)
            print(f"crate {each.name}: {each.seconds()} seconds", flush=True)
    return None


def lacking(program, lines):
    """The crates of crates/ that the lines name which a build of this program copies, and that it doesn't copy."""
    copied = below(program, uses(lines))
    named = {other for name in copied for other in lines[name].partition(":")[2].split()}
    return sorted(name for name in named - copied if (TOP / "crates" / name).is_dir())


def programs_of(lines):
    """The crates that are programs."""
    return [name for name in lines if (TOP / "crates" / name / "src" / "main.rt").is_file()]


def test(lines):
    """Says which crates a first build of a program would miss, and ends with 1 where there are any."""
    missed = [f"tools/build: {program} would be built without {', '.join(lacking(program, lines))}" for program in programs_of(lines) if lacking(program, lines)]
    print(*missed, f"crates of {len(programs_of(lines))} programs: {len(missed)} wrong", sep="\n")
    sys.exit(1 if missed or not programs_of(lines) else 0)


def place_of_copies():
    """The folder for the copy: on the disk of this repository, so that what is built can be linked. While it stands in out/, `rt ci` stops at it."""
    same_disk = os.stat(tempfile.gettempdir()).st_dev == os.stat(TOP).st_dev
    (TOP / "out").mkdir(exist_ok=True)
    return tempfile.gettempdir() if same_disk else TOP / "out"


def main(words):
    if words[:1] in (["--help"], ["-h"]):
        print(__doc__)
        return
    lines = lines_of_crates()
    if words == ["--test"]:
        test(lines)
    deps = uses(lines)
    if len(words) != 1 or words[0] not in programs_of(lines):
        sys.exit(__doc__)
    if shutil.which("rt") is None:
        sys.exit("tools/build: rt isn't on the PATH")
    program = words[0]
    names = [name for name in lines if name in below(program, deps)] + [program]
    with tempfile.TemporaryDirectory(prefix="mdp-build-", dir=place_of_copies()) as folder:
        room = Room(pathlib.Path(folder), names, lines, deps)
        waiting = [name for name in names if not room.take(name)]
        failed = build(waiting, room, Plan(names, deps, processors()))
        if failed is None:
            failed = program, room.link(program)
    if failed[1]:
        print(*failed[1], f"tools/build: {failed[0]} could not be built", sep="\n")
        sys.exit(1)
