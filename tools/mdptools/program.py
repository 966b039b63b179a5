"""Runs the program and the checkers: which of them is built, with a limit of time where there is one, and with a clean end where the user breaks off."""

import contextlib
import os
import pathlib
import signal
import subprocess
import sys
import time
from dataclasses import dataclass

TOP = pathlib.Path(__file__).resolve().parent.parent.parent


@dataclass
class Tool:
    """A program of bin/ or tools/: its path as a user writes it, and what stands behind what it says."""

    path: pathlib.Path
    name: str
    vouches: str
    is_proved: bool


@dataclass
class Ended:
    """How a run ended: the status, or nothing where its time ran out; the first line that it wrote; what it wrote on standard error."""

    status: int
    first: str
    errors: str
    seconds: float


class Unbuilt(Exception):
    """There is no program to run."""


def lowest(crate):
    """The crates of this repository on which one stands, itself included."""
    needed, found = {crate}, []
    lines = [line.split(":") for line in (TOP / "crates.txt").read_text().split("\n") if ":" in line and not line.startswith("#")]
    for name, libraries in reversed(lines):
        if name.split()[0] in needed:
            found.append(name.split()[0])
            needed |= {word for word in libraries.split() if word.startswith("mdp_")}
    return found


def is_fresh(program, crate):
    """Whether a program is there and no source is newer than it: the rule of bin/run.sh."""
    if not os.access(program, os.X_OK):
        return False
    made = program.stat().st_mtime
    folders = [TOP / "crates" / each / folder for each in lowest(crate) for folder in ("src", "specs", "proofs")]
    files = (pathlib.Path(at) / name for folder in folders for at, _, names in os.walk(folder) for name in names)
    return (TOP / "crates.txt").stat().st_mtime <= made and all(file.stat().st_mtime <= made for file in files)


def is_built(name, crate):
    return any(is_fresh(program, crate) for program in (TOP / "out" / name, TOP / "crates" / crate / "out" / crate))


def solver(given=""):
    """The program that answers: the given one; else bin/mdp where it is built; else bin/try."""
    if given:
        return Tool(pathlib.Path(given), given, "given by --solver", False)
    if is_built("mdp", "mdp_app"):
        return Tool(TOP / "bin" / "mdp", "bin/mdp", "proved", True)
    if (TOP / "bin" / "try").exists():
        return Tool(TOP / "bin" / "try", "bin/try", "sources not proved in this run", False)
    raise Unbuilt("bin/mdp isn't built, and there is no bin/try")


def checker(given=""):
    """The program that checks certificates: the given one; else bin/check where it is built; else tools/recheck."""
    if given:
        return Tool(pathlib.Path(given), given, "given by --checker", False)
    if is_built("check", "mdp_checker"):
        return Tool(TOP / "bin" / "check", "bin/check", "proved", True)
    return Tool(TOP / "tools" / "recheck", "tools/recheck", "in Python, not proved", False)


def prepare(tool):
    """Has bin/try compile what it runs, where that isn't kept yet, so that no limit of time counts it. Of another tool, whether it can be run."""
    if not os.access(tool.path, os.X_OK):
        raise Unbuilt(f"{tool.name} is no program")
    if tool.name != "bin/try":
        return
    with subprocess.Popen([TOP / "tools" / "compile", "mdp_app"], stdin=subprocess.DEVNULL, stdout=subprocess.DEVNULL, start_new_session=True) as process:
        try:
            status = process.wait()
        except BaseException:
            end(process)
            raise
    if status != 0:
        raise Unbuilt("there is no program to ask: bin/mdp isn't built, and the sources can't be compiled here")


class Clock:
    """On a terminal, one line that says how long a run has been at work; elsewhere nothing."""

    def __init__(self, what, quiet=False):
        self.what, self.began, self.shows = what, time.monotonic(), not quiet and sys.stderr.isatty()

    def tick(self):
        passed = int(time.monotonic() - self.began)
        if self.shows and passed >= 2:
            sys.stderr.write(f"\r\033[Kbin/ask: {self.what[:100]}, {passed} seconds ")
            sys.stderr.flush()

    def clear(self):
        if self.shows:
            sys.stderr.write("\r\033[K")
            sys.stderr.flush()


def end(process):
    """Ends a run and all that it started: its own process group."""
    for kind in (signal.SIGTERM, signal.SIGKILL):
        with contextlib.suppress(ProcessLookupError, PermissionError):
            os.killpg(process.pid, kind)
        with contextlib.suppress(subprocess.TimeoutExpired):
            process.wait(timeout=3)
            break
    with contextlib.suppress(ProcessLookupError, PermissionError):
        os.killpg(process.pid, signal.SIGKILL)


def wait(process, clock, seconds):
    """Waits for a run to end; False where its time ran out."""
    limit = None if seconds is None else time.monotonic() + seconds
    pause = 0.01
    while True:
        try:
            process.wait(timeout=pause)
            return True
        except subprocess.TimeoutExpired:
            clock.tick()
            pause = min(2 * pause, 0.5)
            if limit is not None and time.monotonic() > limit:
                return False


def run(tool, words, output, seconds=None, what=""):
    """Runs a tool on words. What it writes goes to the file `output`; what it writes on standard error beside it."""
    errors, began = pathlib.Path(f"{output}.errors"), time.monotonic()
    clock = Clock(what or f"{tool.name} {' '.join(map(str, words))}")
    with open(output, "wb") as out, open(errors, "wb") as err:
        process = subprocess.Popen([tool.path, *map(str, words)], stdin=subprocess.DEVNULL, stdout=out, stderr=err, start_new_session=True)
        try:
            in_time = wait(process, clock, seconds)
        except BaseException:
            end(process)
            raise
        finally:
            clock.clear()
        if not in_time:
            end(process)
    said = errors.read_bytes().decode("utf-8", "replace")
    errors.unlink()
    with open(output, "rb") as text:
        first = text.readline(1 << 16).decode("utf-8", "surrogateescape").rstrip("\n")
    return Ended(process.returncode if in_time else None, first, said, time.monotonic() - began)
