"""Compiles a program from the sources as they stand, with checks and without proofs, and prints the path of what is made.

    tools/compile CRATE

CRATE is mdp_app or mdp_checker. What is made lies in out/try, under a name with a sum over all that it is made of: the same sources are compiled once,
and calls that come meanwhile wait for it. It stops at an index out of bounds, an overflow, a failed unwrap or a bad access, with a status above 128. With these checks it is some hundred times slower than a program that bin/mdp builds.

It is made by `rt try`, which keeps nothing. So the program is given a pipe as its model: while it waits there, its file is copied out of the folder that
`rt try` works in, which is the one that TMPDIR names, and then the pipe is closed. Behind that no limit of `rt try` (60 seconds, 1 MiB of output, files
below one folder) is left.

Ends with 70 where nothing can be made.
"""

import fcntl
import hashlib
import os
import pathlib
import shutil
import signal
import subprocess
import sys
import tempfile
import threading
import time

TOP = pathlib.Path(__file__).resolve().parent.parent.parent
KEPT = TOP / "out" / "try"
# The words before MODEL ROWS CERT with which each program opens a model.
PROGRAMS = {"mdp_app": ["check"], "mdp_checker": []}
# How many programs of a crate are kept: that of the sources, and the last ones before it.
MOST_KEPT = 3


def say(text):
    sys.stderr.write(f"tools/compile: {text}\n")


def crates_of(program):
    """The crate of a program and all crates of this repository below it, lowest first, each with its line of crates.txt."""
    lines = [line.partition("#")[0].strip() for line in (TOP / "crates.txt").read_text().split("\n")]
    lines = {line.partition(":")[0].split()[0]: line for line in lines if line}
    needed = {program}
    for name, line in reversed(lines.items()):
        needed |= set(line.partition(":")[2].split()) if name in needed else set()
    return {name: line for name, line in lines.items() if name in needed}


def toolchain():
    """What tells one toolchain from another: where `rt` is, and when it was made."""
    found = shutil.which("rt")
    if not found:
        say("to compile the sources rt is needed, the toolchain that README.md names. It isn't on the PATH.")
        sys.exit(70)
    real = pathlib.Path(found).resolve()
    return f"{real} {real.stat().st_mtime_ns}"


def sum_of(program):
    """A sum over all that the program is made of."""
    total = hashlib.sha256(toolchain().encode())
    for name, line in crates_of(program).items():
        total.update(f"\0{line}".encode())
        for path in sorted((TOP / "crates" / name / "src").rglob("*.rt")):
            total.update(f"\0{path.relative_to(TOP)}\0".encode() + path.read_bytes())
    return total.hexdigest()[:16]


def copied(folder, pipe, kept):
    """Waits until the program that `rt try` made opens its model, copies the program, and lets it go on. Nothing where the pipe has no reader yet."""
    try:
        writer = os.open(pipe, os.O_WRONLY | os.O_NONBLOCK)
    except OSError:
        return False
    try:
        found = list(folder.glob("*/*/program"))
        if found:
            shutil.copy(found[0], kept)
        return bool(found)
    finally:
        os.close(writer)


def show_seconds(began, is_over):
    while not is_over.wait(20):
        say(f"{time.monotonic() - began:.0f} seconds so far")


def made(program, folder):
    """Compiles the program in a folder of its own, and answers its file there."""
    pipe, kept, log = folder / "pipe", folder / "made", folder / "log"
    os.mkfifo(pipe)
    words = ["rt", "try", "--", *PROGRAMS[program], str(pipe), "exact", str(folder / "none")]
    # in a session of its own, so that a signal for all comes to it once, from here, and it ends what it has begun
    how = {"cwd": TOP / "crates" / program, "env": {**os.environ, "TMPDIR": str(folder)}, "stdin": subprocess.DEVNULL, "start_new_session": True}
    with log.open("wb") as out, subprocess.Popen(words, stdout=out, stderr=subprocess.STDOUT, **how) as trial:
        try:
            while not copied(folder, pipe, kept) and trial.poll() is None:
                time.sleep(0.1)
            trial.wait()
        finally:
            if trial.poll() is None:
                trial.terminate()
                trial.wait()
    if not kept.exists():
        sys.stderr.write(log.read_text(errors="replace")[-4000:])
        say(f"rt try could not compile {program} (status {trial.returncode}).")
        sys.exit(70)
    return kept


def compiled(program, name):
    """Compiles and keeps the program, and says how far that is."""
    say("compiling the sources without proofs: one to two minutes on two free processors. Later calls with the same sources need not.")
    say("What is made is for small models: with its checks it is some hundred times slower than bin/mdp.")
    began, is_over = time.monotonic(), threading.Event()
    threading.Thread(target=show_seconds, args=(began, is_over), daemon=True).start()
    try:
        with tempfile.TemporaryDirectory(prefix="making-", dir=KEPT) as folder:
            os.replace(made(program, pathlib.Path(folder)), name)
    finally:
        is_over.set()
    say(f"compiled in {time.monotonic() - began:.0f} seconds")
    older = sorted(KEPT.glob(f"{program}-*"), key=lambda path: -path.stat().st_mtime)
    for path in older[MOST_KEPT:]:
        path.unlink(missing_ok=True)


def keep(program, name):
    """Compiles the program, or waits until another call has."""
    KEPT.mkdir(parents=True, exist_ok=True)
    with (KEPT / "lock").open("w") as lock:
        wait_for(lock)
        if not name.exists():
            compiled(program, name)


def wait_for(lock):
    try:
        fcntl.flock(lock, fcntl.LOCK_EX | fcntl.LOCK_NB)
    except BlockingIOError:
        say("waiting for another call that compiles")
        fcntl.flock(lock, fcntl.LOCK_EX)


def answer(words):
    """Prints the path of the program that the words name, once it is there."""
    if words[:1] in (["--help"], ["-h"]):
        print(__doc__)
        return
    if len(words) != 1 or words[0] not in PROGRAMS:
        sys.exit(__doc__)
    for number in (signal.SIGTERM, signal.SIGHUP):
        signal.signal(number, lambda number, _: sys.exit(128 + number))
    name = KEPT / f"{words[0]}-{sum_of(words[0])}"
    try:
        if not name.exists():
            keep(words[0], name)
    except OSError as error:
        say(f"the program could not be kept in {KEPT}: {error.strerror}")
        sys.exit(70)
    print(name)


def main(words):
    try:
        answer(words)
    except KeyboardInterrupt:
        sys.exit(130)
