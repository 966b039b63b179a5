#!/usr/bin/env python3
"""Refuses the program's requests for memory one at a time, and looks at what it writes then.

For a worked row the first run refuses request 1, the next one request 2, and so on, until a run meets its refused request no more. Each run must
end with the row's text and status, or with `memory` and status 8, and by no signal. What is printed: how many requests a run makes, how many of
the refusals ended in `memory`, and the first number from which on the text is no longer `memory`.

The last pair tells a reader in pieces from one that collects the text first: two files of the same model that is refused at its 7th line, with
2^14 and 2^18 lines of comments behind it. The number must be the same for both.

The requests are counted by a small library that is compiled here with cc and laid under the program by LD_PRELOAD: it refuses request number N of
malloc, calloc, realloc and aligned_alloc, counted from the start of the process. Usage: bench/memory.py
"""

import os
import pathlib
import subprocess
import sys
import tempfile

sys.dont_write_bytecode = True
TOP = pathlib.Path(__file__).resolve().parent.parent
sys.path.insert(0, str(TOP / "tools"))

from mdptools import drn  # noqa: E402

ROWS = TOP / "crates" / "mdp_app" / "data" / "rows"
PROGRAM = TOP / "out" / "mdp"
NAMES = ["solve_die", "solve_greatest", "loop_carries_value", "mean_by_chance", "solve_mean_by_chance", "subsystem_flows", "policy_loops", "witness_die", "discount_puterman"]

COUNTER = r"""
#define _GNU_SOURCE
#include <dlfcn.h>
#include <errno.h>
#include <stdlib.h>
#include <string.h>
static unsigned long requests;
static unsigned long refused(void) {
    static unsigned long number;
    if (!number) { const char *text = getenv("REFUSED_REQUEST"); number = text ? strtoul(text, 0, 10) : (unsigned long)-1; }
    return number;
}
static int refuses(void) { return ++requests == refused() && (errno = ENOMEM); }
extern void *__libc_malloc(size_t), *__libc_calloc(size_t, size_t), *__libc_realloc(void *, size_t), *__libc_memalign(size_t, size_t);
void *malloc(size_t n) { return refuses() ? 0 : __libc_malloc(n); }
void *calloc(size_t k, size_t n) { return refuses() ? 0 : __libc_calloc(k, n); }
void *realloc(void *p, size_t n) { return refuses() ? 0 : __libc_realloc(p, n); }
void *aligned_alloc(size_t a, size_t n) { return refuses() ? 0 : __libc_memalign(a, n); }
int posix_memalign(void **out, size_t a, size_t n) { void *p = refuses() ? 0 : __libc_memalign(a, n); if (!p) return ENOMEM; *out = p; return 0; }
__attribute__((destructor)) static void told(void) {
    const char *path = getenv("REQUESTS_FILE");
    if (path) { FILE_WRITE }
}
"""
WRITE = r"""extern int open(const char *, int, ...); extern long write(int, const void *, unsigned long); int file = open(path, 01101, 0600);
    char text[24]; int n = 24; unsigned long left = requests; do { text[--n] = '0' + left % 10; left /= 10; } while (left);
    if (file >= 0) { long done = write(file, text + n, 24 - n); (void)done; }"""


def compiled(folder):
    source, library = folder / "counter.c", folder / "counter.so"
    source.write_text(COUNTER.replace("FILE_WRITE", WRITE))
    subprocess.run(["cc", "-shared", "-fPIC", "-O1", "-o", library, source, "-ldl"], check=True)
    return library


def run(library, words, cwd, number, folder):
    """What the program writes where this request is refused, its status, and how many requests it made."""
    counted = folder / "requests"
    counted.unlink(missing_ok=True)
    env = {**os.environ, "LD_PRELOAD": str(library), "REFUSED_REQUEST": str(number), "REQUESTS_FILE": str(counted)}
    ended = subprocess.run([PROGRAM, *words], cwd=cwd, env=env, stdout=subprocess.PIPE, stderr=subprocess.PIPE, check=False)
    requests = int(counted.read_text()) if counted.exists() else 0
    return ended.stdout, ended.returncode, requests


def series(library, words, cwd, due, folder):
    """The numbers of requests whose refusal ends in `memory`, how many requests there are, and what is wrong."""
    wanting, number = [], 1
    while True:
        text, status, requests = run(library, words, cwd, number, folder)
        if number > requests and (text, status) == due:
            return wanting, number - 1, ""
        if (text, status) == (b"memory\n", 8):
            wanting.append(number)
        elif (text, status) != due:
            return wanting, requests, f"request {number} refused: {text[:60]}, status {status}"
        number += 1


def told(name, library, words, cwd, due, folder):
    wanting, requests, wrong = series(library, words, cwd, due, folder)
    last = wanting[-1] if wanting else 0
    print("%-24s %5d requests, %5d refusals end in memory, none from %d on%s" % (name, requests, len(wanting), last + 1, ": " + wrong if wrong else ""))
    sys.stdout.flush()
    return last, wrong or (not wanting and "no refusal showed")


def tried_row(name, library, folder):
    row = ROWS / name
    words = (row / "words").read_text().split("\n")[:-1]
    due = (row / "stdout").read_bytes(), int((row / "status").read_text())
    return told(name, library, words, row, due, folder)[1]


def refused_model(path, comments):
    drn.write(path, [*drn.head([], 2**20 + 1, 4), *["/" * 63] * comments])


def tried_pair(library, folder):
    """A model that is refused early: more text behind it asks for no more memory."""
    ends = []
    for power in (14, 18):
        refused_model(folder / "model.drn", 1 << power)
        due = (b"model line 7 too-many\n", 3)
        words = ["solve", "model.drn", "exact", "max", "reach", "goal"]
        ends.append(told(f"2^{power} comment lines", library, words, folder, due, folder))
    return ends[0][1] or ends[1][1] or (ends[0][0] != ends[1][0] and "the text asks for memory as it grows")


def main():
    if sys.argv[1:2] in (["--help"], ["-h"]):
        print(__doc__)
        return
    subprocess.run([TOP / "bin" / "mdp"], stdout=subprocess.DEVNULL, check=False)
    with tempfile.TemporaryDirectory() as name:
        folder = pathlib.Path(name)
        library = compiled(folder)
        wrong = [*(tried_row(name, library, folder) for name in NAMES), tried_pair(library, folder)]
    wrong = [text for text in wrong if text]
    for text in wrong:
        print(text)
    sys.exit(1 if wrong else 0)


if __name__ == "__main__":
    main()
