#!/usr/bin/env python3
"""Measures sums, products and comparisons of fractions beside those of GMP's rational numbers.

For terms of 8, 30, 60 and 120 bits both programs draw the same thousand fractions twice, and take each with each: a million sums,
a million products and a million comparisons. Runs both by turns, nine times, and prints the least nanoseconds of one operation in each,
and how many of ours were refused as past width (`Wide`); where none was, the results of both have to be the same. One program is written
in a folder that is removed again, to a copy of the crates, and run once it is proved; the other is a C program over libgmp, compiled there.
Where libgmp-dev or gcc is missing, it is installed by apt-get. Usage: bench/fraction_arithmetic.py
"""
import os
import shutil
import subprocess
import sys
import tempfile

TOP = os.path.join(os.path.dirname(os.path.abspath(__file__)), "..")

RUNS = 9

LINES = "mdp_math:\nmdp_num: mdp_math itoa\nfraction_timer: mdp_math mdp_num\n"

RATTLE = """//! Times sums, products and comparisons of random fractions.
#![tactic(auto)]
ghost use Rattle.std.specs.Prelude.{◌<◌, ◌≤◌, ◌^◌};

use mdp_num::Frac;
use std::alloc::{AllocError, Global};
use std::cmp::Ordering;
use std::process::ExitCode;
use std::time::{Duration, Instant};

/// A number of the sequence that Marsaglia's shifts make, and the state behind it.
fn drawn(state: u64) -> u64 {
    let first = state ^ (state << 13);
    let second = first ^ (first >> 7);
    second ^ (second << 17)
}

/// A term from 1 on and below the limit, and the state behind it.
fn drawn_term(state: u64, limit: u128) -> (i128, u64)
    requires some { 1 < limit }
    requires narrow { limit ≤ 2 ^ 126 }
{
    let high = drawn(state);
    let low = drawn(high);
    let whole = (u128::from(high) << 64) | u128::from(low);
    let term = (whole % limit).max(1);
    (term as i128, low)
}

/// A thousand fractions with such terms, by turns negative and positive.
fn drawn_fractions(alloc: Global, seed: u64, limit: u128) -> Result<Vec<Frac>, AllocError>
    requires some { 1 < limit }
    requires narrow { limit ≤ 2 ^ 126 }
{
    let mut fractions = Vec::new(alloc);
    let mut state = seed;
    for turn in 0..1000 {
        let (num, behind) = drawn_term(state, limit);
        let (den, last) = drawn_term(behind, limit);
        state = last;
        let fraction = Frac::try_new(num, den).unwrap_or(Frac::whole(0));
        fractions.push(if turn % 2 == 0 { fraction.negate() } else { fraction })?;
    }
    Ok(fractions)
}

/// What a run came to: a sum over its results, and how many were past width.
#[derive(Clone, Copy)]
struct Total {
    sum: u64,
    wide: u64,
}

impl Total {
    fn with(self, value: u64) -> Total {
        Total { sum: self.sum.wrapping_mul(3).wrapping_add(value), wide: self.wide }
    }

    fn with_number(self, number: i128) -> Total {
        let low = number.unsigned_abs() % 18_446_744_073_709_551_616;
        self.with(low as u64).with(u64::from(number < 0))
    }

    fn with_fraction(self, fraction: &Frac) -> Total {
        self.with_number(fraction.num()).with_number(fraction.den())
    }

    fn with_wide(self) -> Total {
        Total { sum: self.sum, wide: self.wide.wrapping_add(1) }
    }
}

fn add_all(xs: &[Frac], ys: &[Frac]) -> Total {
    let mut total = Total { sum: 0, wide: 0 };
    for x in xs {
        for y in ys {
            total = match x.add(y) {
                Ok(sum) => total.with_fraction(&sum),
                Err(_) => total.with_wide(),
            };
        }
    }
    total
}

fn mul_all(xs: &[Frac], ys: &[Frac]) -> Total {
    let mut total = Total { sum: 0, wide: 0 };
    for x in xs {
        for y in ys {
            total = match x.mul(y) {
                Ok(product) => total.with_fraction(&product),
                Err(_) => total.with_wide(),
            };
        }
    }
    total
}

fn compare_all(xs: &[Frac], ys: &[Frac]) -> Total {
    let mut total = Total { sum: 0, wide: 0 };
    for x in xs {
        for y in ys {
            total = match x.compare(y) {
                Ok(Ordering::Less) => total.with(1),
                Ok(Ordering::Equal) => total.with(2),
                Ok(Ordering::Greater) => total.with(3),
                Err(_) => total.with_wide(),
            };
        }
    }
    total
}

fn say(rt: &HostRuntime, name: &str, bits: u32, total: Total, time: Duration) -> Option<()> {
    println!(rt; "{name} {bits} {} {} {}", time.as_micros(), total.sum, total.wide).ok()
}

/// Times all with terms of so many bits, which are those below the limit.
fn time_size(rt: &HostRuntime, bits: u32, limit: u128) -> Option<()>
    requires some { 1 < limit }
    requires narrow { limit ≤ 2 ^ 126 }
{
    let xs = drawn_fractions(rt.alloc(), 88_172_645_463_325_252, limit).ok()?;
    let ys = drawn_fractions(rt.alloc(), 1_181_783_497_276_652_981, limit).ok()?;
    let start = Instant::now(rt).ok()?;
    let total = add_all(&xs, &ys);
    say(rt, "add", bits, total, start.elapsed(rt).ok()?)?;
    let start = Instant::now(rt).ok()?;
    let total = mul_all(&xs, &ys);
    say(rt, "mul", bits, total, start.elapsed(rt).ok()?)?;
    let start = Instant::now(rt).ok()?;
    let total = compare_all(&xs, &ys);
    say(rt, "compare", bits, total, start.elapsed(rt).ok()?)
}

fn time_sizes(rt: &HostRuntime) -> Option<()> {
    time_size(rt, 8, 256)?;
    time_size(rt, 30, 1_073_741_824)?;
    time_size(rt, 60, 1_152_921_504_606_846_976)?;
    time_size(rt, 120, 1_329_227_995_784_915_872_903_807_060_280_344_576)
}

fn main(rt: HostRuntime) -> ExitCode {
    ExitCode::from(if time_sizes(&rt).is_some() { 0 } else { 1 })
}
"""

C = """#include <gmp.h>
#include <stdint.h>
#include <stdio.h>
#include <time.h>

enum { COUNT = 1000 };

static mpq_t xs[COUNT], ys[COUNT], result;
static uint64_t sum;

static uint64_t drawn(uint64_t state) {
    state ^= state << 13;
    state ^= state >> 7;
    return state ^ (state << 17);
}

static uint64_t drawn_term(uint64_t state, unsigned bits, mpz_t term) {
    uint64_t high = drawn(state);
    uint64_t low = drawn(high);
    mpz_set_ui(term, high);
    mpz_mul_2exp(term, term, 64);
    mpz_add_ui(term, term, low);
    mpz_fdiv_r_2exp(term, term, bits);
    if (mpz_sgn(term) == 0) mpz_set_ui(term, 1);
    return low;
}

static void draw_fractions(uint64_t state, unsigned bits, mpq_t *fractions) {
    for (int turn = 0; turn < COUNT; turn++) {
        state = drawn_term(state, bits, mpq_numref(fractions[turn]));
        state = drawn_term(state, bits, mpq_denref(fractions[turn]));
        mpq_canonicalize(fractions[turn]);
        if (turn % 2 == 0) mpq_neg(fractions[turn], fractions[turn]);
    }
}

static void count(uint64_t value) { sum = sum * 3 + value; }

static void count_number(mpz_srcptr number) {
    count(mpz_getlimbn(number, 0));
    count(mpz_sgn(number) < 0);
}

static void count_fraction(void) {
    count_number(mpq_numref(result));
    count_number(mpq_denref(result));
}

static double now(void) {
    struct timespec time;
    clock_gettime(CLOCK_MONOTONIC, &time);
    return time.tv_sec * 1e6 + time.tv_nsec / 1e3;
}

#define TIME(NAME, STEP) do { \\
    sum = 0; \\
    double start = now(); \\
    for (int i = 0; i < COUNT; i++) for (int j = 0; j < COUNT; j++) { STEP; } \\
    printf("%s %u %.0f %llu 0\\n", NAME, bits, now() - start, (unsigned long long)sum); \\
} while (0)

int main(void) {
    unsigned sizes[] = {8, 30, 60, 120};
    mpq_init(result);
    for (int i = 0; i < COUNT; i++) { mpq_init(xs[i]); mpq_init(ys[i]); }
    for (int k = 0; k < 4; k++) {
        unsigned bits = sizes[k];
        draw_fractions(88172645463325252, bits, xs);
        draw_fractions(1181783497276652981, bits, ys);
        TIME("add", mpq_add(result, xs[i], ys[j]); count_fraction());
        TIME("mul", mpq_mul(result, xs[i], ys[j]); count_fraction());
        TIME("compare", int order = mpq_cmp(xs[i], ys[j]); count(order < 0 ? 1 : order > 0 ? 3 : 2));
    }
    return 0;
}
"""


def install_gmp(folder):
    """Installs libgmp-dev and gcc where a program over them can't be compiled."""
    source = os.path.join(folder, "probe.c")
    with open(source, "w") as file:
        file.write("#include <gmp.h>\nint main(void) { mpq_t x; mpq_init(x); return 0; }\n")
    if shutil.which("gcc") and subprocess.run(["gcc", source, "-lgmp", "-o", source + ".out"], capture_output=True).returncode == 0:
        return
    subprocess.run(["apt-get", "install", "-y", "libgmp-dev", "gcc"], check=True, stdout=subprocess.DEVNULL)


def build_ours(folder):
    """The program over a copy of the crates; it is run once here, which proves and builds it."""
    for name in ("mdp_math", "mdp_num"):
        shutil.copytree(os.path.join(TOP, "crates", name), os.path.join(folder, "crates", name), ignore=shutil.ignore_patterns("out"))
    shutil.copy(os.path.join(TOP, "HANDLES"), folder)
    with open(os.path.join(folder, "crates.txt"), "w") as file:
        file.write(LINES)
    source = os.path.join(folder, "crates", "fraction_timer", "src")
    os.makedirs(source)
    with open(os.path.join(source, "main.rt"), "w") as file:
        file.write(RATTLE)
    subprocess.run(["rt", "run"], cwd=os.path.dirname(source), check=True, stdout=subprocess.DEVNULL)
    return os.path.join(os.path.dirname(source), "out", "fraction_timer")


def build_theirs(folder):
    install_gmp(folder)
    source = os.path.join(folder, "timer.c")
    with open(source, "w") as file:
        file.write(C)
    subprocess.run(["gcc", "-O2", source, "-lgmp", "-o", os.path.join(folder, "timer")], check=True)
    return os.path.join(folder, "timer")


def run(program, least):
    """Runs a program, and keeps for each operation and size its least microseconds, its sum over the results, and how many were past width."""
    text = subprocess.run([program], check=True, capture_output=True, text=True).stdout
    for line in text.splitlines():
        name, bits, time, total, wide = line.split()
        key = (name, int(bits))
        row = (int(time), total, int(wide))
        least[key] = min(row, least.get(key, row))


def main():
    if sys.argv[1:2] in (["--help"], ["-h"]):
        print(__doc__)
        return
    with tempfile.TemporaryDirectory() as folder:
        theirs = build_theirs(folder)
        ours = build_ours(folder)
        mine, other = {}, {}
        for _ in range(RUNS):
            run(ours, mine)
            run(theirs, other)
    print("load %.1f" % os.getloadavg()[0])
    print("%-8s %5s %9s %9s %6s %9s" % ("", "bits", "ours ns", "GMP ns", "ratio", "Wide"))
    for key, (time, total, wide) in mine.items():
        if wide == 0 and total != other[key][1]:
            raise SystemExit("%s at %d bits: the results are not those of GMP" % key)
        print("%-8s %5d %9.1f %9.1f %6.2f %9d" % (*key, time / 1000, other[key][0] / 1000, time / other[key][0], wide))


if __name__ == "__main__":
    main()
