#!/usr/bin/env python3
"""Measures how long strong components and end components take.

    a ring       state s goes on to state s + 1 and back to state 0, with one half each: one component of all states, so `components` goes over all
                 of it once, and `end_components` has one round
    a chain      state s goes to the states s - 1 and s + 1 with one half each, and the last state stays: one state after the other drops out, all of
                 them in the first round of `end_components`
    waiting      the same chain, where each state may stay as well: one state after the other stays on as a component of its own. Rounds of strong
                 components alone would be as many as states; searches between two rounds find all of them

A small program beside the crates reads the models and times the calls (timer_program.py). Usage: bench/components.py
"""
import os
import sys

sys.dont_write_bytecode = True
sys.path.insert(0, os.path.join(os.path.dirname(os.path.abspath(__file__)), "..", "tools"))

import timer_program  # noqa: E402
from mdptools import drn  # noqa: E402

LIBRARIES = "mdp_math mdp_num mdp_edge mdp_spec mdp_rows mdp_drn mdp_graph mdp_ends mdp_parts"

PROGRAM = """//! Times strong components and end components of each model that its words name.
#![tactic(auto)]
use mdp_drn::read;
use mdp_parts::{Allowed, components, end_components};
use mdp_rows::{Model, RowRule};
use std::env;
use std::fs;
use std::process::ExitCode;
use std::time::Instant;

fn model_in(rt: &HostRuntime, path: &str) -> Option<Model> {
    let bytes = fs::read(rt, path).ok()?;
    read(rt.alloc(), &bytes, RowRule::Exact).ok()
}

fn time_components(rt: &HostRuntime, model: &Model) -> Option<()> {
    let all = Allowed::all(rt.alloc(), model).ok()?;
    let start = Instant::now(rt).ok()?;
    let parts = components(rt.alloc(), model, &all).ok()?;
    let time = start.elapsed(rt).ok()?;
    let last = parts.last().copied()?;
    println!(rt; "components: {} us, the last state is in component {last}", time.as_micros()).ok()
}

fn time_ends(rt: &HostRuntime, model: &Model) -> Option<()> {
    let start = Instant::now(rt).ok()?;
    let ends = end_components(rt.alloc(), model).ok()?;
    let time = start.elapsed(rt).ok()?;
    println!(rt; "end_components: {} us, {} of them", time.as_micros(), ends.count()).ok()
}

fn time_model(rt: &HostRuntime, path: &str) -> Option<()> {
    let model = model_in(rt, path)?;
    println!(rt; "{} states", model.states()).ok()?;
    time_components(rt, &model)?;
    time_ends(rt, &model)
}

fn main(rt: HostRuntime) -> ExitCode {
    let Ok(words) = env::args(&rt) else {
        return ExitCode::from(1);
    };
    for word in words.skip(1) {
        if time_model(&rt, &word).is_none() {
            return ExitCode::from(1);
        }
    }
    ExitCode::from(0)
}
"""


def lines_of(choices):
    yield from drn.head([], len(choices))
    for s, rows in enumerate(choices):
        yield drn.state_line(s)
        for row in rows:
            yield from drn.choice_lines([(target, f"1/{len(row)}") for target in sorted(row)])


def write_states(path, choices):
    drn.write(path, lines_of(choices))


def write_ring(path, states):
    write_states(path, [[{s + 1, 0}] for s in range(states - 1)] + [[{0}]])


def write_chain(path, states):
    write_states(path, [[{max(s - 1, 0), s + 1}] for s in range(states - 1)] + [[{states - 1}]])


def write_waiting(path, states):
    write_states(path, [[{max(s - 1, 0), s + 1}, {s}] for s in range(states - 1)] + [[{states - 1}]])


def main():
    if sys.argv[1:2] in (["--help"], ["-h"]):
        print(__doc__)
        return
    models = [(write_ring, states) for states in (10000, 100000, 1000000)]
    models += [(write_chain, states) for states in (1000, 2000, 4000, 100000)]
    models += [(write_waiting, states) for states in (1000, 4000, 100000)]
    sys.exit(timer_program.run("component_timer", LIBRARIES, PROGRAM, models))


if __name__ == "__main__":
    main()
