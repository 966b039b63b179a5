#!/usr/bin/env python3
"""Measures how long the passes over the graph take on a chain of states.

State s of the chain stays with one half and goes on to state s + 1 with one half; the last state is the goal. So the greatest rank is the number of
states less 1. A small program beside the crates reads the chain and times `may_reach`, `must_meet` and `sure_some` (timer_program.py). Usage: bench/passes.py [STATES ..] (10000 and 100000 if nothing is said).
"""
import os
import sys

sys.dont_write_bytecode = True
sys.path.insert(0, os.path.join(os.path.dirname(os.path.abspath(__file__)), "..", "tools"))

import timer_program  # noqa: E402
from mdptools import drn  # noqa: E402

LIBRARIES = "mdp_math mdp_num mdp_edge mdp_spec mdp_rows mdp_drn mdp_graph"

PROGRAM = """//! Times passes over the graph of each model that its words name.
#![tactic(auto)]
ghost use Rattle.std.specs.Prelude.{◌≡◌, length, IfSome};
ghost use Rattle.mdp_spec.specs.Mdp.{states_of};

use mdp_drn::read;
use mdp_graph::{Pass, may_reach, must_meet, sure_some};
use mdp_rows::{Marks, Model, RowRule};
use std::env;
use std::fs;
use std::process::ExitCode;
use std::time::{Duration, Instant};

fn say(rt: &HostRuntime, name: &str, pass: &Pass, time: Duration) -> Option<()> {
    let rank = pass.ranks.first().copied()?;
    println!(rt; "{name}: {} us, rank {rank} at state 0", time.as_micros()).ok()
}

fn model_in(rt: &HostRuntime, path: &str) -> Option<Model> {
    let bytes = fs::read(rt, path).ok()?;
    read(rt.alloc(), &bytes, RowRule::Exact).ok()
}

fn goals_of(rt: &HostRuntime, model: &Model) -> Option<Marks>
    ensures { IfSome result (λ marks. length marks ≡ states_of model.now) }
{
    let goal = model.label(b"goal")?;
    model.marks_of(rt.alloc(), goal).ok()
}

fn none_of(rt: &HostRuntime, model: &Model) -> Option<Marks>
    ensures { IfSome result (λ marks. length marks ≡ states_of model.now) }
{
    Marks::empty(rt.alloc(), model.states()).ok()
}

fn time_may_reach(rt: &HostRuntime, model: &Model, goals: &Marks, none: &Marks) -> Option<()>
    requires goals { length goals.now ≡ states_of model.now }
    requires none { length none.now ≡ states_of model.now }
{
    let start = Instant::now(rt).ok()?;
    let pass = may_reach(rt.alloc(), model, goals, none).ok()?;
    say(rt, "may_reach", &pass, start.elapsed(rt).ok()?)
}

fn time_must_meet(rt: &HostRuntime, model: &Model, goals: &Marks) -> Option<()>
    requires { length goals.now ≡ states_of model.now }
{
    let start = Instant::now(rt).ok()?;
    let pass = must_meet(rt.alloc(), model, goals).ok()?;
    say(rt, "must_meet", &pass, start.elapsed(rt).ok()?)
}

fn time_sure_some(rt: &HostRuntime, model: &Model, goals: &Marks) -> Option<()>
    requires { length goals.now ≡ states_of model.now }
{
    let start = Instant::now(rt).ok()?;
    let pass = sure_some(rt.alloc(), model, goals).ok()?;
    say(rt, "sure_some", &pass, start.elapsed(rt).ok()?)
}

fn time_passes(rt: &HostRuntime, path: &str) -> Option<()> {
    let model = model_in(rt, path)?;
    let goals = goals_of(rt, &model)?;
    let none = none_of(rt, &model)?;
    println!(rt; "{} states", model.states()).ok()?;
    time_may_reach(rt, &model, &goals, &none)?;
    time_must_meet(rt, &model, &goals)?;
    time_sure_some(rt, &model, &goals)
}

fn main(rt: HostRuntime) -> ExitCode {
    let Ok(words) = env::args(&rt) else {
        return ExitCode::from(1);
    };
    for word in words.skip(1) {
        if time_passes(&rt, &word).is_none() {
            return ExitCode::from(1);
        }
    }
    ExitCode::from(0)
}
"""


def chain_lines(states):
    yield from drn.head([], states)
    for s in range(states):
        yield drn.state_line(s, ["goal"] * (s == states - 1))
        yield from drn.choice_lines([(s, "1/2"), (s + 1, "1/2")] if s < states - 1 else [(s, 1)])


def write_chain(path, states):
    drn.write(path, chain_lines(states))


def main():
    if sys.argv[1:2] in (["--help"], ["-h"]):
        print(__doc__)
        return
    sizes = [int(size) for size in sys.argv[1:]] or [10000, 100000]
    sys.exit(timer_program.run("chain_timer", LIBRARIES, PROGRAM, [(write_chain, size) for size in sizes]))


if __name__ == "__main__":
    main()
