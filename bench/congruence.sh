#!/usr/bin/env bash
# The time of the closure of points: a chain a, f(a), f(f(a)), .. that collapses when a = f(a) is merged, and random merges of random applications.
# It writes a program over copies of the libraries into a temporary folder, and builds it there with `rt run`.
# Use: bench/congruence.sh, at the top of the repository; quicker once the libraries are checked there.
set -eu
folder=$(mktemp -d)
trap 'rm -rf "$folder"' EXIT
libraries='fraction128 smt_meaning smt_laws term_store point_closure'
mkdir -p "$folder/crates/closure_time/src" "$folder/crates/closure_time/specs" "$folder/crates/closure_time/proofs/add_chain" "$folder/crates/closure_time/proofs/add_random" "$folder/crates/closure_time/proofs/merge_random"
for library in $libraries; do
    cp -a "crates/$library" "$folder/crates/"
    grep "^$library:" crates.txt >> "$folder/crates.txt"
done
echo 'closure_time: point_closure' >> "$folder/crates.txt"
: > "$folder/crates/closure_time/specs/Lib.antt"
: > "$folder/crates/closure_time/proofs/Lib.antt"
cat > "$folder/crates/closure_time/src/main.rt" << 'END'
//! A closure at work: a chain of applications that collapses, and random merges.
#![tactic(auto)]

ghost use Rattle.std.specs.Prelude.{◌≡◌, [], ◌^◌, ◌+◌, ◌<◌, ◌≤◌, length, OnOk};
ghost use Rattle.point_closure.specs.Whole.{IsWhole};

use point_closure::{Closure, Explainer, Shape, Step};
use std::alloc::AllocError;
use std::io;
use std::time::Instant;

/// The next number that looks random, below a bound.
fn below(state: &mut u64, n: u32) -> u32
    requires { 0 < n }
    ensures { result < n }
{
    *state = state
        .wrapping_mul(6364136223846793005)
        .wrapping_add(1442695040888963407);
    ((*state >> 33) % n as u64) as u32
}

/// a, f(a), f(f(a)), ..
fn add_chain(closure: &mut Closure, count: u32) -> Result<(), AllocError>
    requires whole { IsWhole closure.old }
    requires empty { length closure.old.graph ≡ 0 }
    requires first { closure.old.steps.items ≡ [] }
    ensures whole { IsWhole closure.new }
    ensures len { OnOk result (length closure.new.graph ≡ count + 1) }
{
    closure.add(Shape::Leaf, &[])?;
    'points: for i in 0..count {
        closure.add(Shape::Application(0), &[i])?;
    }
    Ok(())
}

/// Constants, and then random applications of three functions.
fn add_random(
    closure: &mut Closure,
    state: &mut u64,
    constants: u32,
    count: u32,
) -> Result<(), AllocError>
    requires whole { IsWhole closure.old }
    requires empty { length closure.old.graph ≡ 0 }
    requires first { closure.old.steps.items ≡ [] }
    requires some { 0 < constants }
    requires order { constants ≤ count }
    ensures whole { IsWhole closure.new }
    ensures len { OnOk result (length closure.new.graph ≡ count) }
{
    'constants: for _ in 0..constants {
        closure.add(Shape::Leaf, &[])?;
    }
    'points: for i in constants..count {
        let a = below(state, i);
        let b = below(state, i);
        let f = below(state, 3);
        closure.add(Shape::Application(f), &[a, b])?;
    }
    Ok(())
}

/// Merges random points.
fn merge_random(
    closure: &mut Closure,
    state: &mut u64,
    points: u32,
    merges: u32,
) -> Result<(), AllocError>
    requires whole { IsWhole closure.old }
    requires some { 0 < points }
    requires points { length closure.old.graph ≡ points }
    ensures whole { IsWhole closure.new }
    ensures points { length closure.new.graph ≡ points }
{
    'merges: for _ in 0..merges {
        let a = below(state, points);
        let b = below(state, points);
        closure.record(Step::Merge(a, b))?;
    }
    Ok(())
}

/// How many steps explain a pair, where it is equal.
fn explain_pair(
    closure: &Closure,
    explainer: &mut Explainer,
    a: u32,
    b: u32,
) -> Result<usize, AllocError>
    requires whole { IsWhole closure.now }
    requires a_within { a < length closure.now.graph }
    requires b_within { b < length closure.now.graph }
{
    if !closure.same(a, b) {
        return Ok(0);
    }
    closure.explain(explainer, a, b)?;
    Ok(explainer.steps.len())
}

/// Explains random pairs that are equal, and adds up how many steps that takes.
fn explain_random(
    closure: &Closure,
    explainer: &mut Explainer,
    state: &mut u64,
    points: u32,
    pairs: u32,
) -> Result<u64, AllocError>
    requires whole { IsWhole closure.now }
    requires some { 0 < points }
    requires points { length closure.now.graph ≡ points }
{
    let mut steps: u64 = 0;
    'pairs: for _ in 0..pairs {
        let a = below(state, points);
        let b = below(state, points);
        let told = explain_pair(closure, explainer, a, b)?;
        steps = steps.wrapping_add(told as u64);
    }
    Ok(steps)
}

fn run_chain(rt: &HostRuntime, count: u32) -> io::Result<()>
    requires some { 0 < count }
    requires few { count < 2 ^ 31 }
{
    let mut closure = Closure::new(rt.alloc());
    let mut explainer = Explainer::new(rt.alloc());
    let start = Instant::now(rt)?;
    add_chain(&mut closure, count)?;
    let added = start.elapsed(rt)?;
    let start = Instant::now(rt)?;
    closure.record(Step::Merge(0, 1))?;
    let merged = start.elapsed(rt)?;
    let start = Instant::now(rt)?;
    let told = explain_pair(&closure, &mut explainer, 0, count)?;
    let explained = start.elapsed(rt)?;
    let start = Instant::now(rt)?;
    closure.undo_to(0);
    let undone = start.elapsed(rt)?;
    println!(rt;
        "chain {count}: add {added:?}, merge {merged:?}, explain {explained:?} ({told} steps), undo {undone:?}"
    )?;
    Ok(())
}

fn run_random(rt: &HostRuntime, constants: u32, count: u32, merges: u32) -> io::Result<()>
    requires some { 0 < constants }
    requires order { constants ≤ count }
{
    let mut closure = Closure::new(rt.alloc());
    let mut explainer = Explainer::new(rt.alloc());
    let mut state: u64 = 12345;
    let start = Instant::now(rt)?;
    add_random(&mut closure, &mut state, constants, count)?;
    let added = start.elapsed(rt)?;
    let start = Instant::now(rt)?;
    merge_random(&mut closure, &mut state, count, merges)?;
    let merged = start.elapsed(rt)?;
    let start = Instant::now(rt)?;
    let steps = explain_random(&closure, &mut explainer, &mut state, count, 1000)?;
    let explained = start.elapsed(rt)?;
    let start = Instant::now(rt)?;
    closure.undo_to(0);
    let undone = start.elapsed(rt)?;
    println!(rt;
        "random {count} points, {merges} merges: add {added:?}, merge {merged:?}, explain 1000 pairs {explained:?} ({steps} steps), undo {undone:?}"
    )?;
    Ok(())
}

fn main(rt: HostRuntime) -> io::Result<()> {
    run_chain(&rt, 100000)?;
    run_chain(&rt, 1000000)?;
    run_random(&rt, 1000, 100000, 1000)?;
    run_random(&rt, 1000, 100000, 10000)?;
    run_random(&rt, 1000, 100000, 100000)?;
    Ok(())
}
END
cat > "$folder/crates/closure_time/proofs/add_chain/Invariants.antt" << 'END'
use Rattle.std.proofs.Common.{◌≡◌, ◌+◌, [], length}
use Rattle.point_closure.specs.Whole.{IsWhole}
use Rattle.closure_time.proofs.add_chain.Given as goal

abbrev pub invariant-points : goal.invariant-points
invariant-points l = record { whole : IsWhole l.closure; first : l.closure.steps.items ≡ []; len : length l.closure.graph ≡ l.i + 1 }
END
cat > "$folder/crates/closure_time/proofs/add_random/Invariants.antt" << 'END'
use Rattle.std.proofs.Common.{◌≡◌, [], length}
use Rattle.point_closure.specs.Whole.{IsWhole}
use Rattle.closure_time.proofs.add_random.Given as goal

abbrev pub invariant-constants : goal.invariant-constants
invariant-constants l = record { whole : IsWhole l.closure; first : l.closure.steps.items ≡ []; len : length l.closure.graph ≡ l.counter }

abbrev pub invariant-points : goal.invariant-points
invariant-points l = record { whole : IsWhole l.closure; first : l.closure.steps.items ≡ []; len : length l.closure.graph ≡ l.i }
END
cat > "$folder/crates/closure_time/proofs/merge_random/Invariants.antt" << 'END'
use Rattle.std.proofs.Common.{◌≡◌, length}
use Rattle.point_closure.specs.Whole.{IsWhole}
use Rattle.closure_time.proofs.merge_random.Given as goal

abbrev pub invariant-merges : goal.invariant-merges
invariant-merges l = record { whole : IsWhole l.closure; len : length l.closure.graph ≡ l.points }
END
cd "$folder/crates/closure_time"
rt run
