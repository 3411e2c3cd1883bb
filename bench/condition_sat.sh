#!/bin/sh
# Times `Model::find`, in a repository of its own that is made in a temporary folder and removed.
#
# It prints the median and the worst of 200 random questions, by weight and number of features: of expressions of
# any shape, and of clauses of three literals each, four clauses a feature, where about half of the questions have
# no answer and a search is at its worst. Then the time of a conjunction and a disjunction of 40 features without a
# model, of chains of a million of them, and of 10,000 conditions of weight 1 to 3 under a model of 10 features, for
# `find` and `always` together.
set -eu
top=$(cd "$(dirname "$0")/.." && pwd)
work=$(mktemp -d)
trap 'rm -rf "$work"' EXIT
"$top/bench/copy_crates.py" "$work" condition_sat feature_expr
mkdir -p "$work/crates/speed/src" "$work/crates/speed/specs"
echo 'speed: condition_sat feature_expr' >> "$work/crates.txt"
: > "$work/crates/speed/specs/Lib.antt"
cat > "$work/crates/speed/src/main.rt" <<'PROGRAM'
#![tactic(auto)]

ghost use Rattle.std.specs.Prelude.{◌<◌};

use condition_sat::Model;
use feature_expr::{Expr, Memory, and, not, or, weight};
use std::alloc::Global;
use std::io;
use std::time::{Duration, Instant};

#[derive(Drop)]
struct Numbers(u64);

impl Numbers {
    fn below(&mut self, limit: u8) -> u8
        requires { 0 < limit }
        ensures { result < limit }
    {
        self.0 = self.0.wrapping_mul(6364136223846793005).wrapping_add(1442695040888963407);
        (self.0 >> 33 & 0xFF) as u8 % limit
    }
}

fn literal(alloc: Global, numbers: &mut Numbers, features: u8) -> Result<Expr, Memory>
    requires { 0 < features }
{
    let feature = Expr::Feature(numbers.below(features));
    if numbers.below(2) == 0 { Ok(feature) } else { not(alloc, feature) }
}

fn joined(alloc: Global, numbers: &mut Numbers, left: Expr, right: Expr) -> Result<Expr, Memory> {
    match numbers.below(5) {
        0 => and(alloc, left, right),
        1 => or(alloc, left, right),
        2 => and(alloc, right, left),
        3 => or(alloc, right, left),
        _ => not(alloc, and(alloc, left, right)?),
    }
}

fn random_expr(alloc: Global, numbers: &mut Numbers, features: u8, steps: u16) -> Result<Expr, Memory>
    requires { 0 < features }
{
    let mut whole = literal(alloc, numbers, features)?;
    let mut part = literal(alloc, numbers, features)?;
    for _ in 0..steps {
        if numbers.below(3) == 0 {
            whole = joined(alloc, numbers, whole, part)?;
            part = literal(alloc, numbers, features)?;
        } else {
            let next = literal(alloc, numbers, features)?;
            part = joined(alloc, numbers, part, next)?;
        }
    }
    joined(alloc, numbers, whole, part)
}

fn clause(alloc: Global, numbers: &mut Numbers, features: u8) -> Result<Expr, Memory>
    requires { 0 < features }
{
    let first = literal(alloc, numbers, features)?;
    let second = literal(alloc, numbers, features)?;
    let two = or(alloc, first, second)?;
    let third = literal(alloc, numbers, features)?;
    or(alloc, two, third)
}

fn clauses(alloc: Global, numbers: &mut Numbers, features: u8, count: u16) -> Result<Expr, Memory>
    requires { 0 < features }
{
    let mut whole = Expr::True;
    for _ in 0..count {
        let next = clause(alloc, numbers, features)?;
        whole = and(alloc, whole, next)?;
    }
    Ok(whole)
}

fn nanoseconds(took: Duration) -> u64 {
    u64::try_from(took.as_nanos()).unwrap_or(u64::MAX)
}

fn time_of_find(rt: &HostRuntime, model: &Model, expr: &Expr) -> io::Result<u64> {
    let start = Instant::now(rt)?;
    let _found = model.find(expr);
    let took = start.elapsed(rt)?;
    Ok(nanoseconds(took))
}

fn report(rt: &HostRuntime, what: &str, features: u8, weights: &[u64], times: &[u64]) -> io::Result<()> {
    let middle = times.len() / 2;
    let median = times.get(middle).copied().unwrap_or(0);
    let worst = times.last().copied().unwrap_or(0);
    let weight = weights.get(middle).copied().unwrap_or(0);
    println!(rt; "{what}, {features} features, weight about {weight}: median {median} ns, worst {worst} ns")
}

fn one_expr(alloc: Global, numbers: &mut Numbers, features: u8, steps: u16, shaped: bool) -> Result<Expr, Memory>
    requires { 0 < features }
{
    if shaped { clauses(alloc, numbers, features, steps) } else { random_expr(alloc, numbers, features, steps) }
}

fn many(rt: &HostRuntime, free: &Model, features: u8, steps: u16, shaped: bool) -> io::Result<()>
    requires { 0 < features }
{
    let mut numbers = Numbers(7);
    let mut times = Vec::new(rt.alloc());
    let mut weights = Vec::new(rt.alloc());
    for _ in 0..200u16 {
        let Ok(expr) = one_expr(rt.alloc(), &mut numbers, features, steps, shaped) else {
            return Ok(());
        };
        weights.push(weight(&expr))?;
        times.push(time_of_find(rt, free, &expr)?)?;
    }
    times.sort()?;
    weights.sort()?;
    report(rt, if shaped { "clauses" } else { "any shape" }, features, &weights, &times)
}

fn small_conditions(alloc: Global, numbers: &mut Numbers) -> Result<Vec<Expr>, Memory> {
    let mut conditions = Vec::new(alloc);
    for round in 0..10_000u16 {
        let condition = if round % 3 == 0 {
            Expr::Feature(numbers.below(10))
        } else if round % 3 == 1 {
            not(alloc, Expr::Feature(numbers.below(10)))?
        } else {
            and(alloc, Expr::Feature(numbers.below(10)), Expr::Feature(numbers.below(10)))?
        };
        conditions.push(condition)?;
    }
    Ok(conditions)
}

/// Ten features: the first has to hold, each other one wants the one before it or the second.
fn feature_model(alloc: Global) -> Result<Model, Memory> {
    let mut whole = Expr::Feature(0);
    for feature in 2..10u8 {
        let wants = or(alloc, Expr::Feature(feature - 1), Expr::Feature(1))?;
        let rule = or(alloc, not(alloc, Expr::Feature(feature))?, wants)?;
        whole = and(alloc, whole, rule)?;
    }
    Model::new(alloc, whole)
}

fn many_small(rt: &HostRuntime, model: &Model, conditions: &[Expr]) -> io::Result<()> {
    let start = Instant::now(rt)?;
    let mut held = 0u64;
    for condition in conditions {
        if let Ok(Some(_)) = model.find(condition) {
            held = held.saturating_add(1);
        }
        if let Ok(true) = model.always(condition) {
            held = held.saturating_add(1);
        }
    }
    let took = nanoseconds(start.elapsed(rt)?);
    println!(rt; "10,000 conditions of weight 1 to 3: {took} ns for find and always, {held} yes")
}

fn chain(alloc: Global, links: u32, conjunction: bool) -> Result<Expr, Memory> {
    let mut chain = Expr::Feature(0);
    for link in 1..links {
        let next = Expr::Feature((link % 40) as u8);
        chain = if conjunction { and(alloc, chain, next)? } else { or(alloc, chain, next)? };
    }
    Ok(chain)
}

/// Forty features without a model, and chains of them.
fn free_features(rt: &HostRuntime, free: &Model) -> io::Result<()> {
    for links in [40u32, 1_000_000] {
        let Ok(all) = chain(rt.alloc(), links, true) else {
            return Ok(());
        };
        let Ok(some) = chain(rt.alloc(), links, false) else {
            return Ok(());
        };
        let conjunction = time_of_find(rt, free, &all)?;
        let disjunction = time_of_find(rt, free, &some)?;
        println!(rt; "40 free features, {links} links: conjunction {conjunction} ns, disjunction {disjunction} ns")?;
    }
    let anything = time_of_find(rt, free, &Expr::True)?;
    println!(rt; "40 free features, true: {anything} ns")
}

fn main(rt: HostRuntime) -> io::Result<()> {
    let Ok(free) = Model::new(rt.alloc(), Expr::True) else {
        return Ok(());
    };
    for features in [10u8, 20, 30, 40] {
        for steps in [16u16, 64, 160] {
            many(&rt, &free, features, steps, false)?;
        }
    }
    for (features, count) in [(10u8, 40u16), (15, 60), (20, 80), (25, 100), (30, 120)] {
        many(&rt, &free, features, count, true)?;
    }
    free_features(&rt, &free)?;
    let mut numbers = Numbers(3);
    let Ok(conditions) = small_conditions(rt.alloc(), &mut numbers) else {
        return Ok(());
    };
    let Ok(model) = feature_model(rt.alloc()) else {
        return Ok(());
    };
    many_small(&rt, &model, &conditions)
}
PROGRAM
cd "$work/crates/speed"
rt run > "$work/log" 2>&1 || { cat "$work/log" >&2; exit 1; }
sed '1,/^rt: running/d' "$work/log"
