#!/bin/sh
# Times `normal` and `configure`, in a repository of its own that is made in a temporary folder and removed.
#
# 10,000 rows of 6 columns, of which 3 are there under a condition, with 20 distinct conditions over a model of 12
# features: first rows of which each two have one list of cells, then rows that all differ. Then the same with every
# row's condition decided anew, which shows what it is worth to decide each once. Medians of 7.
set -eu
top=$(cd "$(dirname "$0")/.." && pwd)
work=$(mktemp -d)
trap 'rm -rf "$work"' EXIT
"$top/bench/copy_crates.py" "$work" condition_sat feature_expr vtable
mkdir -p "$work/crates/speed/src" "$work/crates/speed/specs"
echo 'speed: condition_sat feature_expr vtable' >> "$work/crates.txt"
: > "$work/crates/speed/specs/Lib.antt"
cat > "$work/crates/speed/src/main.rt" <<'PROGRAM'
#![tactic(auto)]

use condition_sat::Model;
use feature_expr::{ColName, Config, Expr, Kind, List, Memory, Name, TryCopy, Value, and, not, or};
use std::alloc::Global;
use std::io;
use std::time::Instant;
use vtable::{VColumn, VRow, VTable, made_normal, made_plain};

/// Twelve features: the first has to hold, each other one wants the one before it or the second.
fn model_of(alloc: Global) -> Result<Model, Memory> {
    let mut whole = Expr::Feature(0);
    for feature in 2..12u8 {
        let wants = or(alloc, Expr::Feature(feature - 1), Expr::Feature(1))?;
        let rule = or(alloc, not(alloc, Expr::Feature(feature))?, wants)?;
        whole = and(alloc, whole, rule)?;
    }
    Model::new(alloc, whole)
}

/// One of twenty conditions.
fn condition(alloc: Global, number: u64) -> Result<Expr, Memory> {
    let one = Expr::Feature((number % 10 + 1) as u8);
    let other = Expr::Feature((number.wrapping_mul(7) % 11 + 1) as u8);
    if number % 20 < 10 { and(alloc, one, other) } else { or(alloc, not(alloc, one)?, other) }
}

fn column(alloc: Global, number: u8) -> Result<VColumn, Memory> {
    let base = Name::from_slice(alloc, &[97 + number % 6])?;
    let cond = if number < 3 { Expr::True } else { Expr::Feature(number) };
    Ok(VColumn {
        name: ColName { prefix: None, base },
        kind: Kind::Int,
        cond,
    })
}

fn row(alloc: Global, number: u64, distinct: u64) -> Result<VRow, Memory> {
    let mut cells = Vec::new(alloc);
    for place in 0..6u8 {
        cells.push(Some(Value::Int(((number % 100_000).wrapping_mul(7919) % distinct.max(1) % 100_000) as i64 + i64::from(place))))?;
    }
    let cond = condition(alloc, number % 20)?;
    Ok(VRow {
        cells: List::from_vec(cells),
        cond,
    })
}

fn table_of(alloc: Global, distinct: u64) -> Result<VTable, Memory> {
    let mut columns = Vec::new(alloc);
    for number in 0..6u8 {
        columns.push(column(alloc, number)?)?;
    }
    let mut rows = Vec::new(alloc);
    for number in 0..10_000u64 {
        rows.push(row(alloc, number, distinct)?)?;
    }
    Ok(VTable {
        columns: List::from_vec(columns),
        rows: List::from_vec(rows),
    })
}

fn middle(times: &mut Vec<u128>) -> io::Result<u128> {
    times.sort()?;
    Ok(times.get(times.len() / 2).copied().unwrap_or(0))
}

fn timed(rt: &HostRuntime, what: &str, model: &Model, table: &VTable, config: &Config) -> io::Result<()> {
    let mut normals = Vec::new(rt.alloc());
    let mut plains = Vec::new(rt.alloc());
    let mut left = 0;
    for _ in 0..7u8 {
        let Ok(copy) = table.copy(rt.alloc()) else {
            return Ok(());
        };
        let start = Instant::now(rt)?;
        let Ok(after) = made_normal(rt.alloc(), model, copy) else {
            return Ok(());
        };
        normals.push(start.elapsed(rt)?.as_micros())?;
        left = after.rows.len();
        let start = Instant::now(rt)?;
        let _plain = made_plain(rt.alloc(), &after, config);
        plains.push(start.elapsed(rt)?.as_micros())?;
    }
    let normal = middle(&mut normals)?;
    let plain = middle(&mut plains)?;
    println!(rt; "{what}: table form {normal} us, {left} rows left; one variant of it {plain} us")
}

fn main(rt: HostRuntime) -> io::Result<()> {
    let (Ok(model), Ok(twice), Ok(apart)) = (model_of(rt.alloc()), table_of(rt.alloc(), 5_000), table_of(rt.alloc(), 100_000)) else {
        return Ok(());
    };
    let config = Config::none().with(0).with(1).with(3);
    timed(&rt, "each list of cells twice", &model, &twice, &config)?;
    timed(&rt, "all lists of cells differ", &model, &apart, &config)
}
PROGRAM
cd "$work/crates/speed"
run() {
  rt run > "$work/log" 2>&1 || { cat "$work/log" >&2; exit 1; }
  sed '1,/^rt: running/d' "$work/log"
}
echo 'each condition decided once:'
run
sed -i 's/if is_same_expr(&decision.cond, cond) {/if is_same_expr(\&decision.cond, cond) \&\& false {/' "$work/crates/vtable/src/decision.rt"
echo 'each condition decided for each row:'
run
