#!/bin/sh
# Times the run of plans, alone and with the answer in table form, in a repository of its own that is made in a temporary
# folder and removed: two tables of 10,000 rows of six columns, three of them conditional, under 20 conditions, and two of
# 1,000 rows, with 4 features and with 10; a join of 42 columns over 40 free features; and the plain evaluator over the
# variants of 10 features.
set -eu
top=$(cd "$(dirname "$0")/.." && pwd)
work=$(mktemp -d)
trap 'rm -rf "$work"' EXIT
crates="condition_sat feature_expr plain_evaluator plan_exec_tests query_answers query_names query_parser values vra_syntax vschema vtable"
"$top/bench/copy_crates.py" "$work" $crates
mkdir -p "$work/crates/speed/src" "$work/crates/speed/specs"
echo "speed: $crates" >> "$work/crates.txt"
: > "$work/crates/speed/specs/Lib.antt"
cat > "$work/crates/speed/src/main.rt" <<'PROGRAM'
//! Times the run of plans.
#![tactic(auto)]

ghost use Rattle.std.specs.Prelude.{◌≡◌};
ghost use Rattle.plan_exec_tests.specs.Opened.{IsOpened};
ghost use Rattle.query_answers.specs.Answering.{CanAnswer};
ghost use Rattle.vra_syntax.specs.Parameters.{param_in_query};

use feature_expr::Features;
use plain_evaluator::{Variant, admitted};
use plan_exec_tests::{Opened, answer, made, opening_of, typed};
use query_names::Typed;
use query_parser::parse;
use std::alloc::{AllocError, Global};
use std::io;
use std::time::Instant;
use values::Memory;
use vra_syntax::{Query, Statement, param_count};

const CONDITIONS: [&str; 20] = [
    "A", "B", "C", "D", "not A", "not B", "not C", "not D", "A and C", "A and not C", "B and D", "B and not D", "A or C",
    "B or not C", "C or D", "not (C or D)", "A and B", "A and B and not D", "not (A and B)", "true",
];

const COLUMNS: &str =
    "(id int8, name text, active bool, size int8 when A, note text when B and not C, sold bool when C or D)";

/// The tables: a name, how many rows each has, and the least key.
const TABLES: [(&str, usize, usize); 4] =
    [("item", 10_000, 0), ("other", 10_000, 5_000), ("small", 1_000, 0), ("short", 1_000, 0)];

/// What a query is called, its text, and how often it is run.
const QUERIES: [(&str, &str, u32); 6] = [
    ("one row of 1,000", "select * from small where id = 777", 500),
    ("half of 10,000", "select * from item where id < 5000", 20),
    ("three columns of half", "select id, name, size from item where id < 5000", 20),
    ("union of two of 10,000", "item union other", 10),
    ("except of two of 10,000", "item except other", 10),
    (
        "join of 1,000 and 1,000",
        "select s.id, s.name, t.note from small as s join short as t on s.id = t.id",
        3,
    ),
];

fn put_rows(text: &mut String, name: &str, rows: usize, first: usize) -> Result<(), AllocError> {
    for at in 0..rows {
        let key = at.wrapping_mul(7_919).checked_rem(rows).unwrap_or(0).wrapping_add(first);
        let cond = CONDITIONS.get(at % 20).copied().unwrap_or("true");
        let (one, size, note) = (key % 1_000, key % 97, key % 89);
        write!(
            text,
            "row {name} (id {key}, name 'item {one}', active true, size {size}, note 'note {note}', sold false) when {cond};"
        )?;
    }
    Ok(())
}

fn catalogue(alloc: Global, features: &str) -> Result<String, AllocError> {
    let mut text = String::new(alloc);
    write!(text, "features {features};")?;
    for (name, _rows, _first) in TABLES {
        write!(text, "table {name} {COLUMNS};")?;
    }
    for (name, rows, first) in TABLES {
        put_rows(&mut text, name, rows, first)?;
    }
    Ok(text)
}

/// A table of an integer column that is always there and 20 conditional ones, with one row.
fn put_side(text: &mut String, table: &str, key: &str, first: usize) -> Result<(), AllocError> {
    write!(text, "table {table} ({key} int8")?;
    for at in first..first.saturating_add(20) {
        write!(text, ", c{at} int8 when F{at}")?;
    }
    write!(text, "); row {table} ({key} 1")?;
    for at in first..first.saturating_add(20) {
        write!(text, ", c{at} 1")?;
    }
    text.push_str(");")?;
    Ok(())
}

fn wide_catalogue(alloc: Global) -> Result<String, AllocError> {
    let mut text = String::new(alloc);
    text.push_str("features F0")?;
    for at in 1..40 {
        write!(text, ", F{at}")?;
    }
    text.push_str(";")?;
    put_side(&mut text, "t0", "id", 0)?;
    put_side(&mut text, "t1", "no", 20)?;
    Ok(text)
}

fn statement(alloc: Global, text: &str, features: &Features) -> Option<Statement> {
    parse(alloc, text, features, true).ok()?.into_vec().pop()
}

/// How many nanoseconds a turn took.
fn mean(nanos: u128, turns: u32) -> u128 {
    nanos.checked_div(u128::from(turns)).unwrap_or(0)
}

fn time_typed(rt: &HostRuntime, opened: &Opened, typed: &Typed, turns: u32) -> io::Result<()>
    requires { CanAnswer opened.now.model opened.now.stored.tables typed.now }
{
    let alloc = rt.alloc();
    let mut rows = 0_usize;
    let start = Instant::now(rt)?;
    for _ in 0..turns {
        if let Ok(table) = made(alloc, opened, typed) {
            rows = rows.wrapping_add(table.rows.len());
        }
    }
    let alone = mean(start.elapsed(rt)?.as_nanos(), turns);
    let mut shown = 0_usize;
    let start = Instant::now(rt)?;
    for _ in 0..turns {
        if let Ok(answer) = answer(alloc, opened, typed) {
            shown = shown.wrapping_add(answer.table().rows.len());
        }
    }
    let whole = mean(start.elapsed(rt)?.as_nanos(), turns);
    let (rows, shown) = (mean(rows as u128, turns), mean(shown as u128, turns));
    println!(*rt; "run {alone} ns, {rows} rows; answer {whole} ns, {shown} rows")?;
    Ok(())
}

fn time_query(rt: &HostRuntime, opened: &Opened, query: &Query, turns: u32) -> io::Result<()>
    requires opened { IsOpened opened.now }
    requires free { param_in_query query.now ≡ 0 }
{
    if let Ok(typed) = typed(rt.alloc(), opened, query) {
        time_typed(rt, opened, &typed, turns)?;
    }
    Ok(())
}

fn time_text(rt: &HostRuntime, opened: &Opened, text: &str, turns: u32) -> io::Result<()>
    requires { IsOpened opened.now }
{
    if let Some(statement) = statement(rt.alloc(), text, &opened.catalog.features) {
        let count = param_count(&statement);
        if let Statement::Query(query) = &statement
            && count == 0
        {
            time_query(rt, opened, query, turns)?;
        }
    }
    Ok(())
}

fn time_all(rt: &HostRuntime, features: &str) -> io::Result<()> {
    let text = catalogue(rt.alloc(), features)?;
    if let Some(opened) = opening_of(rt.alloc(), text.as_bytes()) {
        for (name, text, turns) in QUERIES {
            print!(*rt; "{name}, {} features: ", opened.catalog.features.count())?;
            time_text(rt, &opened, text, turns)?;
        }
    }
    Ok(())
}

fn time_wide(rt: &HostRuntime) -> io::Result<()> {
    let text = wide_catalogue(rt.alloc())?;
    if let Some(opened) = opening_of(rt.alloc(), text.as_bytes()) {
        print!(*rt; "join of 42 columns: ")?;
        time_text(rt, &opened, "select * from t0 join t1 on id = no", 100)?;
    }
    Ok(())
}

/// How many rows the query has in all variants together, evaluated in one after another.
fn rows_of(alloc: Global, opened: &Opened, query: &Query) -> Result<usize, Memory> {
    let mut rows = 0_usize;
    for config in admitted(alloc, &opened.catalog)? {
        let variant = Variant {
            alloc,
            catalog: &opened.catalog,
            rows: &opened.rows,
            kinds: &[],
            config,
        };
        rows = rows.wrapping_add(variant.meaning(query)?.rows.len());
    }
    Ok(rows)
}

fn time_plain(rt: &HostRuntime, text: &str) -> io::Result<()> {
    let alloc = rt.alloc();
    let whole = catalogue(alloc, "A, B, C, D, E, F, G, H, I, J")?;
    if let Some(opened) = opening_of(alloc, whole.as_bytes())
        && let Some(Statement::Query(query)) = statement(alloc, text, &opened.catalog.features)
    {
        let start = Instant::now(rt)?;
        let rows = rows_of(alloc, &opened, &query).unwrap_or(0);
        let millis = start.elapsed(rt)?.as_millis();
        println!(*rt; "evaluator, 1,024 variants, {text}: {millis} ms, {rows} rows")?;
    }
    Ok(())
}

fn main(rt: HostRuntime) -> io::Result<()> {
    time_all(&rt, "A, B, C, D")?;
    time_all(&rt, "A, B, C, D, E, F, G, H, I, J")?;
    time_wide(&rt)?;
    time_plain(&rt, "select * from small where id = 777")?;
    time_plain(&rt, "select * from item where id < 5000")?;
    Ok(())
}
PROGRAM
cd "$work/crates/speed"
rt run > "$work/log" 2>&1 || { cat "$work/log" >&2; exit 1; }
grep -E '^(one|half|three|union|except|join|evaluator)' "$work/log"
