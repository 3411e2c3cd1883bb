#!/bin/sh
# Times the typing of queries, in a repository of its own that is made in a temporary folder and removed: selects over
# tables of conditional columns, unions of them, selects within one another, and a join. Each is typed some times, with
# nothing known of earlier questions, and the mean is printed.
set -eu
top=$(cd "$(dirname "$0")/.." && pwd)
work=$(mktemp -d)
trap 'rm -rf "$work"' EXIT
"$top/bench/copy_crates.py" "$work" asked_conditions condition_sat feature_expr query_names query_parser query_typing values vra_syntax vschema
mkdir -p "$work/crates/speed/src" "$work/crates/speed/specs"
echo 'speed: asked_conditions condition_sat feature_expr query_names query_parser query_typing values vra_syntax vschema' >> "$work/crates.txt"
: > "$work/crates/speed/specs/Lib.antt"
cat > "$work/crates/speed/src/main.rt" <<'PROGRAM'
//! Times the typing of queries.
#![tactic(auto)]

ghost use Rattle.std.specs.Prelude.{◌≡◌, ◌<◌, ◌^◌, length, IfOk};
ghost use Rattle.vschema.specs.Formed.{IsFormed};

use asked_conditions::Questions;
use condition_sat::Model;
use feature_expr::Features;
use query_names::{TableNames, check_names, plan_of};
use query_parser::parse;
use query_typing::{query_columns, type_query};
use std::alloc::{AllocError, Global};
use std::io;
use std::time::Instant;
use values::{List, Memory, TryCopy};
use vra_syntax::{Query, Statement};
use vschema::{Catalog, OpeningRow, parse_catalog};

/// The tables: a name, how many columns each has, and under how many features they stand.
const TABLES: [(&str, usize, usize); 6] = [
    ("w8", 8, 8),
    ("w16", 16, 16),
    ("w32", 32, 32),
    ("w64", 64, 64),
    ("v8", 64, 8),
    ("v1", 64, 1),
];

/// What a query is called, and what it is made of: a table and its columns, how many selects stand within one another,
/// and how many are united.
const QUERIES: [(&str, &str, usize, usize, usize); 14] = [
    ("all", "w8", 0, 1, 1),
    ("all", "w16", 0, 1, 1),
    ("all", "w32", 0, 1, 1),
    ("all", "w64", 0, 1, 1),
    ("all", "v8", 0, 1, 1),
    ("all", "v1", 0, 1, 1),
    ("listed", "w8", 8, 1, 1),
    ("listed", "w16", 16, 1, 1),
    ("listed", "w32", 32, 1, 1),
    ("listed", "w64", 64, 1, 1),
    ("within", "w64", 64, 8, 1),
    ("within", "w64", 64, 32, 1),
    ("union", "w64", 0, 1, 100),
    ("union", "w64", 64, 1, 100),
];

fn put_table(text: &mut String, name: &str, columns: usize, features: usize) -> Result<(), AllocError> {
    write!(text, " table {name} (")?;
    for at in 0..columns {
        if at > 0 {
            text.push_str(", ")?;
        }
        let feature = at.checked_rem(features).unwrap_or(0);
        write!(text, "c{at} int8 when F{feature}")?;
    }
    text.push_str(");")?;
    Ok(())
}

/// A table of an integer column that is always there, and 20 conditional ones.
fn put_side(text: &mut String, name: &str, first: usize) -> Result<(), AllocError> {
    write!(text, " table {name} (k{first} int8")?;
    for at in 0..20_usize {
        let feature = first.saturating_add(at);
        write!(text, ", c{feature} int8 when F{feature}")?;
    }
    text.push_str(");")?;
    Ok(())
}

fn catalogue(alloc: Global) -> Result<String, AllocError> {
    let mut text = String::new(alloc);
    text.push_str("features F0")?;
    for at in 1..64 {
        write!(text, ", F{at}")?;
    }
    text.push_str(";")?;
    for (name, columns, features) in TABLES {
        put_table(&mut text, name, columns, features)?;
    }
    put_side(&mut text, "t0", 0)?;
    put_side(&mut text, "t1", 20)?;
    Ok(text)
}

fn put_items(text: &mut String, columns: usize) -> Result<(), AllocError> {
    if columns == 0 {
        text.push_str("*")?;
    }
    for at in 0..columns {
        if at > 0 {
            text.push_str(", ")?;
        }
        write!(text, "c{at}")?;
    }
    Ok(())
}

fn put_select(text: &mut String, table: &str, columns: usize, depth: usize) -> Result<(), AllocError> {
    for at in 0..depth {
        if at > 0 {
            text.push_str("(")?;
        }
        text.push_str("select ")?;
        put_items(text, columns)?;
        text.push_str(" from ")?;
    }
    text.push_str(table)?;
    for _ in 1..depth {
        text.push_str(")")?;
    }
    Ok(())
}

fn spelled(
    alloc: Global,
    table: &str,
    columns: usize,
    depth: usize,
    united: usize,
) -> Result<String, AllocError> {
    let mut text = String::new(alloc);
    for at in 0..united {
        if at > 0 {
            text.push_str(" union ")?;
        }
        put_select(&mut text, table, columns, depth)?;
    }
    Ok(text)
}

fn query(alloc: Global, text: &str, features: &Features) -> Option<Query> {
    let mut statements = parse(alloc, text, features, true).ok()?.into_vec();
    match statements.pop() {
        Some(Statement::Query(query)) => Some(query),
        _ => None,
    }
}

fn table_names<'a>(
    alloc: Global,
    catalog: &'a Catalog,
    rows: &List<OpeningRow>,
) -> Result<TableNames<'a>, Memory>
    requires { IsFormed catalog.now rows.now }
{
    TableNames::new(alloc, catalog.tables.as_slice())
}

fn model_of(alloc: Global, catalog: &Catalog) -> Result<Model, Memory> {
    let expr = catalog.model.copy(alloc)?;
    Model::new(alloc, expr)
}

/// How many microseconds a turn took.
fn mean(micros: u128, turns: u32) -> u128 {
    micros.checked_div(u128::from(turns)).unwrap_or(0)
}

fn time(
    rt: &HostRuntime,
    tables: &TableNames<'_>,
    model: &Model,
    query: &Query,
    turns: u32,
) -> io::Result<()>
    requires { length tables.now.tables.now < 2 ^ 32 }
{
    let alloc = rt.alloc();
    let mut width = 0;
    let start = Instant::now(rt)?;
    for _ in 0..turns {
        let mut questions = Questions::new(alloc, model);
        if let Ok(typed) = type_query(alloc, &mut questions, tables, query, &[]) {
            width = typed.columns().len();
        }
    }
    let whole = mean(start.elapsed(rt)?.as_micros(), turns);
    let start = Instant::now(rt)?;
    for _ in 0..turns {
        let _names = check_names(alloc, tables, query, &[]);
    }
    let names = mean(start.elapsed(rt)?.as_micros(), turns);
    let start = Instant::now(rt)?;
    for _ in 0..turns {
        let _plan = plan_of(alloc, tables, query);
    }
    let plan = mean(start.elapsed(rt)?.as_micros(), turns);
    let start = Instant::now(rt)?;
    for _ in 0..turns {
        let mut questions = Questions::new(alloc, model);
        let _columns = query_columns(alloc, &mut questions, &[], tables, query);
    }
    let columns = mean(start.elapsed(rt)?.as_micros(), turns);
    println!(*rt; "{whole} us, {width} columns (names {names}, names and columns {columns}, plan {plan})")?;
    Ok(())
}

fn time_all(
    rt: &HostRuntime,
    tables: &TableNames<'_>,
    model: &Model,
    features: &Features,
) -> io::Result<()>
    requires { length tables.now.tables.now < 2 ^ 32 }
{
    let alloc = rt.alloc();
    for (name, table, columns, depth, united) in QUERIES {
        let text = spelled(alloc, table, columns, depth, united)?;
        if let Some(query) = query(alloc, text.as_str(), features) {
            print!(*rt; "{name} {table} {depth} {united}: ")?;
            time(rt, tables, model, &query, if united > 1 { 5 } else { 100 })?;
        }
    }
    if let Some(query) = query(alloc, "select * from t0 join t1 on k0 = k20", features) {
        print!(*rt; "join t0 t1: ")?;
        time(rt, tables, model, &query, 100)?;
    }
    Ok(())
}

fn main(rt: HostRuntime) -> io::Result<()> {
    let alloc = rt.alloc();
    let text = catalogue(alloc)?;
    let Ok((catalog, opening)) = parse_catalog(alloc, text.as_bytes()) else {
        return Ok(());
    };
    let Ok(tables) = table_names(alloc, &catalog, &opening) else {
        return Ok(());
    };
    let Ok(model) = model_of(alloc, &catalog) else {
        return Ok(());
    };
    if tables.tables().len() < 256 {
        time_all(&rt, &tables, &model, &catalog.features)?;
    }
    Ok(())
}
PROGRAM
cd "$work/crates/speed"
rt run > "$work/log" 2>&1 || { cat "$work/log" >&2; exit 1; }
grep -E '^(all|listed|within|union|join) ' "$work/log"
