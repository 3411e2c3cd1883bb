#!/bin/sh
# Times the typing of writes, in a repository of its own that is made in a temporary folder and removed: an INSERT of
# 10,000 rows and one of 40,000, an INSERT into a table of 64 conditional columns, an UPDATE and a DELETE of few words.
set -eu
top=$(cd "$(dirname "$0")/.." && pwd)
work=$(mktemp -d)
trap 'rm -rf "$work"' EXIT
"$top/bench/copy_crates.py" "$work" asked_conditions condition_sat feature_expr query_names query_parser values vra_syntax vschema write_typing
mkdir -p "$work/crates/speed/src" "$work/crates/speed/specs"
echo 'speed: asked_conditions condition_sat feature_expr query_names query_parser values vra_syntax vschema write_typing' >> "$work/crates.txt"
: > "$work/crates/speed/specs/Lib.antt"
cat > "$work/crates/speed/src/main.rt" <<'PROGRAM'
//! Times the typing of writes.
#![tactic(auto)]

ghost use Rattle.std.specs.Prelude.{IfOk};
ghost use Rattle.vschema.specs.Formed.{IsFormed};

use asked_conditions::Questions;
use condition_sat::Model;
use feature_expr::Features;
use query_names::TableNames;
use query_parser::parse;
use std::alloc::{AllocError, Global};
use std::io;
use std::time::Instant;
use values::{Kind, List, Memory, TryCopy};
use vra_syntax::{Statement, Write};
use vschema::{Catalog, OpeningRow, parse_catalog};
use write_typing::type_write;

const COLUMNS: usize = 64;

const KINDS: [Kind; 1] = [Kind::Int];

/// What a write is called, what stands before its rows, one of them, and how many there are.
const WRITES: [(&str, &str, &str, usize); 5] = [
    ("rows", "insert into emp (id, name, pay) values ", "(12345, 'somebody', -7)", 10_000),
    ("rows", "insert into emp (id, name, pay) values ", "(12345, 'somebody', -7)", 40_000),
    ("parameters", "insert into emp (id, name, pay) values ", "($1, 'somebody', $1)", 40_000),
    ("update", "update emp set pay = 7 where choice [F0] (id = 1, id = 2) when F0", "", 0),
    ("delete", "delete from emp where choice [F0] (pay = 1, id = 2)", "", 0),
];

fn put_columns(text: &mut String, has_kinds: bool) -> Result<(), AllocError> {
    for at in 0..COLUMNS {
        if at > 0 {
            text.push_str(", ")?;
        }
        write!(text, "c{at}")?;
        if has_kinds {
            write!(text, " int8 when F{at}")?;
        }
    }
    Ok(())
}

fn catalogue(alloc: Global) -> Result<String, AllocError> {
    let mut text = String::new(alloc);
    text.push_str("features F0")?;
    for at in 1..COLUMNS {
        write!(text, ", F{at}")?;
    }
    text.push_str("; table emp (id int8, name text, pay int8 when F0); table wide (")?;
    put_columns(&mut text, true)?;
    text.push_str(");")?;
    Ok(text)
}

fn rows(alloc: Global, before: &str, row: &str, count: usize) -> Result<String, AllocError> {
    let mut text = String::new(alloc);
    text.push_str(before)?;
    for at in 0..count {
        if at > 0 {
            text.push_str(", ")?;
        }
        text.push_str(row)?;
    }
    Ok(text)
}

/// A row with a value for each of the 64 columns.
fn wide(alloc: Global) -> Result<String, AllocError> {
    let mut text = String::new(alloc);
    text.push_str("insert into wide (")?;
    put_columns(&mut text, false)?;
    text.push_str(") values (0")?;
    for _ in 1..COLUMNS {
        text.push_str(", 0")?;
    }
    text.push_str(")")?;
    Ok(text)
}

fn write(alloc: Global, text: &str, features: &Features) -> Option<Write> {
    let mut statements = parse(alloc, text, features, true).ok()?.into_vec();
    match statements.pop() {
        Some(Statement::Write(write)) => Some(write),
        _ => None,
    }
}

fn table_names<'a>(
    alloc: Global,
    catalog: &'a Catalog,
    rows: &List<OpeningRow>,
) -> Result<TableNames<'a>, Memory>
    requires { IsFormed catalog.now rows.now }
{
    TableNames::new(alloc, catalog.tables.as_slice())
}

fn model_of(alloc: Global, catalog: &Catalog) -> Result<Model, Memory> {
    let expr = catalog.model.copy(alloc)?;
    Model::new(alloc, expr)
}

fn time(
    rt: &HostRuntime,
    tables: &TableNames<'_>,
    model: &Model,
    features: &Features,
    name: &str,
    count: usize,
    text: &str,
) -> io::Result<()> {
    let alloc = rt.alloc();
    let Some(write) = write(alloc, text, features) else {
        return Ok(());
    };
    let start = Instant::now(rt)?;
    let mut questions = Questions::new(alloc, model);
    let typed = type_write(alloc, &mut questions, tables, write, &KINDS);
    let micros = start.elapsed(rt)?.as_micros();
    println!(*rt; "{name} {count}: {micros} us ({})", typed.is_ok())?;
    Ok(())
}

fn main(rt: HostRuntime) -> io::Result<()> {
    let alloc = rt.alloc();
    let text = catalogue(alloc)?;
    let Ok((catalog, opening)) = parse_catalog(alloc, text.as_bytes()) else {
        return Ok(());
    };
    let Ok(tables) = table_names(alloc, &catalog, &opening) else {
        return Ok(());
    };
    let Ok(model) = model_of(alloc, &catalog) else {
        return Ok(());
    };
    let features = &catalog.features;
    for (name, before, row, count) in WRITES {
        let text = rows(alloc, before, row, count)?;
        time(&rt, &tables, &model, features, name, count, text.as_str())?;
    }
    let text = wide(alloc)?;
    time(&rt, &tables, &model, features, "wide", 1, text.as_str())?;
    Ok(())
}
PROGRAM
cd "$work/crates/speed"
rt run > "$work/log" 2>&1 || { cat "$work/log" >&2; exit 1; }
grep -E '^(rows|parameters|update|delete|wide) ' "$work/log"
