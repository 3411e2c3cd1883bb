#!/bin/sh
# Times the numbers in the tags of writes, in a repository of its own that is made in a temporary folder and removed: a
# DELETE of all rows, one of one row and an UPDATE of those of a condition, over 10,000, 40,000 and 160,000 rows of a table
# under 20 conditions over 12 features, where all lists of mandatory cells differ and where each stands 100 times.
set -eu
top=$(cd "$(dirname "$0")/.." && pwd)
work=$(mktemp -d)
trap 'rm -rf "$work"' EXIT
"$top/bench/copy_crates.py" "$work" asked_conditions condition_sat feature_expr query_parser row_writes values vra_syntax vschema vtable write_counts
mkdir -p "$work/crates/speed/src" "$work/crates/speed/specs"
echo 'speed: asked_conditions condition_sat feature_expr query_parser row_writes values vra_syntax vschema vtable write_counts' >> "$work/crates.txt"
: > "$work/crates/speed/specs/Lib.antt"
cat > "$work/crates/speed/src/main.rt" <<'PROGRAM'
//! Times the numbers in the tags of writes.
#![tactic(auto)]

ghost use Rattle.std.specs.Prelude.{◌≡◌, true, IfSome};
ghost use Rattle.vschema.specs.Formed.{IsFormed, has_distinct_columns};

use asked_conditions::Questions;
use condition_sat::Model;
use feature_expr::{Expr, Features, and, not, or};
use query_parser::parse;
use row_writes::stored_columns;
use std::alloc::Global;
use std::io;
use std::time::Instant;
use values::{List, Memory, TryCopy, Value};
use vra_syntax::{Statement, Write};
use vschema::{Catalog, OpeningRow, Table, parse_catalog};
use vtable::VRow;
use write_counts::count_write;

const CATALOGUE: &str = "features F0, F1, F2, F3, F4, F5, F6, F7, F8, F9, F10, F11; model F0 or F1; \
table emp (id int8, size int8, pay int8 when F2);";

const WRITES: [&str; 3] = [
    "delete from emp where true when F3",
    "delete from emp where id = 77",
    "update emp set size = 7 where size < 50 when F0 and not F1",
];

const COUNTS: [u64; 3] = [10_000, 40_000, 160_000];

/// One of twenty conditions.
fn condition(alloc: Global, number: u64) -> Result<Expr, Memory> {
    let one = Expr::Feature((number % 10 + 1) as u8);
    let other = Expr::Feature((number.wrapping_mul(7) % 11 + 1) as u8);
    if number % 20 < 10 {
        and(alloc, one, other)
    } else {
        or(alloc, not(alloc, one)?, other)
    }
}

fn row(alloc: Global, number: u64, distinct: u64) -> Result<VRow, Memory> {
    let mut cells = Vec::new(alloc);
    for place in 0..3u64 {
        let value = (number % distinct.max(1)).wrapping_add(place) % 1_000_000;
        cells.push(Some(Value::Int(value as i64)))?;
    }
    let cond = condition(alloc, number % 20)?;
    Ok(VRow {
        cells: List::from_vec(cells),
        cond,
    })
}

fn rows(alloc: Global, count: u64, distinct: u64) -> Result<Vec<VRow>, Memory> {
    let mut rows = Vec::new(alloc);
    for number in 0..count {
        rows.push(row(alloc, number, distinct)?)?;
    }
    Ok(rows)
}

fn write(alloc: Global, text: &str, features: &Features) -> Option<Write> {
    let mut statements = parse(alloc, text, features, true).ok()?.into_vec();
    match statements.pop() {
        Some(Statement::Write(write)) => Some(write),
        _ => None,
    }
}

fn first_table<'a>(catalog: &'a Catalog, rows: &List<OpeningRow>) -> Option<&'a Table>
    requires { IsFormed catalog.now rows.now }
    ensures { IfSome result (λ table. has_distinct_columns table.now ≡ true) }
{
    match catalog.tables.as_slice().split_first() {
        Some((table, _more)) => Some(table),
        None => None,
    }
}

fn model_of(alloc: Global, catalog: &Catalog) -> Result<Model, Memory> {
    let expr = catalog.model.copy(alloc)?;
    Model::new(alloc, expr)
}

fn time(
    rt: &HostRuntime,
    model: &Model,
    features: &Features,
    table: &Table,
    rows: &[VRow],
    text: &str,
) -> io::Result<()>
    requires { has_distinct_columns table.now ≡ true }
{
    let alloc = rt.alloc();
    let Some(write) = write(alloc, text, features) else {
        return Ok(());
    };
    let Ok(columns) = stored_columns(alloc, table) else {
        return Ok(());
    };
    let start = Instant::now(rt)?;
    let mut questions = Questions::new(alloc, model);
    let counted = count_write(alloc, &mut questions, table, &columns, &write, rows);
    let micros = start.elapsed(rt)?.as_micros();
    println!(*rt; "of {} rows {}: {micros} us: {text}", rows.len(), counted.unwrap_or(0))?;
    Ok(())
}

fn main(rt: HostRuntime) -> io::Result<()> {
    let alloc = rt.alloc();
    let Ok((catalog, opening)) = parse_catalog(alloc, CATALOGUE.as_bytes()) else {
        return Ok(());
    };
    let Ok(model) = model_of(alloc, &catalog) else {
        return Ok(());
    };
    let Some(table) = first_table(&catalog, &opening) else {
        return Ok(());
    };
    for count in COUNTS {
        for distinct in [count, count / 100] {
            let Ok(rows) = rows(alloc, count, distinct) else {
                return Ok(());
            };
            for text in WRITES {
                time(&rt, &model, &catalog.features, table, rows.as_slice(), text)?;
            }
        }
    }
    Ok(())
}
PROGRAM
cd "$work/crates/speed"
rt run > "$work/log" 2>&1 || { cat "$work/log" >&2; exit 1; }
grep -E '^of ' "$work/log"
