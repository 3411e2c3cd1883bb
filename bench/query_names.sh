#!/bin/sh
# Times what the names of a query say, its plan and the kinds of its parameters, in a repository of its own that is made
# in a temporary folder and removed: unions of selects over a table of 64 columns, and a long chain of unions.
set -eu
top=$(cd "$(dirname "$0")/.." && pwd)
work=$(mktemp -d)
trap 'rm -rf "$work"' EXIT
"$top/bench/copy_crates.py" "$work" feature_expr query_names query_parser values vra_syntax vschema
mkdir -p "$work/crates/speed/src" "$work/crates/speed/specs"
echo 'speed: feature_expr query_names query_parser values vra_syntax vschema' >> "$work/crates.txt"
: > "$work/crates/speed/specs/Lib.antt"
cat > "$work/crates/speed/src/main.rt" <<'PROGRAM'
ghost use Rattle.std.specs.Prelude.{◌≡◌, ◌<◌, ◌^◌, true, length};
ghost use Rattle.std.specs.List.{list_all};
ghost use Rattle.vschema.specs.Formed.{has_distinct_columns};

use feature_expr::Features;
use query_names::{TableNames, names_of, param_kinds, plan_of};
use query_parser::parse;
use std::alloc::{AllocError, Global};
use std::io;
use std::time::Instant;
use values::List;
use vra_syntax::Statement;
use vschema::{Table, parse_catalog};

const COLUMNS: usize = 64;

/// What a text is called, what is repeated in it, and how often.
const TEXTS: [(&str, &str, usize); 4] = [
    ("all", "select * from wide where c1 = $1 and c64 < 5", 1_000),
    ("two", "select c1, c64 from wide where c1 = 1", 1_000),
    ("each", "EACH", 1_000),
    ("chain", "t", 100_000),
];

fn put_columns(text: &mut String, kind: &str) -> Result<(), AllocError> {
    for at in 1..COLUMNS + 1 {
        if at > 1 {
            text.push_str(", ")?;
        }
        write!(text, "c{at}{kind}")?;
    }
    Ok(())
}

fn catalogue(alloc: Global) -> Result<String, AllocError> {
    let mut text = String::new(alloc);
    text.push_str("features A; table t (id int8); table wide (")?;
    put_columns(&mut text, " int8")?;
    text.push_str(");")?;
    Ok(text)
}

fn statement(alloc: Global, repeated: &str, count: usize) -> Result<String, AllocError> {
    let mut each = String::new(alloc);
    if repeated == "EACH" {
        each.push_str("select ")?;
        put_columns(&mut each, "")?;
        each.push_str(" from wide")?;
    } else {
        each.push_str(repeated)?;
    }
    let mut text = String::new(alloc);
    for at in 0..count {
        if at > 0 {
            text.push_str(" union ")?;
        }
        text.push_str(each.as_str())?;
    }
    Ok(text)
}

fn time(
    rt: &HostRuntime,
    tables: &[Table],
    features: &Features,
    name: &str,
    text: &str,
) -> io::Result<()>
    requires countable { length tables.now < 2 ^ 32 }
    requires distinct { list_all has_distinct_columns tables.now ≡ true }
{
    let alloc = rt.alloc();
    let Ok(statements) = parse(alloc, text, features, true) else {
        return Ok(());
    };
    let Some(statement) = statements.get(0) else {
        return Ok(());
    };
    let start = Instant::now(rt)?;
    let Ok(tables) = TableNames::new(alloc, tables) else {
        return Ok(());
    };
    let index = start.elapsed(rt)?.as_micros();
    if let Statement::Query(query) = statement {
        let start = Instant::now(rt)?;
        let names = names_of(alloc, &tables, query);
        let walk = start.elapsed(rt)?.as_micros();
        let width = match &names {
            Ok(names) => names.possible.len(),
            Err(_) => 0,
        };
        let start = Instant::now(rt)?;
        let plan = plan_of(alloc, &tables, query);
        let planning = start.elapsed(rt)?.as_micros();
        let start = Instant::now(rt)?;
        let kinds = param_kinds(alloc, &tables, statement, &[]);
        let kinding = start.elapsed(rt)?.as_micros();
        println!(*rt; "{name}, {width} columns: tables {index} us, names {walk} us, plan {planning} us ({}), kinds {kinding} us ({})", plan.is_ok(), kinds.is_ok())?;
    }
    Ok(())
}

fn main(rt: HostRuntime) -> io::Result<()> {
    let alloc = rt.alloc();
    let Ok(bytes) = catalogue(alloc) else {
        return Ok(());
    };
    let Ok((catalog, _rows)) = parse_catalog(alloc, bytes.as_bytes()) else {
        return Ok(());
    };
    for (name, repeated, count) in TEXTS {
        let Ok(text) = statement(alloc, repeated, count) else {
            return Ok(());
        };
        time(
            &rt,
            catalog.tables.as_slice(),
            &catalog.features,
            name,
            text.as_str(),
        )?;
    }
    Ok(())
}
PROGRAM
cd "$work/crates/speed"
rt run > "$work/log" 2>&1 || { cat "$work/log" >&2; exit 1; }
grep -E '^(all|two|each|chain)' "$work/log"
