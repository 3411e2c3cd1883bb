#!/bin/sh
# Times the parser and the printer of statements, in a repository of its own that is made in a temporary folder and
# removed: texts of a megabyte, a union of selects with conditions, one condition, and an insert of many rows.
set -eu
top=$(cd "$(dirname "$0")/.." && pwd)
work=$(mktemp -d)
trap 'rm -rf "$work"' EXIT
"$top/bench/copy_crates.py" "$work" feature_expr query_parser vra_syntax
mkdir -p "$work/crates/speed/src" "$work/crates/speed/specs"
echo 'speed: feature_expr query_parser vra_syntax' >> "$work/crates.txt"
: > "$work/crates/speed/specs/Lib.antt"
cat > "$work/crates/speed/src/main.rt" <<'PROGRAM'
#![tactic(auto)]

use feature_expr::{Features, List, Memory, Name};
use query_parser::{parse, print_statement};
use std::alloc::Global;
use std::io;
use std::time::Instant;

/// What a text begins with, what is repeated in it, what stands between, and how often.
const TEXTS: [(&str, &[u8], &[u8], &[u8], usize); 3] = [
    (
        "union",
        b"",
        b"select id, name as who when A from emp where pay > 10 and not id = 7",
        b" union ",
        13_300,
    ),
    (
        "condition",
        b"select * from emp where ",
        b"pay >= 100 and name <> 'ann'",
        b" or ",
        31_200,
    ),
    (
        "insert",
        b"insert into emp (id, name, pay) values ",
        b"(12345, 'somebody', -7)",
        b", ",
        40_000,
    ),
];

fn features(alloc: Global) -> Result<Option<Features>, Memory> {
    let mut names = Vec::new(alloc);
    names.push(Name::from_slice(alloc, b"A")?)?;
    match Features::new(List::from_vec(names)) {
        Ok(features) => Ok(Some(features)),
        Err(_) => Ok(None),
    }
}

fn text(alloc: Global, part: (&[u8], &[u8], &[u8], usize)) -> Result<Vec<u8>, Memory> {
    let mut bytes = Vec::new(alloc);
    bytes.extend_from_slice(part.0)?;
    for at in 0..part.3 {
        if at > 0 {
            bytes.extend_from_slice(part.2)?;
        }
        bytes.extend_from_slice(part.1)?;
    }
    Ok(bytes)
}

fn main(rt: HostRuntime) -> io::Result<()> {
    let alloc = rt.alloc();
    let Ok(Some(features)) = features(alloc) else {
        return Ok(());
    };
    for (name, begin, repeated, between, count) in TEXTS {
        let Ok(bytes) = text(alloc, (begin, repeated, between, count)) else {
            return Ok(());
        };
        let Ok(text) = str::from_utf8(bytes.as_slice()) else {
            return Ok(());
        };
        let start = Instant::now(&rt)?;
        let answer = parse(alloc, text, &features, false);
        let parsing = start.elapsed(&rt)?.as_micros();
        let size = text.len();
        match &answer {
            Ok(statements) => {
                if let Some(statement) = statements.as_slice().first() {
                    let start = Instant::now(&rt)?;
                    let printed = print_statement(alloc, statement, &features);
                    let printing = start.elapsed(&rt)?.as_micros();
                    let same = match &printed {
                        Ok(printed) => printed.as_slice() == text.as_bytes(),
                        Err(_) => false,
                    };
                    println!(rt; "{name}, {size} bytes: parsed in {parsing} us, printed in {printing} us, the same: {same}")?;
                }
            }
            Err(why) => println!(rt; "{name}: {why:?}")?,
        }
    }
    Ok(())
}
PROGRAM
cd "$work/crates/speed"
rt run > "$work/log" 2>&1 || { cat "$work/log" >&2; exit 1; }
grep -E '^(union|condition|insert)' "$work/log"
