#!/bin/sh
# Times the tokens, the parser and the printer of expressions, in a repository of its own that is made in a temporary
# folder and removed: a text of 1,000,000 bytes and 100,000 tokens, names of 16 bytes joined by `or` and ` and`.
set -eu
top=$(cd "$(dirname "$0")/.." && pwd)
work=$(mktemp -d)
trap 'rm -rf "$work"' EXIT
"$top/bench/copy_crates.py" "$work" feature_expr
mkdir -p "$work/crates/speed/src" "$work/crates/speed/specs"
echo 'speed: feature_expr' >> "$work/crates.txt"
: > "$work/crates/speed/specs/Lib.antt"
cat > "$work/crates/speed/src/main.rt" <<'PROGRAM'
#![tactic(auto)]

use feature_expr::{Features, List, Memory, Name, parse_expr, print_expr, tokens, weight};
use std::alloc::Global;
use std::io;
use std::time::Instant;

const NAMES: [&[u8]; 4] = [
    b"feature_number_a",
    b"feature_number_b",
    b"feature_number_c",
    b"feature_number_d",
];

fn features(alloc: Global) -> Result<Option<Features>, Memory> {
    let mut names = Vec::new(alloc);
    for name in NAMES {
        names.push(Name::from_slice(alloc, name)?)?;
    }
    match Features::new(List::from_vec(names)) {
        Ok(features) => Ok(Some(features)),
        Err(_) => Ok(None),
    }
}

/// 50,000 names, three joined by `and` between two `or`.
fn text(alloc: Global) -> Result<Vec<u8>, Memory> {
    let mut bytes = Vec::new(alloc);
    for at in 0..50_000usize {
        bytes.extend_from_slice(NAMES[at % 4])?;
        if at % 3 == 2 {
            bytes.extend_from_slice(b" or ")?;
        } else {
            bytes.extend_from_slice(b" and ")?;
        }
    }
    bytes.extend_from_slice(b"true")?;
    Ok(bytes)
}

fn main(rt: HostRuntime) -> io::Result<()> {
    let alloc = rt.alloc();
    let (Ok(Some(features)), Ok(bytes)) = (features(alloc), text(alloc)) else {
        return Ok(());
    };
    let Ok(text) = str::from_utf8(bytes.as_slice()) else {
        return Ok(());
    };
    let start = Instant::now(&rt)?;
    let found = tokens(alloc, text);
    let reading = start.elapsed(&rt)?.as_micros();
    let count = match &found {
        Ok(found) => found.len(),
        Err(_) => 0,
    };
    let start = Instant::now(&rt)?;
    let answer = parse_expr(alloc, text, &features, 64);
    let parsing = start.elapsed(&rt)?.as_micros();
    let Ok(expr) = answer else {
        return Ok(());
    };
    let start = Instant::now(&rt)?;
    let printed = print_expr(alloc, &expr, &features);
    let printing = start.elapsed(&rt)?.as_micros();
    let size = text.len();
    let nodes = weight(&expr);
    let same = match &printed {
        Ok(printed) => printed.as_slice() == text.as_bytes(),
        Err(_) => false,
    };
    println!(rt; "{size} bytes: {count} tokens in {reading} us, {nodes} nodes parsed in {parsing} us, printed in {printing} us, the same: {same}")
}
PROGRAM
cd "$work/crates/speed"
rt run > "$work/log" 2>&1 || { cat "$work/log" >&2; exit 1; }
sed '1,/^rt: running/d' "$work/log"
