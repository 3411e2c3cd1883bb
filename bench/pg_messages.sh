#!/bin/sh
# Times the messages, in a repository of its own that is made in a temporary folder and removed: 100,000 DataRows of
# five cells are encoded one behind the other, and then decoded.
set -eu
top=$(cd "$(dirname "$0")/.." && pwd)
work=$(mktemp -d)
trap 'rm -rf "$work"' EXIT
"$top/bench/copy_crates.py" "$work" pg_messages values
mkdir -p "$work/crates/speed/src" "$work/crates/speed/specs"
echo 'speed: pg_messages values' >> "$work/crates.txt"
: > "$work/crates/speed/specs/Lib.antt"
cat > "$work/crates/speed/src/main.rt" <<'PROGRAM'
#![tactic(auto)]

use values::{List, Memory, Text};
use pg_messages::{Back, Decoded, decode_back, encode_back};
use std::alloc::Global;
use std::io;
use std::time::Instant;

fn row(alloc: Global) -> Result<Back, Memory> {
    let mut cells = Vec::new(alloc);
    cells.push(Some(Text::from_slice(alloc, b"123456")?))?;
    cells.push(Some(Text::from_slice(alloc, b"a name of some length")?))?;
    cells.push(None)?;
    cells.push(Some(Text::from_slice(alloc, b"t")?))?;
    cells.push(Some(Text::from_slice(alloc, b"A and not B")?))?;
    Ok(Back::DataRow(List::from_vec(cells)))
}

fn encoded(alloc: Global, row: &Back) -> Vec<u8> {
    let mut bytes = Vec::new(alloc);
    for _ in 0..100_000 {
        let _done = encode_back(row, &mut bytes);
    }
    bytes
}

fn decoded(alloc: Global, bytes: &[u8]) -> u64 {
    let mut rest = bytes;
    let mut count = 0u64;
    for _ in 0..100_000 {
        if let Decoded::Whole(_row, length) = decode_back(alloc, rest) {
            let (_, left) = rest.split_at(length);
            rest = left;
            count = count.saturating_add(1);
        }
    }
    count
}

fn main(rt: HostRuntime) -> io::Result<()> {
    let Ok(row) = row(rt.alloc()) else {
        return Ok(());
    };
    let start = Instant::now(&rt)?;
    let bytes = encoded(rt.alloc(), &row);
    let writing = start.elapsed(&rt)?.as_micros();
    let start = Instant::now(&rt)?;
    let count = decoded(rt.alloc(), bytes.as_slice());
    let reading = start.elapsed(&rt)?.as_micros();
    let size = bytes.len();
    println!(rt; "100,000 rows, {size} bytes: encoded in {writing} us, {count} decoded in {reading} us")
}
PROGRAM
cd "$work/crates/speed"
rt run > "$work/log" 2>&1 || { cat "$work/log" >&2; exit 1; }
sed '1,/^rt: running/d' "$work/log"
