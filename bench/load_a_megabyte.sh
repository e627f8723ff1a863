#!/bin/sh
# Loads a megabyte of rows into an empty list in memory, prints how many rows that were and how long it took, and fails
# where it took a second or more. The rows are of two types, 20 below each root, of a PHIDAM database without an index. The
# program is proved, with the crates that aren't yet, and built by LLVM without checks.
#
#     bench/load_a_megabyte.sh [BYTES]
set -eu
top=$(cd "$(dirname "$0")/.." && pwd)
work=$(mktemp -d)
trap 'rm -rf "$work"' EXIT
crates="hal_base hal_schema forest_laws hal_loader dbd_reader partition_reader load_rows"
for name in $crates; do
    mkdir -p "$work/crates"
    cp -r "$top/crates/$name" "$work/crates/"
    grep "^$name:" "$top/crates.txt" >> "$work/crates.txt"
done
echo "load_bench: $crates" >> "$work/crates.txt"
mkdir -p "$work/crates/load_bench/src"
cat > "$work/crates/load_bench/src/main.rt" <<'END'
#![tactic(auto)]

use hal_base::{Bytes, Memory, put_number};
use hal_loader::load;
use hal_schema::Schema;
use load_rows::{ListTaker, schema_of};
use std::alloc::Global;
use std::process::ExitCode;
use std::time::Instant;

const BYTES: usize = 1_000_000;

const DBD: &str =
    "DBD NAME=KDB,ACCESS=(PHIDAM)\nSEGM NAME=R,PARENT=0,BYTES=24\nFIELD NAME=(K,SEQ,U),BYTES=8,START=1\nSEGM NAME=C,PARENT=R,BYTES=24\nFIELD NAME=(CK,SEQ,U),BYTES=8,START=1\nDBDGEN\nFINISH\nEND\n";

const PARTS: &str = "blocks = 40\n[[partition]]\nname = \"P1\"\nnumber = 1\nhigh = \"99999999\"\n";

const BELOW: u32 = 20;

fn put_row(alloc: Global, text: &mut Bytes, front: &[u8], key: u32) -> Result<(), Memory> {
    text.append(front)?;
    put_number(alloc, text, key)?;
    text.append(b" and some text\n")
}

fn put_record(alloc: Global, text: &mut Bytes, root: u32) -> Result<(), Memory> {
    put_row(alloc, text, b"R,T,", root)?;
    for child in 0..BELOW {
        put_row(alloc, text, b"C,T,", 10_000_000 + child)?;
    }
    Ok(())
}

fn text_of(alloc: Global) -> Result<Bytes, Memory> {
    let mut text = Bytes::new(alloc);
    for root in 10_000_000u32..20_000_000 {
        if text.len() >= BYTES {
            return Ok(text);
        }
        put_record(alloc, &mut text, root)?;
    }
    Ok(text)
}

fn rows_loaded(alloc: Global, schema: &Schema, text: &[u8]) -> Result<Option<u32>, Memory> {
    if text.len() > 1_000_000_000 {
        return Ok(None);
    }
    let mut taker = ListTaker::new(alloc, schema.copy(alloc)?, 65_536);
    Ok(load(alloc, schema, text, &mut taker).ok())
}

/// Whether a load took less than a second.
fn is_fast(rt: &HostRuntime) -> Option<bool> {
    let alloc = rt.alloc();
    let schema = schema_of(alloc, DBD, PARTS)?;
    let text = text_of(alloc).ok()?;
    let bytes = text.len();
    let start = Instant::now(rt).ok()?;
    let rows = rows_loaded(alloc, &schema, text.as_slice()).ok()??;
    let passed = start.elapsed(rt).ok()?;
    let seconds = passed.as_secs();
    let rest = passed.subsec_millis();
    println!(rt; "{rows} rows of {bytes} bytes: {seconds} s and {rest} ms").ok()?;
    Some(seconds == 0)
}

fn main(rt: HostRuntime) -> ExitCode {
    match is_fast(&rt) {
        Some(true) => ExitCode::from(0),
        _ => ExitCode::from(1),
    }
}
END
sed -i "s/BYTES: usize = 1_000_000/BYTES: usize = ${1:-1000000}/" "$work/crates/load_bench/src/main.rt"
git -c init.defaultBranch=main init -q "$work"
cp "$top/HANDLES" "$work/"
cd "$work/crates/load_bench"
rt run > "$work/log" 2>&1 || { tail -n 20 "$work/log"; exit 1; }
tail -n 1 "$work/log"
