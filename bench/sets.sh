#!/bin/sh
# Prints how many milliseconds so many puts and gets of rows take in a set of rows by key over a shelf in memory, keys and
# bodies of 8 bytes, in three orders of the keys, and beside it what sqlite3 takes for the same rows in a table without
# rowid in memory, from Python, where that is there; and what opening the set anew takes. It is no test, and claims
# nothing. The program is built with checks, and the shelf looks through its blocks for each page.
#
#     bench/sets.sh [ROWS]
set -eu
rows=${1:-100000}
top=$(cd "$(dirname "$0")/.." && pwd)
work=$(mktemp -d)
trap 'rm -rf "$work"' EXIT
for name in hal_base keyed_sets memory_shelf; do
    mkdir -p "$work/crates/$name"
    cp -r "$top/crates/$name/src" "$top/crates/$name/specs" "$work/crates/$name/"
    grep "^$name:" "$top/crates.txt" >> "$work/crates.txt"
done
echo "set_bench: hal_base keyed_sets memory_shelf" >> "$work/crates.txt"
mkdir -p "$work/crates/set_bench/src"
cat > "$work/crates/set_bench/src/main.rt" <<'END'
#![tactic(auto)]

use hal_base::SetId;
use keyed_sets::KeyedSet;
use memory_shelf::QuietShelf;
use std::process::ExitCode;
use std::time::Instant;

const ROWS: u64 = 100000;

const SET: SetId = SetId {
    part: 1,
    number: 1,
    letter: b'X',
};

fn key_of(order: u8, turn: u64) -> [u8; 8] {
    let number = match order {
        0 => turn,
        1 => ROWS - 1 - turn,
        _ => turn * 2_654_435_761 % 4_294_967_296,
    };
    number.to_be_bytes()
}

fn since(rt: &HostRuntime, start: Instant) -> Option<u64> {
    Some(start.elapsed(rt).ok()?.as_millis() as u64)
}

fn measure(rt: &HostRuntime, order: u8, name: &str) -> Option<()> {
    let alloc = rt.alloc();
    let mut shelf = QuietShelf::new(alloc, 65536);
    let mut set = KeyedSet::open(alloc, &mut shelf, SET, 8, 8).ok()?;
    let start = Instant::now(rt).ok()?;
    for turn in 0..ROWS {
        set.put(&mut shelf, &key_of(order, turn), &[7; 8]).ok()?;
    }
    let puts = since(rt, start)?;
    let start = Instant::now(rt).ok()?;
    for turn in 0..ROWS {
        set.get(&mut shelf, &key_of(order, turn)).ok()?;
    }
    let gets = since(rt, start)?;
    let start = Instant::now(rt).ok()?;
    KeyedSet::open(alloc, &mut shelf, SET, 8, 8).ok()?;
    let open = since(rt, start)?;
    println!(rt; "{name}\tset\t{puts}\t{gets}\t{open}").ok()
}

fn all(rt: &HostRuntime) -> Option<()> {
    println!(rt; "order\tof\tputs\tgets\topen").ok()?;
    measure(rt, 0, "rising")?;
    measure(rt, 1, "falling")?;
    measure(rt, 2, "random")
}

fn main(rt: HostRuntime) -> ExitCode {
    match all(&rt) {
        Some(()) => ExitCode::from(0),
        None => ExitCode::from(1),
    }
}
END
sed -i "s/ROWS: u64 = 100000/ROWS: u64 = $rows/" "$work/crates/set_bench/src/main.rt"
cd "$work/crates/set_bench"
git -c init.defaultBranch=main init -q "$work"
rt try --seconds "${BENCH_SECONDS:-900}"
python3 - "$rows" <<'END' || echo "no sqlite3 from Python"
import sqlite3, sys, time
rows = int(sys.argv[1])
orders = {
    "rising": lambda turn: turn,
    "falling": lambda turn: rows - 1 - turn,
    "random": lambda turn: turn * 2654435761 % 4294967296,
}
for name, key in orders.items():
    table = sqlite3.connect(":memory:")
    table.execute("create table t (k blob primary key, b blob) without rowid")
    start = time.perf_counter()
    for turn in range(rows):
        table.execute("insert or replace into t values (?, ?)", (key(turn).to_bytes(8, "big"), b"\7" * 8))
    puts = time.perf_counter() - start
    start = time.perf_counter()
    for turn in range(rows):
        table.execute("select b from t where k = ?", (key(turn).to_bytes(8, "big"),)).fetchone()
    gets = time.perf_counter() - start
    print(f"{name}\tsqlite3\t{puts * 1000:.0f}\t{gets * 1000:.0f}\t")
END
