#!/bin/sh
# Prints how many microseconds the insertion of a root and of a dependent takes, over a site in memory, in a partition that
# has 1,000 roots and in one that has 100,000. It is no test, and claims nothing. The program is built with checks, so the
# lines are to be compared with one another. 100,000 roots take it long.
#
#     bench/records.sh [ROOTS..]
set -eu
top=$(cd "$(dirname "$0")/.." && pwd)
work=$(mktemp -d)
trap 'rm -rf "$work"' EXIT
crates="hal_base hal_schema hal_disk block_journal segment_blocks free_space keyed_sets forest_laws
    record_walk record_tree volume_image data_set_pairs dbd_reader partition_reader"
for name in $crates; do
    mkdir -p "$work/crates/$name"
    cp -r "$top/crates/$name/src" "$top/crates/$name/specs" "$work/crates/$name/"
    grep "^$name:" "$top/crates.txt" >> "$work/crates.txt"
done
echo "record_bench:" $crates >> "$work/crates.txt"
mkdir -p "$work/crates/record_bench/src"
cat > "$work/crates/record_bench/src/main.rt" <<'END2'
#![tactic(auto)]

use block_journal::Journal;
use data_set_pairs::Volume;
use dbd_reader::read_dbd;
use hal_base::{BLOCK, Bytes};
use hal_disk::SureSite;
use hal_schema::{RawSchema, Schema};
use partition_reader::read_partitions;
use record_tree::{Place, Records};
use std::alloc::Global;
use std::process::ExitCode;
use std::time::Instant;

const FIRST: usize = 8192;

/// Calls that are measured.
const CALLS: u32 = 200;

const XDB: &str =
    "DBD NAME=XDB,ACCESS=(PHIDAM)\nSEGM NAME=R,PARENT=0,BYTES=10\nFIELD NAME=(K,SEQ,U),BYTES=6,START=1\nSEGM NAME=C,PARENT=R,BYTES=4\nFIELD NAME=(CK,SEQ,U),BYTES=2,START=1\nDBDGEN\nEND\n";

const PARTS: &str =
    "blocks = 20000\n[[partition]]\nname = \"P1\"\nnumber = 1\nhigh = \"999999\"\n";

type Shelves = Volume<Journal<SureSite>>;

fn schema_of(alloc: Global) -> Option<Schema> {
    let (dbd, _) = read_dbd(alloc, XDB.as_bytes()).ok()?;
    let parts = read_partitions(alloc, PARTS.as_bytes()).ok()?;
    Schema::build(alloc, RawSchema { dbd, parts }).ok()
}

fn volume_of(alloc: Global, schema: &Schema) -> Option<Shelves> {
    let count = 1 + schema.blocks;
    let bytes = FIRST + count as usize * BLOCK;
    let mut image = vec![in alloc; 0u8; bytes].ok()?;
    image[FIRST..FIRST + 8].copy_from_slice(b"\0\x01\0\x01AP\0\0");
    let mut site = SureSite::new(alloc, Bytes::from_vec(image));
    site.reserve((bytes + 3000 * BLOCK) as u64, 0).ok()?;
    let journal = Journal::open(alloc, site, FIRST as u64, count).ok()?;
    Volume::read(alloc, journal, schema).ok()
}

/// The content of the root of a number.
fn root_of(alloc: Global, number: u32) -> Option<Bytes> {
    let mut content = [b'x'; 10];
    let mut rest = number;
    for at in (0..6).rev() {
        content[at] = b'0' + (rest % 10) as u8;
        rest /= 10;
    }
    Bytes::from_slice(alloc, &content).ok()
}

const NO_PARENT: Place = Place {
    parent: None,
    prior: None,
};

/// Microseconds since a moment for each of so many calls.
fn each(rt: &HostRuntime, start: Instant, calls: u32) -> Option<u64> {
    let passed = start.elapsed(rt).ok()?;
    Some(passed.as_micros() as u64 / u64::from(calls))
}

fn measure(rt: &HostRuntime, roots: u32) -> Option<()> {
    let alloc = rt.alloc();
    let schema = schema_of(alloc)?;
    let mut volume = volume_of(alloc, &schema)?;
    let mut records = Records::open(alloc, &mut volume, &schema, 0, 1, b'A').ok()?;
    let mut last = 0;
    for i in 0..roots {
        let content = root_of(alloc, 9 * i + 1)?;
        last = records.insert(&mut volume, NO_PARENT, 1, &content).ok()?.addr;
        if i % 1000 == 999 {
            volume.commit().ok()?;
        }
    }
    volume.commit().ok()?;
    let start = Instant::now(rt).ok()?;
    for i in 0..CALLS {
        let content = root_of(alloc, 9 * (i * 7919 % roots) + 2 + i / roots)?;
        records.insert(&mut volume, NO_PARENT, 1, &content).ok()?;
    }
    let root = each(rt, start, CALLS)?;
    volume.commit().ok()?;
    let mut prior = None;
    let start = Instant::now(rt).ok()?;
    for i in 0..CALLS {
        let content = Bytes::from_slice(alloc, &[b'0' + (i / 64) as u8, b'0' + (i % 64) as u8, b'y', b'y']).ok()?;
        let place = Place {
            parent: Some(last),
            prior,
        };
        prior = Some(records.insert(&mut volume, place, 2, &content).ok()?.addr);
    }
    let dependent = each(rt, start, CALLS)?;
    volume.commit().ok()?;
    println!(rt; "{roots}\t{root}\t{dependent}").ok()
}

fn all(rt: &HostRuntime) -> Option<()> {
    println!(rt; "roots\tinsert of a root\tof a dependent").ok()?;
    for roots in [ROOTS] {
        measure(rt, roots)?;
    }
    Some(())
}

fn main(rt: HostRuntime) -> ExitCode {
    match all(&rt) {
        Some(()) => ExitCode::from(0),
        None => ExitCode::from(1),
    }
}
END2
[ $# -gt 0 ] || set -- 1000 100000
roots=$(echo "$*" | sed 's/ /, /g')
sed -i "s/\[ROOTS\]/[$roots]/" "$work/crates/record_bench/src/main.rt"
cd "$work/crates/record_bench"
git -c init.defaultBranch=main init -q "$work"
rt try --seconds "${BENCH_SECONDS:-3600}"
