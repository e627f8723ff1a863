#!/bin/sh
# Prints how many microseconds a call takes, for the calls on cells and pages over a site in memory, at volumes of 500,
# 5,000 and 50,000 pages. It is no test, and claims nothing. The program is built with checks, so the columns are to be
# compared with one another.
#
#     bench/cells.sh [PAGES..]
set -eu
top=$(cd "$(dirname "$0")/.." && pwd)
work=$(mktemp -d)
trap 'rm -rf "$work"' EXIT
for name in hal_base hal_schema hal_disk block_journal segment_blocks free_space volume_image data_set_pairs; do
    mkdir -p "$work/crates/$name"
    cp -r "$top/crates/$name/src" "$top/crates/$name/specs" "$work/crates/$name/"
    grep "^$name:" "$top/crates.txt" >> "$work/crates.txt"
done
echo "cell_bench: hal_base hal_schema hal_disk block_journal segment_blocks free_space volume_image data_set_pairs" \
    >> "$work/crates.txt"
mkdir -p "$work/crates/cell_bench/src"
cat > "$work/crates/cell_bench/src/main.rt" <<'END'
#![tactic(auto)]

use block_journal::Journal;
use data_set_pairs::Volume;
use free_space::CellStore;
use hal_base::{BLOCK, Bytes, Cursor, Ilk, List, PartState, SetId, Shape, Shelf};
use hal_disk::SureSite;
use hal_schema::first_schema;
use segment_blocks::Cell;
use std::alloc::Global;
use std::process::ExitCode;
use std::time::Instant;

const FIRST: usize = 8192;

/// Blocks behind the pages that are filled first.
const SPARE: u32 = 600;

const CELLS: SetId = SetId {
    part: 1,
    number: 1,
    letter: b'A',
};

/// Two cells of this type fill a page.
const LARGE: Shape = Shape {
    children: 0,
    bytes: 2016,
};

const SMALL: Shape = Shape {
    children: 0,
    bytes: 100,
};

type Shelves = Volume<Journal<SureSite>>;

fn cell_of(alloc: Global, code: u8, shape: Shape) -> Option<Cell> {
    let content = vec![in alloc; 7u8; usize::from(shape.bytes)].ok()?;
    Some(Cell {
        copied: false,
        code,
        name: Ilk {
            addr: 16,
            part: 1,
            number: 1,
        },
        twin: 0,
        children: List::new(alloc),
        content: Bytes::from_slice(alloc, &content).ok()?,
    })
}

fn put(image: &mut [u8], at: usize, bytes: &[u8]) {
    image[at..at + bytes.len()].copy_from_slice(bytes);
}

/// A page of two large cells and a hole of 16 bytes.
fn put_page(image: &mut [u8], at: usize, page: u16) {
    put(image, at, b"\x01A\0\x01\0\x01");
    put(image, at + 6, &page.to_be_bytes());
    for cell in [at + 16, at + 2048] {
        put(image, cell, &[1, 1, 7, 240, 0, 0, 0, 16, 0, 1, 0, 1]);
    }
    put(image, at + 4080, &[0, 0, 0, 16]);
}

fn volume_of(alloc: Global, pages: u32) -> Option<Shelves> {
    let mut schema = first_schema(alloc).ok()?;
    schema.blocks = pages + SPARE;
    let count = 1 + pages + SPARE;
    let bytes = FIRST + count as usize * BLOCK;
    let mut image = vec![in alloc; 0u8; bytes].ok()?;
    put(&mut image, FIRST, b"\0\x01\0\x01AP\0\0");
    for page in 0..pages {
        put_page(&mut image, FIRST + (1 + page as usize) * BLOCK, page as u16);
    }
    let mut site = SureSite::new(alloc, Bytes::from_vec(image));
    site.reserve((bytes + 300 * BLOCK) as u64, 0).ok()?;
    let journal = Journal::open(alloc, site, FIRST as u64, count).ok()?;
    Volume::read(alloc, journal, &schema).ok()
}

/// Microseconds since a moment for each of so many calls.
fn each(rt: &HostRuntime, start: Instant, calls: u32) -> Option<u64> {
    let passed = start.elapsed(rt).ok()?;
    Some(passed.as_micros() as u64 / u64::from(calls))
}

fn address(i: u32, pages: u32) -> u32 {
    ((i * 7919 % pages) << 12) + 16
}

fn measure(rt: &HostRuntime, pages: u32) -> Option<()> {
    let alloc = rt.alloc();
    let mut volume = volume_of(alloc, pages)?;
    let start = Instant::now(rt).ok()?;
    let mut store = CellStore::open(alloc, &mut volume, CELLS, &[LARGE, SMALL]).ok()?;
    let open = each(rt, start, pages)?;
    let small = cell_of(alloc, 2, SMALL)?;
    let start = Instant::now(rt).ok()?;
    for _ in 0..300 {
        store.place(&mut volume, &small).ok()?;
    }
    let place = each(rt, start, 300)?;
    volume.commit().ok()?;
    let start = Instant::now(rt).ok()?;
    for _ in 0..300 {
        store.append(&mut volume, &small, 0, 10).ok()?;
    }
    let append = each(rt, start, 300)?;
    volume.commit().ok()?;
    let start = Instant::now(rt).ok()?;
    for i in 0..1000 {
        store.cell(&mut volume, address(i, pages)).ok()?;
    }
    let cell = each(rt, start, 1000)?;
    let content = Bytes::from_vec(vec![in alloc; 9u8; 2016].ok()?);
    let start = Instant::now(rt).ok()?;
    for i in 0..200 {
        store.set_data(&mut volume, address(i, pages), &content).ok()?;
    }
    let set = each(rt, start, 200)?;
    volume.commit().ok()?;
    let start = Instant::now(rt).ok()?;
    for _ in 0..50 {
        volume.grow(CELLS, 1).ok()?;
        volume.commit().ok()?;
    }
    let grow = each(rt, start, 50)?;
    let idle = PartState {
        part: 1,
        number: 2,
        side: b'M',
        state: b'I',
        cursor: Cursor::Front,
    };
    let start = Instant::now(rt).ok()?;
    volume.set_state(0, &idle).ok()?;
    let switch = each(rt, start, 1)?;
    println!(rt; "{pages}\t{open}\t{place}\t{append}\t{cell}\t{set}\t{grow}\t{switch}").ok()
}

fn all(rt: &HostRuntime) -> Option<()> {
    println!(rt; "pages\topen, a page\tplace\tappend\tcell\tset_data\tgrow, commit\tswitch").ok()?;
    for pages in [PAGES] {
        measure(rt, pages)?;
    }
    Some(())
}

fn main(rt: HostRuntime) -> ExitCode {
    match all(&rt) {
        Some(()) => ExitCode::from(0),
        None => ExitCode::from(1),
    }
}
END
[ $# -gt 0 ] || set -- 500 5000 50000
pages=$(echo "$*" | sed 's/ /, /g')
sed -i "s/\[PAGES\]/[$pages]/" "$work/crates/cell_bench/src/main.rt"
cd "$work/crates/cell_bench"
git -c init.defaultBranch=main init -q "$work"
rt try --seconds "${BENCH_SECONDS:-900}"
