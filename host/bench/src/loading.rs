//! The time of planning and of carrying out.
//!
//! Carrying out is timed beside what it says: memset of all pages and memcpy of the file's bytes; and beside the least that
//! could do: memset of the bytes that the file does not fill, and memcpy.

use std::hint::black_box;
use std::time::Instant;

use loadplan::plan::{carry_out, plan, Plan, Window, PAGE, RECORD_SIZE};
use loadplan_compare::made::sample;
use loadplan_compare::maker::{Header, Parts, Segment, KINDS};

use crate::table::{self, Table};

/// How long a measurement runs at least, so that the clock's own time does not count.
const LONG_ENOUGH: f64 = 20_000.0;
const TURNS: u32 = 200;

/// The least nanoseconds that something takes.
fn least(mut work: impl FnMut()) -> f64 {
    let start = Instant::now();
    work();
    let once = (start.elapsed().as_nanos() as f64).max(1.0);
    let often = (LONG_ENOUGH / once).ceil().max(1.0) as u32;
    let turns = ((TURNS as f64 * LONG_ENOUGH / (once * f64::from(often))).ceil() as u32).clamp(5, TURNS);
    let turn = |_| {
        let start = Instant::now();
        for _ in 0..often {
            work();
        }
        start.elapsed().as_nanos() as f64 / f64::from(often)
    };
    (0..turns).map(turn).fold(f64::INFINITY, f64::min)
}

/// A 64-bit executable with so many segments of a page, the first of them executable.
fn many_segments(count: u64) -> Vec<u8> {
    let segment = |number: u64| Segment {
        kind: 1,
        flags: if number == 0 { 5 } else { 6 },
        offset: 0,
        address: number * PAGE,
        in_file: 64,
        in_memory: PAGE,
        align: 1,
    };
    let mut parts = Parts::new(KINDS[0]);
    let segments_at = parts.add_segments(&(0..count).map(segment).collect::<Vec<_>>());
    parts.file(Header { kind: 2, entry: 0, segments_at, segments: count as u16, ..Header::default() })
}

/// Planning alone: document 01's sample, and files with more segments.
pub fn plans() -> Table {
    let mut table = Table::new("planning", "file");
    table.columns(&["segments", "ns", "ns a segment"]);
    let mut add = |name: &str, file: &[u8], window: Window| {
        let mut room = vec![0; 65_536 * RECORD_SIZE];
        let segments = plan(file, window, &mut room).expect("the file is accepted").len();
        let time = least(|| {
            let planned = plan(black_box(file), window, &mut room).map(|plan| plan.len());
            assert_eq!(black_box(planned), Ok(segments));
        });
        let each = table::small(Some(time / segments as f64));
        table.row(name, vec![segments.to_string(), table::time(Some(time)), each]);
    };
    add("sample", &sample(), Window { start: 0x40_0000, length: 0x2000 });
    for count in [1_000, 60_000] {
        let window = Window { start: 0, length: count * PAGE };
        add("segments of a page", &many_segments(count), window);
    }
    table
}

/// A 64-bit executable of one segment: `filled` bytes from the file, `length` in memory.
fn one_segment(filled: u64, length: u64) -> (Vec<u8>, u64) {
    let mut parts = Parts::new(KINDS[0]);
    let offset = parts.next() + KINDS[0].segment_size() as u64;
    let segment = Segment { kind: 1, flags: 5, offset, address: 0, in_file: filled, in_memory: length, align: 1 };
    let segments_at = parts.add_segments(&[segment]);
    parts.add(1, &vec![0x90; filled as usize]);
    (parts.file(Header { kind: 2, entry: 0, segments_at, segments: 1, ..Header::default() }), offset)
}

pub fn carrying_out() -> Table {
    let mut table = Table::new("carrying out, and its speed as a part of memset and memcpy's", "pages");
    table.columns(&[
        "file bytes",
        "ns",
        "memset of all, memcpy: ns",
        "speed",
        "memset of the rest, memcpy: ns",
        "speed",
    ]);
    for length in [4 << 10, 1 << 20, 64 << 20] {
        for filled in [length / 2, length] {
            let (ours, plain, lean) = carry(filled, length);
            let cells = vec![
                filled.to_string(),
                table::time(Some(ours)),
                table::time(Some(plain)),
                table::ratio(Some(plain), Some(ours)),
                table::time(Some(lean)),
                table::ratio(Some(lean), Some(ours)),
            ];
            table.row(&length.to_string(), cells);
        }
    }
    table
}

/// Nanoseconds of carrying out; of memset over all pages and memcpy; of memset behind the file's bytes and memcpy.
fn carry(filled: u64, length: u64) -> (f64, f64, f64) {
    let (file, offset) = one_segment(filled, length);
    let window = Window { start: 0, length };
    let mut room = [0; RECORD_SIZE];
    let planned = plan(&file, window, &mut room).expect("the file is accepted").as_bytes().to_vec();
    let mut memory = vec![0xaa; length as usize];
    let from = &file[offset as usize..][..filled as usize];
    let ours = least(|| {
        carry_out(black_box(&file), window, Plan::from_bytes(&planned), &mut memory).expect("it is a plan");
        black_box(&mut memory);
    });
    let plain = least(|| {
        black_box(&mut memory[..]).fill(0);
        black_box(&mut memory[..filled as usize]).copy_from_slice(black_box(from));
    });
    let lean = least(|| {
        black_box(&mut memory[filled as usize..]).fill(0);
        black_box(&mut memory[..filled as usize]).copy_from_slice(black_box(from));
    });
    (ours, plain, lean)
}
