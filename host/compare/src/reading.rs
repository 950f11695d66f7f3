//! The headers of a file, read a second time as plainly as can be: what the load plan goes by, or why there is none.
//!
//! It shares nothing with the archive. Sums and products are taken in 128 bits and then compared with 64.

use crate::maker::{Kind, Segment};
use crate::rendering::Numbers;

/// The numbers of the faults that opening has.
const MAGIC: u32 = 1;
const CLASS: u32 = 2;
const ORDER: u32 = 3;
const VERSION: u32 = 4;
const ENTRY_SIZE: u32 = 7;
const OUTSIDE: u32 = 11;
const OVERFLOW: u32 = 12;

/// Opens a file: its numbers, or the number of the fault.
pub fn read(file: &[u8]) -> Result<Numbers, u32> {
    let kind = identification(file)?;
    if file.len() < kind.header_size() {
        return Err(OUTSIDE);
    }
    let word = kind.word();
    let field = |at: usize, width: usize| kind.value(&file[at..at + width]);
    let (segments_at, sections_at) = (field(24 + word, word), field(24 + 2 * word, word));
    // Behind the places: flags (4 bytes), then six numbers of 2 bytes.
    let counts = 24 + 3 * word + 4;
    let [_, segment_size, segments, section_size, sections, _] = [0, 2, 4, 6, 8, 10].map(|at| field(counts + at, 2));
    if sections_at != 0 {
        let count = if sections == 0 { section_0(file, kind, sections_at)?.size } else { sections };
        table(file, sections_at, count, section_size, kind.section_size())?;
    }
    let mut headers = Vec::new();
    if segments_at != 0 {
        let count = if segments == 0xffff { section_0(file, kind, sections_at)?.info } else { segments };
        table(file, segments_at, count, segment_size, kind.segment_size())?;
        let start = segments_at as usize;
        let entries = file[start..start + count as usize * kind.segment_size()].chunks(kind.segment_size());
        headers = entries.map(|bytes| segment(kind, bytes)).collect();
    }
    Ok(Numbers { kind: field(16, 2) as u16, entry: field(24, word), segments: headers, length: file.len() as u64 })
}

fn identification(file: &[u8]) -> Result<Kind, u32> {
    match file {
        _ if file.len() < 16 => Err(OUTSIDE),
        _ if file[..4] != *b"\x7fELF" => Err(MAGIC),
        _ if file[6] != 1 => Err(VERSION),
        _ if file[4] != 1 && file[4] != 2 => Err(CLASS),
        _ if file[5] != 1 && file[5] != 2 => Err(ORDER),
        _ => Ok(Kind { wide: file[4] == 2, little: file[5] == 1 }),
    }
}

/// Counts that stand in section header 0.
struct Counts {
    size: u64,
    info: u64,
}

fn section_0(file: &[u8], kind: Kind, at: u64) -> Result<Counts, u32> {
    if at.checked_add(4).is_none() {
        return Err(OVERFLOW);
    }
    if u128::from(at) + kind.section_size() as u128 > file.len() as u128 {
        return Err(OUTSIDE);
    }
    let header = &file[at as usize..];
    let word = kind.word();
    // Name and type, then flags, address, offset, size, then link and info.
    let (size_at, info_at) = (8 + 3 * word, 8 + 4 * word + 4);
    Ok(Counts { size: kind.value(&header[size_at..size_at + word]), info: kind.value(&header[info_at..info_at + 4]) })
}

/// Whether a table of headers lies in the file.
fn table(file: &[u8], at: u64, count: u64, entry_size: u64, expected: usize) -> Result<(), u32> {
    if entry_size != expected as u64 {
        return Err(ENTRY_SIZE);
    }
    let size = u128::from(count) * u128::from(entry_size);
    let end = u128::from(at) + size;
    match end {
        _ if size > u128::from(u64::MAX) || end > u128::from(u64::MAX) => Err(OVERFLOW),
        _ if end > file.len() as u128 => Err(OUTSIDE),
        _ => Ok(()),
    }
}

fn segment(kind: Kind, bytes: &[u8]) -> Segment {
    let half = |at: usize| kind.value(&bytes[at..at + 4]) as u32;
    let word = |at: usize| kind.value(&bytes[at..at + kind.word()]);
    let [offset, address, in_file, in_memory] = if kind.wide { [8, 16, 32, 40] } else { [4, 8, 16, 20] }.map(word);
    let (flags, align) = if kind.wide { (half(4), word(48)) } else { (half(24), word(28)) };
    Segment { kind: half(0), flags, offset, address, in_file, in_memory, align }
}
