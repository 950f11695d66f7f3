//! The load plan's rules, written down a second time as plainly as can be, to compare with. They work on the numbers of a
//! file, not on its bytes. All sums are taken in 128 bits.

use crate::maker::Segment;

const PAGE: u128 = 4096;
const LONGEST_WINDOW: u64 = 1 << 32;

/// A file that can be opened, as the numbers in it.
#[derive(Clone, Debug, PartialEq, Eq)]
pub struct Numbers {
    pub kind: u16,
    pub entry: u64,
    pub segments: Vec<Segment>,
    /// How long the file is.
    pub length: u64,
}

/// The six numbers of a record.
pub type Record = [u64; 6];

/// A loaded segment: only these matter.
fn is_loaded(segment: &&Segment) -> bool {
    segment.kind == 1
}

fn has_bytes(segment: &Segment, length: u64) -> bool {
    let end = u128::from(segment.offset) + u128::from(segment.in_file);
    segment.in_file <= segment.in_memory && end <= u128::from(length)
}

fn is_aligned(segment: &Segment) -> bool {
    match segment.align {
        0 | 1 => true,
        align => align.is_power_of_two() && segment.address % align == segment.offset % align,
    }
}

/// Where a segment is in memory, and its pages.
struct Place {
    from: u128,
    to: u128,
    pages_from: u128,
    pages_to: u128,
}

fn place(segment: &Segment, base: u64) -> Place {
    let from = u128::from(base) + u128::from(segment.address);
    let to = from + u128::from(segment.in_memory);
    Place { from, to, pages_from: from / PAGE * PAGE, pages_to: to.div_ceil(PAGE) * PAGE }
}

/// The records, or the number of the refusal.
pub fn plan(numbers: &Numbers, start: u64, length: u64, room: usize) -> Result<Vec<Record>, u32> {
    if numbers.segments.is_empty() {
        return Err(20);
    }
    if numbers.kind != 2 && numbers.kind != 3 {
        return Err(21);
    }
    let loaded: Vec<&Segment> = numbers.segments.iter().filter(is_loaded).collect();
    if !loaded.iter().all(|segment| has_bytes(segment, numbers.length)) {
        return Err(22);
    }
    if !loaded.iter().all(|segment| is_aligned(segment)) {
        return Err(23);
    }
    let base = if numbers.kind == 3 { start } else { 0 };
    let counted: Vec<&Segment> = loaded.into_iter().filter(|segment| segment.in_memory != 0).collect();
    let places: Vec<Place> = counted.iter().map(|segment| place(segment, base)).collect();
    refused_places(&places, start, length)?;
    refused_protections(&counted, &places, u128::from(base) + u128::from(numbers.entry))?;
    let records: Vec<Record> = counted.iter().zip(&places).map(|(segment, place)| record(segment, place)).collect();
    if records.len() * 48 > room {
        Err(14)
    } else {
        Ok(records)
    }
}

fn refused_places(places: &[Place], start: u64, length: u64) -> Result<(), u32> {
    let end = u128::from(start) + u128::from(length);
    let whole_pages = u128::from(start) % PAGE == 0 && u128::from(length) % PAGE == 0;
    let is_window = whole_pages && length <= LONGEST_WINDOW && end <= 1 << 64;
    if !is_window || places.iter().any(|place| place.from < start.into() || place.to > end) {
        return Err(24);
    }
    for (number, one) in places.iter().enumerate() {
        for other in &places[number + 1..] {
            let apart = one.pages_to <= other.pages_from || other.pages_to <= one.pages_from;
            if one.from >= other.from || !apart {
                return Err(25);
            }
        }
    }
    Ok(())
}

fn refused_protections(segments: &[&Segment], places: &[Place], entry: u128) -> Result<(), u32> {
    if segments.iter().any(|segment| segment.flags & 3 == 3) {
        return Err(26);
    }
    let executable = segments.iter().zip(places).filter(|(segment, _)| segment.flags & 1 == 1);
    match executable.into_iter().any(|(_, place)| (place.from..place.to).contains(&entry)) {
        true => Ok(()),
        false => Err(27),
    }
}

fn record(segment: &Segment, place: &Place) -> Record {
    let length = place.pages_to - place.pages_from;
    let flags = u64::from(segment.flags % 8);
    [place.pages_from as u64, length as u64, flags, place.from as u64, segment.in_file, segment.offset]
}

/// What memory holds after loading: the file's byte where one belongs, zero elsewhere in a segment's pages, else what was
/// there. Memory is whole pages.
pub fn memory(records: &[Record], file: &[u8], start: u64, old: &[u8]) -> Vec<u8> {
    let mut memory = old.to_vec();
    for (number, page) in memory.chunks_mut(PAGE as usize).enumerate() {
        let page_start = u128::from(start) + number as u128 * PAGE;
        for record in records.iter().filter(|[pages, length, ..]| within(page_start, *pages, *length)) {
            let addresses = page_start..;
            page.iter_mut().zip(addresses).for_each(|(byte, address)| *byte = byte_at(address, record, file));
        }
    }
    memory
}

fn within(address: u128, start: u64, length: u64) -> bool {
    (u128::from(start)..u128::from(start) + u128::from(length)).contains(&address)
}

/// The byte at an address in the pages of a record.
fn byte_at(address: u128, record: &Record, file: &[u8]) -> u8 {
    let [_, _, _, bytes, length, from] = *record;
    match within(address, bytes, length) {
        true => file[from as usize + (address - u128::from(bytes)) as usize],
        false => 0,
    }
}
