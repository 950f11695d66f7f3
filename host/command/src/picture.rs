//! The memory of a window as a picture: a line a page, a letter for each 64 bytes.
//!
//! The picture is drawn from the records alone: what carrying them out makes of the memory.

use std::io::{self, Write};

use loadplan::plan::{Record, Window, PAGE};

/// How many bytes a letter stands for, and how many letters a page has.
const CELL: u64 = 64;
const CELLS: usize = (PAGE / CELL) as usize;

pub const LEGEND: &str = "# file bytes   + file bytes and zeros   . zeros   (a letter is 64 bytes, a line a page)";

/// A page: what protects it, and a letter for each cell.
#[derive(Clone, PartialEq, Eq)]
struct Page {
    protection: String,
    cells: String,
}

/// `r`, `w`, `x`, or `-` for each that is not allowed.
pub fn protection(flags: u64) -> String {
    [(4, 'r'), (2, 'w'), (1, 'x')].iter().map(|&(bit, letter)| if flags & bit != 0 { letter } else { '-' }).collect()
}

/// Draws the window with the pages of these records, which are in ascending order.
pub fn draw(window: Window, records: &[Record], output: &mut dyn Write) -> io::Result<()> {
    let mut at = window.start;
    for record in records {
        gap(at, record.pages, output)?;
        pages(record, output)?;
        at = record.pages.wrapping_add(record.pages_length);
    }
    // The window may end at 2^64, where its end is 0.
    gap(at, window.start.wrapping_add(window.length), output)?;
    writeln!(output, "  {LEGEND}")
}

fn gap(from: u64, to: u64, output: &mut dyn Write) -> io::Result<()> {
    match to.wrapping_sub(from) / PAGE {
        0 => Ok(()),
        1 => writeln!(output, "  {from:>16x}  as it was"),
        count => writeln!(output, "  {from:>16x}  as it was, {count} pages"),
    }
}

/// The pages of a record. Pages that look alike are drawn once.
fn pages(record: &Record, output: &mut dyn Write) -> io::Result<()> {
    let mut drawn: Option<(Page, u64)> = None;
    for number in 0..record.pages_length / PAGE {
        let start = record.pages + number * PAGE;
        let page = page(record, start);
        match &mut drawn {
            Some((last, alike)) if *last == page => *alike += 1,
            _ => {
                more(&drawn, output)?;
                writeln!(output, "  {start:>16x}  {}  {}", page.protection, page.cells)?;
                drawn = Some((page, 0));
            }
        }
    }
    more(&drawn, output)
}

fn more(drawn: &Option<(Page, u64)>, output: &mut dyn Write) -> io::Result<()> {
    match drawn {
        Some((_, 1)) => writeln!(output, "  {:>16}  {:>3}  one more page like this", "", ""),
        Some((_, alike @ 2..)) => writeln!(output, "  {:>16}  {:>3}  {alike} more pages like this", "", ""),
        _ => Ok(()),
    }
}

fn page(record: &Record, start: u64) -> Page {
    let cells = (0..CELLS as u64).map(|cell| letter(record, start + cell * CELL)).collect();
    Page { protection: protection(record.flags), cells }
}

fn letter(record: &Record, start: u64) -> char {
    // Last bytes instead of ends, which may be 2^64.
    let last = start + (CELL - 1);
    if record.bytes_length == 0 {
        return '.';
    }
    let (first_byte, last_byte) = (record.bytes, record.bytes + (record.bytes_length - 1));
    if last < first_byte || start > last_byte {
        '.'
    } else if first_byte <= start && last <= last_byte {
        '#'
    } else {
        '+'
    }
}
