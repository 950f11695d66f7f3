//! The window of memory that the user names, and the one that a file needs.

use loadplan::endian::AnyEndian;
use loadplan::plan::{Window, PAGE};
use loadplan::segment::ProgramHeader;
use loadplan::{abi, ElfBytes};

use crate::Fault;

/// Reads `START+LENGTH`, each decimal, or hexadecimal behind 0x.
pub fn parse(words: &str) -> Result<Window, Fault> {
    let wrong = || Fault::new(format_args!("{words} is no window; write START+LENGTH, as 0x400000+0x2000"));
    let (start, length) = words.split_once('+').ok_or_else(wrong)?;
    Ok(Window { start: number(start).ok_or_else(wrong)?, length: number(length).ok_or_else(wrong)? })
}

fn number(word: &str) -> Option<u64> {
    match word.strip_prefix("0x").or_else(|| word.strip_prefix("0X")) {
        Some(digits) => u64::from_str_radix(digits, 16).ok(),
        None => word.parse().ok(),
    }
}

/// The segments that are loaded, with their numbers in the table.
pub fn loaded_segments<'file>(
    elf: &ElfBytes<'file, AnyEndian>,
) -> impl Iterator<Item = (usize, ProgramHeader)> + 'file {
    let headers = elf.segments().into_iter().flatten().enumerate();
    headers.filter(|(_, header)| header.p_type == abi::PT_LOAD)
}

/// The smallest window that holds all segments with memory; `None` if there are none or no window could.
pub fn needed(elf: &ElfBytes<'_, AnyEndian>) -> Option<Window> {
    let mut ends: Option<(u64, u64)> = None;
    for (_, header) in loaded_segments(elf).filter(|(_, header)| header.p_memsz != 0) {
        let to = header.p_vaddr.checked_add(header.p_memsz)?;
        ends = Some(ends.map_or((header.p_vaddr, to), |(low, high)| (low.min(header.p_vaddr), high.max(to))));
    }
    let (low, high) = ends?;
    // Addresses of a position-independent file count from the window's start, so that is where its address 0 is.
    let start = if elf.ehdr.e_type == abi::ET_DYN { 0 } else { low - low % PAGE };
    Some(Window { start, length: high.checked_next_multiple_of(PAGE)? - start })
}
