//! Program headers: the segments of a file.

use crate::parse::{entry_of_a_table, ParsingTable};

/// The program headers of a file.
pub type SegmentTable<'data, E> = ParsingTable<'data, E, ProgramHeader>;

/// A program header, in the field order of 32-bit files.
#[derive(Clone, Copy, Debug, PartialEq, Eq)]
pub struct ProgramHeader {
    pub p_type: u32,
    pub p_offset: u64,
    pub p_vaddr: u64,
    pub p_paddr: u64,
    pub p_filesz: u64,
    pub p_memsz: u64,
    pub p_flags: u32,
    pub p_align: u64,
}

impl ProgramHeader {
    #[inline]
    fn of(values: &[u64; 8]) -> Self {
        ProgramHeader {
            p_type: values[0] as u32,
            p_offset: values[1],
            p_vaddr: values[2],
            p_paddr: values[3],
            p_filesz: values[4],
            p_memsz: values[5],
            p_flags: values[6] as u32,
            p_align: values[7],
        }
    }
}

entry_of_a_table!(ProgramHeader, 32 or 56 bytes, segment of ProgramHeader::of, segments of ProgramHeader::of: 8);
