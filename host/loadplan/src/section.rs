//! Section headers.

use crate::parse::{entry_of_a_table, ParsingTable};

/// The section headers of a file.
pub type SectionHeaderTable<'data, E> = ParsingTable<'data, E, SectionHeader>;

/// A section header, in the format's field order.
#[derive(Clone, Copy, Debug, PartialEq, Eq)]
pub struct SectionHeader {
    pub sh_name: u32,
    pub sh_type: u32,
    pub sh_flags: u64,
    pub sh_addr: u64,
    pub sh_offset: u64,
    pub sh_size: u64,
    pub sh_link: u32,
    pub sh_info: u32,
    pub sh_addralign: u64,
    pub sh_entsize: u64,
}

impl SectionHeader {
    #[inline]
    fn of(values: &[u64; 10]) -> Self {
        SectionHeader {
            sh_name: values[0] as u32,
            sh_type: values[1] as u32,
            sh_flags: values[2],
            sh_addr: values[3],
            sh_offset: values[4],
            sh_size: values[5],
            sh_link: values[6] as u32,
            sh_info: values[7] as u32,
            sh_addralign: values[8],
            sh_entsize: values[9],
        }
    }
}

entry_of_a_table!(SectionHeader, 40 or 64 bytes, section of SectionHeader::of, sections of SectionHeader::of: 10);
