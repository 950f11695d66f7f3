//! Relocations, without and with addends.

use crate::parse::{entry_of_a_table, ParsingIterator};

/// A walk over relocations without addends.
pub type RelIterator<'data, E> = ParsingIterator<'data, E, Rel>;
/// A walk over relocations with addends.
pub type RelaIterator<'data, E> = ParsingIterator<'data, E, Rela>;

/// A relocation without an addend.
#[derive(Clone, Copy, Debug, PartialEq, Eq)]
pub struct Rel {
    pub r_offset: u64,
    pub r_sym: u32,
    pub r_type: u32,
}

/// A relocation with an addend.
#[derive(Clone, Copy, Debug, PartialEq, Eq)]
pub struct Rela {
    pub r_offset: u64,
    pub r_sym: u32,
    pub r_type: u32,
    pub r_addend: i64,
}

impl Rel {
    #[inline]
    fn of(values: &[u64; 3]) -> Self {
        Rel { r_offset: values[0], r_sym: values[1] as u32, r_type: values[2] as u32 }
    }
}

impl Rela {
    #[inline]
    fn of(values: &[u64; 4]) -> Self {
        Rela { r_offset: values[0], r_sym: values[1] as u32, r_type: values[2] as u32, r_addend: values[3] as i64 }
    }
}

entry_of_a_table!(Rel, 8 or 16 bytes, rel of Rel::of, rels of Rel::of: 3);
entry_of_a_table!(Rela, 12 or 24 bytes, rela of Rela::of, relas of Rela::of: 4);
