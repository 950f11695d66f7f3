//! Symbols.

use crate::abi;
use crate::parse::{entry_of_a_table, ParsingTable};

/// The symbols of a section.
pub type SymbolTable<'data, E> = ParsingTable<'data, E, Symbol>;

/// A symbol.
#[derive(Clone, Copy, Debug, PartialEq, Eq)]
pub struct Symbol {
    /// Where its name starts in the strings of its table.
    pub st_name: u32,
    pub st_shndx: u16,
    pub st_info: u8,
    pub st_other: u8,
    pub st_value: u64,
    pub st_size: u64,
}

impl Symbol {
    #[inline]
    fn of(values: &[u64; 6]) -> Self {
        Symbol {
            st_name: values[0] as u32,
            st_shndx: values[1] as u16,
            st_info: values[2] as u8,
            st_other: values[3] as u8,
            st_value: values[4],
            st_size: values[5],
        }
    }

    /// The symbol of a row of a walk: info, other and section index share a value, info lowest.
    #[inline]
    fn of_packed(row: &[u64; 4]) -> Self {
        Symbol {
            st_name: row[0] as u32,
            st_shndx: (row[1] >> 16) as u16,
            st_info: row[1] as u8,
            st_other: (row[1] >> 8) as u8,
            st_value: row[2],
            st_size: row[3],
        }
    }

    /// Whether the symbol is defined elsewhere: it belongs to no section.
    pub fn is_undefined(&self) -> bool {
        self.st_shndx == abi::SHN_UNDEF
    }

    /// The type: the low four bits of `st_info`.
    pub fn st_symtype(&self) -> u8 {
        self.st_info % 16
    }

    /// The binding: the high four bits of `st_info`.
    pub fn st_bind(&self) -> u8 {
        self.st_info / 16
    }

    /// The visibility: the low two bits of `st_other`.
    pub fn st_vis(&self) -> u8 {
        self.st_other % 4
    }
}

entry_of_a_table!(Symbol, 16 or 24 bytes, symbol of Symbol::of, packed_symbols of Symbol::of_packed: 4);
