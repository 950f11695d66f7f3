//! Dynamic entries.

use crate::parse::{entry_of_a_table, ParsingTable};

/// The dynamic entries of a file.
pub type DynamicTable<'data, E> = ParsingTable<'data, E, Dyn>;

/// A dynamic entry: a tag, and a value whose meaning the tag says.
#[derive(Clone, Copy, Debug, PartialEq, Eq)]
pub struct Dyn {
    pub d_tag: i64,
    value: u64,
}

impl Dyn {
    #[inline]
    fn of(values: &[u64; 2]) -> Self {
        Dyn { d_tag: values[0] as i64, value: values[1] }
    }

    /// The value as a number.
    pub fn d_val(&self) -> u64 {
        self.value
    }

    /// The value as an address.
    pub fn d_ptr(&self) -> u64 {
        self.value
    }
}

entry_of_a_table!(Dyn, 8 or 16 bytes, dyn_ of Dyn::of, dyns of Dyn::of: 2);
