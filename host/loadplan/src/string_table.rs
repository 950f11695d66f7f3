//! Strings: bytes up to a zero byte.

use crate::parse::{Details, ParseError};
use crate::sys;

/// The bytes that hold strings one behind the other.
#[derive(Clone, Copy, Debug, Default)]
pub struct StringTable<'data> {
    data: &'data [u8],
}

impl<'data> StringTable<'data> {
    /// These bytes as strings.
    pub fn new(data: &'data [u8]) -> Self {
        StringTable { data }
    }

    /// The bytes of the table.
    pub fn as_bytes(&self) -> &'data [u8] {
        self.data
    }

    /// The string at an offset, without its zero byte. Refused with 5 beyond the end, with 6 without a zero byte.
    pub fn get_raw(&self, offset: usize) -> Result<&'data [u8], ParseError> {
        let [from, to] = sys::string(self.data, offset)?;
        crate::part(self.data, from, to)
    }

    /// The same as text; refused with 13 if it is not UTF-8.
    pub fn get(&self, offset: usize) -> Result<&'data str, ParseError> {
        let [from, to] = sys::string_utf8(self.data, offset)?;
        // The archive has found it to be UTF-8; the second look keeps this crate free of unsafe code.
        core::str::from_utf8(crate::part(self.data, from, to)?).map_err(|_| ParseError::Utf8Error(Details))
    }
}
