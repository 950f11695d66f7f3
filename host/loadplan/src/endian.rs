//! The order of the bytes of a number: either, or one that is fixed when a program is compiled.
//!
//! The archive reads both orders; these types say which ones a caller is willing to read, under the names of the crate elf.

use crate::abi;
use crate::parse::{Details, ParseError};

/// A choice of byte orders that a caller reads.
pub trait EndianParse: Clone + Copy + Default + PartialEq + Eq {
    /// The order for byte 5 of a file's identification; refused with 3 if it is none that this choice reads.
    fn from_ei_data(ei_data: u8) -> Result<Self, ParseError>;

    /// Whether the lowest byte comes first.
    fn is_little(self) -> bool;

    /// Whether the highest byte comes first.
    fn is_big(self) -> bool {
        !self.is_little()
    }
}

/// Either order, as the file has it.
#[derive(Clone, Copy, Debug, Default, PartialEq, Eq)]
pub enum AnyEndian {
    /// Lowest byte first.
    #[default]
    Little,
    /// Highest byte first.
    Big,
}

/// Lowest byte first, nothing else.
#[derive(Clone, Copy, Debug, Default, PartialEq, Eq)]
pub struct LittleEndian;

/// Highest byte first, nothing else.
#[derive(Clone, Copy, Debug, Default, PartialEq, Eq)]
pub struct BigEndian;

/// The order of the machine that the program is compiled for.
#[cfg(target_endian = "little")]
pub type NativeEndian = LittleEndian;

/// The order of the machine that the program is compiled for.
#[cfg(target_endian = "big")]
pub type NativeEndian = BigEndian;

/// The same where a value is wanted and not a type.
#[cfg(target_endian = "little")]
#[allow(non_upper_case_globals)]
pub const NativeEndian: LittleEndian = LittleEndian;

/// The same where a value is wanted and not a type.
#[cfg(target_endian = "big")]
#[allow(non_upper_case_globals)]
pub const NativeEndian: BigEndian = BigEndian;

impl EndianParse for AnyEndian {
    fn from_ei_data(ei_data: u8) -> Result<Self, ParseError> {
        match ei_data {
            abi::ELFDATA2LSB => Ok(AnyEndian::Little),
            abi::ELFDATA2MSB => Ok(AnyEndian::Big),
            _ => Err(ParseError::UnsupportedElfEndianness(Details)),
        }
    }

    fn is_little(self) -> bool {
        self == AnyEndian::Little
    }
}

impl EndianParse for LittleEndian {
    fn from_ei_data(ei_data: u8) -> Result<Self, ParseError> {
        match ei_data {
            abi::ELFDATA2LSB => Ok(LittleEndian),
            _ => Err(ParseError::UnsupportedElfEndianness(Details)),
        }
    }

    fn is_little(self) -> bool {
        true
    }
}

impl EndianParse for BigEndian {
    fn from_ei_data(ei_data: u8) -> Result<Self, ParseError> {
        match ei_data {
            abi::ELFDATA2MSB => Ok(BigEndian),
            _ => Err(ParseError::UnsupportedElfEndianness(Details)),
        }
    }

    fn is_little(self) -> bool {
        false
    }
}

/// The archive's number for an order.
pub(crate) fn order_number<E: EndianParse>(endian: E) -> u8 {
    if endian.is_little() {
        abi::ELFDATA2LSB
    } else {
        abi::ELFDATA2MSB
    }
}
