//! The SysV hash table: the symbol with a name, without a search through all.

use crate::endian::{order_number, EndianParse};
use crate::file::Class;
use crate::parse::ParseError;
use crate::string_table::StringTable;
use crate::symbol::{Symbol, SymbolTable};
use crate::sys;

/// The SysV hash of a name.
pub fn sysv_hash(name: &[u8]) -> u32 {
    sys::sysv_hash(name)
}

/// The counts at the front of a hash table.
#[derive(Clone, Copy, Debug, PartialEq, Eq)]
pub struct SysVHashHeader {
    pub nbucket: u32,
    pub nchain: u32,
}

/// A hash table: bytes from its two counts to the end of its chains.
#[derive(Clone, Copy, Debug)]
pub struct SysVHashTable<'data, E: EndianParse> {
    endian: E,
    class: Class,
    data: &'data [u8],
    header: SysVHashHeader,
}

impl<'data, E: EndianParse> SysVHashTable<'data, E> {
    /// These bytes as a hash table. Refused with 11 or 12 if buckets and chains do not lie in them.
    pub fn new(endian: E, class: Class, data: &'data [u8]) -> Result<Self, ParseError> {
        let [buckets, chains] = sys::hash_header(order_number(endian), data)?;
        let header = SysVHashHeader { nbucket: buckets as u32, nchain: chains as u32 };
        Ok(SysVHashTable { endian, class, data, header })
    }

    /// The bytes of the table, and whatever was handed in behind it.
    pub fn as_bytes(&self) -> &'data [u8] {
        self.data
    }

    /// How many buckets and chain entries there are.
    pub fn header(&self) -> SysVHashHeader {
        self.header
    }

    /// The first symbol with that name in the chain of its bucket, and its number. A symbol, a string or a chain entry on
    /// the way that cannot be read is a refusal, not an absence.
    pub fn find(
        &self,
        name: &[u8],
        symtab: &SymbolTable<'data, E>,
        strtab: &StringTable<'data>,
    ) -> Result<Option<(usize, Symbol)>, ParseError> {
        let (class, order) = (self.class.number(), order_number(self.endian));
        let [there, number] = sys::hash_find(class, order, self.data, symtab.as_bytes(), strtab.as_bytes(), name)?;
        if there == 0 {
            return Ok(None);
        }
        let number = number as usize;
        Ok(Some((number, symtab.get(number)?)))
    }
}
