//! Faults, tables and walks over tables.
//!
//! A table is a part of a file together with the class and the byte order of the file. Entry by entry it is read by the
//! archive; a walk fetches [BATCH] entries with one call.

use core::fmt;
use core::marker::PhantomData;

use crate::endian::{order_number, EndianParse};
use crate::file::Class;

/// How many entries a walk fetches with one call of the archive.
pub const BATCH: usize = 32;

/// What stands beside the kind of a fault: nothing, since the archive answers with a number only. It is there so that
/// patterns such as `ParseError::BadMagic(_)` are written as for the crate elf.
#[non_exhaustive]
#[derive(Clone, Copy, Debug, PartialEq, Eq)]
pub struct Details;

/// Why a question about a file is refused.
#[derive(Clone, Copy, Debug, PartialEq, Eq)]
pub enum ParseError {
    /// 1: the file does not start with the four bytes of an ELF file.
    BadMagic(Details),
    /// 2: the class is neither 32 nor 64 bits.
    UnsupportedElfClass(Details),
    /// 3: the byte order is none that the caller reads.
    UnsupportedElfEndianness(Details),
    /// 4: the version in the identification is not 1.
    UnsupportedVersion(Details),
    /// 5: an index or an offset lies beyond the end, or the table is empty.
    BadOffset(Details),
    /// 6: a string has no zero byte.
    StringTableMissingNul(Details),
    /// 7: the size of an entry is not the format's.
    BadEntsize(Details),
    /// 8: the section is of another type.
    UnexpectedSectionType(Details),
    /// 9: the segment is of another type.
    UnexpectedSegmentType(Details),
    /// 10: an alignment that cannot be.
    UnexpectedAlignment(Details),
    /// 11: a range lies outside the data.
    SliceReadError(Details),
    /// 12: a sum or a product does not fit 64 bits.
    IntegerOverflow,
    /// 13: a string is not UTF-8.
    Utf8Error(Details),
    /// 14: a lent table has no room.
    NoRoom,
}

impl ParseError {
    /// The number of the fault, as include/loadplan.h lists them.
    pub fn number(&self) -> u8 {
        match self {
            ParseError::BadMagic(_) => 1,
            ParseError::UnsupportedElfClass(_) => 2,
            ParseError::UnsupportedElfEndianness(_) => 3,
            ParseError::UnsupportedVersion(_) => 4,
            ParseError::BadOffset(_) => 5,
            ParseError::StringTableMissingNul(_) => 6,
            ParseError::BadEntsize(_) => 7,
            ParseError::UnexpectedSectionType(_) => 8,
            ParseError::UnexpectedSegmentType(_) => 9,
            ParseError::UnexpectedAlignment(_) => 10,
            ParseError::SliceReadError(_) => 11,
            ParseError::IntegerOverflow => 12,
            ParseError::Utf8Error(_) => 13,
            ParseError::NoRoom => 14,
        }
    }

    /// The fault with a number of the archive; `None` for 0 and for numbers that no reader answers.
    pub fn from_number(number: u32) -> Option<Self> {
        Some(match number {
            1 => ParseError::BadMagic(Details),
            2 => ParseError::UnsupportedElfClass(Details),
            3 => ParseError::UnsupportedElfEndianness(Details),
            4 => ParseError::UnsupportedVersion(Details),
            5 => ParseError::BadOffset(Details),
            6 => ParseError::StringTableMissingNul(Details),
            7 => ParseError::BadEntsize(Details),
            8 => ParseError::UnexpectedSectionType(Details),
            9 => ParseError::UnexpectedSegmentType(Details),
            10 => ParseError::UnexpectedAlignment(Details),
            11 => ParseError::SliceReadError(Details),
            12 => ParseError::IntegerOverflow,
            13 => ParseError::Utf8Error(Details),
            14 => ParseError::NoRoom,
            _ => return None,
        })
    }
}

impl From<u32> for ParseError {
    /// A refusal of the archive. The archive's readers answer 1 to 14 only; any other number would be a fault of the
    /// archive, and is reported as a range outside the data so that no caller takes it for an answer.
    fn from(number: u32) -> Self {
        ParseError::from_number(number).unwrap_or(ParseError::SliceReadError(Details))
    }
}

impl fmt::Display for ParseError {
    fn fmt(&self, to: &mut fmt::Formatter<'_>) -> fmt::Result {
        to.write_str(match self {
            ParseError::BadMagic(_) => "the file does not start with 7f 45 4c 46, so it is no ELF file",
            ParseError::UnsupportedElfClass(_) => "the file is neither a 32-bit nor a 64-bit one",
            ParseError::UnsupportedElfEndianness(_) => "the file's byte order is not one that is read here",
            ParseError::UnsupportedVersion(_) => "the file's identification has a version other than 1",
            ParseError::BadOffset(_) => "an index or an offset lies beyond the end, or the table is empty",
            ParseError::StringTableMissingNul(_) => "a string is not ended by a zero byte",
            ParseError::BadEntsize(_) => "a table's entry size is not the one of the format",
            ParseError::UnexpectedSectionType(_) => "the section is of another type",
            ParseError::UnexpectedSegmentType(_) => "the segment is of another type",
            ParseError::UnexpectedAlignment(_) => "an alignment is one that cannot be",
            ParseError::SliceReadError(_) => "bytes are asked for that lie outside the file",
            ParseError::IntegerOverflow => "a sum or a product of the file's numbers does not fit 64 bits",
            ParseError::Utf8Error(_) => "a string is not UTF-8",
            ParseError::NoRoom => "the lent table has no room for all records",
        })
    }
}

impl core::error::Error for ParseError {}

/// What the archive knows of a kind of entry. Its methods are called by tables and walks only.
pub(crate) mod entry {
    use super::{ParseError, BATCH};

    /// An entry that the archive reads, alone or as a row of a batch.
    pub trait Entry: Sized {
        /// The values of one entry in a batch.
        type Row: Clone + core::fmt::Debug;
        /// Room for a batch, with nothing in it yet.
        const ROOM: [Self::Row; BATCH];

        /// The entry with these values.
        fn from_row(row: &Self::Row) -> Self;
        /// Entry `i` of a table.
        fn one(class: u8, order: u8, table: &[u8], i: usize) -> Result<Self, ParseError>;
        /// Entries from number `from` on; how many.
        fn many(class: u8, order: u8, table: &[u8], from: usize, rows: &mut [Self::Row; BATCH]) -> usize;
    }
}

/// Joins an entry type to its two functions of the archive, the one for one entry and the one for rows of a batch, and to
/// its sizes in the two classes.
macro_rules! entry_of_a_table {
    ($type:ty, $size32:literal or $size64:literal bytes, $one:ident of $values:path, $many:ident of $row:path: $width:literal) => {
        impl $crate::parse::entry::Entry for $type {
            type Row = [u64; $width];
            const ROOM: [Self::Row; $crate::parse::BATCH] = [[0; $width]; $crate::parse::BATCH];

            #[inline]
            fn from_row(row: &Self::Row) -> Self {
                $row(row)
            }

            #[inline]
            fn one(class: u8, order: u8, table: &[u8], i: usize) -> Result<Self, $crate::parse::ParseError> {
                Ok($values(&$crate::sys::$one(class, order, table, i)?))
            }

            #[inline]
            fn many(
                class: u8,
                order: u8,
                table: &[u8],
                from: usize,
                rows: &mut [Self::Row; $crate::parse::BATCH],
            ) -> usize {
                $crate::sys::$many(class, order, table, from, rows.as_flattened_mut())
            }
        }

        impl $crate::parse::ParseAt for $type {
            #[inline]
            fn size_for(class: $crate::file::Class) -> usize {
                match class {
                    $crate::file::Class::ELF32 => $size32,
                    $crate::file::Class::ELF64 => $size64,
                }
            }
        }
    };
}
pub(crate) use entry_of_a_table;

/// An entry that tables hold. Only this crate's entry types are.
pub trait ParseAt: entry::Entry {
    /// How many bytes an entry has in a file of that class.
    fn size_for(class: Class) -> usize;
}

/// A table: bytes that are read as entries of one kind.
#[derive(Debug)]
pub struct ParsingTable<'data, E: EndianParse, P: ParseAt> {
    endian: E,
    class: Class,
    data: &'data [u8],
    kind: PhantomData<P>,
}

// Written out because the derived ones would ask that the entry type can be copied, which a table does not need.
impl<E: EndianParse, P: ParseAt> Clone for ParsingTable<'_, E, P> {
    fn clone(&self) -> Self {
        *self
    }
}

impl<E: EndianParse, P: ParseAt> Copy for ParsingTable<'_, E, P> {}

impl<'data, E: EndianParse, P: ParseAt> ParsingTable<'data, E, P> {
    /// These bytes as a table.
    pub fn new(endian: E, class: Class, data: &'data [u8]) -> Self {
        ParsingTable { endian, class, data, kind: PhantomData }
    }

    /// The bytes of the table.
    pub fn as_bytes(&self) -> &'data [u8] {
        self.data
    }

    /// How many whole entries the table has.
    pub fn len(&self) -> usize {
        self.data.len() / P::size_for(self.class)
    }

    /// Whether the table has no whole entry.
    pub fn is_empty(&self) -> bool {
        self.len() == 0
    }

    /// Entry `index`. Refused with 5 in an empty table and beyond the end, with 11 at the end and where the entry is cut
    /// off, with 12 where its offset does not fit 64 bits.
    pub fn get(&self, index: usize) -> Result<P, ParseError> {
        P::one(self.class.number(), order_number(self.endian), self.data, index)
    }

    /// A walk over the whole entries.
    pub fn iter(&self) -> ParsingIterator<'data, E, P> {
        ParsingIterator::new(self.endian, self.class, self.data)
    }
}

impl<'data, E: EndianParse, P: ParseAt> IntoIterator for ParsingTable<'data, E, P> {
    type Item = P;
    type IntoIter = ParsingIterator<'data, E, P>;

    fn into_iter(self) -> Self::IntoIter {
        self.iter()
    }
}

/// A walk over the whole entries of a table. It ends silently at the first entry that cannot be read.
#[derive(Clone, Debug)]
pub struct ParsingIterator<'data, E: EndianParse, P: ParseAt> {
    endian: E,
    class: Class,
    data: &'data [u8],
    /// The number of the entry behind the batch.
    behind: usize,
    /// How many entries of the batch are there, and how many of them were handed out.
    there: usize,
    given: usize,
    batch: [P::Row; BATCH],
}

impl<'data, E: EndianParse, P: ParseAt> ParsingIterator<'data, E, P> {
    /// A walk over these bytes.
    #[inline]
    pub fn new(endian: E, class: Class, data: &'data [u8]) -> Self {
        ParsingIterator { endian, class, data, behind: 0, there: 0, given: 0, batch: P::ROOM }
    }

    /// The bytes that the walk goes over, from the first entry on.
    pub fn as_bytes(&self) -> &'data [u8] {
        self.data
    }

    /// Fetches the next batch; whether there is an entry in it.
    fn fetch(&mut self) -> bool {
        let (class, order) = (self.class.number(), order_number(self.endian));
        self.there = P::many(class, order, self.data, self.behind, &mut self.batch);
        self.behind += self.there;
        self.given = 0;
        self.there != 0
    }
}

impl<E: EndianParse, P: ParseAt> Iterator for ParsingIterator<'_, E, P> {
    type Item = P;

    #[inline]
    fn next(&mut self) -> Option<P> {
        if self.given == self.there && !self.fetch() {
            return None;
        }
        // What was handed out is less than what is there, which is at most a batch: the remainder is the number itself, and
        // tells the compiler so.
        let row = &self.batch[self.given % BATCH];
        self.given += 1;
        Some(P::from_row(row))
    }
}
