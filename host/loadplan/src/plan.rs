//! The load plan: where each segment of a file goes in a window of memory, and carrying that out.
//!
//! Planning answers with records or with one refusal; carrying out makes the pages of every record zero and puts the file's
//! bytes in place. Neither allocates: the caller lends a table, 48 bytes a record.

use core::fmt;

use crate::parse::ParseError;
use crate::sys::{self, Planned};

/// How many bytes of a table a record takes.
pub const RECORD_SIZE: usize = 48;
/// Pages are of this size; a window starts and ends between two of them.
pub const PAGE: u64 = 4096;

/// A window of memory: where it starts and how long it is.
#[derive(Clone, Copy, Debug, PartialEq, Eq)]
pub struct Window {
    pub start: u64,
    pub length: u64,
}

/// What a plan says of one segment. Addresses are absolute, also for position-independent files.
#[derive(Clone, Copy, Debug, PartialEq, Eq)]
pub struct Record {
    /// Where its pages start, and how long they are together.
    pub pages: u64,
    pub pages_length: u64,
    /// 1 executable, 2 writable, 4 readable.
    pub flags: u64,
    /// Where its file bytes start, how many they are, and from which offset of the file they come.
    pub bytes: u64,
    pub bytes_length: u64,
    pub offset: u64,
}

/// Why a file is not planned, or a plan not carried out.
#[derive(Clone, Copy, Debug, PartialEq, Eq)]
pub enum Refusal {
    /// 20: the file cannot be opened (then for the reader's reason), is too long, or has no segments.
    NotOpened(Option<ParseError>),
    /// 21: the file is neither an executable nor position independent.
    FileType,
    /// 22: a segment has more bytes in the file than in memory, or bytes that the file does not have.
    SegmentBytes,
    /// 23: a segment's alignment is no power of two, or its address and offset differ modulo it.
    SegmentAlignment,
    /// 24: a segment leaves the window, or there can be no such window.
    OutsideWindow,
    /// 25: segments are not in ascending order, or their pages overlap.
    SegmentOrder,
    /// 26: a segment is writable and executable.
    WriteExecute,
    /// 27: the entry point is in no executable segment.
    EntryPoint,
    /// 14: the lent table is too short.
    NoRoom,
    /// Any other number, from carrying out a table that is no plan of that file and window.
    NotCarriedOut(u32),
}

impl Refusal {
    /// The number, as include/loadplan.h lists them.
    pub fn number(&self) -> u32 {
        match self {
            Refusal::NotOpened(_) => 20,
            Refusal::FileType => 21,
            Refusal::SegmentBytes => 22,
            Refusal::SegmentAlignment => 23,
            Refusal::OutsideWindow => 24,
            Refusal::SegmentOrder => 25,
            Refusal::WriteExecute => 26,
            Refusal::EntryPoint => 27,
            Refusal::NoRoom => 14,
            Refusal::NotCarriedOut(number) => *number,
        }
    }

    fn from_numbers(refusal: u32, reader: u32) -> Self {
        match refusal {
            14 => Refusal::NoRoom,
            20 => Refusal::NotOpened(ParseError::from_number(reader)),
            21 => Refusal::FileType,
            22 => Refusal::SegmentBytes,
            23 => Refusal::SegmentAlignment,
            24 => Refusal::OutsideWindow,
            25 => Refusal::SegmentOrder,
            26 => Refusal::WriteExecute,
            27 => Refusal::EntryPoint,
            other => Refusal::NotCarriedOut(other),
        }
    }
}

impl fmt::Display for Refusal {
    fn fmt(&self, to: &mut fmt::Formatter<'_>) -> fmt::Result {
        to.write_str(match self {
            Refusal::NotOpened(Some(reason)) => return write!(to, "the file cannot be opened: {reason}"),
            Refusal::NotOpened(None) => "the file is longer than the limit or has no segments",
            Refusal::FileType => "the file is neither an executable nor position independent",
            Refusal::SegmentBytes => {
                "a segment has more bytes in the file than in memory, or bytes that the file does not have"
            }
            Refusal::SegmentAlignment => {
                "a segment's alignment is no power of two, or its address and its offset differ modulo it"
            }
            Refusal::OutsideWindow => "a segment's addresses leave the window, or there can be no such window",
            Refusal::SegmentOrder => "segments are not in ascending order of address, or their pages overlap",
            Refusal::WriteExecute => "a segment is both writable and executable",
            Refusal::EntryPoint => "the entry point is not in the memory of an executable segment",
            Refusal::NoRoom => "the lent table is too short for the records",
            Refusal::NotCarriedOut(_) => "the table is no plan for that file, window and memory",
        })
    }
}

impl core::error::Error for Refusal {}

/// A plan: records, in the front of a table that the caller lent.
#[derive(Clone, Copy, Debug, PartialEq, Eq)]
pub struct Plan<'table> {
    records: &'table [u8],
}

impl<'table> Plan<'table> {
    /// Any bytes as a plan; bytes behind the last whole record are left out. Carrying it out tests every record first.
    pub fn from_bytes(table: &'table [u8]) -> Self {
        let whole = table.len() - table.len() % RECORD_SIZE;
        Plan { records: &table[..whole] }
    }

    /// The records as bytes.
    pub fn as_bytes(&self) -> &'table [u8] {
        self.records
    }

    /// How many records there are.
    pub fn len(&self) -> usize {
        self.records.len() / RECORD_SIZE
    }

    /// Whether there is no record.
    pub fn is_empty(&self) -> bool {
        self.records.is_empty()
    }

    /// The records, one behind the other.
    pub fn records(&self) -> impl ExactSizeIterator<Item = Record> + 'table {
        self.records.chunks_exact(RECORD_SIZE).map(record)
    }
}

/// Plans a file for a window. The records go to the front of `table`, which is as it was on a refusal.
pub fn plan<'table>(file: &[u8], window: Window, table: &'table mut [u8]) -> Result<Plan<'table>, Refusal> {
    let planned = sys::plan(file, window.start, window.length, table);
    planned_in(table, planned)
}

/// Carries a plan out: `memory` is the window's bytes. On a refusal it is as it was.
pub fn carry_out(file: &[u8], window: Window, plan: Plan<'_>, memory: &mut [u8]) -> Result<(), Refusal> {
    let records = plan.len() as u64;
    match sys::carry_out(file, window.start, window.length, plan.records, records, memory) {
        0 => Ok(()),
        refusal => Err(Refusal::from_numbers(refusal, 0)),
    }
}

/// Plans a file and carries the plan out. On a refusal `table` and `memory` are as they were.
pub fn load<'table>(
    file: &[u8],
    window: Window,
    table: &'table mut [u8],
    memory: &mut [u8],
) -> Result<Plan<'table>, Refusal> {
    let planned = sys::load(file, window.start, window.length, table, memory);
    planned_in(table, planned)
}

fn planned_in(table: &[u8], planned: Planned) -> Result<Plan<'_>, Refusal> {
    if planned.refusal != 0 {
        return Err(Refusal::from_numbers(planned.refusal, planned.reader));
    }
    match table.get(..planned.records as usize * RECORD_SIZE) {
        Some(records) => Ok(Plan { records }),
        None => Err(Refusal::NoRoom),
    }
}

fn record(bytes: &[u8]) -> Record {
    let mut numbers = [0; 6];
    for (number, eight) in numbers.iter_mut().zip(bytes.chunks_exact(8)) {
        *number = eight.iter().rev().fold(0, |sum, &byte| sum << 8 | u64::from(byte));
    }
    let [pages, pages_length, flags, bytes, bytes_length, offset] = numbers;
    Record { pages, pages_length, flags, bytes, bytes_length, offset }
}
