//! An ELF reader and a load plan, proved total and in bounds, under the names of the crate elf.
//!
//! The code that looks at a file's bytes is the archive libloadplan.a, written in Rattle and proved: for any bytes and any
//! numbers it answers, within the lent memory, as its definitions say. This crate is the safe Rust around it. Nothing is
//! allocated and nothing is kept, so it runs where there is no operating system.
//!
//! A program that reads files with elf 0.8.0 changes its `use` lines from `elf` to `loadplan`. What is not here: GNU hash
//! tables, notes, symbol versions, compressed sections, streams. A [ParseError] has the number of the fault and no more.
//!
//! # A monitor's forty lines
//!
//! ```
//! use loadplan::endian::AnyEndian;
//! use loadplan::plan::{load, Refusal, Window, RECORD_SIZE};
//! use loadplan::ElfBytes;
//!
//! /// The memory that a guest may have, and room for the plan of at most eight segments.
//! struct Guest {
//!     window: Window,
//!     memory: [u8; 0x2000],
//!     table: [u8; 8 * RECORD_SIZE],
//! }
//!
//! /// Puts a program into the guest's memory. Answers where it starts; a refused file leaves the memory as it was.
//! fn boot(guest: &mut Guest, file: &[u8], mut protect: impl FnMut(u64, u64, u64)) -> Result<u64, Refusal> {
//!     let plan = load(file, guest.window, &mut guest.table, &mut guest.memory)?;
//!     for record in plan.records() {
//!         protect(record.pages, record.pages_length, record.flags);
//!     }
//!     let elf = ElfBytes::<AnyEndian>::minimal_parse(file).map_err(|fault| Refusal::NotOpened(Some(fault)))?;
//!     Ok(elf.ehdr.e_entry)
//! }
//!
//! // Two segments: 184 bytes to read and execute at 400000, 8 bytes to read and write at 4010b8 (hex).
//! const SAMPLE: [u8; 192] = [
//!     0x7f, 0x45, 0x4c, 0x46, 0x02, 0x01, 0x01, 0x00, 0x00, 0x00, 0x00, 0x00, 0x00, 0x00, 0x00, 0x00,
//!     0x02, 0x00, 0x3e, 0x00, 0x01, 0x00, 0x00, 0x00, 0xb0, 0x00, 0x40, 0x00, 0x00, 0x00, 0x00, 0x00,
//!     0x40, 0x00, 0x00, 0x00, 0x00, 0x00, 0x00, 0x00, 0x00, 0x00, 0x00, 0x00, 0x00, 0x00, 0x00, 0x00,
//!     0x00, 0x00, 0x00, 0x00, 0x40, 0x00, 0x38, 0x00, 0x02, 0x00, 0x40, 0x00, 0x00, 0x00, 0x00, 0x00,
//!     0x01, 0x00, 0x00, 0x00, 0x05, 0x00, 0x00, 0x00, 0x00, 0x00, 0x00, 0x00, 0x00, 0x00, 0x00, 0x00,
//!     0x00, 0x00, 0x40, 0x00, 0x00, 0x00, 0x00, 0x00, 0x00, 0x00, 0x40, 0x00, 0x00, 0x00, 0x00, 0x00,
//!     0xb8, 0x00, 0x00, 0x00, 0x00, 0x00, 0x00, 0x00, 0xb8, 0x00, 0x00, 0x00, 0x00, 0x00, 0x00, 0x00,
//!     0x00, 0x10, 0x00, 0x00, 0x00, 0x00, 0x00, 0x00, 0x01, 0x00, 0x00, 0x00, 0x06, 0x00, 0x00, 0x00,
//!     0xb8, 0x00, 0x00, 0x00, 0x00, 0x00, 0x00, 0x00, 0xb8, 0x10, 0x40, 0x00, 0x00, 0x00, 0x00, 0x00,
//!     0xb8, 0x10, 0x40, 0x00, 0x00, 0x00, 0x00, 0x00, 0x08, 0x00, 0x00, 0x00, 0x00, 0x00, 0x00, 0x00,
//!     0x18, 0x00, 0x00, 0x00, 0x00, 0x00, 0x00, 0x00, 0x00, 0x10, 0x00, 0x00, 0x00, 0x00, 0x00, 0x00,
//!     0x31, 0xff, 0x6a, 0x3c, 0x58, 0x0f, 0x05, 0x90, 0x64, 0x61, 0x74, 0x61, 0x2e, 0x2e, 0x2e, 0x0a,
//! ];
//!
//! // The guest's memory held something else before; none of it is left in the pages of the program.
//! let window = Window { start: 0x400000, length: 0x2000 };
//! let mut guest = Guest { window, memory: [0xaa; 0x2000], table: [0; 8 * RECORD_SIZE] };
//! let mut protections = Vec::new();
//! let entry = boot(&mut guest, &SAMPLE, |from, length, flags| protections.push((from, length, flags)));
//! assert_eq!(entry, Ok(0x4000b0));
//! assert_eq!(protections, [(0x400000, 0x1000, 5), (0x401000, 0x1000, 6)]);
//! assert_eq!(guest.memory[..0xb8], SAMPLE[..0xb8]);
//! assert!(guest.memory[0xb8..0x10b8].iter().all(|&byte| byte == 0));
//! assert_eq!(&guest.memory[0x10b8..0x10c0], b"data...\n");
//! assert!(guest.memory[0x10c0..].iter().all(|&byte| byte == 0));
//!
//! // A file that was cut off is refused, and the memory is as it was.
//! let refused = boot(&mut guest, &SAMPLE[..191], |_, _, _| ());
//! assert_eq!(refused, Err(Refusal::SegmentBytes));
//! assert_eq!(&guest.memory[0x10b8..0x10c0], b"data...\n");
//! ```
#![no_std]
#![deny(unsafe_code)]
#![warn(missing_debug_implementations)]

#[cfg(not(target_pointer_width = "64"))]
compile_error!("the archive is made for 64-bit machines");

pub mod abi;
pub mod compression;
pub mod dynamic;
mod elf_bytes;
pub mod endian;
pub mod file;
pub mod hash;
pub mod parse;
pub mod plan;
pub mod relocation;
pub mod section;
pub mod segment;
pub mod string_table;
pub mod symbol;
#[allow(unsafe_code)]
pub mod sys;

pub use elf_bytes::{CommonElfData, ElfBytes, SymbolsAndStrings};
pub use parse::ParseError;

/// The bytes of a range that the archive answered. It is proved to lie in the data; if it did not, this would be a refusal
/// and never a panic.
#[inline]
fn part(data: &[u8], from: u64, to: u64) -> Result<&[u8], ParseError> {
    data.get(from as usize..to as usize).ok_or(ParseError::SliceReadError(parse::Details))
}
