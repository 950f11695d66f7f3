//! Values in the canonical text: numbers are decimal, ranges are offsets in the file, names, hashes and sums hexadecimal.
//!
//! Sums over walks are taken value by value: (sum xor value) times a prime, from a fixed start.

use std::fmt::Write;

use loadplan::dynamic::Dyn;
use loadplan::relocation::{Rel, Rela};
use loadplan::section::SectionHeader;
use loadplan::segment::ProgramHeader;
use loadplan::symbol::Symbol;

pub const SUM_START: u64 = 0xcbf2_9ce4_8422_2325;
const SUM_PRIME: u64 = 0x100_0000_01b3;

pub fn add_to_sum(sum: u64, value: u64) -> u64 {
    (sum ^ value).wrapping_mul(SUM_PRIME)
}

/// What stands behind `ok`.
pub trait Values {
    fn write(&self, file: &[u8], to: &mut String);
}

impl Values for () {
    fn write(&self, _: &[u8], _: &mut String) {}
}

impl Values for usize {
    fn write(&self, _: &[u8], to: &mut String) {
        let _ = write!(to, " {self}");
    }
}

impl<const N: usize> Values for [u64; N] {
    fn write(&self, _: &[u8], to: &mut String) {
        for value in self {
            let _ = write!(to, " {value}");
        }
    }
}

/// Bytes of the file are written as the range that they are.
impl Values for &[u8] {
    fn write(&self, file: &[u8], to: &mut String) {
        let from = (self.as_ptr() as usize).wrapping_sub(file.as_ptr() as usize);
        let _ = write!(to, " {from}..{}", from.wrapping_add(self.len()));
    }
}

impl Values for &str {
    fn write(&self, file: &[u8], to: &mut String) {
        self.as_bytes().write(file, to);
    }
}

impl<A: Values, B: Values> Values for (A, B) {
    fn write(&self, file: &[u8], to: &mut String) {
        self.0.write(file, to);
        self.1.write(file, to);
    }
}

/// A part of an answer that may be absent, behind its name.
pub struct Named<T>(pub &'static str, pub Option<T>);

impl<T: Values> Values for Named<T> {
    fn write(&self, file: &[u8], to: &mut String) {
        let _ = write!(to, " {}", self.0);
        match &self.1 {
            Some(values) => values.write(file, to),
            None => to.push_str(" none"),
        }
    }
}

impl Values for Dyn {
    fn write(&self, _: &[u8], to: &mut String) {
        let _ = write!(to, " {} {}", self.d_tag, self.d_val());
    }
}

/// A count and a sum.
pub struct Walked(u64, u64);

impl Values for Walked {
    fn write(&self, _: &[u8], to: &mut String) {
        let _ = write!(to, " {} {:016x}", self.0, self.1);
    }
}

/// A hash, in hexadecimal.
pub struct Hash(pub u32);

impl Values for Hash {
    fn write(&self, _: &[u8], to: &mut String) {
        let _ = write!(to, " {:08x}", self.0);
    }
}

/// Counts entries and sums their values.
pub fn walked<T, const N: usize>(entries: impl Iterator<Item = T>, values: impl Fn(&T) -> [u64; N]) -> Walked {
    entries.fold(Walked(0, SUM_START), |Walked(count, sum), entry| {
        Walked(count + 1, values(&entry).into_iter().fold(sum, add_to_sum))
    })
}

/// A name in hexadecimal; the empty one is a dash.
pub struct Hex<'name>(pub &'name [u8]);

impl std::fmt::Display for Hex<'_> {
    fn fmt(&self, to: &mut std::fmt::Formatter<'_>) -> std::fmt::Result {
        if self.0.is_empty() {
            return to.write_str("-");
        }
        // Names may be long: pieces of them are written at once.
        for piece in self.0.chunks(32) {
            let digit = |value: u8| char::from(b"0123456789abcdef"[usize::from(value)]);
            let digits: String = piece.iter().flat_map(|byte| [digit(byte / 16), digit(byte % 16)]).collect();
            to.write_str(&digits)?;
        }
        Ok(())
    }
}

pub fn section_values(header: &SectionHeader) -> [u64; 10] {
    [
        header.sh_name.into(),
        header.sh_type.into(),
        header.sh_flags,
        header.sh_addr,
        header.sh_offset,
        header.sh_size,
        header.sh_link.into(),
        header.sh_info.into(),
        header.sh_addralign,
        header.sh_entsize,
    ]
}

pub fn segment_values(header: &ProgramHeader) -> [u64; 8] {
    [
        header.p_type.into(),
        header.p_offset,
        header.p_vaddr,
        header.p_paddr,
        header.p_filesz,
        header.p_memsz,
        header.p_flags.into(),
        header.p_align,
    ]
}

pub fn symbol_values(symbol: &Symbol) -> [u64; 6] {
    [
        symbol.st_name.into(),
        symbol.st_shndx.into(),
        symbol.st_info.into(),
        symbol.st_other.into(),
        symbol.st_value,
        symbol.st_size,
    ]
}

pub fn rel_values(rel: &Rel) -> [u64; 3] {
    [rel.r_offset, rel.r_sym.into(), rel.r_type.into()]
}

pub fn rela_values(rela: &Rela) -> [u64; 4] {
    [rela.r_offset, rela.r_sym.into(), rela.r_type.into(), rela.r_addend as u64]
}

pub fn dyn_values(entry: &Dyn) -> [u64; 2] {
    [entry.d_tag as u64, entry.d_val()]
}
