//! Damaged copies of a file, always the same ones in the same order for the same seed.
//!
//! The file itself; each byte of its front set to other values; the file cut at each length; whole fields of its headers set
//! to limits; and several bytes at once, at random, in its headers and tables.

use loadplan::endian::AnyEndian;
use loadplan::ElfBytes;

use crate::maker::Kind;
use crate::random::Random;

/// How much damage is done.
#[derive(Clone, Copy, Debug)]
pub struct Amount {
    /// How many bytes of the front are damaged one by one.
    pub front: usize,
    /// How many copies are damaged at random.
    pub random: u64,
    pub seed: u64,
}

/// Values for a byte behind the file header, beside the neighbours of the old one.
const FEW: [u8; 9] = [0x00, 0x01, 0x02, 0x08, 0x10, 0x3f, 0x7f, 0x80, 0xff];
/// How many lengths behind the front are passed over each time.
const STEP: usize = 97;
/// How many section headers and segment headers get limits in their fields, and how much of a table is damaged at random.
const MOST_SECTIONS: usize = 48;
const MOST_SEGMENTS: usize = 24;
const MOST_OF_A_TABLE: usize = 512;

/// Types of sections that hold tables, and the flag for compressed data.
const TABLES: [u32; 11] = [2, 4, 5, 6, 7, 9, 11, 0x6fff_fff6, 0x6fff_fffd, 0x6fff_fffe, 0x6fff_ffff];
const COMPRESSED: u64 = 0x800;

/// Hands every damaged copy to `each`, and the file itself. `name` makes the random ones differ from file to file.
pub fn damaged(name: &str, file: &[u8], amount: Amount, each: &mut dyn FnMut(&[u8])) {
    let mut copy = file.to_vec();
    each(file);
    bytes_of_the_front(file, &mut copy, amount.front, each);
    lengths(file, amount.front, each);
    limits(file, &mut copy, each);
    at_random(name, file, &mut copy, amount, each);
}

/// The file itself and the copies that are damaged at random.
pub fn damaged_at_random(name: &str, file: &[u8], amount: Amount, each: &mut dyn FnMut(&[u8])) {
    each(file);
    at_random(name, file, &mut file.to_vec(), amount, each);
}

fn bytes_of_the_front(file: &[u8], copy: &mut [u8], front: usize, each: &mut dyn FnMut(&[u8])) {
    let header = if file.get(4) == Some(&2) { 64 } else { 52 };
    for (at, &old) in file.iter().enumerate().take(front) {
        let mut values: Vec<u8> = if at < header {
            (0..=255).collect()
        } else {
            [&FEW[..], &[old.wrapping_add(1), old.wrapping_sub(1), old ^ 0x80]].concat()
        };
        values.sort_unstable();
        values.dedup();
        for value in values.into_iter().filter(|&value| value != old) {
            copy[at] = value;
            each(copy);
        }
        copy[at] = old;
    }
}

fn lengths(file: &[u8], front: usize, each: &mut dyn FnMut(&[u8])) {
    let every = 0..file.len().min(front);
    let some = (every.end..file.len()).step_by(STEP);
    for length in every.chain(some) {
        each(&file[..length]);
    }
}

/// The kind of a file that can be opened.
fn kind(file: &[u8]) -> Option<Kind> {
    ElfBytes::<AnyEndian>::minimal_parse(file).ok()?;
    Some(Kind { wide: file[4] == 2, little: file[5] == 1 })
}

/// Where the section headers and the program headers of a file are.
fn header_tables(file: &[u8]) -> [Option<(usize, usize)>; 2] {
    let Ok(elf) = ElfBytes::<AnyEndian>::minimal_parse(file) else { return [None, None] };
    let place = |at: u64, bytes: &[u8]| (at as usize, at as usize + bytes.len());
    let sections = elf.section_headers().map(|table| place(elf.ehdr.e_shoff, table.as_bytes()));
    let segments = elf.segments().map(|table| place(elf.ehdr.e_phoff, table.as_bytes()));
    [sections, segments]
}

/// The fields of headers: where they start and how wide they are.
fn fields(file: &[u8], kind: Kind) -> Vec<(usize, usize)> {
    let word = kind.word();
    let mut fields = Vec::new();
    let mut lay = |mut at: usize, widths: &[usize]| {
        for &width in widths {
            fields.push((at, width));
            at += width;
        }
    };
    lay(16, &[2, 2, 4, word, word, word, 4, 2, 2, 2, 2, 2, 2]);
    let [sections, segments] = header_tables(file);
    for (table, size, most) in
        [(sections, kind.section_size(), MOST_SECTIONS), (segments, kind.segment_size(), MOST_SEGMENTS)]
    {
        let Some((from, to)) = table else { continue };
        let widths = match (size, kind.wide) {
            (56, _) => vec![4, 4, 8, 8, 8, 8, 8, 8],
            (32, _) => vec![4; 8],
            _ => vec![4, 4, word, word, word, word, 4, 4, word, word],
        };
        for number in 0..((to - from) / size).min(most) {
            lay(from + number * size, &widths);
        }
    }
    fields
}

fn limit_values(length: u64) -> Vec<u64> {
    let small = [0, 1, 2, 3, 4, 5, 6, 7, 8, 9, 11, 16, 32, 40, 56, 64];
    let types = [0x6fff_fff6, 0x6fff_fffd, 0x6fff_fffe, 0x6fff_ffff, COMPRESSED, 0xff00, 0xfffe, 0xffff];
    let half = [0x7fff_ffff, 0x8000_0000, 0xffff_fffc, 0xffff_ffff, 1 << 32];
    let around = [length.wrapping_sub(8), length.wrapping_sub(1), length, length + 1];
    let large =
        [1 << 58, 1 << 60, 1 << 63, u64::MAX / 2, u64::MAX - 63, u64::MAX - 8, u64::MAX - 3, u64::MAX - 1, u64::MAX];
    [&small[..], &types, &half, &around, &large].concat()
}

fn limits(file: &[u8], copy: &mut [u8], each: &mut dyn FnMut(&[u8])) {
    let Some(kind) = kind(file) else { return };
    for (at, width) in fields(file, kind) {
        let mut values: Vec<Vec<u8>> =
            limit_values(file.len() as u64).iter().map(|&value| kind.number(width, value)).collect();
        values.sort_unstable();
        values.dedup();
        for value in values {
            copy[at..at + width].copy_from_slice(&value);
            each(copy);
        }
        copy[at..at + width].copy_from_slice(&file[at..at + width]);
    }
}

/// Parts of a file that are worth damaging: its headers, section headers twice, and the front of its tables.
fn interesting(file: &[u8]) -> Vec<(usize, usize)> {
    let mut parts = vec![(0, file.len().min(64))];
    let [sections, segments] = header_tables(file);
    parts.extend([sections, sections, segments].into_iter().flatten());
    if let Ok(elf) = ElfBytes::<AnyEndian>::minimal_parse(file) {
        for section in elf.section_headers().into_iter().flatten() {
            let from = section.sh_offset as usize;
            let to = from.saturating_add(section.sh_size as usize);
            let is_table = TABLES.contains(&section.sh_type) || section.sh_flags & COMPRESSED != 0;
            if is_table && to <= file.len() {
                parts.push((from, to.min(from + MOST_OF_A_TABLE)));
            }
        }
    }
    parts.retain(|(from, to)| from < to);
    parts
}

fn at_random(name: &str, file: &[u8], copy: &mut [u8], amount: Amount, each: &mut dyn FnMut(&[u8])) {
    let mut random = Random::of_name(name, amount.seed);
    let parts = interesting(file);
    if parts.is_empty() {
        return;
    }
    for _ in 0..amount.random {
        let mut touched = Vec::new();
        for _ in 0..=random.below(4) {
            let (from, to) = random.one_of(&parts);
            let at = from + random.below((to - from) as u64) as usize;
            copy[at] = match random.below(4) {
                0 => random.number() as u8,
                1 => 0xff,
                2 => copy[at].wrapping_add(1),
                _ => random.one_of(&FEW),
            };
            touched.push(at);
        }
        each(copy);
        touched.into_iter().for_each(|at| copy[at] = file[at]);
    }
}
