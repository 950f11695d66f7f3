//! The numbers at fault in a refused file: which segment, which addresses.
//!
//! The archive answers with the number of the rule that is broken. Here the same rule is looked at once more on the
//! program headers, for words only: nothing is decided here, and if nothing is found the refusal stands all the same.

use loadplan::endian::AnyEndian;
use loadplan::plan::{Refusal, Window, PAGE};
use loadplan::segment::ProgramHeader;
use loadplan::{abi, ElfBytes};

use crate::names;
use crate::window::loaded_segments;

/// The longest file and the longest window that are planned.
const LONGEST_FILE: usize = 1 << 30;
const LONGEST_WINDOW: u64 = 1 << 32;

/// One sentence for each thing at fault.
pub fn faults(file: &[u8], window: Window, refusal: Refusal) -> Vec<String> {
    let Ok(elf) = ElfBytes::<AnyEndian>::minimal_parse(file) else {
        return vec![format!("the file has {} bytes", file.len())];
    };
    let loaded: Vec<_> = loaded_segments(&elf).collect();
    let with_memory: Vec<_> = loaded.iter().filter(|(_, header)| header.p_memsz != 0).copied().collect();
    let place = Place::new(&elf, window);
    match refusal {
        Refusal::NotOpened(_) => not_opened(file),
        Refusal::FileType => {
            vec![format!("its type is {}", names::with_number(names::FILE_TYPES, elf.ehdr.e_type.into()))]
        }
        Refusal::SegmentBytes => each(&loaded, |header| bytes_fault(header, file.len())),
        Refusal::SegmentAlignment => each(&loaded, alignment_fault),
        Refusal::OutsideWindow => place.window_faults(&with_memory),
        Refusal::SegmentOrder => place.order_faults(&with_memory),
        Refusal::WriteExecute => each(&with_memory, write_execute_fault),
        Refusal::EntryPoint => place.entry_fault(elf.ehdr.e_entry, &with_memory),
        Refusal::NoRoom | Refusal::NotCarriedOut(_) => Vec::new(),
    }
}

type Segment = (usize, ProgramHeader);

/// What is wrong with each segment by itself.
fn each(segments: &[Segment], fault: impl Fn(&ProgramHeader) -> Option<String>) -> Vec<String> {
    let faults = segments.iter().filter_map(|(number, header)| Some((number, fault(header)?)));
    faults.map(|(number, fault)| format!("segment {number}: {fault}")).collect()
}

fn not_opened(file: &[u8]) -> Vec<String> {
    match file.len() > LONGEST_FILE {
        true => vec![format!("the file has {} bytes, the limit is {LONGEST_FILE}", file.len())],
        false => vec![String::from("it has no program headers")],
    }
}

fn bytes_fault(header: &ProgramHeader, file_length: usize) -> Option<String> {
    let ProgramHeader { p_filesz, p_memsz, p_offset, .. } = *header;
    if p_filesz > p_memsz {
        return Some(format!("file size {p_filesz:#x} is above memory size {p_memsz:#x}"));
    }
    let end = u128::from(p_offset) + u128::from(p_filesz);
    let message = format!("its bytes are {p_offset:#x}..{end:#x} of the file, which ends at {file_length:#x}");
    (end > file_length as u128).then_some(message)
}

fn alignment_fault(header: &ProgramHeader) -> Option<String> {
    let ProgramHeader { p_align, p_vaddr, p_offset, .. } = *header;
    if p_align <= 1 {
        return None;
    }
    if !p_align.is_power_of_two() {
        return Some(format!("alignment {p_align:#x} is no power of two"));
    }
    let (address, offset) = (p_vaddr % p_align, p_offset % p_align);
    let message = format!(
        "address {p_vaddr:#x} is {address:#x} modulo the alignment {p_align:#x}, its offset {p_offset:#x} is {offset:#x}"
    );
    (address != offset).then_some(message)
}

fn write_execute_fault(header: &ProgramHeader) -> Option<String> {
    let both = abi::PF_W | abi::PF_X;
    (header.p_flags & both == both).then(|| format!("its flags are {:#x}", header.p_flags))
}

/// The window, and what is added to a file's addresses in it. Sums are taken in 128 bits, so that none overflows.
struct Place {
    window: Window,
    base: u128,
}

impl Place {
    fn new(elf: &ElfBytes<'_, AnyEndian>, window: Window) -> Self {
        let base = if elf.ehdr.e_type == abi::ET_DYN { u128::from(window.start) } else { 0 };
        Place { window, base }
    }

    /// The addresses of a segment.
    fn addresses(&self, header: &ProgramHeader) -> (u128, u128) {
        let from = self.base + u128::from(header.p_vaddr);
        (from, from + u128::from(header.p_memsz))
    }

    /// Its pages.
    fn pages(&self, header: &ProgramHeader) -> (u128, u128) {
        let (from, to) = self.addresses(header);
        (from - from % u128::from(PAGE), to.next_multiple_of(u128::from(PAGE)))
    }

    fn window_faults(&self, segments: &[Segment]) -> Vec<String> {
        let Window { start, length } = self.window;
        let end = u128::from(start) + u128::from(length);
        let mut faults = Vec::new();
        if start % PAGE != 0 || length % PAGE != 0 {
            faults.push(format!(
                "the window's start {start:#x} and length {length:#x} are not both multiples of {PAGE:#x}"
            ));
        }
        if length > LONGEST_WINDOW {
            faults.push(format!("the window's length {length:#x} is above {LONGEST_WINDOW:#x}"));
        }
        if end > 1 << 64 {
            faults.push(format!("the window ends at {end:#x}, beyond 64 bits"));
        }
        let leaving = each(segments, |header| {
            let (from, to) = self.addresses(header);
            let message = format!("addresses {from:#x}..{to:#x} leave the window {start:#x}..{end:#x}");
            (from < start.into() || to > end).then_some(message)
        });
        faults.extend(leaving);
        faults
    }

    fn order_faults(&self, segments: &[Segment]) -> Vec<String> {
        let pairs = segments.windows(2).filter_map(|pair| {
            let [(first, one), (second, other)] = pair else { return None };
            if one.p_vaddr >= other.p_vaddr {
                let (low, high) = (other.p_vaddr, one.p_vaddr);
                return Some(format!("segment {second} at {low:#x} comes behind segment {first} at {high:#x}"));
            }
            let ((from, to), (start, end)) = (self.pages(one), self.pages(other));
            let pages = format!("{from:#x}..{to:#x} of segment {first} and {start:#x}..{end:#x} of segment {second}");
            (to > start).then(|| format!("the pages {pages} overlap"))
        });
        pairs.collect()
    }

    fn entry_fault(&self, entry: u64, segments: &[Segment]) -> Vec<String> {
        let mut faults = vec![format!("the entry point is {:#x}", self.base + u128::from(entry))];
        for (number, header) in segments.iter().filter(|(_, header)| header.p_flags & abi::PF_X != 0) {
            let (from, to) = self.addresses(header);
            faults.push(format!("segment {number} is executable from {from:#x} to {to:#x}"));
        }
        if faults.len() == 1 {
            faults.push(String::from("no loaded segment is executable"));
        }
        faults
    }
}
