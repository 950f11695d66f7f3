//! The files of the corpus that no tool writes: the sample, counts that stand in section header 0, and files with half of
//! what files have. The smallest files for differences come from docs/DIFFERENCES.md, which has them as text.

use crate::maker::{Header, Kind, Parts, Section, Segment, KINDS};

/// The kind of file that the sample is.
const WIDE: Kind = Kind { wide: true, little: true };

/// A file and its name.
pub struct Made {
    pub name: String,
    pub bytes: Vec<u8>,
}

/// All of them.
pub fn made() -> Vec<Made> {
    let mut files = vec![named("sample", sample())];
    for kind in KINDS {
        let mut add = |what: &str, bytes| files.push(named(&format!("{what}-{}", kind.name()), bytes));
        add("counts-in-section-0", counts_in_section_0(kind));
        add("segments-only", segments_only(kind));
        add("ffff-segments-no-sections", ffff_segments_no_sections(kind));
        add("dynamic-segment-one-section", dynamic_segment_one_section(kind));
        add("table-of-no-sections", table_of_no_sections(kind));
    }
    files
}

fn named(name: &str, bytes: Vec<u8>) -> Made {
    Made { name: name.to_string(), bytes }
}

/// A program of 192 bytes that ends at once: 184 bytes to read and execute at 400000, 8 to read and write at 4010b8 (hex),
/// where they have 24 in memory.
pub fn sample() -> Vec<u8> {
    let code =
        Segment { kind: 1, flags: 5, offset: 0, address: 0x40_0000, in_file: 0xb8, in_memory: 0xb8, align: 4096 };
    let data = Segment { kind: 1, flags: 6, offset: 0xb8, address: 0x40_10b8, in_file: 8, in_memory: 24, align: 4096 };
    let mut parts = Parts::new(WIDE);
    let segments_at = parts.add_segments(&[code, data]);
    // exit(0): xor edi, edi; push 60; pop rax; syscall; nop
    parts.add(1, &[0x31, 0xff, 0x6a, 0x3c, 0x58, 0x0f, 0x05, 0x90]);
    parts.add(1, b"data...\n");
    parts.file(Header { kind: 2, entry: 0x40_00b0, segments_at, segments: 2, ..Header::default() })
}

/// Section count, segment count and index of names do not stand in the file header but in section header 0. The last
/// section's name is not UTF-8.
fn counts_in_section_0(kind: Kind) -> Vec<u8> {
    let strings = b"\0.text\0.names\0\xff\xfeodd\0";
    let code: Vec<u8> = (0..16).collect();
    let mut parts = Parts::new(kind);
    let code_at = parts.add(16, &code);
    let strings_at = parts.add(1, strings);
    let load = Segment { kind: 1, flags: 5, offset: code_at, address: 0x1000, in_file: 16, in_memory: 16, align: 16 };
    let note = Segment { kind: 4, flags: 4, offset: code_at, align: 4, ..Segment::default() };
    let segments_at = parts.add_segments(&[load, note]);
    let text = Section {
        name: 1,
        kind: 1,
        flags: 6,
        address: 0x1000,
        offset: code_at,
        size: 16,
        align: 4,
        ..Section::default()
    };
    let names =
        Section { name: 7, kind: 3, offset: strings_at, size: strings.len() as u64, align: 1, ..Section::default() };
    let odd = Section { name: 14, kind: 1, offset: code_at, size: 4, align: 1, ..Section::default() };
    let counts = Section { size: 4, link: 2, info: 2, ..Section::default() };
    let sections_at = parts.add_sections(&[counts, text, names, odd]);
    parts.file(Header {
        kind: 2,
        entry: 0x1000,
        segments_at,
        sections_at,
        segments: 0xffff,
        sections: 0,
        names: 0xffff,
    })
}

fn some_dynamic_entries(kind: Kind) -> Vec<u8> {
    kind.dynamic(&[(5, 0x10), (6, 0x20), (10, 3), (0, 0)])
}

/// Adds some dynamic entries; the segment that holds them.
fn add_dynamic_segment(parts: &mut Parts, kind: Kind) -> Segment {
    let dynamic = some_dynamic_entries(kind);
    let size = dynamic.len() as u64;
    let at = parts.add(8, &dynamic);
    Segment { kind: 2, flags: 6, offset: at, address: at, in_file: size, in_memory: size, align: 8 }
}

/// One loaded segment and a dynamic one, no sections.
fn segments_only(kind: Kind) -> Vec<u8> {
    let mut parts = Parts::new(kind);
    let entries = add_dynamic_segment(&mut parts, kind);
    let all = entries.offset + entries.in_file;
    let load = Segment { kind: 1, flags: 6, in_file: all, in_memory: all, align: 4096, ..Segment::default() };
    let segments_at = parts.add_segments(&[load, entries]);
    parts.file(Header { kind: 3, segments_at, segments: 2, ..Header::default() })
}

/// The segment count says that section header 0 has it, and there are no sections: the file header is read as one.
fn ffff_segments_no_sections(kind: Kind) -> Vec<u8> {
    let load = Segment { kind: 1, flags: 6, align: 4096, ..Segment::default() };
    let mut parts = Parts::new(kind);
    let segments_at = parts.add_segments(&[load; 3]);
    parts.file(Header { kind: 3, segments_at, segments: 0xffff, ..Header::default() })
}

/// A dynamic segment beside one empty section: of the two questions about dynamic entries only one finds them.
fn dynamic_segment_one_section(kind: Kind) -> Vec<u8> {
    let mut parts = Parts::new(kind);
    let entries = add_dynamic_segment(&mut parts, kind);
    let segments_at = parts.add_segments(&[entries]);
    let sections_at = parts.add_sections(&[Section::default()]);
    parts.file(Header { kind: 3, segments_at, sections_at, segments: 1, sections: 1, ..Header::default() })
}

/// A section table that says in its own first entry that it has no entries.
fn table_of_no_sections(kind: Kind) -> Vec<u8> {
    let mut parts = Parts::new(kind);
    let sections_at = parts.add_sections(&[Section::default()]);
    parts.file(Header { kind: 1, sections_at, ..Header::default() })
}

/// How many headers do not fit the counts of a file header.
const MANY: u32 = 70_000;

/// Files with so many segments, and with so many sections. They are long, so they are made when they are needed.
pub fn long_files() -> Vec<Made> {
    let of_a_kind = |kind: Kind| {
        let name = |what: &str| format!("{MANY}-{what}-{}", kind.name());
        [named(&name("segments"), many_segments(kind)), named(&name("sections"), many_sections(kind))]
    };
    KINDS.into_iter().flat_map(of_a_kind).collect()
}

fn many_segments(kind: Kind) -> Vec<u8> {
    let segment = |number: u32| Segment {
        kind: 1,
        flags: 4,
        address: u64::from(number) * 4096,
        in_memory: 4096,
        ..Segment::default()
    };
    let mut parts = Parts::new(kind);
    let segments_at = parts.add_segments(&(0..MANY).map(segment).collect::<Vec<_>>());
    let sections_at = parts.add_sections(&[Section { info: MANY, ..Section::default() }]);
    parts.file(Header { kind: 4, segments_at, sections_at, segments: 0xffff, sections: 1, ..Header::default() })
}

/// The last section holds the names, of which there are two.
fn many_sections(kind: Kind) -> Vec<u8> {
    let strings = b"\0.many\0.names\0";
    let mut parts = Parts::new(kind);
    let strings_at = parts.add(1, strings);
    let mut sections = vec![Section { name: 1, kind: 1, ..Section::default() }; MANY as usize];
    sections[0] = Section { size: MANY.into(), link: MANY - 1, ..Section::default() };
    let names = Section { name: 7, kind: 3, offset: strings_at, size: strings.len() as u64, ..Section::default() };
    sections[MANY as usize - 1] = names;
    let sections_at = parts.add_sections(&sections);
    parts.file(Header { kind: 1, sections_at, names: 0xffff, ..Header::default() })
}
