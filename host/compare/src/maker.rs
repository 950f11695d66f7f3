//! Makes ELF files of either class and byte order, also such as no tool writes: every field is what it is told to be.
//!
//! A file is put together from parts behind the file header; each part is told its offset, so that headers can name it.

/// Which kind of file is made.
#[derive(Clone, Copy, Debug, PartialEq, Eq)]
pub struct Kind {
    pub wide: bool,
    pub little: bool,
}

/// Both classes in both byte orders.
pub const KINDS: [Kind; 4] = [
    Kind { wide: true, little: true },
    Kind { wide: true, little: false },
    Kind { wide: false, little: true },
    Kind { wide: false, little: false },
];

/// The fields of a file header that differ from file to file.
#[derive(Clone, Copy, Debug, Default)]
pub struct Header {
    pub kind: u16,
    pub entry: u64,
    pub segments_at: u64,
    pub sections_at: u64,
    pub segments: u16,
    pub sections: u16,
    pub names: u16,
}

/// A section header.
#[derive(Clone, Copy, Debug, Default)]
pub struct Section {
    pub name: u32,
    pub kind: u32,
    pub flags: u64,
    pub address: u64,
    pub offset: u64,
    pub size: u64,
    pub link: u32,
    pub info: u32,
    pub align: u64,
    pub entry_size: u64,
}

/// A program header; the physical address is the address.
#[derive(Clone, Copy, Debug, Default, PartialEq, Eq)]
pub struct Segment {
    pub kind: u32,
    pub flags: u32,
    pub offset: u64,
    pub address: u64,
    pub in_file: u64,
    pub in_memory: u64,
    pub align: u64,
}

/// A symbol.
#[derive(Clone, Copy, Debug, Default)]
pub struct Symbol {
    pub name: u32,
    pub value: u64,
    pub size: u64,
    pub info: u8,
    pub section: u16,
}

impl Kind {
    /// How names of files call it.
    pub fn name(self) -> &'static str {
        match (self.wide, self.little) {
            (true, true) => "64le",
            (true, false) => "64be",
            (false, true) => "32le",
            (false, false) => "32be",
        }
    }

    pub fn header_size(self) -> usize {
        if self.wide {
            64
        } else {
            52
        }
    }

    pub fn section_size(self) -> usize {
        if self.wide {
            64
        } else {
            40
        }
    }

    pub fn segment_size(self) -> usize {
        if self.wide {
            56
        } else {
            32
        }
    }

    pub fn symbol_size(self) -> usize {
        if self.wide {
            24
        } else {
            16
        }
    }

    pub fn dynamic_size(self) -> usize {
        if self.wide {
            16
        } else {
            8
        }
    }

    /// How wide addresses and offsets are.
    pub fn word(self) -> usize {
        if self.wide {
            8
        } else {
            4
        }
    }

    /// A machine that writes such files: x86-64, s390, i386, PowerPC.
    fn machine(self) -> u64 {
        match (self.wide, self.little) {
            (true, true) => 62,
            (true, false) => 22,
            (false, true) => 3,
            (false, false) => 20,
        }
    }

    /// The lowest `width` bytes of a number, in the file's order.
    pub fn number(self, width: usize, value: u64) -> Vec<u8> {
        self.numbers(&[(width, value)])
    }

    /// The number that bytes hold in the file's order.
    pub fn value(self, bytes: &[u8]) -> u64 {
        let add = |sum: u64, &byte: &u8| sum << 8 | u64::from(byte);
        match self.little {
            true => bytes.iter().rev().fold(0, add),
            false => bytes.iter().fold(0, add),
        }
    }

    /// Numbers one behind the other, each behind its width.
    pub fn numbers(self, fields: &[(usize, u64)]) -> Vec<u8> {
        let mut bytes = Vec::with_capacity(fields.iter().map(|(width, _)| width).sum());
        for &(width, value) in fields {
            let at = bytes.len();
            bytes.extend_from_slice(&value.to_le_bytes()[..width]);
            if !self.little {
                bytes[at..].reverse();
            }
        }
        bytes
    }

    pub fn header(self, header: Header) -> Vec<u8> {
        let word = self.word();
        let class = if self.wide { 2 } else { 1 };
        let order = if self.little { 1 } else { 2 };
        let mut bytes = vec![0x7f, b'E', b'L', b'F', class, order, 1];
        bytes.resize(16, 0);
        bytes.extend(self.numbers(&[
            (2, header.kind.into()),
            (2, self.machine()),
            (4, 1),
            (word, header.entry),
            (word, header.segments_at),
            (word, header.sections_at),
            (4, 0),
            (2, self.header_size() as u64),
            (2, self.segment_size() as u64),
            (2, header.segments.into()),
            (2, self.section_size() as u64),
            (2, header.sections.into()),
            (2, header.names.into()),
        ]));
        bytes
    }

    pub fn section(self, section: Section) -> Vec<u8> {
        let word = self.word();
        self.numbers(&[
            (4, section.name.into()),
            (4, section.kind.into()),
            (word, section.flags),
            (word, section.address),
            (word, section.offset),
            (word, section.size),
            (4, section.link.into()),
            (4, section.info.into()),
            (word, section.align),
            (word, section.entry_size),
        ])
    }

    pub fn segment(self, segment: Segment) -> Vec<u8> {
        let word = self.word();
        let kind = (4, segment.kind.into());
        let flags = (4, segment.flags.into());
        let places = [
            (word, segment.offset),
            (word, segment.address),
            (word, segment.address),
            (word, segment.in_file),
            (word, segment.in_memory),
        ];
        let align = (word, segment.align);
        match self.wide {
            true => self.numbers(&[&[kind, flags][..], &places, &[align]].concat()),
            false => self.numbers(&[&[kind][..], &places, &[flags, align]].concat()),
        }
    }

    pub fn symbol(self, symbol: Symbol) -> Vec<u8> {
        let word = self.word();
        let name = (4, symbol.name.into());
        let place = [(word, symbol.value), (word, symbol.size)];
        let rest = [(1, symbol.info.into()), (1, 0), (2, symbol.section.into())];
        match self.wide {
            true => self.numbers(&[&[name][..], &rest, &place].concat()),
            false => self.numbers(&[&[name][..], &place, &rest].concat()),
        }
    }

    pub fn dynamic(self, entries: &[(i64, u64)]) -> Vec<u8> {
        let word = self.word();
        entries.iter().flat_map(|&(tag, value)| self.numbers(&[(word, tag as u64), (word, value)])).collect()
    }
}

/// The parts of a file behind its header.
#[derive(Debug)]
pub struct Parts {
    kind: Kind,
    bytes: Vec<u8>,
}

impl Parts {
    pub fn new(kind: Kind) -> Self {
        Parts { kind, bytes: Vec::new() }
    }

    /// Where the next part will start.
    pub fn next(&self) -> u64 {
        (self.kind.header_size() + self.bytes.len()) as u64
    }

    /// Zeros up to a multiple of `align`, then the part; where it starts.
    pub fn add(&mut self, align: u64, part: &[u8]) -> u64 {
        let missing = self.next().next_multiple_of(align) - self.next();
        self.bytes.resize(self.bytes.len() + missing as usize, 0);
        let at = self.next();
        self.bytes.extend_from_slice(part);
        at
    }

    pub fn add_sections(&mut self, sections: &[Section]) -> u64 {
        let kind = self.kind;
        let part: Vec<u8> = sections.iter().flat_map(|&section| kind.section(section)).collect();
        self.add(8, &part)
    }

    pub fn add_segments(&mut self, segments: &[Segment]) -> u64 {
        let kind = self.kind;
        let part: Vec<u8> = segments.iter().flat_map(|&segment| kind.segment(segment)).collect();
        self.add(4, &part)
    }

    /// The file.
    pub fn file(self, header: Header) -> Vec<u8> {
        let mut file = self.kind.header(header);
        file.extend(self.bytes);
        file
    }
}
