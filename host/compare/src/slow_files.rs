//! Files in which a name is slow to look up, unless care is taken: a long name that is nearly the looked-up one is met again
//! and again, and whoever compares the two each time takes a time that grows with the square of the file's length.

use std::time::Duration;

use loadplan::endian::AnyEndian;
use loadplan::{CommonElfData, ElfBytes};

use crate::hash_tables::{self, Table};
use crate::maker::{Header, Kind, Parts, Section, KINDS};
use crate::port::{least_time, LONGEST, SHORT_FILE};

/// How the nearly equal name is met again and again.
#[derive(Clone, Copy, Debug, PartialEq, Eq)]
enum Shape {
    /// The chain of a hash table stays at one symbol.
    Loop,
    /// The chain goes round through symbols, each with a string of its own.
    Round,
    /// The chain goes once through symbols that share one string.
    Shared,
    /// Sections share one name; the last of them has the looked-up one.
    Sections,
}

/// Which byte of the nearly equal name is another one: who compares from the other end reads all up to it.
#[derive(Clone, Copy, Debug)]
enum Differs {
    First,
    Middle,
    Last,
}

const SHAPES: [Shape; 4] = [Shape::Loop, Shape::Round, Shape::Shared, Shape::Sections];
const DIFFERING: [Differs; 3] = [Differs::First, Differs::Middle, Differs::Last];
/// How long the names are, where there is room for them.
const NAME_LENGTHS: [usize; 9] = [255, 256, 257, 1000, 4096, 20_000, 100_000, 250_000, 400_000];
/// How long the files are that the crate is asked about too, which compares each time.
const COMPARED_LENGTH: usize = 1 << 15;
/// Room for the headers, and for what is between the parts.
const HEADERS: usize = 512;
/// More sections are not counted in the file header.
const MOST_SECTIONS: usize = 0xfeff;

/// A file that can be made. Zeros are behind what it needs.
#[derive(Clone, Copy, Debug)]
struct SlowFile {
    kind: Kind,
    shape: Shape,
    differs: Differs,
    length: usize,
    name_length: usize,
}

/// Hands a file of every kind and shape to `each`, with names of every length that there is room for.
fn slow_files(length: usize, each: &mut dyn FnMut(SlowFile)) {
    for kind in KINDS {
        for shape in SHAPES {
            for name_length in NAME_LENGTHS {
                let files = DIFFERING.map(|differs| SlowFile { kind, shape, differs, length, name_length });
                files.into_iter().filter(SlowFile::fits).for_each(&mut *each);
            }
        }
    }
}

/// Hands the files to `each` that the crate is asked about too.
pub fn compared_files(each: &mut dyn FnMut(&[u8])) {
    slow_files(COMPARED_LENGTH, &mut |file| each(&file.bytes()));
}

impl SlowFile {
    fn name(&self) -> String {
        let SlowFile { kind, shape, differs, name_length, .. } = self;
        format!("slow-{}-{shape:?}-{name_length}-{differs:?}", kind.name()).to_lowercase()
    }

    /// Whether there is room for the strings and for much that names them.
    fn fits(&self) -> bool {
        let goes_round = self.shape != Shape::Round || self.copies() > 1;
        goes_round && (self.copies() + 1) * (self.name_length + 1) <= self.length / 5 * 4
    }

    /// How many nearly equal strings there are: to go round through, as many as half of the file holds.
    fn copies(&self) -> usize {
        match self.shape {
            Shape::Round => self.length / 2 / (self.name_length + 1),
            _ => 1,
        }
    }

    fn looked_up(&self) -> String {
        "a".repeat(self.name_length)
    }

    /// An empty string, the looked-up name, and the copies of the nearly equal one.
    fn strings(&self) -> Vec<u8> {
        let looked_up = self.looked_up().into_bytes();
        let mut nearly = [&looked_up[..], b"\0"].concat();
        let differing = match self.differs {
            Differs::First => 0,
            Differs::Middle => self.name_length / 2,
            Differs::Last => self.name_length - 1,
        };
        nearly[differing] = b'b';
        [b"\0", &looked_up[..], b"\0", &nearly.repeat(self.copies())].concat()
    }

    /// Where copy `number` of the nearly equal name starts in them.
    fn copy_at(&self, number: usize) -> u32 {
        (1 + (1 + number) * (self.name_length + 1)) as u32
    }

    /// How many bytes there are beside the headers and the strings.
    fn room(&self) -> usize {
        self.length - HEADERS - self.copy_at(self.copies()) as usize
    }

    /// How many sections there are, if they are what the file is full of.
    fn sections(&self) -> usize {
        (self.room() / self.kind.section_size()).min(MOST_SECTIONS)
    }

    /// The number of the section that has the looked-up name.
    fn section(&self) -> Option<usize> {
        (self.shape == Shape::Sections).then(|| self.sections() - 1)
    }

    fn bytes(&self) -> Vec<u8> {
        let mut bytes = match self.shape {
            Shape::Sections => self.with_sections(),
            _ => hash_tables::file(self.kind, &self.table()),
        };
        bytes.resize(self.length, 0);
        bytes
    }

    /// A chain that starts at symbol 2. Symbol 1 has the looked-up name, and no chain leads there.
    fn table(&self) -> Table {
        let symbol_size = self.kind.symbol_size();
        let in_chain = match self.shape {
            Shape::Shared => self.room() / (symbol_size + 4) - 2,
            _ => self.copies(),
        };
        let chain_count = (self.room() - (in_chain + 2) * symbol_size) / 4;
        let mut table = Table {
            bucket_count: 1,
            chain_count: chain_count as u32,
            buckets: vec![2],
            chains: vec![0; chain_count],
            names: vec![0, 1],
            strings: self.strings(),
            ..Table::default()
        };
        for number in 0..in_chain {
            table.names.push(self.copy_at(number % self.copies()));
            table.chains[2 + number] = 3 + number as u32;
        }
        table.chains[1 + in_chain] = if self.shape == Shape::Shared { 0 } else { 2 };
        table
    }

    /// Section 1 holds the strings.
    fn with_sections(&self) -> Vec<u8> {
        let strings = self.strings();
        let mut parts = Parts::new(self.kind);
        let offset = parts.add(1, &strings);
        let mut sections = vec![Section { name: self.copy_at(0), kind: 1, ..Section::default() }; self.sections()];
        sections[0] = Section::default();
        sections[1] = Section { kind: 3, offset, size: strings.len() as u64, ..sections[1] };
        sections[self.sections() - 1].name = 1;
        let sections_at = parts.add_sections(&sections);
        parts.file(Header { kind: 1, sections_at, sections: self.sections() as u16, names: 1, ..Header::default() })
    }
}

/// How long the port took for single questions.
#[derive(Debug, Default)]
pub struct Times {
    pub questions: u64,
    pub longest: Duration,
    /// Questions that took too long, with the time.
    pub slow: Vec<(String, Duration)>,
    /// Questions with a wrong answer.
    pub wrong: Vec<String>,
}

impl Times {
    /// Asks the port about the longest files for whose answers there is a limit.
    pub fn of_long_files() -> Self {
        let mut times = Times::default();
        slow_files(SHORT_FILE - 1, &mut |file| times.ask_about(file));
        times
    }

    fn ask_about(&mut self, file: SlowFile) {
        let (bytes, name, section) = (file.bytes(), file.looked_up(), file.section());
        let open = || ElfBytes::<AnyEndian>::minimal_parse(&bytes);
        self.ask(file, "open", || open().is_ok());
        let Ok(elf) = open() else { return };
        self.ask(file, "byname", || elf.section_number_by_name(&name) == Ok(section));
        let common = || elf.find_common_data();
        let has_table = section.is_none();
        self.ask(file, "common", || common().is_ok_and(|common| common.sysv_hash.is_some() == has_table));
        let Ok(CommonElfData { sysv_hash, dynsyms, dynsyms_strs, .. }) = common() else { return };
        if let (Some(table), Some(symbols), Some(strings)) = (sysv_hash, dynsyms, dynsyms_strs) {
            self.ask(file, "hash.find", || table.find(name.as_bytes(), &symbols, &strings) == Ok(None));
        }
    }

    fn ask(&mut self, file: SlowFile, question: &str, is_right: impl Fn() -> bool) {
        let (right, took) = least_time(is_right);
        let said = || format!("{}, {question}", file.name());
        self.questions += 1;
        self.longest = self.longest.max(took);
        self.slow.extend((took > LONGEST).then(|| (said(), took)));
        self.wrong.extend((!right).then(said));
    }
}
