//! The canonical answers: every question about a file, one line each, in a fixed order.
//!
//! A line is `01 QUESTION = ANSWER`; an answer is `ok` with its values, `none`, or `err` with a number. The text is compared
//! byte by byte with recorded answers, so nothing in it may change by itself.

mod values;

use std::fmt::{Arguments, Write};

use loadplan::dynamic::{Dyn, DynamicTable};
use loadplan::endian::AnyEndian;
use loadplan::file::Class;
use loadplan::hash::{sysv_hash, SysVHashTable};
use loadplan::parse::ParseAt;
use loadplan::section::SectionHeader;
use loadplan::segment::ProgramHeader;
use loadplan::string_table::StringTable;
use loadplan::symbol::{Symbol, SymbolTable};
use loadplan::{CommonElfData, ElfBytes, ParseError, SymbolsAndStrings};

use values::{
    add_to_sum, dyn_values, rel_values, rela_values, section_values, segment_values, symbol_values, walked, Hash, Hex,
    Named, Values, SUM_START,
};

type Elf<'file> = ElfBytes<'file, AnyEndian>;

/// Up to how many sections each is asked about; of more, the first and the last few.
const SECTIONS_IN_FULL: usize = 56;
const LAST_SECTIONS: usize = 4;
/// Up to how many segments each is asked about.
const SEGMENTS_IN_FULL: usize = 32;
/// How many names of symbols are looked up.
const LOOKED_UP: usize = 12;
/// From how many sections on only the last one is looked up by its name.
const MANY_SECTIONS: usize = 4096;
/// The type of sections that hold a hash table.
const HASH_SECTION: u32 = 5;

/// Section names that are looked up in every file.
const SECTION_NAMES: [&str; 9] =
    ["", ".text", ".symtab", ".dynsym", ".dynstr", ".hash", ".shstrtab", ".nosuch", "main"];
/// Symbol names that are looked up in every file, behind those of its own symbols.
const SYMBOL_NAMES: [&[u8]; 6] = [b"", b"printf", b"exit", b"memcpy", b"no_such_symbol_zz", b"\xff\xfe"];

/// The digest of a text: the sum over its bytes.
pub fn digest(text: &str) -> u64 {
    text.bytes().fold(SUM_START, |sum, byte| add_to_sum(sum, u64::from(byte)))
}

/// Every answer about a file. `full` asks about every entry of every table.
pub fn ask(file: &[u8], full: bool) -> String {
    let mut answers = Answers { file, full, text: String::with_capacity(1 << 15) };
    match Elf::minimal_parse(file) {
        Ok(elf) => {
            answers.line(format_args!("open"), ());
            answers.whole_file(&elf);
        }
        Err(fault) => answers.refused(format_args!("open"), fault),
    }
    answers.text
}

/// The numbers in ascending order, each once.
fn ascending(mut numbers: Vec<usize>) -> Vec<usize> {
    numbers.sort_unstable();
    numbers.dedup();
    numbers
}

/// Which entries are asked about in a table of `count` whole entries of `size` bytes: the first, the last, the middle one,
/// those behind the end, and those around the limits of 32 and of 64 bits.
fn probes(count: usize, size: usize, full: bool) -> Vec<usize> {
    let most = usize::MAX;
    let mut numbers =
        vec![0, 1, 2, count / 2, count.wrapping_sub(2), count.wrapping_sub(1), count, count + 1, count + 2];
    numbers.extend([u32::MAX as usize, 1 << 32, most / size, most / size + 1, most - 1, most]);
    if full {
        numbers.extend(0..count);
    }
    ascending(numbers)
}

struct Answers<'file> {
    file: &'file [u8],
    full: bool,
    text: String,
}

impl<'file> Answers<'file> {
    fn question(&mut self, question: Arguments<'_>) {
        let _ = write!(self.text, "01 {question} = ");
    }

    fn line(&mut self, question: Arguments<'_>, values: impl Values) {
        self.question(question);
        self.text.push_str("ok");
        values.write(self.file, &mut self.text);
        self.text.push('\n');
    }

    fn refused(&mut self, question: Arguments<'_>, fault: ParseError) {
        self.question(question);
        let _ = writeln!(self.text, "err {}", fault.number());
    }

    fn answer(&mut self, question: Arguments<'_>, answer: Result<impl Values, ParseError>) {
        match answer {
            Ok(values) => self.line(question, values),
            Err(fault) => self.refused(question, fault),
        }
    }

    fn optional(&mut self, question: Arguments<'_>, answer: Result<Option<impl Values>, ParseError>) {
        match answer.transpose() {
            Some(answer) => self.answer(question, answer),
            None => {
                self.question(question);
                self.text.push_str("none\n");
            }
        }
    }

    fn whole_file(&mut self, elf: &Elf<'file>) {
        self.header(elf);
        let sections = elf.section_headers();
        let section_table = sections.map(|table| (table.as_bytes(), table.len()));
        self.optional(format_args!("sections"), Ok(section_table));
        let segment_table = elf.segments().map(|table| (table.as_bytes(), table.len()));
        self.optional(format_args!("segments"), Ok(segment_table));
        let names = elf.section_headers_with_strtab().map(|(_, names)| names);
        self.optional(format_args!("nametab"), names.map(|table| table.map(|names| names.as_bytes())));
        let names = names.ok().flatten();
        if let Some(names) = names {
            self.strings("nametab", names);
        }
        self.sections(elf, names);
        self.segments(elf);
        let looked_up = self.tables(elf);
        self.common(elf, &looked_up);
        for name in looked_up {
            self.line(format_args!("sysv {}", Hex(name)), Hash(sysv_hash(name)));
        }
    }

    fn header(&mut self, elf: &Elf<'file>) {
        let header = &elf.ehdr;
        let class = if header.class == Class::ELF32 { 1 } else { 2 };
        let order = if header.endianness == AnyEndian::Little { 1 } else { 2 };
        self.line(format_args!("ident"), [class, order, header.osabi.into(), header.abiversion.into()]);
        let values: [u64; 13] = [
            header.version.into(),
            header.e_type.into(),
            header.e_machine.into(),
            header.e_entry,
            header.e_phoff,
            header.e_shoff,
            header.e_flags.into(),
            header.e_ehsize.into(),
            header.e_phentsize.into(),
            header.e_phnum.into(),
            header.e_shentsize.into(),
            header.e_shnum.into(),
            header.e_shstrndx.into(),
        ];
        self.line(format_args!("ehdr"), values);
    }

    fn strings(&mut self, table: &str, strings: StringTable<'file>) {
        let length = strings.as_bytes().len();
        let around_length = [length / 2, length.wrapping_sub(1), length, length + 1];
        let limits = [u32::MAX as usize, 1 << 32, usize::MAX];
        for offset in ascending([&[0, 1, 2], &around_length[..], &limits[..]].concat()) {
            self.answer(format_args!("{table}.str[{offset}]"), strings.get_raw(offset));
            self.answer(format_args!("{table}.utf8[{offset}]"), strings.get(offset));
        }
    }

    fn sections(&mut self, elf: &Elf<'file>, names: Option<StringTable<'file>>) {
        let mut count = 0;
        if let Some(table) = elf.section_headers() {
            count = table.len();
            for i in probes(count, SectionHeader::size_for(elf.ehdr.class), false) {
                if i >= count {
                    self.answer(format_args!("section[{i}]"), table.get(i).map(|header| section_values(&header)));
                }
            }
            self.line(format_args!("sections.walk"), walked(table.iter(), section_values));
        }
        for name in SECTION_NAMES {
            self.by_name(elf, name);
        }
        let first = if self.full || count <= SECTIONS_IN_FULL { count } else { SECTIONS_IN_FULL - LAST_SECTIONS };
        let last = if first == count { count } else { count - LAST_SECTIONS };
        for i in (0..first).chain(last..count) {
            self.section(elf, names, i, count);
        }
    }

    fn by_name(&mut self, elf: &Elf<'file>, name: &str) {
        self.optional(format_args!("byname {}", Hex(name.as_bytes())), elf.section_number_by_name(name));
    }

    fn section(&mut self, elf: &Elf<'file>, names: Option<StringTable<'file>>, i: usize, count: usize) {
        let Some(table) = elf.section_headers() else { return };
        let header = table.get(i);
        self.answer(format_args!("section[{i}]"), header.as_ref().map(section_values).map_err(|fault| *fault));
        let Ok(header) = header else { return };
        if let Some(names) = names {
            self.section_name(elf, names, &header, i, count);
        }
        self.answer(format_args!("section[{i}].data"), elf.section_data(&header).map(|(data, _)| data));
        let strings = elf.section_data_as_strtab(&header).map(|strings| strings.as_bytes());
        self.answer(format_args!("section[{i}].strings"), strings);
        let rels = elf.section_data_as_rels(&header).map(|rels| walked(rels, rel_values));
        self.answer(format_args!("section[{i}].rel"), rels);
        let relas = elf.section_data_as_relas(&header).map(|relas| walked(relas, rela_values));
        self.answer(format_args!("section[{i}].rela"), relas);
        self.answer(format_args!("section[{i}].symbols"), elf.section_data_as_symbols(&header).map(ranges));
        let dynamic = elf.section_data_as_dynamic(&header).map(|table| table.as_bytes());
        self.answer(format_args!("section[{i}].dynamic"), dynamic);
        if header.sh_type == HASH_SECTION {
            self.answer(format_args!("section[{i}].hash"), hash_counts(elf, &header));
        }
    }

    fn section_name(
        &mut self,
        elf: &Elf<'file>,
        names: StringTable<'file>,
        header: &SectionHeader,
        i: usize,
        count: usize,
    ) {
        let offset = header.sh_name as usize;
        let name = names.get(offset);
        self.answer(format_args!("section[{i}].name"), names.get_raw(offset));
        self.answer(format_args!("section[{i}].utf8"), name);
        let last = i + 1 == count;
        let chosen = i % 8 == 1 || last || self.full;
        if let (Ok(name), true) = (name, chosen && (count < MANY_SECTIONS || last)) {
            self.by_name(elf, name);
        }
    }

    fn segments(&mut self, elf: &Elf<'file>) {
        let Some(table) = elf.segments() else { return };
        let count = table.len();
        let every = self.full || count <= SEGMENTS_IN_FULL;
        for i in probes(count, ProgramHeader::size_for(elf.ehdr.class), every) {
            let header = table.get(i);
            self.answer(format_args!("segment[{i}]"), header.as_ref().map(segment_values).map_err(|fault| *fault));
            if let Ok(header) = header {
                self.answer(format_args!("segment[{i}].data"), elf.segment_data(&header));
            }
        }
        self.line(format_args!("segments.walk"), walked(table.iter(), segment_values));
    }

    /// Symbols and dynamic entries. Answers the names that are looked up: of dynamic symbols, then the fixed ones.
    fn tables(&mut self, elf: &Elf<'file>) -> Vec<&'file [u8]> {
        let symbols = elf.symbol_table();
        self.optional(format_args!("symtab"), symbols.map(|found| found.map(ranges)));
        if let Ok(Some((symbols, strings))) = symbols {
            self.symbols(elf, "symtab", symbols, strings);
        }
        let symbols = elf.dynamic_symbol_table();
        self.optional(format_args!("dynsym"), symbols.map(|found| found.map(ranges)));
        let mut names = match symbols {
            Ok(Some((symbols, strings))) => self.symbols(elf, "dynsym", symbols, strings),
            _ => Vec::new(),
        };
        names.extend(SYMBOL_NAMES);
        let dynamic = elf.dynamic();
        self.optional(format_args!("dynamic"), dynamic.map(|found| found.map(|table| table.as_bytes())));
        if let Ok(Some(table)) = dynamic {
            self.dynamic(elf, "dynamic", table);
        }
        names
    }

    fn symbols(
        &mut self,
        elf: &Elf<'file>,
        table: &str,
        symbols: SymbolTable<'file, AnyEndian>,
        strings: StringTable<'file>,
    ) -> Vec<&'file [u8]> {
        let mut names = Vec::new();
        for i in probes(symbols.len(), Symbol::size_for(elf.ehdr.class), self.full) {
            let symbol = symbols.get(i);
            self.answer(format_args!("{table}[{i}]"), symbol.as_ref().map(symbol_values).map_err(|fault| *fault));
            let Ok(symbol) = symbol else { continue };
            let name = strings.get_raw(symbol.st_name as usize);
            self.answer(format_args!("{table}[{i}].name"), name);
            self.answer(format_args!("{table}[{i}].utf8"), strings.get(symbol.st_name as usize));
            if self.full || names.len() < LOOKED_UP {
                names.extend(name.ok());
            }
        }
        self.line(format_args!("{table}.walk"), walked(symbols.iter(), symbol_values));
        self.strings(&format!("{table}str"), strings);
        names
    }

    fn dynamic(&mut self, elf: &Elf<'file>, name: &str, table: DynamicTable<'file, AnyEndian>) {
        for i in probes(table.len(), Dyn::size_for(elf.ehdr.class), self.full) {
            self.answer(format_args!("{name}[{i}]"), table.get(i));
        }
        self.line(format_args!("{name}.walk"), walked(table.iter(), dyn_values));
    }

    fn common(&mut self, elf: &Elf<'file>, names: &[&'file [u8]]) {
        let common = elf.find_common_data();
        self.answer(format_args!("common"), common.as_ref().map(common_values).map_err(|fault| *fault));
        let Ok(common) = common else { return };
        if let Some(table) = common.dynamic {
            let first = elf.dynamic().ok().flatten();
            if first.map(|first| first.as_bytes().as_ptr_range()) != Some(table.as_bytes().as_ptr_range()) {
                self.dynamic(elf, "cdynamic", table);
            }
        }
        if let (Some(hash), Some(symbols), Some(strings)) = (common.sysv_hash, common.dynsyms, common.dynsyms_strs) {
            for name in names {
                let found = hash.find(name, &symbols, &strings).map(|found| found.map(|(number, _)| number));
                self.optional(format_args!("hash.find {}", Hex(name)), found);
            }
        }
    }
}

fn ranges<'file>((symbols, strings): SymbolsAndStrings<'file, AnyEndian>) -> (&'file [u8], &'file [u8]) {
    (symbols.as_bytes(), strings.as_bytes())
}

fn hash_counts(elf: &Elf<'_>, header: &SectionHeader) -> Result<[u64; 2], ParseError> {
    let (data, _) = elf.section_data(header)?;
    let counts = SysVHashTable::new(elf.ehdr.endianness, elf.ehdr.class, data)?.header();
    Ok([counts.nbucket.into(), counts.nchain.into()])
}

fn common_values<'file>(common: &CommonElfData<'file, AnyEndian>) -> impl Values + use<'file> {
    let symbols = common.symtab.zip(common.symtab_strs).map(ranges);
    let dynamic_symbols = common.dynsyms.zip(common.dynsyms_strs).map(ranges);
    let dynamic = common.dynamic.map(|table| table.as_bytes());
    let hash = common.sysv_hash.map(|table| table.as_bytes());
    let tables = (Named("symtab", symbols), Named("dynsym", dynamic_symbols));
    (tables, (Named("dynamic", dynamic), Named("hash", hash)))
}
