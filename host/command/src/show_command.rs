//! `loadplan show`: header, segments, sections, symbols and dynamic entries for people.
//!
//! Names from the file are shown with their control characters made visible, so that no file writes to the terminal what it
//! likes.

use std::io::Write;

use loadplan::endian::AnyEndian;
use loadplan::file::Class;
use loadplan::section::SectionHeader;
use loadplan::segment::ProgramHeader;
use loadplan::string_table::StringTable;
use loadplan::symbol::Symbol;
use loadplan::{abi, ElfBytes, ParseError, SymbolsAndStrings};

use crate::arguments::Arguments;
use crate::names::{self, name, with_number};
use crate::picture::protection;
use crate::{read, Fault, Verdict};

pub const HELP: &str = "\
usage: loadplan show FILE

Shows header, segments, sections, symbols and dynamic entries, with the names of types beside their numbers. Addresses,
offsets and sizes are hexadecimal, except the sizes of symbols. Of a name at most 256 bytes are shown, then three dots.

Exit status: 0; 1 the file or a table in it is refused (the number stands there); 2 wrong use or a file that cannot be read.
";

type Elf<'file> = ElfBytes<'file, AnyEndian>;

/// How many bytes of a name are shown: a file can have thousands of names, each nearly as long as the file.
const SHOWN_BYTES: usize = 256;

pub fn run(arguments: Arguments, output: &mut dyn Write) -> Result<Verdict, Fault> {
    let path = arguments.one_file()?;
    let file = read(&path)?;
    let elf = match Elf::minimal_parse(&file) {
        Ok(elf) => elf,
        Err(fault) => {
            eprintln!("{}: refused, {}: {fault}", path.display(), fault.number());
            return Ok(Verdict::Refused);
        }
    };
    let mut shown = Shown { output, verdict: Verdict::Accepted };
    shown.header(&elf)?;
    shown.segments(&elf)?;
    shown.sections(&elf)?;
    shown.symbols("symbols", elf.symbol_table())?;
    shown.symbols("dynamic symbols", elf.dynamic_symbol_table())?;
    shown.dynamic(&elf)?;
    Ok(shown.verdict)
}

/// A name as it may be written to a terminal.
fn visible(name: &[u8]) -> String {
    let text = String::from_utf8_lossy(name);
    text.chars()
        .flat_map(|letter| if letter.is_control() { letter.escape_default().collect() } else { vec![letter] })
        .collect()
}

/// A name, or why it cannot be read.
fn name_or_refusal(name: Result<&[u8], ParseError>) -> String {
    name.map_or_else(|fault| format!("<refused, {}>", fault.number()), visible)
}

/// The strings of a table as they are shown. Where the last zero byte stands is found once, so that no name is searched for its end.
#[derive(Clone, Copy)]
struct Names<'file> {
    strings: StringTable<'file>,
    last_zero: Option<usize>,
}

impl<'file> Names<'file> {
    fn new(strings: StringTable<'file>) -> Self {
        Names { strings, last_zero: strings.as_bytes().iter().rposition(|byte| *byte == 0) }
    }

    /// The string at an offset, cut if it is long, or why there is none.
    fn at(self, offset: u64) -> String {
        let (bytes, offset) = (self.strings.as_bytes(), offset as usize);
        let Some(last) = self.last_zero.filter(|last| offset <= *last) else {
            // From no offset behind the last zero byte to the table's end is there a string: all are refused as that end is.
            return name_or_refusal(self.strings.get_raw(offset.max(bytes.len())));
        };
        let end = last.min(offset + SHOWN_BYTES);
        match StringTable::new(&bytes[..=end]).get_raw(offset) {
            Err(_) => format!("{}...", visible(&bytes[offset..end])),
            name => name_or_refusal(name),
        }
    }
}

/// The string at an offset, if there are strings.
fn named(names: Option<Names<'_>>, offset: u64) -> String {
    names.map_or_else(String::new, |names| names.at(offset))
}

struct Shown<'output> {
    output: &'output mut dyn Write,
    verdict: Verdict,
}

impl Shown<'_> {
    fn refused(&mut self, what: &str, fault: ParseError) -> Result<(), Fault> {
        self.verdict = Verdict::Refused;
        writeln!(self.output, "\n{what}: refused, {}: {fault}", fault.number())?;
        Ok(())
    }

    fn header(&mut self, elf: &Elf<'_>) -> Result<(), Fault> {
        let header = &elf.ehdr;
        let class = if header.class == Class::ELF32 { 1 } else { 2 };
        let order = if header.endianness == AnyEndian::Little { 1 } else { 2 };
        let lines: [(&str, String); 17] = [
            ("class", with_number(names::CLASSES, class)),
            ("byte order", with_number(names::BYTE_ORDERS, order)),
            ("OS/ABI", with_number(names::OS_ABIS, header.osabi.into())),
            ("ABI version", header.abiversion.to_string()),
            ("type", with_number(names::FILE_TYPES, header.e_type.into())),
            ("machine", with_number(names::MACHINES, header.e_machine.into())),
            ("version", format!("{:#x}", header.version)),
            ("entry point", format!("{:#x}", header.e_entry)),
            ("program headers at", header.e_phoff.to_string()),
            ("section headers at", header.e_shoff.to_string()),
            ("flags", format!("{:#x}", header.e_flags)),
            ("header size", header.e_ehsize.to_string()),
            ("program header size", header.e_phentsize.to_string()),
            ("program headers", count(header.e_phnum, elf.segments().map(|table| table.len()))),
            ("section header size", header.e_shentsize.to_string()),
            ("section headers", count(header.e_shnum, elf.section_headers().map(|table| table.len()))),
            ("section of names", count(header.e_shstrndx, section_of_names(elf))),
        ];
        writeln!(self.output, "header")?;
        for (what, value) in lines {
            writeln!(self.output, "  {what:<20} {value}")?;
        }
        Ok(())
    }

    fn segments(&mut self, elf: &Elf<'_>) -> Result<(), Fault> {
        let Some(table) = elf.segments() else {
            writeln!(self.output, "\nno segments")?;
            return Ok(());
        };
        writeln!(self.output, "\nsegments: {}", table.len())?;
        writeln!(
            self.output,
            "  {:>4} {:>8} {:<13} {:>8} {:>16} {:>16} {:>8} {:>8} prot {:>8}",
            "nr", "type", "", "offset", "address", "physical", "in file", "memory", "align"
        )?;
        for (number, segment) in table.iter().enumerate() {
            let ProgramHeader { p_type, p_offset, p_vaddr, p_paddr, p_filesz, p_memsz, p_flags, p_align } = segment;
            let (kind, flags) = (name(names::SEGMENT_TYPES, p_type.into()), protection(p_flags.into()));
            writeln!(
                self.output,
                "  {number:>4} {p_type:>8x} {kind:<13} {p_offset:>8x} {p_vaddr:>16x} {p_paddr:>16x} {p_filesz:>8x} \
                 {p_memsz:>8x} {flags}  {p_align:>8x}"
            )?;
        }
        Ok(())
    }

    fn sections(&mut self, elf: &Elf<'_>) -> Result<(), Fault> {
        let names = match elf.section_headers_with_strtab() {
            Ok((_, names)) => names.map(Names::new),
            Err(fault) => {
                self.refused("section names", fault)?;
                None
            }
        };
        let Some(table) = elf.section_headers() else {
            writeln!(self.output, "\nno sections")?;
            return Ok(());
        };
        writeln!(self.output, "\nsections: {}", table.len())?;
        writeln!(
            self.output,
            "  {:>4} {:>8} {:<14} {:>16} {:>8} {:>8} {:>3} {:<5} {:>4} {:>4} {:>4} name",
            "nr", "type", "", "address", "offset", "size", "es", "flags", "link", "info", "al"
        )?;
        for (number, section) in table.iter().enumerate() {
            let SectionHeader { sh_type, sh_addr, sh_offset, sh_size, sh_entsize, sh_link, sh_info, .. } = section;
            let (kind, flags) = (name(names::SECTION_TYPES, sh_type.into()), names::section_flags(section.sh_flags));
            let (align, name) = (section.sh_addralign, named(names, section.sh_name.into()));
            let flags = if flags.is_empty() { "-" } else { &flags };
            writeln!(
                self.output,
                "  {number:>4} {sh_type:>8x} {kind:<14} {sh_addr:>16x} {sh_offset:>8x} {sh_size:>8x} {sh_entsize:>3x} \
                 {flags:<5} {sh_link:>4} {sh_info:>4} {align:>4} {name}"
            )?;
        }
        Ok(())
    }

    fn symbols(
        &mut self,
        what: &str,
        found: Result<Option<SymbolsAndStrings<'_, AnyEndian>>, ParseError>,
    ) -> Result<(), Fault> {
        let (symbols, strings) = match found {
            Ok(Some(found)) => found,
            Ok(None) => return Ok(writeln!(self.output, "\nno {what}")?),
            Err(fault) => return self.refused(what, fault),
        };
        writeln!(self.output, "\n{what}: {}", symbols.len())?;
        writeln!(
            self.output,
            "  {:>6} {:>16} {:>8}  {:<9} {:<9} {:<11} {:>7} name",
            "nr", "value", "size", "type", "binding", "visibility", "section"
        )?;
        let names_of_symbols = Names::new(strings);
        for (number, symbol) in symbols.iter().enumerate() {
            let Symbol { st_value, st_size, .. } = symbol;
            let kind = with_number(names::SYMBOL_TYPES, symbol.st_symtype().into());
            let binding = with_number(names::SYMBOL_BINDINGS, symbol.st_bind().into());
            let visibility = with_number(names::VISIBILITIES, symbol.st_vis().into());
            let section = names::symbol_section(symbol.st_shndx);
            let name = names_of_symbols.at(symbol.st_name.into());
            writeln!(
                self.output,
                "  {number:>6} {st_value:>16x} {st_size:>8}  {kind:<9} {binding:<9} {visibility:<11} {section:>7} {name}"
            )?;
        }
        Ok(())
    }

    fn dynamic(&mut self, elf: &Elf<'_>) -> Result<(), Fault> {
        let table = match elf.dynamic() {
            Ok(Some(table)) => table,
            Ok(None) => return Ok(writeln!(self.output, "\nno dynamic entries")?),
            Err(fault) => return self.refused("dynamic entries", fault),
        };
        let strings = dynamic_strings(elf).map(Names::new);
        // The format ends the entries at the first NULL; a table may be longer.
        let end = table.iter().position(|entry| entry.d_tag == abi::DT_NULL).map_or(table.len(), |last| last + 1);
        writeln!(self.output, "\ndynamic entries: {end}")?;
        for entry in table.iter().take(end) {
            let (tag, value) = (entry.d_tag as u64, entry.d_val());
            let string = match names::DYNAMIC_STRINGS.contains(&entry.d_tag) && strings.is_some() {
                true => format!(" {}", named(strings, value)),
                false => String::new(),
            };
            writeln!(self.output, "  {tag:>8x} {:<15} {value:>16x}{string}", name(names::DYNAMIC_TAGS, tag))?;
        }
        Ok(())
    }
}

/// The header's count, and what it stands for if that is another number.
fn count(in_header: u16, there: Option<usize>) -> String {
    match there {
        Some(there) if there != usize::from(in_header) => format!("{in_header} ({there})"),
        _ => in_header.to_string(),
    }
}

/// The section that has the names, where the header only says that section header 0 knows.
fn section_of_names(elf: &Elf<'_>) -> Option<usize> {
    match elf.ehdr.e_shstrndx {
        abi::SHN_XINDEX => Some(elf.section_headers()?.get(0).ok()?.sh_link as usize),
        _ => None,
    }
}

/// The strings of the dynamic entries, from the section that the dynamic section names.
fn dynamic_strings<'file>(elf: &Elf<'file>) -> Option<StringTable<'file>> {
    let sections = elf.section_headers()?;
    let dynamic = sections.iter().find(|section| section.sh_type == abi::SHT_DYNAMIC)?;
    let strings = sections.get(dynamic.sh_link as usize).ok()?;
    elf.section_data_as_strtab(&strings).ok()
}
