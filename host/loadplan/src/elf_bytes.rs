//! A whole file, and the questions that are asked of it.
//!
//! Every question goes to the archive with all bytes of the file: nothing that was found before is believed, so a value of
//! these types can be made of any bytes without harm.

use crate::compression::CompressionHeader;
use crate::dynamic::DynamicTable;
use crate::endian::EndianParse;
use crate::file::FileHeader;
use crate::hash::SysVHashTable;
use crate::parse::ParseError;
use crate::part;
use crate::relocation::{RelIterator, RelaIterator};
use crate::section::{SectionHeader, SectionHeaderTable};
use crate::segment::{ProgramHeader, SegmentTable};
use crate::string_table::StringTable;
use crate::symbol::SymbolTable;
use crate::sys;

/// How long the identification at the front of a file is.
const IDENTIFICATION: usize = 16;
/// Where in the identification the byte order stands.
const BYTE_ORDER: usize = 5;

/// A file that was opened: its header was read, and its two tables of headers lie in it.
#[derive(Debug)]
pub struct ElfBytes<'data, E: EndianParse> {
    pub ehdr: FileHeader<E>,
    data: &'data [u8],
    sections: Option<SectionHeaderTable<'data, E>>,
    segments: Option<SegmentTable<'data, E>>,
}

/// The tables that most callers want: each the last of its kind.
#[derive(Debug)]
pub struct CommonElfData<'data, E: EndianParse> {
    /// Sections of type 2, with their strings.
    pub symtab: Option<SymbolTable<'data, E>>,
    pub symtab_strs: Option<StringTable<'data>>,
    /// Sections of type 11, with their strings.
    pub dynsyms: Option<SymbolTable<'data, E>>,
    pub dynsyms_strs: Option<StringTable<'data>>,
    /// Sections of type 6; without one, the first segment of type 2.
    pub dynamic: Option<DynamicTable<'data, E>>,
    /// Sections of type 5.
    pub sysv_hash: Option<SysVHashTable<'data, E>>,
}

/// A symbol table and the strings that its names stand in.
pub type SymbolsAndStrings<'data, E> = (SymbolTable<'data, E>, StringTable<'data>);

impl<'data, E: EndianParse> ElfBytes<'data, E> {
    /// Opens a file. What is refused, and in which order, is in include/loadplan.h; a byte order that `E` does not read is
    /// refused with 3 before anything behind the identification is looked at.
    // Inlined, like the walk for common data: else the whole header is copied twice for a caller who asks for little of it.
    #[inline(always)]
    pub fn minimal_parse(data: &'data [u8]) -> Result<Self, ParseError> {
        let values = sys::open(data).map_err(|refusal| refused_opening::<E>(data, refusal.into()))?;
        let endian = E::from_ei_data(values[1] as u8)?;
        let ehdr = FileHeader::of(&values, endian);
        let sections = optional(data, &values[17..20])?.map(|bytes| SectionHeaderTable::new(endian, ehdr.class, bytes));
        let segments = optional(data, &values[20..23])?.map(|bytes| SegmentTable::new(endian, ehdr.class, bytes));
        Ok(ElfBytes { ehdr, data, sections, segments })
    }

    /// The bytes of the file.
    pub fn as_bytes(&self) -> &'data [u8] {
        self.data
    }

    /// The program headers; `None` if the file has no table of them. A table may be empty.
    pub fn segments(&self) -> Option<SegmentTable<'data, E>> {
        self.segments
    }

    /// The section headers; `None` if the file has no table of them. A table may be empty.
    pub fn section_headers(&self) -> Option<SectionHeaderTable<'data, E>> {
        self.sections
    }

    /// The section headers, and the strings that hold their names if the file says which.
    #[allow(clippy::type_complexity)]
    pub fn section_headers_with_strtab(
        &self,
    ) -> Result<(Option<SectionHeaderTable<'data, E>>, Option<StringTable<'data>>), ParseError> {
        let names = optional(self.data, &sys::name_table(self.data)?)?.map(StringTable::new);
        Ok((self.sections, names))
    }

    /// The header of the first section with that name. Sections whose name cannot be read are passed over.
    pub fn section_header_by_name(&self, name: &str) -> Result<Option<SectionHeader>, ParseError> {
        match self.section_number_by_name(name)? {
            Some(number) => Ok(Some(self.section_header(number)?)),
            None => Ok(None),
        }
    }

    /// The number of that section.
    pub fn section_number_by_name(&self, name: &str) -> Result<Option<usize>, ParseError> {
        let [there, number] = sys::section_by_name(self.data, name.as_bytes())?;
        Ok((there != 0).then_some(number as usize))
    }

    fn section_header(&self, number: usize) -> Result<SectionHeader, ParseError> {
        match self.sections {
            Some(sections) => sections.get(number),
            None => Err(ParseError::BadOffset(crate::parse::Details)),
        }
    }

    /// The bytes of a section; none for type 8. The flag for compressed data is ignored, so there is never a header.
    pub fn section_data(&self, shdr: &SectionHeader) -> Result<(&'data [u8], Option<CompressionHeader>), ParseError> {
        let [from, to] = sys::section_data(self.data, shdr.sh_type, shdr.sh_offset, shdr.sh_size)?;
        Ok((part(self.data, from, to)?, None))
    }

    /// A section as strings; refused with 8 unless its type is 3.
    pub fn section_data_as_strtab(&self, shdr: &SectionHeader) -> Result<StringTable<'data>, ParseError> {
        let [from, to] = sys::section_strings(self.data, shdr.sh_type, shdr.sh_offset, shdr.sh_size)?;
        Ok(StringTable::new(part(self.data, from, to)?))
    }

    /// A section as relocations without addends; refused with 8 unless its type is 9.
    pub fn section_data_as_rels(&self, shdr: &SectionHeader) -> Result<RelIterator<'data, E>, ParseError> {
        let [from, to] = sys::section_rels(self.data, shdr.sh_type, shdr.sh_offset, shdr.sh_size)?;
        Ok(RelIterator::new(self.ehdr.endianness, self.ehdr.class, part(self.data, from, to)?))
    }

    /// A section as relocations with addends; refused with 8 unless its type is 4.
    pub fn section_data_as_relas(&self, shdr: &SectionHeader) -> Result<RelaIterator<'data, E>, ParseError> {
        let [from, to] = sys::section_relas(self.data, shdr.sh_type, shdr.sh_offset, shdr.sh_size)?;
        Ok(RelaIterator::new(self.ehdr.endianness, self.ehdr.class, part(self.data, from, to)?))
    }

    /// A section as dynamic entries; refused with 8 unless its type is 6, with 7 unless its entry size is the format's.
    pub fn section_data_as_dynamic(&self, shdr: &SectionHeader) -> Result<DynamicTable<'data, E>, ParseError> {
        let SectionHeader { sh_type, sh_offset, sh_size, sh_entsize, .. } = *shdr;
        let [from, to] = sys::section_dynamic(self.data, sh_type, sh_offset, sh_size, sh_entsize)?;
        Ok(self.dynamic_entries(part(self.data, from, to)?))
    }

    /// A section as symbols, with the strings of the section that its link field names.
    pub fn section_data_as_symbols(&self, shdr: &SectionHeader) -> Result<SymbolsAndStrings<'data, E>, ParseError> {
        let SectionHeader { sh_offset, sh_size, sh_link, sh_entsize, .. } = *shdr;
        let found = sys::section_symbols(self.data, sh_offset, sh_size, sh_link, sh_entsize)?;
        self.symbols_and_strings(&found)
    }

    /// The bytes of a segment that stand in the file.
    pub fn segment_data(&self, phdr: &ProgramHeader) -> Result<&'data [u8], ParseError> {
        let [from, to] = sys::segment_data(self.data, phdr.p_offset, phdr.p_filesz)?;
        part(self.data, from, to)
    }

    /// The first section of type 2 as symbols.
    pub fn symbol_table(&self) -> Result<Option<SymbolsAndStrings<'data, E>>, ParseError> {
        self.optional_symbols(&sys::symbol_table(self.data)?)
    }

    /// The first section of type 11 as symbols.
    pub fn dynamic_symbol_table(&self) -> Result<Option<SymbolsAndStrings<'data, E>>, ParseError> {
        self.optional_symbols(&sys::dynamic_symbol_table(self.data)?)
    }

    /// The dynamic entries: of the first section of type 6 if there are sections, else of the first segment of type 2.
    pub fn dynamic(&self) -> Result<Option<DynamicTable<'data, E>>, ParseError> {
        let found = sys::dynamic(self.data)?;
        Ok(optional(self.data, &found)?.map(|bytes| self.dynamic_entries(bytes)))
    }

    /// Symbol tables, dynamic entries and hash table, found in one walk; any fault among them is the answer.
    #[inline(always)]
    pub fn find_common_data(&self) -> Result<CommonElfData<'data, E>, ParseError> {
        let found = sys::common(self.data)?;
        let (symtab, symtab_strs) = self.optional_symbols(&found[0..5])?.unzip();
        let (dynsyms, dynsyms_strs) = self.optional_symbols(&found[5..10])?.unzip();
        let dynamic = optional(self.data, &found[10..13])?.map(|bytes| self.dynamic_entries(bytes));
        let sysv_hash = match optional(self.data, &found[13..16])? {
            Some(bytes) => Some(SysVHashTable::new(self.ehdr.endianness, self.ehdr.class, bytes)?),
            None => None,
        };
        Ok(CommonElfData { symtab, symtab_strs, dynsyms, dynsyms_strs, dynamic, sysv_hash })
    }

    #[inline]
    fn dynamic_entries(&self, bytes: &'data [u8]) -> DynamicTable<'data, E> {
        DynamicTable::new(self.ehdr.endianness, self.ehdr.class, bytes)
    }

    /// Symbols and strings from two ranges.
    #[inline]
    fn symbols_and_strings(&self, found: &[u64]) -> Result<SymbolsAndStrings<'data, E>, ParseError> {
        let symbols = part(self.data, found[0], found[1])?;
        let strings = part(self.data, found[2], found[3])?;
        Ok((SymbolTable::new(self.ehdr.endianness, self.ehdr.class, symbols), StringTable::new(strings)))
    }

    /// The same behind a value that says whether they are there.
    #[inline]
    fn optional_symbols(&self, found: &[u64]) -> Result<Option<SymbolsAndStrings<'data, E>>, ParseError> {
        match found[0] {
            0 => Ok(None),
            _ => self.symbols_and_strings(&found[1..]).map(Some),
        }
    }
}

/// The refusal of a file that was not opened, for a caller who reads the orders of `E`: where the archive has got past the
/// identification, an order that `E` does not read comes first.
#[cold]
fn refused_opening<E: EndianParse>(data: &[u8], refusal: ParseError) -> ParseError {
    let within_identification = data.len() < IDENTIFICATION
        || matches!(
            refusal,
            ParseError::BadMagic(_) | ParseError::UnsupportedVersion(_) | ParseError::UnsupportedElfClass(_)
        );
    if within_identification {
        return refusal;
    }
    match E::from_ei_data(data[BYTE_ORDER]) {
        Ok(_) => refusal,
        Err(unread) => unread,
    }
}

/// The bytes of a range behind a value that says whether it is there.
#[inline]
fn optional<'data>(data: &'data [u8], found: &[u64]) -> Result<Option<&'data [u8]>, ParseError> {
    match found[0] {
        0 => Ok(None),
        _ => part(data, found[1], found[2]).map(Some),
    }
}
