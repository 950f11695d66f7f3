//! The header of a file.

use crate::abi;
use crate::endian::EndianParse;

/// Whether a file is a 32-bit or a 64-bit one.
#[derive(Clone, Copy, Debug, PartialEq, Eq)]
pub enum Class {
    ELF32,
    ELF64,
}

impl Class {
    /// The archive's number for a class, which is the format's.
    #[inline]
    pub(crate) fn number(self) -> u8 {
        match self {
            Class::ELF32 => abi::ELFCLASS32,
            Class::ELF64 => abi::ELFCLASS64,
        }
    }
}

/// The fields of the file header, in the format's meaning.
#[derive(Clone, Copy, Debug, PartialEq, Eq)]
pub struct FileHeader<E: EndianParse> {
    pub class: Class,
    pub endianness: E,
    /// The version word behind the identification; nothing asks that it is 1.
    pub version: u32,
    pub osabi: u8,
    pub abiversion: u8,
    pub e_type: u16,
    pub e_machine: u16,
    pub e_entry: u64,
    pub e_phoff: u64,
    pub e_shoff: u64,
    pub e_flags: u32,
    pub e_ehsize: u16,
    pub e_phentsize: u16,
    pub e_phnum: u16,
    pub e_shentsize: u16,
    pub e_shnum: u16,
    pub e_shstrndx: u16,
}

impl<E: EndianParse> FileHeader<E> {
    /// The header from what the archive answers on opening; the order was tested by the caller.
    #[inline]
    pub(crate) fn of(values: &[u64; 23], endianness: E) -> Self {
        FileHeader {
            class: if values[0] == u64::from(abi::ELFCLASS32) { Class::ELF32 } else { Class::ELF64 },
            endianness,
            osabi: values[2] as u8,
            abiversion: values[3] as u8,
            version: values[4] as u32,
            e_type: values[5] as u16,
            e_machine: values[6] as u16,
            e_entry: values[7],
            e_phoff: values[8],
            e_shoff: values[9],
            e_flags: values[10] as u32,
            e_ehsize: values[11] as u16,
            e_phentsize: values[12] as u16,
            e_phnum: values[13] as u16,
            e_shentsize: values[14] as u16,
            e_shnum: values[15] as u16,
            e_shstrndx: values[16] as u16,
        }
    }
}
