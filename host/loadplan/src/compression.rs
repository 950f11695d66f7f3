//! The header in front of a compressed section's data.
//!
//! No question answers with one yet: the flag for compressed data is ignored. The type is here for the shape of
//! [ElfBytes::section_data](crate::ElfBytes::section_data), which is that of the crate elf.

/// What stands in front of compressed data.
#[derive(Clone, Copy, Debug, PartialEq, Eq)]
pub struct CompressionHeader {
    pub ch_type: u32,
    pub ch_size: u64,
    pub ch_addralign: u64,
}
