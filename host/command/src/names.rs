//! Names of the format's numbers, as people know them from readelf.
//!
//! A table is a list of numbers and names; a number that is in no table is shown as `?`. Tables name what common tools
//! write, not every number that was ever given out.

type Names = &'static [(u64, &'static str)];

/// The name of a number.
pub fn name(names: Names, number: u64) -> &'static str {
    names.iter().find(|(known, _)| *known == number).map_or("?", |(_, name)| name)
}

/// A number and its name.
pub fn with_number(names: Names, number: u64) -> String {
    format!("{number} {}", name(names, number))
}

pub const CLASSES: Names = &[(1, "ELF32"), (2, "ELF64")];

pub const BYTE_ORDERS: Names = &[(1, "lowest byte first"), (2, "highest byte first")];

pub const OS_ABIS: Names = &[
    (0, "UNIX - System V"),
    (1, "UNIX - HP-UX"),
    (2, "UNIX - NetBSD"),
    (3, "UNIX - GNU"),
    (6, "UNIX - Solaris"),
    (9, "UNIX - FreeBSD"),
    (12, "UNIX - OpenBSD"),
    (97, "ARM"),
    (255, "Standalone App"),
];

pub const FILE_TYPES: Names = &[(0, "NONE"), (1, "REL"), (2, "EXEC"), (3, "DYN"), (4, "CORE")];

pub const MACHINES: Names = &[
    (0, "None"),
    (2, "Sparc"),
    (3, "Intel 80386"),
    (4, "MC68000"),
    (8, "MIPS R3000"),
    (15, "HPPA"),
    (20, "PowerPC"),
    (21, "PowerPC64"),
    (22, "IBM S/390"),
    (40, "ARM"),
    (42, "Renesas / SuperH SH"),
    (43, "Sparc v9"),
    (62, "Advanced Micro Devices X86-64"),
    (183, "AArch64"),
    (243, "RISC-V"),
    (247, "Linux BPF"),
    (258, "LoongArch"),
];

pub const SEGMENT_TYPES: Names = &[
    (0, "NULL"),
    (1, "LOAD"),
    (2, "DYNAMIC"),
    (3, "INTERP"),
    (4, "NOTE"),
    (5, "SHLIB"),
    (6, "PHDR"),
    (7, "TLS"),
    (0x6474_e550, "GNU_EH_FRAME"),
    (0x6474_e551, "GNU_STACK"),
    (0x6474_e552, "GNU_RELRO"),
    (0x6474_e553, "GNU_PROPERTY"),
    (0x6474_e554, "GNU_SFRAME"),
];

pub const SECTION_TYPES: Names = &[
    (0, "NULL"),
    (1, "PROGBITS"),
    (2, "SYMTAB"),
    (3, "STRTAB"),
    (4, "RELA"),
    (5, "HASH"),
    (6, "DYNAMIC"),
    (7, "NOTE"),
    (8, "NOBITS"),
    (9, "REL"),
    (10, "SHLIB"),
    (11, "DYNSYM"),
    (14, "INIT_ARRAY"),
    (15, "FINI_ARRAY"),
    (16, "PREINIT_ARRAY"),
    (17, "GROUP"),
    (18, "SYMTAB SECTION INDICES"),
    (19, "RELR"),
    (0x6fff_fff5, "GNU_ATTRIBUTES"),
    (0x6fff_fff6, "GNU_HASH"),
    (0x6fff_fff7, "GNU_LIBLIST"),
    (0x6fff_fffd, "VERDEF"),
    (0x6fff_fffe, "VERNEED"),
    (0x6fff_ffff, "VERSYM"),
];

/// Letters of section flags, by bit; those of a system or a processor have one letter together.
const SECTION_FLAGS: Names = &[
    (0x1, "W"),
    (0x2, "A"),
    (0x4, "X"),
    (0x10, "M"),
    (0x20, "S"),
    (0x40, "I"),
    (0x80, "L"),
    (0x100, "O"),
    (0x200, "G"),
    (0x400, "T"),
    (0x800, "C"),
    (0x8000_0000, "E"),
];
const OF_A_SYSTEM: u64 = 0x0ff0_0000;
const OF_A_PROCESSOR: u64 = 0xf000_0000;

/// The letters of a section's flags; each of `o`, `p` and `x` (unknown) stands once, behind those that are known.
pub fn section_flags(flags: u64) -> String {
    let bits = (0..64).map(|bit| 1u64 << bit).filter(|bit| flags & bit != 0);
    let (mut known, mut others) = (String::new(), String::new());
    for bit in bits {
        match SECTION_FLAGS.iter().find(|(flag, _)| *flag == bit) {
            Some((_, letter)) => known.push_str(letter),
            None => {
                let letter = match bit {
                    _ if bit & OF_A_SYSTEM != 0 => 'o',
                    _ if bit & OF_A_PROCESSOR != 0 => 'p',
                    _ => 'x',
                };
                if !others.contains(letter) {
                    others.push(letter);
                }
            }
        }
    }
    known + &others
}

pub const SYMBOL_TYPES: Names =
    &[(0, "NOTYPE"), (1, "OBJECT"), (2, "FUNC"), (3, "SECTION"), (4, "FILE"), (5, "COMMON"), (6, "TLS"), (10, "IFUNC")];

pub const SYMBOL_BINDINGS: Names = &[(0, "LOCAL"), (1, "GLOBAL"), (2, "WEAK"), (10, "UNIQUE")];

pub const VISIBILITIES: Names = &[(0, "DEFAULT"), (1, "INTERNAL"), (2, "HIDDEN"), (3, "PROTECTED")];

/// A symbol's section: a number, or what a special one stands for.
pub fn symbol_section(index: u16) -> String {
    match index {
        0 => String::from("UND"),
        0xfff1 => String::from("ABS"),
        0xfff2 => String::from("COM"),
        number => number.to_string(),
    }
}

pub const DYNAMIC_TAGS: Names = &[
    (0, "NULL"),
    (1, "NEEDED"),
    (2, "PLTRELSZ"),
    (3, "PLTGOT"),
    (4, "HASH"),
    (5, "STRTAB"),
    (6, "SYMTAB"),
    (7, "RELA"),
    (8, "RELASZ"),
    (9, "RELAENT"),
    (10, "STRSZ"),
    (11, "SYMENT"),
    (12, "INIT"),
    (13, "FINI"),
    (14, "SONAME"),
    (15, "RPATH"),
    (16, "SYMBOLIC"),
    (17, "REL"),
    (18, "RELSZ"),
    (19, "RELENT"),
    (20, "PLTREL"),
    (21, "DEBUG"),
    (22, "TEXTREL"),
    (23, "JMPREL"),
    (24, "BIND_NOW"),
    (25, "INIT_ARRAY"),
    (26, "FINI_ARRAY"),
    (27, "INIT_ARRAYSZ"),
    (28, "FINI_ARRAYSZ"),
    (29, "RUNPATH"),
    (30, "FLAGS"),
    (32, "PREINIT_ARRAY"),
    (33, "PREINIT_ARRAYSZ"),
    (35, "RELRSZ"),
    (36, "RELR"),
    (37, "RELRENT"),
    (0x6fff_fef5, "GNU_HASH"),
    (0x6fff_fff0, "VERSYM"),
    (0x6fff_fff9, "RELACOUNT"),
    (0x6fff_fffa, "RELCOUNT"),
    (0x6fff_fffb, "FLAGS_1"),
    (0x6fff_fffc, "VERDEF"),
    (0x6fff_fffd, "VERDEFNUM"),
    (0x6fff_fffe, "VERNEED"),
    (0x6fff_ffff, "VERNEEDNUM"),
];

/// Dynamic entries whose value is the place of a string.
pub const DYNAMIC_STRINGS: [i64; 4] = [1, 14, 15, 29];
