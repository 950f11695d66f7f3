//! The crate in the hands of a program that was written for elf: only the name behind `use` is another.

use std::fs;
use std::path::Path;

use loadplan as elf;

use elf::abi;
use elf::dynamic::{Dyn, DynamicTable};
use elf::endian::{AnyEndian, BigEndian, EndianParse, LittleEndian, NativeEndian};
use elf::file::Class;
use elf::hash::{sysv_hash, SysVHashTable};
use elf::parse::{ParseAt, ParsingTable};
use elf::section::SectionHeader;
use elf::segment::ProgramHeader;
use elf::string_table::StringTable;
use elf::symbol::{Symbol, SymbolTable};
use elf::{ElfBytes, ParseError};

fn corpus(name: &str) -> Vec<u8> {
    let folder = Path::new(env!("CARGO_MANIFEST_DIR")).join("../../tests/corpus/made");
    fs::read(folder.join(name)).unwrap_or_else(|fault| panic!("{name}: {fault}"))
}

const LIBRARIES: [&str; 4] = ["x86-64-library.so", "i386-library.so", "powerpc-library.so", "powerpc64-library.so"];

#[test]
fn symbols_of_a_library_are_found_by_name_and_by_hash() {
    for name in LIBRARIES {
        let data = corpus(name);
        let file = ElfBytes::<AnyEndian>::minimal_parse(&data).expect("it is opened");
        let common = file.find_common_data().expect("its tables are in order");
        let (symbols, strings) = (common.dynsyms.expect("it has some"), common.dynsyms_strs.expect("they have names"));
        let hash = common.sysv_hash.expect("it has a hash table");
        for wanted in ["alpha", "beta", "delta", "exported_word", "from_elsewhere"] {
            let (number, symbol) =
                hash.find(wanted.as_bytes(), &symbols, &strings).expect("it can be read").expect("it is there");
            assert_eq!(strings.get(symbol.st_name as usize), Ok(wanted));
            assert_eq!(symbols.get(number), Ok(symbol));
            assert_eq!(symbol.is_undefined(), wanted == "from_elsewhere");
        }
        assert_eq!(hash.find(b"no_such_name", &symbols, &strings), Ok(None));
        let named = |symbol: Symbol| {
            strings.get(symbol.st_name as usize) == Ok("alpha") && symbol.st_symtype() == abi::STT_FUNC
        };
        assert_eq!(symbols.iter().filter(|&symbol| named(symbol)).count(), 1);
    }
}

/// Symbols by their numbers, by a walk one by one and folded, and by a batch of plain rows: four ways through the archive.
#[test]
fn every_way_to_the_symbols_is_the_same() {
    for name in LIBRARIES {
        let data = corpus(name);
        let file = ElfBytes::<AnyEndian>::minimal_parse(&data).expect("it is opened");
        let (symbols, _) = file.symbol_table().expect("its tables are in order").expect("it has symbols");
        // More than two batches, so that a walk fetches again and ends within one.
        let bytes = symbols.as_bytes().repeat(3 * elf::parse::BATCH / symbols.len() + 1);
        let table = SymbolTable::new(file.ehdr.endianness, file.ehdr.class, &bytes);
        let by_number: Vec<Symbol> = (0..table.len()).map(|i| table.get(i).expect("it is whole")).collect();
        let one_by_one: Vec<Symbol> = std::iter::from_fn({
            let mut walk = table.iter();
            move || walk.next()
        })
        .collect();
        let folded = table.iter().fold(Vec::new(), |mut all, symbol| {
            all.push(symbol);
            all
        });
        let (class, order) = (data[4], data[5]);
        let mut rows = vec![[0; 6]; table.len()];
        assert_eq!(elf::sys::symbols(class, order, &bytes, 0, rows.as_flattened_mut()), table.len());
        let of_row = |row: &[u64; 6]| Symbol {
            st_name: row[0] as u32,
            st_shndx: row[1] as u16,
            st_info: row[2] as u8,
            st_other: row[3] as u8,
            st_value: row[4],
            st_size: row[5],
        };
        assert_eq!(by_number, one_by_one);
        assert_eq!(by_number, folded);
        assert_eq!(by_number, rows.iter().map(of_row).collect::<Vec<_>>());
    }
}

#[test]
fn sections_are_found_by_name_and_read() {
    for name in LIBRARIES {
        let data = corpus(name);
        let file = ElfBytes::<AnyEndian>::minimal_parse(&data).expect("it is opened");
        let strings = file.section_header_by_name(".dynstr").expect("names can be read").expect("it is there");
        let table = file.section_data_as_strtab(&strings).expect("it is one of strings");
        assert_eq!(table.get_raw(0), Ok(&b""[..]));
        assert_eq!(
            file.section_data(&strings).map(|(bytes, header)| (bytes.len(), header)),
            Ok((strings.sh_size as usize, None))
        );
        assert!(matches!(file.section_data_as_rels(&strings), Err(ParseError::UnexpectedSectionType(_))));
        assert_eq!(file.section_header_by_name(".no_such_section"), Ok(None));
        let (sections, names) = file.section_headers_with_strtab().expect("names can be read");
        let mut all = sections.expect("it has sections").into_iter();
        assert!(all.any(|section| names.expect("they have names").get(section.sh_name as usize) == Ok(".text")));
    }
}

#[test]
fn dynamic_entries_and_segments_are_walked() {
    for name in LIBRARIES {
        let data = corpus(name);
        let file = ElfBytes::<AnyEndian>::minimal_parse(&data).expect("it is opened");
        let entries: Vec<Dyn> = file.dynamic().expect("they can be read").expect("it has some").iter().collect();
        assert!(entries.iter().any(|entry| entry.d_tag == abi::DT_HASH && entry.d_ptr() != 0));
        let segments: Vec<ProgramHeader> = file.segments().expect("it has some").iter().collect();
        let loaded: Vec<&ProgramHeader> = segments.iter().filter(|segment| segment.p_type == abi::PT_LOAD).collect();
        assert!(loaded.len() >= 2);
        assert_eq!(file.segment_data(loaded[0]).map(<[u8]>::len), Ok(loaded[0].p_filesz as usize));
    }
}

#[test]
fn relocations_are_walked() {
    let data = corpus("x86-64-object.o");
    let file = ElfBytes::<AnyEndian>::minimal_parse(&data).expect("it is opened");
    let section = file.section_header_by_name(".rela.text").expect("names can be read").expect("it is there");
    let relocations: Vec<_> = file.section_data_as_relas(&section).expect("it is one of relocations").collect();
    assert_eq!(relocations.len() as u64, section.sh_size / section.sh_entsize);
    assert!(relocations.iter().all(|relocation| relocation.r_sym != 0));
    let data = corpus("i386-object.o");
    let file = ElfBytes::<LittleEndian>::minimal_parse(&data).expect("it is opened");
    let section = file.section_header_by_name(".rel.text").expect("names can be read").expect("it is there");
    assert_eq!(
        file.section_data_as_rels(&section).expect("it is one").count() as u64,
        section.sh_size / section.sh_entsize
    );
}

#[test]
fn a_fixed_order_refuses_the_other() {
    fn opened<E: EndianParse>(data: &[u8]) -> Option<u8> {
        ElfBytes::<E>::minimal_parse(data).err().map(|fault| fault.number())
    }
    let (little, big) = (corpus("x86-64-library.so"), corpus("powerpc64-library.so"));
    assert_eq!((opened::<LittleEndian>(&little), opened::<LittleEndian>(&big)), (None, Some(3)));
    assert_eq!((opened::<BigEndian>(&little), opened::<BigEndian>(&big)), (Some(3), None));
    assert_eq!((opened::<AnyEndian>(&little), opened::<AnyEndian>(&big)), (None, None));
    // The order is looked at before the rest of the header, and behind magic, version and class.
    assert_eq!((opened::<BigEndian>(&little[..40]), opened::<LittleEndian>(&little[..40])), (Some(3), Some(11)));
    assert_eq!(opened::<BigEndian>(&little[..15]), Some(11));
    let with = |at: usize, byte: u8| {
        let mut copy = little.clone();
        copy[at] = byte;
        opened::<BigEndian>(&copy)
    };
    assert_eq!((with(0, 0), with(4, 3), with(6, 0), with(5, 9)), (Some(1), Some(2), Some(4), Some(3)));
}

#[test]
fn a_walk_gives_what_the_entries_are_across_batches() {
    fn assert_walk<P: ParseAt + PartialEq + std::fmt::Debug>(class: Class, endian: AnyEndian, bytes: &[u8]) {
        for entries in [0, 1, 31, 32, 33, 64, 100] {
            // Some bytes of one entry more, which is no whole one.
            let data = &bytes[..entries * P::size_for(class) + 3];
            let table = ParsingTable::<AnyEndian, P>::new(endian, class, data);
            let one_by_one: Vec<P> = (0..entries).map(|i| table.get(i).expect("it is whole")).collect();
            assert_eq!(table.iter().collect::<Vec<P>>(), one_by_one);
            assert_eq!((table.len(), table.is_empty()), (entries, entries == 0));
            assert!(table.get(entries).is_err());
        }
    }
    let bytes: Vec<u8> = (0..10_000u32).map(|number| (number.wrapping_mul(2_654_435_761) >> 24) as u8).collect();
    for class in [Class::ELF32, Class::ELF64] {
        for endian in [AnyEndian::Little, AnyEndian::Big] {
            assert_walk::<SectionHeader>(class, endian, &bytes);
            assert_walk::<ProgramHeader>(class, endian, &bytes);
            assert_walk::<Symbol>(class, endian, &bytes);
            assert_walk::<elf::relocation::Rel>(class, endian, &bytes);
            assert_walk::<elf::relocation::Rela>(class, endian, &bytes);
            assert_walk::<Dyn>(class, endian, &bytes);
        }
    }
}

#[test]
fn tables_are_made_of_any_bytes() {
    let none: &[u8] = &[];
    let symbols = SymbolTable::new(NativeEndian, Class::ELF64, none);
    assert_eq!(symbols.get(0).map_err(|fault| fault.number()), Err(5));
    assert_eq!(symbols.iter().next(), None);
    assert_eq!(
        DynamicTable::new(AnyEndian::Big, Class::ELF32, &[0; 7]).get(0).map_err(|fault| fault.number()),
        Err(11)
    );
    let strings = StringTable::new(b"\0one\0\xff\0two");
    assert_eq!(strings.get(1), Ok("one"));
    let refused = [strings.get(5), strings.get(7), strings.get(10), strings.get(11)]
        .map(|string| string.map_err(|fault| fault.number()));
    assert_eq!(refused, [Err(13), Err(6), Err(6), Err(5)]);
    assert_eq!(strings.get_raw(5), Ok(&b"\xff"[..]));
    let refused = SysVHashTable::new(AnyEndian::Little, Class::ELF64, &[1, 0, 0, 0, 1, 0, 0, 0]).map(|_| ());
    assert_eq!(refused.map_err(|fault| fault.number()), Err(11));
    assert_eq!((sysv_hash(b""), sysv_hash(b"printf"), sysv_hash(b"syscall")), (0, 0x0779_05a6, 0x0b09_985c));
}

#[test]
fn faults_are_errors_with_a_sentence_each() {
    let sentences: Vec<String> = (1..=14).map(|number| ParseError::from(number).to_string()).collect();
    let mut different = sentences.clone();
    different.sort();
    different.dedup();
    assert_eq!(different.len(), 14);
    let error: Box<dyn std::error::Error> =
        Box::new(ElfBytes::<AnyEndian>::minimal_parse(b"MZ").expect_err("it is too short"));
    assert_eq!(error.to_string(), sentences[10]);
}
