//! Files with a SysV hash table: 0, 1, 7 or 1,021 buckets over few and many symbols, well-formed and damaged.

use crate::made::Made;
use crate::maker::{Header, Kind, Parts, Section, Symbol, KINDS};
use crate::random::Random;

const BUCKETS: [usize; 4] = [0, 1, 7, 1021];
const SYMBOLS: [usize; 5] = [0, 1, 5, 60, 3000];
/// From how many symbols on only some kinds of damage are made.
const MANY: usize = 100;

/// A hash table, the symbols that it is of, and their strings.
#[derive(Clone, Default)]
pub(crate) struct Table {
    pub bucket_count: u32,
    pub chain_count: u32,
    pub buckets: Vec<u32>,
    pub chains: Vec<u32>,
    /// Where the name of each symbol starts.
    pub names: Vec<u32>,
    pub strings: Vec<u8>,
    /// How many bytes of the table there are, if not all.
    pub cut: Option<usize>,
    /// Bytes behind it.
    pub behind: Vec<u8>,
}

/// Every table in a file of every kind.
pub fn hash_tables(seed: u64) -> Vec<Made> {
    let mut files = Vec::new();
    for kind in KINDS {
        for buckets in BUCKETS {
            for symbols in SYMBOLS {
                let mut random = Random::new(seed ^ (buckets * 10_000 + symbols) as u64);
                let table = well_formed(buckets, symbols, &mut random);
                for (damage, table) in damaged(&table) {
                    let name = format!("hash-{}-b{buckets}-n{symbols}-{damage}", kind.name());
                    files.push(Made { name, bytes: file(kind, &table) });
                }
            }
        }
    }
    files
}

/// The ABI's hash, in its long form.
fn hash(name: &[u8]) -> u32 {
    let mut sum: u32 = 0;
    for &byte in name {
        sum = (sum << 4).wrapping_add(byte.into());
        let high = sum & 0xf000_0000;
        sum = (sum ^ (high >> 24)) & !high;
    }
    sum
}

fn name(number: usize, random: &mut Random) -> Vec<u8> {
    let known: [&[u8]; 5] = [b"printf", b"exit", b"syscall", b"memcpy", b"main"];
    if let Some(name) = known.get(number) {
        return name.to_vec();
    }
    let letters = (0..random.below(24)).map(|_| random.one_of(b"abcdefghijklmnopqrstuvwxyz_"));
    [format!("f{number:x}_").into_bytes(), letters.collect()].concat()
}

/// Each symbol but number 0 once in the chain of its bucket. An odd number of symbols is put in from behind.
fn well_formed(buckets: usize, symbols: usize, random: &mut Random) -> Table {
    let mut table = Table {
        bucket_count: buckets as u32,
        chain_count: symbols as u32 + 1,
        buckets: vec![0; buckets],
        chains: vec![0; symbols + 1],
        names: vec![0],
        strings: vec![0],
        ..Table::default()
    };
    let names: Vec<Vec<u8>> = (0..symbols).map(|number| name(number, random)).collect();
    for name in &names {
        table.names.push(table.strings.len() as u32);
        table.strings.extend([&name[..], &[0]].concat());
    }
    let mut order: Vec<usize> = (1..=symbols).collect();
    if symbols % 2 == 1 {
        order.reverse();
    }
    for symbol in order.into_iter().filter(|_| buckets > 0) {
        let bucket = hash(&names[symbol - 1]) as usize % buckets;
        table.chains[symbol] = table.buckets[bucket];
        table.buckets[bucket] = symbol as u32;
    }
    table
}

/// The table, and the table with one thing wrong.
fn damaged(table: &Table) -> Vec<(String, Table)> {
    let mut all = vec![(String::from("well"), table.clone())];
    let length = 8 + 4 * (table.buckets.len() + table.chains.len());
    let mut add = |name: &str, damage: &dyn Fn(&mut Table)| {
        let mut copy = table.clone();
        damage(&mut copy);
        all.push((name.to_string(), copy));
    };
    let symbols = table.names.len() as u32;
    add("trailing", &|table| table.behind = vec![1, 2, 3]);
    for cut in [0, 1, 4, 7, 8, 8 + 4 * table.buckets.len(), length - 1] {
        add(&format!("cut-{cut}"), &|table| table.cut = Some(cut));
    }
    add("most-buckets", &|table| table.bucket_count = u32::MAX);
    add("most-chains", &|table| table.chain_count = u32::MAX);
    add("no-chains", &|table| table.chain_count = 0);
    add("one-chain-less", &|table| table.chain_count -= 1);
    for (name, value) in [("end", symbols), ("beyond", symbols + 1), ("most", u32::MAX)] {
        add(&format!("buckets-{name}"), &|table| table.buckets.fill(value));
        add(&format!("chains-{name}"), &|table| table.chains.fill(value));
    }
    add("chains-to-1", &|table| table.chains.fill(1));
    add("to-itself", &|table| (0..).zip(&mut table.chains).for_each(|(number, chain)| *chain = number));
    let one_or_none = table.buckets.len().min(1);
    add("buckets-rotated", &|table| table.buckets.rotate_left(one_or_none));
    add("names-at-end", &|table| table.names.fill(table.strings.len() as u32));
    add("names-beyond", &|table| table.names.fill(table.strings.len() as u32 + 1));
    add("same-names", &|table| table.names.fill(1));
    add("no-last-zero", &|table| table.strings.truncate(table.strings.len() - 1));
    add("no-strings", &|table| table.strings.clear());
    if table.names.len() > MANY {
        all.retain(|(name, _)| {
            ["well", "to-itself", "chains-to-1", "one-chain-less", "no-last-zero"].contains(&&name[..])
        });
    }
    all
}

/// A file with the table, its symbols and their strings.
pub(crate) fn file(kind: Kind, table: &Table) -> Vec<u8> {
    let section_names = b"\0.dynsym\0.dynstr\0.hash\0.names\0";
    let symbols: Vec<u8> =
        (0..).zip(&table.names).flat_map(|(number, &name)| kind.symbol(symbol(number, name))).collect();
    let mut parts = Parts::new(kind);
    let mut section = |name, what, part: &[u8], link, entry_size| {
        let offset = parts.add(8, part);
        Section { name, kind: what, offset, size: part.len() as u64, link, entry_size, ..Section::default() }
    };
    let sections = [
        Section::default(),
        section(1, 11, &symbols, 2, kind.symbol_size() as u64),
        section(9, 3, &table.strings, 0, 0),
        section(17, 5, &table_bytes(kind, table), 1, 4),
        section(23, 3, section_names, 0, 0),
    ];
    let sections_at = parts.add_sections(&sections);
    parts.file(Header { kind: 3, sections_at, sections: 5, names: 4, ..Header::default() })
}

fn symbol(number: u64, name: u32) -> Symbol {
    match number {
        0 => Symbol { name, ..Symbol::default() },
        _ => Symbol { name, value: 0x1000 + 16 * number, size: 8, info: 0x12, section: 1 },
    }
}

fn table_bytes(kind: Kind, table: &Table) -> Vec<u8> {
    let counts = [table.bucket_count, table.chain_count];
    let words = counts.iter().chain(&table.buckets).chain(&table.chains);
    let mut bytes = kind.numbers(&words.map(|&word| (4, word.into())).collect::<Vec<_>>());
    bytes.truncate(table.cut.unwrap_or(bytes.len()));
    bytes.extend(&table.behind);
    bytes
}
