//! The timed phases over a reader that has the names of the crate elf: the same text is compiled over elf and over loadplan.
//!
//! usage: driver FILE TURNS [PHASE]. Prints a line: the least nanoseconds of each phase over so many turns, and what each
//! phase summed up, so that two readers that do not do the same are found out. With PHASE only that phase runs, once, and
//! nothing is printed: for a count of instructions. A phase that there is not is none, for what has to be taken off.

use std::hint::black_box;
use std::time::Instant;

use reader::endian::AnyEndian;
use reader::ElfBytes;

/// A phase is told by its name, and how often it runs in a turn because it is too short for the clock.
type Phase = (&'static str, u32, fn(&[u8], &[Vec<u8>]) -> u64);

const PHASES: [Phase; 4] = [("parse", 100, parse), ("open", 100, open), ("walk", 1, walk), ("find", 1, find)];

#[inline(always)]
fn file(bytes: &[u8]) -> ElfBytes<'_, AnyEndian> {
    ElfBytes::minimal_parse(bytes).expect("the file opens")
}

/// Opening alone.
#[inline(never)]
fn parse(bytes: &[u8], _: &[Vec<u8>]) -> u64 {
    file(bytes).section_headers().expect("there are sections").len() as u64
}

/// Opening, and finding the usual tables.
#[inline(never)]
fn open(bytes: &[u8], _: &[Vec<u8>]) -> u64 {
    let common = file(bytes).find_common_data().expect("its tables are sound");
    common.dynsyms.expect("there are dynamic symbols").len() as u64
}

/// Every dynamic symbol.
#[inline(never)]
fn walk(bytes: &[u8], _: &[Vec<u8>]) -> u64 {
    let found = file(bytes).dynamic_symbol_table().expect("its tables are sound");
    let (symbols, _) = found.expect("there are dynamic symbols");
    let mut sum = 0u64;
    for symbol in symbols.iter() {
        sum = sum.wrapping_add(symbol.st_value).wrapping_add(symbol.st_size);
    }
    sum
}

/// Every name, by the SysV hash table.
#[inline(never)]
fn find(bytes: &[u8], names: &[Vec<u8>]) -> u64 {
    let common = file(bytes).find_common_data().expect("its tables are sound");
    let symbols = common.dynsyms.expect("there are dynamic symbols");
    let strings = common.dynsyms_strs.expect("they have strings");
    let table = common.sysv_hash.expect("there is a hash table");
    let number = |name: &Vec<u8>| {
        let found = table.find(name, &symbols, &strings).expect("its tables are sound");
        found.expect("every name is there").0 as u64
    };
    names.iter().map(number).fold(0, u64::wrapping_add)
}

/// The names of the dynamic symbols but the first, whose name is empty.
fn names_in(bytes: &[u8]) -> Vec<Vec<u8>> {
    let found = file(bytes).dynamic_symbol_table().expect("its tables are sound");
    let (symbols, strings) = found.expect("there are dynamic symbols");
    let name = |symbol: reader::symbol::Symbol| strings.get_raw(symbol.st_name as usize).expect("it is there").to_vec();
    symbols.iter().skip(1).map(name).collect()
}

fn main() {
    let words: Vec<String> = std::env::args().collect();
    let [_, path, turns, only @ ..] = &words[..] else {
        panic!("usage: driver FILE TURNS [PHASE]");
    };
    let bytes = std::fs::read(path).expect("the file can be read");
    let turns: u32 = turns.parse().expect("turns are a number");
    let names = names_in(&bytes);
    if let [only] = only {
        for (name, _, phase) in PHASES {
            if name == only {
                black_box(phase(black_box(&bytes), &names));
            }
        }
        return;
    }
    let mut least = [f64::INFINITY; PHASES.len()];
    let mut sums = [0; PHASES.len()];
    for _ in 0..turns {
        for (k, (_, often, phase)) in PHASES.iter().enumerate() {
            let start = Instant::now();
            for _ in 0..*often {
                sums[k] = black_box(phase(black_box(&bytes), &names));
            }
            least[k] = least[k].min(start.elapsed().as_nanos() as f64 / f64::from(*often));
        }
    }
    let times: Vec<String> = PHASES.iter().zip(least).map(|((name, ..), time)| format!("{name} {time:.2}")).collect();
    println!("{} sums {}", times.join(" "), sums.map(|sum| sum.to_string()).join(" "));
}
