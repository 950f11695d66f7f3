//! The program loadplan-bench: builds the drivers, runs them in turn on one core, and prints what each took.
//!
//! It tests nothing but the sums: drivers that do not do the same work end it with status 1. Times fail no build.

mod drivers;
mod loading;
mod table;

use std::path::{Path, PathBuf};
use std::process::ExitCode;

use loadplan_command::arguments::Arguments;
use loadplan_command::{program, Fault};
use loadplan_compare::places;

use drivers::{Driver, Measured};
use table::Table;

const HELP: &str = "\
usage: loadplan-bench [--shared FOLDER] [--runs COUNT] [--turns COUNT]

Times opening, walking and finding through the port's Rust and C interfaces beside the crate elf and a loop in C, counts
instructions, and times planning and carrying out. Prints tables as docs/SPEED.md has them.

  --shared FOLDER   where the crate's text and the baseline are (../shared beside the repository)
  --runs COUNT      how often each program runs; they take turns (7)
  --turns COUNT     how often a program does each phase; the least time counts (40)

Exit status: 0 measured; 1 the programs' sums differ; 2 wrong use, or something that is measured can't be built.
";

/// The symbols of the baseline's files, and of those that show how the time grows.
const SYMBOLS: u64 = 60_000;
const GROWN: u64 = 10 * SYMBOLS;

struct Bench {
    drivers: Vec<Driver>,
    folder: PathBuf,
    runs: u32,
    turns: u32,
}

fn main() -> ExitCode {
    program("loadplan-bench", HELP, run)
}

fn run(mut arguments: Arguments) -> Result<bool, Fault> {
    let shared = arguments.value("--shared")?.map_or_else(places::shared, PathBuf::from);
    let (runs, turns) = (arguments.number("--runs", 7)? as u32, arguments.number("--turns", 40)? as u32);
    arguments.files()?;
    let folder = places::repository().join("host/target/bench");
    let bench = Bench { drivers: drivers::build(&shared, &folder)?, folder, runs, turns };
    let mut agreed = true;
    for file in ["big64.so", "big32.so"] {
        agreed &= bench.phases(&bench.folder.join("bench").join(file), file)?;
    }
    for file in ["big64.so", "big32.so"] {
        bench.counts(&bench.folder.join("bench").join(file), file)?;
    }
    agreed &= bench.growth(&shared)?;
    loading::plans().print();
    loading::carrying_out().print();
    Ok(agreed)
}

impl Bench {
    /// What each driver took for a file, in turns; `None` where a driver does not read it.
    fn measure(&self, file: &Path, turns: u32) -> Result<Vec<Option<Measured>>, Fault> {
        let mut measured: Vec<Option<Measured>> = self.drivers.iter().map(|_| None).collect();
        for _ in 0..self.runs {
            for (driver, least) in self.drivers.iter().zip(&mut measured) {
                if driver.reads(file) {
                    let once = driver.run(file, turns)?;
                    *least = Some(match least.take() {
                        Some(before) => before.least(once),
                        None => once,
                    });
                }
            }
        }
        Ok(measured)
    }

    /// Times of the phases and their ratios to the crate and to C with tests; whether all sums agree.
    fn phases(&self, file: &Path, name: &str) -> Result<bool, Fault> {
        let measured = self.measure(file, self.turns)?;
        let of = |wanted: &str| self.drivers.iter().position(|driver| driver.name == wanted);
        let (first, c) = (of(drivers::CRATE), of(drivers::C));
        let base = |k: Option<usize>| k.and_then(|k| measured[k].as_ref());
        let mut table = Table::new(&format!("{name}, {SYMBOLS} symbols: least time of a phase"), "program");
        for phase in drivers::PHASES {
            table.columns(&[&format!("{phase} ns"), "/crate", "/C"]);
        }
        for (driver, times) in self.drivers.iter().zip(&measured) {
            let Some(times) = times else { continue };
            let cells = drivers::PHASES.iter().flat_map(|phase| {
                let time = times.time(phase);
                let ratio = |other: Option<&Measured>| table::ratio(time, other.and_then(|other| other.time(phase)));
                [table::time(time), ratio(base(first)), ratio(base(c))]
            });
            table.row(&driver.name, cells.collect());
        }
        table.print();
        Ok(drivers::agree(&self.drivers, &measured, name))
    }

    /// Instructions of each phase, by callgrind.
    fn counts(&self, file: &Path, name: &str) -> Result<(), Fault> {
        let mut table = Table::new(&format!("{name}: instructions of a phase"), "program");
        table.columns(&drivers::PHASES);
        for driver in self.drivers.iter().filter(|driver| driver.reads(file)) {
            let Some(counted) = driver.instructions(file, &drivers::PHASES) else {
                println!("instructions: not counted, valgrind is not there\n");
                return Ok(());
            };
            let cell = |count: Option<u64>| count.map_or("-".to_string(), |count| count.to_string());
            table.row(&driver.name, counted.into_iter().map(cell).collect());
        }
        table.print();
        Ok(())
    }

    /// Nanoseconds and the port's instructions a symbol, at the baseline's size and at ten times as many.
    fn growth(&self, shared: &Path) -> Result<bool, Fault> {
        let grown = drivers::grown_file(shared, &self.folder, GROWN)?;
        let files = [(self.folder.join("bench/big64.so"), SYMBOLS), (grown, GROWN)];
        let turns = (self.turns / 8).max(3);
        let measured = [self.measure(&files[0].0, turns)?, self.measure(&files[1].0, turns)?];
        let mut table = Table::new("growth: nanoseconds a symbol, then instructions a symbol", "program");
        for phase in ["walk", "find"] {
            table.columns(&[&format!("{phase} {SYMBOLS}"), &format!("{phase} {GROWN}")]);
        }
        for (k, driver) in self.drivers.iter().enumerate() {
            let each = |phase: &str, size: usize| {
                let time = measured[size][k].as_ref().and_then(|measured| measured.time(phase));
                table::small(time.map(|ns| ns / files[size].1 as f64))
            };
            table.row(
                &driver.name,
                ["walk", "find"].iter().flat_map(|phase| [each(phase, 0), each(phase, 1)]).collect(),
            );
        }
        if let Some(port) = self.drivers.iter().find(|driver| driver.name == drivers::PORT) {
            let counted = files.each_ref().map(|(file, _)| port.instructions(file, &["walk", "find"]));
            let each = |phase: usize, size: usize| {
                let count = counted[size].as_ref().and_then(|counted| counted[phase]);
                table::small(count.map(|count| count as f64 / files[size].1 as f64))
            };
            let cells = vec![each(0, 0), each(0, 1), each(1, 0), each(1, 1)];
            table.row(&format!("{}, instructions", port.name), cells);
        }
        let buckets = files.each_ref().map(|(file, _)| table::small(drivers::symbols_a_bucket(file)));
        table.row("symbols a bucket of the file", vec!["-".into(), "-".into(), buckets[0].clone(), buckets[1].clone()]);
        table.print();
        Ok(drivers::agree(&self.drivers, &measured[1], "the grown file"))
    }
}
