//! The programs that are timed: the crate's, the baseline's in C, and the port's through both its interfaces.
//!
//! Each is told a file and a number of turns and prints a line, `PHASE NANOSECONDS ..  sums NUMBER ..`; or it is told a
//! phase, and does it once and prints nothing.

use std::fs;
use std::io::Read;
use std::path::{Path, PathBuf};
use std::process::Command;

use loadplan::endian::AnyEndian;
use loadplan::ElfBytes;
use loadplan_command::Fault;
use loadplan_compare::places;

/// Opening alone; opening and finding the usual tables; every symbol; every name.
pub const PHASES: [&str; 4] = ["parse", "open", "walk", "find"];

pub const CRATE: &str = "crate elf";
pub const C: &str = "C with tests";
pub const PORT: &str = "port, from Rust";

pub struct Driver {
    pub name: String,
    program: PathBuf,
    /// What stands behind the phase on the command line of the baseline's program.
    way: Option<&'static str>,
}

/// The least time of each phase, and what it summed up.
pub struct Measured {
    phases: Vec<(String, f64, u64)>,
}

impl Measured {
    pub fn time(&self, phase: &str) -> Option<f64> {
        self.phases.iter().find(|(name, ..)| name == phase).map(|&(_, time, _)| time)
    }

    fn sum(&self, phase: &str) -> Option<u64> {
        self.phases.iter().find(|(name, ..)| name == phase).map(|&(.., sum)| sum)
    }

    pub fn least(self, other: Measured) -> Measured {
        let least = |(before, now): ((String, f64, u64), (String, f64, u64))| (before.0, before.1.min(now.1), now.2);
        Measured { phases: self.phases.into_iter().zip(other.phases).map(least).collect() }
    }

    /// From a driver's line; a word in front of the phases is its name.
    fn from_line(line: &str) -> Option<Measured> {
        let (times, sums) = line.split_once(" sums ")?;
        let mut words: Vec<&str> = times.split_whitespace().collect();
        if words.len() % 2 == 1 {
            words.remove(0);
        }
        let sums: Vec<u64> = sums.split_whitespace().map(|sum| sum.parse().ok()).collect::<Option<_>>()?;
        let phase = |(pair, &sum): (&[&str], &u64)| Some((pair[0].to_string(), pair[1].parse().ok()?, sum));
        let phases: Vec<_> = words.chunks_exact(2).zip(&sums).map(phase).collect::<Option<_>>()?;
        (2 * sums.len() == words.len()).then_some(Measured { phases })
    }
}

impl Driver {
    /// The baseline without tests has structs of 64-bit files only.
    pub fn reads(&self, file: &Path) -> bool {
        let mut start = [0; 5];
        let is_wide = |mut file: fs::File| file.read_exact(&mut start).is_ok() && start[4] == 2;
        self.way != Some("native") || fs::File::open(file).is_ok_and(is_wide)
    }

    /// The baseline in C does not open without finding the tables.
    fn has(&self, phase: &str) -> bool {
        self.way.is_none() || phase != "parse"
    }

    fn words(&self, file: &Path, turns: u32, phase: Option<&str>) -> Vec<String> {
        let mut words = vec![self.program.display().to_string(), file.display().to_string(), turns.to_string()];
        let phase = phase.or(self.way.map(|_| "all"));
        words.extend(phase.map(str::to_string));
        words.extend(self.way.map(str::to_string));
        words
    }

    /// On one core, so that the drivers are timed on the same one.
    pub fn run(&self, file: &Path, turns: u32) -> Result<Measured, Fault> {
        let output = Command::new("taskset").args(["-c", "1"]).args(self.words(file, turns, None)).output()?;
        let line = String::from_utf8_lossy(&output.stdout);
        match Measured::from_line(line.trim()) {
            Some(measured) if output.status.success() => Ok(measured),
            _ => Err(Fault::new(format_args!("{} ended with {} and said {line:?}", self.name, output.status))),
        }
    }

    /// The instructions that the program executes for a phase, with all around it; `None` without valgrind.
    fn count(&self, file: &Path, phase: &str) -> Option<u64> {
        let valgrind = ["--tool=callgrind", "--callgrind-out-file=/dev/null"];
        let output = Command::new("valgrind").args(valgrind).args(self.words(file, 1, Some(phase))).output().ok()?;
        let said = String::from_utf8_lossy(&output.stderr);
        said.lines().find_map(|line| line.split_once("Collected : ")?.1.trim().parse().ok())
    }

    /// The instructions of each of these phases alone; `None` for one that the program has not, and without valgrind.
    pub fn instructions(&self, file: &Path, phases: &[&str]) -> Option<Vec<Option<u64>>> {
        let around = self.count(file, "none")?;
        let of_a_phase =
            |phase: &&str| Some(self.count(file, phase).filter(|_| self.has(phase))?.saturating_sub(around));
        Some(phases.iter().map(of_a_phase).collect())
    }
}

/// Whether all drivers summed up the same; what differs is said.
pub fn agree(drivers: &[Driver], measured: &[Option<Measured>], file: &str) -> bool {
    let mut agreed = true;
    for phase in PHASES {
        let sums: Vec<(&str, u64)> = drivers
            .iter()
            .zip(measured)
            .filter_map(|(driver, measured)| Some((driver.name.as_str(), measured.as_ref()?.sum(phase)?)))
            .collect();
        if sums.windows(2).any(|pair| pair[0].1 != pair[1].1) {
            eprintln!("loadplan-bench: {file}, {phase}: the sums differ: {sums:?}");
            agreed = false;
        }
    }
    agreed
}

fn done(what: &str, command: &mut Command) -> Result<(), Fault> {
    let output = command.output().map_err(|fault| Fault::new(format_args!("{what}: {fault}")))?;
    match output.status.success() {
        true => Ok(()),
        false => Err(Fault::new(format_args!("{what} failed: {}", String::from_utf8_lossy(&output.stderr)))),
    }
}

/// Builds all drivers in a folder: the crate and the baseline by their own scripts, the rest here.
pub fn build(shared: &Path, folder: &Path) -> Result<Vec<Driver>, Fault> {
    fs::create_dir_all(folder)?;
    let scripts = shared.join("oracle");
    done("building the crate", Command::new(scripts.join("make")).arg(folder))?;
    done("building the baseline", Command::new(scripts.join("bench/make")).arg(folder))?;
    let by_c = folder.join("bench/by-c");
    let driver = |name: &str, program: PathBuf, way| Driver { name: name.to_string(), program, way };
    Ok(vec![
        driver(CRATE, driver_of_the_crate(folder)?, None),
        driver(C, by_c.clone(), Some("checked")),
        driver("C without tests", by_c, Some("native")),
        driver(PORT, driver_of_the_port()?, None),
        driver("port, from C", driver_in_c(folder)?, None),
    ])
}

/// The same text as the port's driver, over the crate.
fn driver_of_the_crate(folder: &Path) -> Result<PathBuf, Fault> {
    let package = folder.join("driver");
    fs::create_dir_all(package.join("src"))?;
    fs::write(package.join("src/main.rs"), include_str!("../driver/src/main.rs"))?;
    let manifest = "[package]\nname = \"driver\"\nversion = \"0.1.0\"\nedition = \"2021\"\n\n[dependencies]\n\
        reader = { package = \"elf\", path = \"../elf\" }\n\n[profile.release]\npanic = \"abort\"\n\n[workspace]\n";
    fs::write(package.join("Cargo.toml"), manifest)?;
    let target = folder.join("target");
    let mut cargo = Command::new("cargo");
    cargo.args(["build", "--release", "--offline", "--manifest-path"]).arg(package.join("Cargo.toml"));
    done("building the crate's driver", cargo.arg("--target-dir").arg(&target))?;
    Ok(target.join("release/driver"))
}

/// Cargo builds it beside this program.
fn driver_of_the_port() -> Result<PathBuf, Fault> {
    let program = std::env::current_exe()?.with_file_name("loadplan-bench-driver");
    match program.is_file() {
        true => Ok(program),
        false => Err(Fault::new("loadplan-bench-driver is not built: start host/bench/run")),
    }
}

fn driver_in_c(folder: &Path) -> Result<PathBuf, Fault> {
    let repository = places::repository();
    let archive = match std::env::var_os("LOADPLAN_ARCHIVE") {
        Some(named) => PathBuf::from(named),
        None => repository.join("target/staticlib"),
    };
    let program = folder.join("interface");
    let mut clang = Command::new("clang");
    clang.arg("-O2").arg("-o").arg(&program).arg(repository.join("host/bench/c/interface.c"));
    done("building the driver in C", clang.arg(archive.join("libloadplan.a")))?;
    Ok(program)
}

/// How many symbols a chain of the file's hash table has, on average: the linker chooses the number of buckets.
pub fn symbols_a_bucket(file: &Path) -> Option<f64> {
    let bytes = fs::read(file).ok()?;
    let table = ElfBytes::<AnyEndian>::minimal_parse(&bytes).ok()?.find_common_data().ok()?.sysv_hash?;
    Some(f64::from(table.header().nchain) / f64::from(table.header().nbucket))
}

/// A shared object like the baseline's, with so many symbols.
pub fn grown_file(shared: &Path, folder: &Path, symbols: u64) -> Result<PathBuf, Fault> {
    let file = folder.join(format!("{symbols}.so"));
    if !file.is_file() {
        let script = shared.join("oracle/bench/symbols.py");
        let made = Command::new("python3").arg(script).arg(symbols.to_string()).output()?;
        let (source, object) = (folder.join("grown.s"), folder.join("grown.o"));
        fs::write(&source, made.stdout)?;
        done("assembling", Command::new("as").arg("--64").arg("-o").arg(&object).arg(&source))?;
        let mut link = Command::new("ld");
        link.args(["-shared", "--hash-style=both", "-m", "elf_x86_64", "-o"]).arg(&file).arg(&object);
        done("linking", &mut link)?;
        fs::remove_file(source)?;
        fs::remove_file(object)?;
    }
    Ok(file)
}

#[cfg(test)]
mod tests {
    use super::*;

    fn measured(line: &str) -> Option<Measured> {
        Measured::from_line(line)
    }

    #[test]
    fn lines_are_read_with_and_without_a_name() {
        let ours = measured("parse 1.50 open 2.00 walk 30.00 find 40.00 sums 1 2 3 4").expect("it is a line");
        assert_eq!((ours.time("walk"), ours.sum("find")), (Some(30.0), Some(4)));
        let theirs = measured("C-checked open 2.50 walk 31 find 41 sums 2 3 4").expect("it is a line");
        assert_eq!((theirs.time("open"), theirs.sum("open"), theirs.time("parse")), (Some(2.5), Some(2), None));
        assert!(measured("open 2.50 walk 31 sums 2").is_none());
        assert!(measured("nothing").is_none());
    }

    #[test]
    fn the_least_time_counts() {
        let least =
            measured("open 2.5 walk 31 sums 2 3").unwrap().least(measured("open 3.5 walk 30 sums 2 3").unwrap());
        assert_eq!((least.time("open"), least.time("walk")), (Some(2.5), Some(30.0)));
    }

    #[test]
    fn sums_that_differ_are_found_out() {
        let driver = |name: &str| Driver { name: name.to_string(), program: PathBuf::new(), way: None };
        let drivers = [driver("one"), driver("other")];
        let line = |sum: u64| measured(&format!("open 2.5 walk 31 sums 2 {sum}"));
        assert!(agree(&drivers, &[line(3), line(3)], "a file"));
        assert!(agree(&drivers, &[line(3), None], "a file"));
        assert!(!agree(&drivers, &[line(3), line(4)], "a file"));
    }
}
