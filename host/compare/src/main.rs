//! The program loadplan-compare: asks the crate and the port about the same inputs, and compares load plans with their rules.

use std::fs;
use std::io;
use std::path::{Path, PathBuf};
use std::process::ExitCode;
use std::time::{Duration, Instant};

use loadplan_command::arguments::Arguments;
use loadplan_command::progress::Progress;
use loadplan_command::{program, read, Fault};
use loadplan_compare::compare::{faults_of_the_list, Comparison, Findings};
use loadplan_compare::damage::Amount;
use loadplan_compare::made::{made, Made};
use loadplan_compare::oracle::Oracle;
use loadplan_compare::places;
use loadplan_compare::plans;
use loadplan_compare::port::Port;
use loadplan_compare::recorded;
use loadplan_compare::slow_files::Times;

const HELP: &str = "\
usage: loadplan-compare [--shared FOLDER | --oracle PROGRAM] [--front BYTES] [--random COUNT] [--seed NUMBER]
                        [--machine] [FILE..]
       loadplan-compare plans [--files COUNT] [--front BYTES] [--random COUNT] [--seed NUMBER]
       loadplan-compare record [--shared FOLDER | --oracle PROGRAM]
       loadplan-compare make FOLDER

Asks the crate elf and the port about the files (the corpus and hash tables, if none is named) and damaged copies of them:
each byte of the front set to other values, every length, limits in whole fields, and so many copies damaged at random.
Prints how many inputs and answers were compared, and each difference once with its smallest input. If no file is named, long
files and such as are made to be slow are compared too, and the port alone is timed on slow files of nearly 1 MiB.

  --shared FOLDER    where the crate's text and the script oracle/make are (../shared beside the repository)
  --oracle PROGRAM   the program that asks the crate, built before
  --front BYTES      how many bytes of each file are damaged one by one (4096)
  --random COUNT     how many copies of each file are damaged at random (1000)
  --machine          the programs and libraries of this machine too, undamaged
  --wrong QUESTION   the port answers this question wrongly: to see that it is caught
plans compares random files (200000), and damaged copies of the corpus, with the rules of the plan, byte by byte. record
writes a line for each file of the corpus, with a digest of the crate's answers about damaged copies of it. make writes the
files of the corpus that no tool writes.

Exit status: 0 no difference that is not listed; 1 a difference, or a listed one that no longer occurs, or an input that takes
too long; 2 wrong use, or no crate to ask.
";

fn main() -> ExitCode {
    program("loadplan-compare", HELP, run)
}

fn run(mut arguments: Arguments) -> Result<bool, Fault> {
    if arguments.flag("plans") {
        return compare_plans(arguments);
    }
    if arguments.flag("make") {
        return make(&arguments.one_file()?);
    }
    if arguments.flag("record") {
        return record(oracle(&mut arguments)?);
    }
    compare(arguments)
}

fn make(folder: &Path) -> Result<bool, Fault> {
    for file in made().into_iter().chain(places::files_of_the_list()?) {
        fs::write(folder.join(&file.name), &file.bytes)?;
    }
    Ok(true)
}

fn record(oracle: Oracle) -> Result<bool, Fault> {
    for file in places::corpus()? {
        println!("{}", recorded::of_the_crate(&file, &oracle).map_err(cannot_compare)?);
    }
    Ok(true)
}

fn compare_plans(mut arguments: Arguments) -> Result<bool, Fault> {
    let files = arguments.number("--files", 200_000)?;
    let seed = arguments.number("--seed", 1)?;
    let front = arguments.number("--front", 4096)? as usize;
    let random = arguments.number("--random", 1000)?;
    let compared = plans::compare(files, seed).and_then(|mut tally| {
        let mut of_damaged = plans::Tally::new();
        for file in places::corpus().map_err(|fault| fault.to_string())? {
            plans::compare_damaged(&file.name, &file.bytes, Amount { front, random, seed }, &mut of_damaged)?;
        }
        println!("plans: {files} random files and {} damaged ones, no difference", of_damaged.values().sum::<u64>());
        of_damaged.iter().for_each(|(refusal, count)| *tally.entry(*refusal).or_default() += count);
        tally.iter().for_each(|(refusal, count)| println!("  refusal {refusal:>2}: {count}"));
        Ok(())
    });
    if let Err(fault) = &compared {
        println!("plans: {fault}");
    }
    Ok(compared.is_ok())
}

fn compare(mut arguments: Arguments) -> Result<bool, Fault> {
    let oracle = oracle(&mut arguments)?;
    let front = arguments.number("--front", 4096)? as usize;
    let random = arguments.number("--random", 1000)?;
    let seed = arguments.number("--seed", 1)?;
    let of_the_machine = arguments.flag("--machine");
    let port = Port { wrong: arguments.value("--wrong")? };
    let named = arguments.files()?;
    let none_is_named = named.is_empty();
    let since = Instant::now();
    let mut comparison = Comparison { oracle: &oracle, port: &port, findings: Findings::default() };
    let mut progress = Progress::new("inputs compared");
    for file in files(named)? {
        comparison.file(&file, Amount { front, random, seed }).map_err(cannot_compare)?;
        progress.done(comparison.findings.inputs as usize, None);
    }
    drop(progress);
    if none_is_named {
        comparison.made_files(Amount { front: 0, random: random / 50, seed }).map_err(cannot_compare)?;
    }
    if of_the_machine {
        comparison.inputs("files of the machine", &|each| machine_files(each)).map_err(cannot_compare)?;
    }
    let faults = faults_of_the_list(&places::differences()?, &oracle, &port).map_err(cannot_compare)?;
    faults.iter().for_each(|fault| println!("listed, but not so: {fault}"));
    let same = report(&comparison, since)?;
    let fast = !none_is_named || time_slow_files();
    Ok(same && fast && faults.is_empty())
}

fn cannot_compare(fault: io::Error) -> Fault {
    Fault::new(format_args!("the comparison failed: {fault}"))
}

fn oracle(arguments: &mut Arguments) -> Result<Oracle, Fault> {
    if let Some(program) = arguments.value("--oracle")? {
        return Ok(Oracle::new(PathBuf::from(program)));
    }
    let shared = arguments.value("--shared")?.map_or_else(places::shared, PathBuf::from);
    places::oracle(&shared).map_err(|fault| Fault::new(format_args!("the crate cannot be asked: {fault}")))
}

/// The named files, or the corpus.
fn files(named: Vec<PathBuf>) -> Result<Vec<Made>, Fault> {
    if named.is_empty() {
        return Ok(places::corpus()?);
    }
    let read_one = |path: &PathBuf| Ok(Made { name: places::name_of(path), bytes: read(path)? });
    named.iter().map(read_one).collect()
}

/// Every readable file of the machine's programs and libraries that starts as ELF files do.
fn machine_files(each: &mut dyn FnMut(&[u8])) {
    let mut folders: Vec<PathBuf> = ["/usr/bin", "/usr/sbin", "/usr/lib", "/usr/libexec"].map(PathBuf::from).to_vec();
    while let Some(folder) = folders.pop() {
        let Ok(entries) = fs::read_dir(folder) else { continue };
        let mut paths: Vec<PathBuf> = entries.filter_map(|entry| Some(entry.ok()?.path())).collect();
        paths.sort();
        for path in paths {
            match fs::symlink_metadata(&path) {
                Ok(about) if about.is_dir() => folders.push(path),
                Ok(about) if about.is_file() => {
                    let file = fs::read(&path).unwrap_or_default();
                    if file.starts_with(b"\x7fELF") {
                        each(&file);
                    }
                }
                _ => {}
            }
        }
    }
}

/// Bytes as lines of hexadecimal digits; lines of zeros are only counted.
fn print_bytes(bytes: &[u8]) {
    let mut zeros = 0;
    for line in bytes.chunks(32) {
        if line.iter().all(|&byte| byte == 0) {
            zeros += 1;
            continue;
        }
        if zeros > 0 {
            println!("    ({zeros} lines of zeros)");
        }
        zeros = 0;
        println!("    {}", line.iter().map(|byte| format!("{byte:02x}")).collect::<Vec<_>>().join(" "));
    }
    println!("    ({} bytes)", bytes.len());
}

/// Says what was found; whether there was no difference and nothing slow.
fn report(comparison: &Comparison<'_>, since: Instant) -> Result<bool, Fault> {
    let Findings { inputs, answers, differences, slow } = &comparison.findings;
    let seconds = since.elapsed().as_secs_f64();
    println!(
        "compared {inputs} inputs, {answers} answers, in {seconds:.0} s: {} kinds of differences",
        differences.len()
    );
    for (difference, input) in comparison.shrunk().map_err(cannot_compare)? {
        println!("  crate: {}\n  port:  {}", difference.of_the_crate, difference.of_the_port);
        print_bytes(&input);
    }
    print_slow(slow);
    Ok(differences.is_empty() && slow.is_empty())
}

fn print_slow(slow: &[(String, Duration)]) {
    for (what, took) in slow {
        println!("  slow: {what} takes {} ms", took.as_millis());
    }
}

/// Asks the port alone about slow files; whether no answer was slow, and none wrong.
fn time_slow_files() -> bool {
    let Times { questions, longest, slow, wrong } = Times::of_long_files();
    let milliseconds = 1000.0 * longest.as_secs_f64();
    println!(
        "timed {questions} questions about slow files: the longest took {milliseconds:.1} ms, {} wrong",
        wrong.len()
    );
    print_slow(&slow);
    wrong.iter().for_each(|question| println!("  wrong: {question}"));
    slow.is_empty() && wrong.is_empty()
}
