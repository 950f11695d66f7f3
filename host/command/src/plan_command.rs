//! `loadplan plan`: the records of a plan as a table and a picture, or as JSON; or the refusal and the numbers at fault.

use std::io::{self, Write};
use std::path::Path;

use loadplan::endian::AnyEndian;
use loadplan::plan::{plan, Plan, Record, Refusal, Window, RECORD_SIZE};
use loadplan::ElfBytes;

use crate::arguments::Arguments;
use crate::blame::faults;
use crate::json::{quoted, Object};
use crate::picture::{draw, protection};
use crate::progress::Progress;
use crate::{read, window, Fault, Verdict};

pub const HELP: &str = "\
usage: loadplan plan FILE.. --window START+LENGTH [--json]

Plans each file for a window of memory and shows the records as a table and the memory as a picture. Nothing is loaded.
A refused file is named on the error output: the number, what it means, and the numbers at fault.

  --window START+LENGTH   the window, decimal or hexadecimal behind 0x: both multiples of 4096, at most 4 GiB long;
                          addresses of a position-independent file count from START
  --json                  one object a file, a line each; addresses are strings of hexadecimal digits

Exit status: 0 all are accepted, 1 one is refused, 2 wrong use or a file that cannot be read.
";

pub fn run(mut arguments: Arguments, output: &mut dyn Write) -> Result<Verdict, Fault> {
    let as_json = arguments.flag("--json");
    let named = arguments.value("--window")?;
    let files = arguments.some_files()?;
    let Some(words) = named else {
        return Err(no_window(&files[0]));
    };
    let window = window::parse(&words)?;
    let mut verdict = Verdict::Accepted;
    let mut progress = Progress::new("files planned");
    for (done, path) in files.iter().enumerate() {
        let file = read(path)?;
        let mut table = room_for(&file);
        let planned = plan(&file, window, &mut table);
        if planned.is_err() {
            verdict = Verdict::Refused;
        }
        match as_json {
            true => writeln!(output, "{}", json(path, &file, window, planned))?,
            false => show(path, &file, window, planned, output)?,
        }
        progress.done(done + 1, Some(files.len()));
    }
    Ok(verdict)
}

fn no_window(path: &Path) -> Fault {
    let needed = read(path).ok().and_then(|file| window::needed(&ElfBytes::minimal_parse(&file).ok()?));
    match needed {
        Some(Window { start, length }) => Fault::new(format_args!(
            "name a window with --window START+LENGTH; the smallest for {} is {start:#x}+{length:#x}",
            path.display()
        )),
        None => Fault::new("name a window with --window START+LENGTH"),
    }
}

/// A table with room for a record of every loaded segment.
pub fn room_for(file: &[u8]) -> Vec<u8> {
    let elf = ElfBytes::<AnyEndian>::minimal_parse(file);
    let records = elf.map_or(0, |elf| window::loaded_segments(&elf).count());
    vec![0; records * RECORD_SIZE]
}

fn show(
    path: &Path,
    file: &[u8],
    window: Window,
    planned: Result<Plan<'_>, Refusal>,
    output: &mut dyn Write,
) -> io::Result<()> {
    let Window { start, length } = window;
    let plan = match planned {
        Ok(plan) => plan,
        Err(refusal) => {
            // What was accepted before stands above the refusal, also where both outputs are one terminal.
            output.flush()?;
            eprint!("{}", refused(path, file, window, refusal));
            return Ok(());
        }
    };
    let records: Vec<Record> = plan.records().collect();
    writeln!(output, "{}: accepted in the window {start:#x}+{length:#x}", path.display())?;
    table(&records, output)?;
    writeln!(output)?;
    draw(window, &records, output)
}

fn table(records: &[Record], output: &mut dyn Write) -> io::Result<()> {
    writeln!(output, "  {:>16} {:>9}  prot {:>16} {:>9} {:>9}", "pages", "length", "file bytes", "length", "offset")?;
    for record in records {
        let Record { pages, pages_length, flags, bytes, bytes_length, offset } = *record;
        let flags = protection(flags);
        writeln!(output, "  {pages:>16x} {pages_length:>9x}  {flags}  {bytes:>16x} {bytes_length:>9x} {offset:>9x}")?;
    }
    Ok(())
}

/// A refusal in words: its number and meaning, then a line for each thing at fault.
pub fn refused(path: &Path, file: &[u8], window: Window, refusal: Refusal) -> String {
    let mut text = format!("{}: refused, {}: {refusal}\n", path.display(), refusal.number());
    for fault in faults(file, window, refusal) {
        text.push_str(&format!("  {fault}\n"));
    }
    text
}

fn json(path: &Path, file: &[u8], window: Window, planned: Result<Plan<'_>, Refusal>) -> String {
    let place = Object::new().address("start", window.start).number("length", window.length).end();
    let object = Object::new().text("file", &path.to_string_lossy()).json("window", &place);
    match planned {
        Ok(plan) => object.truth("accepted", true).list("records", plan.records().map(record_json)).end(),
        Err(refusal) => {
            let reader = match refusal {
                Refusal::NotOpened(Some(reason)) => reason.number(),
                _ => 0,
            };
            let faults = faults(file, window, refusal).into_iter().map(|fault| quoted(&fault));
            let object = object.truth("accepted", false).number("refusal", refusal.number().into());
            object.number("reader", reader.into()).text("meaning", &refusal.to_string()).list("faults", faults).end()
        }
    }
}

fn record_json(record: Record) -> String {
    let object = Object::new().address("pages", record.pages).number("pages_length", record.pages_length);
    let object = object.number("flags", record.flags).address("bytes", record.bytes);
    object.number("bytes_length", record.bytes_length).number("offset", record.offset).end()
}
