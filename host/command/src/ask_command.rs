//! `loadplan ask`: the canonical answers about files, or about inputs that come in a stream.
//!
//! In a stream each input is its length (four bytes, lowest first) and its bytes; each answer is the same of its text, or,
//! as a digest, eight bytes, lowest first.

use std::io::{self, Read, Write};
use std::path::Path;

use crate::arguments::Arguments;
use crate::ask::{ask, digest};
use crate::progress::Progress;
use crate::{read, Fault, Verdict};

pub const HELP: &str = "\
usage: loadplan ask [--full] [--digest] FILE..
       loadplan ask [--full] [--digest] --stream

Asks every question about each file and writes one line an answer: 01 QUESTION = ANSWER.
An answer is `ok` and its values, `none`, or `err` and the number of the refusal. Numbers are decimal, names and hashes
hexadecimal; a..b are offsets in the file, b not included. With several files, a line == FILE stands before each.

  --full     asks about every entry of every table, not about chosen ones
  --digest   writes a digest (FNV-1a, 64 bits) and the length instead of the text
  --stream   reads inputs from the standard input, each as its length (4 bytes, lowest first) and its bytes, and writes
             each text the same way, or with --digest 8 bytes, lowest first

Exit status: 0, also for files that are refused (the refusal is the answer); 2 wrong use or a file that cannot be read.
";

pub fn run(mut arguments: Arguments, output: &mut dyn Write) -> Result<Verdict, Fault> {
    let full = arguments.flag("--full");
    let as_digest = arguments.flag("--digest");
    if arguments.flag("--stream") {
        return match arguments.files()?.is_empty() {
            true => stream(full, as_digest, &mut io::stdin().lock(), output),
            false => Err(Fault::new("with --stream, name no file")),
        };
    }
    let files = arguments.some_files()?;
    let mut progress = Progress::new("files asked");
    for (done, path) in files.iter().enumerate() {
        let text = ask(&read(path)?, full);
        write_answers(path, &text, as_digest, files.len() > 1, output)?;
        progress.done(done + 1, Some(files.len()));
    }
    Ok(Verdict::Accepted)
}

fn write_answers(path: &Path, text: &str, as_digest: bool, named: bool, output: &mut dyn Write) -> Result<(), Fault> {
    if as_digest {
        writeln!(output, "{:016x} {} {}", digest(text), text.len(), path.display())?;
        return Ok(());
    }
    if named {
        writeln!(output, "== {}", path.display())?;
    }
    Ok(output.write_all(text.as_bytes())?)
}

fn stream(full: bool, as_digest: bool, input: &mut dyn Read, output: &mut dyn Write) -> Result<Verdict, Fault> {
    let mut progress = Progress::new("inputs asked");
    let mut file = Vec::new();
    let mut done = 0;
    while next_input(input, &mut file)? {
        let text = ask(&file, full);
        if as_digest {
            output.write_all(&digest(&text).to_le_bytes())?;
        } else {
            output.write_all(&(text.len() as u32).to_le_bytes())?;
            output.write_all(text.as_bytes())?;
        }
        done += 1;
        progress.done(done, None);
    }
    Ok(Verdict::Accepted)
}

/// Reads the next input; whether there was one. An input that is cut off is a fault.
fn next_input(input: &mut dyn Read, file: &mut Vec<u8>) -> Result<bool, Fault> {
    let cut_off = |fault: io::Error| Fault::new(format_args!("the stream is cut off: {fault}"));
    let mut length = [0; 4];
    if input.read(&mut length[..1]).map_err(cut_off)? == 0 {
        return Ok(false);
    }
    input.read_exact(&mut length[1..]).map_err(cut_off)?;
    file.resize(u32::from_le_bytes(length) as usize, 0);
    input.read_exact(file).map_err(cut_off)?;
    Ok(true)
}
