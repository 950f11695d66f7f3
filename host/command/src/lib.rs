//! The command loadplan, in parts, so that other programs of this workspace can use them.
//!
//! Every subcommand writes its answers to an output that it is lent and its messages to the error output, and ends with a
//! [Verdict] or with a [Fault].

pub mod arguments;
pub mod ask;
mod ask_command;
mod blame;
mod json;
#[cfg(all(target_os = "linux", target_arch = "x86_64"))]
mod machine;
mod names;
mod picture;
mod plan_command;
pub mod progress;
#[cfg(all(target_os = "linux", target_arch = "x86_64"))]
mod run_command;
#[cfg(not(all(target_os = "linux", target_arch = "x86_64")))]
#[path = "run_elsewhere.rs"]
mod run_command;
mod show_command;
mod window;

use std::ffi::OsString;
use std::fmt;
use std::io::{self, Write};
use std::path::Path;
use std::process::ExitCode;

use arguments::Arguments;

/// How a subcommand ended that did what it was asked.
#[derive(Clone, Copy, Debug, PartialEq, Eq)]
pub enum Verdict {
    Accepted,
    Refused,
    /// The exit status of a program that was run.
    Status(u8),
}

/// Why a subcommand could not do what it was asked.
#[derive(Debug)]
pub enum Fault {
    /// The command was used wrongly, or something that it needs cannot be had.
    WrongUse(String),
    /// Whoever reads the output does not want more of it.
    OutputClosed,
}

impl Fault {
    pub fn new(message: impl fmt::Display) -> Self {
        Fault::WrongUse(message.to_string())
    }
}

impl From<io::Error> for Fault {
    fn from(fault: io::Error) -> Self {
        match fault.kind() {
            io::ErrorKind::BrokenPipe => Fault::OutputClosed,
            _ => Fault::new(format_args!("the output cannot be written: {fault}")),
        }
    }
}

/// A subcommand: its name, its help, and what it does.
struct Subcommand {
    name: &'static str,
    help: &'static str,
    run: fn(Arguments, &mut dyn Write) -> Result<Verdict, Fault>,
}

const SUBCOMMANDS: [Subcommand; 4] = [
    Subcommand { name: "plan", help: plan_command::HELP, run: plan_command::run },
    Subcommand { name: "show", help: show_command::HELP, run: show_command::run },
    Subcommand { name: "run", help: run_command::HELP, run: run_command::run },
    Subcommand { name: "ask", help: ask_command::HELP, run: ask_command::run },
];

const HELP: &str = "\
usage: loadplan plan FILE.. --window START+LENGTH [--json]   where each segment goes in a window of memory
       loadplan show FILE                                    header, segments, sections, symbols, dynamic entries
       loadplan run FILE [--window START+LENGTH]             loads a static program and runs it
       loadplan ask FILE..                                   every answer about a file, in the text that is compared
       loadplan SUBCOMMAND --help                            more about each

Exit status: 0 accepted, 1 refused, 2 wrong use or a file that cannot be read. Messages go to the error output.
";

/// Runs the command with these words and answers its exit status.
pub fn command(words: impl IntoIterator<Item = OsString>) -> ExitCode {
    let mut output = io::BufWriter::new(io::stdout().lock());
    let ended = dispatch(Arguments::new(words), &mut output);
    let ended = ended.and_then(|verdict| Ok(output.flush().map(|()| verdict)?));
    exit_status("loadplan", ended)
}

/// A program of this workspace that answers yes or no: tells its help, or runs with the words that it was started with.
pub fn program(name: &str, help: &str, run: fn(Arguments) -> Result<bool, Fault>) -> ExitCode {
    let mut arguments = Arguments::new(std::env::args_os().skip(1));
    if arguments.flag("--help") {
        print!("{help}");
        return ExitCode::SUCCESS;
    }
    let verdict = |yes| if yes { Verdict::Accepted } else { Verdict::Refused };
    exit_status(name, run(arguments).map(verdict))
}

/// The exit status of a program; what it could not do is said on the error output, behind its name.
fn exit_status(program: &str, ended: Result<Verdict, Fault>) -> ExitCode {
    match ended {
        Ok(Verdict::Accepted) | Err(Fault::OutputClosed) => ExitCode::SUCCESS,
        Ok(Verdict::Refused) => ExitCode::from(1),
        Ok(Verdict::Status(status)) => ExitCode::from(status),
        Err(Fault::WrongUse(message)) => {
            eprintln!("{program}: {message}");
            ExitCode::from(2)
        }
    }
}

fn dispatch(mut arguments: Arguments, output: &mut dyn Write) -> Result<Verdict, Fault> {
    let Some(name) = arguments.first() else {
        return Err(Fault::new(format_args!("no subcommand is named\n{HELP}")));
    };
    if name == "--help" || name == "-h" || name == "help" {
        output.write_all(HELP.as_bytes())?;
        return Ok(Verdict::Accepted);
    }
    let Some(subcommand) = SUBCOMMANDS.iter().find(|subcommand| name == subcommand.name) else {
        return Err(Fault::new(format_args!("there is no subcommand {}\n{HELP}", name.to_string_lossy())));
    };
    if arguments.flag("--help") || arguments.flag("-h") {
        output.write_all(subcommand.help.as_bytes())?;
        return Ok(Verdict::Accepted);
    }
    (subcommand.run)(arguments, output)
}

/// The bytes of a file.
pub fn read(path: &Path) -> Result<Vec<u8>, Fault> {
    std::fs::read(path).map_err(|fault| Fault::new(format_args!("{} cannot be read: {fault}", path.display())))
}
