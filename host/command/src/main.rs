//! The command loadplan: what it does stands in the library beside this file.

use std::process::ExitCode;

fn main() -> ExitCode {
    loadplan_command::command(std::env::args_os().skip(1))
}
