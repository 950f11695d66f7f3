//! `loadplan run` on machines that it does not know: it refuses.

use std::io::Write;

use crate::arguments::Arguments;
use crate::{Fault, Verdict};

pub const HELP: &str = "loadplan run works on Linux on x86-64 only\n";

pub fn run(_: Arguments, _: &mut dyn Write) -> Result<Verdict, Fault> {
    Err(Fault::new("run works on Linux on x86-64 only"))
}
