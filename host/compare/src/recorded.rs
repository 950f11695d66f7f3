//! The crate's answers about damaged files, kept as one digest a file: to compare with where no crate is at hand.
//!
//! A line is the name of a file of the corpus, how many inputs were made of it, and a digest of the digests of the answers.

use std::io;

use loadplan_command::ask::digest;

use crate::damage::{damaged, Amount};
use crate::made::Made;
use crate::oracle::Oracle;
use crate::port::Port;

/// The damage that is recorded.
const AMOUNT: Amount = Amount { front: 4, random: 200, seed: 1 };

/// A line for these digests.
fn line(name: &str, digests: &[u64]) -> String {
    let text: String = digests.iter().map(|digest| format!("{digest:016x}")).collect();
    format!("{name} {} {:016x}", digests.len(), digest(&text))
}

/// What the crate answers about a file's damaged copies.
pub fn of_the_crate(file: &Made, oracle: &Oracle) -> io::Result<String> {
    let (digests, ()) = oracle.digests(&|each| damaged(&file.name, &file.bytes, AMOUNT, each), || ())?;
    Ok(line(&file.name, &digests))
}

/// What the port answers about them.
pub fn of_the_port(file: &Made, port: &Port) -> String {
    let mut digests = Vec::new();
    damaged(&file.name, &file.bytes, AMOUNT, &mut |input| digests.push(digest(&port.text(input))));
    line(&file.name, &digests)
}
