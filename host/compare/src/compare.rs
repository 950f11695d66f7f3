//! The comparison: files and their damaged copies, asked of the crate and of the port.

use std::collections::BTreeMap;
use std::io;
use std::time::Duration;

use loadplan_command::ask::digest;

use crate::damage::{damaged, damaged_at_random, Amount};
use crate::hash_tables::hash_tables;
use crate::listed::Listed;
use crate::made::{long_files, Made};
use crate::oracle::{Inputs, Oracle};
use crate::port::Port;
use crate::shrink::{smallest, Difference};
use crate::slow_files::compared_files;

/// How many kinds of differences are made small and shown; one that is there is enough to fail.
const MOST_KINDS: usize = 20;

/// What was found so far.
#[derive(Debug, Default)]
pub struct Findings {
    pub inputs: u64,
    pub answers: u64,
    /// Per kind of difference, an input that shows it.
    pub differences: BTreeMap<String, Vec<u8>>,
    /// Inputs that took too long, with the time.
    pub slow: Vec<(String, Duration)>,
}

pub struct Comparison<'a> {
    pub oracle: &'a Oracle,
    pub port: &'a Port,
    pub findings: Findings,
}

impl Comparison<'_> {
    /// Compares a file and its damaged copies.
    pub fn file(&mut self, file: &Made, amount: Amount) -> io::Result<()> {
        self.inputs(&file.name, &|each| damaged(&file.name, &file.bytes, amount, each))
    }

    /// Compares files that are made when they are needed: hash tables, with copies damaged at random, long files and slow ones.
    pub fn made_files(&mut self, amount: Amount) -> io::Result<()> {
        let (tables, long) = (hash_tables(amount.seed), long_files());
        self.inputs("hash tables", &|each| {
            tables.iter().for_each(|file| damaged_at_random(&file.name, &file.bytes, amount, each));
        })?;
        self.inputs("long files", &|each| long.iter().for_each(|file| each(&file.bytes)))?;
        self.inputs("slow files", &|each| compared_files(each))
    }

    /// Compares many inputs.
    pub fn inputs(&mut self, name: &str, inputs: &Inputs<'_>) -> io::Result<()> {
        let port = self.port;
        let findings = &mut self.findings;
        let (theirs, ours) = self.oracle.digests(inputs, || {
            let mut digests = Vec::new();
            inputs(&mut |input| {
                let (text, slow) = port.timed(input);
                findings.inputs += 1;
                findings.answers += text.bytes().filter(|&byte| byte == b'\n').count() as u64;
                findings.slow.extend(slow.map(|took| (format!("{name}, input {}", digests.len()), took)));
                digests.push(digest(&text));
            });
            digests
        })?;
        if theirs.len() != ours.len() {
            return Err(io::Error::other(format!("{name}: {} answers for {} inputs", theirs.len(), ours.len())));
        }
        let differing = (0..ours.len()).filter(|&number| theirs[number] != ours[number]).collect::<Vec<_>>();
        self.look_at(inputs, &differing)
    }

    /// Puts the inputs with these numbers, which are ascending, to their kinds of difference.
    fn look_at(&mut self, inputs: &Inputs<'_>, numbers: &[usize]) -> io::Result<()> {
        if numbers.is_empty() {
            return Ok(());
        }
        let mut wanted = numbers.iter().take(10_000).peekable();
        let mut chosen = Vec::new();
        let mut number = 0;
        inputs(&mut |input| {
            if wanted.next_if(|&&next| next == number).is_some() {
                chosen.push(input.to_vec());
            }
            number += 1;
        });
        for (input, text) in chosen.iter().zip(self.oracle.texts(&chosen, false)?) {
            let Some(difference) = Difference::between(&text, &self.port.text(input)) else { continue };
            let shown = self.findings.differences.entry(difference.kind()).or_insert_with(|| input.clone());
            if input.len() < shown.len() {
                shown.clone_from(input);
            }
        }
        Ok(())
    }

    /// Each kind of difference with its smallest input.
    pub fn shrunk(&self) -> io::Result<Vec<(Difference, Vec<u8>)>> {
        let mut shown = Vec::new();
        for (kind, input) in self.findings.differences.iter().take(MOST_KINDS) {
            let small = smallest(input, kind, self.oracle, self.port)?;
            let text = self.oracle.texts(std::slice::from_ref(&small), false)?.remove(0);
            if let Some(difference) = Difference::between(&text, &self.port.text(&small)) {
                shown.push((difference, small));
            }
        }
        Ok(shown)
    }
}

/// What is wrong with the list of differences: the port must answer as the list says, and so must the crate where the list has
/// an answer of its own for it, which must not be the port's.
pub fn faults_of_the_list(listed: &[Listed], oracle: &Oracle, port: &Port) -> io::Result<Vec<String>> {
    let files: Vec<Vec<u8>> = listed.iter().map(|entry| entry.file.clone()).collect();
    let mut faults = Vec::new();
    for (entry, of_the_crate) in listed.iter().zip(oracle.texts(&files, true)?) {
        let ours = port.text(&entry.file);
        let mut expect = |text: &str, line: &str, whose: &str| {
            if !text.lines().any(|said| said == line) {
                faults.push(format!("{}: {whose} does not answer {line}", entry.name));
            }
        };
        entry.answers.iter().for_each(|answer| expect(&ours, &format!("01 {answer}"), "the port"));
        entry.of_the_crate.iter().for_each(|answer| expect(&of_the_crate, answer, "the crate"));
    }
    Ok(faults)
}
