//! The words of a command line: flags, options with a value, files.
//!
//! Words behind `--` are files, whatever they start with.

use std::collections::VecDeque;
use std::ffi::OsString;
use std::path::PathBuf;

use crate::Fault;

pub struct Arguments {
    words: VecDeque<OsString>,
    /// Words that stood behind `--`.
    behind: Vec<OsString>,
}

impl Arguments {
    pub fn new(words: impl IntoIterator<Item = OsString>) -> Self {
        let mut words: VecDeque<OsString> = words.into_iter().collect();
        let mut behind = Vec::new();
        if let Some(end) = words.iter().position(|word| word == "--") {
            behind = words.split_off(end).into_iter().skip(1).collect();
        }
        Arguments { words, behind }
    }

    /// Takes the first word.
    pub fn first(&mut self) -> Option<OsString> {
        self.words.pop_front()
    }

    /// Takes a flag; whether it was there.
    pub fn flag(&mut self, name: &str) -> bool {
        match self.words.iter().position(|word| word == name) {
            Some(at) => self.words.remove(at).is_some(),
            None => false,
        }
    }

    /// Takes an option and the word behind it.
    pub fn value(&mut self, name: &str) -> Result<Option<String>, Fault> {
        let Some(at) = self.words.iter().position(|word| word == name) else {
            return Ok(None);
        };
        self.words.remove(at);
        match self.words.remove(at).and_then(|word| word.into_string().ok()) {
            Some(value) => Ok(Some(value)),
            None => Err(Fault::new(format_args!("{name} needs a value"))),
        }
    }

    /// Takes an option and the number behind it.
    pub fn number(&mut self, name: &str, otherwise: u64) -> Result<u64, Fault> {
        match self.value(name)? {
            Some(word) => word.parse().map_err(|_| Fault::new(format_args!("{name} needs a number"))),
            None => Ok(otherwise),
        }
    }

    /// The words that are left, as files; an option among them is one that nobody knows.
    pub fn files(self) -> Result<Vec<PathBuf>, Fault> {
        let unknown = self.words.iter().find(|word| word.to_string_lossy().starts_with('-') && word.len() > 1);
        match unknown {
            Some(word) => Err(Fault::new(format_args!("there is no option {}", word.to_string_lossy()))),
            None => Ok(self.words.into_iter().chain(self.behind).map(PathBuf::from).collect()),
        }
    }

    /// The same for a subcommand that takes exactly one file.
    pub fn one_file(self) -> Result<PathBuf, Fault> {
        let mut files = self.files()?;
        match (files.pop(), files.is_empty()) {
            (Some(file), true) => Ok(file),
            _ => Err(Fault::new("name one file")),
        }
    }

    /// The same for a subcommand that takes one file or more.
    pub fn some_files(self) -> Result<Vec<PathBuf>, Fault> {
        let files = self.files()?;
        match files.is_empty() {
            true => Err(Fault::new("name a file")),
            false => Ok(files),
        }
    }
}
