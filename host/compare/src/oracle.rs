//! The program that asks the crate: built from the crate's text where that is at hand, and fed with inputs.
//!
//! It reads inputs as their length (four bytes, lowest first) and their bytes, and writes texts the same way, or digests of
//! eight bytes. It writes when it likes, at the latest when its input ends; so whoever feeds it reads at the same time.

use std::io::{self, BufWriter, Read, Write};
use std::path::{Path, PathBuf};
use std::process::{Child, ChildStdin, Command, Stdio};
use std::thread;

/// Hands inputs to whoever asks for them, the same ones every time.
pub type Inputs<'a> = dyn Fn(&mut dyn FnMut(&[u8])) + Sync + 'a;

#[derive(Clone, Debug)]
pub struct Oracle {
    program: PathBuf,
}

impl Oracle {
    /// A program that was built before.
    pub fn new(program: PathBuf) -> Self {
        Oracle { program }
    }

    /// Builds it with the script that stands beside the crate's text, in a folder of its own.
    pub fn build(script: &Path, folder: &Path) -> io::Result<Self> {
        let output = Command::new(script).arg(folder).stderr(Stdio::inherit()).output()?;
        let said = String::from_utf8_lossy(&output.stdout).into_owned();
        match said.lines().last().filter(|_| output.status.success()) {
            Some(program) => Ok(Oracle { program: PathBuf::from(program) }),
            None => Err(io::Error::other(format!("{} ended with {}", script.display(), output.status))),
        }
    }

    fn start(&self, words: &[&str]) -> io::Result<Child> {
        Command::new(&self.program).args(words).stdin(Stdio::piped()).stdout(Stdio::piped()).spawn()
    }

    /// Feeds inputs on a thread of its own while this one does `meanwhile`; both answers.
    fn fed<T>(&self, words: &[&str], inputs: &Inputs<'_>, meanwhile: impl FnOnce() -> T) -> io::Result<(Vec<u8>, T)> {
        let mut child = self.start(words)?;
        let input = child.stdin.take().expect("it was asked for");
        let mut output = child.stdout.take().expect("it was asked for");
        let answers = thread::scope(|scope| {
            let feeder = scope.spawn(move || feed(input, inputs));
            let reader = scope.spawn(move || {
                let mut answers = Vec::new();
                output.read_to_end(&mut answers).map(|_| answers)
            });
            let done = meanwhile();
            feeder.join().expect("the feeder does not panic")?;
            Ok::<_, io::Error>((reader.join().expect("the reader does not panic")?, done))
        })?;
        match child.wait()?.success() {
            true => Ok(answers),
            false => Err(io::Error::other("the crate's program failed")),
        }
    }

    /// The digest of the crate's answers about each input, and what `meanwhile` answers.
    pub fn digests<T>(&self, inputs: &Inputs<'_>, meanwhile: impl FnOnce() -> T) -> io::Result<(Vec<u64>, T)> {
        let (bytes, done) = self.fed(&["--base", "--stream", "--digest"], inputs, meanwhile)?;
        let digests = bytes.chunks_exact(8).map(|eight| u64::from_le_bytes(eight.try_into().expect("eight bytes")));
        Ok((digests.collect(), done))
    }

    /// The crate's answers about each input: those that the port offers too, or all.
    pub fn texts(&self, inputs: &[Vec<u8>], all: bool) -> io::Result<Vec<String>> {
        let words: &[&str] = if all { &["--stream"] } else { &["--base", "--stream"] };
        let (bytes, ()) = self.fed(words, &|each| inputs.iter().for_each(|input| each(input)), || ())?;
        let mut texts = Vec::new();
        let mut rest = &bytes[..];
        while let Some((length, behind)) = rest.split_first_chunk::<4>() {
            let (text, behind) = behind.split_at(u32::from_le_bytes(*length) as usize);
            texts.push(String::from_utf8_lossy(text).into_owned());
            rest = behind;
        }
        Ok(texts)
    }
}

fn feed(input: ChildStdin, inputs: &Inputs<'_>) -> io::Result<()> {
    let mut input = BufWriter::with_capacity(1 << 20, input);
    let mut fault = None;
    inputs(&mut |bytes| {
        if fault.is_none() {
            let length = (bytes.len() as u32).to_le_bytes();
            fault = input.write_all(&length).and_then(|()| input.write_all(bytes)).err();
        }
    });
    match fault {
        Some(fault) => Err(fault),
        None => input.flush(),
    }
}
