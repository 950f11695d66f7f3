//! What the tests of the command share: where things are, and the command itself.
//!
//! Every test file is a program of its own and uses some of this, so what one of them does not use is no fault.
#![allow(dead_code)]

use std::ffi::OsStr;
use std::fs;
use std::path::{Path, PathBuf};
use std::process::{Command, Output};
use std::sync::atomic::{AtomicUsize, Ordering};

/// The root of the repository.
pub fn repository() -> PathBuf {
    let here = Path::new(env!("CARGO_MANIFEST_DIR"));
    here.ancestors().nth(2).expect("the crate stands two folders below the repository").to_path_buf()
}

/// The folder that the archive is linked from.
pub fn archive_folder() -> PathBuf {
    match std::env::var_os("LOADPLAN_ARCHIVE") {
        Some(folder) => PathBuf::from(folder),
        None => repository().join("target/staticlib"),
    }
}

/// A file of the corpus.
pub fn made(name: &str) -> PathBuf {
    repository().join("tests/corpus/made").join(name)
}

/// Every file of the corpus, in the order of their names.
pub fn corpus() -> Vec<PathBuf> {
    let entries = fs::read_dir(repository().join("tests/corpus/made")).expect("the corpus is there");
    let mut files: Vec<PathBuf> = entries.map(|entry| entry.expect("it can be listed").path()).collect();
    files.sort();
    assert!(files.len() >= 50, "the corpus has {} files only", files.len());
    files
}

pub fn name_of(path: &Path) -> String {
    path.file_name().expect("a file has a name").to_string_lossy().into_owned()
}

/// Runs the command and waits for it.
pub fn loadplan<W: AsRef<OsStr>>(words: impl IntoIterator<Item = W>) -> Output {
    Command::new(env!("CARGO_BIN_EXE_loadplan")).args(words).output().expect("the command starts")
}

/// Runs another program, which must succeed; what it wrote.
pub fn tool<W: AsRef<OsStr>>(name: &str, words: impl IntoIterator<Item = W>) -> String {
    let output =
        Command::new(name).args(words).output().unwrap_or_else(|fault| panic!("{name} cannot be started: {fault}"));
    assert!(output.status.success(), "{name} failed: {}", String::from_utf8_lossy(&output.stderr));
    text(&output.stdout)
}

pub fn text(bytes: &[u8]) -> String {
    String::from_utf8_lossy(bytes).into_owned()
}

/// A folder of its own for a test, which goes when the test does.
pub struct Folder(PathBuf);

impl Folder {
    pub fn new() -> Self {
        static COUNT: AtomicUsize = AtomicUsize::new(0);
        let number = COUNT.fetch_add(1, Ordering::Relaxed);
        let path = std::env::temp_dir().join(format!("loadplan-test-{}-{number}", std::process::id()));
        fs::create_dir_all(&path).expect("a folder can be made");
        Folder(path)
    }

    pub fn file(&self, name: &str) -> PathBuf {
        self.0.join(name)
    }
}

impl Drop for Folder {
    fn drop(&mut self) {
        let _ = fs::remove_dir_all(&self.0);
    }
}
