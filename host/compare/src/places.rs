//! Where things are: the corpus, the list of differences, the crate's text.

use std::fs;
use std::io;
use std::path::{Path, PathBuf};

use crate::listed::{listed, Listed};
use crate::made::Made;
use crate::oracle::Oracle;

/// The root of the repository.
pub fn repository() -> PathBuf {
    let here = Path::new(env!("CARGO_MANIFEST_DIR"));
    here.ancestors().nth(2).unwrap_or(here).to_path_buf()
}

/// The folder with the crate's text: the one that LOADPLAN_SHARED names, else `shared` beside the repository.
pub fn shared() -> PathBuf {
    match std::env::var_os("LOADPLAN_SHARED") {
        Some(folder) => PathBuf::from(folder),
        None => repository().with_file_name("shared"),
    }
}

/// The program that asks the crate, built from a folder with the crate's text.
pub fn oracle(shared: &Path) -> io::Result<Oracle> {
    let script = shared.join("oracle/make");
    match script.is_file() {
        true => Oracle::build(&script, &repository().join("host/target/oracle")),
        false => Err(io::Error::other(format!("{} is not there", script.display()))),
    }
}

/// The entries of docs/DIFFERENCES.md.
pub fn differences() -> io::Result<Vec<Listed>> {
    Ok(listed(&fs::read_to_string(repository().join("docs/DIFFERENCES.md"))?))
}

/// Their files, by their names.
pub fn files_of_the_list() -> io::Result<Vec<Made>> {
    let entries = differences()?.into_iter();
    Ok(entries.map(|entry| Made { name: entry.name, bytes: entry.file }).collect())
}

pub fn name_of(path: &Path) -> String {
    path.file_name().unwrap_or_default().to_string_lossy().into_owned()
}

/// The files of the corpus, in the order of their names.
pub fn corpus() -> io::Result<Vec<Made>> {
    let entries = fs::read_dir(repository().join("tests/corpus/made"))?;
    let mut paths = entries.map(|entry| Ok(entry?.path())).collect::<io::Result<Vec<_>>>()?;
    paths.sort();
    paths.iter().map(|path| Ok(Made { name: name_of(path), bytes: fs::read(path)? })).collect()
}
