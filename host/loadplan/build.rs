//! Finds the proved archive and has it linked.
//!
//! The archive libloadplan.a is looked for in the folder that LOADPLAN_ARCHIVE names, else in target/staticlib of the
//! repository. If it is not there it is proved and made by `tools/archive`; with LOADPLAN_ARCHIVE set nothing is
//! made, a missing archive is then an error.

use std::env;
use std::path::{Path, PathBuf};
use std::process::Command;

const ARCHIVE: &str = "libloadplan.a";

fn main() {
    println!("cargo:rerun-if-env-changed=LOADPLAN_ARCHIVE");
    let folder = match env::var_os("LOADPLAN_ARCHIVE") {
        Some(named) => PathBuf::from(named),
        None => archive_of_repository(),
    };
    let archive = folder.join(ARCHIVE);
    if !archive.is_file() {
        panic!("{} is not there", archive.display());
    }
    println!("cargo:rerun-if-changed={}", archive.display());
    println!("cargo:rustc-link-search=native={}", folder.display());
    println!("cargo:rustc-link-lib=static=loadplan");
}

fn archive_of_repository() -> PathBuf {
    let here = PathBuf::from(env::var_os("CARGO_MANIFEST_DIR").expect("cargo names the folder of the crate"));
    let repository = here.ancestors().nth(2).expect("the crate stands two folders below the repository").to_path_buf();
    let folder = repository.join("target").join("staticlib");
    if !folder.join(ARCHIVE).is_file() {
        prove(&repository);
    }
    folder
}

fn prove(repository: &Path) {
    println!("cargo:warning=no {ARCHIVE} yet: proving it with tools/archive, this takes minutes");
    let ended = Command::new(repository.join("tools").join("archive")).status();
    match ended {
        Ok(status) if status.success() => {}
        Ok(status) => panic!("tools/archive ended with {status}"),
        Err(fault) => panic!("tools/archive cannot be started: {fault}"),
    }
}
