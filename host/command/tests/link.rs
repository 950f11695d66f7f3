//! The archive links where there is no C library: what it needs of its host, the header for C and C++, and two monitors that
//! load the sample, one in C and one in Rust without a standard library.
#![cfg(all(target_os = "linux", target_arch = "x86_64"))]

mod common;

use std::path::Path;
use std::process::Command;

use common::{archive_folder, repository, tool, Folder};

/// The functions that the archive asks of its host. README and header leave room for memcpy, memmove and memcmp, for another compiler;
/// a host may bring no more than this one, so a further name that comes in by the code is told here.
const OF_THE_HOST: [&str; 1] = ["memset"];

/// The names of kind `kinds` in what nm says.
fn symbols(listing: &str, kinds: &str) -> Vec<String> {
    let named = listing.lines().filter_map(|line| {
        let (kind, name) = line.get(17..)?.split_once(' ')?;
        kinds.contains(kind).then(|| name.to_string())
    });
    named.collect()
}

#[test]
fn the_archive_needs_memset_alone() {
    let listing = tool("nm", [archive_folder().join("libloadplan.a")]);
    let defined = symbols(&listing, "TW");
    let needed: Vec<String> = symbols(&listing, "U").into_iter().filter(|name| !defined.contains(name)).collect();
    assert!(defined.contains(&"loadplan_load".to_string()), "{defined:?}");
    assert!(needed.iter().all(|name| OF_THE_HOST.contains(&name.as_str())), "it needs {needed:?}");
}

#[test]
fn the_header_is_c_and_cpp() {
    let folder = Folder::new();
    let include = format!("-I{}", repository().join("include").display());
    for (compiler, language, standard) in [("cc", "c", "-std=c99"), ("c++", "c++", "-std=c++11")] {
        let source = folder.file("empty");
        std::fs::write(&source, "#include \"loadplan.h\"\n").expect("a file can be written");
        let source = source.to_str().expect("UTF-8");
        let warnings = ["-Wall", "-Wextra", "-Werror", "-pedantic"];
        tool(compiler, [&[standard, &include, "-fsyntax-only", "-x", language, source], &warnings[..]].concat());
    }
}

/// Runs a monitor; 0 is what it ends with if all is as it should be.
fn assert_monitor(path: &Path) {
    let ended = Command::new(path).status().expect("the monitor starts");
    assert_eq!(ended.code(), Some(0), "the monitor found fault {ended}");
}

#[test]
fn a_monitor_in_c_loads_the_sample() {
    let folder = Folder::new();
    let monitor = folder.file("monitor");
    let include = format!("-I{}", repository().join("include").display());
    let source = repository().join("tests/monitor-c/monitor.c");
    let archive = archive_folder().join("libloadplan.a");
    let paths = [&source, &archive, &monitor].map(|path| path.to_str().expect("UTF-8"));
    let warnings = ["-std=c99", "-Wall", "-Wextra", "-Werror", "-pedantic", "-O2"];
    let alone = ["-ffreestanding", "-fno-stack-protector", "-nostdlib", "-static"];
    tool("cc", [&warnings[..], &alone[..], &[&include, paths[0], paths[1], "-o", paths[2]]].concat());
    assert_monitor(&monitor);
}

#[test]
fn a_monitor_in_rust_loads_the_sample() {
    let manifest = repository().join("tests/monitor-rust/Cargo.toml");
    // Beside the workspace's own, so that building again takes no time.
    let target = repository().join("host/target/monitor");
    let words = ["build", "--quiet", "--offline", "--manifest-path"];
    let paths = [manifest.to_str().expect("UTF-8"), "--target-dir", target.to_str().expect("UTF-8")];
    tool(env!("CARGO"), [&words[..], &paths[..]].concat());
    assert_monitor(&target.join("debug/monitor"));
}
