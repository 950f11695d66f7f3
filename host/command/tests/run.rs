//! `loadplan run`: real programs, loaded blind and run; and cut copies of them, which must not start.
#![cfg(all(target_os = "linux", target_arch = "x86_64"))]

mod common;

use std::fs;
use std::path::{Path, PathBuf};
use std::process::Output;

use common::{loadplan, made, repository, text, tool, Folder};

/// Small, without a C library, all segments of its own pages.
const SMALL: [&str; 7] = [
    "-nostdlib",
    "-ffreestanding",
    "-fno-stack-protector",
    "-O1",
    "-s",
    "-Wl,--build-id=none",
    "-Wl,-z,noseparate-code",
];
/// The same position independent.
const INDEPENDENT: [&str; 2] = ["-static-pie", "-fPIE"];
const FIXED: [&str; 2] = ["-static", "-fno-pie"];

fn program(folder: &Folder, source: &str, how: &[&str]) -> PathBuf {
    let made = folder.file("program");
    let source = repository().join("tests/programs").join(source);
    let mut words: Vec<&str> = SMALL.iter().chain(how).copied().collect();
    words.extend(["-o", made.to_str().expect("UTF-8"), source.to_str().expect("UTF-8")]);
    tool("cc", words);
    made
}

fn run(path: &Path, words: &[&str]) -> Output {
    let mut all = vec!["run".as_ref(), path.as_os_str()];
    all.extend(words.iter().map(AsRef::<std::ffi::OsStr>::as_ref));
    loadplan(all)
}

/// Every shorter copy of a program is refused and does nothing.
fn shorter_copies_are_refused(folder: &Folder, path: &Path) {
    let whole = fs::read(path).expect("the program was made");
    assert!(whole.len() < 10_000, "{} bytes take too long", whole.len());
    let copy = folder.file("copy");
    for length in 0..whole.len() {
        fs::write(&copy, &whole[..length]).expect("a file can be written");
        let output = run(&copy, &[]);
        let said = text(&output.stderr);
        assert_eq!((output.status.code(), &output.stdout[..]), (Some(1), &b""[..]), "{length} bytes: {said}");
        assert!(said.contains("refused, 20: "), "{length} bytes: {said}");
    }
}

#[test]
fn the_sample_ends_at_once() {
    assert_eq!(run(&made("sample"), &[]).status.code(), Some(0));
}

#[test]
fn a_program_without_a_c_library_runs() {
    let folder = Folder::new();
    let path = program(&folder, "hello.s", &FIXED);
    for window in [&[][..], &["--window", "0x400000+0x10000"]] {
        let output = run(&path, window);
        assert_eq!(text(&output.stdout), "hello from a window\n");
        assert_eq!(output.status.code(), Some(42), "{}", text(&output.stderr));
    }
    shorter_copies_are_refused(&folder, &path);
}

#[test]
fn a_position_independent_program_runs_where_its_window_is() {
    let folder = Folder::new();
    let path = program(&folder, "where.c", &INDEPENDENT);
    for (window, start) in [("0x10000000+0x10000", 0x1000_0000), ("0x7654321000+0x20000", 0x76_5432_1000)] {
        let output = run(&path, &["--window", window]);
        assert_eq!(output.status.code(), Some(7), "{}", text(&output.stderr));
        let address = u64::from_str_radix(text(&output.stdout).trim(), 16).expect("an address");
        assert!((start..start + 0x10000).contains(&address), "{address:x} is not in {window}");
    }
    assert_eq!(run(&path, &[]).status.code(), Some(7));
    let kernels = run(&path, &["--window", "0xffffffff80000000+0x10000"]);
    assert_eq!(kernels.status.code(), Some(2));
    assert!(text(&kernels.stderr).contains("cannot be had"));
    shorter_copies_are_refused(&folder, &path);
}

#[test]
fn memory_behind_the_data_is_zero() {
    let folder = Folder::new();
    let path = program(&folder, "zeros.c", &FIXED);
    let output = run(&path, &[]);
    assert_eq!(text(&output.stdout), "data...\n");
    assert_eq!(output.status.code(), Some(0));
    shorter_copies_are_refused(&folder, &path);
}

#[test]
fn protections_hold() {
    let folder = Folder::new();
    let output = run(&program(&folder, "trespass.c", &FIXED), &[]);
    assert_eq!(output.status.code(), Some(128 + 11));
    assert!(text(&output.stderr).contains("ended by signal 11"));
}

#[test]
fn files_that_are_not_for_here_are_refused() {
    for (name, reason) in [("powerpc-static", "no program for x86-64"), ("x86-64-caller", "asks for a dynamic loader")]
    {
        let output = run(&made(name), &[]);
        assert_eq!(output.status.code(), Some(1));
        assert!(text(&output.stderr).contains(reason), "{}", text(&output.stderr));
    }
    let outside = run(&made("sample"), &["--window", "0x400000+0x1000"]);
    assert_eq!(outside.status.code(), Some(1));
    assert!(text(&outside.stderr).contains("refused, 24: "));
}
