//! `loadplan plan`: what it shows of the sample, of refused files, and to programs.

mod common;

use std::fs;
use std::path::{Path, PathBuf};
use std::process::Output;

use common::{loadplan, made, text, Folder};

fn plan(path: &Path, words: &[&str]) -> Output {
    let mut all = vec!["plan".as_ref(), path.as_os_str()];
    all.extend(words.iter().map(AsRef::<std::ffi::OsStr>::as_ref));
    loadplan(all)
}

/// The sample with one byte set.
fn sample_with(folder: &Folder, at: usize, byte: u8) -> PathBuf {
    let mut file = fs::read(made("sample")).expect("the sample is there");
    file[at] = byte;
    let path = folder.file(&format!("sample-{at:x}-{byte:x}"));
    fs::write(&path, file).expect("a file can be written");
    path
}

const WINDOW: &str = "0x400000+0x2000";

#[test]
fn the_sample_is_drawn() {
    let output = plan(&made("sample"), &["--window", WINDOW]);
    assert_eq!(output.status.code(), Some(0));
    let shown = text(&output.stdout);
    let lines: Vec<&str> = shown.lines().map(str::trim).collect();
    assert!(lines[0].ends_with("sample: accepted in the window 0x400000+0x2000"));
    let table: Vec<Vec<&str>> = lines[2..4].iter().map(|line| line.split_whitespace().collect()).collect();
    assert_eq!(table[0], ["400000", "1000", "r-x", "400000", "b8", "0"]);
    assert_eq!(table[1], ["401000", "1000", "rw-", "4010b8", "8", "b8"]);
    assert_eq!(lines[5], format!("400000  r-x  ##+{}", ".".repeat(61)));
    assert_eq!(lines[6], format!("401000  rw-  ..+{}", ".".repeat(61)));
}

#[test]
fn gaps_and_long_runs_are_told_in_a_line() {
    let folder = Folder::new();
    // The second segment has 0x30018 bytes in memory then.
    let path = sample_with(&folder, 0xa2, 3);
    let shown = text(&plan(&path, &["--window", "0x3fe000+0x40000"]).stdout);
    let lines: Vec<&str> = shown.lines().map(str::trim).collect();
    assert_eq!(lines[5], "3fe000  as it was, 2 pages");
    assert_eq!(lines[8], format!("402000  rw-  {}", ".".repeat(64)));
    assert_eq!(lines[9], "47 more pages like this");
    assert_eq!(lines[10], "432000  as it was, 12 pages");
}

#[test]
fn refusals_name_the_numbers_at_fault() {
    let folder = Folder::new();
    let cases = [
        (
            made("sample"),
            "0x400000+0x1000",
            "24",
            "segment 1: addresses 0x4010b8..0x4010d0 leave the window 0x400000..0x401000",
        ),
        (made("sample"), "4194304+8191", "24", "not both multiples of 0x1000"),
        (sample_with(&folder, 0, 0), WINDOW, "20", "no ELF file"),
        (sample_with(&folder, 0x10, 1), WINDOW, "21", "its type is 1 REL"),
        (sample_with(&folder, 0x98, 0x19), WINDOW, "22", "segment 1: file size 0x19 is above memory size 0x18"),
        (sample_with(&folder, 0x81, 1), WINDOW, "22", "0x1b8..0x1c0 of the file, which ends at 0xc0"),
        (sample_with(&folder, 0x88, 0xb9), WINDOW, "23", "segment 1: address 0x4010b9 is 0xb9 modulo"),
        (
            sample_with(&folder, 0x89, 0x00),
            WINDOW,
            "25",
            "0x400000..0x401000 of segment 0 and 0x400000..0x401000 of segment 1",
        ),
        (sample_with(&folder, 0x7c, 7), WINDOW, "26", "segment 1: its flags are 0x7"),
        (sample_with(&folder, 0x18, 0xb8), WINDOW, "27", "the entry point is 0x4000b8"),
    ];
    for (path, window, number, fault) in cases {
        let output = plan(&path, &["--window", window]);
        let said = text(&output.stderr);
        assert_eq!(output.status.code(), Some(1), "{said}");
        assert!(said.contains(&format!("refused, {number}: ")), "{number} is not in {said}");
        assert!(said.contains(fault), "{fault} is not in {said}");
        assert!(output.stdout.is_empty());
    }
}

#[test]
fn programs_get_json() {
    let output = plan(&made("sample"), &["--window", WINDOW, "--json"]);
    let shown = text(&output.stdout);
    assert!(shown
        .contains(r#""window":{"start":"0x400000","length":8192},"accepted":true,"records":[{"pages":"0x400000","#));
    assert!(shown.contains(
        r#"{"pages":"0x401000","pages_length":4096,"flags":6,"bytes":"0x4010b8","bytes_length":8,"offset":184}]}"#
    ));
    let refused = text(&plan(&made("sample"), &["--json", "--window", "0x400000+0x1000"]).stdout);
    assert!(refused.contains(r#""accepted":false,"refusal":24,"reader":0,"meaning":""#));
}

#[test]
fn several_files_are_planned_and_one_refusal_is_enough() {
    let (good, bad) = (made("sample"), made("x86-64-object.o"));
    let output = loadplan(["plan".as_ref(), good.as_os_str(), bad.as_os_str(), "--window".as_ref(), WINDOW.as_ref()]);
    assert_eq!(output.status.code(), Some(1));
    assert!(text(&output.stdout).contains("sample: accepted"));
    assert!(text(&output.stderr).contains("x86-64-object.o: refused, 20"));
}

#[test]
fn wrong_use_says_what_is_missing() {
    let without = plan(&made("sample"), &[]);
    assert_eq!(without.status.code(), Some(2));
    assert!(text(&without.stderr).contains("the smallest for"));
    assert!(text(&without.stderr).contains("is 0x400000+0x2000"));
    assert_eq!(plan(&made("sample"), &["--window", "400000"]).status.code(), Some(2));
    assert_eq!(plan(&made("sample"), &["--window"]).status.code(), Some(2));
    assert_eq!(loadplan(["plan", "--window", WINDOW]).status.code(), Some(2));
    assert_eq!(loadplan(["no-such-subcommand"]).status.code(), Some(2));
    for subcommand in ["plan", "show", "run", "ask"] {
        let help = loadplan([subcommand, "--help"]);
        assert_eq!(help.status.code(), Some(0));
        assert!(text(&help.stdout).starts_with(&format!("usage: loadplan {subcommand}")));
    }
}
