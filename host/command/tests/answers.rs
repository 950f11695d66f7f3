//! The canonical answers: those recorded of the crate, and the ways to ask for them.

mod common;

use std::fs;
use std::io::Write;
use std::process::{Command, Stdio};

use common::{corpus, loadplan, made, name_of, repository, text};
use loadplan_command::ask::{ask, digest};

fn recorded(name: &str) -> String {
    let path = repository().join("tests/answers/recorded").join(format!("{name}.txt"));
    fs::read_to_string(&path).unwrap_or_else(|fault| panic!("{} is not recorded: {fault}", path.display()))
}

#[test]
fn the_corpus_is_answered_as_recorded() {
    for path in corpus() {
        let name = name_of(&path);
        let answers = ask(&fs::read(&path).expect("the corpus can be read"), false);
        for (ours, theirs) in answers.lines().zip(recorded(&name).lines()) {
            assert_eq!(ours, theirs, "in {name}");
        }
        assert_eq!(answers.lines().count(), recorded(&name).lines().count(), "lines about {name}");
    }
}

#[test]
fn every_recorded_file_is_in_the_corpus() {
    let folder = repository().join("tests/answers/recorded");
    let entries = fs::read_dir(folder).expect("answers are recorded");
    assert_eq!(entries.count(), corpus().len());
}

#[test]
fn one_file_is_answered_without_a_heading_and_several_with_one() {
    let (sample, other) = (made("sample"), made("symbols-link-before-size"));
    let alone = loadplan(["ask".as_ref(), sample.as_os_str()]);
    assert_eq!(text(&alone.stdout), recorded("sample"));
    let both = loadplan(["ask".as_ref(), sample.as_os_str(), other.as_os_str()]);
    let headings = [format!("== {}\n", sample.display()), format!("== {}\n", other.display())];
    let expected = [&headings[0], &recorded("sample"), &headings[1], &recorded("symbols-link-before-size")];
    assert_eq!(text(&both.stdout), expected.map(String::as_str).concat());
}

#[test]
fn full_answers_say_more_and_nothing_else() {
    let path = made("x86-64-library.so");
    let file = fs::read(path).expect("the corpus can be read");
    let (full, some) = (ask(&file, true), ask(&file, false));
    let full: Vec<&str> = full.lines().collect();
    assert!(some.lines().all(|line| full.contains(&line)));
    assert!(full.len() > some.lines().count());
}

/// What the command writes for a stream of these inputs.
fn streamed(words: &[&str], inputs: &[Vec<u8>]) -> Vec<u8> {
    let mut command = Command::new(env!("CARGO_BIN_EXE_loadplan"));
    let command = command.args(["ask", "--stream"]).args(words).stdin(Stdio::piped()).stdout(Stdio::piped());
    let mut child = command.spawn().expect("the command starts");
    let mut stream = child.stdin.take().expect("it reads");
    for input in inputs {
        stream.write_all(&(input.len() as u32).to_le_bytes()).expect("it reads on");
        stream.write_all(input).expect("it reads on");
    }
    drop(stream);
    let output = child.wait_with_output().expect("it ends");
    assert!(output.status.success());
    output.stdout
}

#[test]
fn a_stream_is_answered_input_by_input() {
    let inputs = vec![fs::read(made("sample")).expect("it can be read"), Vec::new(), b"\x7fELF".to_vec()];
    let texts: Vec<String> = inputs.iter().map(|input| ask(input, false)).collect();
    let framed = |text: &String| [&(text.len() as u32).to_le_bytes()[..], text.as_bytes()].concat();
    assert_eq!(streamed(&[], &inputs), texts.iter().flat_map(framed).collect::<Vec<u8>>());
    let digests: Vec<u8> = texts.iter().flat_map(|text| digest(text).to_le_bytes()).collect();
    assert_eq!(streamed(&["--digest"], &inputs), digests);
}

#[test]
fn a_file_that_cannot_be_read_is_wrong_use() {
    let output = loadplan(["ask", "no such file"]);
    assert_eq!(output.status.code(), Some(2));
    assert!(text(&output.stderr).contains("no such file"));
    assert_eq!(loadplan(["ask"]).status.code(), Some(2));
    assert_eq!(loadplan(["ask", "--unknown"]).status.code(), Some(2));
}
