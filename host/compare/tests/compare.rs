//! The comparison at a size for every day, and that it can fail.
//!
//! What needs the crate's text is passed over, and says so, where that is not at hand.

use loadplan_compare::compare::{faults_of_the_list, Comparison, Findings};
use loadplan_compare::damage::Amount;
use loadplan_compare::made::made;
use loadplan_compare::oracle::Oracle;
use loadplan_compare::places;
use loadplan_compare::plans;
use loadplan_compare::port::Port;
use loadplan_compare::recorded;

const REFUSALS: [u32; 10] = [0, 14, 20, 21, 22, 23, 24, 25, 26, 27];

#[test]
fn the_corpus_has_the_files_that_are_made_and_listed() {
    let corpus = places::corpus().expect("the corpus is there");
    for file in made().into_iter().chain(places::files_of_the_list().expect("the list is there")) {
        let committed = corpus.iter().find(|committed| committed.name == file.name);
        assert_eq!(committed.map(|committed| &committed.bytes), Some(&file.bytes), "{}", file.name);
    }
}

#[test]
fn the_port_answers_as_the_list_of_differences_says() {
    for entry in places::differences().expect("the list is there") {
        let text = Port::default().text(&entry.file);
        for answer in &entry.answers {
            assert!(text.lines().any(|line| line == format!("01 {answer}")), "{}: {answer}", entry.name);
        }
    }
}

#[test]
fn damaged_files_are_answered_as_recorded() {
    let page =
        std::fs::read_to_string(places::repository().join("tests/answers/damaged.txt")).expect("answers are recorded");
    let corpus = places::corpus().expect("the corpus is there");
    assert_eq!(page.lines().count(), corpus.len());
    for (file, line) in corpus.iter().zip(page.lines()) {
        assert_eq!(recorded::of_the_port(file, &Port::default()), line);
    }
}

#[test]
fn random_files_are_planned_and_loaded_by_the_rules() {
    let tally = plans::compare(200_000, 1).unwrap_or_else(|fault| panic!("{fault}"));
    for refusal in REFUSALS {
        let count = tally.get(&refusal).copied().unwrap_or(0);
        assert!(count >= 100, "refusal {refusal} was the answer {count} times only");
    }
}

#[test]
fn damaged_files_are_planned_and_loaded_by_the_rules() {
    let mut tally = plans::Tally::new();
    for file in places::corpus().expect("the corpus is there") {
        let amount = Amount { front: 256, random: 500, seed: 1 };
        plans::compare_damaged(&file.name, &file.bytes, amount, &mut tally).unwrap_or_else(|fault| panic!("{fault}"));
    }
    let refusals = REFUSALS.iter().filter(|refusal| **refusal != 14);
    assert!(refusals.into_iter().all(|refusal| tally.contains_key(refusal)), "{tally:?}");
}

/// The program that asks the crate, where the crate's text is at hand.
fn oracle() -> Option<Oracle> {
    match places::oracle(&places::shared()) {
        Ok(oracle) => Some(oracle),
        Err(fault) => {
            eprintln!("not compared with the crate: {fault}");
            None
        }
    }
}

#[test]
fn the_crate_and_the_port_answer_the_same() {
    let Some(oracle) = oracle() else { return };
    let port = Port::default();
    let mut comparison = Comparison { oracle: &oracle, port: &port, findings: Findings::default() };
    let amount = Amount { front: 8, random: 100, seed: 1 };
    for file in places::corpus().expect("the corpus is there") {
        comparison.file(&file, amount).expect("the comparison works");
    }
    comparison.made_files(Amount { random: 2, ..amount }).expect("the comparison works");
    let findings = &comparison.findings;
    println!("compared {} inputs, {} answers", findings.inputs, findings.answers);
    assert!(findings.inputs >= 200_000, "{} inputs only", findings.inputs);
    assert!(findings.differences.is_empty(), "{:?}", findings.differences.keys());
    assert!(findings.slow.is_empty(), "{:?}", findings.slow);
    let faults = faults_of_the_list(&places::differences().expect("the list is there"), &oracle, &port);
    assert_eq!(faults.expect("the comparison works"), Vec::<String>::new());
}

#[test]
fn a_wrong_port_is_caught_and_its_file_made_small() {
    let Some(oracle) = oracle() else { return };
    let port = Port { wrong: Some("nametab".to_string()) };
    let mut comparison = Comparison { oracle: &oracle, port: &port, findings: Findings::default() };
    let file = places::corpus().expect("the corpus is there").into_iter().find(|file| file.name == "x86-64-static");
    let amount = Amount { front: 0, random: 0, seed: 1 };
    comparison.file(&file.expect("it is in the corpus"), amount).expect("the comparison works");
    let shrunk = comparison.shrunk().expect("the comparison works");
    let (difference, input) =
        shrunk.iter().find(|(difference, _)| difference.of_the_port == "01 nametab = none").expect("it is caught");
    assert!(difference.of_the_crate.starts_with("01 nametab = ok"));
    // A file header and two section headers: with one, the table of names would have to be section 0, which means none.
    assert_eq!(input.len(), 64 + 2 * 64, "{input:x?}");
}
