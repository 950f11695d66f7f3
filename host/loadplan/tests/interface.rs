//! The C header, the Rattle source and this crate's declarations are one interface, written three times: function by function
//! the same name, the same parameters in the same order, the same answer. Nothing else holds the three together.

use std::collections::BTreeMap;
use std::fs;
use std::path::{Path, PathBuf};

use loadplan::parse::ParseError;

/// What is handed over in one parameter: in C a slice is a pointer and a length, in Rattle it is one.
#[derive(Clone, Debug, PartialEq, Eq)]
enum Handed {
    Number(String),
    Slice { of: String, writable: bool },
    Array { of: String, length: usize },
}

#[derive(Debug, PartialEq, Eq)]
struct Function {
    parameters: Vec<(String, Handed)>,
    answer: String,
}

type Functions = BTreeMap<String, Function>;

fn repository() -> PathBuf {
    Path::new(env!("CARGO_MANIFEST_DIR")).ancestors().nth(2).expect("two folders up").to_path_buf()
}

fn read(path: &Path) -> String {
    fs::read_to_string(path).unwrap_or_else(|fault| panic!("{}: {fault}", path.display()))
}

/// The text without what stands between `from` and `to`.
fn without(text: &str, from: &str, to: &str) -> String {
    let mut rest = text;
    let mut kept = String::new();
    while let Some((before, behind)) = rest.split_once(from) {
        kept.push_str(before);
        kept.push(' ');
        rest = behind.split_once(to).map_or("", |(_, behind)| behind);
    }
    kept + rest
}

fn in_one_line(text: &str) -> String {
    text.split_whitespace().collect::<Vec<_>>().join(" ")
}

/// The words between commas, without a last empty one.
fn listed(text: &str) -> Vec<String> {
    text.split(',').map(in_one_line).filter(|word| !word.is_empty()).collect()
}

/// The name of a number type in all three languages.
fn number(name: &str) -> String {
    let known = [("uint8_t", "u8"), ("uint32_t", "u32"), ("uint64_t", "u64"), ("size_t", "usize")];
    known.iter().find(|(c, _)| *c == name).map_or(name, |(_, ours)| ours).to_string()
}

/// A parameter's name in all three languages: `class` is a word of C++, `type` one of Rattle.
fn parameter_name(name: &str) -> String {
    match name {
        "class_" => "class".to_string(),
        "type" => "kind".to_string(),
        _ => name.to_string(),
    }
}

/// Pointers, each with the length behind it, become slices.
fn join_slices(parameters: Vec<(String, Handed)>) -> Vec<(String, Handed)> {
    let mut joined: Vec<(String, Handed)> = Vec::new();
    for (name, handed) in parameters {
        if let Some(of) = name.strip_suffix("_len") {
            let last = joined.last().expect("a length stands behind its pointer");
            assert!(last.0 == of && matches!(last.1, Handed::Slice { .. }), "{name} stands behind {}", last.0);
            assert_eq!(handed, Handed::Number("usize".to_string()));
            continue;
        }
        joined.push((name, handed));
    }
    joined
}

mod c {
    use super::*;

    pub fn functions() -> Functions {
        let text = without(&read(&repository().join("include/loadplan.h")), "/*", "*/");
        let text: String =
            text.lines().filter(|line| !line.trim_start().starts_with('#')).collect::<Vec<_>>().join("\n");
        let text = without(&text.replace("extern \"C\" {", ""), "{", "}");
        text.split(';')
            .map(in_one_line)
            .filter(|statement| statement.contains('('))
            .map(|statement| function(&statement))
            .collect()
    }

    fn function(statement: &str) -> (String, Function) {
        let (front, parameters) = statement.split_once('(').expect("a function has parameters");
        let (answer, name) = front.rsplit_once(' ').expect("a function has a type");
        let answer = match answer {
            "struct loadplan_planned" => "Planned".to_string(),
            other => number(other),
        };
        let parameters = listed(parameters.trim_end_matches(')')).iter().map(|words| parameter(words)).collect();
        (name.to_string(), Function { parameters: join_slices(parameters), answer })
    }

    fn parameter(words: &str) -> (String, Handed) {
        let (kind, name) = words.rsplit_once(' ').expect("a parameter has a type");
        if let Some(name) = name.strip_prefix('*') {
            let (of, writable) = match kind.strip_prefix("const ") {
                Some(of) => (of, false),
                None => (kind, true),
            };
            return (parameter_name(name), Handed::Slice { of: number(of), writable });
        }
        match name.split_once('[') {
            Some((name, length)) => {
                let length = length.trim_end_matches(']').parse().expect("a length");
                (parameter_name(name), Handed::Array { of: number(kind), length })
            }
            None => (parameter_name(name), Handed::Number(number(kind))),
        }
    }
}

mod rust {
    use super::*;

    /// Declarations `fn NAME(PARAMETERS) -> ANSWER` behind a marker.
    fn functions_behind(text: &str, marker: &str) -> Functions {
        text.split(marker).skip(1).map(|behind| function(&in_one_line(behind))).collect()
    }

    fn function(declaration: &str) -> (String, Function) {
        let (name, rest) = declaration.split_once('(').expect("a function has parameters");
        let (parameters, rest) = rest.split_once(')').expect("they end");
        let answer = rest.trim_start().trim_start_matches("->").trim_start();
        let answer = answer.split([' ', '{', ';']).next().expect("an answer");
        let parameters = listed(parameters).iter().map(|words| parameter(words)).collect();
        (name.to_string(), Function { parameters: join_slices(parameters), answer: answer.to_string() })
    }

    fn parameter(words: &str) -> (String, Handed) {
        let (name, kind) = words.split_once(": ").expect("a parameter has a type");
        let handed = if let Some(of) = kind.strip_prefix("*const ") {
            Handed::Slice { of: of.to_string(), writable: false }
        } else if let Some(of) = kind.strip_prefix("*mut ") {
            Handed::Slice { of: of.to_string(), writable: true }
        } else {
            match kind.split_once('[') {
                Some((reference, element)) => in_brackets(element.trim_end_matches(']'), reference == "&mut "),
                None => Handed::Number(kind.to_string()),
            }
        };
        (parameter_name(name), handed)
    }

    fn in_brackets(element: &str, writable: bool) -> Handed {
        match element.split_once("; ") {
            Some((of, length)) => Handed::Array { of: of.to_string(), length: length.parse().expect("a length") },
            None => Handed::Slice { of: element.to_string(), writable },
        }
    }

    /// The exports of the Rattle crate.
    pub fn exports() -> Functions {
        let folder = repository().join("crates/loadplan/src");
        let entries = fs::read_dir(&folder).unwrap_or_else(|fault| panic!("{}: {fault}", folder.display()));
        let sources = entries.map(|entry| entry.expect("it can be listed").path());
        let text: String =
            sources.filter(|path| path.extension().is_some_and(|kind| kind == "rt")).map(|path| read(&path)).collect();
        functions_behind(&without(&text, "//", "\n"), "pub extern \"C\" fn ")
    }

    /// The declarations of this crate.
    pub fn declarations() -> Functions {
        let text = read(&repository().join("host/loadplan/src/sys.rs"));
        let block =
            text.split_once("extern \"C\" {").expect("there is a block").1.split_once("\n}").expect("it ends").0;
        functions_behind(block, "fn ")
    }
}

fn assert_same(ours: &Functions, theirs: &Functions, what: &str) {
    for (name, function) in theirs {
        assert_eq!(ours.get(name), Some(function), "{name} in {what}");
    }
    assert_eq!(ours.keys().collect::<Vec<_>>(), theirs.keys().collect::<Vec<_>>(), "functions in {what}");
}

#[test]
fn the_header_declares_what_the_archive_exports() {
    let header = c::functions();
    assert!(header.len() >= 36, "only {} functions were found", header.len());
    assert_same(&rust::exports(), &header, "crates/loadplan");
}

#[test]
fn this_crate_declares_what_the_header_does() {
    assert_same(&rust::declarations(), &c::functions(), "host/loadplan");
}

/// The numbers of the header's answers, by their names.
fn answers() -> Vec<(String, u32)> {
    let text = without(&read(&repository().join("include/loadplan.h")), "/*", "*/");
    let body =
        text.split_once("enum loadplan_answer {").expect("there are answers").1.split_once('}').expect("they end").0;
    let numbered = listed(body).into_iter().map(|line| {
        let (name, value) = line.split_once(" = ").expect("an answer has a number");
        (name.to_string(), value.parse().expect("a number"))
    });
    numbered.collect()
}

#[test]
fn every_answer_of_a_reader_is_a_parse_error_with_its_number() {
    let answers = answers();
    assert_eq!(answers.len(), 23);
    for (name, value) in answers.iter().filter(|(_, value)| (1..20).contains(value)) {
        let fault = ParseError::from_number(*value).unwrap_or_else(|| panic!("{name} is not known"));
        assert_eq!(u32::from(fault.number()), *value, "{name}");
    }
    assert!(ParseError::from_number(0).is_none() && ParseError::from_number(15).is_none());
}
