//! `loadplan show` beside readelf: header, segments, sections, symbols and dynamic entries of the corpus, field by field.
//!
//! Both texts are read into the same fields, which are numbers and names as strings. Where readelf shows something else by
//! intent, the reading of its text says so. And what is shown of names that are long.

mod common;

use std::collections::BTreeMap;
use std::ffi::OsStr;
use std::fs;
use std::path::Path;
use std::process::Command;
use std::time::{Duration, Instant};

use common::{corpus, loadplan, made, name_of, text, Folder};

/// Rows of fields.
type Rows = Vec<Vec<String>>;

#[derive(Debug, Default, PartialEq)]
struct Shown {
    header: BTreeMap<String, String>,
    segments: Rows,
    sections: Rows,
    /// The rows of each symbol table: first the plain one, then the dynamic one.
    symbols: [Rows; 2],
    dynamic: Rows,
}

/// What readelf reads in another way: the start of the file's name, the part, and why.
const READ_OTHERWISE: [(&str, &str, &str); 11] = [
    ("dynamic-compressed", "dynamic entries", "readelf looks for none without program headers"),
    ("dynamic-after-null", "dynamic entries", "readelf looks for none without program headers"),
    ("dynamic-segment-one-section", "dynamic entries", "readelf takes the segment's although there are sections"),
    ("dynamic-hidden", "dynamic entries", "readelf takes the segment's although there are sections"),
    (
        "segments-escape-no-sections",
        "header",
        "readelf takes the count literally, the reader looks for section header 0",
    ),
    ("names-index-ff00", "header", "readelf says that there is no such section"),
    ("ffff-segments-no-sections", "header", "readelf takes the count literally, the reader looks for section header 0"),
    ("table-of-no-sections", "header", "readelf says twice that there is none"),
    ("names-escape-link-0", "sections", "readelf shows a name that cannot be read as none"),
    ("symbols-link-before-size", "sections", "readelf shows the entry size that it expects"),
    ("symbols-cut-link", "sections", "readelf shows the entry size that it expects"),
];

fn words(line: &str) -> Vec<&str> {
    line.split_whitespace().collect()
}

fn strings(fields: &[&str]) -> Vec<String> {
    fields.iter().map(|field| field.to_string()).collect()
}

/// Hexadecimal digits without what may stand in front of them.
fn hex(digits: &str) -> String {
    let trimmed = digits.trim_start_matches("0x").trim_start_matches('0');
    if trimmed.is_empty() {
        "0".to_string()
    } else {
        trimmed.to_string()
    }
}

/// The lines between one that starts with `heading` and the next empty one.
fn lines_behind<'text>(text: &'text str, heading: &str) -> Vec<&'text str> {
    let mut lines = text.lines().skip_while(|line| !line.starts_with(heading));
    lines.next();
    lines.take_while(|line| !line.is_empty()).collect()
}

mod ours {
    use super::*;

    pub fn read(text: &str) -> Shown {
        let rows = |heading: &str| -> Vec<&str> { lines_behind(text, heading).into_iter().skip(1).collect() };
        Shown {
            header: lines_behind(text, "header").iter().map(|line| header_line(line)).collect(),
            segments: rows("segments:").iter().map(|line| segment(line)).collect(),
            sections: rows("sections:").iter().map(|line| section(line)).collect(),
            symbols: ["symbols:", "dynamic symbols:"]
                .map(|heading| rows(heading).iter().map(|line| symbol(line)).collect()),
            dynamic: lines_behind(text, "dynamic entries:").iter().map(|line| strings(&words(line)[..2])).collect(),
        }
    }

    fn header_line(line: &str) -> (String, String) {
        let (name, value) = line.trim_start().split_at(20);
        (name.trim().to_string(), value.trim().to_string())
    }

    fn segment(line: &str) -> Vec<String> {
        let fields = words(line);
        [&[fields[2]][..], &fields[3..10]].concat().iter().map(|field| field.to_string()).collect()
    }

    fn section(line: &str) -> Vec<String> {
        let fields = words(line);
        let name = fields.get(11).copied().unwrap_or("");
        strings(&[&[fields[0], name], &fields[2..11]].concat())
    }

    fn symbol(line: &str) -> Vec<String> {
        let fields = words(line);
        let name = fields.get(10).copied().unwrap_or("");
        strings(&[fields[0], fields[1], fields[2], fields[4], fields[6], fields[8], fields[9], name])
    }
}

mod readelfs {
    use super::*;

    pub fn read(path: &Path) -> Shown {
        let ask = |option: &str| {
            let output = Command::new("readelf").args(["-W", option]).arg(path).output().expect("readelf is there");
            text(&output.stdout)
        };
        let segments = ask("-l");
        let sections = ask("-S");
        Shown {
            header: ask("-h").lines().filter_map(header_line).collect(),
            segments: segments.lines().filter_map(segment).collect(),
            sections: sections.lines().filter_map(section).collect(),
            symbols: [symbols(&ask("-s"), ".symtab"), symbols(&ask("--dyn-syms"), ".dynsym")],
            dynamic: ask("-d").lines().filter_map(dynamic).collect(),
        }
    }

    /// The fields of the header that both show, under our names and in our form.
    fn header_line(line: &str) -> Option<(String, String)> {
        let (name, value) = line.trim().split_once(':')?;
        let value = value.trim();
        let number = value.split(' ').next().unwrap_or("").to_string();
        let (name, value) = match name {
            "Class" => ("class", if value == "ELF32" { "1 ELF32".into() } else { "2 ELF64".into() }),
            "Data" if value.contains("little") => ("byte order", "1 lowest byte first".into()),
            "Data" => ("byte order", "2 highest byte first".into()),
            "ABI Version" => ("ABI version", number),
            "Entry point address" => ("entry point", number),
            "Start of program headers" => ("program headers at", number),
            "Start of section headers" => ("section headers at", number),
            "Flags" => ("flags", number.trim_end_matches(',').to_string()),
            "Size of this header" => ("header size", number),
            "Size of program headers" => ("program header size", number),
            "Number of program headers" => ("program headers", value.to_string()),
            "Size of section headers" => ("section header size", number),
            "Number of section headers" => ("section headers", value.to_string()),
            "Section header string table index" => ("section of names", value.to_string()),
            "Machine" | "Type" | "OS/ABI" => (name, value.to_string()),
            _ => return None,
        };
        Some((name.to_string(), value))
    }

    fn segment(line: &str) -> Option<Vec<String>> {
        let fields = words(line);
        let is_row = fields.len() >= 8 && fields[1].starts_with("0x") && fields[2].starts_with("0x");
        if !is_row {
            return None;
        }
        let flags = fields[6..fields.len() - 1].concat();
        let protection: String = [('R', 'r'), ('W', 'w'), ('E', 'x')]
            .iter()
            .map(|&(theirs, ours)| if flags.contains(theirs) { ours } else { '-' })
            .collect();
        let mut row = vec![fields[0].to_string()];
        row.extend(fields[1..6].iter().map(|field| hex(field)));
        row.extend([protection, hex(fields[fields.len() - 1])]);
        Some(row)
    }

    /// `[Nr] Name Type Address Off Size ES Flg Lk Inf Al`; name and flags may be empty.
    fn section(line: &str) -> Option<Vec<String>> {
        let (number, rest) = line.trim().strip_prefix('[')?.split_once(']')?;
        let number: usize = number.trim().parse().ok()?;
        let fields = words(rest);
        // The address is the first field of many hexadecimal digits behind the type.
        let address =
            fields.iter().position(|field| field.len() >= 8 && field.chars().all(|digit| digit.is_ascii_hexdigit()))?;
        let name = if address >= 2 && fields[0] != "<no-strings>" { fields[0] } else { "" };
        let tail = &fields[address + 4..];
        let (flags, tail) = if tail.len() == 4 { (tail[0], &tail[1..]) } else { ("-", tail) };
        // A type of a system that neither has a name for.
        let kind = if fields[address - 1].starts_with("LOOS+") { "?" } else { fields[address - 1] };
        let mut row = strings(&[&number.to_string(), name, kind]);
        row.extend(fields[address..address + 4].iter().map(|field| hex(field)));
        row.push(flags.to_string());
        row.extend(strings(tail));
        Some(row)
    }

    /// The rows of the table that is in that section. A name loses the version behind it; a section's symbol without a name
    /// gets its section's from readelf, and loses it again.
    fn symbols(text: &str, table: &str) -> Rows {
        let heading = format!("Symbol table '{table}'");
        lines_behind(text, &heading).iter().filter_map(|line| symbol(line)).collect()
    }

    fn symbol(line: &str) -> Option<Vec<String>> {
        let fields = words(line);
        let number = fields.first()?.strip_suffix(':')?;
        number.parse::<usize>().ok()?;
        let size = match fields[2].strip_prefix("0x") {
            Some(digits) => u64::from_str_radix(digits, 16).ok()?.to_string(),
            None => fields[2].to_string(),
        };
        // Between visibility and section index a note on other bits of st_other may stand in brackets.
        let index = (6..fields.len()).find(|&at| !fields[at].starts_with('[') && !fields[at].ends_with(']'))?;
        let name = fields.get(index + 1).map_or("", |name| name.split('@').next().unwrap_or(""));
        let name = if fields[3] == "SECTION" { "" } else { name };
        Some(strings(&[number, &hex(fields[1]), &size, fields[3], fields[4], fields[5], fields[index], name]))
    }

    fn dynamic(line: &str) -> Option<Vec<String>> {
        let fields = words(line);
        let tag = fields.first()?.strip_prefix("0x")?;
        let name = fields.get(1)?.trim_start_matches('(').trim_end_matches(')');
        Some(vec![hex(tag), name.to_string()])
    }
}

/// Header lines in the form that both can have: readelf shows the name of type and machine without the number.
fn comparable(mut shown: Shown) -> Shown {
    for (ours, theirs) in [("type", "Type"), ("machine", "Machine"), ("OS/ABI", "OS/ABI")] {
        if let Some(value) = shown.header.remove(ours) {
            let name = value.trim_start_matches(|digit: char| digit.is_ascii_digit()).trim();
            shown.header.insert(theirs.to_string(), name.to_string());
        }
    }
    if let Some(kind) = shown.header.get_mut("Type") {
        *kind = kind.split(' ').next().unwrap_or("").to_string();
    }
    shown.header.remove("version");
    // A tag of a processor that only readelf has a name for.
    for row in shown.dynamic.iter_mut().filter(|row| row[0].starts_with('7')) {
        row[1] = "?".to_string();
    }
    shown
}

/// Compares one part of a file unless it is listed; whether it was compared.
fn compare(name: &str, part: &str, ours: &Rows, theirs: &Rows) -> bool {
    if READ_OTHERWISE.iter().any(|(start, listed, _)| name.starts_with(start) && part == *listed) {
        return false;
    }
    for (our, their) in ours.iter().zip(theirs) {
        assert_eq!(our, their, "{part} of {name}");
    }
    assert_eq!(ours.len(), theirs.len(), "rows of {part} of {name}");
    true
}

fn as_rows(header: &BTreeMap<String, String>) -> Rows {
    header.iter().map(|(name, value)| vec![name.clone(), value.clone()]).collect()
}

#[test]
fn the_corpus_is_shown_as_readelf_shows_it() {
    let mut compared = 0;
    for path in corpus() {
        let name = name_of(&path);
        let output = loadplan(["show".as_ref(), path.as_os_str()]);
        let ours = comparable(ours::read(&text(&output.stdout)));
        let theirs = comparable(readelfs::read(&path));
        let parts = [
            compare(&name, "header", &as_rows(&ours.header), &as_rows(&theirs.header)),
            compare(&name, "segments", &ours.segments, &theirs.segments),
            compare(&name, "sections", &ours.sections, &theirs.sections),
            compare(&name, "symbols", &ours.symbols[0], &theirs.symbols[0]),
            compare(&name, "dynamic symbols", &ours.symbols[1], &theirs.symbols[1]),
            compare(&name, "dynamic entries", &ours.dynamic, &theirs.dynamic),
        ];
        compared += parts.iter().filter(|&&part| part).count();
    }
    assert!(compared >= 300, "only {compared} parts were compared");
}

#[test]
fn a_refused_table_is_said_and_the_rest_is_shown() {
    let output = loadplan(["show".as_ref(), made("symbols-link-before-size").as_os_str()]);
    assert_eq!(output.status.code(), Some(1));
    assert!(text(&output.stdout).contains("symbols: refused, 5: "));
    assert!(text(&output.stdout).contains("sections: 1"));
    let refused = loadplan(["show".as_ref(), Path::new(file!()).as_os_str()]);
    assert_eq!(refused.status.code(), Some(2));
}

/// A 64-bit file of sections that all have the same name, of so many letters. Section 1 holds it.
fn file_of_one_name(letters: usize, sections: usize) -> Vec<u8> {
    let numbers = |width: usize, values: &[u64]| -> Vec<u8> {
        values.iter().flat_map(|value| value.to_le_bytes()[..width].to_vec()).collect()
    };
    let strings = [b"\0", &b"a".repeat(letters)[..], b"\0"].concat();
    let mut file = b"\x7fELF\x02\x01\x01\0\0\0\0\0\0\0\0\0\x01\0\x3e\0\x01\0\0\0".to_vec();
    file.extend(numbers(8, &[0, 0, 64]));
    file.extend(numbers(4, &[0]));
    file.extend(numbers(2, &[64, 0, 0, 64, sections as u64, 1]));
    for number in 0..sections {
        let [kind, offset, size] = if number == 1 { [3, 64 + 64 * sections, strings.len()] } else { [1, 0, 0] };
        file.extend(numbers(4, &[1, kind as u64]));
        file.extend(numbers(8, &[0, 0, offset as u64, size as u64]));
        file.extend(numbers(4, &[0, 0]));
        file.extend(numbers(8, &[1, 0]));
    }
    [file, strings].concat()
}

#[test]
fn of_a_long_name_the_start_is_shown() {
    let folder = Folder::new();
    let path = folder.file("one-name");
    for (letters, shown) in [(255, "a".repeat(255)), (256, "a".repeat(256)), (257, "a".repeat(256) + "...")] {
        fs::write(&path, file_of_one_name(letters, 3)).expect("a file can be written");
        let output = text(&loadplan([OsStr::new("show"), path.as_os_str()]).stdout);
        let names: Vec<&str> =
            lines_behind(&output, "sections:").iter().filter_map(|line| line.split(' ').next_back()).collect();
        assert_eq!(names[1..], [&shown; 3], "{letters} letters");
    }
}

#[test]
fn thousands_of_long_names_are_shown_at_once() {
    let folder = Folder::new();
    let path = folder.file("one-name");
    let file = file_of_one_name(500_000, 8_000);
    fs::write(&path, &file).expect("a file can be written");
    let since = Instant::now();
    let output = loadplan([OsStr::new("show"), path.as_os_str()]);
    assert!(since.elapsed() < Duration::from_secs(5), "{:?}", since.elapsed());
    assert!(output.status.success());
    assert!(text(&output.stdout).contains("sections: 8000"));
    assert!(output.stdout.len() < 4 * file.len(), "{} bytes of {}", output.stdout.len(), file.len());
}
