//! The differences that docs/DIFFERENCES.md lists: names, files, answers.
//!
//! An entry is a heading `### NAME`, lines `- answer: ..` with what the port answers, lines `- crate: ..` with what the crate
//! answers where that is something else, and the smallest file as lines of hexadecimal bytes behind four spaces.

#[derive(Debug)]
pub struct Listed {
    pub name: String,
    /// What the port answers, without the tag.
    pub answers: Vec<String>,
    /// What the crate answers to its own form of the question, with the tag.
    pub of_the_crate: Vec<String>,
    pub file: Vec<u8>,
}

/// The entries of the page that have a file.
pub fn listed(page: &str) -> Vec<Listed> {
    let entries = page.split("\n### ").skip(1).map(|entry| {
        let mut lines = entry.lines();
        let name = lines.next().unwrap_or("").trim().to_string();
        let body: Vec<&str> = lines.take_while(|line| !line.starts_with('#')).collect();
        Listed {
            name,
            answers: quoted(&body, "- answer: "),
            of_the_crate: quoted(&body, "- crate: "),
            file: body.iter().filter_map(|line| bytes(line)).flatten().collect(),
        }
    });
    entries.filter(|entry| !entry.file.is_empty()).collect()
}

fn quoted(lines: &[&str], mark: &str) -> Vec<String> {
    let marked = lines.iter().filter_map(|line| line.strip_prefix(mark));
    marked.map(|text| text.trim().trim_matches('`').to_string()).collect()
}

/// The bytes of a line that holds nothing else.
fn bytes(line: &str) -> Option<Vec<u8>> {
    let words = line.strip_prefix("    ")?.split(' ');
    words.map(|word| u8::from_str_radix(word, 16).ok().filter(|_| word.len() == 2)).collect()
}

#[cfg(test)]
mod tests {
    use super::*;

    #[test]
    fn an_entry_has_its_answers_and_its_bytes() {
        let page = "# T\n\n### one\n\nWords.\n\n- answer: `open = err 1`\n- crate: `E2 common = err 11`\n\n    7f 45\n    00\n\n## B\n\n    ff\n";
        let entries = listed(page);
        assert_eq!(entries.len(), 1);
        assert_eq!(entries[0].name, "one");
        assert_eq!(entries[0].answers, ["open = err 1"]);
        assert_eq!(entries[0].of_the_crate, ["E2 common = err 11"]);
        assert_eq!(entries[0].file, [0x7f, 0x45, 0]);
    }
}
