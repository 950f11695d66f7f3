//! What differs between two texts, and the smallest input that shows it.

use std::io;

use crate::maker::Kind;
use crate::oracle::Oracle;
use crate::port::Port;

/// The first line in which two texts differ, as each has it; `-` where one has ended.
#[derive(Clone, Debug, PartialEq, Eq)]
pub struct Difference {
    pub of_the_crate: String,
    pub of_the_port: String,
}

impl Difference {
    pub fn between(of_the_crate: &str, of_the_port: &str) -> Option<Self> {
        let (mut theirs, mut ours) = (of_the_crate.lines(), of_the_port.lines());
        loop {
            match (theirs.next(), ours.next()) {
                (None, None) => return None,
                (one, other) if one == other => {}
                (one, other) => {
                    let line = |line: Option<&str>| line.unwrap_or("-").to_string();
                    return Some(Difference { of_the_crate: line(one), of_the_port: line(other) });
                }
            }
        }
    }

    /// What kind of difference it is: the question without its numbers, and how each answer starts.
    pub fn kind(&self) -> String {
        let (question, theirs) = self.of_the_crate.split_once(" = ").unwrap_or((&self.of_the_crate, ""));
        let ours = self.of_the_port.split_once(" = ").map_or("", |(_, answer)| answer);
        let question: String = question.chars().filter(|letter| !letter.is_ascii_digit()).collect();
        let question = question.trim().split(' ').next().unwrap_or("").to_string();
        format!("{question}: {} or {}", start(theirs), start(ours))
    }
}

/// `ok`, `none`, or `err` with its number.
fn start(answer: &str) -> String {
    let words = answer.split(' ').take(if answer.starts_with("err") { 2 } else { 1 });
    words.collect::<Vec<_>>().join(" ")
}

/// A smaller input that shows a difference of the same kind: shorter if that can be, then with more zeros.
pub fn smallest(input: &[u8], kind: &str, oracle: &Oracle, port: &Port) -> io::Result<Vec<u8>> {
    let mut best = input.to_vec();
    // What one pass has made smaller may let the next make more.
    loop {
        let before = best.clone();
        let mut piece = best.len().next_power_of_two();
        while piece > 0 {
            let shorter = [shorter(&best, piece), without_a_piece(&best, piece)].concat();
            let fewer = [without_a_section(&best), with_fewer_entries(&best)].concat();
            let tries = [shorter, fewer, zeroed(&best, piece)].concat();
            match first_of_the_kind(&tries, kind, oracle, port)? {
                Some(found) => best = tries.into_iter().nth(found).expect("it was tried"),
                None => piece /= 2,
            }
        }
        if best == before {
            return Ok(best);
        }
    }
}

/// The input without a piece at its end.
fn shorter(input: &[u8], piece: usize) -> Vec<Vec<u8>> {
    input.len().checked_sub(piece).map(|length| input[..length].to_vec()).into_iter().collect()
}

/// The kind of file that the input would be.
fn kind(input: &[u8]) -> Kind {
    Kind { wide: input.get(4) == Some(&2), little: input.get(5) == Some(&1) }
}

/// The input without one of its section headers.
fn without_a_section(input: &[u8]) -> Vec<Vec<u8>> {
    let kind = kind(input);
    if input.len() < kind.header_size() {
        return Vec::new();
    }
    let (table_at, count_at) = (16 + 8 + 2 * kind.word(), kind.header_size() - 4);
    let table = kind.value(&input[table_at..table_at + kind.word()]) as usize;
    let count = kind.value(&input[count_at..count_at + 2]);
    let starts = (0..count as usize).map(|number| table.saturating_add(number * kind.section_size()));
    let inside = starts.filter(|start| start.saturating_add(kind.section_size()) <= input.len());
    let copies = inside.filter(|&start| start >= kind.header_size()).map(|start| {
        let mut copy = [&input[..start], &input[start + kind.section_size()..]].concat();
        copy[count_at..count_at + 2].copy_from_slice(&kind.number(2, count - 1));
        copy
    });
    copies.collect()
}

/// The input without one piece between the file header and the end; what the header says of places behind it is lowered.
fn without_a_piece(input: &[u8], piece: usize) -> Vec<Vec<u8>> {
    let kind = kind(input);
    let starts = (kind.header_size()..input.len().saturating_sub(piece)).step_by(piece);
    let copies = starts.map(|start| {
        let mut copy = [&input[..start], &input[start + piece..]].concat();
        for at in [16 + 8 + kind.word(), 16 + 8 + 2 * kind.word()] {
            let place = kind.value(&copy[at..at + kind.word()]);
            if place >= (start + piece) as u64 {
                copy[at..at + kind.word()].copy_from_slice(&kind.number(kind.word(), place - piece as u64));
            }
        }
        copy
    });
    copies.collect()
}

/// The input with a lower count of sections or of segments, or a lower number of the section of names.
fn with_fewer_entries(input: &[u8]) -> Vec<Vec<u8>> {
    let kind = kind(input);
    let mut copies = Vec::new();
    for at in [8, 4, 2].map(|back| kind.header_size() - back).into_iter().filter(|at| at + 2 <= input.len()) {
        let count = kind.value(&input[at..at + 2]);
        for lower in [count / 2, count.saturating_sub(1)].into_iter().filter(|&lower| lower < count) {
            let mut copy = input.to_vec();
            copy[at..at + 2].copy_from_slice(&kind.number(2, lower));
            copies.push(copy);
        }
    }
    copies
}

/// The input with one piece of zeros, wherever that changes it.
fn zeroed(input: &[u8], piece: usize) -> Vec<Vec<u8>> {
    let starts = (0..input.len()).step_by(piece);
    let copies = starts.map(|start| {
        let mut copy = input.to_vec();
        copy[start..input.len().min(start + piece)].fill(0);
        copy
    });
    copies.filter(|copy| copy != input).collect()
}

fn first_of_the_kind(tries: &[Vec<u8>], kind: &str, oracle: &Oracle, port: &Port) -> io::Result<Option<usize>> {
    let texts = oracle.texts(tries, false)?;
    let differs = |(input, text): (&Vec<u8>, &String)| {
        Difference::between(text, &port.text(input)).is_some_and(|difference| difference.kind() == kind)
    };
    Ok(tries.iter().zip(&texts).position(differs))
}

#[cfg(test)]
mod tests {
    use super::*;

    #[test]
    fn kinds_leave_numbers_out() {
        let theirs = "01 open = ok\n01 section[12].data = ok 0..4\n";
        let ours = "01 open = ok\n01 section[12].data = err 11\n";
        let difference = Difference::between(theirs, ours).expect("they differ");
        assert_eq!(difference.kind(), "section[].data: ok or err 11");
        assert_eq!(Difference::between(ours, ours), None);
    }
}
