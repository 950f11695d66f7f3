//! Files planned and loaded by the archive, and beside it by the plain rendering: random ones that are made for it, and the
//! damaged copies of others.
//!
//! Most random files are nearly right, so that each rule decides often: a few segments in order in a window, then one or two
//! things changed. Windows are at their limits as often as not.

use std::collections::BTreeMap;

use loadplan::plan::{carry_out, load, plan, Refusal, Window, RECORD_SIZE};

use crate::damage::{damaged, Amount};
use crate::maker::{Header, Kind, Parts, Segment, KINDS};
use crate::random::Random;
use crate::reading;
use crate::rendering::{self, Numbers, Record};

const PAGE: u64 = 4096;
/// What memory holds before something is loaded.
const FILL: u8 = 0xaa;
/// Windows of more than this are planned but not loaded: they would take too long.
const MOST_MEMORY: u64 = 16 * PAGE;

/// How often each refusal was the answer; 0 is acceptance.
pub type Tally = BTreeMap<u32, u64>;

/// A file, a window and the room of a table.
#[derive(Debug)]
struct Case<'file> {
    file: &'file [u8],
    window: Window,
    room: usize,
}

/// What a random file is made of.
#[derive(Debug)]
struct Made {
    numbers: Numbers,
    window: Window,
    room: usize,
}

/// Compares so many random files; how often each refusal was the answer, or the first case that differs.
pub fn compare(files: u64, seed: u64) -> Result<Tally, String> {
    let mut random = Random::new(seed);
    let mut tally = Tally::new();
    for number in 0..files {
        let (made, file) = random_file(&mut random);
        let told = |fault| format!("file {number} of seed {seed}: {fault}\n{made:x?}");
        if reading::read(&file).as_ref() != Ok(&made.numbers) {
            return Err(told("the plain reading reads something else than was written".to_string()));
        }
        let length = if random.once_in(30) { random.below(file.len() as u64) as usize } else { file.len() };
        let case = Case { file: &file[..length], window: made.window, room: made.room };
        *tally.entry(compare_one(&case).map_err(told)?).or_default() += 1;
    }
    Ok(tally)
}

/// Compares the damaged copies of a file, each in one of the windows around the one that it needs.
pub fn compare_damaged(name: &str, file: &[u8], amount: Amount, tally: &mut Tally) -> Result<(), String> {
    let mut random = Random::of_name(name, amount.seed);
    let windows = windows_around(file);
    let mut fault = Ok(());
    damaged(name, file, amount, &mut |copy| {
        let case = Case { file: copy, window: random.one_of(&windows), room: 8 * RECORD_SIZE };
        if fault.is_ok() {
            let compared = compare_one(&case).map_err(|fault| format!("{name}: {fault}\n{case:x?}"));
            fault = compared.map(|refusal| *tally.entry(refusal).or_default() += 1);
        }
    });
    fault
}

/// The window that a file's segments need, and windows that are a little too small, too large or elsewhere.
fn windows_around(file: &[u8]) -> Vec<Window> {
    let numbers = reading::read(file).ok();
    let segments = numbers.iter().flat_map(|numbers| &numbers.segments).filter(|segment| segment.kind == 1);
    let ends = segments.map(|segment| (segment.address, segment.address.saturating_add(segment.in_memory)));
    let (low, high) = ends.fold((u64::MAX, 0), |(low, high), (from, to)| (low.min(from), high.max(to)));
    let independent = numbers.as_ref().is_some_and(|numbers| numbers.kind == 3);
    let low = if independent { 0 } else { low.min(high) / PAGE * PAGE };
    let length = high.div_ceil(PAGE).saturating_mul(PAGE).saturating_sub(low);
    let start = if independent { 0x7fff_0000 } else { low };
    let last = 0u64.wrapping_sub(length);
    vec![
        Window { start, length },
        Window { start, length: length.saturating_sub(PAGE) },
        Window { start, length: length.saturating_add(PAGE) },
        Window { start: start.saturating_add(PAGE), length },
        Window {
            start: if independent { last } else { start.saturating_sub(PAGE) },
            length: length.saturating_add(PAGE),
        },
        Window { start: if independent { last } else { start }, length },
    ]
}

/// A random file: nearly right, then changed.
fn random_file(random: &mut Random) -> (Made, Vec<u8>) {
    let kind = random.one_of(&KINDS);
    let mut made = right(kind, random);
    for _ in 0..random.one_of(&[0, 0, 1, 1, 1, 2]) {
        change(&mut made, kind, random);
    }
    if !kind.wide {
        keep_half(&mut made.numbers);
    }
    let file = written(kind, &made.numbers, random);
    made.numbers.length = file.len() as u64;
    (made, file)
}

/// A 32-bit file holds the low halves of numbers.
fn keep_half(numbers: &mut Numbers) {
    let half = |number: &mut u64| *number &= 0xffff_ffff;
    half(&mut numbers.entry);
    for segment in &mut numbers.segments {
        let Segment { offset, address, in_file, in_memory, align, .. } = segment;
        [offset, address, in_file, in_memory, align].into_iter().for_each(half);
    }
}

/// Where the bytes of segments stand in a file: behind room for the headers.
const BYTES_AT: u64 = 512;
const BYTES: u64 = 3 * PAGE;

/// Up to four segments in order, with gaps and shared pages only by their ends, in a window that holds them.
fn right(kind: Kind, random: &mut Random) -> Made {
    let file_kind = random.one_of(&[2, 3]);
    let start = random.one_of(&[0, PAGE, 0x40_0000, if kind.wide { 0x7fff_0000_0000 } else { 0x7fff_0000 }]);
    let base = if file_kind == 3 { 0 } else { start };
    let mut at = base + random.below(2) * PAGE;
    let mut segments = Vec::new();
    for number in 0..=random.below(4) {
        let offset = BYTES_AT + random.below(BYTES);
        let address = at + offset % PAGE;
        let in_file = random.below(2 * PAGE).min(BYTES_AT + BYTES - offset);
        let in_memory = in_file + random.below(2) * random.below(PAGE);
        let flags = if number == 0 { 5 } else { random.one_of(&[4, 5, 6]) };
        let align = random.one_of(&[0, 1, 16, PAGE]);
        segments.push(Segment { kind: 1, flags, offset, address, in_file, in_memory: in_memory.max(1), align });
        at = (address + in_memory.max(1)).next_multiple_of(PAGE) + random.below(2) * PAGE;
    }
    let entry = segments[0].address + random.below(segments[0].in_memory);
    let room = segments.len() * RECORD_SIZE + random.below(50) as usize;
    let numbers = Numbers { kind: file_kind, entry, segments, length: 0 };
    Made { numbers, window: Window { start, length: at - base }, room }
}

/// Numbers that break things.
fn limit(kind: Kind, random: &mut Random) -> u64 {
    let half = [0, 1, 2, PAGE - 1, PAGE, PAGE + 1, 0x7fff_ffff, 0xffff_f000, 0xffff_ffff];
    let whole = [1 << 32, (1 << 32) + PAGE, 1 << 63, u64::MAX - PAGE + 1, u64::MAX];
    match kind.wide && random.once_in(2) {
        true => random.one_of(&whole),
        false => random.one_of(&half),
    }
}

fn change(made: &mut Made, kind: Kind, random: &mut Random) {
    let limit = limit(kind, random);
    match random.below(6) {
        0 => change_window(made, random),
        1 => made.numbers.entry = random.one_of(&[limit, made.numbers.entry ^ PAGE]),
        2 => made.room = random.below(4 * RECORD_SIZE as u64) as usize,
        3 => made.numbers.kind = random.one_of(&[0, 1, 4, 0xffff]),
        4 if random.once_in(4) => made.numbers.segments.clear(),
        _ => change_segment(&mut made.numbers.segments, limit, random),
    }
}

fn change_window(made: &mut Made, random: &mut Random) {
    let Window { start, length } = made.window;
    made.window = match random.below(7) {
        0 => Window { start: start.wrapping_sub(PAGE), length },
        1 => Window { start: start.wrapping_add(PAGE), length },
        2 => Window { start, length: length.saturating_sub(PAGE) },
        3 => Window { start: start.wrapping_add(1), length },
        4 => Window { start, length: random.one_of(&[0, 1, 1 << 32, (1 << 32) + PAGE]) },
        5 => Window { start: 0u64.wrapping_sub(length), length },
        _ => Window { start: 0u64.wrapping_sub(PAGE), length: 2 * PAGE },
    };
}

fn change_segment(segments: &mut Vec<Segment>, limit: u64, random: &mut Random) {
    if segments.is_empty() {
        return;
    }
    let number = random.below(segments.len() as u64) as usize;
    let other = segments[random.below(segments.len() as u64) as usize];
    let segment = &mut segments[number];
    match random.below(10) {
        0 => segment.kind = random.one_of(&[0, 2, 3, 6]),
        1 => segment.flags = random.one_of(&[0, 1, 2, 3, 7, 8, 0xffff_ffff]),
        2 => segment.offset = limit,
        3 => segment.address = random.one_of(&[limit, other.address, segment.address ^ PAGE]),
        4 => segment.in_file = random.one_of(&[limit, segment.in_memory.wrapping_add(1)]),
        5 => segment.in_memory = random.one_of(&[limit, 0, segment.in_memory.wrapping_add(PAGE)]),
        6 => segment.align = random.one_of(&[3, PAGE + 1, 2 * PAGE, 1 << 31, limit]),
        7 => segments.push(other),
        8 => segments.swap(0, number),
        _ => (segment.in_file, segment.in_memory) = (0, 0),
    }
}

/// The file with these headers, and random bytes for its segments.
fn written(kind: Kind, numbers: &Numbers, random: &mut Random) -> Vec<u8> {
    let mut parts = Parts::new(kind);
    let count = numbers.segments.len();
    let segments_at = parts.add_segments(&numbers.segments);
    let missing = BYTES_AT.saturating_sub(parts.next()) as usize;
    parts.add(1, &vec![0; missing]);
    let bytes: Vec<u8> = (0..BYTES).map(|_| random.number() as u8).collect();
    parts.add(1, &bytes);
    let segments_at = if count == 0 { random.one_of(&[0, segments_at]) } else { segments_at };
    parts.file(Header {
        kind: numbers.kind,
        entry: numbers.entry,
        segments_at,
        segments: count as u16,
        ..Header::default()
    })
}

/// What the rules say: the records, or the refusal and with 20 the reader's number.
fn expected(case: &Case<'_>) -> Result<Vec<Record>, (u32, u32)> {
    let numbers = reading::read(case.file).map_err(|fault| (20, fault))?;
    let Window { start, length } = case.window;
    rendering::plan(&numbers, start, length, case.room).map_err(|refusal| (refusal, 0))
}

/// A refusal as two numbers.
fn as_pair(refusal: Refusal) -> (u32, u32) {
    match refusal {
        Refusal::NotOpened(Some(fault)) => (20, fault.number().into()),
        other => (other.number(), 0),
    }
}

/// Compares one case: plan, load and carrying out. Answers the refusal, 0 for none.
fn compare_one(case: &Case<'_>) -> Result<u32, String> {
    let mut table = vec![FILL; case.room];
    let planned = plan(case.file, case.window, &mut table);
    let ours = planned.map(|plan| plan.records().map(as_numbers).collect::<Vec<_>>()).map_err(as_pair);
    let theirs = expected(case);
    if ours != theirs {
        return Err(format!("planned {ours:x?}, by the rules {theirs:x?}"));
    }
    let used = ours.as_ref().map_or(0, |records| records.len() * RECORD_SIZE);
    if table[used..].iter().any(|&byte| byte != FILL) {
        return Err("bytes of the table behind the records were written".to_string());
    }
    if case.window.length <= MOST_MEMORY {
        compare_memory(case, &ours)?;
    }
    Ok(ours.err().map_or(0, |(refusal, _)| refusal))
}

fn as_numbers(record: loadplan::plan::Record) -> Record {
    [record.pages, record.pages_length, record.flags, record.bytes, record.bytes_length, record.offset]
}

/// Loads and carries out over memory full of something else, and looks at every byte.
fn compare_memory(case: &Case<'_>, planned: &Result<Vec<Record>, (u32, u32)>) -> Result<(), String> {
    let old = vec![FILL; case.window.length as usize];
    let mut table = vec![FILL; case.room];
    let mut memory = old.clone();
    let loaded = load(case.file, case.window, &mut table, &mut memory);
    if loaded.map(|plan| plan.len()).map_err(as_pair) != planned.as_ref().map(Vec::len).map_err(|refusal| *refusal) {
        return Err(format!("loading answers {loaded:?}, planning {planned:x?}"));
    }
    let Ok(plan) = loaded else {
        return if memory == old { Ok(()) } else { Err("a refusal has changed the memory".to_string()) };
    };
    let records: Vec<Record> = plan.records().map(as_numbers).collect();
    let expected = rendering::memory(&records, case.file, case.window.start, &old);
    if memory != expected {
        return Err("loading makes other bytes of the memory".to_string());
    }
    let mut memory = old;
    carry_out(case.file, case.window, plan, &mut memory).map_err(|refusal| format!("not carried out: {refusal}"))?;
    match memory == expected {
        true => Ok(()),
        false => Err("carrying out makes other bytes of the memory than loading".to_string()),
    }
}
