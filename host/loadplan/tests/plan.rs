//! Planning, carrying out and loading through the safe functions: what they answer and what they leave alone.

use std::fs;
use std::path::Path;

use loadplan::plan::{carry_out, load, plan, Plan, Record, Refusal, Window, RECORD_SIZE};
use loadplan::ParseError;

const WINDOW: Window = Window { start: 0x40_0000, length: 0x2000 };
const FILL: u8 = 0xaa;

fn sample() -> Vec<u8> {
    fs::read(Path::new(env!("CARGO_MANIFEST_DIR")).join("../../tests/corpus/made/sample")).expect("the sample is there")
}

fn memory() -> Vec<u8> {
    vec![FILL; WINDOW.length as usize]
}

#[test]
fn records_are_decoded() {
    let mut table = [FILL; 3 * RECORD_SIZE];
    let file = sample();
    let plan = plan(&file, WINDOW, &mut table).expect("it is accepted");
    let code =
        Record { pages: 0x40_0000, pages_length: 0x1000, flags: 5, bytes: 0x40_0000, bytes_length: 0xb8, offset: 0 };
    let data =
        Record { pages: 0x40_1000, pages_length: 0x1000, flags: 6, bytes: 0x40_10b8, bytes_length: 8, offset: 0xb8 };
    assert_eq!(plan.records().collect::<Vec<_>>(), [code, data]);
    assert_eq!((plan.len(), plan.is_empty()), (2, false));
    assert!(table[2 * RECORD_SIZE..].iter().all(|&byte| byte == FILL));
}

#[test]
fn loading_is_planning_and_carrying_out() {
    let file = sample();
    let (mut table, mut loaded, mut carried) = ([0; 2 * RECORD_SIZE], memory(), memory());
    load(&file, WINDOW, &mut table, &mut loaded).expect("it is accepted");
    carry_out(&file, WINDOW, Plan::from_bytes(&table), &mut carried).expect("it is its plan");
    assert_eq!(loaded, carried);
    assert_eq!(loaded[..0xb8], file[..0xb8]);
    assert_eq!(loaded[0x10b8..0x10c0], *b"data...\n");
    let zeros = loaded[0xb8..0x10b8].iter().chain(&loaded[0x10c0..]);
    assert!(zeros.into_iter().all(|&byte| byte == 0));
}

#[test]
fn refusals_leave_everything_as_it_was() {
    let mut file = sample();
    let refused = |file: &[u8], window: Window, room: usize, length: usize| {
        let (mut table, mut memory) = (vec![FILL; room], vec![FILL; length]);
        let answer = load(file, window, &mut table, &mut memory).expect_err("it is refused");
        assert!(table.iter().chain(&memory).all(|&byte| byte == FILL));
        answer
    };
    assert_eq!(refused(&file[..100], WINDOW, 96, 0x2000), Refusal::NotOpened(ParseError::from_number(11)));
    assert_eq!(refused(&file, WINDOW, 95, 0x2000), Refusal::NoRoom);
    assert_eq!(refused(&file, WINDOW, 96, 0x1fff), Refusal::OutsideWindow);
    assert_eq!(refused(&file, Window { length: 0x1000, ..WINDOW }, 96, 0x1000), Refusal::OutsideWindow);
    for (at, byte, refusal) in
        [(0x7c, 7, Refusal::WriteExecute), (0x98, 0x19, Refusal::SegmentBytes), (0x18, 0xb8, Refusal::EntryPoint)]
    {
        let old = std::mem::replace(&mut file[at], byte);
        assert_eq!(refused(&file, WINDOW, 96, 0x2000), refusal);
        file[at] = old;
    }
}

#[test]
fn any_table_may_be_handed_in() {
    let file = sample();
    let mut good = [0; 2 * RECORD_SIZE];
    plan(&file, WINDOW, &mut good).expect("it is accepted");
    for at in 0..good.len() {
        for bit in 0..8 {
            let mut table = good;
            table[at] ^= 1 << bit;
            let mut memory = memory();
            match carry_out(&file, WINDOW, Plan::from_bytes(&table), &mut memory) {
                // Whatever is carried out keeps to the window; what is refused is not begun.
                Ok(()) => assert_eq!(memory.len(), WINDOW.length as usize),
                Err(_) => assert!(memory.iter().all(|&byte| byte == FILL), "byte {at}, bit {bit}"),
            }
        }
    }
    let mut short = vec![FILL; 0x1000];
    assert!(carry_out(&file, WINDOW, Plan::from_bytes(&good), &mut short).is_err());
    assert!(Plan::from_bytes(&good[..47]).is_empty());
}

#[test]
fn refusals_have_their_numbers_and_sentences() {
    let all = [
        (Refusal::NoRoom, 14),
        (Refusal::NotOpened(None), 20),
        (Refusal::FileType, 21),
        (Refusal::SegmentBytes, 22),
        (Refusal::SegmentAlignment, 23),
        (Refusal::OutsideWindow, 24),
        (Refusal::SegmentOrder, 25),
        (Refusal::WriteExecute, 26),
        (Refusal::EntryPoint, 27),
    ];
    for (refusal, number) in all {
        assert_eq!(refusal.number(), number);
        assert!(!refusal.to_string().is_empty());
    }
    let reason = Refusal::NotOpened(ParseError::from_number(1)).to_string();
    assert!(reason.ends_with("no ELF file"), "{reason}");
}
