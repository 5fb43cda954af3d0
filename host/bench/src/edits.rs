//! Files of edits: `check` and `difference` on 512 edits beside the same walk in plain Rust, which stands in lib.rs's column.

use crate::timing::Table;
use oracle::edits::{file, Parents, Rests, MOST, NONE};
use oracle::random::Random;
use smelvock::raw;
use std::hint::black_box;

/// The calls that are timed at once.
const CALLS: usize = 200;

pub fn run(rounds: usize) {
    let mut table = Table::new(format!("files of {MOST} edits, plain Rust for lib.rs"), rounds);
    let mut random = Random::new(1);
    let chain: Vec<Parents> = (0..MOST as u32).map(|edit| [edit.wrapping_sub(1), NONE]).collect();
    let mut below = |edit: u32| if edit == 0 { NONE } else { random.below(edit as u64) as u32 };
    let drawn: Vec<Parents> = (0..MOST as u32).map(|edit| [below(edit), below(edit)]).collect();
    for (name, edits) in [("chain", chain), ("random", drawn)] {
        let (file, pair) = (file(&edits), [MOST as u32 - 1, MOST as u32 / 2]);
        table.kind(
            &format!("check, {name}"),
            || calls(|| check(black_box(&file))),
            || calls(|| raw::edits_check(black_box(&file))),
        );
        let (mut rust, mut port) = ([0; MOST], [0; MOST]);
        let [mut listed, mut said] = [0; 2];
        table.kind(
            &format!("difference, {name}"),
            || {
                calls(|| {
                    listed = difference(black_box(&file), black_box(&mut rust), black_box(pair)).expect("accepted")
                })
            },
            || {
                calls(|| {
                    said =
                        raw::edits_difference(black_box(&file), black_box(&mut port), pair[0], pair[1]).value as usize
                })
            },
        );
        let wanted = Rests::of(&edits).difference(pair[0], pair[1]).expect("accepted");
        let [rust, port] = [&rust[..listed], &port[..said]];
        assert!(rust == wanted && port == wanted, "what was timed is the list");
    }
    table.print();
}

fn calls<T>(mut call: impl FnMut() -> T) -> usize {
    for _ in 0..CALLS {
        black_box(call());
    }
    CALLS
}

fn word(record: &[u8; 16], at: usize) -> u32 {
    u32::from_le_bytes(record[at..at + 4].try_into().expect("four bytes"))
}

fn check(file: &[u8]) -> u32 {
    let (records, rest) = file.as_chunks::<16>();
    if !rest.is_empty() {
        return 11;
    }
    if records.len() > MOST {
        return 16;
    }
    for (edit, record) in records.iter().enumerate() {
        if word(record, 8) != 0 || word(record, 12) != 0 {
            return 10;
        }
        if [0, 4].map(|at| word(record, at)).iter().any(|&parent| parent != NONE && parent as usize >= edit) {
            return 15;
        }
    }
    0
}

fn rests(records: &[[u8; 16]], edit: usize) -> [bool; MOST] {
    let mut marks = [false; MOST];
    marks[edit] = true;
    for (edit, record) in records[..=edit].iter().enumerate().rev() {
        if marks[edit] {
            for parent in [0, 4].map(|at| word(record, at)) {
                if let Some(mark) = marks.get_mut(parent as usize) {
                    *mark = true;
                }
            }
        }
    }
    marks
}

fn difference(file: &[u8], area: &mut [u32], [first, second]: [u32; 2]) -> Result<usize, u32> {
    let (records, rest) = file.as_chunks::<16>();
    if !rest.is_empty() {
        return Err(11);
    }
    if area.len() < MOST {
        return Err(12);
    }
    match check(file) {
        0 if (first.max(second) as usize) < records.len() => (),
        0 => return Err(4),
        number => return Err(number),
    }
    let (one, two) = (rests(records, first as usize), rests(records, second as usize));
    let mut count = 0;
    for edit in (0..records.len()).filter(|&edit| one[edit] && !two[edit]) {
        area[count] = edit as u32;
        count += 1;
    }
    Ok(count)
}
