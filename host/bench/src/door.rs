//! The door beside lib.rs, per record: 511 inserts and then 6,000 records of one kind or of all, on a tree made anew. lib.rs is played by
//! a loop that reads each record, makes its call and writes the answer record; it has no line ends, so no record has.

use crate::timing::Table;
use oracle::lists::{Lister, Sizes, Style, EVEN};
use oracle::random::Random;
use oracle::record::{Answer, Call, Record};
use oracle::row::Row;
use oracle::rust::{pair, side};
use oracle::state::NONE;
use oracle::tree::PrepareEffectTree;
use std::hint::black_box;

const LIMIT: u32 = 512;
const RECORDS: usize = 6_000;

pub fn run(rounds: usize) {
    let mut table = Table::new(format!("door, N 8, limit {LIMIT}, per record"), rounds);
    for (name, list) in lists() {
        let records: Vec<u8> = list.iter().flat_map(Record::encode).collect();
        let (mut rust, mut port) = (vec![0; records.len()], vec![0; records.len()]);
        table.kind(
            name,
            || play(black_box(&records), black_box(&mut rust)),
            || {
                smelvock::door_into(black_box(&records), black_box(&mut port)).expect("whole records");
                list.len()
            },
        );
        assert!(rust == port, "{name}: what was timed is the same answers");
    }
    table.print();
}

/// The lists by name. No record of theirs is refused.
fn lists() -> Vec<(&'static str, Vec<Record>)> {
    let kinds = [
        ("set", &[5][..]),
        ("update", &[6]),
        ("lookup, random", &[7]),
        ("rank", &[8]),
        ("next", &[9]),
        ("compare", &[10]),
        ("lengths", &[11]),
        ("mixed", &[5, 6, 7, 8, 9, 10, 11]),
    ];
    let mut lists: Vec<_> = kinds.into_iter().map(|(name, kinds)| (name, full(kinds))).collect();
    lists.insert(3, ("lookup, rising", rising()));
    lists.push(("mixed, with growth", growing()));
    lists
}

/// A tree filled by 511 inserts at random places.
fn filled() -> (Row, Vec<Record>) {
    let (mut row, mut random) = (Row::make(LIMIT, [0; 3]), Random::new(3));
    let mut insert = |id: u64| {
        let record = Record::new(2, 0, random.below(id) as u32, 1 + random.below(7) as u32, random.below(8) as u32);
        row.play(&record);
        record
    };
    let records = (1..LIMIT as u64).map(&mut insert).collect();
    (row, records)
}

/// Records of these kinds on a full tree.
fn full(kinds: &[u8]) -> Vec<Record> {
    let (mut row, mut records) = filled();
    let mut lister = Lister::new(1, Style { weights: EVEN, sizes: Sizes::Small, close: 0, miss: 0 });
    for kind in kinds.iter().cycle().take(RECORDS) {
        let record = without_lines(lister.good(*kind, &row));
        if row.play(&record).number == 0 {
            records.push(record);
        }
    }
    records
}

/// The record without line ends; a lookup or rank in view 2 is one in the prepare view.
fn without_lines(record: Record) -> Record {
    Record { byte1: if record.byte1 == 2 { 0 } else { record.byte1 }, lines: 0, ..record }
}

/// Lookups a few positions apart.
fn rising() -> Vec<Record> {
    let (row, mut records) = filled();
    records.extend((0..RECORDS as u32).map(|at| Record::new(7, 0, at * 3 % row.total(0), 0, 0)));
    records
}

/// Records of every kind on a tree that grows to its limit and begins anew.
fn growing() -> Vec<Record> {
    let mut row = Row::make(LIMIT, [0; 3]);
    let mut lister = Lister::new(2, Style { weights: EVEN, sizes: Sizes::Small, close: 30, miss: 0 });
    let mut records = Vec::new();
    while records.len() < RECORDS {
        let record = if row.count() == LIMIT { Record::new(1, 0, 0, 2, 2) } else { without_lines(lister.draw(&row)) };
        if row.play(&record).number == 0 {
            records.push(record);
        }
    }
    records
}

/// Plays records that aren't refused on lib.rs.
fn play(records: &[u8], out: &mut [u8]) -> usize {
    let mut tree = PrepareEffectTree::<8>::new(pair([0, 0]));
    let (records, answers) = (records.as_chunks::<16>().0, out.as_chunks_mut::<16>().0);
    for (record, answer) in records.iter().zip(answers) {
        let record = Record::decode(record);
        let Some(call) = record.call() else { continue };
        let [x, y, z] = answered(&mut tree, call);
        *answer = Answer { number: 0, fields: [x, y, z, 0] }.encode(record.kind);
    }
    records.len()
}

fn answered(tree: &mut PrepareEffectTree<8>, call: Call) -> [u32; 3] {
    match call {
        Call::Reset { lengths } => {
            tree.reset(pair(lengths));
            [0; 3]
        }
        Call::Insert { before, lengths } => {
            let (id, at) = tree.insert((before != NONE).then(|| tree.cursor(before)), pair(lengths));
            [id, at, 0]
        }
        Call::Split { id, lengths, before } => [tree.split_entry(tree.cursor(id), pair(lengths), before).0, 0, 0],
        Call::Set { id, lengths } => {
            tree.set_lengths(tree.cursor(id), pair(lengths));
            [0; 3]
        }
        Call::Update { id, lengths } => [tree.update(tree.cursor(id), pair(lengths)), 0, 0],
        Call::Lookup { view, index } | Call::Select { view, index } => {
            let (at, offset, effect) = tree.locate(side(view), index);
            [tree.id(at), offset, effect]
        }
        Call::Rank { view, id } => [tree.entry_to_char_index(side(view), tree.cursor(id)), 0, 0],
        Call::Next { id } => [tree.next(tree.cursor(id)).map_or(NONE, |next| tree.id(next)), 0, 0],
        Call::Compare { first, second } => {
            [(tree.cmp(tree.cursor(first), tree.cursor(second)) as i32 + 1) as u32, 0, 0]
        }
        Call::Lengths { id } => {
            let lengths = tree.lengths(tree.cursor(id));
            [lengths.prepare, lengths.effect, 0]
        }
        Call::Count => [tree.len() as u32, 0, 0],
        Call::First => [tree.id(tree.first()), 0, 0],
    }
}
