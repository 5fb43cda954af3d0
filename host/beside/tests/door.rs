//! The door beside the plain row and lib.rs: its answer records are the row's for every list of records, good and damaged, and lib.rs
//! answers the same to every call that isn't refused, line ends left out.

use beside::program::bytes;
use oracle::driver::Driver;
use oracle::lists::{Lister, Sizes, Style, EVEN, GROWING, LOOKING};
use oracle::random::Random;
use oracle::record::Record;
use oracle::row::Row;
use oracle::rust::Rust;
use smelvock::{door, door_into, Refusal};

const LIMIT: u32 = 512;
/// A debug build plays fewer.
const SCALE: u64 = if cfg!(debug_assertions) { 1 } else { 10 };

/// The row's answer records.
fn wanted(records: &[Record]) -> Vec<u8> {
    let mut row = Row::make(LIMIT, [0; 3]);
    records.iter().flat_map(|record| row.play(record).encode(record.kind)).collect()
}

fn styles() -> [Style; 3] {
    [
        Style { weights: GROWING, sizes: Sizes::Small, close: 60, miss: 3 },
        Style { weights: EVEN, sizes: Sizes::NearEnd, close: 30, miss: 20 },
        Style { weights: LOOKING, sizes: Sizes::Zeros, close: 90, miss: 5 },
    ]
}

/// A list of that length, drawn with the row in sight.
fn drawn(seed: u64, style: Style, length: usize) -> Vec<Record> {
    let mut row = Row::make(LIMIT, [0; 3]);
    let mut lister = Lister::new(seed, style);
    let mut next = || {
        let record = lister.draw(&row);
        row.play(&record);
        record
    };
    (0..length).map(|_| next()).collect()
}

#[test]
fn every_length_from_0() {
    let (mut played, mut hollow) = (0, 0);
    for length in 0..=200 {
        for (style, seed) in styles().into_iter().zip(0..) {
            let list = drawn(seed + length as u64 * 3, style, length);
            let answers = wanted(&list);
            assert_eq!(door(&bytes(&list)).as_ref(), Ok(&answers), "{length} records, style {seed}");
            hollow +=
                list.iter().zip(answers.chunks(16)).filter(|(record, of)| (record.kind, of[0]) == (4, 17)).count();
            Driver::<Rust<8>>::make(LIMIT, [0; 3], 0).play_all(&list).expect("lib.rs answers as the row does");
            played += length;
        }
    }
    println!("door: {played} records in lists of 0 to 200, {hollow} of them hollow splits");
    assert!(hollow > 0);
}

/// The numbers of the door's answers, which must be the row's.
fn numbers(list: &[Record]) -> Vec<u8> {
    let answers = door(&bytes(list)).expect("good lengths");
    assert_eq!(answers, wanted(list));
    answers.chunks(16).map(|answer| answer[0]).collect()
}

/// Splits by id that move nothing, or all; behind 10, 4 and 6, before 8.
#[test]
fn hollow_splits_are_17() {
    let split = |flag, id, [prepare, effect, lines]: [u32; 3]| {
        Record::new(4, flag, id, prepare, effect).with_lines(lines as u16)
    };
    let reset = Record::new(1, 0, 0, 3, 2).with_lines(1);
    for flag in [0, 1] {
        let list = [
            (reset, 0),
            (split(flag, 0, [0; 3]), 17),
            (split(flag, 0, [3, 2, 1]), 17),
            (split(flag, 0, [3, 2, 2]), 6),
            (split(flag, 0, [0, 0, 2]), 6),
            (split(flag, 1, [0; 3]), 4),
            (split(2, 0, [0; 3]), 10),
            (split(flag, 0, [0, 0, 1]), 0),
            (split(flag, 1, [0, 0, 1]), 17),
            (split(flag, 0, [3, 2, 0]), 17),
            (split(flag, 0, [3, 0, 0]), 0),
            (split(flag, 2, [3, 0, 0]), 17),
            (split(flag, 2, [1, 0, 0]), 0),
            (Record::new(5, 0, 0, 0, 0), 0),
            (split(flag, 0, [0; 3]), 17),
            (split(flag, 0, [1, 0, 0]), 6),
            (Record::new(12, 0, 0, 0, 0), 0),
        ];
        assert_eq!(numbers(&list.map(|(record, _)| record)), list.map(|(_, number)| number));
    }
    let mut full = vec![reset];
    full.extend([Record::new(2, 0, u32::MAX, 1, 1); LIMIT as usize - 1]);
    full.extend([split(0, 0, [0, 0, 1]), split(0, 0, [0; 3]), split(1, 5, [1, 1, 0])]);
    assert_eq!(numbers(&full)[LIMIT as usize..], [8, 17, 17]);
}

#[test]
fn lists_longer_than_the_limit() {
    for (style, seed) in styles().into_iter().zip(0..) {
        for run in 0..SCALE {
            let list = drawn(1_000 + run * 3 + seed, style, 3_000);
            assert_eq!(door(&bytes(&list)), Ok(wanted(&list)));
        }
    }
    let full = [Record::new(3, 0, u32::MAX, 0, 1).with_lines(u16::MAX); 600];
    assert_eq!(door(&bytes(&full)), Ok(wanted(&full)));
    println!("door: {} lists of 3,000 records, and 600 records of kind 3", 3 * SCALE);
}

/// A list with kind 3 gives the answers of the list with 2 in its stead, but for the kind byte; many of them have a position.
#[test]
fn kind_3_is_answered_as_kind_2() {
    let (mut threes, mut placed) = (0, 0);
    for (style, seed) in styles().into_iter().zip(0..) {
        for run in 0..20 * SCALE {
            let list = drawn(5_000 + run * 3 + seed, style, 400);
            let as_two = |&record: &Record| Record { kind: if record.kind == 3 { 2 } else { record.kind }, ..record };
            let twos: Vec<_> = list.iter().map(as_two).collect();
            let [given, twos] = [&list, &twos].map(|list| door(&bytes(list)).expect("good lengths"));
            for ((record, given), two) in list.iter().zip(given.chunks(16)).zip(twos.chunks(16)) {
                assert_eq!((given[1], two[1]), (record.kind, as_two(record).kind));
                assert_eq!((given[0], &given[2..]), (two[0], &two[2..]), "{record:?}");
                threes += (record.kind == 3) as u64;
                placed += (record.kind == 3 && given[8..12] != [0; 4]) as u64;
            }
        }
    }
    println!("door: {threes} records of kind 3, {placed} with a position above 0");
    assert!(placed > 0 && placed < threes);
}

/// Every byte of a record of every kind that the row answers replaced by others: a field outside its values is number 10, all else is the row's. The
/// lengths of both entries and the line of the second follow.
#[test]
fn damaged_records_of_every_kind() {
    let insert = Record::new(2, 0, u32::MAX, 3, 4).with_lines(0x0203);
    let mut row = Row::make(LIMIT, [0; 3]);
    row.play(&insert);
    let mut lister = Lister::new(7, styles()[1]);
    let mut played = 0;
    for kind in 1..=13 {
        let mut drawn = std::iter::repeat_with(|| lister.good(kind, &row));
        let good = drawn.find(|record| row.clone().play(record).number == 0).expect("the row answers one").encode();
        for place in 0..16 {
            for byte in [0, 1, 2, 14, 128, 255] {
                let mut bad = good;
                bad[place] = byte;
                let before = [insert, Record::decode(&bad)];
                let after = [(12, 0, 0), (11, 0, 0), (11, 0, 1), (8, 2, 1)]
                    .map(|(kind, view, id)| Record::new(kind, view, id, 0, 0));
                let list = [&before[..], &after].concat();
                assert_eq!(door(&bytes(&list)), Ok(wanted(&list)), "{bad:?}");
                played += 1;
            }
        }
    }
    println!("door: {played} damaged records");
}

/// Line ends are bytes 2 and 3 of a record, the lower first: they come back in the third field of lengths, and split.
#[test]
fn line_ends_of_every_byte() {
    let mut played = 0;
    for lines in (0..256).chain((0..256).map(|byte| byte << 8)).chain([0x0102, 0x0201, 0xfffe, u16::MAX]) {
        let part = lines / 3;
        let list = [
            Record::new(1, 0, 0, 4, 4).with_lines(lines),
            Record::new(11, 0, 0, 0, 0),
            Record::new(4, 0, 0, 1, 2).with_lines(part),
            Record::new(11, 0, 1, 0, 0),
            Record::new(8, 2, 1, 0, 0),
            Record::new(4, 1, 1, 0, 0).with_lines(part.saturating_add(1)),
            Record::new(7, 2, lines as u32 / 2, 0, 0),
            Record::new(7, 2, lines as u32, 0, 0),
        ];
        let answers = door(&bytes(&list)).expect("good lengths");
        assert_eq!(answers, wanted(&list), "{lines} line ends");
        let field = |record: usize, field: usize| answers[16 * record + 4 * field..][..4].to_vec();
        let [third, first] = [3, 1];
        assert_eq!(field(1, third), (lines as u32).to_le_bytes());
        assert_eq!(field(3, third), (part as u32).to_le_bytes());
        assert_eq!(field(4, first), ((lines - part) as u32).to_le_bytes());
        assert_eq!((answers[16 * 5], answers[16 * 7]), (6, 5));
        played += 1;
    }
    println!("door: {played} numbers of line ends");
}

/// Records of random bytes, the kind mostly a known one.
#[test]
fn random_bytes() {
    let mut random = Random::new(11);
    for _ in 0..200 * SCALE {
        let list: Vec<_> = (0..random.below(40))
            .map(|_| {
                let mut record = [0; 16].map(|_: u8| if random.percent(70) { 0 } else { random.below(256) as u8 });
                record[0] = random.below(16) as u8;
                Record::decode(&record)
            })
            .collect();
        assert_eq!(door(&bytes(&list)), Ok(wanted(&list)));
    }
    println!("door: {} lists of random bytes", 200 * SCALE);
}

#[test]
fn bad_lengths_leave_the_output() {
    let records = bytes(&drawn(1, styles()[0], 4));
    let mut played = 0;
    for given in 0..=records.len() {
        for room in 0..=70 {
            let mut out = vec![0xa5; room];
            let answer = door_into(&records[..given], &mut out);
            if given == room && given % 16 == 0 {
                assert_eq!(answer, Ok(()));
            } else {
                assert_eq!(answer, Err(Refusal::RECORDS));
                assert!(out.iter().all(|&byte| byte == 0xa5));
                played += 1;
            }
        }
    }
    println!("door: {played} bad lengths");
}
