//! Document 01's own examples: P1 to P12 and the others of "A sheet of five entries", and the
//! sample of `rowrun`, on the row and, where in domain D, on lib.rs.

use oracle::audit::{audit, make_allowed, Verdict};
use oracle::driver::Driver;
use oracle::record::Record;
use oracle::row::{rowrun, Row};
use oracle::rust::{Place, Rust};
use oracle::state::NONE;

/// P2 to P12 as (kind, byte 1, a, b, c) and (number, four fields); P1 is the make.
type Case = ((u8, u8, u32, u32, u32), (u8, [u32; 4]));
const CASES: [Case; 11] = [
    ((2, 0, NONE, 2, 0), (0, [1, 3, 0, 0])),
    ((2, 0, 0, 0, 5), (0, [2, 0, 0, 0])),
    ((7, 0, 0, 0, 0), (0, [0, 0, 5, 0])),
    ((7, 0, 5, 0, 0), (5, [0, 0, 0, 0])),
    ((9, 0, 1, 0, 0), (0, [NONE, 0, 0, 0])),
    ((7, 1, 0, 0, 0), (0, [2, 0, 0, 0])),
    ((7, 1, 8, 0, 0), (5, [0, 0, 0, 0])),
    ((4, 1, 0, 1, 1), (0, [3, 0, 0, 0])),
    ((2, 0, 1, 1, 1), (0, [4, 8, 0, 0])),
    ((2, 0, NONE, 0, 0), (8, [0, 0, 0, 0])),
    ((4, 0, 0, 3, 0), (6, [0, 0, 0, 0])),
];

#[test]
fn p1_to_p12() {
    let mut driver = Driver::<Rust<4>>::make(5, [3, 3, 0], 1);
    let (mut row_after_p9, mut place_at_p10) = (vec![], None);
    for (number, ((kind, byte1, a, b, c), wanted)) in (2..).zip(CASES) {
        let line = driver.play(Record::new(kind, byte1, a, b, c)).unwrap();
        assert_eq!((line.answer.number, line.answer.fields), wanted, "P{number}");
        assert_eq!(line.reply.is_some(), wanted.0 == 0, "P{number}: only what the row answers is played on lib.rs");
        match number {
            9 => row_after_p9 = driver.row.entries.iter().map(|entry| entry.id).collect(),
            10 => place_at_p10 = line.reply.and_then(|reply| reply.got[0]).map(|seen| seen.place),
            _ => {}
        }
    }
    assert_eq!(row_after_p9, [2, 3, 0, 1]);
    assert_eq!(place_at_p10, Some(Place { leaf: 1, slot: 1 }));
    let met = &driver.coverage;
    println!("P2 to P12: {} answered on both, {} refused by the row", met.answered(), met.calls() - met.answered());
    assert_eq!((met.answered(), met.calls(), met.checks), (7, 11, 11));
}

#[test]
fn fan_and_limit_out_of_bounds_are_1() {
    for (fan, limit) in [(3, 5), (33, 5), (4, 0), (4, 65_537), (0, 5), (u32::MAX, 5), (4, u32::MAX)] {
        let mut state = Rust::<4>::make(5, [3, 3, 0]).tree.state();
        (state.head.fan, state.head.limit) = (fan, limit);
        assert!(!make_allowed(fan, limit));
        assert_eq!(audit(&state), Verdict::Refused(1));
    }
    for (fan, limit) in [(4, 1), (4, 65_536), (32, 1), (32, 65_536)] {
        assert!(make_allowed(fan, limit));
    }
}

#[test]
fn a_full_view_takes_only_lengths_of_0() {
    let mut driver = Driver::<Rust<4>>::make(5, [u32::MAX, 0, 0], 1);
    assert_eq!(driver.play(Record::new(2, 0, NONE, 1, 0)).unwrap().answer.number, 7);
    assert_eq!(driver.play(Record::new(2, 0, NONE, 0, 0)).unwrap().answer.fields, [1, 0, 0, 0]);
}

#[test]
fn nothing_is_found_among_lengths_of_0() {
    let mut driver = Driver::<Rust<4>>::make(5, [0; 3], 1);
    for view in [0, 1, 2] {
        assert_eq!(driver.play(Record::new(7, view, 0, 0, 0)).unwrap().answer.number, 5);
    }
}

#[test]
fn the_sample_of_rowrun() {
    let mut input = Record::new(1, 0, 0, 3, 3).encode().to_vec();
    for ((kind, byte1, a, b, c), _) in &CASES[..5] {
        input.extend(Record::new(*kind, *byte1, *a, *b, *c).encode());
    }
    input.extend([1, 2, 3]);
    assert_eq!(rowrun(&input), "0 0 0 0\n0 1 3 0\n0 2 0 0\n0 0 0 5\n5 0 0 0\n0 4294967295 0 0\n11 0 0 0\n");
    assert_eq!(rowrun(&[]), "");
}

/// The door makes its tree as `rowrun` does.
#[test]
fn the_row_of_the_door_takes_512_entries() {
    let mut row = Row::make(512, [0; 3]);
    let numbers: Vec<u8> = (1..=512).map(|_| row.play(&Record::new(3, 0, NONE, 1, 1)).number).collect();
    assert_eq!(numbers.iter().position(|&number| number == 8), Some(511));
    assert_eq!(row.count(), 512);
}
