//! The row's refusals 10, 4 to 8 and 17, each by itself and in their order, and the records' fields.

use oracle::record::{Answer, Call, Record};
use oracle::row::{Entry, Row};
use oracle::state::{LINES, MOST_LINES, NONE};

/// A full row of two entries: (4294967290, 2, 5) and (3, 1, 4).
fn full_row() -> Row {
    let mut row = Row::make(2, [4_294_967_290, 2, 5]);
    row.play(&Record::new(3, 0, NONE, 3, 1).with_lines(4));
    row
}

/// The number that a record gets; a refused call answers zeros and changes nothing.
fn number(record: Record) -> u8 {
    called(record.call())
}

fn called(call: Option<Call>) -> u8 {
    let mut row = full_row();
    let Answer { number, fields } = row.answer(call);
    if number != 0 {
        assert_eq!((fields, row), ([0; 4], full_row()));
    }
    number
}

fn refused(wanted: u8, records: &[(u8, u8, u32, u32, u32)]) {
    for &(kind, byte1, a, b, c) in records {
        assert_eq!(number(Record::new(kind, byte1, a, b, c)), wanted, "{kind},{byte1},{a},{b},{c}");
    }
    println!("number {wanted}: {} records", records.len());
}

#[test]
fn a_missing_id_is_4_in_every_call_that_names_one() {
    refused(
        4,
        &[(2, 0, 2, 0, 0), (3, 0, 2, 0, 0), (4, 0, 2, 0, 0), (4, 1, NONE, 0, 0), (5, 0, 2, 0, 0), (6, 0, 2, 0, 0)],
    );
    refused(4, &[(8, 0, 2, 0, 0), (9, 0, 2, 0, 0), (10, 0, 2, 0, 0), (10, 0, 0, 2, 0), (11, 0, 2, 0, 0)]);
    refused(
        4,
        &[
            (5, 0, NONE, 0, 0),
            (6, 0, NONE, 0, 0),
            (8, 1, NONE, 0, 0),
            (9, 0, NONE, 0, 0),
            (10, 0, 1, NONE, 0),
            (11, 0, NONE, 0, 0),
        ],
    );
}

#[test]
fn a_position_at_or_past_the_total_is_5() {
    refused(5, &[(7, 0, 4_294_967_293, 0, 0), (7, 0, NONE, 0, 0), (7, 1, 3, 0, 0), (7, 1, NONE, 0, 0)]);
    refused(5, &[(7, 2, 9, 0, 0), (7, 2, NONE, 0, 0)]);
    refused(0, &[(7, 0, 4_294_967_292, 0, 0), (7, 1, 2, 0, 0), (7, 2, 8, 0, 0)]);
}

#[test]
fn a_split_of_too_much_is_6() {
    refused(6, &[(4, 0, 1, 4, 1), (4, 1, 1, 3, 2), (4, 0, 0, NONE, 0), (4, 1, 0, 0, 3)]);
    for lines in [5, 6, 256, u16::MAX] {
        assert_eq!(number(Record::new(4, 0, 1, 3, 1).with_lines(lines)), 6, "{lines}");
    }
}

#[test]
fn a_total_past_u32_is_7() {
    refused(7, &[(2, 0, NONE, 3, 0), (3, 0, 0, 3, 0), (2, 0, 1, 0, 4_294_967_293), (3, 0, 1, 0, NONE)]);
    refused(7, &[(5, 0, 1, 6, 1), (6, 0, 1, 6, 1), (5, 0, 0, NONE, 2), (6, 0, 1, 0, 4_294_967_294)]);
    refused(0, &[(5, 0, 1, 5, 1), (6, 0, 1, 5, 1), (5, 0, 0, 4_294_967_292, 2), (6, 0, 1, 0, 4_294_967_293)]);
}

/// Splits of one entry, each with its number; what isn't refused leaves both parts, the new one behind the other.
fn splits(own: [u32; 3], wanted: &[([u32; 3], u8)]) {
    for &(lengths, number) in wanted {
        let mut row = Row::make(2, own);
        let answer = row.answer(Some(Call::Split { id: 0, lengths, before: false }));
        let parts = [[0, 1, 2].map(|view| own[view].wrapping_sub(lengths[view])), lengths];
        let left: Vec<_> = if number == 0 { parts.to_vec() } else { vec![own] };
        let entries: Vec<_> = row.entries.iter().map(|entry| entry.lengths).collect();
        assert_eq!((answer.number, entries), (number, left), "{lengths:?} of {own:?}");
    }
}

/// Nothing moved or nothing left, in all three lengths; an entry without any can't be split. Line ends alone are a part.
#[test]
fn a_hollow_split_is_17() {
    splits([3, 1, 4], &[([0; 3], 17), ([3, 1, 4], 17), ([0, 0, 1], 0), ([0, 0, 4], 0), ([3, 1, 3], 0), ([3, 1, 0], 0)]);
    splits(
        [3, 1, 4],
        &[([1, 0, 0], 0), ([0, 1, 0], 0), ([2, 1, 4], 0), ([3, 0, 4], 0), ([4, 0, 0], 6), ([0, 0, 5], 6)],
    );
    splits([3, 0, 0], &[([0; 3], 17), ([3, 0, 0], 17), ([1, 0, 0], 0), ([3, 1, 0], 6), ([3, 0, 1], 6)]);
    splits([0, 1, 0], &[([0; 3], 17), ([0, 1, 0], 17), ([1, 1, 0], 6), ([0, 2, 0], 6)]);
    splits([0, 0, 2], &[([0; 3], 17), ([0, 0, 2], 17), ([0, 0, 1], 0), ([0, 0, 3], 6), ([0, 1, 2], 6)]);
    splits([0; 3], &[([0; 3], 17), ([1, 0, 0], 6), ([0, 1, 0], 6), ([0, 0, 1], 6)]);
}

#[test]
fn one_entry_past_the_limit_is_8() {
    refused(8, &[(2, 0, NONE, 2, 0), (3, 0, 0, 0, 0), (4, 0, 0, 1, 0), (4, 1, 1, 3, 1)]);
    assert_eq!(number(Record::new(4, 1, 1, 3, 1).with_lines(3)), 8);
}

/// A full row of 65,536 entries with as many line ends each as an entry may have: one entry more is 8 and not 7.
#[test]
fn a_total_of_line_ends_is_never_7() {
    let full = Entry { id: 0, lengths: [0, 0, MOST_LINES] };
    let entries = (0..65_536).map(|id| Entry { id, ..full }).collect();
    let mut row = Row { entries, ..Row::make(65_536, full.lengths) };
    assert_eq!(row.total(LINES), 4_294_901_760);
    for kind in [2, 3] {
        assert_eq!(row.play(&Record::new(kind, 0, NONE, 0, 0).with_lines(u16::MAX)).number, 8);
    }
    for kind in [5, 6] {
        assert_eq!(row.play(&Record::new(kind, 0, 7, 0, 0).with_lines(u16::MAX)).number, 0);
    }
    assert_eq!(row.play(&Record::new(7, 2, 4_294_901_759, 0, 0)).fields, [65_535, 65_534, 0, 0]);
}

/// Line ends by bytes 2 and 3, in every call of view 2, and the third field of lengths.
#[test]
fn line_ends_are_counted() {
    let mut row = Row::make(9, [3, 3, 2]);
    let mut played = |bytes: [u8; 4], [a, b, c]: [u32; 3]| {
        let words = [a, b, c].map(u32::to_le_bytes).concat();
        let record: Vec<u8> = bytes.into_iter().chain(words).collect();
        let Answer { number, fields } = row.play(&Record::decode(record[..].try_into().unwrap()));
        assert_eq!(number, 0, "{record:?}");
        fields
    };
    assert_eq!(played([2, 0, 1, 2], [NONE, 5, 5]), [1, 3, 0, 0]);
    assert_eq!(played([11, 0, 0, 0], [1, 0, 0]), [5, 5, 513, 0]);
    assert_eq!(played([8, 2, 0, 0], [1, 0, 0]), [2, 0, 0, 0]);
    assert_eq!(played([7, 2, 0, 0], [1, 0, 0]), [0, 1, 0, 0]);
    assert_eq!(played([7, 2, 0, 0], [2, 0, 0]), [1, 0, 3, 3]);
    assert_eq!(played([7, 2, 0, 0], [514, 0, 0]), [1, 512, 3, 3]);
    // the entry split off is put before the other, and takes 256 of its line ends
    assert_eq!(played([4, 1, 0, 1], [1, 0, 0]), [2, 0, 0, 0]);
    assert_eq!(played([11, 0, 0, 0], [2, 0, 0]), [0, 0, 256, 0]);
    assert_eq!(played([11, 0, 0, 0], [1, 0, 0]), [5, 5, 257, 0]);
    assert_eq!(played([8, 2, 0, 0], [1, 0, 0]), [258, 0, 0, 0]);
    assert_eq!(played([5, 0, 0, 0], [2, 0, 0]), [0; 4]);
    assert_eq!(played([6, 0, 255, 255], [0, 1, 1]), [0; 4]);
    assert_eq!(played([8, 2, 0, 0], [1, 0, 0]), [65_535, 0, 0, 0]);
    assert_eq!(played([1, 0, 7, 0], [0, 0, 0]), [0; 4]);
    assert_eq!(played([11, 0, 0, 0], [0, 0, 0]), [0, 0, 7, 0]);
}

/// More line ends than an entry may have are 10 in every call that gives lengths, before every other cause.
#[test]
fn more_than_65535_line_ends_are_10() {
    let mut played = 0;
    for lines in [MOST_LINES + 1, MOST_LINES + 2, 1 << 31, u32::MAX] {
        for id in [0, 1, 2, NONE] {
            for lengths in [[0, 0, lines], [NONE, NONE, lines]] {
                for call in [
                    Call::Reset { lengths },
                    Call::Insert { before: id, lengths },
                    Call::Split { id, lengths, before: false },
                    Call::Set { id, lengths },
                    Call::Update { id, lengths },
                ] {
                    assert_eq!(called(Some(call)), 10, "{call:?}");
                    assert_ne!(called(Some(call.with_lines(MOST_LINES))), 10, "{call:?}");
                    played += 1;
                }
            }
        }
    }
    assert_eq!(played, 4 * 4 * 2 * 5);
}

/// 4 before 7, 8 and 17; 6, 7 and 17 before 8; 6 before 17; 10 before all.
#[test]
fn the_order_of_the_refusals() {
    refused(4, &[(2, 0, 2, NONE, NONE), (3, 0, 9, NONE, NONE), (4, 0, 2, NONE, NONE), (5, 0, 2, NONE, NONE)]);
    refused(6, &[(4, 0, 1, 4, 0)]);
    assert_eq!(number(Record::new(4, 0, 1, 3, 1).with_lines(5)), 6);
    refused(17, &[(4, 0, 0, 0, 0), (4, 1, 1, 0, 0)]);
    assert_eq!(number(Record::new(4, 0, 1, 3, 1).with_lines(4)), 17);
    refused(4, &[(4, 0, 2, 0, 0)]);
    refused(10, &[(4, 2, 0, 0, 0)]);
    refused(7, &[(2, 0, 0, NONE, 0)]);
    refused(10, &[(2, 1, 2, NONE, NONE), (4, 2, 2, NONE, NONE), (7, 3, NONE, 0, 0), (10, 0, 2, 2, 1)]);
}

/// Every kind with every field that it does not use set to 1, byte 1 past its values, and kinds past theirs.
#[test]
fn a_field_outside_its_values_is_10() {
    refused(
        10,
        &[(0, 0, 0, 0, 0), (14, 0, 0, 0, 0), (255, 0, 0, 0, 0), (4, 2, 0, 0, 0), (7, 3, 0, 0, 0), (8, 255, 0, 0, 0)],
    );
    refused(
        10,
        &[(1, 1, 0, 0, 0), (2, 1, 0, 0, 0), (3, 1, 0, 0, 0), (5, 1, 0, 0, 0), (6, 1, 0, 0, 0), (9, 1, 0, 0, 0)],
    );
    refused(10, &[(10, 1, 0, 0, 0), (11, 1, 0, 0, 0), (12, 1, 0, 0, 0), (13, 1, 0, 0, 0), (1, 0, 1, 0, 0)]);
    refused(
        10,
        &[(7, 0, 0, 1, 0), (7, 0, 0, 0, 1), (8, 0, 0, 1, 0), (8, 0, 0, 0, 1), (9, 0, 0, 1, 0), (9, 0, 0, 0, 1)],
    );
    refused(
        10,
        &[(10, 0, 0, 0, 1), (11, 0, 0, 1, 0), (11, 0, 0, 0, 1), (12, 0, 1, 0, 0), (12, 0, 0, 1, 0), (12, 0, 0, 0, 1)],
    );
    refused(10, &[(13, 0, 1, 0, 0), (13, 0, 0, 1, 0), (13, 0, 0, 0, 1), (8, 3, 0, 0, 0)]);
    for kind in 1..=13 {
        for lines in [1, 256, u16::MAX] {
            let refused = number(Record::new(kind, 0, 0, 0, 0).with_lines(lines)) == 10;
            assert_eq!(refused, kind > 6, "kind {kind} with {lines} line ends");
        }
    }
}

#[test]
fn records_and_answers_are_sixteen_bytes() {
    let bytes = [4, 1, 6, 7, 1, 2, 3, 4, 5, 0, 0, 0, 0, 0, 0, 128];
    let record = Record::decode(&bytes);
    assert_eq!(record, Record::new(4, 1, 0x0403_0201, 5, 0x8000_0000).with_lines(0x0706));
    assert_eq!(record.encode(), bytes);
    let answer = Answer { number: 0, fields: [1, 256, NONE, 7] };
    assert_eq!(answer.encode(10), [0, 10, 0, 0, 1, 0, 0, 0, 0, 1, 0, 0, 255, 255, 255, 255]);
    let odd = [77, 3, 9, 9, 0, 0, 0, 0, 0, 0, 0, 0, 0, 0, 0, 0];
    assert_eq!(full_row().play(&Record::decode(&odd)).encode(77), [10, 77, 0, 0, 0, 0, 0, 0, 0, 0, 0, 0, 0, 0, 0, 0]);
}
