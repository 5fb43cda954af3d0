//! The planning tree's row, by examples worked out from document 02 and beside its definitions on every small row.

use oracle::planning::choice::{every_list, Choices};
use oracle::planning::{bounds, Bounds, Call, Entry, Row};
use oracle::state::NONE;

fn row(limit: u32, list: &[Bounds]) -> Row {
    let entries = (0..).zip(list).map(|(id, &bounds)| Entry { id, bounds }).collect();
    Row { limit, entries }
}

/// A refused call leaves the row and has no values.
fn number(row: &mut Row, call: Call) -> u32 {
    let before = row.clone();
    let (number, values) = row.answer(call);
    assert!(number == 0 || (values, &*row) == ([0; 2], &before), "{call:?}");
    number
}

/// "Room ", a room code of 4 to 8 characters, a line feed.
#[test]
fn a_room_code() {
    let mut row = Row::make(5, bounds(5, 5)).unwrap();
    assert_eq!(row.answer(Call::Insert { before: NONE, bounds: bounds(4, 8) }), (0, [1, 5]));
    assert_eq!(row.answer(Call::Insert { before: NONE, bounds: bounds(1, 1) }), (0, [2, 13]));
    assert_eq!([Call::Earliest { id: 2 }, Call::Latest { id: 2 }].map(|call| row.answer(call).1[0]), [9, 13]);
    let mut at = |position| [Call::FirstAt { position }, Call::LastAt { position }].map(|call| row.answer(call));
    for (position, first, last) in [(0, 0, 0), (4, 0, 0), (5, 1, 1), (8, 1, 1), (9, 1, 2), (12, 1, 2), (13, 2, 2)] {
        assert_eq!(at(position), [(0, [first, 0]), (0, [last, 0])], "{position}");
    }
    assert_eq!([14, NONE].map(at), [[(5, [0; 2]); 2]; 2]);
}

/// Each cause with those after it.
#[test]
fn numbers_and_their_order() {
    let mut row = row(2, &[bounds(2, 5), bounds(1, 1)]);
    let insert = |before, low, high| Call::Insert { before, bounds: bounds(low, high) };
    let set = |id, low, high| Call::Set { id, bounds: bounds(low, high) };
    let split = |id, low, high| Call::Split { id, bounds: bounds(low, high), before: true };
    let most = u32::MAX;
    let inserts = [insert(2, most, 9), insert(0, most, 9), insert(NONE, 0, most), insert(0, 0, 1)];
    assert_eq!(inserts.map(|call| number(&mut row, call)), [4, 20, 7, 8]);
    let sets = [set(2, most, 0), set(0, most, 0), set(0, 0, most), set(1, 0, most - 5), set(1, 1, 1)];
    assert_eq!(sets.map(|call| number(&mut row, call)), [4, 20, 7, 0, 0]);
    let splits = [split(2, 3, 0), split(0, 3, 0), split(0, 0, 6), split(0, 0, 0), split(0, 2, 5)];
    assert_eq!(splits.map(|call| number(&mut row, call)), [4, 6, 6, 17, 17]);
    // more at the lower end than at the upper, given; then left; then in neither, with no room
    let splits = [split(0, 1, 0), split(0, 2, 1), split(0, 0, 4), split(0, 1, 5), split(0, 1, 4), split(1, 0, 1)];
    assert_eq!(splits.map(|call| number(&mut row, call)), [20, 20, 20, 20, 8, 20]);
    assert_eq!([bounds(1, 0), bounds(0, 0)].map(|own| number(&mut row, Call::Reset { bounds: own })), [20, 0]);
    assert_eq!((row.entries.len(), row.limit), (1, 2));
    assert_eq!(Row::make(1, bounds(1, 0)), Err(20));
}

/// What differs between a row's answers and the definitions for entries of these bounds, over every choice of lengths.
fn parted(row: &mut Row, list: &[Bounds]) -> Option<String> {
    let choices = Choices::of(list);
    let positions = choices.positions();
    for place in 0..list.len() {
        let wanted = [choices.earliest(place), choices.latest(place)].map(|sum| sum.expect("there is a choice"));
        let id = row.entries[place].id;
        let said = [Call::Earliest { id }, Call::Latest { id }].map(|call| row.answer(call).1[0]);
        if said != wanted {
            return Some(format!("{list:?}, place {place}: {said:?} for {wanted:?}"));
        }
    }
    for position in 0..positions + 3 {
        let wanted = [choices.first_at(position), choices.last_at(position)];
        let wanted = wanted.map(|place| place.map_or((5, [0; 2]), |place| (0, [row.entries[place].id, 0])));
        let said = [Call::FirstAt { position }, Call::LastAt { position }].map(|call| row.answer(call));
        if said != wanted || (position < positions) != (wanted[0].0 == 0) {
            return Some(format!("{list:?}, position {position}: {said:?} for {wanted:?}"));
        }
    }
    (positions != row.totals()[1]).then(|| format!("{list:?}: {positions} positions"))
}

#[test]
fn every_choice_of_every_small_row() {
    let (mut rows, mut choices) = (0, 0);
    let sizes: &[(usize, u32)] = if cfg!(debug_assertions) {
        &[(1, 5), (2, 4), (3, 3), (4, 2)]
    } else {
        &[(1, 9), (2, 6), (3, 4), (4, 3), (5, 2)]
    };
    for &(entries, most) in sizes {
        every_list(entries, most, &mut |list| {
            assert_eq!(parted(&mut row(9, list), list), None);
            choices += Choices::of(list).count;
            rows += 1;
        });
    }
    println!("{rows} rows, {choices} choices of lengths");
    assert!(rows > 2_000 && choices > 15_000);
}

/// The comparison with the definitions finds out a row in which one length is another, or two entries have changed places.
#[test]
fn a_wrong_row_is_found_out() {
    let list = [bounds(1, 3), bounds(0, 2), bounds(0, 0), bounds(2, 2)];
    let other = |place: usize, low: u32, high: u32| {
        let mut other = list;
        other[place] = bounds(list[place].low + low, list[place].high + high);
        row(9, &other)
    };
    let mut wrong =
        (0..4).flat_map(|place| [other(place, 0, 1), other(place, 1, 1), other(place, 0, 7)]).collect::<Vec<_>>();
    wrong.extend([other(0, 1, 0), other(1, 2, 0)]);
    for (a, b) in [(0, 1), (0, 3), (1, 3)] {
        let mut swapped = row(9, &list);
        swapped.entries.swap(a, b);
        wrong.push(swapped);
    }
    assert_eq!(parted(&mut row(9, &list), &list), None);
    for row in &mut wrong {
        println!("{}", parted(row, &list).unwrap_or_else(|| panic!("{row:?}")));
    }
    println!("{} wrong rows, each found out", wrong.len());
}
