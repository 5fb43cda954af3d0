//! The row's seats, by examples worked out from document 02, and the guarantee over every list of small rows.

use oracle::record::Call;
use oracle::row::Row;
use oracle::seats::Seats;
use oracle::state::NONE;

const INSERT: Call = Call::Insert { before: NONE, lengths: [1, 0, 0] };

fn number(row: &mut Row, seat: Option<u32>, call: Call) -> u8 {
    let before = row.clone();
    let answer = row.answer_for(seat, Some(call));
    if answer.number != 0 {
        assert_eq!((answer.fields, &*row), ([0; 4], &before), "{call:?}");
    }
    answer.number
}

fn charges(row: &Row) -> [u32; 8] {
    row.seats.expect("it is seated").charges
}

/// Limit 6: seat 0 has a share of 1 and seat 1 of 2. Five entries can be made; two of them are kept for seat 1.
#[test]
fn a_paste_leaves_the_others_their_shares() {
    let mut row = Row::seated(6, [3, 0, 0], [1, 2, 0, 0, 0, 0, 0, 0]).unwrap();
    let split = Call::Split { id: 0, lengths: [1, 0, 0], before: false };
    assert_eq!([INSERT, split, INSERT, INSERT, split].map(|call| number(&mut row, Some(0), call)), [0, 0, 0, 18, 18]);
    assert_eq!((number(&mut row, Some(5), INSERT), charges(&row)), (18, [3, 0, 0, 0, 0, 0, 0, 0]));
    assert_eq!([split, INSERT, INSERT].map(|call| number(&mut row, Some(1), call)), [0, 0, 18]);
    assert_eq!((row.free(), charges(&row)), (0, [3, 2, 0, 0, 0, 0, 0, 0]));
    assert_eq!(number(&mut row, None, Call::Reset { lengths: [1; 3] }), 0);
    assert_eq!((row.count(), row.seats), (1, Some(Seats::new([1, 2, 0, 0, 0, 0, 0, 0]))));
}

/// Only inserts and splits name a seat; what else is wrong is told after it, and before 18.
#[test]
fn numbers_and_their_order() {
    let mut row = Row::seated(2, [3, 0, 0], [0, 1, 0, 0, 0, 0, 0, 0]).unwrap();
    let mut plain = Row::make(2, [3, 0, 0]);
    let missing = Call::Split { id: 9, lengths: [9; 3], before: true };
    for call in [INSERT, missing] {
        for seat in [None, Some(8), Some(u32::MAX)] {
            assert_eq!(number(&mut row, seat, call), 10, "{seat:?}");
        }
        assert_eq!(number(&mut plain, Some(0), call), 10);
    }
    assert_eq!(number(&mut row, Some(0), missing), 4);
    let split = |lengths| Call::Split { id: 0, lengths, before: true };
    assert_eq!([[4, 0, 0], [0; 3], [1, 0, 0]].map(|lengths| number(&mut row, Some(0), split(lengths))), [6, 17, 18]);
    let wide = Call::Insert { before: 0, lengths: [u32::MAX, 0, 0] };
    assert_eq!([wide, INSERT].map(|call| number(&mut row, Some(7), call)), [7, 18]);
    assert_eq!(number(&mut row, Some(7), Call::Set { id: 0, lengths: [1; 3] }), 0);
    assert_eq!([INSERT, INSERT].map(|call| number(&mut row, Some(1), call)), [0, 18]);
    assert_eq!([INSERT, INSERT].map(|call| number(&mut plain, None, call)), [0, 8]);
}

#[test]
fn shares_that_sum_to_the_limit_are_19() {
    for (limit, shares, good) in [
        (1, [0; 8], true),
        (1, [0, 0, 0, 0, 0, 0, 0, 1], false),
        (9, [1; 8], true),
        (8, [1; 8], false),
        (65_536, [8_192; 8], false),
        (65_536, [1 << 29; 8], false),
        (65_536, [8_192, 8_192, 8_192, 8_192, 8_192, 8_192, 8_192, 8_191], true),
    ] {
        assert_eq!(
            Row::seated(limit, [1; 3], shares).map(|_| ()),
            if good { Ok(()) } else { Err(19) },
            "{limit} {shares:?}"
        );
    }
}

/// Every list from here on: the row never passes its limit, the three things that audit asks hold, and a seat below its share gets its
/// entry.
fn every_list(row: &Row, seats: u32, played: &mut u64) {
    for seat in 0..seats {
        let (mut next, before) = (row.clone(), row.seats.unwrap());
        let answer = number(&mut next, Some(seat), INSERT);
        assert!(answer == 0 || answer == 18 && !before.below(seat as usize), "{row:?}, seat {seat}: {answer}");
        *played += 1;
        if answer == 0 {
            let seats_now = next.seats.unwrap();
            assert!(
                next.count() <= next.limit && seats_now.charges[seat as usize] == before.charges[seat as usize] + 1
            );
            assert!(seats_now.within(next.limit) && seats_now.charged(next.count()) && seats_now.covered(next.free()));
            every_list(&next, seats, played);
        }
    }
}

#[test]
fn a_seat_below_its_share_is_never_refused_for_space() {
    let mut played = 0;
    for limit in 1..=7u32 {
        for shares in (0..limit.pow(3)).map(|n| [n % limit, n / limit % limit, n / limit / limit, 0, 0, 0, 0, 0]) {
            if let Ok(row) = Row::seated(limit, [1, 0, 0], shares) {
                every_list(&row, 4, &mut played);
            }
        }
    }
    println!("{played} calls");
    assert!(played > 10_000);
}
