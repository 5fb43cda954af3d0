//! The causes of seats: 10 of one that isn't there, 18, and 19 at make.

use super::*;
use beside::words::seated;
use smelvock::raw::word::{CHARGES, SEATED, SHARES as SHARE_WORDS};
use smelvock::raw::{self, AreasMut};

/// They sum to one less than the limit.
const SHARES: [u32; 8] = [10, 0, 0, 5, 0, 0, 0, 15];

/// The calls that name a seat.
const NAMING: [Export; 2] = [Insert, SplitEntry];

/// The calls that read the seats' words, make aside.
const SEATED_CALLS: [Export; 5] = [Reset, Insert, SplitEntry, Audit, Repair];

/// Thirty entries as those of [`whole`], in a tree with seats: seats 0 and 3 have used their shares, and the one free entry is seat 7's.
fn whole_seated<const N: usize>() -> (Tree, Given) {
    let mut tree = seated::<N>(31, [2, 3, 1], SHARES);
    for id in 1..30 {
        let before = (id % 3 != 0).then(|| tree.cursor(id * 7 % id).unwrap());
        let seat = [0, 3, 7][(id > 10) as usize + (id > 15) as usize];
        tree.insert_for(seat, before, three([1 + id % 5, 1 + id % 3, 1 + id % 4])).unwrap();
    }
    tree.locate(View::Effect, 11).unwrap();
    let (_, given) = whole::<N>();
    let given = Given { at: tree.cursor(4).unwrap().into(), shares: Some(SHARES), seat: Some(7), ..given };
    let tree = Tree::of(&tree);
    for export in EXPORTS {
        assert_eq!(export.play(&mut tree.clone(), &given).number, 0, "N {N}, {export:?}");
    }
    (tree, given)
}

fn at_each_fan_seated(test: fn(Tree, Given)) {
    for fan in FANS {
        let (tree, given) = at_fan!(fan, N => whole_seated::<N>());
        test(tree, given);
    }
}

/// That and everything that is tested after it: fan, area, cursor, lengths.
fn with_all_else(number: u32, tree: &Tree, given: &Given) {
    let wide = Lengths { prepare: u32::MAX, effect: u32::MAX, lines: MOST_LINES };
    let astray = Cursor { leaf: u32::MAX, slot: u32::MAX, stamp: u64::MAX };
    let short = Tree { homes: Area::new(&[]), ..tree.clone() };
    for export in NAMING {
        for tree in [tree, &short, &short.with(FAN, 3), &tree.with(LIMIT, 30)] {
            for (at, lengths) in [(given.at, given.lengths), (astray, given.lengths), (given.at, wide), (astray, wide)]
            {
                refused(number, export, tree, &Given { at, lengths, ..*given });
                refused(number, export, tree, &Given { at, lengths, end: 1, before: 0, ..*given });
            }
        }
    }
}

/// A seat above 7, a seat in a tree without seats, none in a seated one, before all else.
#[test]
fn a_seat_that_is_not_there_is_10() {
    at_each_fan_seated(|tree, given| {
        for seat in [None, Some(8), Some(9), Some(15), Some(255), Some(256), Some(1 << 31), Some(u32::MAX - 1)] {
            with_all_else(10, &tree, &Given { seat, ..given });
        }
    });
    at_each_fan(|tree, given| {
        for seat in [0, 1, 7, 8, 256, u32::MAX - 1] {
            with_all_else(10, &tree, &Given { seat: Some(seat), ..given });
        }
    });
}

/// Neither seated nor not, in the calls that know seats; the others don't read their words, and make writes them.
#[test]
fn a_seated_flag_outside_its_values_is_10() {
    let each = |tree: Tree, given: Given| {
        for bad in [2, 3, 256, u32::MAX] {
            let flagged = tree.with(SEATED, bad);
            SEATED_CALLS.iter().for_each(|&export| refused(10, export, &flagged, &given));
            for export in EXPORTS.into_iter().filter(|export| *export != New && !SEATED_CALLS.contains(export)) {
                let [mut after, mut wanted] = [flagged.clone(), tree.clone()];
                assert_eq!(export.play(&mut after, &given), export.play(&mut wanted, &given), "{export:?}");
                assert_eq!(after, wanted.with(SEATED, bad), "{export:?}");
            }
        }
    };
    at_each_fan(each);
    at_each_fan_seated(each);
}

/// Seats at their share, below it none, while the one free entry is another's: the tree isn't full, and yet no seat but that one gets it.
/// When it is full nobody gets one, by the same number.
#[test]
fn an_entry_over_the_rules_is_18() {
    at_each_fan_seated(|mut tree, given| {
        let over = |tree: &Tree, given: &Given, seat: u32| {
            for end in [0, 1] {
                refused(18, Insert, tree, &Given { seat: Some(seat), end, ..*given });
                refused(18, SplitEntry, tree, &Given { seat: Some(seat), before: end, ..*given });
            }
        };
        (0..7).for_each(|seat| over(&tree, &given, seat));
        assert_eq!(Insert.play(&mut tree, &given).number, 0);
        let at = Cursor { stamp: 31, ..given.at };
        let lengths = Lengths { lines: 0, ..given.lengths };
        (0..8).for_each(|seat| over(&tree, &Given { at, lengths, ..given }, seat));
    });
}

/// 10, 1, 2, 3, 13, 14, 6, 17, 7, 18: each cause of an insert or split for a seat that may not have it, with all those after it.
#[test]
fn the_order_of_the_refusals_of_a_seat() {
    at_each_fan_seated(|tree, given| {
        let over = Given { seat: Some(3), ..given };
        let own = Export::Lengths.play(&mut tree.clone(), &given).values;
        let own = [own[0], own[1], own[2]];
        let wide = Lengths { prepare: u32::MAX, effect: u32::MAX, lines: 0 };
        let short = Tree { inners: Area::new(&[]), ..tree.clone() };
        for export in NAMING {
            let all = Given { at: Cursor { stamp: 29, ..given.at }, lengths: wide, ..over };
            refused(
                10,
                export,
                &short.with(FAN, 3),
                &Given { lengths: Lengths { lines: MOST_LINES + 1, ..wide }, ..all },
            );
            refused(10, export, &short.with(FAN, 3), &Given { end: 2, before: 2, ..all });
            refused(1, export, &short.with(FAN, 3), &all);
            refused(2, export, &short, &all);
            refused(3, export, &tree, &all);
            refused(13, export, &tree, &Given { at: Cursor { leaf: u32::MAX, ..given.at }, ..all });
            refused(14, export, &tree, &Given { at: Cursor { slot: u32::MAX, ..given.at }, ..all });
        }
        refused(7, Insert, &tree, &Given { lengths: wide, ..over });
        refused(6, SplitEntry, &tree, &Given { lengths: wide, ..over });
        refused(6, SplitEntry, &tree, &Given { lengths: three(own.map(|own| own + 1)).into(), ..over });
        refused(17, SplitEntry, &tree, &Given { lengths: three([0; 3]).into(), ..over });
        refused(17, SplitEntry, &tree, &Given { lengths: three(own).into(), ..over });
        NAMING.iter().for_each(|&export| refused(18, export, &tree, &over));
    });
}

/// Shares that sum to the limit or more, also where the sum goes round in 32 bits.
const TOO_HIGH: [[u32; 8]; 8] = [
    [31, 0, 0, 0, 0, 0, 0, 0],
    [0, 0, 0, 0, 0, 0, 0, 31],
    [10, 0, 0, 6, 0, 0, 0, 15],
    [4; 8],
    [u32::MAX; 8],
    [1 << 29; 8],
    [1 << 31, 1 << 31, 0, 0, 0, 0, 0, 1],
    [u32::MAX, 1, 0, 0, 0, 0, 0, 0],
];

/// 19 at make, after 10, 1 and 2; shares that sum to limit - 1 are taken. Reset doesn't ask.
#[test]
fn shares_that_sum_too_high_are_19() {
    at_each_fan_seated(|tree, given| {
        let short = Tree { leaves: Area::new(&[]), ..tree.clone() };
        for shares in TOO_HIGH {
            let high = Given { shares: Some(shares), ..given };
            refused(19, New, &tree, &high);
            refused(2, New, &short, &high);
            refused(1, New, &short, &Given { fan: 33, ..high });
            refused(1, New, &short, &Given { limit: 0, ..high });
            refused(
                10,
                New,
                &short,
                &Given { fan: 33, lengths: Lengths { lines: MOST_LINES + 1, ..given.lengths }, ..high },
            );
        }
        for shares in [SHARES, [0; 8], [30, 0, 0, 0, 0, 0, 0, 0], [0, 0, 0, 0, 0, 0, 0, 30], [4, 4, 4, 4, 4, 4, 4, 2]] {
            let mut tree = tree.clone();
            assert_eq!(New.play(&mut tree, &Given { shares: Some(shares), ..given }).number, 0, "{shares:?}");
            assert_eq!(tree.head.words()[SEATED..], [&[1], &shares[..], &[0; 8]].concat());
        }
        assert_eq!(Reset.play(&mut tree.with(SHARE_WORDS, 31), &given).number, 0);
    });
}

/// A limit of 1 has room for no share but 0.
#[test]
fn shares_of_the_least_tree() {
    at_each_fan_seated(|tree, given| {
        for seat in 0..8 {
            let mut shares = [0; 8];
            let least = Given { limit: 1, shares: Some(shares), ..given };
            let mut made = tree.clone();
            assert_eq!(New.play(&mut made, &least).number, 0);
            refused(18, Insert, &made, &Given { end: 1, seat: Some(seat), ..given });
            shares[seat as usize] = 1;
            refused(19, New, &tree, &Given { shares: Some(shares), ..least });
        }
    });
}

/// Neither none nor eight shares are 10 before all else, with the head as it was, as where that isn't thirty-six words.
#[test]
fn shares_that_are_not_eight_are_10() {
    let lengths = Lengths { prepare: 1, effect: 1, lines: 0 };
    for (words, count) in [0, 1, 2, 7, 8, 9, 16].into_iter().flat_map(|count| [(19, count), (0, count)]) {
        for fan in [4, 3] {
            let (mut head, mut nodes, mut others, mut homes) = ([7; 36], vec![0; words], vec![0; words], vec![0; 2]);
            let areas = AreasMut { leaves: &mut nodes, inners: &mut others, homes: &mut homes };
            let number = raw::new(fan, 2, lengths, &vec![0; count], &mut head, areas);
            let wanted = match count {
                0 | 8 if fan == 3 => 1,
                0 | 8 if words == 0 => 2,
                0 | 8 => 0,
                _ => 10,
            };
            assert_eq!(number, wanted, "fan {fan}, {count} shares, {words} words");
            match number {
                0 => assert_eq!(head[FAN], 4),
                10 => assert_eq!(head, [7; 36]),
                _ => assert_eq!(head, [0; 36]),
            }
        }
    }
}

/// What each call leaves in the words of the seats: one more is charged to seat 7 by an insert or a split, none to any after a reset.
#[test]
fn what_each_call_does_to_the_charges() {
    at_each_fan_seated(|tree, given| {
        let before = tree.head.words()[SEATED..].to_vec();
        let mut charged = before.clone();
        charged[CHARGES - SEATED + 7] += 1;
        let uncharged = [&before[..9], &[0; 8]].concat();
        for export in EXPORTS {
            let mut after = tree.clone();
            assert_eq!(export.play(&mut after, &given).number, 0);
            let wanted = match export {
                New | Reset => &uncharged,
                Insert | SplitEntry => &charged,
                _ => &before,
            };
            assert_eq!(after.head.words()[SEATED..], wanted[..], "{export:?}");
        }
    });
}
