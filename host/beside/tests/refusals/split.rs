//! The causes of split_entry's own, 6 and 17, and what a split that is not refused moves.

use super::*;
use beside::words::cursor_of;

#[test]
fn a_split_of_more_than_there_is_is_6() {
    at_each_fan(|tree, given| {
        let own = Export::Lengths.play(&mut tree.clone(), &given).values;
        let more = [[1, 0, 0], [0, 1, 0], [0, 0, 1], [1, 1, 1]];
        for (more, before) in more.into_iter().flat_map(|more| [(more, 0), (more, 1)]) {
            let lengths = three([0, 1, 2].map(|view| own[view] + more[view])).into();
            refused(6, SplitEntry, &tree, &Given { lengths, before, ..given });
        }
        for lines in [own[2] + 2, 256, MOST_LINES] {
            let lengths = Lengths { prepare: 0, effect: 0, lines };
            refused(6, SplitEntry, &tree, &Given { lengths, ..given });
        }
        let lengths = three([own[0], own[1] - 1, own[2]]).into();
        assert_eq!(SplitEntry.play(&mut tree.clone(), &Given { lengths, ..given }).number, 0);
    });
}

/// The tree with other lengths for the entry at the cursor.
fn resized(tree: &Tree, given: &Given, lengths: [u32; 3]) -> Tree {
    let mut tree = tree.clone();
    assert_eq!(SetLengths.play(&mut tree, &Given { lengths: three(lengths).into(), ..*given }).number, 0);
    tree
}

/// A split of an entry that isn't refused: both parts are what they should be, in order.
fn parted(tree: &Tree, given: &Given, own: [u32; 3], moved: [u32; 3]) {
    let left = [0, 1, 2].map(|view| own[view] - moved[view]);
    for (before, wanted) in [(0, [left, moved]), (1, [moved, left])] {
        let mut tree = tree.clone();
        let answer = SplitEntry.play(&mut tree, &Given { lengths: three(moved).into(), before, ..*given });
        assert_eq!(answer.number, 0, "{moved:?} of {own:?}");
        let cursors = answer.values[1..].as_chunks().0;
        let parts = [0, 1].map(|part| Given { at: cursor_of(cursors[part]), ..*given });
        assert_eq!(parts.map(|part| Export::Lengths.play(&mut tree, &part).values), wanted.map(|part| part.to_vec()));
        assert_eq!(Audit.play(&mut tree, given).values, [1]);
    }
}

/// No length is moved, or none is left behind. One length alone, line ends among them, is a part; an entry without lengths has none.
#[test]
fn a_hollow_split_is_17() {
    at_each_fan(|tree, given| {
        let split = |number, tree: &Tree, moved: [u32; 3]| {
            for before in [0, 1] {
                refused(number, SplitEntry, tree, &Given { lengths: three(moved).into(), before, ..given });
            }
        };
        for own in [
            [5, 2, 1],
            [1, 1, 1],
            [4, 0, 0],
            [0, 4, 0],
            [0, 0, 4],
            [3, 0, 2],
            [0, 0, MOST_LINES],
            [u32::MAX - 200, 0, 0],
        ] {
            let tree = resized(&tree, &given, own);
            split(17, &tree, [0; 3]);
            split(17, &tree, own);
            for view in 0..3 {
                let alone = [0, 1, 2].map(|other| if other == view { own[view] } else { 0 });
                let others = [0, 1, 2].map(|other| own[other] - alone[other]);
                if alone != [0; 3] && others != [0; 3] {
                    parted(&tree, &given, own, alone);
                    parted(&tree, &given, own, others);
                }
                if own[view] > 1 {
                    parted(&tree, &given, own, [0, 1, 2].map(|other| (other == view) as u32));
                    parted(&tree, &given, own, [0, 1, 2].map(|other| own[other] - (other == view) as u32));
                }
            }
        }
        let empty = resized(&tree, &given, [0; 3]);
        split(17, &empty, [0; 3]);
        [[1, 0, 0], [0, 1, 0], [0, 0, 1], [1, 1, 1]].into_iter().for_each(|moved| split(6, &empty, moved));
    });
}

/// 10, 1, 2, 3, 13, 14, 6, 17, 8: each cause of a split that moves nothing, or all, with all those after it.
#[test]
fn the_order_of_the_refusals_of_split_entry() {
    at_each_fan(|mut tree, given| {
        assert_eq!(Insert.play(&mut tree, &given).number, 0);
        let current = Cursor { stamp: 31, ..given.at };
        let own = Export::Lengths.play(&mut tree.clone(), &Given { at: current, ..given }).values;
        let (own, short) = ([own[0], own[1], own[2]], Tree { homes: Area::new(&[]), ..tree.clone() });
        let astray = Cursor { leaf: u32::MAX, slot: u32::MAX, ..given.at };
        for moved in [[0; 3], own] {
            let hollow = Given { at: current, lengths: three(moved).into(), ..given };
            let bad = Given { at: astray, ..hollow };
            refused(10, SplitEntry, &short.with(FAN, 3), &Given { before: 2, ..bad });
            refused(
                10,
                SplitEntry,
                &short,
                &Given { lengths: Lengths { lines: MOST_LINES + 1, ..bad.lengths }, ..bad },
            );
            refused(1, SplitEntry, &short.with(FAN, 3), &bad);
            refused(2, SplitEntry, &short, &bad);
            refused(3, SplitEntry, &tree, &bad);
            refused(3, SplitEntry, &tree, &Given { at: given.at, ..bad });
            refused(13, SplitEntry, &tree, &Given { at: Cursor { stamp: 31, ..astray }, ..bad });
            refused(14, SplitEntry, &tree, &Given { at: Cursor { slot: u32::MAX, ..current }, ..bad });
            for view in 0..3 {
                let more = [0, 1, 2].map(|other| if other == view { own[view] + 1 } else { moved[other] });
                refused(6, SplitEntry, &tree, &Given { lengths: three(more).into(), ..hollow });
            }
            refused(17, SplitEntry, &tree, &hollow);
        }
        refused(8, SplitEntry, &tree, &Given { at: current, lengths: three([0, 0, 1]).into(), ..given });
    });
}

/// A split moves its line ends from the entry to the new one, before it and after it.
#[test]
fn a_split_moves_line_ends() {
    at_each_fan(|tree, given| {
        let (tree, own) = (resized(&tree, &given, [5, 2, 3]), 3);
        for (lines, before) in (1..=own).flat_map(|lines| [(lines, 0), (lines, 1)]) {
            let mut tree = tree.clone();
            let total = totals(&tree)[2];
            let lengths = Lengths { prepare: 0, effect: 0, lines };
            let answer = SplitEntry.play(&mut tree, &Given { lengths, before, ..given });
            assert_eq!(answer.number, 0);
            let cursors = answer.values[1..].as_chunks().0;
            let parts = [0, 1].map(|part| Given { at: cursor_of(cursors[part]), view: 2, ..given });
            let lines_of = parts.map(|part| Export::Lengths.play(&mut tree, &part).values[2]);
            let wanted = if before == 1 { [lines, own - lines] } else { [own - lines, lines] };
            assert_eq!((lines_of, totals(&tree)[2]), (wanted, total));
            let ranks = parts.map(|part| EntryToCharIndex.play(&mut tree, &part).values[0]);
            assert_eq!(ranks[1] - ranks[0], wanted[0]);
            assert_eq!(Audit.play(&mut tree, &given).values, [1]);
        }
    });
}
