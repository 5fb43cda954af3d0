//! Each cause of a refusal on the exports themselves: its number, zeros for values, head, areas and buffer as they were. The numbers
//! wanted are document 01's ("When a call cannot be done") and document 02's 10 of line ends and seats, 12 to 14, 17 to 19 and 21,
//! written down here.

use beside::exports::{unprinted, Area, Export, Given, Tree, EXPORTS};
use beside::port::three;
use beside::words::on_zeros;
use oracle::at_fan;
use oracle::fans::FANS;
use oracle::state::{node_words, MOST_LINES};
use smelvock::raw::word::{FAN, LEAVES, LIMIT, PRESENT, ROOT, SEATED};
use smelvock::raw::{Cursor, Lengths};
use smelvock::{View, PAGE_BYTES};
use std::sync::atomic::{AtomicU64, Ordering};

#[path = "refusals/seats.rs"]
mod seats;
#[path = "refusals/split.rs"]
mod split;

/// Refusals played, over all tests of this file.
static PLAYED: AtomicU64 = AtomicU64::new(0);

use Export::*;

/// Those that take a cursor, a view, and lengths.
const AT: [Export; 9] = [Next, Id, Export::Lengths, Cmp, EntryToCharIndex, SetLengths, Update, Insert, SplitEntry];
const VIEWS: [Export; 3] = [CharIndexToEntry, Locate, EntryToCharIndex];
const LENGTHS: [Export; 6] = [New, Reset, SetLengths, Update, Insert, SplitEntry];

/// Thirty entries of lengths (1 to 5, 1 to 3, 1 to 4) with room for one more, a finger in the effect view, and what every export
/// answers on it without a refusal.
fn whole<const N: usize>() -> (Tree, Given) {
    let mut tree = on_zeros::<N>(31, [2, 3, 1]);
    for id in 1..30 {
        let before = (id % 3 != 0).then(|| tree.cursor(id * 7 % id).unwrap());
        tree.insert(before, three([1 + id % 5, 1 + id % 3, 1 + id % 4])).unwrap();
    }
    tree.locate(View::Effect, 11).unwrap();
    let [at, other] = [4, 23].map(|id| tree.cursor(id).unwrap().into());
    let given = Given {
        at,
        other,
        id: 7,
        view: 1,
        index: 12,
        lengths: Lengths { prepare: 1, effect: 1, lines: 1 },
        end: 0,
        before: 1,
        fan: N as u32,
        limit: 31,
        shares: None,
        seat: None,
    };
    let tree = Tree::of(&tree);
    for export in EXPORTS {
        assert_eq!(export.play(&mut tree.clone(), &given).number, 0, "N {N}, {export:?}");
    }
    (tree, given)
}

fn totals(tree: &Tree) -> [u32; 3] {
    let size = node_words(tree.word(FAN));
    let root = &tree.inners.words()[tree.word(ROOT) as usize * size..][..size];
    [1, 2, 3].map(|view| root[3..].chunks_exact(4).take(root[0] as usize).map(|slot| slot[view]).sum())
}

/// The export is refused by that number; nothing changes. A refused make gives a head of zeros instead, if it is one of thirty-six words.
fn refused(number: u32, export: Export, tree: &Tree, given: &Given) {
    let mut after = tree.clone();
    let answer = export.play(&mut after, given);
    assert_eq!(answer.number, number, "{export:?} {given:?} on {:?}", tree.head);
    assert!(answer.values.iter().all(|&value| value == 0), "{export:?} {answer:?}");
    let made = export == New && tree.head.words().len() == 36;
    let head = if made { Area::new(&[0; 36]) } else { tree.head.clone() };
    assert_eq!(after, Tree { head, ..tree.clone() }, "{export:?}");
    PLAYED.fetch_add(1, Ordering::Relaxed);
}

fn at_each_fan(test: fn(Tree, Given)) {
    for fan in FANS {
        let (tree, given) = at_fan!(fan, N => whole::<N>());
        test(tree, given);
    }
    println!("{} refusals played so far", PLAYED.load(Ordering::Relaxed));
}

#[test]
fn fan_or_limit_outside_its_values_is_1() {
    at_each_fan(|tree, given| {
        for fan in [0, 1, 3, 33, 64, u32::MAX] {
            EXPORTS.iter().for_each(|&export| {
                let tree = tree.with(FAN, fan);
                refused(1, export, &tree, &Given { fan, ..given })
            });
        }
        for limit in [0, 65_537, u32::MAX] {
            EXPORTS.iter().for_each(|&export| {
                let tree = tree.with(LIMIT, limit);
                refused(1, export, &tree, &Given { limit, ..given })
            });
        }
    });
}

/// Each of the three areas one word too short, and empty. `len` and `is_empty` are given no area.
#[test]
fn an_area_too_short_is_2() {
    at_each_fan(|tree, given| {
        let with_areas = EXPORTS.iter().filter(|export| ![Len, IsEmpty].contains(export));
        for (export, which) in with_areas.flat_map(|&export| (0..3).map(move |which| (export, which))) {
            for words in 0..2 {
                let mut tree = tree.clone();
                let area = match which {
                    0 => &mut tree.leaves,
                    1 => &mut tree.inners,
                    _ => &mut tree.homes,
                };
                *area = Area::new(&area.words()[..(area.words().len() - 1) * words]);
                refused(2, export, &tree, &given);
            }
        }
    });
}

/// A wrong stamp, a leaf that isn't in use, a slot at or past the leaf's len, tested in this order; in either cursor of a
/// comparison, of which the first decides.
#[test]
fn a_cursor_that_is_not_current_is_3_13_or_14() {
    at_each_fan(|tree, given| {
        let good = given.at;
        let len = tree.leaves.words()[good.leaf as usize * node_words(tree.word(FAN))];
        let leaves = [tree.word(LEAVES), tree.word(LEAVES) + 1, u32::MAX];
        let slots = [len, len + 1, tree.word(FAN), u32::MAX];
        let mut bad = Vec::new();
        for stamp in [0, 1, 29, 31, u32::MAX as u64, 30 + (1 << 32), 30 << 32, u64::MAX] {
            bad.push((3, Cursor { stamp, ..good }));
            bad.push((3, Cursor { stamp, leaf: leaves[0], slot: slots[0] }));
        }
        for leaf in leaves {
            bad.push((13, Cursor { leaf, ..good }));
            bad.push((13, Cursor { leaf, slot: slots[0], ..good }));
        }
        bad.extend(slots.map(|slot| (14, Cursor { slot, ..good })));
        for &(number, at) in &bad {
            AT.iter().for_each(|&export| refused(number, export, &tree, &Given { at, ..given }));
            refused(number, Cmp, &tree, &Given { other: at, ..given });
            bad.iter().for_each(|&(_, other)| refused(number, Cmp, &tree, &Given { at, other, ..given }));
        }
    });
}

/// A cursor is used after an insertion or split; a cursor of a bigger tree is used in a smaller one.
#[test]
fn a_stale_or_foreign_cursor_is_3() {
    at_each_fan(|tree, given| {
        for export in [Insert, SplitEntry] {
            let mut tree = tree.clone();
            assert_eq!(export.play(&mut tree, &given).number, 0);
            AT.iter().for_each(|&export| refused(3, export, &tree, &given));
        }
        let mut small = tree.clone();
        assert_eq!(Reset.play(&mut small, &given).number, 0);
        AT.iter().for_each(|&export| refused(3, export, &small, &given));
    });
}

#[test]
fn an_id_not_below_the_number_of_entries_is_4() {
    at_each_fan(|tree, given| {
        for id in [30, 31, 32, u32::MAX] {
            refused(4, Export::Cursor, &tree, &Given { id, ..given });
        }
        assert_eq!(Export::Cursor.play(&mut tree.clone(), &Given { id: 29, ..given }).number, 0);
    });
}

/// With and without a finger, the finger in the same view and in another; its words stay, those of an absent one too.
#[test]
fn a_position_at_or_past_the_total_is_5() {
    at_each_fan(|tree, given| {
        let totals = totals(&tree);
        for present in [0, 1] {
            let tree = tree.with(PRESENT, present);
            for (view, export) in [0, 1, 2].into_iter().flat_map(|view| [(view, Locate), (view, CharIndexToEntry)]) {
                let total = totals[view as usize];
                for index in [total, total + 1, u32::MAX - 1, u32::MAX] {
                    refused(5, export, &tree, &Given { view, index, ..given });
                }
                let last = Given { view, index: total - 1, ..given };
                assert_eq!(export.play(&mut tree.clone(), &last).number, 0);
            }
        }
    });
}

/// The total with the new lengths is 4,294,967,295 and one more, in either old view; line ends never are 7.
#[test]
fn a_total_past_u32_is_7() {
    at_each_fan(|tree, given| {
        let totals = totals(&tree);
        let own = Export::Lengths.play(&mut tree.clone(), &given).values;
        for (export, own) in [(Insert, [0, 0]), (SetLengths, [own[0], own[1]]), (Update, [own[0], own[1]])] {
            let [prepare, effect] = [0, 1].map(|view| u32::MAX - totals[view] + own[view]);
            let most = Lengths { prepare, effect, lines: MOST_LINES };
            for end in [0, 1] {
                let given = Given { lengths: most, end, ..given };
                assert_eq!(export.play(&mut tree.clone(), &given).number, 0);
                let prepare = Lengths { prepare: most.prepare + 1, effect: 0, lines: 0 };
                refused(7, export, &tree, &Given { lengths: prepare, ..given });
                let effect = Lengths { prepare: 0, effect: most.effect + 1, lines: 0 };
                refused(7, export, &tree, &Given { lengths: effect, ..given });
            }
        }
    });
}

#[test]
fn an_entry_more_than_the_limit_is_8() {
    at_each_fan(|mut tree, given| {
        assert_eq!(Insert.play(&mut tree, &given).number, 0);
        let at = Cursor { stamp: 31, ..given.at };
        for end in [0, 1] {
            refused(8, Insert, &tree, &Given { at, end, ..given });
        }
        let lengths = Lengths { lines: 0, ..given.lengths };
        refused(8, SplitEntry, &tree, &Given { at, lengths, ..given });
    });
}

/// The finger's flag in every head but repair's, which doesn't trust it, the view of the lookups and ranks, the flags of the end and of
/// the split.
#[test]
fn a_view_or_flag_outside_its_values_is_10() {
    at_each_fan(|tree, given| {
        for bad in [2, 3, u32::MAX] {
            let with_head = EXPORTS.iter().filter(|&&export| ![New, Repair].contains(&export));
            let flagged = tree.with(PRESENT, bad);
            assert_eq!(Repair.play(&mut flagged.clone(), &given).number, 0);
            with_head.for_each(|&export| refused(10, export, &flagged, &given));
            refused(10, Insert, &tree, &Given { end: bad, ..given });
            refused(10, SplitEntry, &tree, &Given { before: bad, ..given });
        }
        for view in [3, 4, 256, u32::MAX] {
            VIEWS.iter().for_each(|&export| refused(10, export, &tree, &Given { view, ..given }));
        }
        for view in [0, 1, 2] {
            let played = |export: &Export| export.play(&mut tree.clone(), &Given { view, ..given }).number;
            assert!(VIEWS.iter().all(|export| played(export) == 0), "view {view}");
        }
    });
}

/// More line ends than an entry may have, in every call that takes lengths, alone and with every other cause; as many as it may have are
/// taken, but for the split of an entry that has fewer.
#[test]
fn more_than_65535_line_ends_are_10() {
    at_each_fan(|tree, given| {
        let lined = |lines| Given { lengths: Lengths { lines, ..given.lengths }, ..given };
        let wide = |lines| Lengths { prepare: u32::MAX, effect: u32::MAX, lines };
        let mut full = tree.clone();
        assert_eq!(Insert.play(&mut full, &given).number, 0);
        let bad_fan = Tree { homes: Area::new(&[]), ..tree.with(FAN, 3) };
        let short = Tree { leaves: Area::new(&[]), ..tree.clone() };
        let astray = Cursor { leaf: u32::MAX, slot: u32::MAX, stamp: u64::MAX };
        for export in LENGTHS {
            for lines in [MOST_LINES + 1, MOST_LINES + 2, 1 << 17, 1 << 31, u32::MAX] {
                refused(10, export, &tree, &lined(lines));
                for tree in [&tree, &full, &bad_fan, &short] {
                    let bad = Given { at: astray, lengths: wide(lines), fan: 3, limit: 0, ..given };
                    refused(10, export, tree, &bad);
                    refused(10, export, tree, &Given { at: given.at, ..bad });
                    refused(10, export, tree, &Given { end: 1, before: 0, ..bad });
                }
            }
            let most = export.play(&mut tree.clone(), &lined(MOST_LINES)).number;
            assert_eq!(most, if export == SplitEntry { 6 } else { 0 }, "{export:?}");
        }
    });
}

/// A head of fewer words, of more, and of none.
#[test]
fn a_head_that_is_not_thirty_six_words_is_10() {
    at_each_fan(|tree, given| {
        for words in [0, 1, 7, 8, 19, 20, 28, 35, 37, 72] {
            let head = tree.head.words().iter().copied().cycle().take(words).collect::<Vec<_>>();
            let tree = Tree { head: Area::new(&head), ..tree.clone() };
            EXPORTS.iter().for_each(|&export| refused(10, export, &tree, &given));
        }
    });
}

/// The buffer is a byte too short for the thirty entries' page, far too short, and empty; a byte more serves as well.
#[test]
fn a_buffer_below_2750_bytes_a_page_is_12() {
    at_each_fan(|tree, given| {
        for bytes in [0, 1, 55, 30 * 55, PAGE_BYTES - 1] {
            refused(12, Print, &Tree { page: unprinted(bytes), ..tree.clone() }, &given);
        }
        for bytes in [PAGE_BYTES, PAGE_BYTES + 1] {
            let mut tree = Tree { page: unprinted(bytes), ..tree.clone() };
            assert_eq!(Print.play(&mut tree, &given).number, 0);
        }
    });
}

/// 10, 1, 2, 12: each cause with all those after it, the last of which is a root that leads outside.
#[test]
fn the_order_of_the_refusals_of_print() {
    at_each_fan(|tree, given| {
        let astray = tree.with(ROOT, u32::MAX);
        let small = Tree { page: unprinted(PAGE_BYTES - 1), ..astray.clone() };
        let short = Tree { homes: Area::new(&[]), ..small.clone() };
        let bad_fan = short.with(FAN, 33);
        let head = [&bad_fan.head.words()[..], &[0]].concat();
        refused(10, Print, &Tree { head: Area::new(&head), ..bad_fan.clone() }, &given);
        refused(10, Print, &bad_fan.with(PRESENT, 2), &given);
        refused(1, Print, &bad_fan, &given);
        refused(2, Print, &short, &given);
        refused(12, Print, &small, &given);
        refused(9, Print, &astray, &given);
    });
}

/// 10, 1, 2, 21: each cause with all those after it, the last of which is a root that leads outside.
#[test]
fn the_order_of_the_refusals_of_repair() {
    at_each_fan(|tree, given| {
        let astray = tree.with(ROOT, u32::MAX);
        for short in [
            Tree { leaves: Area::new(&[]), ..astray.clone() },
            Tree { inners: Area::new(&[]), ..astray.clone() },
            Tree { homes: Area::new(&[]), ..astray.clone() },
        ] {
            let bad_fan = short.with(FAN, 33);
            refused(10, Repair, &bad_fan.with(SEATED, 2), &given);
            refused(1, Repair, &bad_fan, &given);
            refused(1, Repair, &short.with(LIMIT, 0), &given);
            refused(2, Repair, &short, &given);
        }
        refused(21, Repair, &astray, &given);
    });
}

/// Several causes at once: 10 comes first, then 1 to 8 in rising order, 13 and 14 directly behind 3 (17: refusals/split.rs).
#[test]
fn the_order_of_the_refusals() {
    at_each_fan(|mut tree, given| {
        assert_eq!(Insert.play(&mut tree, &given).number, 0);
        let current = Cursor { stamp: 31, ..given.at };
        let wide = Lengths { prepare: u32::MAX, effect: u32::MAX, lines: MOST_LINES };
        let all = Given { lengths: wide, view: 3, end: 2, before: 2, index: u32::MAX, ..given };
        let bad_fan = Tree { homes: Area::new(&[]), ..tree.with(FAN, 3) };
        let short = Tree { homes: Area::new(&[]), ..tree.clone() };
        for export in [Locate, EntryToCharIndex, Insert, SplitEntry] {
            refused(10, export, &bad_fan, &all);
            let good = Given { view: 0, end: 0, before: 0, ..all };
            refused(1, export, &bad_fan, &good);
            refused(2, export, &short, &good);
        }
        let good = Given { view: 0, end: 0, before: 0, ..all };
        let [leaf, slot] = [u32::MAX; 2];
        let astray = Cursor { leaf, slot, ..current };
        let past = Cursor { slot, ..current };
        for (number, at) in [(3, Cursor { leaf, slot, ..given.at }), (3, given.at), (13, astray), (14, past)] {
            let bad = Given { at, ..good };
            [Insert, SplitEntry, SetLengths, Update].iter().for_each(|&export| refused(number, export, &tree, &bad));
        }
        let good = Given { at: current, ..good };
        refused(6, SplitEntry, &tree, &good);
        [Insert, SetLengths, Update].iter().for_each(|&export| refused(7, export, &tree, &good));
    });
}
