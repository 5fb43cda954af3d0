//! Splits of more than there is, hollow splits, and totals past u32.

use super::*;

const MAX: u32 = u32::MAX;

#[test]
fn a_split_of_too_much_wraps_the_entry() {
    for (taken, left, new) in [([4, 0], [MAX, 3], [4, 0]), ([0, 5], [3, MAX - 1], [0, 5])] {
        let mut tree = Tree::new(pair([3, 3]));
        assert_eq!(tree.split_entry(tree.cursor(0), pair(taken), false).0, 1);
        assert_eq!(walked(&tree), [[0, left[0], left[1]], [1, new[0], new[1]]]);
        assert_eq!(verdict(&tree), Verdict::No("inner sums"));
    }
}

/// Entry 0 has become 4294967295 long, entry 1 has 4, entry 2 has 1, and the root knows of 4.
#[test]
fn after_a_split_of_too_much() {
    let mut tree = Tree::new(pair([3, 3]));
    tree.split_entry(tree.cursor(0), pair([4, 0]), false);
    tree.insert(None, pair([1, 0]));
    assert_eq!(outcome(|| tree.entry_to_char_index(View::Prepare, tree.cursor(2))), wrapped(3));
    let (at, offset, _) = tree.locate(View::Prepare, 3);
    assert_eq!((tree.id(at), offset), (0, 3));
}

/// Nothing moved, all moved, and an entry without lengths: the hollow part is an entry like any other, and the tree stays sound.
#[test]
fn a_hollow_split_makes_the_entry() {
    for (own, taken) in [([3, 3], [0, 0]), ([3, 3], [3, 3]), ([0, 0], [0, 0])] {
        for before in [false, true] {
            let mut tree = Tree::new(pair(own));
            let (id, parts) = tree.split_entry(tree.cursor(0), pair(taken), before);
            let (kept, new) = ([0, own[0] - taken[0], own[1] - taken[1]], [1, taken[0], taken[1]]);
            assert_eq!((id, walked(&tree)), (1, if before { vec![new, kept] } else { vec![kept, new] }));
            assert_eq!(parts.map(|part| tree.id(part)), if before { [1, 0] } else { [0, 1] });
            assert_eq!(verdict(&tree), Verdict::Yes);
        }
    }
}

/// The sheet fills with them: 999 hollow splits of one entry, and every character is still its own.
#[test]
fn a_sheet_full_of_hollow_entries() {
    let mut tree = Tree::new(pair([3, 3]));
    (1..1_000).for_each(|id| assert_eq!(tree.split_entry(tree.cursor(0), pair([0, 0]), id % 2 == 0).0, id));
    for index in 0..3 {
        let (at, offset, _) = tree.locate(View::Prepare, index);
        assert_eq!((tree.id(at), offset), (0, index));
    }
    assert_eq!((tree.len(), verdict(&tree)), (1_000, Verdict::Yes));
}

/// Prepare totals 4294967295 and then one more: the root says 0, so nothing is found.
#[test]
fn a_prepare_total_past_u32_makes_the_root_0() {
    let lost = |change: fn(&mut Tree)| {
        let mut tree = Tree::new(pair([MAX, 0]));
        change(&mut tree);
        assert_eq!(outcome(|| tree.locate(View::Prepare, 0)), Err(PAST_THE_END.into()));
        assert_eq!(verdict(&tree), Verdict::No("inner sums"));
    };
    lost(|tree| assert_eq!(tree.insert(None, pair([1, 0])), (1, 0)));
    lost(|tree| {
        tree.insert(None, pair([0, 0]));
        tree.set_lengths(tree.cursor(1), pair([1, 0]));
    });
    lost(|tree| {
        tree.insert(None, pair([0, 0]));
        assert_eq!(tree.update(tree.cursor(1), pair([1, 0])), 0);
    });
}

/// With the finger still in that leaf the same position is found: an answer by chance.
#[test]
fn the_finger_hides_the_wrapped_root() {
    let mut tree = Tree::new(pair([MAX, 0]));
    tree.locate(View::Prepare, 5);
    tree.insert(None, pair([1, 0]));
    let (at, offset, effect) = tree.locate(View::Prepare, 0);
    assert_eq!((tree.id(at), offset, effect), (0, 0, 0));
    let text = if CHECKED { OVERFLOW } else { PAST_THE_END };
    assert_eq!(outcome(|| tree.locate(View::Prepare, MAX)), Err(text.into()));
}

/// (1, 4294967295), (1, 1), (1, 0): the effect lengths before id 2 pass u32.
fn effect_past_u32() -> Tree {
    let mut tree = Tree::new(pair([1, MAX]));
    assert_eq!(tree.insert(None, pair([2, 1])), (1, MAX));
    tree.split_entry(tree.cursor(1), pair([1, 0]), false);
    tree
}

#[test]
fn sums_past_u32_panic_in_debug_and_wrap_in_release() {
    let mut tree = effect_past_u32();
    assert_eq!(outcome(|| tree.entry_to_char_index(View::Effect, tree.cursor(2))), wrapped(0));
    assert_eq!(outcome(|| tree.locate(View::Prepare, 2).2), wrapped(0));
    let mut fingered = effect_past_u32();
    fingered.locate(View::Prepare, 0);
    assert_eq!(outcome(|| fingered.locate(View::Prepare, 2).2), wrapped(0));
}

/// The sum comes after the entry is in its leaf: the panic of a debug build leaves the ancestors behind.
#[test]
fn insert_and_update_panic_half_done_in_debug() {
    let mut tree = effect_past_u32();
    assert_eq!(outcome(|| tree.insert(None, pair([2, 0]))), wrapped((3, 0)));
    assert_eq!((tree.len(), walked(&tree)[3]), (4, [3, 2, 0]));
    assert_eq!(outcome(|| tree.locate(View::Prepare, 3).1), if CHECKED { Err(PAST_THE_END.into()) } else { Ok(0) });
    let mut tree = effect_past_u32();
    assert_eq!(outcome(|| tree.update(tree.cursor(2), pair([3, 0]))), wrapped(0));
    assert_eq!(tree.lengths(tree.cursor(2)), pair([3, 0]));
}

/// A rank across leaves adds one node's sum to another's: that addition overflows too.
#[test]
fn a_rank_over_two_leaves_wraps_in_release() {
    let mut tree = five();
    tree.set_lengths(tree.cursor(0), pair([MAX, 0]));
    tree.set_lengths(tree.cursor(1), pair([0, 0]));
    assert_eq!(verdict(&tree), Verdict::No("totals within u32"));
    assert_eq!(outcome(|| tree.entry_to_char_index(View::Prepare, tree.cursor(3))), wrapped(2));
}
