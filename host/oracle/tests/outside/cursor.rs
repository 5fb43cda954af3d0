//! Cursors that are not current, in each call that takes one. The port refuses all of them by 3, for the entry count has changed and
//! the stamp is tested first; 13 and 14 take a right stamp (host/beside/tests/cursors.rs, `the_cases_of_differences`).

use super::*;
use oracle::state::NONE;
use std::cmp::Ordering;

/// Id 0 (3, 3), id 1 (2, 0); a cursor at id 1; then (0, 5) is inserted before id 0. The order is 2, 0, 1
/// and the cursor's slot holds id 0. The port: 3; with the present stamp it would stand for id 0.
fn after_an_insert() -> (Tree, Cursor) {
    let mut tree = Tree::new(pair([3, 3]));
    tree.insert(None, pair([2, 0]));
    let stale = tree.cursor(1);
    tree.insert(Some(tree.cursor(0)), pair([0, 5]));
    (tree, stale)
}

/// Ids 0 to 3 fill leaf 0; a cursor at id 3; then id 4 is inserted at the end, which moves ids 2 and 3 into
/// leaf 1. The cursor's slot, 3 of leaf 0, is empty and past that leaf's len. The port: 3; with the present stamp 14.
fn after_a_leaf_split() -> (Tree, Cursor) {
    let mut tree = Tree::new(pair([1, 1]));
    for length in 2..=4 {
        tree.insert(None, pair([length, length]));
    }
    let stale = tree.cursor(3);
    tree.insert(None, pair([5, 5]));
    (tree, stale)
}

/// A cursor into leaf 1, and then a reset to one entry: there is no leaf 1. The port: 3; with the present stamp 13.
fn after_a_reset() -> (Tree, Cursor) {
    let mut tree = five();
    let stale = tree.cursor(4);
    tree.reset(pair([1, 1]));
    (tree, stale)
}

#[test]
fn questions_after_an_insert_answer_for_another_entry() {
    let (tree, stale) = after_an_insert();
    assert_eq!(tree.id(stale), 0);
    assert_eq!(tree.lengths(stale), pair([3, 3]));
    assert_eq!(tree.next(stale).map(|next| tree.id(next)), Some(1));
    assert_eq!(tree.entry_to_char_index(View::Prepare, stale), 0);
    assert_eq!(tree.entry_to_char_index(View::Effect, stale), 5);
    assert_eq!(tree.cmp(stale, tree.cursor(0)), Ordering::Equal);
    assert_eq!(tree.cmp(stale, tree.cursor(1)), Ordering::Less);
}

#[test]
fn changes_after_an_insert_change_another_entry() {
    let changed = |change: fn(&mut Tree, Cursor)| {
        let (mut tree, stale) = after_an_insert();
        change(&mut tree, stale);
        assert_eq!(verdict(&tree), Verdict::Yes);
        walked(&tree)
    };
    let set = [[2, 0, 5], [0, 7, 7], [1, 2, 0]];
    assert_eq!(changed(|tree, stale| tree.set_lengths(stale, pair([7, 7]))), set);
    assert_eq!(changed(|tree, stale| assert_eq!(tree.update(stale, pair([7, 7])), 5)), set);
    let inserted = [[2, 0, 5], [3, 7, 7], [0, 3, 3], [1, 2, 0]];
    assert_eq!(changed(|tree, stale| assert_eq!(tree.insert(Some(stale), pair([7, 7])), (3, 5))), inserted);
    let split = [[2, 0, 5], [0, 2, 3], [3, 1, 0], [1, 2, 0]];
    assert_eq!(changed(|tree, stale| assert_eq!(tree.split_entry(stale, pair([1, 0]), false).0, 3)), split);
}

#[test]
fn a_split_makes_a_cursor_stale_too() {
    let mut tree = Tree::new(pair([3, 3]));
    let stale = tree.cursor(0);
    tree.split_entry(stale, pair([1, 1]), true);
    assert_eq!((tree.id(stale), tree.lengths(stale)), (1, pair([1, 1])));
}

#[test]
fn questions_past_a_leafs_len_answer_by_chance() {
    let (tree, stale) = after_a_leaf_split();
    assert_eq!(tree.id(stale), NONE);
    assert_eq!(tree.lengths(stale), pair([0, 0]));
    assert_eq!(tree.next(stale).map(|next| tree.id(next)), Some(2));
    assert_eq!(tree.entry_to_char_index(View::Prepare, stale), 3);
    assert_eq!(tree.cmp(stale, tree.cursor(2)), Ordering::Less);
}

#[test]
fn lengths_set_past_a_leafs_len_belong_to_no_entry() {
    let damaged = |change: fn(&mut Tree, Cursor)| {
        let (mut tree, stale) = after_a_leaf_split();
        change(&mut tree, stale);
        assert_eq!(walked(&tree), walked(&five()));
        assert_eq!(verdict(&tree), Verdict::No("inner sums"));
        assert_eq!(outcome(|| tree.locate(View::Prepare, 3)), Err(PAST_THE_END.into()));
    };
    damaged(|tree, stale| tree.set_lengths(stale, pair([7, 7])));
    damaged(|tree, stale| assert_eq!(tree.update(stale, pair([7, 7])), 3));
}

#[test]
fn entries_placed_past_a_leafs_len_are_out_of_the_order() {
    let damaged = |change: fn(&mut Tree, Cursor)| {
        let (mut tree, stale) = after_a_leaf_split();
        change(&mut tree, stale);
        let ids: Vec<u32> = walked(&tree).iter().map(|entry| entry[0]).collect();
        assert_eq!((ids, tree.len()), (vec![0, 1, NONE, 2, 3, 4], 6));
        assert_eq!(tree.cursor(5).fields(), [0, 3]);
        assert_eq!(verdict(&tree), Verdict::No("ids 0 to count - 1 once each"));
    };
    damaged(|tree, stale| assert_eq!(tree.insert(Some(stale), pair([1, 1])), (5, 3)));
    damaged(|tree, stale| assert_eq!(tree.split_entry(stale, pair([1, 1]), true).0, 5));
}

/// The new entry would stand in slot 4 of 4. It is counted although it is nowhere.
#[test]
fn a_split_past_the_last_slot_panics_half_done() {
    let (mut tree, stale) = after_a_leaf_split();
    assert_eq!(outcome(|| tree.split_entry(stale, pair([1, 1]), false)), out_of_bounds(4, 4));
    assert_eq!((tree.len(), walked(&tree).len()), (6, 5));
    assert_eq!(outcome(|| tree.cursor(5)), Err("child is not in its node".into()));
}

/// Two entries placed in one slot past the len: the first is lost. Above len 8 `index_of` looks at every
/// slot and finds none, which only a debug build notices; release takes slot 0 for it.
#[test]
fn an_entry_written_over_is_lost() {
    let mut tree = PrepareEffectTree::<32>::new(pair([1, 1]));
    for _ in 1..32 {
        tree.insert(None, pair([1, 1]));
    }
    let stale = tree.cursor(31);
    tree.insert(None, pair([1, 1]));
    for id in [33, 34] {
        assert_eq!(tree.insert(Some(stale), pair([1, 1])).0, id);
    }
    let lost = outcome(|| tree.id(tree.cursor(33)));
    if CHECKED {
        assert!(lost.is_err_and(|text| text.starts_with("assertion `left == right` failed")));
    } else {
        assert_eq!(lost, Ok(0));
    }
}

/// The call panics and changes nothing.
fn gone<T: PartialEq + std::fmt::Debug>(call: fn(&mut Tree, Cursor) -> T) {
    let (mut tree, stale) = after_a_reset();
    assert_eq!(outcome(|| call(&mut tree, stale)), out_of_bounds(1, 1));
    assert_eq!(verdict(&tree), Verdict::Yes);
}

/// Every call but a comparison within one leaf looks at the leaf, which is not there.
#[test]
fn a_leaf_that_is_gone_panics() {
    gone(|tree, stale| tree.next(stale));
    gone(|tree, stale| tree.id(stale));
    gone(|tree, stale| tree.lengths(stale));
    gone(|tree, stale| tree.cmp(stale, tree.cursor(0)));
    gone(|tree, stale| tree.entry_to_char_index(View::Prepare, stale));
    gone(|tree, stale| tree.set_lengths(stale, pair([1, 1])));
    gone(|tree, stale| tree.update(stale, pair([1, 1])));
    gone(|tree, stale| tree.insert(Some(stale), pair([1, 1])));
    gone(|tree, stale| tree.split_entry(stale, pair([1, 1]), true));
    let (tree, stale) = after_a_reset();
    assert_eq!(tree.cmp(stale, stale), Ordering::Equal);
}

/// An insert in another leaf leaves the cursor's slot alone: lib.rs answers rightly, document 01 refuses, by 3.
#[test]
fn a_stale_cursor_in_another_leaf_still_serves() {
    let mut tree = five();
    let stale = tree.cursor(1);
    tree.insert(None, pair([6, 6]));
    assert_eq!((tree.id(stale), tree.entry_to_char_index(View::Prepare, stale)), (1, 1));
    assert_eq!(tree.update(stale, pair([9, 9])), 1);
    assert_eq!(verdict(&tree), Verdict::Yes);
}
