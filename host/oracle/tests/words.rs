//! The readers of lib.rs's private state: the layout of the words, and the cursors' `Debug` text.

use oracle::calls::Calls;
use oracle::lined::Lined;
use oracle::rust::{pair, Place};
use oracle::state::{Finger, LINES, NONE, PREPARE};
use oracle::tree::{PrepareEffectTree, LENT};

/// Document 01's sheet of five entries after P10, with line ends, word for word; and its fingers by character and by line.
#[test]
fn the_words_of_the_sheet_of_five_entries() {
    let mut tree = Lined::<4>::make(6, [3, 3, 9]);
    tree.insert(None, [2, 0, 65_535]);
    tree.insert(Some(tree.cursor(0)), [0, 5, 4]);
    tree.split_entry(tree.cursor(0), [1, 1, 2], true);
    tree.insert(Some(tree.cursor(1)), [1, 1, 0]);
    tree.locate(PREPARE, 4);
    let state = tree.state();
    let empty = [NONE, 0, 0, 0];
    let leaves = [vec![2, 0, 0], vec![2, 0, 5, 4], vec![3, 1, 1, 2], empty.into(), empty.into()].concat();
    let upper = [vec![3, 0, 1], vec![0, 2, 2, 7], vec![4, 1, 1, 0], vec![1, 2, 0, 65_535], empty.into()].concat();
    let root = [vec![2, NONE, 0], vec![0, 1, 6, 6], vec![1, 5, 3, 65_542], empty.into(), empty.into()].concat();
    let lent = vec![LENT; 19];
    assert_eq!(state.leaves, [leaves, upper, lent.clone()].concat());
    assert_eq!(state.inners, [root, lent.clone(), lent].concat());
    assert_eq!(state.homes, [1, 1, 0, 0, 1, LENT]);
    let head = state.head;
    assert_eq!([head.fan, head.limit, head.root, head.levels], [4, 6, 0, 1]);
    assert_eq!([head.entry_count, head.leaf_count, head.inner_count], [5, 2, 1]);
    assert_eq!(head.stamp, 5);
    let sums = Finger {
        view: 0,
        leaf: 1,
        start: 1,
        effect: 6,
        slot: 2,
        within: 3,
        effect_within: 3,
        prepare: 1,
        prepare_within: 3,
    };
    assert_eq!(head.finger, Some(sums));
    assert_eq!(tree.locate(LINES, 13), (tree.cursor(1), 0, 9));
    assert_eq!(tree.head().finger, Some(Finger { view: 2, start: 6, within: 7, ..sums }));
    // an earlier slot of the leaf changes, and then another leaf
    tree.set_lengths(tree.cursor(4), [1, 1, 8]);
    let rewound = Finger { view: 2, start: 6, slot: 0, within: 0, effect_within: 0, prepare_within: 0, ..sums };
    assert_eq!(tree.head().finger, Some(rewound));
    tree.set_lengths(tree.cursor(2), [0, 5, 0]);
    assert_eq!(tree.head().finger, None);
    assert_eq!(tree.locate(LINES, 1), (tree.cursor(3), 1, 5));
    assert_eq!(tree.char_index_to_entry(PREPARE, 4), (tree.cursor(1), 0));
    assert_eq!(tree.head().finger, Some(sums));
}

#[test]
fn the_debug_text_of_a_cursor_is_its_private_fields() {
    let mut tree = PrepareEffectTree::<5>::new(pair([1, 1]));
    for _ in 1..2_000 {
        tree.insert(None, pair([1, 1]));
    }
    let mut read = 0;
    for id in 0..2_000 {
        let cursor = tree.cursor(id);
        let Place { leaf, slot } = Place::of(cursor);
        assert_eq!([leaf, slot], cursor.fields());
        assert_eq!(format!("{cursor:?}"), format!("Cursor {{ leaf: {leaf}, slot: {slot} }}"));
        read += 1;
    }
    println!("{read} cursors over {} leaves", tree.head(2_000).leaf_count);
    assert_eq!((read, tree.head(2_000).leaf_count), (2_000, 999));
}
