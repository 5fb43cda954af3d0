//! Line ends at their most: 65,535 in each of 65,536 entries, whose total is below 4,294,967,295.

use beside::port::three;
use beside::words::tree_of;
use oracle::examined::Examined;
use oracle::state::{MOST_LINES, PREPARE};
use oracle::{at_fan, rust, tree};
use smelvock::{PrepareEffectTree, Refusal, View};

const LIMIT: u32 = 65_536;
const TOTAL: u32 = LIMIT * MOST_LINES;

/// lib.rs's full tree of entries of those lengths, whose ids are their places.
fn full<const N: usize>(lengths: [u32; 2]) -> tree::PrepareEffectTree<N> {
    let mut tree = tree::PrepareEffectTree::new(rust::pair(lengths));
    (1..LIMIT).for_each(|id| assert_eq!(tree.insert(None, rust::pair(lengths)), (id, id)));
    tree
}

/// What lib.rs's lookup of a prepare position examines.
fn examined<const N: usize>(tree: &mut tree::PrepareEffectTree<N>, index: u32) -> u32 {
    let finger = tree.head(LIMIT).finger;
    let (at, ..) = tree.locate(rust::side(PREPARE), index);
    let looked = Examined::of(tree, finger, (PREPARE, index), at.fields());
    assert!(looked.within(), "N {N}, {looked:?}");
    looked.slots
}

/// The words of a tree of entries (0, 1, 65,535) are lib.rs's. What a lookup of a line examines is what lib.rs's of a character does, whose
/// prepare lengths are the line ends.
fn at_their_most<const N: usize>() {
    let mut tree: PrepareEffectTree<N> = tree_of(full::<N>([0, 1]).state(LIMIT, &vec![MOST_LINES; LIMIT as usize]));
    let mut lines_for_prepare = full::<N>([MOST_LINES, 1]);
    assert_eq!(tree.audit(), Ok(true));
    for id in [0, 1, 40, LIMIT / 2, LIMIT - 1] {
        let at = tree.cursor(id).unwrap();
        assert_eq!(tree.entry_to_char_index(View::Lines, at), Ok(id * MOST_LINES));
        for offset in [0, 1, MOST_LINES - 1] {
            let index = id * MOST_LINES + offset;
            let slots = examined(&mut lines_for_prepare, index);
            assert_eq!(tree.locate(View::Lines, index), Ok((at, offset, id, 0, slots)), "N {N}");
            // the finger is there: one slot is examined
            assert_eq!(tree.char_index_to_entry(View::Lines, index), Ok((at, offset, 1)), "N {N}");
        }
        // the tree is full: an entry more is 8, and its line ends are no cause for 7
        assert_eq!(tree.insert(Some(at), three([0, 0, MOST_LINES])), Err(Refusal::FULL));
        assert_eq!(tree.split_entry(at, three([0, 0, MOST_LINES]), false), Err(Refusal::FULL));
        assert_eq!(tree.split_entry(at, three([0, 1, MOST_LINES]), false), Err(Refusal::HOLLOW));
        assert_eq!(tree.set_lengths(at, three([0, 1, 0])), Ok(()));
        assert_eq!(tree.locate(View::Lines, TOTAL - MOST_LINES), Err(Refusal::POSITION));
        assert_eq!(tree.update(at, three([0, 1, MOST_LINES])), Ok(id));
    }
    for index in [TOTAL, TOTAL + 1, u32::MAX] {
        assert_eq!(tree.locate(View::Lines, index), Err(Refusal::POSITION));
    }
    assert_eq!(tree.insert(None, three([0, 0, MOST_LINES])), Err(Refusal::FULL));
    assert_eq!(tree.insert(None, three([0, 0, MOST_LINES + 1])), Err(Refusal::FIELD));
    assert_eq!(tree.insert(None, three([0, u32::MAX, MOST_LINES])), Err(Refusal::TOTAL));
    assert_eq!(tree.audit(), Ok(true));
}

#[test]
fn a_full_tree_of_65535_line_ends_each() {
    for fan in [4, 8, 32] {
        at_fan!(fan, N => at_their_most::<N>());
    }
}
