//! Sound trees of every height, with seats and without.

use crate::exports::{Area, Tree, LENT};
use crate::port::three;
use crate::words::{on_zeros, seated};
use oracle::state::node_words;
use smelvock::raw::word::{LEVELS, SEATED};
use smelvock::{Cursor, Lengths, PrepareEffectTree, View, LIMIT};

/// A tree of so many entries with room for three more, and with a finger. Entries are put at the end, so that it is as tall as it gets,
/// or at many places. A seated one has shares that are used, and in seats 0 and 7 others that the free entries just cover.
pub fn tree<const N: usize>(entries: u32, at_end: bool, with_seats: bool) -> Tree {
    let (limit, first) = ((entries + 3).min(LIMIT), [1, 7, 2]);
    let free = limit - entries;
    let shares = [free.min(1), entries / 3, 0, 0, 0, 0, ((entries - 1) / 3).min(2), free - free.min(1)];
    let mut tree = if with_seats { seated::<N>(limit, first, shares) } else { on_zeros::<N>(limit, first) };
    for id in 1..entries {
        let lengths = three([1 + id % 5, 3 + id % 11, 2 + id % 7]);
        let before = (!at_end && id % 3 != 0).then(|| tree.cursor(id * 7 % id).expect("it is there"));
        put(&mut tree, with_seats.then_some(if id % 3 == 0 { 6 } else { 1 }), before, lengths);
    }
    tree.locate(View::Effect, entries).expect("it is long enough");
    longer(Tree::of(&tree), if entries < 100 { 5 } else { 0 })
}

fn put<const N: usize>(tree: &mut PrepareEffectTree<N>, seat: Option<u8>, before: Option<Cursor>, lengths: Lengths) {
    let done = match seat {
        None => tree.insert(before, lengths),
        Some(seat) => tree.insert_for(seat, before, lengths),
    };
    done.expect("there is room");
}

/// Areas that are longer than the limit needs, and nothing to print in.
fn longer(tree: Tree, words: usize) -> Tree {
    let [leaves, inners, homes] =
        [&tree.leaves, &tree.inners, &tree.homes].map(|area| Area::new(&[area.words(), &vec![LENT; words]].concat()));
    Tree { leaves, inners, homes, page: Area::new(&[]), ..tree }
}

/// At which numbers of entries, put at the end one after another, a tree first has 1, 2, 3, .. levels.
pub fn heights<const N: usize>() -> Vec<u32> {
    let one = three([1; 3]);
    let mut tree = PrepareEffectTree::<N>::new(one).expect("fan and limit are good");
    let mut heights = vec![1];
    for entries in 2..=LIMIT {
        tree.insert(None, one).expect("there is room");
        if tree.head()[LEVELS] as usize > heights.len() {
            heights.push(entries);
        }
    }
    heights
}

/// The trusted words of the tree of that fan and so many levels with the fewest entries, and LENT in all others: the root has two
/// children, every other node half of its fan. None where it would hold more than 65,536. Nodes and ids are numbered from the end.
pub fn trusted_alone(fan: u32, levels: u32) -> Option<Tree> {
    let half = (fan / 2) as usize;
    let in_level = |level: u32| if level == 0 { 1 } else { 2 * half.pow(level - 1) };
    let (leaves, inners) = (in_level(levels), (0..levels).map(in_level).sum::<usize>());
    let entries = leaves * half;
    let limit = u32::try_from(entries).ok().filter(|&entries| entries <= LIMIT)?;
    let mut tree = Tree::unmade(4, fan, limit);
    let head = [fan, limit, inners as u32 - 1, levels, leaves as u32, inners as u32, limit, 0];
    tree.head.words_mut()[..8].copy_from_slice(&head);
    tree.head.words_mut()[SEATED] = 0;
    let size = node_words(fan);
    let mut inner = inners;
    let mut next = inners - 1;
    for level in 0..levels {
        let last = level + 1 == levels;
        next = if last { leaves } else { next };
        for _ in 0..in_level(level) {
            inner -= 1;
            let words = &mut tree.inners.words_mut()[inner * size..][..size];
            let len = if level == 0 { 2 } else { half };
            words[0] = len as u32;
            for slot in 0..len {
                next -= 1;
                words[3 + 4 * slot] = next as u32;
            }
        }
    }
    for (slot, id) in (0..entries).zip((0..limit).rev()) {
        let start = slot / half * size;
        let words = &mut tree.leaves.words_mut()[start..][..size];
        words[0] = half as u32;
        words[3 + 4 * (slot % half)..][..4].copy_from_slice(&[id, id % 5, 1 + id % 3, id % 7]);
    }
    Some(tree)
}
