//! A tree's words changed, in head and areas, whatever its width.

use crate::exports::Tree;
use oracle::random::Random;

/// Other values for a word: its neighbours, some single bits, and the ends.
fn others(word: u32) -> impl Iterator<Item = u32> {
    let bits = [0, 1, 2, 4, 8, 16, 31].into_iter().map(move |bit| word ^ 1 << bit);
    bits.chain([word.wrapping_add(1), word.wrapping_sub(1), 0, u32::MAX]).filter(move |&other| other != word)
}

/// One word, of leaves, inner nodes, homes or head.
pub fn word(tree: &mut Tree, area: usize, at: usize) -> &mut u32 {
    let area =
        [&mut tree.leaves, &mut tree.inners, &mut tree.homes, &mut tree.head].into_iter().nth(area).expect("four");
    &mut area.words_mut()[at]
}

fn lengths(tree: &Tree) -> [usize; 4] {
    [&tree.leaves, &tree.inners, &tree.homes, &tree.head].map(|area| area.words().len())
}

/// Every word of head and areas, one at a time, each with other values; answers how many trees that are.
pub fn flip_every_word(mut tree: Tree, mut each: impl FnMut(&Tree)) -> u64 {
    let (lengths, mut flips) = (lengths(&tree), 0);
    for (area, at) in (0..4).flat_map(|area| (0..lengths[area]).map(move |at| (area, at))) {
        let before = *word(&mut tree, area, at);
        for other in others(before) {
            *word(&mut tree, area, at) = other;
            each(&tree);
            flips += 1;
        }
        *word(&mut tree, area, at) = before;
    }
    flips
}

/// Up to six words anywhere are others.
pub fn change_some(tree: &mut Tree, random: &mut Random) {
    for _ in 0..1 + random.below(6) {
        let area = random.below(4) as usize;
        let at = random.below(lengths(tree)[area] as u64) as usize;
        *word(tree, area, at) = [0, 1, 2, 4, 19, u32::MAX, random.word() as u32][random.below(7) as usize];
    }
}

/// Every word of the areas is a random one, small in half of the trees.
pub fn randomize(tree: &mut Tree, random: &mut Random) {
    let most = [4, 1 << random.below(32) as u32][random.below(2) as usize];
    let lengths = lengths(tree);
    for (area, at) in (0..3).flat_map(|area| (0..lengths[area]).map(move |at| (area, at))) {
        *word(tree, area, at) = random.below(most as u64 + 1) as u32;
    }
}
