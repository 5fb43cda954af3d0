//! The same tree three times.

use crate::called::Called;
use beside::port::Port;
use beside::words::tree_of;
use oracle::calls::Calls;
use oracle::random::Random;
use oracle::rust::pair;
use oracle::tree::PrepareEffectTree;

/// lib.rs's, lib.rs's behind calls, and the port's.
pub struct Trees<A, B, C> {
    pub rust: A,
    pub called: B,
    pub port: C,
}

pub fn trees<const N: usize>(entries: u32) -> Trees<PrepareEffectTree<N>, Called<N>, Port<N>> {
    let rust: PrepareEffectTree<N> = grown(N, entries, |lengths| PrepareEffectTree::new(pair(lengths)));
    let port = Port(tree_of(rust.state(entries, &[])), None);
    Trees { rust, called: grown(N, entries, Called::new), port }
}

/// A tree of so many entries, inserted at random places with lengths of 0 to 7 and no line ends.
fn grown<T: Calls>(seed: usize, entries: u32, make: fn([u32; 3]) -> T) -> T {
    let mut random = Random::new(seed as u64);
    let lengths = |random: &mut Random| [random.below(8) as u32, random.below(8) as u32, 0];
    let mut tree = make(lengths(&mut random));
    while tree.len() < entries as usize {
        let before = tree.cursor(random.below(tree.len() as u64) as u32);
        let lengths = lengths(&mut random);
        tree.insert(Some(before), lengths);
    }
    tree
}
