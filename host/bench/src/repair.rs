//! `repair` beside `audit` of the sound tree, which stands in lib.rs's column: of the sound tree itself, of one whose inner sums are all
//! stale, and of one in which every word is damaged that repair rewrites. Each time is that of the whole tree by its entries.

use crate::timing::Table;
use beside::damage::word;
use beside::exports::Tree;
use beside::repair::sites::{Site, Sites};
use smelvock::PrepareEffectTree;
use std::hint::black_box;

/// The title of the table of a fan and a number of entries.
pub fn title(fan: u32, entries: u32) -> String {
    format!("repair for port, audit for lib.rs, per entry, N {fan}, {entries} entries")
}

/// The tree with other words there.
fn damaged<const N: usize>(tree: &Tree, sites: impl Iterator<Item = Site>) -> PrepareEffectTree<N> {
    let mut tree = tree.clone();
    sites.for_each(|(area, at)| *word(&mut tree, area, at) ^= 0x5A5A_5A5A);
    let [head, leaves, inners, homes] = tree.words();
    PrepareEffectTree::from_words(head.try_into().expect("thirty-six words"), leaves, inners, homes)
}

pub fn run<const N: usize>(sound: &PrepareEffectTree<N>, entries: u32, rounds: usize) {
    let mut table = Table::new(title(N as u32, entries), rounds);
    let words = Tree::of(sound);
    let sites = Sites::of(&words);
    let mut audit = || {
        assert_eq!(black_box(sound).audit(), Ok(true));
        entries as usize
    };
    let mut itself = sound.clone();
    table.kind("sound", &mut audit, || {
        assert_eq!(black_box(&mut itself).repair(), Ok(0));
        entries as usize
    });
    let stale: (_, Vec<Site>) = ("sums stale", sites.sums.clone());
    for (name, sites) in [stale, ("all damaged", sites.rewritten().collect())] {
        // one for each round, and one for the round that isn't timed
        let mut trees = vec![damaged::<N>(&words, sites.iter().copied()); rounds + 1];
        let mut next = trees.iter_mut();
        table.kind(name, &mut audit, || {
            let tree = next.next().expect("as many as rounds");
            assert_eq!(black_box(tree).repair(), Ok(sites.len() as u32));
            entries as usize
        });
        assert!(trees.iter().all(|tree| tree.areas() == itself.areas()), "what was timed put the tree right");
    }
    table.print();
}
