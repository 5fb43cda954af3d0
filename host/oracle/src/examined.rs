//! How many slots a lookup examines (document 02, CR 14), from lib.rs's own words: where its finger stood before, where the lookup ended, and
//! the `at` of each node on the way up from there. No lengths are added and nothing is searched.

use crate::state::{Finger, Head};
use crate::tree::PrepareEffectTree;

/// The slots that a lookup examined, and the least of the bounds on them.
#[derive(Clone, Copy, PartialEq, Eq, Debug, Default)]
pub struct Examined {
    pub slots: u32,
    pub most: u32,
}

impl Examined {
    /// What a lookup in `view` of position `index` examined, that ended in `slot` of `leaf`. The finger is the one before it; but for the
    /// finger the lookup left the tree as it was.
    pub fn of<const N: usize>(
        tree: &PrepareEffectTree<N>,
        finger: Option<Finger>,
        (view, index): (usize, u32),
        [leaf, slot]: [u32; 2],
    ) -> Self {
        let head = tree.head(0);
        let most = by_levels(&head).min(by_entries(&head));
        let from_root = || slot + 1 + tree.places(leaf).map(|at| at + 1).sum::<u32>();
        match finger.filter(|finger| finger.view as usize == view && finger.start <= index) {
            Some(finger) if finger.leaf == leaf => {
                Examined { slots: finger.slot.abs_diff(slot) + 1, most: most.min(head.fan) }
            }
            Some(finger) => {
                Examined { slots: tree.leaf_len(finger.leaf).saturating_sub(finger.slot) + from_root(), most }
            }
            None => Examined { slots: from_root(), most },
        }
    }

    pub fn within(&self) -> bool {
        self.slots <= self.most
    }
}

/// The bound by the levels.
pub fn by_levels(head: &Head) -> u32 {
    head.fan * (head.levels + 2)
}

/// The bound by the floor on entries.
pub fn by_entries(head: &Head) -> u32 {
    head.fan * (deepest(head.half(), head.entry_count) + 2)
}

/// The largest k with 2 x half^k at or below the entries, or 1 if that is larger or there is none. No k past the entries can be meant; where
/// lib.rs's half is 1, which is outside domain D, none is the largest.
pub fn deepest(half: u32, entries: u32) -> u32 {
    (1..=entries).take_while(|&k| 2 * (half as u64).pow(k) <= entries as u64).last().unwrap_or(1)
}
