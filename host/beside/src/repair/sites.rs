//! Where a sound tree has the words of each kind.

use crate::exports::Tree;
use oracle::state::node_words;
use smelvock::raw::word::{ENTRIES, FAN, INNERS, LEAVES};

/// Leaves, inner nodes, homes or head, and the word there.
pub type Site = (usize, usize);

pub const LEAF: usize = 0;
pub const INNER: usize = 1;
pub const HOME: usize = 2;
pub const HEAD: usize = 3;

/// The words of the areas, by what repair makes of them.
#[derive(Default)]
pub struct Sites {
    /// Rewritten.
    pub sums: Vec<Site>,
    pub parents: Vec<Site>,
    pub places: Vec<Site>,
    pub homes: Vec<Site>,
    pub unused: Vec<Site>,
    /// Trusted.
    pub lens: Vec<Site>,
    pub children: Vec<Site>,
    pub ids: Vec<Site>,
    /// Of leaf slots: prepare and effect lengths, and line ends.
    pub lengths: Vec<Site>,
    pub lines: Vec<Site>,
    /// Nodes and homes out of use, and what lies behind them.
    pub idle: Vec<Site>,
}

impl Sites {
    pub fn of(tree: &Tree) -> Sites {
        let mut sites = Sites::default();
        let size = node_words(tree.word(FAN));
        for (area, words, nodes) in
            [(LEAF, tree.leaves.words(), tree.word(LEAVES)), (INNER, tree.inners.words(), tree.word(INNERS))]
        {
            let in_use = nodes as usize * size;
            for node in (0..in_use).step_by(size) {
                sites.node(area, node, size, words[node] as usize);
            }
            sites.idle.extend((in_use..words.len()).map(|at| (area, at)));
        }
        let entries = tree.word(ENTRIES) as usize;
        sites.homes.extend((0..entries).map(|id| (HOME, id)));
        sites.idle.extend((entries..tree.homes.words().len()).map(|id| (HOME, id)));
        sites
    }

    /// The words of the node that starts there.
    fn node(&mut self, area: usize, start: usize, size: usize, len: usize) {
        self.lens.push((area, start));
        self.parents.push((area, start + 1));
        self.places.push((area, start + 2));
        for word in 3..size {
            let of_kind = match ((word - 3) / 4 < len, area, (word - 3) % 4) {
                (false, ..) => &mut self.unused,
                (true, LEAF, 0) => &mut self.ids,
                (true, LEAF, 3) => &mut self.lines,
                (true, LEAF, _) => &mut self.lengths,
                (true, _, 0) => &mut self.children,
                (true, ..) => &mut self.sums,
            };
            of_kind.push((area, start + word));
        }
    }

    pub fn rewritten(&self) -> impl Iterator<Item = Site> + '_ {
        [&self.sums, &self.parents, &self.places, &self.homes, &self.unused].into_iter().flatten().copied()
    }

    pub fn trusted(&self) -> impl Iterator<Item = Site> + '_ {
        [&self.lens, &self.children, &self.ids, &self.lengths, &self.lines].into_iter().flatten().copied()
    }
}
