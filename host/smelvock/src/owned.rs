//! A tree's head and the areas that it owns, of every kind of tree.

use crate::area::{Area, Own};
use crate::raw::{self, word, Areas, AreasMut};
use crate::LIMIT;
use std::fmt;

/// Of a tree of fan `N` whose slots have `SLOT` words: a child and its lengths.
#[derive(Clone)]
pub struct Owned<const N: usize, const SLOT: usize> {
    pub head: raw::Head,
    leaves: Area,
    inners: Area,
    homes: Area,
}

/// The same head, and the same words in their areas as far as these hold any.
impl<const N: usize, const SLOT: usize> PartialEq for Owned<N, SLOT> {
    fn eq(&self, other: &Self) -> bool {
        self.head == other.head && self.areas() == other.areas()
    }
}

impl<const N: usize, const SLOT: usize> Eq for Owned<N, SLOT> {}

impl<const N: usize, const SLOT: usize> Owned<N, SLOT> {
    /// The fan as the exports take it; 0, which they refuse, where it is no word.
    pub fn fan() -> u32 {
        u32::try_from(N).unwrap_or(0)
    }

    /// Areas as long as the limit needs, for a tree that is yet to be made.
    #[inline(always)]
    pub fn unwritten(limit: u32) -> Self {
        let [nodes, homes] = Self::words(limit);
        Owned {
            head: [0; 36],
            leaves: Area::unwritten(nodes),
            inners: Area::unwritten(nodes),
            homes: Area::unwritten(homes),
        }
    }

    pub fn given(head: raw::Head, leaves: Vec<u32>, inners: Vec<u32>, homes: Vec<u32>) -> Self {
        Owned { head, leaves: Area::given(leaves), inners: Area::given(inners), homes: Area::given(homes) }
    }

    /// The words of the leaf area, which are those of the inner area, and of homes. None where making a tree is refused.
    fn words(limit: u32) -> [usize; 2] {
        if !(4..=32).contains(&N) || !(1..=LIMIT).contains(&limit) {
            return [0, 0];
        }
        let nodes = (limit as usize / (N / 2)).max(1);
        [nodes * (3 + SLOT * N), limit as usize]
    }

    /// The words that hold a number: all of a tree of given words, those in use of any other.
    pub fn areas(&self) -> Areas<'_> {
        let node = N.saturating_mul(SLOT).saturating_add(3);
        let in_use = |word: usize| self.head[word] as usize;
        Areas {
            leaves: self.leaves.known(in_use(word::LEAVES).saturating_mul(node)),
            inners: self.inners.known(in_use(word::INNERS).saturating_mul(node)),
            homes: self.homes.known(in_use(word::ENTRIES)),
        }
    }

    /// Leaves, inner nodes and homes as long as the areas are, with zeros for the words that hold no number yet.
    pub fn whole(&self) -> [Vec<u32>; 3] {
        let Areas { leaves, inners, homes } = self.areas();
        [(leaves, &self.leaves), (inners, &self.inners), (homes, &self.homes)].map(|(known, area)| {
            let mut words = known.to_vec();
            words.resize(area.words.len(), 0);
            words
        })
    }

    /// The areas for a call that reads them.
    #[inline]
    pub fn lent(&self) -> Areas<'_, Own> {
        Areas { leaves: &self.leaves.words, inners: &self.inners.words, homes: &self.homes.words }
    }

    /// Head and areas for a call that changes the head alone.
    #[inline]
    pub fn looked(&mut self) -> (&mut raw::Head, Areas<'_, Own>) {
        let Owned { head, leaves, inners, homes } = self;
        (head, Areas { leaves: &leaves.words, inners: &inners.words, homes: &homes.words })
    }

    /// Head and areas for a call that changes them.
    #[inline]
    pub fn parts(&mut self) -> (&mut raw::Head, AreasMut<'_, Own>) {
        let Owned { head, leaves, inners, homes } = self;
        (head, AreasMut { leaves: &mut leaves.words, inners: &mut inners.words, homes: &mut homes.words })
    }

    /// The tree's `Debug` text, under the name of its kind.
    pub fn debug(&self, name: &str, to: &mut fmt::Formatter<'_>) -> fmt::Result {
        to.debug_struct(name).field("head", &self.head).field("areas", &self.areas()).finish()
    }
}
