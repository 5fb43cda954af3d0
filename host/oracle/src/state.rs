//! A tree as plain words, in document 01's layout ("Lengths, slots, nodes"): the head and three
//! areas. It holds arbitrary words as well as those of a sound tree.

use crate::seats::Seats;

/// The child of an unused slot, the root's missing parent, "none" and "at the end".
pub const NONE: u32 = u32::MAX;

/// Numbers of the three views.
pub const PREPARE: usize = 0;
pub const EFFECT: usize = 1;
pub const LINES: usize = 2;

/// The most line ends of an entry.
pub const MOST_LINES: u32 = 65_535;

#[derive(Clone, Copy, PartialEq, Eq, Debug)]
pub struct Finger {
    pub view: u32,
    pub leaf: u32,
    /// Where the leaf starts in `view`.
    pub start: u32,
    /// Where the leaf starts in the effect view.
    pub effect: u32,
    pub slot: u32,
    /// The lengths in `view` of the leaf's slots before `slot`.
    pub within: u32,
    /// The effect lengths of the leaf's slots before `slot`.
    pub effect_within: u32,
    /// Where the leaf starts in the prepare view.
    pub prepare: u32,
    /// The prepare lengths of the leaf's slots before `slot`.
    pub prepare_within: u32,
}

#[derive(Clone, Copy, PartialEq, Eq, Debug)]
pub struct Head {
    pub fan: u32,
    pub limit: u32,
    pub root: u32,
    pub levels: u32,
    pub entry_count: u32,
    pub leaf_count: u32,
    pub inner_count: u32,
    /// How many entries were made since make, over every reset; it goes round.
    pub stamp: u64,
    pub finger: Option<Finger>,
    pub seats: Option<Seats>,
}

#[derive(Clone, PartialEq, Eq, Debug)]
pub struct State {
    pub head: Head,
    pub leaves: Vec<u32>,
    pub inners: Vec<u32>,
    pub homes: Vec<u32>,
}

impl Head {
    pub fn half(&self) -> u32 {
        self.fan / 2
    }

    /// The words of one node: len, parent, at, then `fan` slots of child, prepare, effect, line ends.
    pub fn node_words(&self) -> usize {
        node_words(self.fan)
    }

    /// The nodes that the leaf area and the inner area each need.
    pub fn nodes_needed(&self) -> u32 {
        (self.limit / self.half()).max(1)
    }
}

/// The words of a node at a fan.
pub fn node_words(fan: u32) -> usize {
    3 + 4 * fan as usize
}

/// The words of one node.
#[derive(Clone, Copy)]
pub struct Node<'a>(&'a [u32]);

impl Node<'_> {
    pub fn len(&self) -> u32 {
        self.0[0]
    }

    pub fn is_empty(&self) -> bool {
        self.len() == 0
    }

    pub fn parent(&self) -> u32 {
        self.0[1]
    }

    pub fn at(&self) -> u32 {
        self.0[2]
    }

    /// Every slot, in use or not, as child, prepare, effect, line ends.
    pub fn slots(&self) -> impl Iterator<Item = [u32; 4]> + '_ {
        self.0[3..].as_chunks().0.iter().copied()
    }

    /// The slots below len.
    pub fn used(&self) -> impl Iterator<Item = [u32; 4]> + '_ {
        self.slots().take(self.len() as usize)
    }

    /// The plain sums of the first `count` slots in use, one a view.
    pub fn sums(&self, count: u32) -> [u64; 3] {
        self.used().take(count as usize).fold([0; 3], |sums, [_, lengths @ ..]| added(sums, lengths.map(u64::from)))
    }

    pub fn total(&self) -> [u64; 3] {
        self.sums(self.len())
    }
}

impl State {
    /// Leaf `number`, which must lie within the leaf area.
    pub fn leaf(&self, number: u32) -> Node<'_> {
        node(&self.leaves, self.head.node_words(), number)
    }

    /// Inner node `number`, which must lie within the inner area.
    pub fn inner(&self, number: u32) -> Node<'_> {
        node(&self.inners, self.head.node_words(), number)
    }
}

/// The sums with those lengths more, view by view.
pub fn added(sums: [u64; 3], lengths: [u64; 3]) -> [u64; 3] {
    [PREPARE, EFFECT, LINES].map(|view| sums[view] + lengths[view])
}

fn node(area: &[u32], words: usize, number: u32) -> Node<'_> {
    let start = number as usize * words;
    Node(&area[start..start + words])
}
