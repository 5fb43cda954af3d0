//! lib.rs unchanged, and beside it the readers of its private state. lib.rs's slots have three words: the fourth, line ends, is made of
//! those of the entries, which the plain row has.

include!("../../../docs/src/crates/strider-tree/src/lib.rs");

use crate::state;

/// Fills the words of nodes and homes that are not in use: they keep what was lent.
pub const LENT: u32 = 0x5A5A_5A5A;

impl<const N: usize> Node<N> {
    /// The line ends of each slot: of each child in use, none elsewhere.
    fn line_ends(&self, mut of: impl FnMut(u32) -> u32) -> [u32; N] {
        std::array::from_fn(|at| if at < self.len as usize { of(self.slots[at].child) } else { 0 })
    }

    /// Writes the node's words with these line ends, whose sum it answers.
    fn write(&self, words: &mut [u32], lines: [u32; N]) -> u32 {
        let (first, slots) = words.split_at_mut(3);
        first.copy_from_slice(&[self.len, self.parent, self.at]);
        for ((words, slot), lines) in slots.as_chunks_mut().0.iter_mut().zip(&self.slots).zip(lines) {
            *words = [slot.child, slot.prepare_len, slot.effect_len, lines];
        }
        lines.iter().sum()
    }
}

impl<const N: usize> Clone for Node<N> {
    fn clone(&self) -> Self {
        Node { ..*self }
    }
}

/// Lists that begin alike are played on copies of one tree.
impl<const N: usize> Clone for PrepareEffectTree<N> {
    fn clone(&self) -> Self {
        let [leaves, nodes] = [&self.leaves, &self.nodes].map(Vec::clone);
        PrepareEffectTree { leaves, nodes, leaf_of_entry: self.leaf_of_entry.clone(), ..*self }
    }
}

impl<const N: usize> PrepareEffectTree<N> {
    /// The words in use of leaves, inner nodes and homes. `lines` are the line ends of the entries by id; those past its end have none.
    pub fn used(&self, lines: &[u32]) -> [Vec<u32>; 3] {
        let node = state::node_words(N as u32);
        let own = |id: u32| lines.get(id as usize).copied().unwrap_or(0);
        let [mut leaves, mut inners] = [self.leaves.len(), self.nodes.len()].map(|nodes| vec![0; nodes * node]);
        let written = self.leaves.iter().zip(leaves.chunks_exact_mut(node));
        let sums: Vec<u32> = written.map(|(leaf, words)| leaf.write(words, leaf.line_ends(own))).collect();
        self.write_inner(self.root, self.height, &sums, &mut inners);
        [leaves, inners, self.leaf_of_entry.clone()]
    }

    /// Writes the words of an inner node and of those below it, with the sums of the leaves: each slot has the line ends of all entries
    /// below it. It answers their sum.
    fn write_inner(&self, number: u32, level: u32, leaves: &[u32], inners: &mut [u32]) -> u32 {
        let node = &self.nodes[number as usize];
        let lines = node.line_ends(|child| match level {
            1 => leaves[child as usize],
            _ => self.write_inner(child, level - 1, leaves, inners),
        });
        let words = state::node_words(N as u32);
        node.write(&mut inners[number as usize * words..][..words], lines)
    }

    /// The head that the port holds for this tree, had it made no entries but those that it has; the limit is ours, and so is the
    /// stamp.
    pub fn head(&self, limit: u32) -> state::Head {
        state::Head {
            fan: N as u32,
            limit,
            root: self.root,
            levels: self.height,
            entry_count: self.leaf_of_entry.len() as u32,
            leaf_count: self.leaves.len() as u32,
            inner_count: self.nodes.len() as u32,
            stamp: self.leaf_of_entry.len() as u64,
            finger: self.finger.map(|finger| self.finger_words(finger)),
            seats: None,
        }
    }

    /// Head and areas, the areas as long as the limit needs. `lines` are the line ends of the entries by id; those past its end have
    /// none.
    pub fn state(&self, limit: u32, lines: &[u32]) -> state::State {
        let head = self.head(limit);
        let words = head.nodes_needed() as usize * head.node_words();
        let [leaves, inners, homes] = self.used(lines);
        state::State {
            head,
            leaves: lent(leaves, words),
            inners: lent(inners, words),
            homes: lent(homes, limit as usize),
        }
    }

    /// The port's finger for this one: lib.rs keeps no prepare sums, so they are those of the tree, 0 for a leaf or slot that isn't there.
    fn finger_words(&self, finger: Finger) -> state::Finger {
        let Finger { view, leaf, start, effect, slot, within, effect_within } = finger;
        let node = self.leaves.get(leaf as usize).filter(|node| slot < node.len as usize);
        state::Finger {
            view: if view == View::Prepare { 0 } else { 1 },
            leaf,
            start,
            effect,
            slot: slot as u32,
            within,
            effect_within,
            prepare: node.map_or(0, |_| self.entry_to_char_index(View::Prepare, Cursor { leaf, slot: 0 })),
            prepare_within: node.map_or(0, |node| node.start(View::Prepare, slot)),
        }
    }

    /// How many slots of a leaf are in use.
    pub fn leaf_len(&self, leaf: u32) -> u32 {
        self.leaves[leaf as usize].len
    }

    /// The place of a leaf in its parent, and of each inner node above it, but for the root, in its own.
    pub fn places(&self, leaf: u32) -> impl Iterator<Item = u32> + '_ {
        let up = |node: &&Node<N>| self.nodes.get(node.parent as usize);
        std::iter::successors(self.leaves.get(leaf as usize), up).take(self.height as usize).map(|node| node.at)
    }

    /// A tree of so many levels in which each node has `slots` in use, the root `top`, and each entry these lengths: other than calls fill
    /// one, as high or as full as a sound tree can be.
    pub fn even(levels: u32, slots: usize, top: usize, lengths: Lengths) -> Self {
        let mut tree = PrepareEffectTree { nodes: vec![Node::new(NO_NODE)], height: levels, ..Self::new(lengths) };
        tree.leaves.clear();
        tree.leaf_of_entry.clear();
        (0..top).for_each(|at| tree.hang(levels - 1, 0, at, slots, lengths));
        tree
    }

    /// Hangs such a node, and all below it, at a place of an inner node; at level 0 a leaf.
    fn hang(&mut self, level: u32, parent: u32, at: usize, slots: usize, lengths: Lengths) {
        let mut node = Node { at: at as u32, ..Node::new(parent) };
        let (number, total) = if level == 0 {
            let number = self.leaves.len() as u32;
            for slot in 0..slots {
                node.insert(slot, self.leaf_of_entry.len() as u32, lengths);
                self.leaf_of_entry.push(number);
            }
            self.leaves.push(node);
            (number, self.leaves[number as usize].total())
        } else {
            let number = self.nodes.len() as u32;
            self.nodes.push(node);
            (0..slots).for_each(|slot| self.hang(level - 1, number, slot, slots, lengths));
            (number, self.nodes[number as usize].total())
        };
        self.nodes[parent as usize].insert(at, number, total);
    }

    /// Puts the finger at an entry, as a lookup in the prepare view that finds it does.
    pub fn point_at(&mut self, at: Cursor) {
        let first = Cursor { slot: 0, ..at };
        let [start, effect] = [View::Prepare, View::Effect].map(|view| self.entry_to_char_index(view, first));
        let [within, effect_within] = [(View::Prepare, start), (View::Effect, effect)]
            .map(|(view, start)| self.entry_to_char_index(view, at) - start);
        let Cursor { leaf, slot } = at;
        let slot = slot as usize;
        self.finger = Some(Finger { view: View::Prepare, leaf, start, effect, slot, within, effect_within });
    }

    /// Puts a finger there that lib.rs would not have, for the tests that must fail.
    pub fn put_finger(&mut self, finger: Option<state::Finger>) {
        self.finger = finger.map(|finger| Finger {
            view: if finger.view == 1 { View::Effect } else { View::Prepare },
            leaf: finger.leaf,
            start: finger.start,
            effect: finger.effect,
            slot: finger.slot as usize,
            within: finger.within,
            effect_within: finger.effect_within,
        });
    }
}

impl Cursor {
    /// A cursor of any leaf and slot, whoever issued it.
    pub fn standing(leaf: u32, slot: u32) -> Cursor {
        Cursor { leaf, slot }
    }

    /// Leaf and slot as they are stored.
    pub fn fields(self) -> [u32; 2] {
        [self.leaf, self.slot]
    }
}

fn lent(mut area: Vec<u32>, words: usize) -> Vec<u32> {
    area.resize(area.len().max(words), LENT);
    area
}
