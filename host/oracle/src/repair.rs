//! Repair (document 02, CR 13), written from the paper. A sound tree that agrees with what is trusted has no choice in the words that
//! aren't: so these are worked out from the trusted ones by going down from the root, and [`audit`] says whether the tree
//! that comes out is sound. If it isn't, or if the way down can't be gone, no sound tree agrees.

use crate::audit::{self, Verdict};
use crate::state::{added, Node, State, NONE};

#[derive(Clone, PartialEq, Eq, Debug)]
pub enum Repaired {
    /// By 1, 2 or 21: nothing changes.
    Refused(u32),
    /// The tree put right, and how many words of its areas differ from before.
    Right(State, u32),
}

/// "21 comes after 2."
pub fn repair(state: &State) -> Repaired {
    match audit::refusal(state) {
        0 => (),
        number => return Repaired::Refused(number as u32),
    }
    match only_tree(state) {
        Some(right) if audit::audit(&right) == Verdict::Yes => {
            let words = differing(state, &right);
            Repaired::Right(right, words)
        }
        _ => Repaired::Refused(21),
    }
}

/// "The number of area words that differ from before."
pub fn differing(before: &State, after: &State) -> u32 {
    let areas = |state: &State| [state.leaves.clone(), state.inners.clone(), state.homes.clone()].concat();
    areas(before).iter().zip(areas(after)).filter(|&(&before, after)| before != after).count() as u32
}

/// The tree that a sound one with these trusted words would have to be. "Levels never pass 15."
pub fn only_tree(state: &State) -> Option<State> {
    let nodes = state.head.leaf_count as u64 + state.head.inner_count as u64;
    let mut builder = Builder { before: state, after: state.clone(), left: nodes };
    builder.after.head.finger = None;
    if state.head.levels > 15 {
        return None;
    }
    builder.below(state.head.root, state.head.levels, NONE, 0)?;
    Some(builder.after)
}

struct Builder<'a> {
    before: &'a State,
    after: State,
    /// How many nodes may still be met: as many as are in use, each once, so that links in a circle come to an end.
    left: u64,
}

impl Builder<'_> {
    /// Writes a node and those below it, by its number, how many levels of inner nodes end with it, its parent and its place there.
    /// Answers the lengths of all entries below it. Nothing where a link leads to what isn't in use.
    fn below(&mut self, number: u32, levels: u32, parent: u32, at: u32) -> Option<[u64; 3]> {
        self.left = self.left.checked_sub(1)?;
        let mut slots = Vec::new();
        for ([child, own @ ..], place) in self.trusted(number, levels)?.into_iter().zip(0..) {
            let lengths = match levels {
                0 => own.map(u64::from),
                _ => self.below(child, levels - 1, number, place)?,
            };
            if levels == 0 {
                *self.after.homes.get_mut(child as usize)? = number;
            }
            slots.push((child, lengths));
        }
        self.write(number, levels, [parent, at], &slots)?;
        Some(slots.iter().fold([0; 3], |sums, &(_, lengths)| added(sums, lengths)))
    }

    /// The slots in use of a node in use.
    fn trusted(&self, number: u32, levels: u32) -> Option<Vec<[u32; 4]>> {
        let State { head, .. } = self.before;
        let in_use = if levels == 0 { head.leaf_count } else { head.inner_count };
        if number >= in_use.min(head.nodes_needed()) {
            return None;
        }
        let node: Node<'_> = if levels == 0 { self.before.leaf(number) } else { self.before.inner(number) };
        (node.len() <= head.fan).then(|| node.used().collect())
    }

    /// The node's words but for its len: "parents, places .. unused slots", and the lengths of its slots, which in an inner node are
    /// "inner sums". Nothing where one is no u32.
    fn write(&mut self, number: u32, levels: u32, links: [u32; 2], slots: &[(u32, [u64; 3])]) -> Option<()> {
        let size = self.before.head.node_words();
        let area = if levels == 0 { &mut self.after.leaves } else { &mut self.after.inners };
        let words = &mut area[number as usize * size..][..size];
        words[1..3].copy_from_slice(&links);
        let (slot_words, _) = words[3..].as_chunks_mut::<4>();
        slot_words.fill([NONE, 0, 0, 0]);
        for (words, &(child, lengths)) in slot_words.iter_mut().zip(slots) {
            words[0] = child;
            for (word, length) in words[1..].iter_mut().zip(lengths) {
                *word = length.try_into().ok()?;
            }
        }
        Some(())
    }
}
