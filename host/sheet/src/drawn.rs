//! A tree's nodes as they are drawn, read from its words. The words may be anybody's: a link that leads outside isn't followed, and no
//! node is drawn twice.

use crate::words::Words;
use beside::words::head_of;
use oracle::audit::make_allowed;
use oracle::state::{node_words, Finger, Head, NONE};
use std::collections::HashSet;

/// A slot in use: its child's number, or its entry's id, and its three lengths.
#[derive(Clone, Copy, PartialEq, Eq, Debug)]
pub struct Slot {
    pub child: u32,
    pub lengths: [u32; 3],
    /// Where the child stands among the nodes drawn; an entry doesn't, nor a child that can't be drawn.
    pub below: Option<usize>,
}

#[derive(Clone, PartialEq, Eq, Debug)]
pub struct Node {
    pub number: u32,
    /// 0 for a leaf; the root has the tree's levels.
    pub level: u32,
    /// Where the node above stands among the nodes drawn, and which of its slots this one is.
    pub above: Option<(usize, usize)>,
    pub parent: u32,
    pub at: u32,
    pub slots: Vec<Slot>,
}

/// The nodes from the root on, each before those below it, earlier slots first.
#[derive(Clone, PartialEq, Eq, Debug)]
pub struct Drawn {
    pub head: Head,
    pub nodes: Vec<Node>,
    /// What an entry's leaf is by homes.
    pub homes: Vec<u32>,
}

impl Node {
    pub fn is_leaf(&self) -> bool {
        self.level == 0
    }

    /// `leaf 1`, `inner 0`.
    pub fn name(&self) -> String {
        format!("{} {}", kind(self.level), self.number)
    }

    /// The sums of its slots, as they are stored: modulo 2^32.
    pub fn total(&self) -> [u32; 3] {
        let add = |[p, e, l]: [u32; 3], slot: &Slot| {
            [p.wrapping_add(slot.lengths[0]), e.wrapping_add(slot.lengths[1]), l.wrapping_add(slot.lengths[2])]
        };
        self.slots.iter().fold([0; 3], add)
    }
}

fn kind(level: u32) -> &'static str {
    if level == 0 {
        "leaf"
    } else {
        "inner"
    }
}

impl Drawn {
    pub fn of(words: &Words) -> Drawn {
        let head = head_of(words.head);
        let mut drawn = Drawn { head, nodes: Vec::new(), homes: words.homes.clone() };
        if make_allowed(head.fan, head.limit) && (1..=15).contains(&head.levels) {
            drawn.add(words, &mut HashSet::new(), head.root, head.levels, None);
        }
        drawn
    }

    /// Draws a node and those below it, and answers where it stands; nothing where it can't be drawn.
    fn add(
        &mut self,
        words: &Words,
        seen: &mut HashSet<(bool, u32)>,
        number: u32,
        level: u32,
        above: Option<(usize, usize)>,
    ) -> Option<usize> {
        let area = if level == 0 { &words.leaves } else { &words.inners };
        let node = area.chunks_exact(node_words(self.head.fan)).nth(number as usize)?;
        if !seen.insert((level == 0, number)) {
            return None;
        }
        let used = node[3..].as_chunks::<4>().0.iter().take(node[0] as usize);
        let slots = used.map(|&[child, lengths @ ..]| Slot { child, lengths, below: None }).collect::<Vec<_>>();
        let [parent, at] = [node[1], node[2]];
        let place = self.nodes.len();
        let children = slots.iter().map(|slot| slot.child).collect::<Vec<_>>();
        self.nodes.push(Node { number, level, above, parent, at, slots });
        for (slot, child) in children.into_iter().enumerate().filter(|_| level > 0) {
            self.nodes[place].slots[slot].below = self.add(words, seen, child, level - 1, Some((place, slot)));
        }
        Some(place)
    }

    /// The finger, where it stands at a slot of that leaf.
    pub fn finger_in(&self, node: &Node) -> Option<Finger> {
        self.head.finger.filter(|finger| node.is_leaf() && finger.leaf == node.number)
    }

    /// What isn't as the nodes around would have it, in words: parent and place, the sums above, homes.
    pub fn faults(&self, node: &Node) -> Vec<String> {
        let mut faults = Vec::new();
        let above = node.above.map(|(above, slot)| (&self.nodes[above], slot));
        let links = above.map_or([NONE, 0], |(above, slot)| [above.number, slot as u32]);
        if [node.parent, node.at] != links {
            faults.push(format!("names parent {}, place {}", node.parent, node.at));
        }
        if above.is_some_and(|(above, slot)| above.slots[slot].lengths != node.total()) {
            let [prepare, effect, lines] = node.total();
            faults.push(format!("its slots sum to {prepare} {effect} {lines}"));
        }
        for slot in &node.slots {
            let home = self.homes.get(slot.child as usize);
            if node.is_leaf() && home != Some(&node.number) {
                let home = home.map_or("nowhere".to_string(), |home| format!("leaf {home}"));
                faults.push(format!("the home of entry {} is {home}", slot.child));
            }
            if !node.is_leaf() && slot.below.is_none() {
                faults.push(format!("{} {} can't be drawn", kind(node.level - 1), slot.child));
            }
        }
        faults
    }
}
