//! The audit of document 01, on arbitrary words: it ends and never panics. Each check is one phrase
//! of the paragraph "Audit", or document 02's on line ends and on seats, and `sound` names them in the order in which they can be
//! trusted.

use crate::seats::Seats;
use crate::state::{added, Head, Node, State, EFFECT, LINES, MOST_LINES, NONE, PREPARE};

#[derive(Clone, Copy, PartialEq, Eq, Debug)]
pub enum Verdict {
    /// Number 1 (fan or limit) or 2 (an area too short).
    Refused(u8),
    Yes,
    /// The phrase that does not hold.
    No(&'static str),
}

pub fn audit(state: &State) -> Verdict {
    match refusal(state) {
        0 => sound(state).map_or_else(Verdict::No, |()| Verdict::Yes),
        number => Verdict::Refused(number),
    }
}

/// The refusals 1 and 2, or 0.
pub fn refusal(state: &State) -> u8 {
    let head = &state.head;
    if !make_allowed(head.fan, head.limit) {
        return 1;
    }
    let words = head.nodes_needed() as usize * head.node_words();
    let long_enough =
        state.leaves.len() >= words && state.inners.len() >= words && state.homes.len() >= head.limit as usize;
    if long_enough {
        0
    } else {
        2
    }
}

/// Whether fan and limit are good; number 1 otherwise.
pub fn make_allowed(fan: u32, limit: u32) -> bool {
    (4..=32).contains(&fan) && (1..=65_536).contains(&limit)
}

/// Whether a tree with good fan, limit and areas is sound, or the first phrase that does not hold.
/// Links are followed only after the counts and the lens are known to be good.
fn sound(state: &State) -> Result<(), &'static str> {
    let holds = |good: bool, phrase: &'static str| if good { Ok(()) } else { Err(phrase) };
    holds(counts_within_limit(&state.head), "counts within limit")?;
    holds(lens_in_bounds(state), "len from half to fan")?;
    let levels = reached(state).ok_or("every node in use reached once, leaves equally deep")?;
    let leaves = &levels[levels.len() - 1];
    holds(root_links_right(state) && links_right(state, &levels), "parent, at")?;
    holds(ids_once(state), "ids 0 to count - 1 once each")?;
    holds(homes_right(state), "homes")?;
    holds(few_lines(state), "at most 65,535 line ends")?;
    holds(sums_right(state, &levels), "inner sums")?;
    holds(totals_within_u32(state), "totals within u32")?;
    holds(unused_slots_empty(state), "unused slots empty")?;
    holds(finger_right(state, leaves), "finger")?;
    let Head { limit, entry_count, .. } = state.head;
    let of_seats = |asked: &dyn Fn(Seats) -> bool| state.head.seats.is_none_or(asked);
    holds(of_seats(&|seats| seats.within(limit)), "shares sum to at most limit - 1")?;
    holds(of_seats(&|seats| seats.charged(entry_count)), "charges sum to the entries less one")?;
    holds(of_seats(&|seats| seats.covered(limit - entry_count)), "free entries cover all unused shares")
}

/// "counts within limit": entries within the limit, nodes within what the limit needs; none is 0.
/// The root is a node in use, and levels are 1 to 15.
fn counts_within_limit(head: &Head) -> bool {
    (1..=head.limit).contains(&head.entry_count)
        && (1..=head.nodes_needed()).contains(&head.leaf_count)
        && (1..=head.nodes_needed()).contains(&head.inner_count)
        && head.root < head.inner_count
        && (1..=15).contains(&head.levels)
}

/// "len from half to fan (a lone leaf from 1; the root 1 at one level, else 2)".
fn lens_in_bounds(state: &State) -> bool {
    let head = &state.head;
    let least_leaf = if head.leaf_count == 1 { 1 } else { head.half() };
    let least_root = if head.levels == 1 { 1 } else { 2 };
    let least_inner = |inner: u32| if inner == head.root { least_root } else { head.half() };
    (0..head.leaf_count).all(|leaf| (least_leaf..=head.fan).contains(&state.leaf(leaf).len()))
        && (0..head.inner_count).all(|inner| (least_inner(inner)..=head.fan).contains(&state.inner(inner).len()))
}

/// "every node in use reached once, leaves equally deep": the node numbers of each level in order,
/// the root alone first and the leaves last. Nothing if a node in use is reached twice or never, or
/// a child is not in use. Levels are few, and it gives up once they hold more inner nodes than are
/// in use, so links in a circle cost no more than a sound tree.
fn reached(state: &State) -> Option<Vec<Vec<u32>>> {
    let head = &state.head;
    let mut levels = vec![vec![head.root]];
    for level in 0..head.levels as usize {
        if levels.iter().map(Vec::len).sum::<usize>() > head.inner_count as usize {
            return None;
        }
        let children = levels[level].iter().flat_map(|&inner| children(state.inner(inner))).collect::<Vec<_>>();
        let in_use = if level + 1 == head.levels as usize { head.leaf_count } else { head.inner_count };
        if children.iter().any(|&child| child >= in_use) {
            return None;
        }
        levels.push(children);
    }
    let leaves = &levels[levels.len() - 1];
    let inners = levels[..levels.len() - 1].concat();
    (each_once(&inners, head.inner_count) && each_once(leaves, head.leaf_count)).then_some(levels)
}

fn children(node: Node<'_>) -> Vec<u32> {
    node.used().map(|[child, ..]| child).collect()
}

/// Whether `numbers` are 0 to `count` - 1, each once, in any order.
fn each_once(numbers: &[u32], count: u32) -> bool {
    let mut seen = vec![false; count as usize];
    numbers.len() == count as usize
        && numbers.iter().all(|&number| number < count && !std::mem::replace(&mut seen[number as usize], true))
}

/// The root's "`at` (the root's 0)" and its missing parent.
fn root_links_right(state: &State) -> bool {
    let root = state.inner(state.head.root);
    (root.parent(), root.at()) == (NONE, 0)
}

/// "parent, `at`": each child names its parent and its place there.
fn links_right(state: &State, levels: &[Vec<u32>]) -> bool {
    every_link(state, levels, |parent, at, _, child| (child.parent(), child.at()) == (parent, at))
}

/// "inner sums": each slot of an inner node holds the plain sums of its child.
fn sums_right(state: &State, levels: &[Vec<u32>]) -> bool {
    every_link(state, levels, |_, _, [_, sums @ ..], child| child.total() == sums.map(u64::from))
}

/// Whether something holds of every inner node's number, place, slot in use and the child there.
fn every_link(state: &State, levels: &[Vec<u32>], holds: impl Fn(u32, u32, [u32; 4], Node<'_>) -> bool) -> bool {
    (0..levels.len() - 1).all(|level| {
        let above_leaves = level + 2 == levels.len();
        levels[level].iter().all(|&parent| {
            (0..).zip(state.inner(parent).used()).all(|(at, slot)| {
                let child = if above_leaves { state.leaf(slot[0]) } else { state.inner(slot[0]) };
                holds(parent, at, slot, child)
            })
        })
    })
}

/// "ids 0 to count − 1 once each".
fn ids_once(state: &State) -> bool {
    let ids = (0..state.head.leaf_count).flat_map(|leaf| children(state.leaf(leaf))).collect::<Vec<_>>();
    each_once(&ids, state.head.entry_count)
}

/// "homes": the home of each entry is the leaf that holds it.
fn homes_right(state: &State) -> bool {
    (0..state.head.leaf_count).all(|leaf| state.leaf(leaf).used().all(|[id, ..]| state.homes[id as usize] == leaf))
}

/// Document 02, CR 7: a line count above 65,535 is "unsound in a leaf slot".
fn few_lines(state: &State) -> bool {
    (0..state.head.leaf_count).all(|leaf| state.leaf(leaf).used().all(|[.., lines]| lines <= MOST_LINES))
}

/// "totals within u32".
fn totals_within_u32(state: &State) -> bool {
    state.inner(state.head.root).total().iter().all(|&total| total <= u32::MAX as u64)
}

/// "unused slots empty", in every node in use.
fn unused_slots_empty(state: &State) -> bool {
    let empty = |node: Node<'_>| node.slots().skip(node.len() as usize).all(|slot| slot == [NONE, 0, 0, 0]);
    (0..state.head.leaf_count).all(|leaf| empty(state.leaf(leaf)))
        && (0..state.head.inner_count).all(|inner| empty(state.inner(inner)))
}

/// "A finger is right if absent, or if its leaf is in use, its slot is below that leaf's len, and
/// its six sums are those of the tree". `leaves` are the leaves in order.
fn finger_right(state: &State, leaves: &[u32]) -> bool {
    let Some(finger) = state.head.finger else { return true };
    let view = finger.view as usize;
    if view > LINES || finger.leaf >= state.head.leaf_count || finger.slot >= state.leaf(finger.leaf).len() {
        return false;
    }
    let before = leaves.iter().take_while(|&&leaf| leaf != finger.leaf);
    let start = before.fold([0; 3], |sums, &leaf| added(sums, state.leaf(leaf).total()));
    let within = state.leaf(finger.leaf).sums(finger.slot);
    [view, EFFECT, PREPARE].map(|view| [start[view], within[view]])
        == [
            [finger.start, finger.within],
            [finger.effect, finger.effect_within],
            [finger.prepare, finger.prepare_within],
        ]
        .map(|sums| sums.map(u64::from))
}
