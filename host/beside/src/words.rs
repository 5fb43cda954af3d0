//! A tree's words between oracle's form and the port's.

use oracle::seats::Seats;
use oracle::state::{node_words, Finger, Head, Node, State};
use smelvock::{raw, PrepareEffectTree};

/// A stamp's two words, the low one first.
pub fn parted(stamp: u64) -> [u32; 2] {
    [stamp as u32, (stamp >> 32) as u32]
}

/// The stamp of two words.
pub fn joined([low, high]: [u32; 2]) -> u64 {
    (high as u64) << 32 | low as u64
}

/// A cursor's four words.
pub fn standing(at: raw::Cursor) -> [u32; 4] {
    let [low, high] = parted(at.stamp);
    [at.leaf, at.slot, low, high]
}

/// The cursor of four words.
pub fn cursor_of([leaf, slot, low, high]: [u32; 4]) -> raw::Cursor {
    raw::Cursor { leaf, slot, stamp: joined([low, high]) }
}

/// The head as the oracle has it; a finger is there unless `present` is 0, and seats unless `seated` is 0.
pub fn head_of(head: raw::Head) -> Head {
    let [fan, limit, root, levels, leaf_count, inner_count, entry_count, present, rest @ ..] = head;
    let [view, leaf, start, effect, slot, within, effect_within, prepare, prepare_within, low, high, seated, rest @ ..] =
        rest;
    let finger = Finger { view, leaf, start, effect, slot, within, effect_within, prepare, prepare_within };
    let finger = (present != 0).then_some(finger);
    let seats =
        Seats { shares: std::array::from_fn(|seat| rest[seat]), charges: std::array::from_fn(|seat| rest[8 + seat]) };
    let seats = (seated != 0).then_some(seats);
    Head { fan, limit, root, levels, entry_count, leaf_count, inner_count, stamp: joined([low, high]), finger, seats }
}

/// The head as the port has it, the words of an absent finger 0, and those of a tree without seats.
pub fn raw_of(head: Head) -> raw::Head {
    let Head { fan, limit, root, levels, entry_count, leaf_count, inner_count, stamp, finger, seats } = head;
    let counts = [fan, limit, root, levels, leaf_count, inner_count, entry_count];
    let finger = finger.map_or([0; 10], |finger| {
        let Finger { view, leaf, start, effect, slot, within, effect_within, prepare, prepare_within } = finger;
        [1, view, leaf, start, effect, slot, within, effect_within, prepare, prepare_within]
    });
    let seats = seats.map_or(vec![0; 17], |Seats { shares, charges }| [&[1][..], &shares, &charges].concat());
    let words = counts.into_iter().chain(finger).chain(parted(stamp)).chain(seats).collect::<Vec<_>>();
    words.try_into().expect("thirty-six words")
}

/// The slots in use of a sound tree's leaves in order, reached from the root with earlier slots first.
pub fn slots_of(state: &State) -> Vec<[u32; 4]> {
    fn below(state: &State, node: Node<'_>, levels: u32, slots: &mut Vec<[u32; 4]>) {
        for slot in node.used() {
            match levels {
                0 => slots.push(slot),
                1 => below(state, state.leaf(slot[0]), 0, slots),
                _ => below(state, state.inner(slot[0]), levels - 1, slots),
            }
        }
    }
    let mut slots = Vec::new();
    below(state, state.inner(state.head.root), state.head.levels, &mut slots);
    slots
}

/// The port's tree with the words of a state.
pub fn tree_of<const N: usize>(state: State) -> PrepareEffectTree<N> {
    PrepareEffectTree::from_words(raw_of(state.head), state.leaves, state.inners, state.homes)
}

/// A new tree of the port on areas of zeros, so that every word of them is known, not those in use alone.
pub fn on_zeros<const N: usize>(limit: u32, lengths: [u32; 3]) -> PrepareEffectTree<N> {
    made(limit, lengths, &[])
}

/// The same with seats of those shares.
pub fn seated<const N: usize>(limit: u32, lengths: [u32; 3], shares: [u32; 8]) -> PrepareEffectTree<N> {
    made(limit, lengths, &shares)
}

fn made<const N: usize>(limit: u32, [prepare, effect, lines]: [u32; 3], shares: &[u32]) -> PrepareEffectTree<N> {
    let nodes = (limit as usize / (N / 2)).max(1) * node_words(N as u32);
    let (mut head, mut leaves, mut inners, mut homes) =
        ([0; 36], vec![0; nodes], vec![0; nodes], vec![0; limit as usize]);
    let areas = raw::AreasMut { leaves: &mut leaves, inners: &mut inners, homes: &mut homes };
    let number = raw::new(N as u32, limit, raw::Lengths { prepare, effect, lines }, shares, &mut head, areas);
    assert_eq!(number, 0, "fan, limit and shares are good");
    PrepareEffectTree::from_words(head, leaves, inners, homes)
}
