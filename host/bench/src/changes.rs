//! The calls that change a tree.

use crate::called::Called;
use crate::reads::{cursors, each, CALLS};
use crate::timing::Table;
use crate::trees::Trees;
use beside::port::{self, Port};
use oracle::calls::Calls;
use oracle::random::Random;
use oracle::rust::pair;
use oracle::tree::PrepareEffectTree;
use std::hint::black_box;

/// The calls that keep the number of entries, at random entries.
pub fn resizes<A: Calls, B: Calls, C: Calls>(table: &mut Table, trees: &mut Trees<A, B, C>) {
    let Trees { rust, called, port } = trees;
    let mut random = Random::new(11);
    let count = rust.len() as u64;
    let ids: Vec<u32> = (0..CALLS).map(|_| random.below(count) as u32).collect();
    let mut length = || random.below(8) as u32;
    let lengths: Vec<[u32; 3]> = ids.iter().map(|_| [length(), length(), 0]).collect();
    let (rusts, calleds, ports) = (cursors(rust, &ids), cursors(called, &ids), cursors(port, &ids));
    table.call(
        "set_lengths",
        || each(rusts.iter().zip(&lengths), |(&at, &lengths)| rust.set_lengths(at, lengths)),
        || each(calleds.iter().zip(&lengths), |(&at, &lengths)| called.set_lengths(at, lengths)),
        || each(ports.iter().zip(&lengths), |(&at, &lengths)| port.set_lengths(at, lengths)),
    );
    table.call(
        "update",
        || each(rusts.iter().zip(&lengths), |(&at, &lengths)| rust.update(at, lengths)),
        || each(calleds.iter().zip(&lengths), |(&at, &lengths)| called.update(at, lengths)),
        || each(ports.iter().zip(&lengths), |(&at, &lengths)| port.update(at, lengths)),
    );
}

/// Trees made anew and filled to their limit, the making included: the time is per entry. `cursor` is a part of every call but
/// those at the end.
pub fn growth<const N: usize>(table: &mut Table, entries: u32) {
    let rust = |first| PrepareEffectTree::<N>::new(pair(first));
    let called = |first| Called::<N>::new(first);
    let port = |first| {
        Port(smelvock::PrepareEffectTree::<N>::with_limit(entries, port::three(first)).expect("a good limit"), None)
    };
    let (first, shares) = ([3, 3, 0], shares(entries));
    let mut filling = |name: &str, way: Way, first: [u32; 3]| {
        table.call(
            name,
            || fill(&mut rust(first), entries, way, &shares),
            || fill(&mut called(first), entries, way, &shares),
            || fill(&mut port(first), entries, way, &shares),
        );
    };
    filling("insert at the end", Way::InsertAtEnd, first);
    filling("insert, random + cursor", Way::Insert, first);
    filling("split_entry, random + cursor", Way::Split, [entries, 3, 0]);
    filling("locate, split, update, insert", Way::Edit, first);
    seats::<N>(table, entries, &shares);
    let mut trees = (rust(first), called(first), port(first));
    table.call(
        "reset",
        || each(0..CALLS / 10, |_| Calls::reset(&mut trees.0, first)),
        || each(0..CALLS / 10, |_| trees.1.reset(first)),
        || each(0..CALLS / 10, |_| trees.2.reset(first)),
    );
    table.call(
        "new (port: its own areas)",
        || each(0..100, |_| rust(first)),
        || each(0..100, |_| called(first)),
        || each(0..100, |_| port(first)),
    );
}

/// Trees of the port filled for one of their seats, which has a share of all entries or of none: beside lib.rs as it is.
fn seats<const N: usize>(table: &mut Table, entries: u32, lengths: &[u32]) {
    let rust = |first| PrepareEffectTree::<N>::new(pair(first));
    let port = |first, share| {
        let shares = [share, 0, 0, 0, 0, 0, 0, 0];
        let tree = smelvock::PrepareEffectTree::<N>::with_shares(entries, port::three(first), shares);
        Port(tree.expect("a good limit and good shares"), Some(0))
    };
    for (name, way, first) in [("insert", Way::Insert, [3, 3, 0]), ("split_entry", Way::Split, [entries, 3, 0])] {
        for (place, share) in [("below", entries - 1), ("at", 0)] {
            table.kind(
                &format!("{name}, {place} its share"),
                || fill(&mut rust(first), entries, way, lengths),
                || fill(&mut port(first, share), entries, way, lengths),
            );
        }
    }
}

#[derive(Clone, Copy)]
enum Way {
    InsertAtEnd,
    Insert,
    Split,
    Edit,
}

/// What the places of a filling are drawn from.
const SEED: u64 = 5;

/// The prepare length that each entry of a tree filled by splits gets when it is made: 1, and 1 for each entry that is split off it or off
/// one of those, so that no split moves nothing or all.
fn shares(entries: u32) -> Vec<u32> {
    let mut random = Random::new(SEED);
    let drawn: Vec<_> = (1..entries as u64).map(|count| random.below(count) as usize).collect();
    let mut shares = vec![1; entries as usize];
    (1..entries as usize).rev().for_each(|new| shares[drawn[new - 1]] += shares[new]);
    shares
}

/// One entry after the other until the tree holds its limit.
fn fill<T: Calls>(tree: &mut T, entries: u32, way: Way, shares: &[u32]) -> usize {
    let mut random = Random::new(SEED);
    let mut near = 0;
    for count in 1..entries {
        let id = random.below(count as u64) as u32;
        let lengths = [3, 1, 0];
        match way {
            Way::InsertAtEnd => _ = black_box(tree.insert(None, lengths)),
            Way::Insert => _ = black_box(tree.insert(Some(tree.cursor(id)), lengths)),
            Way::Split => {
                let share = shares[count as usize];
                _ = black_box(tree.split_entry(tree.cursor(id), [share, 0, 0], id % 2 == 0))
            }
            Way::Edit => near = edit(tree, near, count),
        }
    }
    entries as usize - 1
}

/// What an editor does at a place: finds it, splits the entry there where it can, empties a part, and writes behind it.
fn edit<T: Calls>(tree: &mut T, near: u32, count: u32) -> u32 {
    let index = if count.is_multiple_of(50) { 0 } else { near };
    let (at, offset, _) = tree.locate(0, index);
    match count.is_multiple_of(3).then(|| tree.lengths(at)) {
        Some([_, effect, _]) if offset > 0 || effect > 0 => {
            let (_, [_, second]) = tree.split_entry(at, [offset, effect.min(1), 0], true);
            black_box(tree.update(second, tree.lengths(second)));
        }
        _ => _ = black_box(tree.insert(Some(at), [3, 1, 0])),
    }
    index + 2
}
