//! The calls that leave the words as they are, but for the finger.

use crate::timing::Table;
use crate::trees::Trees;
use oracle::calls::Calls;
use oracle::random::Random;
use oracle::rust::Place;
use std::collections::BTreeMap;
use std::hint::black_box;

pub const CALLS: usize = 20_000;

const SLOTS: [&str; 3] = ["cursor, first slot", "cursor, middle slot", "cursor, last slot"];

/// What every kind is fed.
struct Inputs {
    ids: Vec<u32>,
    /// Positions of the prepare view, at random and in rising order, a few apart.
    random: Vec<u32>,
    rising: Vec<u32>,
    /// Entries in the first, in the middle and in the last slot of their leaf, at random.
    slots: [Vec<u32>; 3],
}

pub fn run<A: Calls, B: Calls, C: Calls>(table: &mut Table, trees: &mut Trees<A, B, C>) {
    let Trees { rust, called, port } = trees;
    let inputs = inputs(rust);
    let ids = &inputs.ids;
    let (rusts, calleds, ports) = (cursors(rust, ids), cursors(called, ids), cursors(port, ids));
    macro_rules! kind {
        ($name:expr, |$tree:ident, $cursors:ident| $calls:expr) => {
            table.call(
                $name,
                kind!(rust, rusts, |$tree, $cursors| $calls),
                kind!(called, calleds, |$tree, $cursors| $calls),
                kind!(port, ports, |$tree, $cursors| $calls),
            )
        };
        ($one:ident, $its:ident, |$tree:ident, $cursors:ident| $calls:expr) => {
            || {
                let ($tree, $cursors) = (&mut *$one, &$its);
                $calls
            }
        };
    }
    kind!("len", |tree, _cursors| each(0..CALLS, |_| tree.len()));
    kind!("is_empty", |tree, _cursors| each(0..CALLS, |_| tree.is_empty()));
    kind!("first", |tree, _cursors| each(0..CALLS, |_| tree.first()));
    kind!("next, whole list", |tree, _cursors| walk(tree));
    kind!("id", |tree, cursors| each(cursors, |&at| tree.id(at)));
    kind!("lengths", |tree, cursors| each(cursors, |&at| tree.lengths(at)));
    kind!("cursor", |tree, _cursors| each(ids, |&id| tree.cursor(id)));
    for (name, ids) in SLOTS.into_iter().zip(&inputs.slots) {
        kind!(name, |tree, _cursors| each(ids, |&id| tree.cursor(id)));
    }
    kind!("cmp", |tree, cursors| each(cursors.windows(2), |pair| tree.cmp(pair[0], pair[1])));
    kind!("entry_to_char_index prepare", |tree, cursors| each(cursors, |&at| tree.entry_to_char_index(0, at)));
    kind!("entry_to_char_index effect", |tree, cursors| each(cursors, |&at| tree.entry_to_char_index(1, at)));
    kind!("locate, random", |tree, _cursors| each(&inputs.random, |&index| tree.locate(0, index)));
    kind!("locate, rising", |tree, _cursors| each(&inputs.rising, |&index| tree.locate(0, index)));
    kind!("char_index_to_entry, rising", |tree, _cursors| each(&inputs.rising, |&index| tree
        .char_index_to_entry(0, index)));
}

fn inputs<A: Calls>(tree: &mut A) -> Inputs {
    let mut random = Random::new(7);
    let count = tree.len() as u64;
    let mut total = 0u64;
    let mut leaves = BTreeMap::<u32, Vec<u32>>::new();
    let mut at = Some(tree.first());
    while let Some(cursor) = at {
        total += tree.lengths(cursor)[0] as u64;
        leaves.entry(Place::of(cursor).leaf).or_default().push(tree.id(cursor));
        at = tree.next(cursor);
    }
    let leaves = leaves.into_values().collect::<Vec<_>>();
    let slots: [fn(&[u32]) -> u32; 3] = [|ids| ids[0], |ids| ids[ids.len() / 2], |ids| ids[ids.len() - 1]];
    let mut drawn = Random::new(8);
    let mut one = |slot: fn(&[u32]) -> u32| slot(&leaves[drawn.below(leaves.len() as u64) as usize]);
    let slots = slots.map(|slot| (0..CALLS).map(|_| one(slot)).collect());
    Inputs {
        ids: (0..CALLS).map(|_| random.below(count) as u32).collect(),
        random: (0..CALLS).map(|_| random.below(total) as u32).collect(),
        rising: (0..CALLS as u64).map(|call| (call * 3 % total) as u32).collect(),
        slots,
    }
}

pub fn cursors<A: Calls>(tree: &A, ids: &[u32]) -> Vec<A::Cursor> {
    ids.iter().map(|&id| tree.cursor(id)).collect()
}

/// Makes one call for each input; every answer is used.
pub fn each<I: IntoIterator, T>(inputs: I, mut call: impl FnMut(I::Item) -> T) -> usize {
    let mut calls = 0;
    for input in inputs {
        black_box(call(black_box(input)));
        calls += 1;
    }
    calls
}

fn walk<A: Calls>(tree: &A) -> usize {
    let mut calls = 0;
    let mut at = Some(tree.first());
    while let Some(cursor) = at {
        at = tree.next(black_box(cursor));
        calls += 1;
    }
    calls
}
