//! A call on cursors that may be any, by lib.rs: the number by which lib.rs's own state wants it refused, and lib.rs's answer where
//! that is 0. Line ends and seats are the row's.

use crate::exports::{Export, Given};
use crate::words::{self, cursor_of};
use oracle::calls::Calls;
use oracle::lined::Lined;
use oracle::rust::Place;
use oracle::state::{State, MOST_LINES, NONE, PREPARE};
use oracle::tree;
use smelvock::raw::{Cursor, Lengths};

/// The calls that take cursors.
pub const TAKING: [Export; 9] = [
    Export::Insert,
    Export::SplitEntry,
    Export::SetLengths,
    Export::Update,
    Export::EntryToCharIndex,
    Export::Next,
    Export::Cmp,
    Export::Lengths,
    Export::Id,
];

/// The calls that give lengths, but for make.
pub const GIVING: [Export; 5] = [Export::Reset, Export::Insert, Export::SplitEntry, Export::SetLengths, Export::Update];

/// The calls that take a view.
pub const VIEWED: [Export; 3] = [Export::Locate, Export::CharIndexToEntry, Export::EntryToCharIndex];

/// The other public calls of lib.rs, but for make and the retired `add`.
pub const OTHERS: [Export; 7] = [
    Export::Locate,
    Export::CharIndexToEntry,
    Export::Cursor,
    Export::First,
    Export::Len,
    Export::IsEmpty,
    Export::Reset,
];

/// The cursors that a call tests, in order; at the end there is none.
pub fn tested(export: Export, given: &Given) -> Vec<Cursor> {
    match export {
        Export::Insert if given.end == 1 => vec![],
        Export::Cmp => vec![given.at, given.other],
        _ if TAKING.contains(&export) => vec![given.at],
        _ => vec![],
    }
}

/// The number by which a cursor fails: 3, its stamp is not the count of the entries made; 13, its leaf is not in use; 14, its slot is at or past
/// the leaf's len. The first that holds, or 0.
pub fn fault(state: &State, at: Cursor) -> u32 {
    if at.stamp != state.head.stamp {
        3
    } else if at.leaf >= state.head.leaf_count {
        13
    } else if at.slot >= state.leaf(at.leaf).len() {
        14
    } else {
        0
    }
}

/// The entry at a leaf and a slot of it that is in use.
pub fn entry_at(state: &State, at: Cursor) -> Option<u32> {
    let leaf = (at.leaf < state.head.leaf_count).then(|| state.leaf(at.leaf))?;
    let slot = leaf.used().nth(at.slot as usize)?;
    Some(slot[0])
}

/// The number of a call on lib.rs's state; 0 where lib.rs may be called. Too many line ends and a bad seat come first.
pub fn wanted(state: &State, export: Export, given: &Given) -> u32 {
    if malformed(state, export, given) {
        return 10;
    }
    let failed = tested(export, given).into_iter().map(|at| fault(state, at)).find(|&number| number != 0);
    failed.unwrap_or_else(|| behind_cursors(state, export, given))
}

/// Whether a call is refused by 10: too many line ends, or an insert or split that doesn't name one of a seated tree's eight seats, or names
/// a seat in another tree.
pub fn malformed(state: &State, export: Export, given: &Given) -> bool {
    let seated = state.head.seats.is_some();
    let named = given.seat.map_or(!seated, |seat| seated && seat < 8);
    GIVING.contains(&export) && given.lengths.lines > MOST_LINES
        || [Export::Insert, Export::SplitEntry].contains(&export) && !named
}

/// The causes behind the cursors, 4 to 8, 17 and 18, of a call whose cursors are current.
fn behind_cursors(state: &State, export: Export, given: &Given) -> u32 {
    let head = &state.head;
    let totals = state.inner(head.root).total();
    let own = || {
        let [_, lengths @ ..] = state.leaf(given.at.leaf).used().nth(given.at.slot as usize).expect("it is current");
        lengths.map(u64::from)
    };
    let new = lengths(given).map(u64::from);
    let hollow = |own: [u64; 3]| [[0; 3], own].contains(&new);
    let past = |old: [u64; 3]| (0..3).any(|view| totals[view] - old[view] + new[view] > u32::MAX as u64);
    match export {
        Export::Cursor if given.id >= head.entry_count => 4,
        Export::Locate | Export::CharIndexToEntry if given.index as u64 >= totals[given.view as usize] => 5,
        Export::SplitEntry if (0..3).any(|view| new[view] > own()[view]) => 6,
        Export::SplitEntry if hollow(own()) => 17,
        Export::Insert if past([0; 3]) => 7,
        Export::SetLengths | Export::Update if past(own()) => 7,
        Export::Insert | Export::SplitEntry => without_space(state, given.seat),
        _ => 0,
    }
}

/// 8 in a tree that holds its limit; in a seated one 18 where the seat may not take an entry.
fn without_space(state: &State, seat: Option<u32>) -> u32 {
    let free = state.head.limit - state.head.entry_count;
    match state.head.seats.zip(seat) {
        Some((seats, seat)) if seats.may_take(seat as usize, free) => 0,
        Some(_) => 18,
        None if free > 0 => 0,
        None => 8,
    }
}

fn lengths(given: &Given) -> [u32; 3] {
    let Lengths { prepare, effect, lines } = given.lengths;
    [prepare, effect, lines]
}

/// Leaf and slot as lib.rs prints them, and the stamp: the count of the entries made.
fn standing<const N: usize>(tree: &Lined<N>, at: tree::Cursor) -> Vec<u32> {
    let Place { leaf, slot } = Place::of(at);
    words::standing(Cursor { leaf, slot, stamp: tree.made }).to_vec()
}

/// What lib.rs answers, in the order of the export's values, and last how many slots a lookup examined.
pub fn answer<const N: usize>(tree: &mut Lined<N>, export: Export, given: &Given) -> Vec<u32> {
    let at = tree::Cursor::standing(given.at.leaf, given.at.slot);
    let before = (given.end == 0).then_some(at);
    let lengths = lengths(given);
    tree.seat = given.seat;
    match export {
        Export::Reset => tree.reset(lengths),
        Export::SetLengths => tree.set_lengths(at, lengths),
        Export::Update => return vec![tree.update(at, lengths)],
        Export::Insert => {
            let (id, position) = tree.insert(before, lengths);
            return vec![id, position];
        }
        Export::SplitEntry => {
            let (id, parts) = tree.split_entry(at, lengths, given.before == 1);
            return [vec![id], parts.map(|part| standing(tree, part)).concat()].concat();
        }
        _ => return question(tree, export, given),
    }
    vec![]
}

fn question<const N: usize>(tree: &mut Lined<N>, export: Export, given: &Given) -> Vec<u32> {
    let [at, other] = [given.at, given.other].map(|at| tree::Cursor::standing(at.leaf, at.slot));
    let view = given.view as usize;
    match export {
        Export::Len => vec![tree.len() as u32],
        Export::IsEmpty => vec![tree.is_empty() as u32],
        Export::First => standing(tree, tree.first()),
        Export::Next => tree.next(at).map_or(vec![NONE, 0, 0, 0], |next| standing(tree, next)),
        Export::Id => vec![tree.id(at)],
        Export::Lengths => tree.lengths(at).to_vec(),
        Export::Cursor => standing(tree, tree.cursor(given.id)),
        Export::Cmp => vec![(tree.cmp(at, other) as i32 + 1) as u32],
        Export::CharIndexToEntry => {
            let (at, offset) = tree.char_index_to_entry(view, given.index);
            [standing(tree, at), vec![offset, tree.examined()]].concat()
        }
        Export::Locate => {
            let (at, offset, position) = tree.locate(view, given.index);
            let prepare = tree.entry_to_char_index(PREPARE, at);
            [standing(tree, at), vec![offset, position, prepare, tree.examined()]].concat()
        }
        Export::EntryToCharIndex => vec![tree.entry_to_char_index(view, at)],
        _ => panic!("{export:?} is no call of a list"),
    }
}

/// The cursors among an answer's values.
pub fn issued(export: Export, values: &[u32]) -> Vec<Cursor> {
    let cursors = match export {
        Export::First | Export::Next | Export::Cursor | Export::Locate | Export::CharIndexToEntry => &values[..4],
        Export::SplitEntry => &values[1..],
        _ => &[],
    };
    cursors.as_chunks().0.iter().map(|&at| cursor_of(at)).filter(|at| at.leaf != NONE).collect()
}
