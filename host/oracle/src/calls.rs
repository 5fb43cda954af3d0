//! lib.rs's public calls as a trait, so that one piece of code drives lib.rs and the port, and the row calls on them: each is
//! `cursor(id)`, or a cursor that an earlier call answered, and then the call of its kind.

use crate::cursors::{Held, Source};
use crate::record::Call;
use crate::row::Entry;
use crate::rust::{pair, side, Place, Reply, Seen};
use crate::state::{NONE, PREPARE};
use crate::tree::{Cursor, Lengths, PrepareEffectTree};
use std::cmp::Ordering;
use std::fmt::Debug;

/// A view is 0, 1 or 2, lengths are prepare, effect and line ends.
pub trait Calls {
    type Cursor: Copy + Debug;

    fn reset(&mut self, lengths: [u32; 3]);
    fn len(&self) -> usize;
    fn is_empty(&self) -> bool;
    fn first(&self) -> Self::Cursor;
    fn next(&self, at: Self::Cursor) -> Option<Self::Cursor>;
    fn id(&self, at: Self::Cursor) -> u32;
    fn lengths(&self, at: Self::Cursor) -> [u32; 3];
    fn cursor(&self, id: u32) -> Self::Cursor;
    fn cmp(&self, a: Self::Cursor, b: Self::Cursor) -> Ordering;
    fn char_index_to_entry(&mut self, view: usize, index: u32) -> (Self::Cursor, u32);
    fn locate(&mut self, view: usize, index: u32) -> (Self::Cursor, u32, u32);
    /// How many slots the last lookup examined, where that is counted beside the call.
    fn examined(&self) -> u32 {
        0
    }
    /// `char_index_to_entry`, and last how many slots it examined.
    fn selected(&mut self, view: usize, index: u32) -> (Self::Cursor, u32, u32) {
        let (at, offset) = self.char_index_to_entry(view, index);
        (at, offset, self.examined())
    }
    /// `locate` with the entry's prepare position behind its effect position, which lib.rs has from the entry's rank, and likewise.
    fn located(&mut self, view: usize, index: u32) -> (Self::Cursor, u32, u32, u32, u32) {
        let (at, offset, effect) = self.locate(view, index);
        (at, offset, effect, self.entry_to_char_index(PREPARE, at), self.examined())
    }
    fn entry_to_char_index(&self, view: usize, at: Self::Cursor) -> u32;
    fn set_lengths(&mut self, at: Self::Cursor, lengths: [u32; 3]);
    fn update(&mut self, at: Self::Cursor, lengths: [u32; 3]) -> u32;
    fn insert(&mut self, before: Option<Self::Cursor>, lengths: [u32; 3]) -> (u32, u32);
    fn split_entry(&mut self, at: Self::Cursor, lengths: [u32; 3], before: bool) -> (u32, [Self::Cursor; 2]);
}

/// lib.rs has no line ends: it is played without those given, answers 0 of them, and has no view 2.
impl<const N: usize> Calls for PrepareEffectTree<N> {
    type Cursor = Cursor;

    fn reset(&mut self, lengths: [u32; 3]) {
        self.reset(pair(lengths))
    }
    fn len(&self) -> usize {
        self.len()
    }
    fn is_empty(&self) -> bool {
        self.is_empty()
    }
    fn first(&self) -> Cursor {
        self.first()
    }
    fn next(&self, at: Cursor) -> Option<Cursor> {
        self.next(at)
    }
    fn id(&self, at: Cursor) -> u32 {
        self.id(at)
    }
    fn lengths(&self, at: Cursor) -> [u32; 3] {
        let Lengths { prepare, effect } = self.lengths(at);
        [prepare, effect, 0]
    }
    fn cursor(&self, id: u32) -> Cursor {
        self.cursor(id)
    }
    fn cmp(&self, a: Cursor, b: Cursor) -> Ordering {
        self.cmp(a, b)
    }
    fn char_index_to_entry(&mut self, view: usize, index: u32) -> (Cursor, u32) {
        self.char_index_to_entry(side(view), index)
    }
    fn locate(&mut self, view: usize, index: u32) -> (Cursor, u32, u32) {
        self.locate(side(view), index)
    }
    fn entry_to_char_index(&self, view: usize, at: Cursor) -> u32 {
        self.entry_to_char_index(side(view), at)
    }
    fn set_lengths(&mut self, at: Cursor, lengths: [u32; 3]) {
        self.set_lengths(at, pair(lengths))
    }
    fn update(&mut self, at: Cursor, lengths: [u32; 3]) -> u32 {
        self.update(at, pair(lengths))
    }
    fn insert(&mut self, before: Option<Cursor>, lengths: [u32; 3]) -> (u32, u32) {
        self.insert(before, pair(lengths))
    }
    fn split_entry(&mut self, at: Cursor, lengths: [u32; 3], before: bool) -> (u32, [Cursor; 2]) {
        self.split_entry(at, pair(lengths), before)
    }
}

/// What a call answers: the fields, its cursors, and how many slots it examined.
type Answered<C> = ([u32; 4], [Option<C>; 2], u32);

/// Plays a call that the row does not refuse, and keeps the cursors that it answers.
pub fn play<T: Calls>(tree: &mut T, held: &mut Held<T::Cursor>, call: Call, from: Source) -> Reply {
    let ([first, second], by_id) = (call.ids(), |id| tree.cursor(id));
    let cursors = [held.handed(from).map(|(_, cursor)| cursor).or_else(|| first.map(by_id)), second.map(by_id)];
    let given = cursors.map(|cursor| cursor.map(|cursor| seen(tree, cursor)));
    let (fields, got, examined) = change(tree, call, cursors[0])
        .or_else(|| ask(tree, call, cursors))
        .expect("every call is a change or a question, and names the entries that it needs");
    held.keep(call, got);
    Reply { fields, given, got: got.map(|cursor| cursor.map(|cursor| seen(tree, cursor))), examined }
}

/// The entries in order, by walking.
pub fn entries<T: Calls>(tree: &T) -> Vec<Entry> {
    let mut entries = Vec::new();
    let mut at = Some(tree.first());
    while let Some(cursor) = at.filter(|_| entries.len() <= tree.len()) {
        entries.push(Entry { id: tree.id(cursor), lengths: tree.lengths(cursor) });
        at = tree.next(cursor);
    }
    entries
}

fn seen<T: Calls>(tree: &T, cursor: T::Cursor) -> Seen {
    Seen { place: Place::of(cursor), id: tree.id(cursor) }
}

/// The calls that change the tree.
fn change<T: Calls>(tree: &mut T, call: Call, at: Option<T::Cursor>) -> Option<Answered<T::Cursor>> {
    let silent = ([0; 4], [None, None], 0);
    Some(match call {
        Call::Reset { lengths } => {
            tree.reset(lengths);
            silent
        }
        Call::Insert { lengths, .. } => {
            let (id, effect) = tree.insert(at, lengths);
            ([id, effect, 0, 0], [Some(tree.cursor(id)), None], 0)
        }
        Call::Split { lengths, before, .. } => {
            let (id, cursors) = tree.split_entry(at?, lengths, before);
            ([id, 0, 0, 0], cursors.map(Some), 0)
        }
        Call::Set { lengths, .. } => {
            tree.set_lengths(at?, lengths);
            silent
        }
        Call::Update { lengths, .. } => ([tree.update(at?, lengths), 0, 0, 0], [None, None], 0),
        _ => return None,
    })
}

/// The calls that only answer, lookups among them although they move the finger.
fn ask<T: Calls>(tree: &mut T, call: Call, given: [Option<T::Cursor>; 2]) -> Option<Answered<T::Cursor>> {
    let fields = match call {
        Call::Lookup { view, index } => {
            let (at, offset, effect, prepare, examined) = tree.located(view, index);
            assert_eq!(prepare, tree.entry_to_char_index(PREPARE, at), "the entry's own rank");
            return Some(([tree.id(at), offset, effect, prepare], [Some(at), None], examined));
        }
        Call::Select { view, index } => {
            let (at, offset, examined) = tree.selected(view, index);
            return Some(([tree.id(at), offset, 0, 0], [Some(at), None], examined));
        }
        Call::First => return Some(([tree.id(tree.first()), 0, 0, 0], [Some(tree.first()), None], 0)),
        Call::Next { .. } => {
            let next = tree.next(given[0]?);
            return Some(([next.map_or(NONE, |next| tree.id(next)), 0, 0, 0], [next, None], 0));
        }
        Call::Rank { view, .. } => [tree.entry_to_char_index(view, given[0]?), 0, 0, 0],
        Call::Compare { .. } => [(tree.cmp(given[0]?, given[1]?) as i32 + 1) as u32, 0, 0, 0],
        Call::Lengths { .. } => {
            let [prepare, effect, lines] = tree.lengths(given[0]?);
            [prepare, effect, lines, 0]
        }
        Call::Count => {
            assert!(!tree.is_empty());
            [tree.len() as u32, 0, 0, 0]
        }
        _ => return None,
    };
    Some((fields, [None, None], 0))
}
