//! lib.rs with line ends and seats: it is played without them, and the plain row settles them. The entries made are counted, for the
//! port's stamp.

use crate::calls::Calls;
use crate::examined::Examined;
use crate::record::Call;
use crate::row::Row;
use crate::rust::{pair, side};
use crate::state::{Head, State, EFFECT, LINES, NONE};
use crate::tree::{Cursor, PrepareEffectTree};
use std::cmp::Ordering;

#[derive(Clone)]
pub struct Lined<const N: usize> {
    pub rust: PrepareEffectTree<N>,
    pub row: Row,
    /// How many entries were made, over every reset; it goes round.
    pub made: u64,
    /// Whom the next inserts and splits are for.
    pub seat: Option<u32>,
    /// Whether the last lookup was in view 2. lib.rs's finger then stands at the entry found in the prepare view, and goes the way of
    /// every finger when something changes.
    by_line: bool,
    /// What the last lookup examined, by lib.rs's words.
    pub looked: Examined,
}

impl<const N: usize> Lined<N> {
    pub fn make(limit: u32, lengths: [u32; 3]) -> Self {
        Self::beside(Row::make(limit, lengths))
    }

    /// lib.rs's tree of the one entry of a row.
    pub fn beside(row: Row) -> Self {
        let rust = PrepareEffectTree::new(pair(row.entries[0].lengths));
        Lined { rust, row, made: 1, seat: None, by_line: false, looked: Examined::default() }
    }

    /// The head that the port holds for this tree: lib.rs's, but for the stamp, the seats and the sums of a finger in view 2.
    pub fn head(&self) -> Head {
        let mut head = Head { stamp: self.made, seats: self.row.seats, ..self.rust.head(self.row.limit) };
        if let Some(finger) = head.finger.as_mut().filter(|_| self.by_line) {
            let rank = |slot: u32| self.rank(LINES, Cursor::standing(finger.leaf, slot));
            let (start, found) = (rank(0), rank(finger.slot));
            (finger.view, finger.start, finger.within) = (LINES as u32, start, found - start);
        }
        head
    }

    /// Head and areas, the areas as long as the limit needs.
    pub fn state(&self) -> State {
        State { head: self.head(), ..self.rust.state(self.row.limit, &self.line_ends()) }
    }

    /// The words in use of leaves, inner nodes and homes: three words of each slot are lib.rs's, the fourth is the row's.
    pub fn used(&self) -> [Vec<u32>; 3] {
        self.rust.used(&self.line_ends())
    }

    /// The line ends of the entries by id.
    fn line_ends(&self) -> Vec<u32> {
        let mut lines = vec![0; self.row.entries.len()];
        self.row.entries.iter().for_each(|entry| lines[entry.id as usize] = entry.lengths[LINES]);
        lines
    }

    /// What the row answers to a call that it doesn't refuse. Each entry made is counted, the first one after a reset too.
    fn settled(&mut self, call: Call) -> [u32; 4] {
        let answer = self.row.answer_for(self.seat, Some(call));
        assert_eq!(answer.number, 0, "the row refuses {call:?}");
        if matches!(call, Call::Reset { .. } | Call::Insert { .. } | Call::Split { .. }) {
            self.made = self.made.wrapping_add(1);
        }
        answer.fields
    }

    fn place(&self, at: Cursor) -> usize {
        self.row.place(self.rust.id(at)).expect("the row has lib.rs's entries")
    }

    fn rank(&self, view: usize, at: Cursor) -> u32 {
        match view {
            LINES => self.row.before(LINES, self.place(at)),
            _ => self.rust.entry_to_char_index(side(view), at),
        }
    }

    /// Finds a line's entry in the row, and puts lib.rs's finger there.
    fn line(&mut self, index: u32) -> (Cursor, u32) {
        let [id, offset, ..] = self.settled(Call::Lookup { view: LINES, index });
        let at = self.rust.cursor(id);
        self.rust.point_at(at);
        self.by_line = true;
        (at, offset)
    }
}

impl<const N: usize> Calls for Lined<N> {
    type Cursor = Cursor;

    fn reset(&mut self, lengths: [u32; 3]) {
        self.rust.reset(pair(lengths));
        self.settled(Call::Reset { lengths });
    }
    fn len(&self) -> usize {
        self.rust.len()
    }
    fn is_empty(&self) -> bool {
        self.rust.is_empty()
    }
    fn first(&self) -> Cursor {
        self.rust.first()
    }
    fn next(&self, at: Cursor) -> Option<Cursor> {
        self.rust.next(at)
    }
    fn id(&self, at: Cursor) -> u32 {
        self.rust.id(at)
    }
    fn lengths(&self, at: Cursor) -> [u32; 3] {
        let [prepare, effect, _] = Calls::lengths(&self.rust, at);
        [prepare, effect, self.row.entries[self.place(at)].lengths[LINES]]
    }
    fn cursor(&self, id: u32) -> Cursor {
        self.rust.cursor(id)
    }
    fn cmp(&self, a: Cursor, b: Cursor) -> Ordering {
        self.rust.cmp(a, b)
    }
    fn char_index_to_entry(&mut self, view: usize, index: u32) -> (Cursor, u32) {
        let finger = self.head().finger;
        let (at, offset) = if view == LINES {
            self.line(index)
        } else {
            self.by_line = false;
            self.rust.char_index_to_entry(side(view), index)
        };
        self.looked = Examined::of(&self.rust, finger, (view, index), at.fields());
        (at, offset)
    }
    fn locate(&mut self, view: usize, index: u32) -> (Cursor, u32, u32) {
        let finger = self.head().finger;
        let (at, offset, effect) = if view == LINES {
            let (at, offset) = self.line(index);
            (at, offset, self.rank(EFFECT, at))
        } else {
            self.by_line = false;
            self.rust.locate(side(view), index)
        };
        self.looked = Examined::of(&self.rust, finger, (view, index), at.fields());
        (at, offset, effect)
    }
    fn examined(&self) -> u32 {
        self.looked.slots
    }
    fn entry_to_char_index(&self, view: usize, at: Cursor) -> u32 {
        self.rank(view, at)
    }
    fn set_lengths(&mut self, at: Cursor, lengths: [u32; 3]) {
        let id = self.rust.id(at);
        self.rust.set_lengths(at, pair(lengths));
        self.settled(Call::Set { id, lengths });
    }
    fn update(&mut self, at: Cursor, lengths: [u32; 3]) -> u32 {
        let id = self.rust.id(at);
        self.settled(Call::Update { id, lengths });
        self.rust.update(at, pair(lengths))
    }
    fn insert(&mut self, before: Option<Cursor>, lengths: [u32; 3]) -> (u32, u32) {
        let id = before.map_or(NONE, |at| self.rust.id(at));
        self.settled(Call::Insert { before: id, lengths });
        self.rust.insert(before, pair(lengths))
    }
    fn split_entry(&mut self, at: Cursor, lengths: [u32; 3], before: bool) -> (u32, [Cursor; 2]) {
        let id = self.rust.id(at);
        self.settled(Call::Split { id, lengths, before });
        self.rust.split_entry(at, pair(lengths), before)
    }
}
