//! The port as something that lib.rs's calls are made on. Only calls that are not refused are made so.

use oracle::calls::Calls;
use smelvock::{Cursor, Lengths, PrepareEffectTree, Refusal, View};
use std::cmp::Ordering;

/// The tree, and the seat that its inserts and splits name.
#[derive(Clone)]
pub struct Port<const N: usize>(pub PrepareEffectTree<N>, pub Option<u8>);

fn done<T>(answer: Result<T, Refusal>) -> T {
    answer.expect("the row does not refuse the call")
}

pub fn three([prepare, effect, lines]: [u32; 3]) -> Lengths {
    Lengths { prepare, effect, lines }
}

pub fn side(view: usize) -> View {
    [View::Prepare, View::Effect, View::Lines][view]
}

impl<const N: usize> Calls for Port<N> {
    type Cursor = Cursor;

    fn reset(&mut self, lengths: [u32; 3]) {
        done(self.0.reset(three(lengths)))
    }
    fn len(&self) -> usize {
        done(self.0.len())
    }
    fn is_empty(&self) -> bool {
        done(self.0.is_empty())
    }
    fn first(&self) -> Cursor {
        done(self.0.first())
    }
    fn next(&self, at: Cursor) -> Option<Cursor> {
        done(self.0.next(at))
    }
    fn id(&self, at: Cursor) -> u32 {
        done(self.0.id(at))
    }
    fn lengths(&self, at: Cursor) -> [u32; 3] {
        let Lengths { prepare, effect, lines } = done(self.0.lengths(at));
        [prepare, effect, lines]
    }
    fn cursor(&self, id: u32) -> Cursor {
        done(self.0.cursor(id))
    }
    fn cmp(&self, a: Cursor, b: Cursor) -> Ordering {
        done(self.0.cmp(a, b))
    }
    fn char_index_to_entry(&mut self, view: usize, index: u32) -> (Cursor, u32) {
        let (at, offset, _) = self.selected(view, index);
        (at, offset)
    }
    fn locate(&mut self, view: usize, index: u32) -> (Cursor, u32, u32) {
        let (at, offset, effect, ..) = self.located(view, index);
        (at, offset, effect)
    }
    fn selected(&mut self, view: usize, index: u32) -> (Cursor, u32, u32) {
        done(self.0.char_index_to_entry(side(view), index))
    }
    fn located(&mut self, view: usize, index: u32) -> (Cursor, u32, u32, u32, u32) {
        done(self.0.locate(side(view), index))
    }
    fn entry_to_char_index(&self, view: usize, at: Cursor) -> u32 {
        done(self.0.entry_to_char_index(side(view), at))
    }
    fn set_lengths(&mut self, at: Cursor, lengths: [u32; 3]) {
        done(self.0.set_lengths(at, three(lengths)))
    }
    fn update(&mut self, at: Cursor, lengths: [u32; 3]) -> u32 {
        done(self.0.update(at, three(lengths)))
    }
    // Both are compiled into a driver that times them: out of line, they would hand the answer over once more, through memory.
    #[inline(always)]
    fn insert(&mut self, before: Option<Cursor>, lengths: [u32; 3]) -> (u32, u32) {
        done(match self.1 {
            None => self.0.insert(before, three(lengths)),
            Some(seat) => self.0.insert_for(seat, before, three(lengths)),
        })
    }
    #[inline(always)]
    fn split_entry(&mut self, at: Cursor, lengths: [u32; 3], before: bool) -> (u32, [Cursor; 2]) {
        done(match self.1 {
            None => self.0.split_entry(at, three(lengths), before),
            Some(seat) => self.0.split_entry_for(seat, at, three(lengths), before),
        })
    }
}
