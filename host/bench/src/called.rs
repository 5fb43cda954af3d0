//! lib.rs once more, each call of it behind a function that isn't inlined: what a call costs that can't be compiled into its caller, as
//! none of the port's can. It is a second copy, so that the first is compiled as if this weren't there.

use oracle::calls::Calls;
use std::cmp::Ordering as Order;

#[allow(dead_code)]
mod again {
    include!("../../../docs/src/crates/strider-tree/src/lib.rs");
}

use again::{Cursor, Lengths, PrepareEffectTree, View};

pub struct Called<const N: usize>(PrepareEffectTree<N>);

/// lib.rs has no line ends: they are 0 in all that is timed.
fn pair([prepare, effect, _]: [u32; 3]) -> Lengths {
    Lengths { prepare, effect }
}

fn side(view: usize) -> View {
    [View::Prepare, View::Effect][view]
}

impl<const N: usize> Called<N> {
    #[inline(never)]
    pub fn new(lengths: [u32; 3]) -> Self {
        Called(PrepareEffectTree::new(pair(lengths)))
    }
}

/// Declares the calls, none of them inlined.
macro_rules! calls {
    ($(fn $name:ident($($tree:tt)+) $(-> $reply:ty)? $body:block)*) => {
        $(#[inline(never)]
        fn $name($($tree)+) $(-> $reply)? $body)*
    };
}

impl<const N: usize> Calls for Called<N> {
    type Cursor = Cursor;

    calls! {
        fn reset(&mut self, lengths: [u32; 3]) {
            self.0.reset(pair(lengths))
        }
        fn len(&self) -> usize {
            self.0.len()
        }
        fn is_empty(&self) -> bool {
            self.0.is_empty()
        }
        fn first(&self) -> Cursor {
            self.0.first()
        }
        fn next(&self, at: Cursor) -> Option<Cursor> {
            self.0.next(at)
        }
        fn id(&self, at: Cursor) -> u32 {
            self.0.id(at)
        }
        fn lengths(&self, at: Cursor) -> [u32; 3] {
            let Lengths { prepare, effect } = self.0.lengths(at);
            [prepare, effect, 0]
        }
        fn cursor(&self, id: u32) -> Cursor {
            self.0.cursor(id)
        }
        fn cmp(&self, a: Cursor, b: Cursor) -> Order {
            self.0.cmp(a, b)
        }
        fn char_index_to_entry(&mut self, view: usize, index: u32) -> (Cursor, u32) {
            self.0.char_index_to_entry(side(view), index)
        }
        fn locate(&mut self, view: usize, index: u32) -> (Cursor, u32, u32) {
            self.0.locate(side(view), index)
        }
        fn entry_to_char_index(&self, view: usize, at: Cursor) -> u32 {
            self.0.entry_to_char_index(side(view), at)
        }
        fn set_lengths(&mut self, at: Cursor, lengths: [u32; 3]) {
            self.0.set_lengths(at, pair(lengths))
        }
        fn update(&mut self, at: Cursor, lengths: [u32; 3]) -> u32 {
            self.0.update(at, pair(lengths))
        }
        fn insert(&mut self, before: Option<Cursor>, lengths: [u32; 3]) -> (u32, u32) {
            self.0.insert(before, pair(lengths))
        }
        fn split_entry(&mut self, at: Cursor, lengths: [u32; 3], before: bool) -> (u32, [Cursor; 2]) {
            self.0.split_entry(at, pair(lengths), before)
        }
    }
}
