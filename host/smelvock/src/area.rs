//! The words that a tree owns.

use std::mem::MaybeUninit;

/// What the calls take for a word of an area. Outside this crate, where the trait can't be named, it is a `u32`.
pub trait Word {}

impl Word for u32 {}
impl Word for Own {}

/// A word of a tree's own area: it may not have been written yet.
#[derive(Clone, Copy)]
#[repr(transparent)]
pub struct Own(MaybeUninit<u32>);

/// One area of a tree. A new tree's isn't zeroed, which would cost more than all else that `new` does: no call reads a word of it
/// that none has written.
#[derive(Clone)]
pub struct Area {
    pub words: Box<[Own]>,
    /// How many words came with the tree; of the others those hold a number that the tree uses.
    given: usize,
}

impl Area {
    pub fn unwritten(words: usize) -> Self {
        // SAFETY: such a word need not hold a number.
        let words = unsafe { Box::new_uninit_slice(words).assume_init() };
        Area { words, given: 0 }
    }

    pub fn given(words: Vec<u32>) -> Self {
        Area { given: words.len(), words: words.into_iter().map(|word| Own(MaybeUninit::new(word))).collect() }
    }

    /// The words that hold a number, in a tree that uses the first `used`.
    pub fn known(&self, used: usize) -> &[u32] {
        let known = used.max(self.given).min(self.words.len());
        // SAFETY: these words are in the area. Those given hold a number; where none was given, `new` made the tree, and the
        // calls, which alone changed it since, have written every word of it that is in use.
        unsafe { std::slice::from_raw_parts(self.words.as_ptr().cast(), known) }
    }
}
