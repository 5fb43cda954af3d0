//! Cursors and lengths between their public form and the exports'.

use crate::raw;
use crate::{Cursor, Lengths};
use std::ptr;

/// The end, or before a cursor.
#[inline]
pub(crate) fn target(before: Option<Cursor>) -> (u32, raw::Cursor) {
    (before.is_none() as u32, before.map_or(raw::Cursor::default(), raw::Cursor::from))
}

impl From<Lengths> for raw::Lengths {
    #[inline]
    fn from(Lengths { prepare, effect, lines }: Lengths) -> Self {
        raw::Lengths { prepare, effect, lines }
    }
}

impl From<raw::Lengths> for Lengths {
    #[inline]
    fn from(raw::Lengths { prepare, effect, lines }: raw::Lengths) -> Self {
        Lengths { prepare, effect, lines }
    }
}

impl From<Cursor> for raw::Cursor {
    #[inline]
    fn from(Cursor { leaf, slot, stamp }: Cursor) -> Self {
        raw::Cursor { leaf, slot, stamp }
    }
}

/// A cursor that was just answered. Its fields were written one by one, and a load of several at once would wait for them
/// (docs/BENCHMARKS.md, What was done): each is read by a load of its own.
#[inline]
pub(crate) fn word_by_word(at: &raw::Cursor) -> Cursor {
    // SAFETY: each pointer is that of a field of `at`.
    unsafe {
        Cursor {
            leaf: ptr::read_volatile(&at.leaf),
            slot: ptr::read_volatile(&at.slot),
            stamp: ptr::read_volatile(&at.stamp),
        }
    }
}

/// Any cursor may be made; one that isn't current is refused by 3, 13 or 14.
impl From<raw::Cursor> for Cursor {
    #[inline]
    fn from(raw::Cursor { leaf, slot, stamp }: raw::Cursor) -> Self {
        Cursor { leaf, slot, stamp }
    }
}
