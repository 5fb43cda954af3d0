//! The calls that change a tree's entries.

use crate::convert::{target, word_by_word};
use crate::{raw, Cursor, EntryId, Lengths, PrepareEffectTree, Refusal};

impl<const N: usize> PrepareEffectTree<N> {
    /// Makes this a tree of one entry again, reusing its memory. No cursor from before is current, and nothing is charged to a seat.
    ///
    /// ```
    /// # use smelvock::{Lengths, PrepareEffectTree, Refusal, View};
    /// # let lengths = |prepare, effect| Lengths { prepare, effect, lines: 1 };
    /// let mut tree = PrepareEffectTree::<8>::new(lengths(3, 3))?;
    /// tree.insert(None, lengths(2, 2))?;
    /// tree.reset(lengths(7, 7))?;
    /// assert_eq!(tree.len(), Ok(1));
    /// # Ok::<(), Refusal>(())
    /// ```
    pub fn reset(&mut self, lengths: Lengths) -> Result<(), Refusal> {
        let (head, areas) = self.0.parts();
        let number = raw::reset(head, areas, lengths.into());
        Refusal::unless(number, || ())
    }

    /// Sets an entry's lengths.
    ///
    /// ```
    /// # use smelvock::{Lengths, PrepareEffectTree, Refusal, View};
    /// # let lengths = |prepare, effect| Lengths { prepare, effect, lines: 1 };
    /// let mut tree = PrepareEffectTree::<8>::new(lengths(3, 3))?;
    /// let at = tree.first()?;
    /// tree.set_lengths(at, lengths(4, 4))?;
    /// // no entry was made, so the cursor is still current
    /// assert_eq!(tree.lengths(at), Ok(lengths(4, 4)));
    /// # Ok::<(), Refusal>(())
    /// ```
    pub fn set_lengths(&mut self, at: Cursor, lengths: Lengths) -> Result<(), Refusal> {
        let (head, areas) = self.0.parts();
        let number = raw::set_lengths(head, areas, at.into(), lengths.into());
        Refusal::unless(number, || ())
    }

    /// Sets an entry's lengths and ranks it in the effect version.
    ///
    /// ```
    /// # use smelvock::{Lengths, PrepareEffectTree, Refusal, View};
    /// # let lengths = |prepare, effect| Lengths { prepare, effect, lines: 1 };
    /// let mut tree = PrepareEffectTree::<8>::new(lengths(3, 3))?;
    /// tree.insert(None, lengths(2, 2))?;
    /// assert_eq!(tree.update(tree.cursor(1)?, lengths(0, 0)), Ok(3));
    /// # Ok::<(), Refusal>(())
    /// ```
    pub fn update(&mut self, at: Cursor, lengths: Lengths) -> Result<u32, Refusal> {
        let (head, areas) = self.0.parts();
        let reply = raw::update(head, areas, at.into(), lengths.into());
        Refusal::unless(reply.number, || reply.value)
    }

    /// Inserts an entry before `before`, or at the end for `None`, returning its id and its
    /// position in the effect version.
    ///
    /// ```
    /// # use smelvock::{Lengths, PrepareEffectTree, Refusal, View};
    /// # let lengths = |prepare, effect| Lengths { prepare, effect, lines: 1 };
    /// let mut tree = PrepareEffectTree::<8>::new(lengths(3, 3))?;
    /// assert_eq!(tree.insert(None, lengths(2, 2)), Ok((1, 3)));
    /// assert_eq!(tree.insert(Some(tree.cursor(0)?), lengths(5, 5)), Ok((2, 0)));
    /// assert_eq!(tree.insert(None, lengths(u32::MAX, 0)), Err(Refusal::TOTAL));
    /// # Ok::<(), Refusal>(())
    /// ```
    pub fn insert(&mut self, before: Option<Cursor>, lengths: Lengths) -> Result<(EntryId, u32), Refusal> {
        self.inserted(raw::NOBODY, before, lengths)
    }

    /// Inserts for a seat, or for nobody.
    #[inline]
    pub(crate) fn inserted(
        &mut self,
        seat: u32,
        before: Option<Cursor>,
        lengths: Lengths,
    ) -> Result<(EntryId, u32), Refusal> {
        let (end, before) = target(before);
        let (head, areas) = self.0.parts();
        let reply = raw::insert(head, areas, seat, end, before, lengths.into());
        Refusal::unless(reply.number, || (reply.id, reply.position))
    }

    /// Moves `lengths` out of the entry at `at` into a new entry just before it if `before`, else
    /// just after, returning the new id and both entries' cursors in order. Refused by 17 where one
    /// of the two would have no length, line ends counted.
    ///
    /// ```
    /// # use smelvock::{Lengths, PrepareEffectTree, Refusal, View};
    /// # let lengths = |prepare, effect| Lengths { prepare, effect, lines: 1 };
    /// let mut tree = PrepareEffectTree::<8>::new(lengths(3, 3))?;
    /// let (id, [first, second]) = tree.split_entry(tree.first()?, Lengths { prepare: 1, effect: 2, lines: 0 }, true)?;
    /// assert_eq!((tree.id(first)?, tree.id(second)?), (id, 0));
    /// assert_eq!(tree.lengths(second), Ok(Lengths { prepare: 2, effect: 1, lines: 1 }));
    /// assert_eq!(tree.split_entry(second, lengths(2, 1), true), Err(Refusal::HOLLOW));
    /// # Ok::<(), Refusal>(())
    /// ```
    pub fn split_entry(
        &mut self,
        at: Cursor,
        lengths: Lengths,
        before: bool,
    ) -> Result<(EntryId, [Cursor; 2]), Refusal> {
        self.divided(raw::NOBODY, at, lengths, before)
    }

    /// Splits for a seat, or for nobody.
    #[inline]
    pub(crate) fn divided(
        &mut self,
        seat: u32,
        at: Cursor,
        lengths: Lengths,
        before: bool,
    ) -> Result<(EntryId, [Cursor; 2]), Refusal> {
        let (head, areas) = self.0.parts();
        let reply = raw::split_entry(head, areas, seat, at.into(), lengths.into(), before as u32);
        Refusal::unless(reply.number, || (reply.id, [word_by_word(&reply.first), word_by_word(&reply.second)]))
    }
}
