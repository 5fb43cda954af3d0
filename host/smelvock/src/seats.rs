//! Trees whose entries are shared out among seats (document 02, CR 10).

use crate::raw::word;
use crate::{Cursor, EntryId, Lengths, PrepareEffectTree, Refusal};

/// The seats of a tree that [`with_shares`](PrepareEffectTree::with_shares) makes, numbered from 0.
///
/// ```
/// # use smelvock::{Lengths, PrepareEffectTree, Refusal};
/// # let lengths = Lengths { prepare: 2, effect: 2, lines: 0 };
/// use smelvock::SEATS;
/// let tree = PrepareEffectTree::<8>::with_shares(SEATS as u32 + 1, lengths, [1; SEATS])?;
/// assert_eq!(tree.shares(), Some([1; SEATS]));
/// # Ok::<(), Refusal>(())
/// ```
pub const SEATS: usize = 8;

impl<const N: usize> PrepareEffectTree<N> {
    /// Creates a tree of one entry that holds at most `limit` and has eight seats with those shares, which may sum to `limit` - 1.
    /// Every other entry is charged to the seat that [`insert_for`](Self::insert_for) or
    /// [`split_entry_for`](Self::split_entry_for) names. A seat below its share always gets its entry; one that isn't gets it while
    /// the free entries outnumber the other seats' unused shares, and is refused by 18 then. Refused by 19 where the shares sum to
    /// more.
    ///
    /// ```
    /// use smelvock::{Lengths, PrepareEffectTree, Refusal};
    ///
    /// # fn main() -> Result<(), Refusal> {
    /// let lengths = Lengths { prepare: 1, effect: 1, lines: 0 };
    /// let mut tree = PrepareEffectTree::<8>::with_shares(6, lengths, [1, 2, 0, 0, 0, 0, 0, 0])?;
    /// // six entries less the first, less the two that seat 1 has a right to
    /// for _ in 0..3 {
    ///     tree.insert_for(0, None, lengths)?;
    /// }
    /// assert_eq!(tree.insert_for(0, None, lengths), Err(Refusal::OVER));
    /// assert_eq!(tree.insert_for(1, None, lengths), Ok((4, 4)));
    /// assert_eq!(tree.insert(None, lengths), Err(Refusal::FIELD));
    /// assert_eq!(tree.charges(), Some([3, 1, 0, 0, 0, 0, 0, 0]));
    /// # Ok(())
    /// # }
    /// ```
    pub fn with_shares(limit: u32, lengths: Lengths, shares: [u32; SEATS]) -> Result<Self, Refusal> {
        Self::made(limit, lengths, &shares)
    }

    /// The shares of the seats, where the tree has any.
    ///
    /// ```
    /// # use smelvock::{Lengths, PrepareEffectTree, Refusal};
    /// # let lengths = Lengths { prepare: 2, effect: 2, lines: 0 };
    /// let tree = PrepareEffectTree::<8>::with_shares(6, lengths, [1, 2, 0, 0, 0, 0, 0, 0])?;
    /// assert_eq!(tree.shares(), Some([1, 2, 0, 0, 0, 0, 0, 0]));
    /// assert_eq!(PrepareEffectTree::<8>::new(lengths)?.shares(), None);
    /// # Ok::<(), Refusal>(())
    /// ```
    pub fn shares(&self) -> Option<[u32; SEATS]> {
        self.of_seats(word::SHARES)
    }

    /// How many entries are charged to each seat, where the tree has any.
    ///
    /// ```
    /// # use smelvock::{Lengths, PrepareEffectTree, Refusal};
    /// # let lengths = Lengths { prepare: 2, effect: 2, lines: 0 };
    /// let mut tree = PrepareEffectTree::<8>::with_shares(6, lengths, [1, 2, 0, 0, 0, 0, 0, 0])?;
    /// tree.insert_for(7, None, lengths)?;
    /// assert_eq!(tree.charges(), Some([0, 0, 0, 0, 0, 0, 0, 1]));
    /// # Ok::<(), Refusal>(())
    /// ```
    pub fn charges(&self) -> Option<[u32; SEATS]> {
        self.of_seats(word::CHARGES)
    }

    /// Eight words of the head, from that one on.
    fn of_seats(&self, from: usize) -> Option<[u32; SEATS]> {
        (self.0.head[word::SEATED] != 0).then(|| std::array::from_fn(|seat| self.0.head[from + seat]))
    }

    /// Inserts as [`insert`](Self::insert) does, in a tree with seats, and charges the entry to one of them.
    ///
    /// ```
    /// # use smelvock::{Lengths, PrepareEffectTree, Refusal};
    /// # let lengths = Lengths { prepare: 2, effect: 2, lines: 0 };
    /// let mut tree = PrepareEffectTree::<8>::with_shares(6, lengths, [1, 2, 0, 0, 0, 0, 0, 0])?;
    /// assert_eq!(tree.insert_for(1, None, lengths), Ok((1, 2)));
    /// assert_eq!(tree.insert_for(8, None, lengths), Err(Refusal::FIELD));
    /// # Ok::<(), Refusal>(())
    /// ```
    pub fn insert_for(
        &mut self,
        seat: u8,
        before: Option<Cursor>,
        lengths: Lengths,
    ) -> Result<(EntryId, u32), Refusal> {
        self.inserted(seat.into(), before, lengths)
    }

    /// Splits as [`split_entry`](Self::split_entry) does, in a tree with seats, and charges the new entry to one of them.
    ///
    /// ```
    /// # use smelvock::{Lengths, PrepareEffectTree, Refusal};
    /// # let lengths = Lengths { prepare: 2, effect: 2, lines: 0 };
    /// let mut tree = PrepareEffectTree::<8>::with_shares(6, lengths, [1, 2, 0, 0, 0, 0, 0, 0])?;
    /// let one = Lengths { prepare: 1, effect: 1, lines: 0 };
    /// let (id, _) = tree.split_entry_for(1, tree.first()?, one, false)?;
    /// assert_eq!((id, tree.charges()), (1, Some([0, 1, 0, 0, 0, 0, 0, 0])));
    /// # Ok::<(), Refusal>(())
    /// ```
    pub fn split_entry_for(
        &mut self,
        seat: u8,
        at: Cursor,
        lengths: Lengths,
        before: bool,
    ) -> Result<(EntryId, [Cursor; 2]), Refusal> {
        self.divided(seat.into(), at, lengths, before)
    }
}
