//! The reading copy (document 02, CR 12): the effect lengths alone, for a screen that shows the effect version.

use crate::owned::Owned;
use crate::raw::{self, reading, Areas};
use crate::{EntryId, Refusal, LIMIT};
use std::cmp::Ordering;
use std::fmt;

/// An order-statistic B+ tree over a sequence of entries with one length each, by id. Given the calls of a
/// [`PrepareEffectTree`](crate::PrepareEffectTree) with their effect lengths, it answers as that tree does in the effect view, as long as
/// no call is refused there on account of another length and none here by 17. Two are equal if their heads are, and the words in their
/// areas as far as these hold any.
///
/// ```
/// use smelvock::{Lengths, PrepareEffectTree, ReadingCopy, Refusal, View};
///
/// # fn main() -> Result<(), Refusal> {
/// let lengths = |prepare, effect| Lengths { prepare, effect, lines: 0 };
/// let mut tree = PrepareEffectTree::<8>::new(lengths(3, 3))?;
/// let mut copy = ReadingCopy::<8>::new(3)?;
/// // an entry that was deleted: it has no length in the effect version
/// assert_eq!(tree.insert(None, lengths(2, 0))?, copy.insert(None, 0)?);
/// assert_eq!(tree.insert(None, lengths(0, 5))?, copy.insert(None, 5)?);
/// let (at, offset, position, ..) = tree.locate(View::Effect, 4)?;
/// assert_eq!(copy.lookup(4)?, (tree.id(at)?, offset, position));
/// // refused there on account of the prepare length: here the effect length is taken
/// assert_eq!(tree.insert(None, lengths(u32::MAX, 1)), Err(Refusal::TOTAL));
/// assert_eq!(copy.insert(None, 1), Ok((3, 8)));
/// # Ok(())
/// # }
/// ```
#[derive(Clone, PartialEq, Eq)]
pub struct ReadingCopy<const N: usize = 32>(Owned<N, 2>);

impl<const N: usize> fmt::Debug for ReadingCopy<N> {
    fn fmt(&self, to: &mut fmt::Formatter<'_>) -> fmt::Result {
        self.0.debug("ReadingCopy", to)
    }
}

impl<const N: usize> ReadingCopy<N> {
    /// Creates a tree of one entry, id 0, that holds at most [`LIMIT`].
    ///
    /// ```
    /// # use smelvock::{ReadingCopy, Refusal};
    /// let copy = ReadingCopy::<8>::new(3)?;
    /// assert_eq!((copy.rank(0), copy.next(0)), (Ok(0), Ok(None)));
    /// # Ok::<(), Refusal>(())
    /// ```
    pub fn new(length: u32) -> Result<Self, Refusal> {
        Self::with_limit(LIMIT, length)
    }

    /// Creates a tree of one entry that holds at most `limit`.
    ///
    /// ```
    /// # use smelvock::{ReadingCopy, Refusal};
    /// let mut copy = ReadingCopy::<8>::with_limit(1, 3)?;
    /// assert_eq!(copy.insert(None, 1), Err(Refusal::FULL));
    /// # Ok::<(), Refusal>(())
    /// ```
    pub fn with_limit(limit: u32, length: u32) -> Result<Self, Refusal> {
        let mut owned = Owned::unwritten(limit);
        let (head, areas) = owned.parts();
        let number = reading::new(Owned::<N, 2>::fan(), limit, length, head, areas);
        Refusal::unless(number, || ReadingCopy(owned))
    }

    /// A tree of any words: every call ends on them.
    ///
    /// ```
    /// # use smelvock::{ReadingCopy, Refusal};
    /// let copy = ReadingCopy::<8>::new(3)?;
    /// let areas = copy.areas();
    /// let [leaves, inners, homes] = [areas.leaves, areas.inners, areas.homes].map(<[u32]>::to_vec);
    /// // areas of one node and one entry are those of limit 1
    /// let mut head = copy.head();
    /// head[smelvock::raw::word::LIMIT] = 1;
    /// let mut again = ReadingCopy::<8>::from_words(head, leaves, inners, homes);
    /// assert_eq!(again.lookup(2), Ok((0, 2, 0)));
    /// # Ok::<(), Refusal>(())
    /// ```
    pub fn from_words(head: raw::Head, leaves: Vec<u32>, inners: Vec<u32>, homes: Vec<u32>) -> Self {
        ReadingCopy(Owned::given(head, leaves, inners, homes))
    }

    /// The head's words, in the order of [`raw::word`]; it has no seats.
    ///
    /// ```
    /// # use smelvock::{ReadingCopy, Refusal};
    /// use smelvock::raw::word;
    /// let copy = ReadingCopy::<8>::new(3)?;
    /// assert_eq!((copy.head()[word::FAN], copy.head()[word::ENTRIES]), (8, 1));
    /// # Ok::<(), Refusal>(())
    /// ```
    pub fn head(&self) -> raw::Head {
        self.0.head
    }

    /// The words that hold a number: all of a tree of given words, those in use of any other.
    ///
    /// ```
    /// # use smelvock::{ReadingCopy, Refusal};
    /// let copy = ReadingCopy::<8>::new(3)?;
    /// // a leaf: one slot in use, parent 0, at 0; then entry 0 with its length
    /// assert_eq!(copy.areas().leaves[..5], [1, 0, 0, 0, 3]);
    /// # Ok::<(), Refusal>(())
    /// ```
    pub fn areas(&self) -> Areas<'_> {
        self.0.areas()
    }

    /// Makes this a tree of one entry again, reusing its memory.
    ///
    /// ```
    /// # use smelvock::{ReadingCopy, Refusal};
    /// let mut copy = ReadingCopy::<8>::new(3)?;
    /// copy.insert(None, 5)?;
    /// copy.reset(7)?;
    /// assert_eq!((copy.next(0), copy.lookup(6)), (Ok(None), Ok((0, 6, 0))));
    /// # Ok::<(), Refusal>(())
    /// ```
    pub fn reset(&mut self, length: u32) -> Result<(), Refusal> {
        let (head, areas) = self.0.parts();
        let number = reading::reset(head, areas, length);
        Refusal::unless(number, || ())
    }

    /// Inserts an entry before `before`, or at the end for `None`, returning its id and its position.
    ///
    /// ```
    /// # use smelvock::{ReadingCopy, Refusal};
    /// let mut copy = ReadingCopy::<8>::new(3)?;
    /// assert_eq!(copy.insert(None, 5), Ok((1, 3)));
    /// assert_eq!(copy.insert(Some(0), 2), Ok((2, 0)));
    /// assert_eq!(copy.insert(Some(9), 2), Err(Refusal::ID));
    /// # Ok::<(), Refusal>(())
    /// ```
    pub fn insert(&mut self, before: Option<EntryId>, length: u32) -> Result<(EntryId, u32), Refusal> {
        let (head, areas) = self.0.parts();
        let reply = reading::insert(head, areas, before.unwrap_or(raw::NONE), length);
        Refusal::unless(reply.number, || (reply.id, reply.position))
    }

    /// Moves `length` out of the entry `id` into a new entry just before it if `before`, else just after, returning the new id. Refused
    /// by 17 where one of the two would have no length: a full tree may take that split, if another length is parted.
    ///
    /// ```
    /// # use smelvock::{ReadingCopy, Refusal};
    /// # fn main() -> Result<(), Refusal> {
    /// let mut copy = ReadingCopy::<8>::new(3)?;
    /// let id = copy.split(0, 1, true)?;
    /// assert_eq!((copy.next(id), copy.rank(0)), (Ok(Some(0)), Ok(1)));
    /// assert_eq!(copy.split(0, 2, true), Err(Refusal::HOLLOW));
    /// # Ok(())
    /// # }
    /// ```
    pub fn split(&mut self, id: EntryId, length: u32, before: bool) -> Result<EntryId, Refusal> {
        let (head, areas) = self.0.parts();
        let reply = reading::split(head, areas, id, length, before as u32);
        Refusal::unless(reply.number, || reply.value)
    }

    /// Gives an entry another length.
    ///
    /// ```
    /// # use smelvock::{ReadingCopy, Refusal};
    /// let mut copy = ReadingCopy::<8>::new(3)?;
    /// copy.insert(None, 5)?;
    /// copy.set(0, 4)?;
    /// assert_eq!(copy.rank(1), Ok(4));
    /// # Ok::<(), Refusal>(())
    /// ```
    pub fn set(&mut self, id: EntryId, length: u32) -> Result<(), Refusal> {
        let (head, areas) = self.0.parts();
        let number = reading::set(head, areas, id, length);
        Refusal::unless(number, || ())
    }

    /// The entry that holds position `index`, the offset into it, and the entry's own position. An entry of length 0 is never found.
    ///
    /// ```
    /// # use smelvock::{ReadingCopy, Refusal};
    /// let mut copy = ReadingCopy::<8>::new(3)?;
    /// copy.insert(None, 5)?;
    /// assert_eq!(copy.lookup(4), Ok((1, 1, 3)));
    /// assert_eq!(copy.lookup(8), Err(Refusal::POSITION));
    /// # Ok::<(), Refusal>(())
    /// ```
    pub fn lookup(&mut self, index: u32) -> Result<(EntryId, u32, u32), Refusal> {
        let (head, areas) = self.0.looked();
        let reply = reading::lookup(head, areas, index);
        Refusal::unless(reply.number, || (reply.id, reply.offset, reply.position))
    }

    /// The position of an entry: the lengths before it.
    ///
    /// ```
    /// # use smelvock::{ReadingCopy, Refusal};
    /// let mut copy = ReadingCopy::<8>::new(3)?;
    /// copy.insert(None, 5)?;
    /// assert_eq!((copy.rank(0), copy.rank(1)), (Ok(0), Ok(3)));
    /// # Ok::<(), Refusal>(())
    /// ```
    pub fn rank(&self, id: EntryId) -> Result<u32, Refusal> {
        let reply = reading::rank(&self.0.head, self.0.lent(), id);
        Refusal::unless(reply.number, || reply.value)
    }

    /// The entry after `id`; `None` after the last.
    ///
    /// ```
    /// # use smelvock::{ReadingCopy, Refusal};
    /// let mut copy = ReadingCopy::<8>::new(3)?;
    /// copy.insert(None, 5)?;
    /// assert_eq!((copy.next(0), copy.next(1)), (Ok(Some(1)), Ok(None)));
    /// # Ok::<(), Refusal>(())
    /// ```
    pub fn next(&self, id: EntryId) -> Result<Option<EntryId>, Refusal> {
        let reply = reading::next(&self.0.head, self.0.lent(), id);
        Refusal::unless(reply.number, || Some(reply.value).filter(|&id| id != raw::NONE))
    }

    /// How the entry `a` stands to the entry `b`: less where it comes before it.
    ///
    /// ```
    /// # use smelvock::{ReadingCopy, Refusal};
    /// use std::cmp::Ordering;
    ///
    /// let mut copy = ReadingCopy::<8>::new(3)?;
    /// copy.insert(Some(0), 5)?;
    /// assert_eq!(copy.compare(1, 0), Ok(Ordering::Less));
    /// # Ok::<(), Refusal>(())
    /// ```
    pub fn compare(&self, a: EntryId, b: EntryId) -> Result<Ordering, Refusal> {
        let reply = reading::compare(&self.0.head, self.0.lent(), a, b);
        Refusal::unless(reply.number, || reply.value.cmp(&1))
    }
}
