//! lib.rs's `PrepareEffectTree` over the proved calls: its names and signatures but for `add`, on areas that the tree owns, with
//! a [`Refusal`] where lib.rs panics, wraps or answers by chance; [`PlanningTree`], whose entries' lengths aren't known yet;
//! [`ReadingCopy`], which has the effect lengths alone; and [`stored`], trees as bytes.
//!
//! ```
//! use smelvock::{Lengths, PrepareEffectTree, Refusal, View};
//!
//! # fn main() -> Result<(), Refusal> {
//! let mut tree = PrepareEffectTree::<8>::new(Lengths { prepare: 3, effect: 3, lines: 1 })?;
//! let (id, position) = tree.insert(None, Lengths { prepare: 2, effect: 0, lines: 2 })?;
//! assert_eq!((id, position), (1, 3));
//! let (at, line, ..) = tree.locate(View::Lines, 2)?;
//! assert_eq!((tree.id(at)?, line), (1, 1));
//! # Ok(())
//! # }
//! ```

#![warn(missing_docs)]

mod area;
mod changing;
mod convert;
mod door;
pub mod edits;
mod entry;
mod owned;
mod paper;
mod planning;
pub mod raw;
mod reading;
mod refusal;
mod seats;
pub mod stored;

use convert::word_by_word;
pub use door::{door, door_into};
pub use entry::{Cursor, EntryId, Lengths, View};
use owned::Owned;
pub use paper::{PAGE_BYTES, PAGE_LINES};
pub use planning::{Bounds, PlanningTree};
use raw::Areas;
pub use reading::ReadingCopy;
pub use refusal::Refusal;
pub use seats::SEATS;
use std::cmp::Ordering;
use std::fmt;

/// The most entries of a tree that [`new`](PrepareEffectTree::new) makes.
///
/// ```
/// # use smelvock::{Lengths, PrepareEffectTree, Refusal, View};
/// # let lengths = |prepare, effect| Lengths { prepare, effect, lines: 1 };
/// use smelvock::LIMIT;
/// assert!(PrepareEffectTree::<8>::with_limit(LIMIT, lengths(0, 0)).is_ok());
/// assert_eq!(PrepareEffectTree::<8>::with_limit(LIMIT + 1, lengths(0, 0)), Err(Refusal::SIZE));
/// # Ok::<(), Refusal>(())
/// ```
pub const LIMIT: u32 = 65_536;

/// An order-statistic B+ tree over a sequence of entries, indexed by position in both the prepare
/// and effect versions and by line. Two are equal if their heads are, and the words in their areas as far as these hold any.
///
/// ```
/// # use smelvock::{Lengths, PrepareEffectTree, Refusal, View};
/// # let lengths = |prepare, effect| Lengths { prepare, effect, lines: 1 };
/// let mut tree = PrepareEffectTree::<8>::new(lengths(3, 3))?;
/// let (id, position) = tree.insert(None, lengths(2, 0))?;
/// assert_eq!((id, position), (1, 3));
/// let (at, offset, effect, prepare, _) = tree.locate(View::Prepare, 4)?;
/// assert_eq!((tree.id(at)?, offset, effect, prepare), (1, 1, 3, 3));
/// # Ok::<(), Refusal>(())
/// ```
#[derive(Clone, PartialEq, Eq)]
pub struct PrepareEffectTree<const N: usize = 32>(Owned<N, 4>);

impl<const N: usize> fmt::Debug for PrepareEffectTree<N> {
    fn fmt(&self, to: &mut fmt::Formatter<'_>) -> fmt::Result {
        self.0.debug("PrepareEffectTree", to)
    }
}

impl<const N: usize> PrepareEffectTree<N> {
    /// Creates a tree of one entry that holds at most [`LIMIT`].
    ///
    /// ```
    /// # use smelvock::{Lengths, PrepareEffectTree, Refusal, View};
    /// # let lengths = |prepare, effect| Lengths { prepare, effect, lines: 1 };
    /// let tree = PrepareEffectTree::<8>::new(lengths(3, 3))?;
    /// assert_eq!(tree.len(), Ok(1));
    /// assert_eq!(PrepareEffectTree::<3>::new(lengths(3, 3)), Err(Refusal::SIZE));
    /// # Ok::<(), Refusal>(())
    /// ```
    pub fn new(lengths: Lengths) -> Result<Self, Refusal> {
        Self::with_limit(LIMIT, lengths)
    }

    /// Creates a tree of one entry that holds at most `limit`.
    ///
    /// ```
    /// # use smelvock::{Lengths, PrepareEffectTree, Refusal, View};
    /// # let lengths = |prepare, effect| Lengths { prepare, effect, lines: 1 };
    /// let mut tree = PrepareEffectTree::<8>::with_limit(1, lengths(3, 3))?;
    /// assert_eq!(tree.insert(None, lengths(1, 1)), Err(Refusal::FULL));
    /// # Ok::<(), Refusal>(())
    /// ```
    pub fn with_limit(limit: u32, lengths: Lengths) -> Result<Self, Refusal> {
        Self::made(limit, lengths, &[])
    }

    fn made(limit: u32, lengths: Lengths, shares: &[u32]) -> Result<Self, Refusal> {
        let mut owned = Owned::unwritten(limit);
        let (head, areas) = owned.parts();
        let number = raw::new(Owned::<N, 4>::fan(), limit, lengths.into(), shares, head, areas);
        Refusal::unless(number, || PrepareEffectTree(owned))
    }

    /// A tree of any words: every call ends on them, and [`audit`](Self::audit) says whether they are a sound tree.
    ///
    /// ```
    /// # use smelvock::{Lengths, PrepareEffectTree, Refusal, View};
    /// # let lengths = |prepare, effect| Lengths { prepare, effect, lines: 1 };
    /// let tree = PrepareEffectTree::<8>::new(lengths(3, 3))?;
    /// let areas = tree.areas();
    /// let [mut leaves, inners, homes] = [areas.leaves, areas.inners, areas.homes].map(<[u32]>::to_vec);
    /// // areas of one node and one entry are those of limit 1; the length of entry 0 is then changed, and not the sum above it
    /// let mut head = tree.head();
    /// head[smelvock::raw::word::LIMIT] = 1;
    /// leaves[4] = 9;
    /// let stale = PrepareEffectTree::<8>::from_words(head, leaves, inners, homes);
    /// assert_eq!(stale.audit(), Ok(false));
    /// # Ok::<(), Refusal>(())
    /// ```
    pub fn from_words(head: raw::Head, leaves: Vec<u32>, inners: Vec<u32>, homes: Vec<u32>) -> Self {
        PrepareEffectTree(Owned::given(head, leaves, inners, homes))
    }

    /// The head's words, in the order of [`raw::word`].
    ///
    /// ```
    /// # use smelvock::{Lengths, PrepareEffectTree, Refusal, View};
    /// # let lengths = |prepare, effect| Lengths { prepare, effect, lines: 1 };
    /// use smelvock::raw::word;
    /// let tree = PrepareEffectTree::<8>::new(lengths(3, 3))?;
    /// assert_eq!((tree.head()[word::FAN], tree.head()[word::ENTRIES]), (8, 1));
    /// # Ok::<(), Refusal>(())
    /// ```
    pub fn head(&self) -> raw::Head {
        self.0.head
    }

    /// The words that hold a number: all of a tree of given words, those in use of any other.
    ///
    /// ```
    /// # use smelvock::{Lengths, PrepareEffectTree, Refusal, View};
    /// # let lengths = |prepare, effect| Lengths { prepare, effect, lines: 1 };
    /// let tree = PrepareEffectTree::<8>::new(lengths(3, 3))?;
    /// // a leaf: one slot in use, parent 0, at 0; then entry 0 with its lengths
    /// assert_eq!(tree.areas().leaves[..7], [1, 0, 0, 0, 3, 3, 1]);
    /// # Ok::<(), Refusal>(())
    /// ```
    pub fn areas(&self) -> Areas<'_> {
        self.0.areas()
    }

    /// The number of entries, including those of length 0: entries are never removed.
    ///
    /// ```
    /// # use smelvock::{Lengths, PrepareEffectTree, Refusal, View};
    /// # let lengths = |prepare, effect| Lengths { prepare, effect, lines: 1 };
    /// let mut tree = PrepareEffectTree::<8>::new(lengths(3, 3))?;
    /// tree.insert(None, lengths(0, 0))?;
    /// assert_eq!(tree.len(), Ok(2));
    /// # Ok::<(), Refusal>(())
    /// ```
    pub fn len(&self) -> Result<usize, Refusal> {
        let reply = raw::len(&self.0.head);
        Refusal::unless(reply.number, || reply.value as usize)
    }

    /// Always false: a tree holds at least one entry.
    ///
    /// ```
    /// # use smelvock::{Lengths, PrepareEffectTree, Refusal, View};
    /// # let lengths = |prepare, effect| Lengths { prepare, effect, lines: 1 };
    /// let tree = PrepareEffectTree::<8>::new(lengths(3, 3))?;
    /// assert_eq!(tree.is_empty(), Ok(false));
    /// # Ok::<(), Refusal>(())
    /// ```
    pub fn is_empty(&self) -> Result<bool, Refusal> {
        let reply = raw::is_empty(&self.0.head);
        Refusal::unless(reply.number, || reply.value == 1)
    }

    /// The first entry.
    ///
    /// ```
    /// # use smelvock::{Lengths, PrepareEffectTree, Refusal, View};
    /// # let lengths = |prepare, effect| Lengths { prepare, effect, lines: 1 };
    /// let mut tree = PrepareEffectTree::<8>::new(lengths(3, 3))?;
    /// let (id, _) = tree.insert(Some(tree.first()?), lengths(2, 2))?;
    /// assert_eq!(tree.id(tree.first()?), Ok(id));
    /// # Ok::<(), Refusal>(())
    /// ```
    pub fn first(&self) -> Result<Cursor, Refusal> {
        let reply = raw::first(&self.0.head, self.0.lent());
        Refusal::unless(reply.number, || word_by_word(&reply.at))
    }

    /// The entry after that one; `None` after the last.
    ///
    /// ```
    /// # use smelvock::{Lengths, PrepareEffectTree, Refusal, View};
    /// # let lengths = |prepare, effect| Lengths { prepare, effect, lines: 1 };
    /// let mut tree = PrepareEffectTree::<8>::new(lengths(3, 3))?;
    /// tree.insert(None, lengths(2, 2))?;
    /// let at = tree.next(tree.first()?)?.expect("a second entry");
    /// assert_eq!((tree.id(at), tree.next(at)), (Ok(1), Ok(None)));
    /// # Ok::<(), Refusal>(())
    /// ```
    pub fn next(&self, at: Cursor) -> Result<Option<Cursor>, Refusal> {
        let reply = raw::next(&self.0.head, self.0.lent(), at.into());
        Refusal::unless(reply.number, || Some(word_by_word(&reply.at)).filter(|at| at.leaf != raw::NONE))
    }

    /// The entry at a cursor.
    ///
    /// ```
    /// # use smelvock::{Lengths, PrepareEffectTree, Refusal, View};
    /// # let lengths = |prepare, effect| Lengths { prepare, effect, lines: 1 };
    /// let tree = PrepareEffectTree::<8>::new(lengths(3, 3))?;
    /// assert_eq!(tree.id(tree.cursor(0)?), Ok(0));
    /// # Ok::<(), Refusal>(())
    /// ```
    pub fn id(&self, at: Cursor) -> Result<EntryId, Refusal> {
        let reply = raw::id(&self.0.head, self.0.lent(), at.into());
        Refusal::unless(reply.number, || reply.value)
    }

    /// The lengths of the entry at a cursor.
    ///
    /// ```
    /// # use smelvock::{Lengths, PrepareEffectTree, Refusal, View};
    /// # let lengths = |prepare, effect| Lengths { prepare, effect, lines: 1 };
    /// let tree = PrepareEffectTree::<8>::new(lengths(3, 3))?;
    /// assert_eq!(tree.lengths(tree.cursor(0)?), Ok(lengths(3, 3)));
    /// # Ok::<(), Refusal>(())
    /// ```
    pub fn lengths(&self, at: Cursor) -> Result<Lengths, Refusal> {
        let reply = raw::lengths(&self.0.head, self.0.lent(), at.into());
        Refusal::unless(reply.number, || reply.lengths.into())
    }

    /// Where an entry stands.
    ///
    /// ```
    /// # use smelvock::{Lengths, PrepareEffectTree, Refusal, View};
    /// # let lengths = |prepare, effect| Lengths { prepare, effect, lines: 1 };
    /// let tree = PrepareEffectTree::<8>::new(lengths(3, 3))?;
    /// assert_eq!(tree.cursor(0), tree.first());
    /// assert_eq!(tree.cursor(1), Err(Refusal::ID));
    /// # Ok::<(), Refusal>(())
    /// ```
    pub fn cursor(&self, id: EntryId) -> Result<Cursor, Refusal> {
        let reply = raw::cursor(&self.0.head, self.0.lent(), id);
        Refusal::unless(reply.number, || word_by_word(&reply.at))
    }

    /// How the first entry stands to the second: less where it comes before it.
    ///
    /// ```
    /// # use smelvock::{Lengths, PrepareEffectTree, Refusal, View};
    /// # let lengths = |prepare, effect| Lengths { prepare, effect, lines: 1 };
    /// use std::cmp::Ordering;
    ///
    /// let mut tree = PrepareEffectTree::<8>::new(lengths(3, 3))?;
    /// tree.insert(Some(tree.first()?), lengths(2, 2))?;
    /// assert_eq!(tree.cmp(tree.cursor(1)?, tree.cursor(0)?), Ok(Ordering::Less));
    /// # Ok::<(), Refusal>(())
    /// ```
    pub fn cmp(&self, a: Cursor, b: Cursor) -> Result<Ordering, Refusal> {
        let reply = raw::cmp(&self.0.head, self.0.lent(), a.into(), b.into());
        Refusal::unless(reply.number, || reply.value.cmp(&1))
    }

    /// Selects the entry holding position `index` of `view`, and the offset into it; last, how many
    /// slots were examined, which lib.rs doesn't count: at most fan x (levels + 2), and at most fan
    /// where the last select ended in the leaf that holds the position.
    ///
    /// ```
    /// # use smelvock::{Lengths, PrepareEffectTree, Refusal, View};
    /// # let lengths = |prepare, effect| Lengths { prepare, effect, lines: 1 };
    /// let mut tree = PrepareEffectTree::<8>::new(lengths(3, 3))?;
    /// // a slot of the root and one of the leaf; then the finger's own slot alone
    /// assert_eq!(tree.char_index_to_entry(View::Effect, 2)?, (tree.first()?, 2, 2));
    /// assert_eq!(tree.char_index_to_entry(View::Effect, 1)?, (tree.first()?, 1, 1));
    /// assert_eq!(tree.char_index_to_entry(View::Effect, 3), Err(Refusal::POSITION));
    /// # Ok::<(), Refusal>(())
    /// ```
    pub fn char_index_to_entry(&mut self, view: View, index: u32) -> Result<(Cursor, u32, u32), Refusal> {
        let (at, offset, .., examined) = self.locate(view, index)?;
        Ok((at, offset, examined))
    }

    /// Selects as [`char_index_to_entry`](Self::char_index_to_entry) does, also returning the
    /// entry's positions in the effect and in the prepare version, of which lib.rs's has the first
    /// alone; last, how many slots were examined.
    ///
    /// ```
    /// # use smelvock::{Lengths, PrepareEffectTree, Refusal, View};
    /// # let lengths = |prepare, effect| Lengths { prepare, effect, lines: 1 };
    /// let mut tree = PrepareEffectTree::<8>::new(lengths(3, 3))?;
    /// tree.insert(None, lengths(0, 5))?;
    /// let (at, offset, effect, prepare, examined) = tree.locate(View::Effect, 4)?;
    /// assert_eq!((tree.id(at)?, offset, effect, prepare, examined), (1, 1, 3, 3, 3));
    /// # Ok::<(), Refusal>(())
    /// ```
    pub fn locate(&mut self, view: View, index: u32) -> Result<(Cursor, u32, u32, u32, u32), Refusal> {
        let (head, areas) = self.0.looked();
        let reply = raw::locate(head, areas, view as u32, index);
        Refusal::unless(reply.number, || (reply.at.into(), reply.offset, reply.position, reply.prepare, reply.examined))
    }

    /// Ranks an entry: its position in `view`.
    ///
    /// ```
    /// # use smelvock::{Lengths, PrepareEffectTree, Refusal, View};
    /// # let lengths = |prepare, effect| Lengths { prepare, effect, lines: 1 };
    /// let mut tree = PrepareEffectTree::<8>::new(lengths(3, 3))?;
    /// tree.insert(None, lengths(2, 2))?;
    /// assert_eq!(tree.entry_to_char_index(View::Prepare, tree.cursor(1)?), Ok(3));
    /// assert_eq!(tree.entry_to_char_index(View::Lines, tree.cursor(1)?), Ok(1));
    /// # Ok::<(), Refusal>(())
    /// ```
    pub fn entry_to_char_index(&self, view: View, at: Cursor) -> Result<u32, Refusal> {
        let reply = raw::entry_to_char_index(&self.0.head, self.0.lent(), view as u32, at.into());
        Refusal::unless(reply.number, || reply.value)
    }

    /// Whether the tree is sound.
    ///
    /// ```
    /// # use smelvock::{Lengths, PrepareEffectTree, Refusal, View};
    /// # let lengths = |prepare, effect| Lengths { prepare, effect, lines: 1 };
    /// let tree = PrepareEffectTree::<8>::new(lengths(3, 3))?;
    /// assert_eq!(tree.audit(), Ok(true));
    /// # Ok::<(), Refusal>(())
    /// ```
    pub fn audit(&self) -> Result<bool, Refusal> {
        let reply = raw::audit(&self.0.head, self.0.lent());
        Refusal::unless(reply.number, || reply.value == 1)
    }
}
