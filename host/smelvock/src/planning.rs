//! The planning tree (document 02, CR 11): entries whose length isn't known yet, each with a lowest and a highest one.

use crate::owned::Owned;
use crate::raw::{self, planning, Areas};
use crate::{EntryId, Refusal, LIMIT};
use std::fmt;

/// The least and the greatest length that an entry may turn out to have. Where the lowest is above the highest a call is refused by 20.
///
/// ```
/// # use smelvock::{Bounds, PlanningTree, Refusal};
/// # let code = Bounds { lowest: 4, highest: 8 };
/// let plan = PlanningTree::<8>::new(Bounds { lowest: 4, highest: 8 })?;
/// assert_eq!(plan.lengths(0), Ok(code));
/// # Ok::<(), Refusal>(())
/// ```
#[derive(Clone, Copy, PartialEq, Eq, Debug, Default)]
pub struct Bounds {
    /// The least.
    pub lowest: u32,
    /// The greatest.
    pub highest: u32,
}

/// An order-statistic B+ tree over a sequence of entries with bounds, by id: where an entry can stand, and which entries could hold a
/// position, under whichever choice of a length within its bounds for each entry. It has no line ends and no seats. Two are equal if
/// their heads are, and the words in their areas as far as these hold any.
///
/// ```
/// use smelvock::{Bounds, PlanningTree, Refusal};
///
/// # fn main() -> Result<(), Refusal> {
/// // "Room ", a room code of 4 to 8 characters, a line feed
/// let exactly = |length| Bounds { lowest: length, highest: length };
/// let mut plan = PlanningTree::<8>::new(exactly(5))?;
/// let (code, latest) = plan.insert(None, Bounds { lowest: 4, highest: 8 })?;
/// assert_eq!((code, latest), (1, 5));
/// let (end, _) = plan.insert(None, exactly(1))?;
/// assert_eq!((plan.earliest(end)?, plan.latest(end)?), (9, 13));
/// assert_eq!((plan.first_at(8)?, plan.last_at(8)?), (code, code));
/// assert_eq!((plan.first_at(9)?, plan.last_at(9)?), (code, end));
/// assert_eq!((plan.first_at(13)?, plan.last_at(13)?), (end, end));
/// assert_eq!(plan.first_at(14), Err(Refusal::POSITION));
/// // ROOMS.DAT is loaded: the code is B2.017
/// plan.set(code, exactly(6))?;
/// assert_eq!((plan.earliest(end)?, plan.latest(end)?), (11, 11));
/// # Ok(())
/// # }
/// ```
#[derive(Clone, PartialEq, Eq)]
pub struct PlanningTree<const N: usize = 32>(Owned<N, 3>);

impl<const N: usize> fmt::Debug for PlanningTree<N> {
    fn fmt(&self, to: &mut fmt::Formatter<'_>) -> fmt::Result {
        self.0.debug("PlanningTree", to)
    }
}

impl<const N: usize> PlanningTree<N> {
    /// Creates a tree of one entry, id 0, that holds at most [`LIMIT`].
    ///
    /// ```
    /// # use smelvock::{Bounds, PlanningTree, Refusal};
    /// # let code = Bounds { lowest: 4, highest: 8 };
    /// let plan = PlanningTree::<8>::new(code)?;
    /// assert_eq!(plan.count(), Ok(1));
    /// # Ok::<(), Refusal>(())
    /// ```
    pub fn new(bounds: Bounds) -> Result<Self, Refusal> {
        Self::with_limit(LIMIT, bounds)
    }

    /// Creates a tree of one entry that holds at most `limit`.
    ///
    /// ```
    /// # use smelvock::{Bounds, PlanningTree, Refusal};
    /// let crossed = Bounds { lowest: 8, highest: 4 };
    /// assert_eq!(PlanningTree::<8>::with_limit(100, crossed), Err(Refusal::BOUNDS));
    /// assert_eq!(PlanningTree::<3>::with_limit(100, crossed), Err(Refusal::SIZE));
    /// ```
    pub fn with_limit(limit: u32, bounds: Bounds) -> Result<Self, Refusal> {
        let mut owned = Owned::unwritten(limit);
        let (head, areas) = owned.parts();
        let number = planning::new(Owned::<N, 3>::fan(), limit, bounds.lowest, bounds.highest, head, areas);
        Refusal::unless(number, || PlanningTree(owned))
    }

    /// A tree of any words: every call ends on them, and [`audit`](Self::audit) says whether they are a sound tree.
    ///
    /// ```
    /// # use smelvock::{Bounds, PlanningTree, Refusal};
    /// # let code = Bounds { lowest: 4, highest: 8 };
    /// let plan = PlanningTree::<8>::new(code)?;
    /// let areas = plan.areas();
    /// let [mut leaves, inners, homes] = [areas.leaves, areas.inners, areas.homes].map(<[u32]>::to_vec);
    /// // areas of one node and one entry are those of limit 1; the lowest length is then put above the highest
    /// let mut head = plan.head();
    /// head[smelvock::raw::word::LIMIT] = 1;
    /// leaves[4] = 9;
    /// assert_eq!(PlanningTree::<8>::from_words(head, leaves, inners, homes).audit(), Ok(false));
    /// # Ok::<(), Refusal>(())
    /// ```
    pub fn from_words(head: raw::Head, leaves: Vec<u32>, inners: Vec<u32>, homes: Vec<u32>) -> Self {
        PlanningTree(Owned::given(head, leaves, inners, homes))
    }

    /// The head's words, in the order of [`raw::word`]; it has no seats.
    ///
    /// ```
    /// # use smelvock::{Bounds, PlanningTree, Refusal};
    /// # let code = Bounds { lowest: 4, highest: 8 };
    /// use smelvock::raw::word;
    /// let plan = PlanningTree::<8>::new(code)?;
    /// assert_eq!((plan.head()[word::FAN], plan.head()[word::ENTRIES]), (8, 1));
    /// # Ok::<(), Refusal>(())
    /// ```
    pub fn head(&self) -> raw::Head {
        self.0.head
    }

    /// The words that hold a number: all of a tree of given words, those in use of any other.
    ///
    /// ```
    /// # use smelvock::{Bounds, PlanningTree, Refusal};
    /// # let code = Bounds { lowest: 4, highest: 8 };
    /// let plan = PlanningTree::<8>::new(code)?;
    /// // a leaf: one slot in use, parent 0, at 0; then entry 0 with its bounds
    /// assert_eq!(plan.areas().leaves[..6], [1, 0, 0, 0, 4, 8]);
    /// # Ok::<(), Refusal>(())
    /// ```
    pub fn areas(&self) -> Areas<'_> {
        self.0.areas()
    }

    /// Makes this a tree of one entry again, reusing its memory.
    ///
    /// ```
    /// # use smelvock::{Bounds, PlanningTree, Refusal};
    /// # let code = Bounds { lowest: 4, highest: 8 };
    /// let mut plan = PlanningTree::<8>::new(code)?;
    /// plan.insert(None, code)?;
    /// plan.reset(code)?;
    /// assert_eq!(plan.count(), Ok(1));
    /// # Ok::<(), Refusal>(())
    /// ```
    pub fn reset(&mut self, bounds: Bounds) -> Result<(), Refusal> {
        let (head, areas) = self.0.parts();
        let number = planning::reset(head, areas, bounds.lowest, bounds.highest);
        Refusal::unless(number, || ())
    }

    /// Inserts an entry before `before`, or at the end for `None`, returning its id and its latest position.
    ///
    /// ```
    /// # use smelvock::{Bounds, PlanningTree, Refusal};
    /// # fn main() -> Result<(), Refusal> {
    /// let code = Bounds { lowest: 4, highest: 8 };
    /// let mut plan = PlanningTree::<8>::new(code)?;
    /// assert_eq!(plan.insert(None, code), Ok((1, 8)));
    /// assert_eq!(plan.insert(Some(0), code), Ok((2, 0)));
    /// assert_eq!(plan.insert(Some(3), code), Err(Refusal::ID));
    /// # Ok(())
    /// # }
    /// ```
    pub fn insert(&mut self, before: Option<EntryId>, bounds: Bounds) -> Result<(EntryId, u32), Refusal> {
        let (head, areas) = self.0.parts();
        let reply = planning::insert(head, areas, before.unwrap_or(raw::NONE), bounds.lowest, bounds.highest);
        Refusal::unless(reply.number, || (reply.id, reply.position))
    }

    /// Moves `bounds` out of the entry `id` into a new entry just before it if `before`, else just after, returning the new id: the
    /// lowest and the highest length of the two add up to the entry's own. Refused by 17 where one of the two would have 0 for both,
    /// and by 20 where the lowest would be above the highest in one of the two.
    ///
    /// ```
    /// # use smelvock::{Bounds, PlanningTree, Refusal};
    /// # fn main() -> Result<(), Refusal> {
    /// let mut plan = PlanningTree::<8>::new(Bounds { lowest: 4, highest: 8 })?;
    /// let id = plan.split(0, Bounds { lowest: 1, highest: 3 }, true)?;
    /// assert_eq!(plan.lengths(0), Ok(Bounds { lowest: 3, highest: 5 }));
    /// assert_eq!((plan.next(id), plan.latest(0)), (Ok(Some(0)), Ok(3)));
    /// // lowest 3 and highest 2 would be left
    /// assert_eq!(plan.split(0, Bounds { lowest: 0, highest: 3 }, true), Err(Refusal::BOUNDS));
    /// # Ok(())
    /// # }
    /// ```
    pub fn split(&mut self, id: EntryId, bounds: Bounds, before: bool) -> Result<EntryId, Refusal> {
        let (head, areas) = self.0.parts();
        let reply = planning::split(head, areas, id, bounds.lowest, bounds.highest, before as u32);
        Refusal::unless(reply.number, || reply.value)
    }

    /// Gives an entry other bounds.
    ///
    /// ```
    /// # use smelvock::{Bounds, PlanningTree, Refusal};
    /// # let code = Bounds { lowest: 4, highest: 8 };
    /// let mut plan = PlanningTree::<8>::new(code)?;
    /// plan.set(0, Bounds { lowest: 6, highest: 6 })?;
    /// assert_eq!(plan.lengths(0), Ok(Bounds { lowest: 6, highest: 6 }));
    /// assert_eq!(plan.set(0, Bounds { lowest: 7, highest: 6 }), Err(Refusal::BOUNDS));
    /// # Ok::<(), Refusal>(())
    /// ```
    pub fn set(&mut self, id: EntryId, bounds: Bounds) -> Result<(), Refusal> {
        let (head, areas) = self.0.parts();
        let number = planning::set(head, areas, id, bounds.lowest, bounds.highest);
        Refusal::unless(number, || ())
    }

    /// An entry's bounds.
    ///
    /// ```
    /// # use smelvock::{Bounds, PlanningTree, Refusal};
    /// # let code = Bounds { lowest: 4, highest: 8 };
    /// let plan = PlanningTree::<8>::new(code)?;
    /// assert_eq!((plan.lengths(0), plan.lengths(1)), (Ok(code), Err(Refusal::ID)));
    /// # Ok::<(), Refusal>(())
    /// ```
    pub fn lengths(&self, id: EntryId) -> Result<Bounds, Refusal> {
        let planning::Bounds { number, lowest, highest } = planning::lengths(&self.0.head, self.0.lent(), id);
        Refusal::unless(number, || Bounds { lowest, highest })
    }

    /// The number of entries, including those that can have no length: entries are never removed.
    ///
    /// ```
    /// # use smelvock::{Bounds, PlanningTree, Refusal};
    /// # let code = Bounds { lowest: 4, highest: 8 };
    /// let mut plan = PlanningTree::<8>::new(code)?;
    /// plan.insert(None, code)?;
    /// assert_eq!(plan.count(), Ok(2));
    /// # Ok::<(), Refusal>(())
    /// ```
    pub fn count(&self) -> Result<usize, Refusal> {
        let reply = planning::count(&self.0.head, self.0.lent());
        Refusal::unless(reply.number, || reply.value as usize)
    }

    /// The entry after `id`; `None` after the last.
    ///
    /// ```
    /// # use smelvock::{Bounds, PlanningTree, Refusal};
    /// # let code = Bounds { lowest: 4, highest: 8 };
    /// let mut plan = PlanningTree::<8>::new(code)?;
    /// plan.insert(None, code)?;
    /// assert_eq!((plan.next(0), plan.next(1)), (Ok(Some(1)), Ok(None)));
    /// # Ok::<(), Refusal>(())
    /// ```
    pub fn next(&self, id: EntryId) -> Result<Option<EntryId>, Refusal> {
        let reply = planning::next(&self.0.head, self.0.lent(), id);
        Refusal::unless(reply.number, || Some(reply.value).filter(|&id| id != raw::NONE))
    }

    /// The least position at which the entry can stand: where all before it are as short as they may be.
    ///
    /// ```
    /// # use smelvock::{Bounds, PlanningTree, Refusal};
    /// # let code = Bounds { lowest: 4, highest: 8 };
    /// let mut plan = PlanningTree::<8>::new(code)?;
    /// plan.insert(None, code)?;
    /// assert_eq!(plan.earliest(1), Ok(4));
    /// # Ok::<(), Refusal>(())
    /// ```
    pub fn earliest(&self, id: EntryId) -> Result<u32, Refusal> {
        let reply = planning::earliest(&self.0.head, self.0.lent(), id);
        Refusal::unless(reply.number, || reply.value)
    }

    /// The greatest position at which the entry can stand.
    ///
    /// ```
    /// # use smelvock::{Bounds, PlanningTree, Refusal};
    /// # let code = Bounds { lowest: 4, highest: 8 };
    /// let mut plan = PlanningTree::<8>::new(code)?;
    /// plan.insert(None, code)?;
    /// assert_eq!(plan.latest(1), Ok(8));
    /// # Ok::<(), Refusal>(())
    /// ```
    pub fn latest(&self, id: EntryId) -> Result<u32, Refusal> {
        let reply = planning::latest(&self.0.head, self.0.lent(), id);
        Refusal::unless(reply.number, || reply.value)
    }

    /// The first entry that could hold `position`: under some choice of lengths the sum before it is at or below the position, and with
    /// its own length above it. Refused by 5 at or past the highest total, where none could.
    ///
    /// ```
    /// # use smelvock::{Bounds, PlanningTree, Refusal};
    /// # let code = Bounds { lowest: 4, highest: 8 };
    /// let mut plan = PlanningTree::<8>::new(code)?;
    /// plan.insert(None, code)?;
    /// assert_eq!((plan.first_at(7), plan.first_at(8)), (Ok(0), Ok(1)));
    /// assert_eq!(plan.first_at(16), Err(Refusal::POSITION));
    /// # Ok::<(), Refusal>(())
    /// ```
    pub fn first_at(&mut self, position: u32) -> Result<EntryId, Refusal> {
        let (head, areas) = self.0.looked();
        let reply = planning::first_at(head, areas, position);
        Refusal::unless(reply.number, || reply.value)
    }

    /// The last entry that could hold `position`. An entry whose highest length is 0 is never answered.
    ///
    /// ```
    /// # use smelvock::{Bounds, PlanningTree, Refusal};
    /// # fn main() -> Result<(), Refusal> {
    /// let mut plan = PlanningTree::<8>::new(Bounds { lowest: 0, highest: 4 })?;
    /// plan.insert(None, Bounds { lowest: 2, highest: 2 })?;
    /// plan.insert(None, Bounds { lowest: 0, highest: 0 })?;
    /// // entry 0 may be empty, and then entry 1 holds positions 0 and 1
    /// assert_eq!((plan.first_at(0)?, plan.last_at(0)?), (0, 1));
    /// assert_eq!((plan.first_at(5)?, plan.last_at(5)?), (1, 1));
    /// assert_eq!(plan.last_at(6), Err(Refusal::POSITION));
    /// # Ok(())
    /// # }
    /// ```
    pub fn last_at(&mut self, position: u32) -> Result<EntryId, Refusal> {
        let (head, areas) = self.0.looked();
        let reply = planning::last_at(head, areas, position);
        Refusal::unless(reply.number, || reply.value)
    }

    /// Whether the tree is sound.
    ///
    /// ```
    /// # use smelvock::{Bounds, PlanningTree, Refusal};
    /// # let code = Bounds { lowest: 4, highest: 8 };
    /// let plan = PlanningTree::<8>::new(code)?;
    /// assert_eq!(plan.audit(), Ok(true));
    /// # Ok::<(), Refusal>(())
    /// ```
    pub fn audit(&self) -> Result<bool, Refusal> {
        let reply = planning::audit(&self.0.head, self.0.lent());
        Refusal::unless(reply.number, || reply.value == 1)
    }
}
