//! Entries: their ids, lengths and places.

/// An entry's permanent id, numbered from 0 in creation order.
///
/// ```
/// # use smelvock::{Lengths, PrepareEffectTree, Refusal, View};
/// # let lengths = |prepare, effect| Lengths { prepare, effect, lines: 1 };
/// let mut tree = PrepareEffectTree::<8>::new(lengths(3, 3))?;
/// let (id, _) = tree.insert(None, lengths(2, 2))?;
/// let first: smelvock::EntryId = 0;
/// assert_eq!(id, first + 1);
/// # Ok::<(), Refusal>(())
/// ```
pub type EntryId = u32;

/// What a length or position is measured in: the characters of either version, or visible line ends.
///
/// ```
/// # use smelvock::{Lengths, PrepareEffectTree, Refusal, View};
/// # let lengths = |prepare, effect| Lengths { prepare, effect, lines: 1 };
/// let mut tree = PrepareEffectTree::<8>::new(lengths(3, 0))?;
/// tree.insert(None, lengths(2, 5))?;
/// let at = tree.cursor(1)?;
/// let mut found = |view, index| tree.locate(view, index).map(|(at, ..)| at);
/// assert_eq!(found(View::Prepare, 3), Ok(at));
/// assert_eq!(found(View::Effect, 0), Ok(at));
/// assert_eq!(found(View::Lines, 1), Ok(at));
/// # Ok::<(), Refusal>(())
/// ```
#[derive(Clone, Copy, PartialEq, Eq, Debug)]
pub enum View {
    /// The characters of the prepare version.
    Prepare,
    /// The characters of the effect version.
    Effect,
    /// Visible line ends.
    Lines,
}

/// An entry's visible length in the prepare and effect versions, and its visible line ends, of which it has 65,535 at most.
///
/// ```
/// # use smelvock::{Lengths, PrepareEffectTree, Refusal, View};
/// # let lengths = |prepare, effect| Lengths { prepare, effect, lines: 1 };
/// // written, then deleted: it has no length in the effect version
/// let deleted = Lengths { prepare: 4, effect: 0, lines: 0 };
/// let tree = PrepareEffectTree::<8>::new(deleted)?;
/// assert_eq!(tree.lengths(tree.first()?), Ok(deleted));
/// # Ok::<(), Refusal>(())
/// ```
#[derive(Clone, Copy, PartialEq, Eq, Debug, Default)]
pub struct Lengths {
    /// Characters in the prepare version.
    pub prepare: u32,
    /// Characters in the effect version.
    pub effect: u32,
    /// Visible line ends.
    pub lines: u32,
}

/// An entry's place in the tree, current until the next insertion, split or reset.
///
/// ```
/// # use smelvock::{Lengths, PrepareEffectTree, Refusal, View};
/// # let lengths = |prepare, effect| Lengths { prepare, effect, lines: 1 };
/// let mut tree = PrepareEffectTree::<8>::new(lengths(3, 3))?;
/// let at = tree.cursor(0)?;
/// assert_eq!(tree.id(at), Ok(0));
/// tree.insert(None, lengths(2, 2))?;
/// assert_eq!(tree.id(at), Err(Refusal::STAMP));
/// # Ok::<(), Refusal>(())
/// ```
#[derive(Clone, Copy, PartialEq, Eq, Debug)]
pub struct Cursor {
    pub(crate) leaf: u32,
    pub(crate) slot: u32,
    /// How many entries the tree had made when the cursor was issued, from `new` on and over every reset. It goes round at 2^64.
    pub(crate) stamp: u64,
}
