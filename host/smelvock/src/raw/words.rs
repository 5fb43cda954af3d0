//! Head and areas as words.

/// What a tree keeps beside its areas, as the words that the exports are lent: fan, limit, root, levels, the counts of leaves, inner
/// nodes and entries in use, 1 or 0 for a finger or none, the finger's nine words, the stamp's two, the low one first, 1 or 0 for seats
/// or none, and the seats' shares and charges.
///
/// ```
#[doc = lent!()]
/// let head: raw::Head = head;
/// assert_eq!(head[..7], [4, 5, 0, 1, 1, 1, 1]);
/// ```
pub type Head = [u32; 36];

/// Where a head has its fan, limit, root and so on.
///
/// ```
#[doc = lent!()]
/// use raw::word::*;
/// let at = [FAN, LIMIT, ROOT, LEVELS, LEAVES, INNERS, ENTRIES, PRESENT, STAMP, SEATED, SHARES, CHARGES];
/// assert_eq!(at.map(|word| head[word]), [4, 5, 0, 1, 1, 1, 1, 0, 1, 0, 0, 0]);
/// ```
pub mod word {
    /// The most children of a node.
    pub const FAN: usize = 0;
    /// The most entries.
    pub const LIMIT: usize = 1;
    /// The root's number among the inner nodes.
    pub const ROOT: usize = 2;
    /// The inner nodes on the way from the root to a leaf, the root counted.
    pub const LEVELS: usize = 3;
    /// The leaves in use.
    pub const LEAVES: usize = 4;
    /// The inner nodes in use.
    pub const INNERS: usize = 5;
    /// The entries.
    pub const ENTRIES: usize = 6;
    /// 1 where there is a finger, whose words follow.
    pub const PRESENT: usize = 7;
    /// The low word, before the high one.
    pub const STAMP: usize = 17;
    /// 1 where the tree has seats.
    pub const SEATED: usize = 19;
    /// Seat 0's, before the others'.
    pub const SHARES: usize = 20;
    /// Likewise.
    pub const CHARGES: usize = 28;
}

/// The leaf of "none" after the last entry; by id, "none" itself, and the end.
///
/// ```
#[doc = lent!()]
#[doc = read!()]
/// assert_eq!(raw::next(&head, areas, at).at.leaf, raw::NONE);
/// ```
pub const NONE: u32 = u32::MAX;

/// The seat of an insert or split that names none.
///
/// ```
#[doc = lent!()]
#[doc = written!()]
/// assert_eq!(raw::insert(&mut head, areas, NOBODY, 1, at, three).number, 0);
/// ```
pub const NOBODY: u32 = u32::MAX;

/// The three areas, lent to a call that only reads them.
///
/// ```
#[doc = lent!()]
/// let areas = Areas { leaves: &leaves, inners: &inners, homes: &homes };
/// assert_eq!(raw::audit(&head, areas).value, 1);
/// // a short area is refused by 2
/// assert_eq!(raw::audit(&head, Areas { homes: &homes[1..], ..areas }).number, 2);
/// ```
#[derive(Clone, Copy, PartialEq, Eq, Debug)]
pub struct Areas<'a, W = u32> {
    /// Of leaves.
    pub leaves: &'a [W],
    /// Of inner nodes.
    pub inners: &'a [W],
    /// The leaf of each entry.
    pub homes: &'a [W],
}

/// The three areas, lent to a call that may write them.
///
/// ```
#[doc = lent!()]
/// let areas = AreasMut { leaves: &mut leaves, inners: &mut inners, homes: &mut homes };
/// assert_eq!(raw::reset(&mut head, areas, Lengths { prepare: 7, effect: 0, lines: 0 }), 0);
/// assert_eq!(leaves[..7], [1, 0, 0, 0, 7, 0, 0]);
/// ```
pub struct AreasMut<'a, W = u32> {
    /// Of leaves.
    pub leaves: &'a mut [W],
    /// Of inner nodes.
    pub inners: &'a mut [W],
    /// The leaf of each entry.
    pub homes: &'a mut [W],
}
