//! The exports of crates/smelvock_planning: the planning tree's. Its head has the words of the full tree's, with no seats.
//!
//! ```
//! use smelvock::raw::{planning, AreasMut};
//!
//! let (mut head, mut leaves, mut inners, mut homes) = ([0; 36], [0; 30], [0; 30], [0; 5]);
//! let areas = AreasMut { leaves: &mut leaves, inners: &mut inners, homes: &mut homes };
//! assert_eq!(planning::new(4, 5, 4, 8, &mut head, areas), 0);
//! ```

use super::{Areas, AreasMut, Inserted, Number, Word};

/// Of an example: a planning tree of fan 4, limit 5 and one entry of lowest length 4 and highest 8.
macro_rules! plan {
    () => {
        "# use smelvock::raw::{planning, Areas, AreasMut};
# let (mut head, mut leaves, mut inners, mut homes) = ([0; 36], [0; 30], [0; 30], [0; 5]);
# let areas = AreasMut { leaves: &mut leaves, inners: &mut inners, homes: &mut homes };
# assert_eq!(planning::new(4, 5, 4, 8, &mut head, areas), 0);"
    };
}

/// An entry's bounds.
///
/// ```
#[doc = plan!()]
#[doc = read!()]
/// let planning::Bounds { number, lowest, highest } = planning::lengths(&head, areas, 0);
/// assert_eq!((number, lowest, highest), (0, 4, 8));
/// ```
#[repr(C)]
#[derive(Clone, Copy, PartialEq, Eq, Debug)]
pub struct Bounds {
    /// 0, or the number of a refusal; the values are zeros then.
    pub number: u32,
    /// The least length.
    pub lowest: u32,
    /// The greatest length.
    pub highest: u32,
}

exports! {
    reading: Areas, &[u32], as_ptr, *const u32, as_ptr, *const u32;
    /// An entry's bounds.
    ///
    /// ```
    #[doc = plan!()]
    #[doc = read!()]
    /// let planning::Bounds { number, lowest, highest } = planning::lengths(&head, areas, 0);
    /// assert_eq!((number, lowest, highest), (0, 4, 8));
    /// ```
    pub lengths as smelvock_plan_lengths(; id: u32) -> Bounds;
    /// How many entries there are.
    ///
    /// ```
    #[doc = plan!()]
    #[doc = read!()]
    /// assert_eq!(planning::count(&head, areas).value, 1);
    /// ```
    pub count as smelvock_plan_count(;) -> Number;
    /// The entry after that one, or [`NONE`](super::NONE).
    ///
    /// ```
    #[doc = plan!()]
    #[doc = read!()]
    /// assert_eq!(planning::next(&head, areas, 0).value, smelvock::raw::NONE);
    /// ```
    pub next as smelvock_plan_next(; id: u32) -> Number;
    /// The least position of an entry.
    ///
    /// ```
    #[doc = plan!()]
    #[doc = read!()]
    /// assert_eq!(planning::earliest(&head, areas, 0).value, 0);
    /// ```
    pub earliest as smelvock_plan_earliest(; id: u32) -> Number;
    /// The greatest position of an entry.
    ///
    /// ```
    #[doc = plan!()]
    #[doc = read!()]
    /// assert_eq!(planning::latest(&head, areas, 0).value, 0);
    /// ```
    pub latest as smelvock_plan_latest(; id: u32) -> Number;
    /// 1 where the tree is sound.
    ///
    /// ```
    #[doc = plan!()]
    #[doc = read!()]
    /// assert_eq!(planning::audit(&head, areas).value, 1);
    /// ```
    pub audit as smelvock_plan_audit(;) -> Number;
}

exports! {
    looking: Areas, &mut [u32], as_mut_ptr, *mut u32, as_ptr, *const u32;
    /// The first entry that could hold a position.
    ///
    /// ```
    #[doc = plan!()]
    #[doc = read!()]
    /// assert_eq!(planning::first_at(&mut head, areas, 7).value, 0);
    /// assert_eq!(planning::first_at(&mut head, areas, 8).number, 5);
    /// ```
    pub first_at as smelvock_plan_first_at(; position: u32) -> Number;
    /// The last entry that could hold a position.
    ///
    /// ```
    #[doc = plan!()]
    #[doc = read!()]
    /// assert_eq!(planning::last_at(&mut head, areas, 7).value, 0);
    /// ```
    pub last_at as smelvock_plan_last_at(; position: u32) -> Number;
}

exports! {
    changing: AreasMut, &mut [u32], as_mut_ptr, *mut u32, as_mut_ptr, *mut u32;
    /// Makes a tree of one entry.
    ///
    /// ```
    #[doc = plan!()]
    #[doc = written!()]
    /// assert_eq!(planning::new(4, 5, 8, 4, &mut head, areas), 20);
    /// ```
    pub new as smelvock_plan_new(fan: u32, limit: u32, lowest: u32, highest: u32;) -> u32;
    /// Makes this a tree of one entry again.
    ///
    /// ```
    #[doc = plan!()]
    #[doc = written!()]
    /// assert_eq!(planning::reset(&mut head, areas, 1, 2), 0);
    /// ```
    pub reset as smelvock_plan_reset(; lowest: u32, highest: u32) -> u32;
    /// Inserts an entry before that one, or at the end for [`NONE`](super::NONE).
    ///
    /// ```
    #[doc = plan!()]
    #[doc = written!()]
    /// let made = planning::insert(&mut head, areas, smelvock::raw::NONE, 1, 1);
    /// assert_eq!((made.number, made.id, made.position), (0, 1, 8));
    /// ```
    pub insert as smelvock_plan_insert(; id: u32, lowest: u32, highest: u32) -> Inserted;
    /// Moves bounds into a new entry, just before the old one where `before` is 1.
    ///
    /// ```
    #[doc = plan!()]
    #[doc = written!()]
    /// assert_eq!(planning::split(&mut head, areas, 0, 1, 3, 1).value, 1);
    /// ```
    pub split as smelvock_plan_split(; id: u32, lowest: u32, highest: u32, before: u32) -> Number;
    /// Sets an entry's bounds.
    ///
    /// ```
    #[doc = plan!()]
    #[doc = written!()]
    /// assert_eq!(planning::set(&mut head, areas, 0, 6, 6), 0);
    /// ```
    pub set as smelvock_plan_set(; id: u32, lowest: u32, highest: u32) -> u32;
}
