//! The exports of crates/smelvock_reading: the reading copy's. Its head has the words of the full tree's, with no seats.
//!
//! ```
//! use smelvock::raw::{reading, AreasMut};
//!
//! let (mut head, mut leaves, mut inners, mut homes) = ([0; 36], [0; 22], [0; 22], [0; 5]);
//! let areas = AreasMut { leaves: &mut leaves, inners: &mut inners, homes: &mut homes };
//! assert_eq!(reading::new(4, 5, 3, &mut head, areas), 0);
//! ```

use super::{Areas, AreasMut, Inserted, Number, Word};

/// Of an example: a reading copy of fan 4, limit 5 and one entry of length 3.
macro_rules! copied {
    () => {
        "# use smelvock::raw::{reading, Areas, AreasMut};
# let (mut head, mut leaves, mut inners, mut homes) = ([0; 36], [0; 22], [0; 22], [0; 5]);
# let areas = AreasMut { leaves: &mut leaves, inners: &mut inners, homes: &mut homes };
# assert_eq!(reading::new(4, 5, 3, &mut head, areas), 0);"
    };
}

/// The entry that holds a position.
///
/// ```
#[doc = copied!()]
#[doc = read!()]
/// let reading::Looked { number, id, offset, position } = reading::lookup(&mut head, areas, 1);
/// assert_eq!((number, id, offset, position), (0, 0, 1, 0));
/// ```
#[repr(C)]
#[derive(Clone, Copy, PartialEq, Eq, Debug)]
pub struct Looked {
    /// 0, or the number of a refusal; the values are zeros then.
    pub number: u32,
    /// The entry.
    pub id: u32,
    /// How far into the entry the position is.
    pub offset: u32,
    /// The entry's own position.
    pub position: u32,
}

exports! {
    asking: Areas, &[u32], as_ptr, *const u32, as_ptr, *const u32;
    /// An entry's position.
    ///
    /// ```
    #[doc = copied!()]
    #[doc = read!()]
    /// assert_eq!(reading::rank(&head, areas, 0).value, 0);
    /// ```
    pub rank as smelvock_read_rank(; id: u32) -> Number;
    /// The entry after that one, or [`NONE`](super::NONE).
    ///
    /// ```
    #[doc = copied!()]
    #[doc = read!()]
    /// assert_eq!(reading::next(&head, areas, 0).value, smelvock::raw::NONE);
    /// ```
    pub next as smelvock_read_next(; id: u32) -> Number;
    /// 0, 1 or 2: the first entry stands before, is, stands after the second.
    ///
    /// ```
    #[doc = copied!()]
    #[doc = read!()]
    /// assert_eq!(reading::compare(&head, areas, 0, 0).value, 1);
    /// ```
    pub compare as smelvock_read_compare(; id: u32, other: u32) -> Number;
}

exports! {
    looking: Areas, &mut [u32], as_mut_ptr, *mut u32, as_ptr, *const u32;
    /// The entry that holds a position.
    ///
    /// ```
    #[doc = copied!()]
    #[doc = read!()]
    /// let found = reading::lookup(&mut head, areas, 2);
    /// assert_eq!((found.id, found.offset, found.position), (0, 2, 0));
    /// ```
    pub lookup as smelvock_read_lookup(; index: u32) -> Looked;
}

exports! {
    changing: AreasMut, &mut [u32], as_mut_ptr, *mut u32, as_mut_ptr, *mut u32;
    /// Makes a tree of one entry.
    ///
    /// ```
    #[doc = copied!()]
    #[doc = written!()]
    /// assert_eq!(reading::new(3, 5, 3, &mut head, areas), 1);
    /// ```
    pub new as smelvock_read_new(fan: u32, limit: u32, length: u32;) -> u32;
    /// Makes this a tree of one entry again.
    ///
    /// ```
    #[doc = copied!()]
    #[doc = written!()]
    /// assert_eq!(reading::reset(&mut head, areas, 7), 0);
    /// ```
    pub reset as smelvock_read_reset(; length: u32) -> u32;
    /// Inserts an entry before that one, or at the end for [`NONE`](super::NONE).
    ///
    /// ```
    #[doc = copied!()]
    #[doc = written!()]
    /// let made = reading::insert(&mut head, areas, smelvock::raw::NONE, 1);
    /// assert_eq!((made.number, made.id, made.position), (0, 1, 3));
    /// ```
    pub insert as smelvock_read_insert(; id: u32, length: u32) -> Inserted;
    /// Moves a length into a new entry, just before the old one where `before` is 1.
    ///
    /// ```
    #[doc = copied!()]
    #[doc = written!()]
    /// assert_eq!(reading::split(&mut head, areas, 0, 1, 1).value, 1);
    /// ```
    pub split as smelvock_read_split(; id: u32, length: u32, before: u32) -> Number;
    /// Sets an entry's length.
    ///
    /// ```
    #[doc = copied!()]
    #[doc = written!()]
    /// assert_eq!(reading::set(&mut head, areas, 0, 6), 0);
    /// ```
    pub set as smelvock_read_set(; id: u32, length: u32) -> u32;
}
