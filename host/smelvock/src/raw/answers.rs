//! Cursors, lengths and answers as they cross the C boundary. An answer is 0 or the number of a refusal, then the values, zeros where
//! the call was refused.

/// An entry's place.
///
/// ```
#[doc = lent!()]
#[doc = read!()]
/// assert_eq!(raw::first(&head, areas).at, Cursor { leaf: 0, slot: 0, stamp: 1 });
/// ```
#[repr(C)]
#[derive(Clone, Copy, PartialEq, Eq, Debug, Default)]
pub struct Cursor {
    /// The leaf's number.
    pub leaf: u32,
    /// The slot in the leaf.
    pub slot: u32,
    /// How many entries the tree had made when the cursor was issued.
    pub stamp: u64,
}

/// An entry's lengths.
///
/// ```
#[doc = lent!()]
#[doc = written!()]
/// let lengths = Lengths { lines: 65_536, ..three };
/// assert_eq!(raw::set_lengths(&mut head, areas, at, lengths), 10);
/// ```
#[repr(C)]
#[derive(Clone, Copy, PartialEq, Eq, Debug, Default)]
pub struct Lengths {
    /// In the prepare version.
    pub prepare: u32,
    /// In the effect version.
    pub effect: u32,
    /// Visible line ends, 65,535 at most.
    pub lines: u32,
}

/// One value.
///
/// ```
#[doc = lent!()]
/// let raw::Number { number, value } = raw::len(&head);
/// assert_eq!((number, value), (0, 1));
/// ```
#[repr(C)]
#[derive(Clone, Copy, PartialEq, Eq, Debug)]
pub struct Number {
    /// 0, or the number of a refusal; the values are zeros then.
    pub number: u32,
    /// What the call answers.
    pub value: u32,
}

/// Lengths.
///
/// ```
#[doc = lent!()]
#[doc = read!()]
/// let raw::Measured { number, lengths } = raw::lengths(&head, areas, at);
/// assert_eq!((number, lengths), (0, three));
/// ```
#[repr(C)]
#[derive(Clone, Copy, PartialEq, Eq, Debug)]
pub struct Measured {
    /// 0, or the number of a refusal; the values are zeros then.
    pub number: u32,
    /// The entry's.
    pub lengths: Lengths,
}

/// A cursor.
///
/// ```
#[doc = lent!()]
#[doc = read!()]
/// let raw::Standing { number, at: found } = raw::cursor(&head, areas, 0);
/// assert_eq!((number, found), (0, at));
/// ```
#[repr(C)]
#[derive(Clone, Copy, PartialEq, Eq, Debug)]
pub struct Standing {
    /// 0, or the number of a refusal; the values are zeros then.
    pub number: u32,
    /// The entry's.
    pub at: Cursor,
}

/// The entry that holds a position.
///
/// ```
#[doc = lent!()]
#[doc = read!()]
/// let raw::Selected { number, at: found, offset, examined } = raw::char_index_to_entry(&mut head, areas, 0, 2);
/// assert_eq!((number, found, offset, examined), (0, at, 2, 2));
/// ```
#[repr(C)]
#[derive(Clone, Copy, PartialEq, Eq, Debug)]
pub struct Selected {
    /// 0, or the number of a refusal; the values are zeros then.
    pub number: u32,
    /// The entry's.
    pub at: Cursor,
    /// How far into the entry the position is.
    pub offset: u32,
    /// How many slots the lookup examined.
    pub examined: u32,
}

/// The same with its positions.
///
/// ```
#[doc = lent!()]
#[doc = read!()]
/// let found = raw::locate(&mut head, areas, 0, 2);
/// assert_eq!((found.at, found.offset, found.position, found.prepare, found.examined), (at, 2, 0, 0, 2));
/// ```
#[repr(C)]
#[derive(Clone, Copy, PartialEq, Eq, Debug)]
pub struct Located {
    /// 0, or the number of a refusal; the values are zeros then.
    pub number: u32,
    /// The entry's.
    pub at: Cursor,
    /// How far into the entry the position is.
    pub offset: u32,
    /// The entry's own in the effect version.
    pub position: u32,
    /// The entry's own in the prepare version.
    pub prepare: u32,
    /// How many slots the lookup examined.
    pub examined: u32,
}

/// A new entry.
///
/// ```
#[doc = lent!()]
#[doc = written!()]
/// let made = raw::insert(&mut head, areas, NOBODY, 0, at, three);
/// assert_eq!((made.number, made.id, made.position), (0, 1, 0));
/// ```
#[repr(C)]
#[derive(Clone, Copy, PartialEq, Eq, Debug)]
pub struct Inserted {
    /// 0, or the number of a refusal; the values are zeros then.
    pub number: u32,
    /// Its id.
    pub id: u32,
    /// Its effect position.
    pub position: u32,
}

/// A new entry and the one out of which it came.
///
/// ```
#[doc = lent!()]
#[doc = written!()]
/// let one = Lengths { prepare: 1, effect: 1, lines: 0 };
/// let made = raw::split_entry(&mut head, areas, NOBODY, at, one, 0);
/// assert_eq!((made.id, made.first.slot, made.second.slot, made.second.stamp), (1, 0, 1, 2));
/// ```
#[repr(C)]
#[derive(Clone, Copy, PartialEq, Eq, Debug)]
pub struct Divided {
    /// 0, or the number of a refusal; the values are zeros then.
    pub number: u32,
    /// The new one's id.
    pub id: u32,
    /// The one that comes first.
    pub first: Cursor,
    /// The one after it.
    pub second: Cursor,
}
