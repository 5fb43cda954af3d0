//! The exports themselves, on words: crates/smelvock declares each with its contract, crates/smelvock_planning those in [`planning`] and
//! crates/smelvock_reading those in [`reading`]. Every function here takes any words for head and areas, however many, and any number for
//! a view or a flag.
//!
//! ```
//! use smelvock::raw::{self, AreasMut, Lengths};
//!
//! // fan 4 and limit 5: two nodes of 3 + 4 × 4 words in each area of nodes
//! let (mut head, mut leaves, mut inners, mut homes) = ([0; 36], [0; 38], [0; 38], [0; 5]);
//! let areas = AreasMut { leaves: &mut leaves, inners: &mut inners, homes: &mut homes };
//! assert_eq!(raw::new(4, 5, Lengths { prepare: 3, effect: 3, lines: 1 }, &[], &mut head, areas), 0);
//! assert_eq!(raw::len(&head).value, 1);
//! ```

#[macro_use]
mod examples;
mod answers;
mod bytes;
mod words;

use crate::area::Word;
pub use answers::{Cursor, Divided, Inserted, Lengths, Located, Measured, Number, Selected, Standing};
pub use bytes::{edits_check, edits_difference, print};
pub use words::{word, Areas, AreasMut, Head, NOBODY, NONE};

/// Declares exports with the kinds of pointers to head and areas that they are lent, each with a safe function over it.
macro_rules! exports {
    ($module:ident: $areas:ident, $head:ty, $head_ptr:ident, $head_kind:ty, $area_ptr:ident, $area_kind:ty;
     $($(#[$doc:meta])* $vis:vis $name:ident as $export:ident($($before:ident: $kind_before:ty),*; $($after:ident: $kind_after:ty),*) -> $reply:ty;)*) => {
        mod $module {
            use super::*;
            unsafe extern "C" {
                $(pub fn $export(
                    $($before: $kind_before,)*
                    head: $head_kind, head_words: usize,
                    leaves: $area_kind, leaf_words: usize,
                    inners: $area_kind, inner_words: usize,
                    homes: $area_kind, home_words: usize,
                    $($after: $kind_after),*
                ) -> $reply;)*
            }
        }
        $($(#[$doc])*
        #[inline]
        $vis fn $name<W: Word>($($before: $kind_before,)* head: $head, areas: $areas<'_, W>, $($after: $kind_after),*) -> $reply {
            let $areas { leaves, inners, homes } = areas;
            // SAFETY: the export is proved to read these words, and to write those lent for that, and no others, whatever they hold.
            // A tree's own areas may have words that weren't written yet; of these a call reads none.
            unsafe {
                $module::$export(
                    $($before,)*
                    head.$head_ptr(), head.len(),
                    leaves.$area_ptr().cast(), leaves.len(),
                    inners.$area_ptr().cast(), inners.len(),
                    homes.$area_ptr().cast(), homes.len(),
                    $($after),*
                )
            }
        })*
    };
}

pub mod planning;
pub mod reading;

exports! {
    asking: Areas, &[u32], as_ptr, *const u32, as_ptr, *const u32;
    id_words as smelvock_id_words(; leaf: u32, slot: u32, stamp: u64) -> Number;
    lengths_words as smelvock_lengths_words(; leaf: u32, slot: u32, stamp: u64) -> Measured;
    /// Where an entry stands.
    ///
    /// ```
    #[doc = lent!()]
    #[doc = read!()]
    /// assert_eq!(raw::cursor(&head, areas, 0).at, at);
    /// assert_eq!(raw::cursor(&head, areas, 1).number, 4);
    /// ```
    pub cursor as smelvock_cursor(; id: u32) -> Standing;
    entry_to_char_index_words as smelvock_entry_to_char_index_words(; view: u32, leaf: u32, slot: u32, stamp: u64) -> Number;
    /// Where the first entry stands.
    ///
    /// ```
    #[doc = lent!()]
    #[doc = read!()]
    /// assert_eq!(raw::first(&head, areas).at, at);
    /// ```
    pub first as smelvock_first(;) -> Standing;
    next_words as smelvock_next_words(; leaf: u32, slot: u32, stamp: u64) -> Standing;
    cmp_words as smelvock_cmp_words(; leaf: u32, slot: u32, stamp: u64, other_leaf: u32, other_slot: u32, other_stamp: u64) -> Number;
    /// 1 where the tree is sound.
    ///
    /// ```
    #[doc = lent!()]
    #[doc = read!()]
    /// assert_eq!(raw::audit(&head, areas).value, 1);
    /// ```
    pub audit as smelvock_audit(;) -> Number;
}

exports! {
    looking: Areas, &mut [u32], as_mut_ptr, *mut u32, as_ptr, *const u32;
    /// The entry that holds a position of a view: 0 prepare, 1 effect, 2 line ends.
    ///
    /// ```
    #[doc = lent!()]
    #[doc = read!()]
    /// let found = raw::locate(&mut head, areas, 1, 2);
    /// assert_eq!((found.at, found.offset, found.position, found.prepare), (at, 2, 0, 0));
    /// assert_eq!(raw::locate(&mut head, areas, 3, 0).number, 10);
    /// ```
    pub locate as smelvock_locate(; view: u32, index: u32) -> Located;
}

exports! {
    changing: AreasMut, &mut [u32], as_mut_ptr, *mut u32, as_mut_ptr, *mut u32;
    reset_words as smelvock_reset_words(; prepare: u32, effect: u32, lines: u32) -> u32;
    insert_words as smelvock_insert_words(; seat: u32, end: u32, leaf: u32, slot: u32, stamp: u64, prepare: u32, effect: u32, lines: u32) -> Inserted;
    split_entry_words as smelvock_split_entry_words(; seat: u32, leaf: u32, slot: u32, stamp: u64, prepare: u32, effect: u32, lines: u32, before: u32) -> Divided;
    /// Puts the tree right, and answers how many words of its areas were others.
    ///
    /// ```
    #[doc = lent!()]
    /// // a stale sum: the prepare length of the root's first slot
    /// inners[4] = 7;
    #[doc = written!()]
    /// assert_eq!(raw::repair(&mut head, areas).value, 1);
    /// assert_eq!(inners[4], 3);
    /// ```
    pub repair as smelvock_repair(;) -> Number;
    resize as smelvock_resize(; leaf: u32, slot: u32, stamp: u64, prepare: u32, effect: u32, lines: u32, summed: u32) -> Number;
}

/// A tree's calls with cursors and lengths as structs, as the header has them: the exports take their numbers one by one, since a
/// struct that is handed over by value goes through memory.
macro_rules! calls {
    ($($(#[$doc:meta])* $name:ident($head:ty, $areas:ident; $($given:ident: $kind:ty),*) -> $reply:ty = $export:ident($($word:expr),*);)*) => {
        $($(#[$doc])*
        #[inline(always)]
        pub fn $name<W: Word>(head: $head, areas: $areas<'_, W>, $($given: $kind),*) -> $reply {
            $export(head, areas, $($word),*)
        })*
    };
}

calls! {
    /// The entry at a cursor.
    ///
    /// ```
    #[doc = lent!()]
    #[doc = read!()]
    /// let old = Cursor { stamp: 0, ..at };
    /// assert_eq!((raw::id(&head, areas, at).value, raw::id(&head, areas, old).number), (0, 3));
    /// ```
    id(&[u32], Areas; at: Cursor) -> Number = id_words(at.leaf, at.slot, at.stamp);
    /// The lengths of the entry at a cursor.
    ///
    /// ```
    #[doc = lent!()]
    #[doc = read!()]
    /// assert_eq!(raw::lengths(&head, areas, at).lengths, three);
    /// ```
    lengths(&[u32], Areas; at: Cursor) -> Measured = lengths_words(at.leaf, at.slot, at.stamp);
    /// An entry's position in a view.
    ///
    /// ```
    #[doc = lent!()]
    #[doc = read!()]
    /// assert_eq!(raw::entry_to_char_index(&head, areas, 2, at).value, 0);
    /// ```
    entry_to_char_index(&[u32], Areas; view: u32, at: Cursor) -> Number = entry_to_char_index_words(view, at.leaf, at.slot, at.stamp);
    /// Where the next entry stands; leaf [`NONE`] after the last.
    ///
    /// ```
    #[doc = lent!()]
    #[doc = read!()]
    /// assert_eq!(raw::next(&head, areas, at).at.leaf, raw::NONE);
    /// ```
    next(&[u32], Areas; at: Cursor) -> Standing = next_words(at.leaf, at.slot, at.stamp);
    /// 0, 1 or 2: the first entry stands before, is, stands after the second.
    ///
    /// ```
    #[doc = lent!()]
    #[doc = read!()]
    /// assert_eq!(raw::cmp(&head, areas, at, at).value, 1);
    /// ```
    cmp(&[u32], Areas; a: Cursor, b: Cursor) -> Number = cmp_words(a.leaf, a.slot, a.stamp, b.leaf, b.slot, b.stamp);
    /// Makes this a tree of one entry again.
    ///
    /// ```
    #[doc = lent!()]
    #[doc = written!()]
    /// assert_eq!(raw::reset(&mut head, areas, three), 0);
    /// assert_eq!(head[raw::word::STAMP], 2);
    /// ```
    reset(&mut [u32], AreasMut; lengths: Lengths) -> u32 = reset_words(lengths.prepare, lengths.effect, lengths.lines);
    /// Inserts an entry at the end where `end` is 1, else before a cursor.
    ///
    /// ```
    #[doc = lent!()]
    #[doc = written!()]
    /// let made = raw::insert(&mut head, areas, NOBODY, 1, Cursor::default(), three);
    /// assert_eq!((made.number, made.id, made.position), (0, 1, 3));
    /// ```
    insert(&mut [u32], AreasMut; seat: u32, end: u32, before: Cursor, lengths: Lengths) -> Inserted =
        insert_words(seat, end, before.leaf, before.slot, before.stamp, lengths.prepare, lengths.effect, lengths.lines);
    /// Moves lengths into a new entry, just before the old one where `before` is 1.
    ///
    /// ```
    #[doc = lent!()]
    #[doc = written!()]
    /// let one = Lengths { prepare: 1, effect: 1, lines: 0 };
    /// let made = raw::split_entry(&mut head, areas, NOBODY, at, one, 1);
    /// assert_eq!((made.id, made.first.slot, made.second.slot), (1, 0, 1));
    /// ```
    split_entry(&mut [u32], AreasMut; seat: u32, at: Cursor, lengths: Lengths, before: u32) -> Divided =
        split_entry_words(seat, at.leaf, at.slot, at.stamp, lengths.prepare, lengths.effect, lengths.lines, before);
    /// Sets an entry's lengths, and answers its effect position.
    ///
    /// ```
    #[doc = lent!()]
    #[doc = written!()]
    /// assert_eq!(raw::update(&mut head, areas, at, Lengths::default()).value, 0);
    /// ```
    update(&mut [u32], AreasMut; at: Cursor, lengths: Lengths) -> Number =
        resize(at.leaf, at.slot, at.stamp, lengths.prepare, lengths.effect, lengths.lines, 1);
}

mod making {
    unsafe extern "C" {
        pub fn smelvock_new_words(
            fan: u32,
            limit: u32,
            prepare: u32,
            effect: u32,
            lines: u32,
            shares: *const u32,
            share_words: usize,
            head: *mut u32,
            head_words: usize,
            leaves: *mut u32,
            leaf_words: usize,
            inners: *mut u32,
            inner_words: usize,
            homes: *mut u32,
            home_words: usize,
        ) -> u32;
    }
}

/// Makes a tree whose seats have those eight shares, or one without seats where there are none.
///
/// ```
#[doc = lent!()]
#[doc = written!()]
/// assert_eq!(raw::new(4, 5, three, &[1, 2, 0, 0, 0, 0, 0, 0], &mut head, areas), 0);
/// assert_eq!((head[raw::word::SEATED], head[raw::word::SHARES + 1]), (1, 2));
/// ```
#[inline]
pub fn new<W: Word>(
    fan: u32,
    limit: u32,
    lengths: Lengths,
    shares: &[u32],
    head: &mut [u32],
    areas: AreasMut<'_, W>,
) -> u32 {
    let AreasMut { leaves, inners, homes } = areas;
    // SAFETY: the export is proved to read the shares, to write head and areas, and to touch no other words, whatever they hold. Of
    // areas that weren't written yet it reads none.
    unsafe {
        making::smelvock_new_words(
            fan,
            limit,
            lengths.prepare,
            lengths.effect,
            lengths.lines,
            shares.as_ptr(),
            shares.len(),
            head.as_mut_ptr(),
            head.len(),
            leaves.as_mut_ptr().cast(),
            leaves.len(),
            inners.as_mut_ptr().cast(),
            inners.len(),
            homes.as_mut_ptr().cast(),
            homes.len(),
        )
    }
}

/// Sets an entry's lengths.
///
/// ```
#[doc = lent!()]
#[doc = written!()]
/// assert_eq!(raw::set_lengths(&mut head, areas, at, Lengths::default()), 0);
/// ```
#[inline(always)]
pub fn set_lengths<W: Word>(head: &mut [u32], areas: AreasMut<'_, W>, at: Cursor, lengths: Lengths) -> u32 {
    resize(head, areas, at.leaf, at.slot, at.stamp, lengths.prepare, lengths.effect, lengths.lines, 0).number
}

/// [`locate`] less the positions.
///
/// ```
#[doc = lent!()]
#[doc = read!()]
/// let found = raw::char_index_to_entry(&mut head, areas, 1, 2);
/// assert_eq!((found.at, found.offset), (at, 2));
/// ```
#[inline(always)]
pub fn char_index_to_entry<W: Word>(head: &mut [u32], areas: Areas<'_, W>, view: u32, index: u32) -> Selected {
    let Located { number, at, offset, examined, .. } = locate(head, areas, view, index);
    Selected { number, at, offset, examined }
}

mod heads {
    use super::Number;
    unsafe extern "C" {
        pub fn smelvock_len(head: *const u32, head_words: usize) -> Number;
        pub fn smelvock_is_empty(head: *const u32, head_words: usize) -> Number;
    }
}

/// How many entries there are.
///
/// ```
#[doc = lent!()]
/// assert_eq!(raw::len(&head).value, 1);
/// ```
#[inline]
pub fn len(head: &[u32]) -> Number {
    // SAFETY: the export is proved to read these words and nothing else, whatever they hold.
    unsafe { heads::smelvock_len(head.as_ptr(), head.len()) }
}

/// 1 where there are none: never.
///
/// ```
#[doc = lent!()]
/// assert_eq!(raw::is_empty(&head).value, 0);
/// ```
#[inline]
pub fn is_empty(head: &[u32]) -> Number {
    // SAFETY: as above.
    unsafe { heads::smelvock_is_empty(head.as_ptr(), head.len()) }
}
