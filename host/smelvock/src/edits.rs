//! Files of edits that name their forerunners (document 02, CR 5): 16-byte records with no header, whose place from 0 is the edit's
//! number. The first two little-endian u32 are an edit's parents, [`NONE`] for none, and may be equal; the rest is zero. An edit
//! rests on itself and on whatever a chain of parents leads to.
//!
//! ```
//! use smelvock::edits;
//!
//! let record = |parents: [u32; 2]| [parents[0].to_le_bytes(), parents[1].to_le_bytes(), [0; 4], [0; 4]].concat();
//! let file = [record([edits::NONE; 2]), record([0, edits::NONE]), record([0, 1])].concat();
//! assert_eq!(edits::listed(&file, 2, 0), Ok(vec![1, 2]));
//! ```

use crate::raw;
use crate::Refusal;

/// The most edits of a file, and the words that a list area needs.
///
/// ```
/// # use smelvock::{edits, Refusal};
/// # // edits by their two parents
/// # let record = |parents: [u32; 2]| [parents[0].to_le_bytes(), parents[1].to_le_bytes(), [0; 4], [0; 4]].concat();
/// let file = [record([edits::NONE; 2]), record([0, edits::NONE]), record([0, 1])].concat();
/// assert_eq!(edits::difference(&file, &mut [0; edits::MOST - 1], 2, 0), Err(Refusal::BUFFER));
/// assert_eq!(edits::check(&vec![0xFF; 16 * (edits::MOST + 1)]), Err(Refusal::EDITS));
/// ```
pub const MOST: usize = 512;

/// The parent that says that there is none.
///
/// ```
/// # use smelvock::{edits, Refusal};
/// # // edits by their two parents
/// # let record = |parents: [u32; 2]| [parents[0].to_le_bytes(), parents[1].to_le_bytes(), [0; 4], [0; 4]].concat();
/// let file = [record([edits::NONE; 2]), record([0, edits::NONE]), record([0, 1])].concat();
/// // edit 0 rests on itself alone
/// assert_eq!(edits::listed(&file, 0, 0), Ok(vec![]));
/// assert_eq!(edits::check(&record([edits::NONE, 0])), Err(Refusal::PARENT));
/// ```
pub const NONE: u32 = u32::MAX;

/// Whether a file is accepted. Refused by 11 where its length isn't a multiple of 16, by 16 where it has more than [`MOST`] edits,
/// else by its first bad record: 10 where the rest isn't zero, 15 where a parent isn't smaller than the edit.
///
/// ```
/// # use smelvock::{edits, Refusal};
/// # // edits by their two parents
/// # let record = |parents: [u32; 2]| [parents[0].to_le_bytes(), parents[1].to_le_bytes(), [0; 4], [0; 4]].concat();
/// let file = [record([edits::NONE; 2]), record([0, edits::NONE]), record([0, 1])].concat();
/// assert_eq!(edits::check(&file), Ok(()));
/// assert_eq!(edits::check(&file[1..]), Err(Refusal::RECORDS));
/// ```
pub fn check(file: &[u8]) -> Result<(), Refusal> {
    Refusal::unless(raw::edits_check(file), || ())
}

/// Lists the edits that `first` rests on and `second` doesn't, each once, in rising number, at the front of `area`, returning their
/// count; words after them stay. Refused by 11, by 12 where `area` is below [`MOST`] words, by whatever [`check`] refuses the file
/// by, and by 4 where an edit isn't in the file, with `area` as it was.
///
/// ```
/// # use smelvock::{edits, Refusal};
/// # // edits by their two parents
/// # let record = |parents: [u32; 2]| [parents[0].to_le_bytes(), parents[1].to_le_bytes(), [0; 4], [0; 4]].concat();
/// let file = [record([edits::NONE; 2]), record([0, edits::NONE]), record([0, 1])].concat();
/// let mut area = [7; edits::MOST];
/// assert_eq!(edits::difference(&file, &mut area, 2, 0), Ok(2));
/// assert_eq!(area[..3], [1, 2, 7]);
/// ```
pub fn difference(file: &[u8], area: &mut [u32], first: u32, second: u32) -> Result<usize, Refusal> {
    let reply = raw::edits_difference(file, area, first, second);
    Refusal::unless(reply.number, || reply.value as usize)
}

/// The same list with an area of its own.
///
/// ```
/// # use smelvock::{edits, Refusal};
/// # // edits by their two parents
/// # let record = |parents: [u32; 2]| [parents[0].to_le_bytes(), parents[1].to_le_bytes(), [0; 4], [0; 4]].concat();
/// let file = [record([edits::NONE; 2]), record([0, edits::NONE]), record([0, 1])].concat();
/// assert_eq!(edits::listed(&file, 2, 1), Ok(vec![2]));
/// assert_eq!(edits::listed(&file, 3, 1), Err(Refusal::ID));
/// ```
pub fn listed(file: &[u8], first: u32, second: u32) -> Result<Vec<u32>, Refusal> {
    let mut area = vec![0; MOST];
    let count = difference(file, &mut area, first, second)?;
    area.truncate(count);
    Ok(area)
}
