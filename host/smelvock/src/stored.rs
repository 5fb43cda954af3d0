//! A tree as bytes, in a file or a pipe, and put right where an old release or a bad disk left it unsound (document 02, CR 13).
//!
//! A stored tree is a row of little-endian u32 words: the eight bytes of [`MAGIC`], [`VERSION`], how many words leaves, inner nodes and
//! homes have, the [`HEAD_WORDS`] words of the head, then the words of leaves, inner nodes and homes. Nothing stands behind them.
//!
//! ```
//! use smelvock::{Lengths, PrepareEffectTree};
//!
//! # fn main() -> Result<(), Box<dyn std::error::Error>> {
//! let tree = PrepareEffectTree::<8>::new(Lengths { prepare: 3, effect: 3, lines: 1 })?;
//! let again = PrepareEffectTree::<8>::from_bytes(&tree.to_bytes())?;
//! assert_eq!(again.audit(), Ok(true));
//! # Ok(())
//! # }
//! ```

use crate::raw::{self, AreasMut};
use crate::{PrepareEffectTree, Refusal};
use std::cmp::Ordering;
use std::{error, fmt};

/// What a stored tree begins with.
///
/// ```
/// # use smelvock::stored::{Malformed, Stored, HEAD_WORDS, MAGIC, VERSION};
/// # use smelvock::{Lengths, PrepareEffectTree};
/// let tree = PrepareEffectTree::<4>::with_limit(9, Lengths { prepare: 3, effect: 3, lines: 1 })?;
/// let file = tree.to_bytes();
/// assert!(file.starts_with(&MAGIC));
/// # Ok::<(), Box<dyn std::error::Error>>(())
/// ```
pub const MAGIC: [u8; 8] = *b"SMELVOCK";

/// The format's only version so far; it stands behind [`MAGIC`].
///
/// ```
/// # use smelvock::stored::{Malformed, Stored, HEAD_WORDS, MAGIC, VERSION};
/// # use smelvock::{Lengths, PrepareEffectTree};
/// let tree = PrepareEffectTree::<4>::with_limit(9, Lengths { prepare: 3, effect: 3, lines: 1 })?;
/// let file = tree.to_bytes();
/// assert_eq!(file[8..12], VERSION.to_le_bytes());
/// # Ok::<(), Box<dyn std::error::Error>>(())
/// ```
pub const VERSION: u32 = 1;

/// The words of a head.
///
/// ```
/// # use smelvock::stored::{Malformed, Stored, HEAD_WORDS, MAGIC, VERSION};
/// # use smelvock::{Lengths, PrepareEffectTree};
/// let tree = PrepareEffectTree::<4>::with_limit(9, Lengths { prepare: 3, effect: 3, lines: 1 })?;
/// let file = tree.to_bytes();
/// assert_eq!(tree.head().len(), HEAD_WORDS);
/// assert_eq!(file.len(), 4 * (6 + HEAD_WORDS + 4 * 19 + 4 * 19 + 9));
/// # Ok::<(), Box<dyn std::error::Error>>(())
/// ```
pub const HEAD_WORDS: usize = 36;

/// The bytes before the head: magic, version and three counts.
const PREFACE: usize = 24;

/// Why bytes are no stored tree.
///
/// ```
/// # use smelvock::stored::{Malformed, Stored, HEAD_WORDS, MAGIC, VERSION};
/// # use smelvock::{Lengths, PrepareEffectTree};
/// let tree = PrepareEffectTree::<4>::with_limit(9, Lengths { prepare: 3, effect: 3, lines: 1 })?;
/// let file = tree.to_bytes();
/// assert_eq!(Stored::from_bytes(b"SMALLER!").unwrap_err(), Malformed::Magic);
/// let long = [&file[..], &[0]].concat();
/// let why = Stored::from_bytes(&long).unwrap_err().to_string();
/// assert_eq!(why, format!("too long: {} bytes, where {} are wanted", long.len(), file.len()));
/// # Ok::<(), Box<dyn std::error::Error>>(())
/// ```
#[derive(Clone, Copy, PartialEq, Eq, Debug)]
pub enum Malformed {
    /// They don't begin with [`MAGIC`].
    Magic,
    /// Another version than [`VERSION`] stands behind it.
    Version(u32),
    /// There are fewer bytes than head and counts ask for.
    Short {
        /// There are.
        bytes: u64,
        /// Head and counts ask for.
        wanted: u64,
    },
    /// There are more.
    Long {
        /// There are.
        bytes: u64,
        /// Head and counts ask for.
        wanted: u64,
    },
}

impl fmt::Display for Malformed {
    fn fmt(&self, to: &mut fmt::Formatter<'_>) -> fmt::Result {
        match self {
            Malformed::Magic => write!(to, "no stored tree: it doesn't begin with SMELVOCK"),
            Malformed::Version(version) => write!(to, "a stored tree of version {version}, where {VERSION} is known"),
            Malformed::Short { bytes, wanted } => write!(to, "cut off: {bytes} bytes of {wanted}"),
            Malformed::Long { bytes, wanted } => write!(to, "too long: {bytes} bytes, where {wanted} are wanted"),
        }
    }
}

impl error::Error for Malformed {}

/// The words of a stored tree, of any fan, sound or not.
///
/// ```
/// use smelvock::stored::Stored;
/// use smelvock::{Lengths, PrepareEffectTree, Refusal, View};
///
/// # fn main() -> Result<(), Box<dyn std::error::Error>> {
/// let mut tree = PrepareEffectTree::<4>::with_limit(9, Lengths { prepare: 3, effect: 3, lines: 1 })?;
/// tree.insert(None, Lengths { prepare: 2, effect: 0, lines: 2 })?;
/// let file = tree.to_bytes();
///
/// // an old release wrote a stale sum: the effect length of the root's first slot
/// let mut stored = Stored::from_bytes(&file)?;
/// stored.inners[5] = 99;
/// assert_eq!(stored.repair()?, 1);
/// assert_eq!(stored.to_bytes(), file);
///
/// // an entry that is there twice: no sound tree has it
/// stored.leaves[3] = 1;
/// assert_eq!(stored.repair(), Err(Refusal::UNSOUND));
///
/// let mut tree = PrepareEffectTree::<4>::from_bytes(&file)?;
/// assert_eq!(tree.locate(View::Prepare, 4)?.2, 3);
/// # Ok(())
/// # }
/// ```
#[derive(Clone, PartialEq, Eq, Debug)]
pub struct Stored {
    /// The head's words.
    pub head: raw::Head,
    /// The leaves' words.
    pub leaves: Vec<u32>,
    /// The inner nodes' words.
    pub inners: Vec<u32>,
    /// The leaf of each entry.
    pub homes: Vec<u32>,
}

impl Stored {
    /// Any words in the right form are taken: [`repair`](Stored::repair), or a tree's `audit`, says what they are worth.
    ///
    /// ```
    /// # use smelvock::stored::{Malformed, Stored, HEAD_WORDS, MAGIC, VERSION};
    /// # use smelvock::{Lengths, PrepareEffectTree};
    /// let tree = PrepareEffectTree::<4>::with_limit(9, Lengths { prepare: 3, effect: 3, lines: 1 })?;
    /// let file = tree.to_bytes();
    /// assert_eq!(Stored::from_bytes(&file)?.head, tree.head());
    /// let wanted = file.len() as u64;
    /// assert_eq!(Stored::from_bytes(&file[1..]), Err(Malformed::Magic));
    /// assert_eq!(Stored::from_bytes(&file[..9]), Err(Malformed::Short { bytes: 9, wanted: 168 }));
    /// assert_eq!(wanted, 168 + 4 * (4 * 19 + 4 * 19 + 9));
    /// # Ok::<(), Box<dyn std::error::Error>>(())
    /// ```
    pub fn from_bytes(bytes: &[u8]) -> Result<Stored, Malformed> {
        let counts = counts(bytes)?;
        let mut words = bytes[PREFACE..].as_chunks().0.iter().copied().map(u32::from_le_bytes);
        let mut next = |count: usize| words.by_ref().take(count).collect::<Vec<_>>();
        let head = next(HEAD_WORDS).try_into().expect("the length was tested");
        let [leaves, inners, homes] = counts.map(|count| next(count as usize));
        Ok(Stored { head, leaves, inners, homes })
    }

    /// The bytes of a stored tree.
    ///
    /// # Panics
    /// If an area has 4,294,967,296 words or more; a tree needs no more than 1.6 million.
    ///
    /// ```
    /// # use smelvock::stored::{Malformed, Stored, HEAD_WORDS, MAGIC, VERSION};
    /// # use smelvock::{Lengths, PrepareEffectTree};
    /// let tree = PrepareEffectTree::<4>::with_limit(9, Lengths { prepare: 3, effect: 3, lines: 1 })?;
    /// let file = tree.to_bytes();
    /// assert_eq!(Stored::from_bytes(&file)?.to_bytes(), file);
    /// # Ok::<(), Box<dyn std::error::Error>>(())
    /// ```
    pub fn to_bytes(&self) -> Vec<u8> {
        let areas = [&self.leaves, &self.inners, &self.homes];
        let count = |area: &Vec<u32>| u32::try_from(area.len()).expect("an area of fewer words");
        let words = [&[VERSION][..], &areas.map(count), &self.head].concat();
        let words = words.iter().chain(areas.into_iter().flatten());
        MAGIC.into_iter().chain(words.flat_map(|word| word.to_le_bytes())).collect()
    }

    /// Puts the tree right as [`PrepareEffectTree::repair`] does.
    ///
    /// ```
    /// # use smelvock::stored::{Malformed, Stored, HEAD_WORDS, MAGIC, VERSION};
    /// # use smelvock::{Lengths, PrepareEffectTree};
    /// let tree = PrepareEffectTree::<4>::with_limit(9, Lengths { prepare: 3, effect: 3, lines: 1 })?;
    /// let file = tree.to_bytes();
    /// let mut stored = Stored::from_bytes(&file)?;
    /// stored.homes[0] = 7;
    /// assert_eq!((stored.repair()?, stored.homes[0]), (1, 0));
    /// # Ok::<(), Box<dyn std::error::Error>>(())
    /// ```
    pub fn repair(&mut self) -> Result<u32, Refusal> {
        let Stored { head, leaves, inners, homes } = self;
        let reply = raw::repair(head, AreasMut::<u32> { leaves, inners, homes });
        Refusal::unless(reply.number, || reply.value)
    }
}

/// The three counts, once the bytes are known to be as many as they ask for.
fn counts(bytes: &[u8]) -> Result<[u32; 3], Malformed> {
    let begun = bytes.len().min(MAGIC.len());
    if bytes[..begun] != MAGIC[..begun] {
        return Err(Malformed::Magic);
    }
    let word = |at: usize| bytes.get(4 * at..)?.first_chunk().copied().map(u32::from_le_bytes);
    if let Some(other) = word(2).filter(|&version| version != VERSION) {
        return Err(Malformed::Version(other));
    }
    let counts = [3, 4, 5].map(|at| word(at).unwrap_or(0));
    let words = HEAD_WORDS as u64 + counts.into_iter().map(u64::from).sum::<u64>();
    let (bytes, wanted) = (bytes.len() as u64, PREFACE as u64 + 4 * words);
    match bytes.cmp(&wanted) {
        Ordering::Less => Err(Malformed::Short { bytes, wanted }),
        Ordering::Equal => Ok(counts),
        Ordering::Greater => Err(Malformed::Long { bytes, wanted }),
    }
}

impl<const N: usize> PrepareEffectTree<N> {
    /// Puts the tree right, returning how many words of its areas were others: trusts the head but for its finger, each node's len and
    /// child numbers in use and the lengths in leaf slots, rewrites inner sums, parents, places, homes and unused slots, and drops the
    /// finger. Afterwards [`audit`](Self::audit) says yes; of a sound tree no word changes. Refused by 21, with nothing changed, exactly
    /// if no sound tree has what is trusted. It takes some 384 KiB of stack.
    ///
    /// ```
    /// use smelvock::raw::Areas;
    /// use smelvock::{Lengths, PrepareEffectTree, Refusal};
    ///
    /// # fn main() -> Result<(), Refusal> {
    /// let sound = PrepareEffectTree::<4>::with_limit(1, Lengths { prepare: 3, effect: 3, lines: 1 })?;
    /// let Areas { leaves, inners, homes } = sound.areas();
    /// let [leaves, mut inners, homes] = [leaves, inners, homes].map(<[u32]>::to_vec);
    /// // the prepare length of the root's first slot: a stale sum
    /// inners[4] = 7;
    /// let mut tree = PrepareEffectTree::<4>::from_words(sound.head(), leaves, inners, homes);
    /// assert_eq!((tree.audit()?, tree.repair()?, tree.audit()?), (false, 1, true));
    /// assert_eq!((tree == sound, tree.repair()?), (true, 0));
    /// # Ok(())
    /// # }
    /// ```
    pub fn repair(&mut self) -> Result<u32, Refusal> {
        let (head, areas) = self.0.parts();
        let reply = raw::repair(head, areas);
        Refusal::unless(reply.number, || reply.value)
    }

    /// The tree as [`stored`](crate::stored) has it: its head, and its areas whole, with zeros for the words that hold no number yet.
    ///
    /// ```
    /// # use smelvock::stored::{Malformed, Stored, HEAD_WORDS, MAGIC, VERSION};
    /// # use smelvock::{Lengths, PrepareEffectTree};
    /// let tree = PrepareEffectTree::<4>::with_limit(9, Lengths { prepare: 3, effect: 3, lines: 1 })?;
    /// let file = tree.to_bytes();
    /// assert_eq!((&file[..8], file[24]), (&MAGIC[..], 4));
    /// # Ok::<(), Box<dyn std::error::Error>>(())
    /// ```
    pub fn to_bytes(&self) -> Vec<u8> {
        let [leaves, inners, homes] = self.0.whole();
        Stored { head: self.0.head, leaves, inners, homes }.to_bytes()
    }

    /// The tree that was stored, or one of any words in the form of a stored tree: as after [`from_words`](Self::from_words), every call
    /// ends on it, and [`audit`](Self::audit) says whether it is sound. The calls go by the fan in its head.
    ///
    /// ```
    /// # use smelvock::stored::{Malformed, Stored, HEAD_WORDS, MAGIC, VERSION};
    /// # use smelvock::{Lengths, PrepareEffectTree};
    /// let tree = PrepareEffectTree::<4>::with_limit(9, Lengths { prepare: 3, effect: 3, lines: 1 })?;
    /// let file = tree.to_bytes();
    /// let again = PrepareEffectTree::<4>::from_bytes(&file)?;
    /// assert_eq!((again.head(), again.audit()?), (tree.head(), true));
    /// # Ok::<(), Box<dyn std::error::Error>>(())
    /// ```
    pub fn from_bytes(bytes: &[u8]) -> Result<Self, Malformed> {
        let Stored { head, leaves, inners, homes } = Stored::from_bytes(bytes)?;
        Ok(Self::from_words(head, leaves, inners, homes))
    }
}
