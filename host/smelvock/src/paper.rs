//! The sheet on paper (document 02, CR 2).

use crate::raw;
use crate::{PrepareEffectTree, Refusal, LIMIT};

/// The lines of a page of the sheet, an entry each.
///
/// ```
/// # use smelvock::{Lengths, PrepareEffectTree, Refusal, PAGE_BYTES, PAGE_LINES};
/// # let lengths = Lengths { prepare: 3, effect: 5, lines: 0 };
/// let tree = PrepareEffectTree::<8>::new(lengths)?;
/// let pages = tree.sheet()?;
/// assert_eq!(pages.split(|&byte| byte == b'\n').count(), PAGE_LINES + 1);
/// # Ok::<(), Refusal>(())
/// ```
pub const PAGE_LINES: usize = 50;

/// The bytes of a page.
///
/// ```
/// # use smelvock::{Lengths, PrepareEffectTree, Refusal, PAGE_BYTES, PAGE_LINES};
/// # let lengths = Lengths { prepare: 3, effect: 5, lines: 0 };
/// let tree = PrepareEffectTree::<8>::new(lengths)?;
/// assert_eq!(tree.sheet()?.len(), PAGE_BYTES);
/// # Ok::<(), Refusal>(())
/// ```
pub const PAGE_BYTES: usize = 2_750;

impl<const N: usize> PrepareEffectTree<N> {
    /// Prints the entries in order from the start of `page` on, returning the number of pages: a line of 55 bytes each, which is
    /// id, prepare position, effect position, prepare length and effect length in ten columns each, and a last page filled up
    /// with blank lines. Bytes past the last page stay. Refused by 12 where `page` is below [`PAGE_BYTES`] a page.
    ///
    /// ```
    /// # use smelvock::{Lengths, PrepareEffectTree, Refusal, PAGE_BYTES, PAGE_LINES};
    /// # let lengths = Lengths { prepare: 3, effect: 5, lines: 0 };
    /// let tree = PrepareEffectTree::<8>::new(lengths)?;
    /// let mut page = [b'!'; PAGE_BYTES + 1];
    /// assert_eq!(tree.print(&mut page), Ok(1));
    /// assert_eq!(&page[..55], b"         0          0          0          3          5\n");
    /// assert_eq!(page[PAGE_BYTES], b'!');
    /// assert_eq!(tree.print(&mut page[..PAGE_BYTES - 1]), Err(Refusal::BUFFER));
    /// # Ok::<(), Refusal>(())
    /// ```
    pub fn print(&self, page: &mut [u8]) -> Result<u32, Refusal> {
        let reply = raw::print(&self.0.head, self.0.lent(), page);
        Refusal::unless(reply.number, || reply.value)
    }

    /// The same with a buffer of its own, which holds the pages and nothing else. It is never longer than [`LIMIT`] entries need:
    /// an unsound head that counts more is refused by 12.
    ///
    /// ```
    /// # use smelvock::{Lengths, PrepareEffectTree, Refusal, PAGE_BYTES, PAGE_LINES};
    /// # let lengths = Lengths { prepare: 3, effect: 5, lines: 0 };
    /// let tree = PrepareEffectTree::<8>::new(lengths)?;
    /// let pages = tree.sheet()?;
    /// assert!(pages.starts_with(b"         0          0          0          3          5\n"));
    /// # Ok::<(), Refusal>(())
    /// ```
    pub fn sheet(&self) -> Result<Vec<u8>, Refusal> {
        let lines = self.len()?.min(LIMIT as usize);
        let mut page = vec![0; lines.div_ceil(PAGE_LINES) * PAGE_BYTES];
        self.print(&mut page)?;
        Ok(page)
    }
}
