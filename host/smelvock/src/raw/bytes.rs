//! The exports that are lent bytes: the sheet on paper, files of edits.

use super::{Areas, Number, Word};

mod printing {
    use super::Number;
    unsafe extern "C" {
        pub fn smelvock_print(
            head: *const u32,
            head_words: usize,
            leaves: *const u32,
            leaf_words: usize,
            inners: *const u32,
            inner_words: usize,
            homes: *const u32,
            home_words: usize,
            page: *mut u8,
            page_bytes: usize,
        ) -> Number;
    }
}

/// Prints the sheet into a buffer, and answers the number of pages.
///
/// ```
#[doc = lent!()]
#[doc = read!()]
/// let mut page = [b'!'; 2_751];
/// assert_eq!(raw::print(&head, areas, &mut page).value, 1);
/// assert_eq!((&page[..10], page[2_750]), (&b"         0"[..], b'!'));
/// ```
#[inline]
pub fn print<W: Word>(head: &[u32], areas: Areas<'_, W>, page: &mut [u8]) -> Number {
    let Areas { leaves, inners, homes } = areas;
    // SAFETY: the export is proved to read these words, and to write bytes of the page and nothing else, whatever they hold.
    unsafe {
        printing::smelvock_print(
            head.as_ptr(),
            head.len(),
            leaves.as_ptr().cast(),
            leaves.len(),
            inners.as_ptr().cast(),
            inners.len(),
            homes.as_ptr().cast(),
            homes.len(),
            page.as_mut_ptr(),
            page.len(),
        )
    }
}

mod editing {
    use super::Number;
    unsafe extern "C" {
        pub fn smelvock_edits_check(file: *const u8, file_bytes: usize) -> u32;
        pub fn smelvock_edits_difference(
            file: *const u8,
            file_bytes: usize,
            area: *mut u32,
            area_words: usize,
            first: u32,
            second: u32,
        ) -> Number;
    }
}

/// Whether a file of edits is accepted.
///
/// ```
/// # use smelvock::raw;
/// # let record = |parents: [u32; 2]| [parents[0].to_le_bytes(), parents[1].to_le_bytes(), [0; 4], [0; 4]].concat();
/// let file = [record([u32::MAX; 2]), record([0, 0])].concat();
/// assert_eq!((raw::edits_check(&file), raw::edits_check(&file[1..])), (0, 11));
/// ```
#[inline]
pub fn edits_check(file: &[u8]) -> u32 {
    // SAFETY: the export is proved to read these bytes and nothing else, whatever they hold.
    unsafe { editing::smelvock_edits_check(file.as_ptr(), file.len()) }
}

/// Lists the edits that the first rests on and the second doesn't, and answers how many they are.
///
/// ```
/// # use smelvock::raw;
/// # let record = |parents: [u32; 2]| [parents[0].to_le_bytes(), parents[1].to_le_bytes(), [0; 4], [0; 4]].concat();
/// let file = [record([u32::MAX; 2]), record([0, 0])].concat();
/// let mut area = [7; 512];
/// assert_eq!(raw::edits_difference(&file, &mut area, 1, 0).value, 1);
/// assert_eq!(area[..2], [1, 7]);
/// ```
#[inline]
pub fn edits_difference(file: &[u8], area: &mut [u32], first: u32, second: u32) -> Number {
    // SAFETY: the export is proved to read these bytes, and to write words of the area and nothing else, whatever they hold.
    unsafe {
        editing::smelvock_edits_difference(file.as_ptr(), file.len(), area.as_mut_ptr(), area.len(), first, second)
    }
}
