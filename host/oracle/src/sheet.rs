//! The sheet on paper, written from document 02 (CR 2): a line for each entry in order, fifty lines a page, and blank lines that
//! fill up the last page.

use crate::calls::Calls;
use crate::record::Record;
use crate::row::{Entry, Row};
use crate::state::{EFFECT, PREPARE};

/// The lines of a page, and its bytes.
pub const PAGE_LINES: usize = 50;
pub const PAGE_BYTES: usize = 2_750;

/// Id, prepare position, effect position, prepare length, effect length.
type Line = [u32; 5];

/// The sheet of a tree's entries by the tree's own answers: `first`, `next`, `id`, `entry_to_char_index` and `lengths`.
pub fn of_tree<T: Calls>(tree: &T) -> String {
    let mut lines = Vec::new();
    let mut at = Some(tree.first());
    while let Some(cursor) = at {
        let [prepare, effect] = [PREPARE, EFFECT].map(|view| tree.entry_to_char_index(view, cursor));
        let lengths = tree.lengths(cursor);
        lines.push([tree.id(cursor), prepare, effect, lengths[PREPARE], lengths[EFFECT]]);
        at = tree.next(cursor);
    }
    sheet(&lines)
}

/// The sheet of the plain row.
pub fn of_row(row: &Row) -> String {
    let line = |(place, entry): (usize, &Entry)| {
        let [prepare, effect] = [PREPARE, EFFECT].map(|view| row.before(view, place));
        [entry.id, prepare, effect, entry.lengths[PREPARE], entry.lengths[EFFECT]]
    };
    sheet(&row.entries.iter().enumerate().map(line).collect::<Vec<_>>())
}

/// What the program `sheetrun` prints for these bytes: the sheet of the row that their whole records leave, from fan 8, limit 512
/// and a first entry of no lengths.
pub fn sheetrun(input: &[u8]) -> String {
    let mut row = Row::make(512, [0; 3]);
    for record in input.as_chunks::<16>().0 {
        row.play(&Record::decode(record));
    }
    of_row(&row)
}

fn sheet(lines: &[Line]) -> String {
    let filled = lines.len().next_multiple_of(PAGE_LINES);
    let blank = std::iter::repeat_n(format!("{:54}\n", ""), filled - lines.len());
    lines.iter().map(printed).chain(blank).collect()
}

fn printed([id, prepare_at, effect_at, prepare, effect]: &Line) -> String {
    format!("{id:>10} {prepare_at:>10} {effect_at:>10} {prepare:>10} {effect:>10}\n")
}
