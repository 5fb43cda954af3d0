//! The entries in order, as a table.

use crate::tree::Tree;
use oracle::record::Call;
use oracle::row::Row;
use oracle::state::{EFFECT, LINES, NONE, PREPARE};
use smelvock::Refusal;

/// An entry: its id, its positions and its lengths in prepare, effect and lines.
#[derive(Clone, Copy, PartialEq, Eq, Debug)]
pub struct Shown {
    pub id: u32,
    pub positions: [u32; 3],
    pub lengths: [u32; 3],
}

const VIEWS: [usize; 3] = [PREPARE, EFFECT, LINES];

/// The entries by the tree's own answers, from the first on by `next`. In an unsound tree `next` may go round: no more are met than
/// the tree counts.
pub fn of_tree(tree: &mut dyn Tree) -> Result<Vec<Shown>, Refusal> {
    let mut ask = |call| tree.call(None, call).map(|done| done.fields);
    let [count, ..] = ask(Call::Count)?;
    let [mut id, ..] = ask(Call::First)?;
    let mut shown = Vec::new();
    while id != NONE && shown.len() < count as usize {
        let [prepare, effect, lines, _] = ask(Call::Lengths { id })?;
        let mut positions = [0; 3];
        for view in VIEWS {
            [positions[view], ..] = ask(Call::Rank { view, id })?;
        }
        shown.push(Shown { id, positions, lengths: [prepare, effect, lines] });
        [id, ..] = ask(Call::Next { id })?;
    }
    Ok(shown)
}

/// The entries of the plain row.
pub fn of_row(row: &Row) -> Vec<Shown> {
    let mut positions = [0_u32; 3];
    let entries = row.entries.iter().map(|entry| {
        let shown = Shown { id: entry.id, positions, lengths: entry.lengths };
        positions = VIEWS.map(|view| positions[view] + entry.lengths[view]);
        shown
    });
    entries.collect()
}

const COLUMNS: [&str; 7] = ["entry", "prepare at", "effect at", "line at", "prepare", "effect", "lines"];

/// The table: a line of heads, a line for each entry, as wide as their numbers need.
pub fn table(shown: &[Shown]) -> String {
    let rows = shown.iter().map(|Shown { id, positions: [p, e, l], lengths: [a, b, c] }| [id, p, e, l, a, b, c]);
    let rows = rows.map(|row| row.map(u32::to_string)).collect::<Vec<_>>();
    let widths: [usize; 7] = std::array::from_fn(|column| {
        let cells = rows.iter().map(|row| row[column].len());
        cells.chain([COLUMNS[column].len()]).max().unwrap_or(0)
    });
    let heads = COLUMNS.map(String::from);
    let line = |row: &[String; 7]| {
        let cells = row.iter().zip(widths).map(|(cell, width)| format!("{cell:>width$}"));
        cells.collect::<Vec<_>>().join("  ")
    };
    [&heads].into_iter().chain(&rows).map(line).collect::<Vec<_>>().join("\n")
}
