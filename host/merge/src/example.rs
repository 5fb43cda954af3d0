//! README's history: Chemistry and Biology plan a laboratory's week offline.

use crate::tree::Tree;
use crate::{merge, Change, Edit};
use smelvock::edits::NONE;
use smelvock::Refusal;

/// The sheet that both departments took with them.
pub const SHEET: &str = "Mon lab\nTue lab\nWed lab\n";

pub fn edits() -> Vec<Edit> {
    let insert = |at, text: &str| Change::Insert { at, text: text.to_owned() };
    let edit = |department, parents, change| Edit { department, parents, change };
    vec![
        edit('C', [NONE, NONE], insert(15, " 8C")),
        edit('C', [0, NONE], insert(26, " 9A")),
        edit('B', [NONE, NONE], insert(0, "Laboratory\n")),
        edit('B', [2, NONE], insert(18, " 7B")),
        edit('B', [3, NONE], insert(38, "Fri lab\n")),
        edit('C', [1, NONE], Change::Delete { at: 26, count: 3 }),
        edit('C', [5, NONE], insert(27, "Thu lab 9A\n")),
        // Biology has fetched Chemistry's edits
        edit('B', [4, 6], insert(59, " 6D")),
    ]
}

/// The merge log, a line an edit, and the merged sheet.
pub fn told<T: Tree>() -> Result<String, Refusal> {
    let (edits, mut log) = (edits(), "edit  by  on    at  in the sheet at\n".to_owned());
    let merged = merge::<T>(SHEET, &edits)?;
    for (number, (edit, position)) in edits.iter().zip(merged.positions).enumerate() {
        let on =
            edit.parents.iter().filter(|&&parent| parent != NONE).map(u32::to_string).collect::<Vec<_>>().join(" ");
        let (at, change) = match &edit.change {
            Change::Insert { at, text } => (at, format!("insert {text:?}")),
            Change::Delete { at, count } => (at, format!("delete {count}")),
        };
        log += &format!("{number:4}   {}  {on:3}{at:5}{position:17}  {change}\n", edit.department);
    }
    Ok(format!("{log}\n{}", merged.sheet))
}
