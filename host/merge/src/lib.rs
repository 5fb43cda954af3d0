//! Departments edit a sheet offline, and one merge joins their edits: a worked example of the tree and of files of edits.
//!
//! An edit names a position in its author's version of the sheet; the merge must find that spot in the sheet as it stands. An entry of
//! the tree is a run of characters that came by one edit. Its prepare length is what the author of the edit at hand saw of it, its
//! effect length what stands in the merged sheet. Edits are taken in the file's order. Before each, [`edits::listed`] says which
//! edits its author had and the one before hadn't, and the other way round: their entries get other prepare lengths. A lookup in
//! the prepare view then answers the effect position.
//!
//! Texts put at one place by authors who didn't know of each other stand in the order of a replicated growable array (Roh and others,
//! 2011). Each character hangs on the one at its left in its author's version, the first ones on the sheet's start. Of those that hang on
//! one, the text of the greater stamp comes first, with all that hangs on it. This depends on the edits and not on the order in which
//! they are taken, so every order gives the same sheet.
//!
//! The merge puts a text behind its left character and behind the entries that follow with greater stamps. All of those go first: an
//! edit's stamp is greater than those of the edits that it rests on, so what hangs on a character has no smaller stamp. And no other
//! does: the next entry hangs on the left character with a smaller stamp, or it stands behind all that hangs there, and then its stamp is
//! smaller than that of a character which the author saw.

pub mod example;
pub mod side_by_side;
pub mod tree;

use smelvock::{edits, EntryId, Lengths, Refusal};
use std::collections::BTreeMap;
use tree::Tree;

/// What an edit does, at a position of its author's version, in characters.
#[derive(Clone, PartialEq, Eq, Debug)]
pub enum Change {
    Insert { at: u32, text: String },
    Delete { at: u32, count: u32 },
}

/// A department's edit, and the edits that it was written on: one or two, or none for the first version of the sheet. It rests on the
/// department's edits before it.
#[derive(Clone, PartialEq, Eq, Debug)]
pub struct Edit {
    pub department: char,
    pub parents: [u32; 2],
    pub change: Change,
}

/// The file of edits that document 02's CR 5 has.
pub fn file(edits: &[Edit]) -> Vec<u8> {
    let record = |edit: &Edit| [edit.parents[0], edit.parents[1], 0, 0];
    edits.iter().flat_map(record).flat_map(u32::to_le_bytes).collect()
}

/// How many edits an edit rests on, and its department. No two edits have the same: of two by one department one rests on the other.
type Stamp = (usize, char);

/// A run of characters that came by one edit, or with the first version, and the edits that deleted it.
#[derive(Clone)]
struct Entry {
    length: u32,
    stamp: Stamp,
    by: Option<u32>,
    deleted: Vec<u32>,
}

/// The merged sheet, and where in it each edit took effect when its turn came.
#[derive(Clone, PartialEq, Eq, Debug)]
pub struct Merged {
    pub sheet: String,
    pub positions: Vec<u32>,
}

/// Merges edits, at most [`edits::MOST`], into the first version of their sheet. None stands before an edit that it rests on.
///
/// # Panics
/// Where an edit doesn't rest on those of its department before it.
pub fn merge<T: Tree>(sheet: &str, edits: &[Edit]) -> Result<Merged, Refusal> {
    let file = file(edits);
    edits::check(&file)?;
    let mut merge = Merge::<T>::new(sheet)?;
    let positions = (0..).zip(edits).map(|(number, edit)| merge.take(&file, number, edit)).collect::<Result<_, _>>()?;
    Ok(Merged { sheet: merge.sheet.into_iter().collect(), positions })
}

struct Merge<T> {
    tree: T,
    /// The tree's entries, by id.
    entries: Vec<Entry>,
    /// The entries that came by each edit, or that it deleted.
    touched: Vec<Vec<EntryId>>,
    /// Whether an edit is in the prepare version: the author's of the edit at hand.
    prepared: Vec<bool>,
    /// The last edit of each department so far.
    last: BTreeMap<char, u32>,
    sheet: Vec<char>,
}

impl<T: Tree> Merge<T> {
    fn new(sheet: &str) -> Result<Self, Refusal> {
        let sheet: Vec<char> = sheet.chars().collect();
        let length = sheet.len() as u32;
        let first = Entry { length, stamp: (0, '\0'), by: None, deleted: Vec::new() };
        let tree = T::make(Lengths { prepare: length, effect: length, lines: 0 })?;
        let (entries, last) = (vec![first], BTreeMap::new());
        Ok(Merge { tree, entries, touched: Vec::new(), prepared: Vec::new(), last, sheet })
    }

    /// Takes the next edit of the file, answering where in the sheet it took effect.
    fn take(&mut self, file: &[u8], number: u32, edit: &Edit) -> Result<u32, Refusal> {
        if let Some(last) = number.checked_sub(1) {
            for other in edits::listed(file, last, number)? {
                self.turn(other, false)?;
            }
            for other in edits::listed(file, number, last)?.into_iter().filter(|&other| other != number) {
                self.turn(other, true)?;
            }
        }
        let own = self.last.insert(edit.department, number);
        assert!(
            own.is_none_or(|own| self.prepared[own as usize]),
            "edit {number} doesn't rest on its department's last"
        );
        self.prepared.push(true);
        self.touched.push(Vec::new());
        match &edit.change {
            Change::Insert { at, text } => self.insert(number, edit.department, *at, text),
            Change::Delete { at, count } => self.delete(number, *at, *count),
        }
    }

    /// Takes an edit into the prepare version, or out of it.
    fn turn(&mut self, edit: u32, prepared: bool) -> Result<(), Refusal> {
        self.prepared[edit as usize] = prepared;
        for &id in &self.touched[edit as usize] {
            self.tree.resize(id, self.lengths(&self.entries[id as usize]))?;
        }
        Ok(())
    }

    /// An entry is seen in a version that has the edit it came by and none that deleted it. The effect version has all edits so far.
    fn lengths(&self, entry: &Entry) -> Lengths {
        let prepared = |&edit: &u32| self.prepared[edit as usize];
        let in_prepare = entry.by.as_ref().is_none_or(prepared) && !entry.deleted.iter().any(prepared);
        let length = |seen: bool| if seen { entry.length } else { 0 };
        Lengths { prepare: length(in_prepare), effect: length(entry.deleted.is_empty()), lines: 0 }
    }

    fn insert(&mut self, edit: u32, department: char, at: u32, text: &str) -> Result<u32, Refusal> {
        let stamp = (self.prepared.iter().filter(|&&prepared| prepared).count(), department);
        let mut before = match at.checked_sub(1) {
            None => Some(self.tree.front()?),
            Some(left) => {
                let (id, offset, _) = self.tree.find(left)?;
                self.cut(id, offset + 1)?;
                self.tree.behind(id)?
            }
        };
        while let Some(id) = before.filter(|&id| self.entries[id as usize].stamp > stamp) {
            before = self.tree.behind(id)?;
        }
        let entry = Entry { length: text.chars().count() as u32, stamp, by: Some(edit), deleted: Vec::new() };
        let (id, position) = self.tree.put(before, self.lengths(&entry))?;
        self.entries.push(entry);
        self.touched[edit as usize].push(id);
        self.sheet.splice(position as usize..position as usize, text.chars());
        Ok(position)
    }

    fn delete(&mut self, edit: u32, at: u32, count: u32) -> Result<u32, Refusal> {
        let (mut left, mut position) = (count, None);
        while left > 0 {
            let (found, offset, start) = self.tree.find(at)?;
            self.cut(found, offset + left)?;
            let id = self.cut(found, offset)?;
            let Entry { length, ref mut deleted, .. } = self.entries[id as usize];
            let stands = deleted.is_empty();
            let from = if stands { start + offset } else { start };
            if stands {
                self.sheet.drain(from as usize..(from + length) as usize);
            }
            deleted.push(edit);
            self.touched[edit as usize].push(id);
            self.tree.resize(id, self.lengths(&self.entries[id as usize]))?;
            position.get_or_insert(from);
            left -= length;
        }
        Ok(position.unwrap_or(0))
    }

    /// Cuts an entry in two at an offset, answering the entry that starts there: itself at its start, none new at its end.
    fn cut(&mut self, id: EntryId, offset: u32) -> Result<EntryId, Refusal> {
        let whole = &self.entries[id as usize];
        if offset == 0 || offset >= whole.length {
            return Ok(id);
        }
        let rest = Entry { length: whole.length - offset, ..whole.clone() };
        let new = self.tree.cut(id, self.lengths(&rest))?;
        for &edit in rest.by.iter().chain(&rest.deleted) {
            self.touched[edit as usize].push(new);
        }
        self.entries[id as usize].length = offset;
        self.entries.push(rest);
        Ok(new)
    }
}
