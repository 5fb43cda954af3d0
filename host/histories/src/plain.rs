//! The merge without a tree of entries, without prepare and effect lengths, and without the difference of two edits: every
//! character ever written, with those that hang on it, read from the top. Each edit's position is looked up in a list of the characters
//! that its author saw.

use merge::{Change, Edit};
use oracle::edits::NONE;
use std::collections::BTreeSet;

/// The edits of a version.
pub type Version = BTreeSet<u32>;

struct Char {
    is: char,
    stamp: (usize, char),
    by: Option<u32>,
    deleted: Vec<u32>,
    hanging: Vec<usize>,
}

pub struct Plain {
    /// One that is in no version, on which the sheet's first hangs, then all others as they came.
    chars: Vec<Char>,
    /// What each edit rests on, itself included.
    pub rests: Vec<Version>,
}

impl Plain {
    pub fn new(sheet: &str) -> Plain {
        let top = Char { is: '\0', stamp: (0, '\0'), by: Some(NONE), deleted: Vec::new(), hanging: Vec::new() };
        let mut plain = Plain { chars: vec![top], rests: Vec::new() };
        plain.hang(0, sheet, (0, '\0'), None);
        plain
    }

    /// The merge of a list of edits.
    pub fn of(sheet: &str, edits: &[Edit]) -> Plain {
        let mut plain = Plain::new(sheet);
        edits.iter().for_each(|edit| plain.take(edit));
        plain
    }

    /// The version that an edit with these parents is written on.
    pub fn version(&self, parents: [u32; 2]) -> Version {
        parents
            .into_iter()
            .filter(|&parent| parent != NONE)
            .flat_map(|parent| &self.rests[parent as usize])
            .copied()
            .collect()
    }

    /// The sheet in a version.
    pub fn text(&self, version: &Version) -> String {
        self.seen(version).into_iter().map(|at| self.chars[at].is).collect()
    }

    /// The sheet with all edits.
    pub fn merged(&self) -> String {
        self.text(&(0..self.rests.len() as u32).collect())
    }

    pub fn take(&mut self, edit: &Edit) {
        let (number, mut version) = (self.rests.len() as u32, self.version(edit.parents));
        let seen = self.seen(&version);
        version.insert(number);
        match &edit.change {
            Change::Insert { at, text } => {
                let left = at.checked_sub(1).map_or(0, |left| seen[left as usize]);
                self.hang(left, text, (version.len(), edit.department), Some(number));
            }
            Change::Delete { at, count } => {
                seen[*at as usize..][..*count as usize].iter().for_each(|&at| self.chars[at].deleted.push(number))
            }
        }
        self.rests.push(version);
    }

    /// Hangs the first character of a text on that one, and each other on the one before it.
    fn hang(&mut self, mut on: usize, text: &str, stamp: (usize, char), by: Option<u32>) {
        for is in text.chars() {
            let new = self.chars.len();
            self.chars.push(Char { is, stamp, by, deleted: Vec::new(), hanging: Vec::new() });
            let mut hanging = std::mem::take(&mut self.chars[on].hanging);
            hanging.push(new);
            hanging.sort_by_key(|&at| self.chars[at].stamp);
            self.chars[on].hanging = hanging;
            on = new;
        }
    }

    /// The characters of a version in order: of those that hang on one, the latest stamp first, with all that hangs on it.
    fn seen(&self, version: &Version) -> Vec<usize> {
        let (mut seen, mut left) = (Vec::new(), vec![0]);
        while let Some(at) = left.pop() {
            let Char { by, deleted, hanging, .. } = &self.chars[at];
            let there = by.is_none_or(|by| version.contains(&by));
            if there && !deleted.iter().any(|edit| version.contains(edit)) {
                seen.push(at);
            }
            left.extend(hanging);
        }
        seen
    }
}
