//! Files of edits that name their forerunners, written from document 02 (CR 5): what each edit rests on as a set of numbers, the
//! sets of its parents joined to its own until no set grows.

use std::collections::BTreeSet;

/// The most edits of a file, and the words that a list area needs.
pub const MOST: usize = 512;

/// The parent that says that there is none.
pub const NONE: u32 = u32::MAX;

/// The two parents that an edit names.
pub type Parents = [u32; 2];

pub fn record([left, right]: Parents) -> [u8; 16] {
    let mut bytes = [0; 16];
    bytes[..4].copy_from_slice(&left.to_le_bytes());
    bytes[4..8].copy_from_slice(&right.to_le_bytes());
    bytes
}

pub fn file(edits: &[Parents]) -> Vec<u8> {
    edits.iter().copied().flat_map(record).collect()
}

/// The edits of a file, or the number of its refusal.
pub fn check(file: &[u8]) -> Result<Vec<Parents>, u32> {
    let (records, rest) = file.as_chunks::<16>();
    if !rest.is_empty() {
        return Err(11);
    }
    if records.len() > MOST {
        return Err(16);
    }
    let mut edits = Vec::new();
    for (edit, record) in records.iter().enumerate() {
        if record[8..].iter().any(|&byte| byte != 0) {
            return Err(10);
        }
        let parents = [0, 4].map(|at| u32::from_le_bytes(record[at..at + 4].try_into().expect("four bytes")));
        if parents.iter().any(|&parent| parent != NONE && parent as usize >= edit) {
            return Err(15);
        }
        edits.push(parents);
    }
    Ok(edits)
}

/// What each edit of a file rests on.
pub struct Rests(pub Vec<BTreeSet<u32>>);

impl Rests {
    pub fn of(edits: &[Parents]) -> Rests {
        let mut sets: Vec<BTreeSet<u32>> = (0..edits.len() as u32).map(|edit| BTreeSet::from([edit])).collect();
        let mut grown = true;
        while grown {
            grown = false;
            for (edit, parents) in edits.iter().enumerate() {
                for &parent in parents.iter().filter(|&&parent| parent != NONE) {
                    let joined = &sets[edit] | &sets[parent as usize];
                    grown |= joined.len() > sets[edit].len();
                    sets[edit] = joined;
                }
            }
        }
        Rests(sets)
    }

    /// The edits that the first rests on and the second doesn't, in rising number; 4 where one isn't in the file.
    pub fn difference(&self, first: u32, second: u32) -> Result<Vec<u32>, u32> {
        let set = |edit: u32| self.0.get(edit as usize).ok_or(4u32);
        Ok((set(first)? - set(second)?).into_iter().collect())
    }
}

/// The list for a file and an area of so many words, or the number of the refusal.
pub fn difference(file: &[u8], words: usize, first: u32, second: u32) -> Result<Vec<u32>, u32> {
    if !file.len().is_multiple_of(16) {
        return Err(11);
    }
    if words < MOST {
        return Err(12);
    }
    Rests::of(&check(file)?).difference(first, second)
}

/// What the program `editrun` prints of a file and two edits: a number a line, or what standard error gets.
pub fn editrun(input: &[u8], first: u32, second: u32) -> Result<String, String> {
    match difference(input, MOST, first, second) {
        Ok(list) => Ok(list.iter().map(|edit| format!("{edit}\n")).collect()),
        Err(number) => Err(format!("editrun: refused by {number}\n")),
    }
}
