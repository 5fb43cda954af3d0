//! "Could hold" and an entry's positions as document 02 defines them, with every choice of lengths tried.

use super::Bounds;
use std::collections::BTreeSet;

/// What all choices of lengths for some entries come to.
#[derive(Clone, PartialEq, Eq, Debug)]
pub struct Choices {
    pub count: u64,
    /// By place: the sums before the entry.
    stands: Vec<BTreeSet<u32>>,
    /// By position, from 0 to the last that any choice fills: the places whose entry could hold it.
    holds: Vec<BTreeSet<usize>>,
}

impl Choices {
    /// Tries every choice: for each entry a length within its range.
    pub fn of(entries: &[Bounds]) -> Choices {
        let mut all = Choices { count: 0, stands: vec![BTreeSet::new(); entries.len()], holds: Vec::new() };
        let mut chosen = entries.iter().map(|own| own.low).collect::<Vec<_>>();
        if entries.iter().any(|own| own.crossed()) {
            return all;
        }
        loop {
            all.note(&chosen);
            // the next one, counted up as a number whose digits have bounds
            let Some(up) = (0..chosen.len()).find(|&place| chosen[place] < entries[place].high) else { return all };
            chosen[up] += 1;
            (0..up).for_each(|place| chosen[place] = entries[place].low);
        }
    }

    /// "Their sum before the entry at or below the position, and with the entry's own above it."
    fn note(&mut self, chosen: &[u32]) {
        self.count += 1;
        let mut before = 0;
        for (place, &own) in chosen.iter().enumerate() {
            self.stands[place].insert(before);
            for position in before..before + own {
                let positions = self.holds.len().max(position as usize + 1);
                self.holds.resize(positions, BTreeSet::new());
                self.holds[position as usize].insert(place);
            }
            before += own;
        }
    }

    pub fn earliest(&self, place: usize) -> Option<u32> {
        self.stands[place].first().copied()
    }

    pub fn latest(&self, place: usize) -> Option<u32> {
        self.stands[place].last().copied()
    }

    /// The first and the last place whose entry could hold a position.
    pub fn first_at(&self, position: u32) -> Option<usize> {
        self.holds.get(position as usize)?.first().copied()
    }

    pub fn last_at(&self, position: u32) -> Option<usize> {
        self.holds.get(position as usize)?.last().copied()
    }

    /// The positions that some choice fills: all those below the highest total.
    pub fn positions(&self) -> u32 {
        self.holds.len() as u32
    }
}

/// Calls that with every list of so many bounds whose highest length is at most `most`.
pub fn every_list(entries: usize, most: u32, of: &mut impl FnMut(&[Bounds])) {
    fn go(list: &mut Vec<Bounds>, left: usize, most: u32, of: &mut impl FnMut(&[Bounds])) {
        if left == 0 {
            return of(list);
        }
        for (low, high) in (0..=most).flat_map(|high| (0..=high).map(move |low| (low, high))) {
            list.push(Bounds { low, high });
            go(list, left - 1, most, of);
            list.pop();
        }
    }
    go(&mut Vec::new(), entries, most, of)
}
