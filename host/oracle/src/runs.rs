//! Random runs: many lists of one kind, at every fan.

use crate::coverage::{Coverage, CursorCoverage};
use crate::fans::{Make, Setup, FANS};
use crate::lists::{Lister, Style};

/// One kind of random run: so many lists of so many calls, from a tree made with `first`.
#[derive(Clone, Copy)]
pub struct Run {
    pub name: &'static str,
    pub style: Style,
    pub limit: u32,
    pub first: [u32; 3],
    pub lists: u64,
    pub calls: u64,
    /// Entries and audit are compared after every so many calls, all else after every call.
    pub check_every: u64,
}

impl Run {
    /// Plays the lists at a fan; other seeds give other lists. What they meet of cursors is added.
    fn play(&self, make: Make, fan: u32, seed: u64, cursors: &mut CursorCoverage) -> Coverage {
        let mut met = Coverage::default();
        let setup = Setup { make, fan, check_every: self.check_every };
        for list in 0..self.lists {
            let mut lister = Lister::new((seed + list) * 64 + fan as u64, self.style);
            let mut driver = setup.driver(self.limit, self.first);
            driver.play_drawn(&mut lister, self.calls).unwrap();
            driver.check().unwrap();
            met += &driver.coverage;
            *cursors += &driver.cursors;
        }
        println!("{}, fan {fan}: {} calls, {met:?}", self.name, met.calls());
        assert_eq!(met.calls(), self.lists * self.calls);
        met
    }

    /// Plays the lists at every fan.
    pub fn at_each_fan(&self, make: Make, seed: u64) -> ([Coverage; FANS.len()], CursorCoverage) {
        let mut cursors = CursorCoverage::default();
        let met = FANS.map(|fan| self.play(make, fan, seed, &mut cursors));
        println!("{}, all fans: {cursors:?}", self.name);
        (met, cursors)
    }
}
