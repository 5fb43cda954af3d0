//! The fans at which runs are played, one after another in one loop although lib.rs has the fan as a constant.

use crate::driver::Driver;
use crate::row::Row;
use crate::rust::{Rust, Subject};

/// Document 01's 4, 5, 8 and 32, and some between.
pub const FANS: [u32; 9] = [4, 5, 6, 7, 8, 9, 16, 31, 32];

/// `at_fan!(fan, N => value)`: the value for a fan of [`FANS`], which is the constant `N` in it.
#[macro_export]
macro_rules! at_fan {
    ($fan:expr, $constant:ident => $value:expr) => {
        $crate::at_fan!($fan, $constant => $value; 4 5 6 7 8 9 16 31 32)
    };
    ($fan:expr, $constant:ident => $value:expr; $($known:literal)*) => {
        match $fan {
            $($known => {
                const $constant: usize = $known;
                $value
            })*
            fan => panic!("no run has fan {fan}"),
        }
    };
}

/// Makes a subject at a fan, with that limit and one entry of those lengths.
pub type Make = fn(u32, u32, [u32; 3]) -> Box<dyn Subject>;

/// lib.rs.
pub fn rust(fan: u32, limit: u32, lengths: [u32; 3]) -> Box<dyn Subject> {
    at_fan!(fan, N => Box::new(Rust::<N>::make(limit, lengths)))
}

/// What is played beside the row.
#[derive(Clone, Copy)]
pub struct Setup {
    pub make: Make,
    pub fan: u32,
    /// Entries and audit are compared after every so many calls, 0 is never.
    pub check_every: u64,
}

impl Setup {
    /// The beginning of a list, with that limit and one entry of those lengths.
    pub fn driver(&self, limit: u32, lengths: [u32; 3]) -> Driver<Box<dyn Subject>> {
        Driver::beside((self.make)(self.fan, limit, lengths), Row::make(limit, lengths), self.check_every)
    }
}
