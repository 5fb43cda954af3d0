//! The seats of a tree or a row (document 02, CR 10), written from the paper: "eight seats, 0 to 7, each with a share of entries".

/// Each seat's share, and how many entries are charged to it.
#[derive(Clone, Copy, PartialEq, Eq, Debug)]
pub struct Seats {
    pub shares: [u32; 8],
    pub charges: [u32; 8],
}

impl Seats {
    /// "The first entry is charged to none."
    pub fn new(shares: [u32; 8]) -> Seats {
        Seats { shares, charges: [0; 8] }
    }

    /// Whether a seat is below its share.
    pub fn below(&self, seat: usize) -> bool {
        self.charges[seat] < self.shares[seat]
    }

    /// What a seat has not used of its share; nothing where it is at or over it.
    fn unused(&self, seat: usize) -> u64 {
        self.shares[seat].saturating_sub(self.charges[seat]) as u64
    }

    /// "A seat at or over its share may still take an entry if the free entries outnumber all the other seats' unused shares together."
    pub fn may_take(&self, seat: usize, free: u32) -> bool {
        let others = (0..8).filter(|&other| other != seat).map(|other| self.unused(other)).sum::<u64>();
        self.below(seat) || free as u64 > others
    }

    /// "The shares may sum to at most limit − 1."
    pub fn within(&self, limit: u32) -> bool {
        sum(self.shares) < limit as u64
    }

    /// "Charges to the entries less one."
    pub fn charged(&self, entries: u32) -> bool {
        sum(self.charges) + 1 == entries as u64
    }

    /// "The free entries cover all unused shares."
    pub fn covered(&self, free: u32) -> bool {
        (0..8).map(|seat| self.unused(seat)).sum::<u64>() <= free as u64
    }
}

fn sum(words: [u32; 8]) -> u64 {
    words.into_iter().map(u64::from).sum()
}
