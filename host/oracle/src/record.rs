//! The 16-byte records and answers of document 01 ("Door and program"), with document 02's line ends.

use crate::cursors::Giver;
use crate::state::{LINES, NONE};

/// A record as it came: kind, byte 1 (a view or a flag), line ends in bytes 2 and 3, then three words.
#[derive(Clone, Copy, PartialEq, Eq, Debug)]
pub struct Record {
    pub kind: u8,
    pub byte1: u8,
    pub lines: u16,
    pub a: u32,
    pub b: u32,
    pub c: u32,
}

/// The call that a good record asks for, and `Select`. Lengths are prepare, effect and line ends, of which no record has more
/// than 65,535; a view is 0, 1 or 2.
#[derive(Clone, Copy, PartialEq, Eq, Debug)]
pub enum Call {
    Reset {
        lengths: [u32; 3],
    },
    /// Before that id, or at the end for [`NONE`]. A record of kind 3, once lib.rs's `add`, asks for it too.
    Insert {
        before: u32,
        lengths: [u32; 3],
    },
    Split {
        id: u32,
        lengths: [u32; 3],
        before: bool,
    },
    Set {
        id: u32,
        lengths: [u32; 3],
    },
    Update {
        id: u32,
        lengths: [u32; 3],
    },
    Lookup {
        view: usize,
        index: u32,
    },
    /// `char_index_to_entry`, a lookup less its two positions. No record asks for it.
    Select {
        view: usize,
        index: u32,
    },
    Rank {
        view: usize,
        id: u32,
    },
    Next {
        id: u32,
    },
    Compare {
        first: u32,
        second: u32,
    },
    Lengths {
        id: u32,
    },
    Count,
    First,
}

/// A number (0 when not refused) and four fields, of which an answer record carries three.
#[derive(Clone, Copy, PartialEq, Eq, Debug)]
pub struct Answer {
    pub number: u8,
    pub fields: [u32; 4],
}

/// The largest byte 1 of a kind, and which of its line ends, a, b and c it uses; no kind but 1 to 13 is known.
fn used(kind: u8) -> Option<(u8, [bool; 4])> {
    Some(match kind {
        1 => (0, [true, false, true, true]),
        2 | 3 | 5 | 6 => (0, [true, true, true, true]),
        4 => (1, [true, true, true, true]),
        7 | 8 => (2, [false, true, false, false]),
        9 | 11 => (0, [false, true, false, false]),
        10 => (0, [false, true, true, false]),
        12 | 13 => (0, [false, false, false, false]),
        _ => return None,
    })
}

impl Record {
    /// A record without line ends.
    pub fn new(kind: u8, byte1: u8, a: u32, b: u32, c: u32) -> Record {
        Record { kind, byte1, lines: 0, a, b, c }
    }

    pub fn with_lines(self, lines: u16) -> Record {
        Record { lines, ..self }
    }

    pub fn decode(bytes: &[u8; 16]) -> Record {
        let word = |at: usize| u32::from_le_bytes([bytes[at], bytes[at + 1], bytes[at + 2], bytes[at + 3]]);
        let lines = u16::from_le_bytes([bytes[2], bytes[3]]);
        Record { kind: bytes[0], byte1: bytes[1], lines, a: word(4), b: word(8), c: word(12) }
    }

    pub fn encode(&self) -> [u8; 16] {
        let [low, high] = self.lines.to_le_bytes();
        sixteen([self.kind, self.byte1, low, high], [self.a, self.b, self.c])
    }

    /// Whether every field is within its values: a view is 0 to 2, a flag 0 or 1, what is unused is 0.
    fn fields_good(&self) -> bool {
        let Some((byte1, used)) = used(self.kind) else { return false };
        let fields = [self.lines as u32, self.a, self.b, self.c];
        self.byte1 <= byte1 && fields.into_iter().zip(used).all(|(field, used)| used || field == 0)
    }

    /// The call asked for, or nothing where the answer is number 10.
    pub fn call(&self) -> Option<Call> {
        if !self.fields_good() {
            return None;
        }
        let (lengths, view) = ([self.b, self.c, self.lines as u32], self.byte1 as usize);
        Some(match self.kind {
            1 => Call::Reset { lengths },
            2 | 3 => Call::Insert { before: self.a, lengths },
            4 => Call::Split { id: self.a, lengths, before: self.byte1 == 1 },
            5 => Call::Set { id: self.a, lengths },
            6 => Call::Update { id: self.a, lengths },
            7 => Call::Lookup { view, index: self.a },
            8 => Call::Rank { view, id: self.a },
            9 => Call::Next { id: self.a },
            10 => Call::Compare { first: self.a, second: self.b },
            11 => Call::Lengths { id: self.a },
            12 => Call::Count,
            _ => Call::First,
        })
    }
}

impl Call {
    /// The lengths that the call gives.
    pub fn lengths(&self) -> Option<[u32; 3]> {
        let mut call = *self;
        call.lengths_mut().copied()
    }

    fn lengths_mut(&mut self) -> Option<&mut [u32; 3]> {
        match self {
            Call::Reset { lengths } | Call::Insert { lengths, .. } | Call::Split { lengths, .. } => Some(lengths),
            Call::Set { lengths, .. } | Call::Update { lengths, .. } => Some(lengths),
            _ => None,
        }
    }

    /// The call with other line ends, where it gives lengths.
    pub fn with_lines(mut self, lines: u32) -> Call {
        if let Some(lengths) = self.lengths_mut() {
            lengths[LINES] = lines;
        }
        self
    }

    /// The ids of the entries that the call names; the end is none.
    pub fn ids(&self) -> [Option<u32>; 2] {
        match *self {
            Call::Insert { before, .. } => [Some(before).filter(|&id| id != NONE), None],
            Call::Split { id, .. } | Call::Set { id, .. } | Call::Update { id, .. } => [Some(id), None],
            Call::Rank { id, .. } | Call::Next { id } | Call::Lengths { id } => [Some(id), None],
            Call::Compare { first, second } => [Some(first), Some(second)],
            Call::Reset { .. } | Call::Lookup { .. } | Call::Select { .. } | Call::Count | Call::First => [None, None],
        }
    }

    /// The kind of record that asks for it, of an insert 2; a `Select` counts as a lookup.
    pub fn kind(&self) -> u8 {
        match self {
            Call::Reset { .. } => 1,
            Call::Insert { .. } => 2,
            Call::Split { .. } => 4,
            Call::Set { .. } => 5,
            Call::Update { .. } => 6,
            Call::Lookup { .. } | Call::Select { .. } => 7,
            Call::Rank { .. } => 8,
            Call::Next { .. } => 9,
            Call::Compare { .. } => 10,
            Call::Lengths { .. } => 11,
            Call::Count => 12,
            Call::First => 13,
        }
    }

    /// The call again for each cursor that it answers, those of `split_entry` in order.
    pub fn givers(&self) -> [Option<Giver>; 2] {
        match self {
            Call::Lookup { .. } => [Some(Giver::Locate), None],
            Call::Select { .. } => [Some(Giver::CharIndexToEntry), None],
            Call::First => [Some(Giver::First), None],
            Call::Next { .. } => [Some(Giver::Next), None],
            Call::Split { .. } => [Some(Giver::SplitFirst), Some(Giver::SplitSecond)],
            _ => [None, None],
        }
    }
}

impl Answer {
    /// The answer record: number, kind as given, two zero bytes, the first three fields.
    pub fn encode(&self, kind: u8) -> [u8; 16] {
        let [x, y, z, _] = self.fields;
        sixteen([self.number, kind, 0, 0], [x, y, z])
    }
}

fn sixteen(first: [u8; 4], words: [u32; 3]) -> [u8; 16] {
    let mut bytes = [0; 16];
    bytes[..4].copy_from_slice(&first);
    for (place, word) in bytes[4..].chunks_exact_mut(4).zip(words) {
        place.copy_from_slice(&word.to_le_bytes());
    }
    bytes
}
