//! lib.rs and the plain row, played along. The row says which calls are refused, and settles line ends and seats, which lib.rs hasn't.

use crate::differences::differences;
use crate::said::said;
use crate::show::{self, Shown};
use crate::tree::{self, at_any_fan, Done};
use crate::words::Words;
use beside::words::raw_of;
use oracle::audit::make_allowed;
use oracle::calls::{play, Calls};
use oracle::cursors::{Held, Source};
use oracle::lined::Lined;
use oracle::record::Call;
use oracle::row::Row;
use oracle::rust::Reply;
use oracle::sheet;
use oracle::state::{LINES, MOST_LINES};
use smelvock::{raw, Refusal};

/// Each answers where the port differs, in words; nothing where it doesn't.
pub trait Along {
    /// Plays a call to which the port has answered that.
    fn call(&mut self, seat: Option<u32>, call: Call, reply: &tree::Reply) -> Vec<String>;
    fn cursor(&self, id: u32, answer: Result<raw::Cursor, Refusal>) -> Vec<String>;
    fn pages(&self, pages: &Result<Vec<u8>, Refusal>) -> Vec<String>;
    fn shown(&self, shown: &Result<Vec<Shown>, Refusal>) -> Vec<String>;
    /// lib.rs has no repair; its finger is dropped where the port's is.
    fn repaired(&mut self);
    /// The words of head and areas that lib.rs has in use.
    fn words(&self, port: &Words) -> Vec<String>;
}

/// lib.rs's tree and the row, made with one entry; the number where making is refused.
pub fn make(fan: u32, limit: u32, lengths: [u32; 3], shares: Option<[u32; 8]>) -> Result<Box<dyn Along>, u32> {
    if lengths[LINES] > MOST_LINES {
        return Err(10);
    }
    if !make_allowed(fan, limit) {
        return Err(1);
    }
    let row = match shares {
        None => Row::make(limit, lengths),
        Some(shares) => Row::seated(limit, lengths, shares).map_err(u32::from)?,
    };
    Ok(at_any_fan!(fan, N => Box::new(Lined::<N>::beside(row))))
}

impl<const N: usize> Along for Lined<N> {
    fn call(&mut self, seat: Option<u32>, call: Call, reply: &tree::Reply) -> Vec<String> {
        let answer = self.row.clone().answer_for(seat, Some(call));
        let wanted = match answer.number {
            0 => Ok(answer.fields),
            number => Err(Refusal { number: number.into() }),
        };
        // the row has no count of slots: there the port's own is taken
        let examined = reply.map_or(0, |done| done.examined);
        let mut differs = other("the plain row", call, reply, &wanted.map(|fields| Done { fields, examined }));
        if wanted.is_ok() {
            self.seat = seat;
            let Reply { fields, examined, .. } = play(self, &mut Held::default(), call, Source::Id);
            differs.extend(other("lib.rs", call, reply, &Ok(Done { fields, examined })));
        }
        differs
    }

    fn cursor(&self, id: u32, answer: Result<raw::Cursor, Refusal>) -> Vec<String> {
        let wanted = self.row.place(id).map(|_| Calls::cursor(self, id).fields());
        let wanted = wanted.map(|[leaf, slot]| raw::Cursor { leaf, slot, stamp: self.made });
        match wanted {
            Ok(at) if answer != Ok(at) => {
                vec![format!("lib.rs: leaf {}, slot {}, stamp {}", at.leaf, at.slot, at.stamp)]
            }
            Err(_) if answer != Err(Refusal::ID) => vec![format!("the plain row: {}", Refusal::ID)],
            _ => Vec::new(),
        }
    }

    fn pages(&self, pages: &Result<Vec<u8>, Refusal>) -> Vec<String> {
        let wanted = sheet::of_tree(&self.rust);
        if pages.as_deref() == Ok(wanted.as_bytes()) {
            return Vec::new();
        }
        let pages = pages.as_deref().unwrap_or_default();
        let line = pages.chunks(55).zip(wanted.as_bytes().chunks(55)).position(|(here, there)| here != there);
        vec![format!("lib.rs has another sheet, from line {} on", line.map_or(1, |line| line + 1))]
    }

    fn shown(&self, shown: &Result<Vec<Shown>, Refusal>) -> Vec<String> {
        let wanted = show::of_row(&self.row);
        if shown.as_ref() == Ok(&wanted) {
            return Vec::new();
        }
        vec![format!("the plain row is\n{}", show::table(&wanted))]
    }

    fn repaired(&mut self) {
        self.rust.put_finger(None);
    }

    fn words(&self, port: &Words) -> Vec<String> {
        let [leaves, inners, homes] = self.used();
        differences(port, &Words { head: raw_of(self.head()), leaves, inners, homes })
    }
}

/// What somebody else answers, where it isn't what the port did.
fn other(who: &str, call: Call, reply: &tree::Reply, wanted: &tree::Reply) -> Vec<String> {
    if reply == wanted {
        return Vec::new();
    }
    vec![format!("{who}: {}", said(call, wanted))]
}
