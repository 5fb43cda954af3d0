//! Plays one list of calls on a subject (lib.rs) and on the plain row, and compares everything. Domain D is the row's to say: a call that
//! it refuses, a hollow split among them, is not played on lib.rs.

use crate::audit::{audit, Verdict};
use crate::coverage::{Coverage, CursorCoverage};
use crate::cursors::{Held, Source, Step};
use crate::lists::Lister;
use crate::record::{Answer, Call};
use crate::row::Row;
use crate::rust::{Reply, Rust, Seen, Subject};
use crate::state::NONE;

/// One call of a list as it went. A call that the row refuses has no reply: it is not played on the subject.
#[derive(Clone, Copy, PartialEq, Eq, Debug)]
pub struct Line {
    pub answer: Answer,
    pub reply: Option<Reply>,
}

/// Where subject and row part, and at which call of the list.
pub type Parted = String;

#[derive(Clone)]
pub struct Driver<S: Subject> {
    pub subject: S,
    pub row: Row,
    pub coverage: Coverage,
    pub cursors: CursorCoverage,
    /// The entries of the cursors that the subject holds.
    pub held: Held<u32>,
    /// Entries and audit are compared after every so many calls; 0 is never.
    check_every: u64,
}

impl<const N: usize> Driver<Rust<N>> {
    /// lib.rs at fan `N` and the row, both made with one entry.
    pub fn make(limit: u32, lengths: [u32; 3], check_every: u64) -> Self {
        Driver::beside(Rust::make(limit, lengths), Row::make(limit, lengths), check_every)
    }
}

impl<S: Subject> Driver<S> {
    pub fn beside(subject: S, row: Row, check_every: u64) -> Self {
        let (coverage, cursors) = (Coverage::default(), CursorCoverage::default());
        Driver { subject, row, coverage, cursors, held: Held::default(), check_every }
    }

    pub fn play(&mut self, step: impl Into<Step>) -> Result<Line, Parted> {
        let Step { call, kind, from } = step.into();
        let answer = self.row.answer(call);
        if let Some(Call::Split { id, lengths, .. }) = call {
            self.note_split(id, lengths, answer.number);
        }
        let reply = match call.filter(|_| answer.number == 0) {
            Some(call) => Some(self.answered((call, kind), from, answer)?),
            None => {
                if let Some(call) = call {
                    self.subject.refused(call, from, answer.number);
                }
                self.coverage.refused[answer.number as usize] += 1;
                self.cursors.refused += (from != Source::Id) as u64;
                None
            }
        };
        if self.check_every != 0 && self.coverage.calls().is_multiple_of(self.check_every) {
            self.check()?;
        }
        Ok(Line { answer, reply })
    }

    /// Notes the part that a split moves and the part left behind.
    fn note_split(&mut self, id: u32, moved: [u32; 3], number: u8) {
        if [0, 17].contains(&number) {
            let now = self.row.entries[self.row.place(id).expect("it isn't refused by 4")].lengths;
            let left = if number == 0 { now } else { [0, 1, 2].map(|view| now[view] - moved[view]) };
            self.coverage.note_split([moved, left], number == 0);
        }
    }

    pub fn play_all(&mut self, steps: &[impl Into<Step> + Copy]) -> Result<(), Parted> {
        steps.iter().try_for_each(|&step| self.play(step).map(|_| ()))
    }

    /// Plays so many steps as the lister draws them.
    pub fn play_drawn(&mut self, lister: &mut Lister, steps: u64) -> Result<(), Parted> {
        (0..steps).try_for_each(|_| self.play(lister.step(&self.row, &self.held)).map(|_| ()))
    }

    /// A call that the row answered: the subject's fields and cursors must be the row's.
    fn answered(&mut self, (call, kind): (Call, u8), from: Source, answer: Answer) -> Result<Reply, Parted> {
        let before = self.subject.head();
        let reply = self.subject.call(call, from);
        let leaf = reply.given[0].map(|seen| seen.place.leaf);
        self.coverage.note((call, kind), leaf, &before, &self.subject.head());
        if matches!(call, Call::Lookup { .. } | Call::Select { .. }) {
            self.same("counted", reply.examined > 0, true, (call, from))?;
            self.coverage.note_examined(before.levels, reply.examined);
        }
        let got = meant(call, answer.fields);
        self.cursors.note((call, kind), self.held.handed(from).map(|(giver, _)| giver), got);
        self.held.keep(call, got);
        self.same("fields", reply.fields, answer.fields, (call, from))?;
        self.same("entries of the cursors given", reply.given.map(id), call.ids(), (call, from))?;
        self.same("entries of the cursors got", reply.got.map(id), got, (call, from))?;
        Ok(reply)
    }

    /// The entries in order are the row's, and the audit of the subject's own words says yes.
    pub fn check(&mut self) -> Result<(), Parted> {
        self.coverage.checks += 1;
        let state = self.subject.state();
        self.same("entries", self.subject.entries(), self.row.entries.clone(), "check")?;
        self.same("count", state.head.entry_count, self.row.count(), "check")?;
        self.same("audit", audit(&state), Verdict::Yes, "check")
    }

    fn same<T: PartialEq + std::fmt::Debug>(
        &self,
        what: &str,
        subject: T,
        row: T,
        call: impl std::fmt::Debug,
    ) -> Result<(), Parted> {
        if subject == row {
            return Ok(());
        }
        Err(format!("call {} {call:?}: {what}: subject {subject:?}, wanted {row:?}", self.coverage.calls()))
    }
}

fn id(seen: Option<Seen>) -> Option<u32> {
    seen.map(|seen| seen.id)
}

/// The entries at which the cursors that come out of a call must stand, given the row's answer.
fn meant(call: Call, [first, ..]: [u32; 4]) -> [Option<u32>; 2] {
    match call {
        Call::Insert { .. } | Call::Lookup { .. } | Call::Select { .. } | Call::First => [Some(first), None],
        Call::Next { .. } => [Some(first).filter(|&id| id != NONE), None],
        Call::Split { id, before: true, .. } => [Some(first), Some(id)],
        Call::Split { id, before: false, .. } => [Some(id), Some(first)],
        _ => [None, None],
    }
}
