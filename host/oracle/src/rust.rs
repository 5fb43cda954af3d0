//! lib.rs, with line ends, as the subject of a run.

use crate::calls::{entries, play};
use crate::cursors::{Held, Source};
use crate::lined::Lined;
use crate::record::Call;
use crate::row::Entry;
use crate::state::{Head, State, EFFECT, PREPARE};
use crate::tree::{Cursor, Lengths, View};
use std::fmt::Debug;

/// Where a cursor stands.
#[derive(Clone, Copy, PartialEq, Eq, Debug)]
pub struct Place {
    pub leaf: u32,
    pub slot: u32,
}

impl Place {
    /// Reads a cursor from its `Debug` text, `Cursor { leaf: 1, slot: 2 }`.
    pub fn of(cursor: impl Debug) -> Place {
        let text = format!("{cursor:?}");
        let field = |name: &str| {
            let rest = &text[text.find(name).expect("the field is named") + name.len()..];
            let digits = rest.trim_start_matches(": ");
            let end = digits.find(|c: char| !c.is_ascii_digit()).unwrap_or(digits.len());
            digits[..end].parse().expect("the field is a number")
        };
        Place { leaf: field("leaf"), slot: field("slot") }
    }
}

/// A cursor's place and the entry that stood there when the cursor was issued.
#[derive(Clone, Copy, PartialEq, Eq, Debug)]
pub struct Seen {
    pub place: Place,
    pub id: u32,
}

/// The fields of an answer, with the cursors that went into the call and those that came out. An
/// insert answers no cursor; what comes out there is `cursor(id)` of the new entry.
#[derive(Clone, Copy, PartialEq, Eq, Debug)]
pub struct Reply {
    pub fields: [u32; 4],
    pub given: [Option<Seen>; 2],
    pub got: [Option<Seen>; 2],
    /// How many slots a lookup examined; 0 of another call.
    pub examined: u32,
}

/// What is played beside the row.
pub trait Subject {
    /// A call that the row does not refuse.
    fn call(&mut self, call: Call, from: Source) -> Reply;
    /// A call that the row refuses by that number; lib.rs has no answer to it.
    fn refused(&mut self, _call: Call, _from: Source, _number: u8) {}
    fn head(&self) -> Head;
    fn state(&self) -> State;
    /// The entries in order, by walking.
    fn entries(&self) -> Vec<Entry>;
    fn copy(&self) -> Box<dyn Subject>;
}

impl Clone for Box<dyn Subject> {
    fn clone(&self) -> Self {
        (**self).copy()
    }
}

impl Subject for Box<dyn Subject> {
    fn call(&mut self, call: Call, from: Source) -> Reply {
        (**self).call(call, from)
    }

    fn refused(&mut self, call: Call, from: Source, number: u8) {
        (**self).refused(call, from, number)
    }

    fn head(&self) -> Head {
        (**self).head()
    }

    fn state(&self) -> State {
        (**self).state()
    }

    fn entries(&self) -> Vec<Entry> {
        (**self).entries()
    }

    fn copy(&self) -> Box<dyn Subject> {
        (**self).copy()
    }
}

#[derive(Clone)]
pub struct Rust<const N: usize> {
    pub tree: Lined<N>,
    held: Held<Cursor>,
}

impl<const N: usize> Rust<N> {
    pub fn make(limit: u32, lengths: [u32; 3]) -> Self {
        Rust { tree: Lined::make(limit, lengths), held: Held::default() }
    }
}

impl<const N: usize> Subject for Rust<N> {
    fn call(&mut self, call: Call, from: Source) -> Reply {
        play(&mut self.tree, &mut self.held, call, from)
    }

    fn head(&self) -> Head {
        self.tree.head()
    }

    fn state(&self) -> State {
        self.tree.state()
    }

    fn entries(&self) -> Vec<Entry> {
        entries(&self.tree)
    }

    fn copy(&self) -> Box<dyn Subject> {
        Box::new(self.clone())
    }
}

/// lib.rs's two lengths; line ends behind them are left out.
pub fn pair<const VIEWS: usize>(lengths: [u32; VIEWS]) -> Lengths {
    Lengths { prepare: lengths[PREPARE], effect: lengths[EFFECT] }
}

pub fn side(view: usize) -> View {
    match view {
        PREPARE => View::Prepare,
        EFFECT => View::Effect,
        _ => panic!("lib.rs has no view {view}"),
    }
}
