//! The oracle of the port: lib.rs itself, the plain row of document 01, which has line ends where lib.rs has none, the audit of a
//! tree's words, and a driver that plays one list of calls on both and compares everything.
//!
//! "Document 01" is the project's scope paper, document 02 its change requests; "lib.rs" is `docs/src/crates/strider-tree/src/lib.rs`.

pub mod audit;
pub mod calls;
pub mod coverage;
pub mod cursors;
pub mod driver;
pub mod edits;
pub mod examined;
pub mod fans;
pub mod lined;
pub mod lists;
pub mod patterns;
pub mod planning;
pub mod random;
pub mod record;
pub mod repair;
pub mod row;
pub mod runs;
pub mod rust;
pub mod seats;
pub mod sheet;
pub mod state;
pub mod stored;
pub mod tree;
