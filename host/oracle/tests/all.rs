//! The tests of this folder as one program, so that lib.rs is compiled at each fan once, not once a file.

mod can_fail;
mod edits;
mod exhaustive;
mod flips;
mod outside;
mod patterns;
mod planning;
mod random_lists;
mod refusals;
mod seats;
mod sheet;
mod stored_lists;
mod table;
mod words;
