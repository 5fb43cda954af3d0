//! The tests of this folder as one program, so that lib.rs is compiled at each fan once, not once a file.
//! can_fail silences panics and unwritten has an allocator of its own: these two are programs by themselves.

mod cursors;
mod cursors_can_fail;
mod damaged;
mod door;
mod editrun;
mod edits;
mod examined;
mod lines;
mod lists;
mod long;
mod planning;
mod planning_can_fail;
mod planning_damaged;
mod planning_refusals;
mod reading;
mod reading_can_fail;
mod reading_damaged;
mod reading_refusals;
mod refusals;
mod repair;
mod repair_can_fail;
mod rowrun;
mod seated;
mod seated_can_fail;
mod sheet;
mod sheetrun;
