//! The port beside lib.rs: both are driven by the same code (oracle's `Calls`), and every answer, cursor and word is compared.

pub mod any_cursor;
pub mod both;
pub mod cursors;
pub mod damage;
pub mod exports;
pub mod lists;
pub mod met;
pub mod planning;
pub mod plays;
pub mod port;
pub mod program;
pub mod reading;
pub mod repair;
pub mod seated;
pub mod words;
