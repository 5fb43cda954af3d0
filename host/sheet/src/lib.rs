//! A console for one tree of the port: a line of text is a call by id, and its answer is said in words. lib.rs can be played along,
//! and the tree drawn as text, for Graphviz and as SVG.

pub mod along;
pub mod audited;
pub mod command;
pub mod console;
pub mod differences;
pub mod dot;
pub mod drawn;
pub mod line;
pub mod said;
pub mod show;
pub mod svg;
pub mod text;
pub mod tree;
pub mod words;
