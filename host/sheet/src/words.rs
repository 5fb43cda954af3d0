//! A tree's words, in use or not, with a name for each.

use oracle::state::node_words;
use smelvock::raw;

/// Head, leaves, inner nodes and homes.
#[derive(Clone, PartialEq, Eq, Debug)]
pub struct Words {
    pub head: raw::Head,
    pub leaves: Vec<u32>,
    pub inners: Vec<u32>,
    pub homes: Vec<u32>,
}

/// Which part of a tree a word belongs to.
#[derive(Clone, Copy, PartialEq, Eq, Debug)]
pub enum Area {
    Head,
    Leaves,
    Inners,
    Homes,
}

pub const AREAS: [(&str, Area); 4] =
    [("head", Area::Head), ("leaves", Area::Leaves), ("inners", Area::Inners), ("homes", Area::Homes)];

const HEAD: [&str; 20] = [
    "fan",
    "limit",
    "root",
    "levels",
    "leaves in use",
    "inner nodes in use",
    "entries",
    "whether there is a finger",
    "finger's view",
    "finger's leaf",
    "finger's start",
    "finger's effect",
    "finger's slot",
    "finger's within",
    "finger's effect_within",
    "finger's prepare",
    "finger's prepare_within",
    "stamp, low word",
    "stamp, high word",
    "whether there are seats",
];

impl Words {
    pub fn area(&self, area: Area) -> &[u32] {
        match area {
            Area::Head => &self.head,
            Area::Leaves => &self.leaves,
            Area::Inners => &self.inners,
            Area::Homes => &self.homes,
        }
    }

    pub fn area_mut(&mut self, area: Area) -> &mut [u32] {
        match area {
            Area::Head => &mut self.head,
            Area::Leaves => &mut self.leaves,
            Area::Inners => &mut self.inners,
            Area::Homes => &mut self.homes,
        }
    }
}

/// What a word of a tree with that fan is, as `leaf 1, slot 2, effect length`.
pub fn name(area: Area, word: usize, fan: u32) -> String {
    match area {
        Area::Head if word < HEAD.len() => HEAD[word].to_string(),
        Area::Head if word < raw::word::CHARGES => format!("share of seat {}", word - raw::word::SHARES),
        Area::Head => format!("charge of seat {}", word - raw::word::CHARGES),
        Area::Leaves => format!("leaf {}", of_node(word, fan, "id")),
        Area::Inners => format!("inner node {}", of_node(word, fan, "child")),
        Area::Homes => format!("home of entry {word}"),
    }
}

/// A node's number and the name of its word.
fn of_node(word: usize, fan: u32, child: &str) -> String {
    let (node, word) = (word / node_words(fan), word % node_words(fan));
    match word.checked_sub(3) {
        None => format!("{node}, {}", ["len", "parent", "at"][word]),
        Some(word) => {
            let field = [child, "prepare length", "effect length", "line ends"][word % 4];
            format!("{node}, slot {}, {field}", word / 4)
        }
    }
}
