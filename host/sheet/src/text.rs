//! The tree as text: a line for each node, those below a node behind a bar.

use crate::drawn::{Drawn, Node};
use crate::said::counted;
use oracle::state::Finger;

/// Two lines on the head and the finger, one that says how to read the others, then the nodes from the root on.
pub fn text(drawn: &Drawn) -> String {
    let mut lines = vec![head(drawn), finger(drawn.head.finger)];
    if drawn.nodes.is_empty() {
        lines.push("the root can't be drawn".to_string());
        return lines.join("\n");
    }
    lines.push(
        "node: prepare effect lines; of a leaf each [entry: prepare effect lines], < where the finger is".to_string(),
    );
    lines.extend(drawn.nodes.iter().map(|node| line(drawn, node)));
    lines.join("\n")
}

fn head(drawn: &Drawn) -> String {
    let head = &drawn.head;
    format!(
        "fan {}, limit {}, stamp {}: {} in {} and {}, {}",
        head.fan,
        head.limit,
        head.stamp,
        counted(head.entry_count, "entry", "entries"),
        counted(head.leaf_count, "leaf", "leaves"),
        counted(head.inner_count, "inner node", "inner nodes"),
        counted(head.levels, "level", "levels")
    )
}

/// The finger with its six sums: where its leaf starts, and its slot in the leaf.
pub fn finger(finger: Option<Finger>) -> String {
    let Some(at) = finger else { return "no finger".to_string() };
    let view = ["prepare", "effect", "lines"].get(at.view as usize).copied().unwrap_or("no");
    format!(
        "finger in the {view} view: leaf {} from {} (effect {}, prepare {}), slot {} from {} on (effect {}, prepare {})",
        at.leaf, at.start, at.effect, at.prepare, at.slot, at.within, at.effect_within, at.prepare_within
    )
}

fn line(drawn: &Drawn, node: &Node) -> String {
    let above = node.above.map(|(above, slot)| drawn.nodes[above].slots[slot].lengths);
    let [prepare, effect, lines] = above.unwrap_or_else(|| node.total());
    let mut text = format!("{}{}: {prepare} {effect} {lines}", bars(drawn, node), node.name());
    if node.above.is_none() {
        text += ", the root";
    }
    let finger = drawn.finger_in(node).map(|finger| finger.slot as usize);
    for (at, slot) in node.slots.iter().enumerate().filter(|_| node.is_leaf()) {
        let [prepare, effect, lines] = slot.lengths;
        let mark = if finger == Some(at) { "<" } else { "" };
        text += &format!(" [{}: {prepare} {effect} {lines}]{mark}", slot.child);
    }
    for fault in drawn.faults(node) {
        text += &format!(" ({fault})");
    }
    text
}

/// What stands in front of a node's name.
fn bars(drawn: &Drawn, node: &Node) -> String {
    node.above.map_or(String::new(), |(above, _)| before(drawn, &drawn.nodes[above]) + "+- ")
}

/// What stands in front of whatever is below a node: a bar for each node on the way that has more beside it to come.
fn before(drawn: &Drawn, node: &Node) -> String {
    let Some((above, slot)) = node.above else { return String::new() };
    let above = &drawn.nodes[above];
    let more = above.slots[slot + 1..].iter().any(|slot| slot.below.is_some());
    before(drawn, above) + if more { "|  " } else { "   " }
}
