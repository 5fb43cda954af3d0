//! The tree for Graphviz: a record for each node, with a field a slot.

use crate::drawn::{Drawn, Node};

/// A graph that `dot -Tsvg` draws. Inner slots have their sums; a leaf's have the entry's id above its lengths.
pub fn dot(drawn: &Drawn) -> String {
    // slots in their order, from left to right
    let mut lines = ["digraph sheet {", "  ordering=out; splines=line;", "  node [shape=record, fontname=monospace];"]
        .map(String::from)
        .to_vec();
    lines.extend(drawn.nodes.iter().map(record));
    for node in &drawn.nodes {
        for (at, slot) in node.slots.iter().enumerate() {
            if let Some(below) = slot.below {
                lines.push(format!("  {}:s{at}:s -> {}:n;", name(node), name(&drawn.nodes[below])));
            }
        }
        if let Some(finger) = drawn.finger_in(node) {
            lines.push("  finger [shape=plaintext];".to_string());
            lines.push(format!("  {}:s{}:s -> finger [dir=back, style=dashed];", name(node), finger.slot));
        }
    }
    lines.push("}".to_string());
    lines.join("\n")
}

fn name(node: &Node) -> String {
    node.name().replace(' ', "")
}

fn record(node: &Node) -> String {
    let fields = node.slots.iter().enumerate().map(|(at, slot)| {
        let [prepare, effect, lines] = slot.lengths;
        let child = if node.is_leaf() { format!("{}\\n", slot.child) } else { String::new() };
        format!("<s{at}> {child}{prepare} {effect} {lines}")
    });
    let fields = fields.collect::<Vec<_>>().join("|");
    format!("  {} [label=\"{{{}|{{{fields}}}}}\"];", name(node), node.name())
}
