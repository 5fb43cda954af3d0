//! A picture of a sheet: the tree, and below it the entries in both versions, each as long as it is there, with a band from the one to
//! the other.

use crate::drawn::{Drawn, Node, Slot};
use crate::said::counted;
use std::fmt::Write;

/// The colours of the leaves, in turn; white text can be read on each.
const COLOURS: [&str; 4] = ["#0072b2", "#b36b00", "#007a5a", "#a8437f"];

/// A small text that lines may cross.
const OVER: &str = " font-size=\"10\" stroke=\"white\" stroke-width=\"3\" paint-order=\"stroke\"";

const LEFT: f64 = 100.0;
const TOP: f64 = 64.0;
const GAP: f64 = 16.0;
const HEIGHT: f64 = 32.0;
const LEVEL: f64 = 72.0;
const STRIP: f64 = 24.0;
const BAND: f64 = 64.0;
const LEAST: f64 = 480.0;

/// An entry's slot: where it stands in the picture, its colour, and its positions in the two versions.
struct Entry {
    slot: Slot,
    middle: f64,
    colour: &'static str,
    at: [u64; 2],
}

struct Picture<'a> {
    drawn: &'a Drawn,
    /// The width of a slot: what its numbers need.
    slot: f64,
    /// The left end and the colour of each node.
    left: Vec<f64>,
    colour: Vec<&'static str>,
    /// The width of the leaves side by side, and of the longer version.
    width: f64,
    text: String,
}

pub fn svg(drawn: &Drawn) -> String {
    let mut picture = Picture::new(drawn);
    let entries = picture.entries();
    let levels = drawn.nodes.first().map_or(0, |root| root.level);
    let leaves = TOP + LEVEL * levels as f64;
    let height = leaves + HEIGHT + 48.0 + 2.0 * STRIP + BAND + 24.0;
    let width = LEFT + picture.width + 20.0;
    _ = writeln!(
        picture.text,
        "<svg xmlns=\"http://www.w3.org/2000/svg\" viewBox=\"0 0 {width} {height}\" width=\"{width}\" height=\"{height}\" \
         font-family=\"sans-serif\" font-size=\"12\">\n<rect width=\"{width}\" height=\"{height}\" fill=\"white\"/>"
    );
    picture.heading(&entries);
    picture.versions(&entries, leaves + HEIGHT);
    for place in 0..drawn.nodes.len() {
        picture.links(place);
        picture.node(place);
    }
    picture.text + "</svg>"
}

impl<'a> Picture<'a> {
    /// The leaves stand side by side in order, each other node above the middle of those below it.
    fn new(drawn: &'a Drawn) -> Self {
        let longest = drawn.nodes.iter().flat_map(|node| &node.slots).map(|slot| lengths(slot).len()).max();
        let slot = (6.0 * longest.unwrap_or(0) as f64 + 8.0).max(44.0);
        let (mut left, mut colour) = (vec![LEFT; drawn.nodes.len()], vec!["#444444"; drawn.nodes.len()]);
        let mut end = LEFT;
        let leaves = drawn.nodes.iter().enumerate().filter(|(_, node)| node.is_leaf());
        for ((place, node), own) in leaves.zip(COLOURS.into_iter().cycle()) {
            (left[place], colour[place]) = (end, own);
            end += slot * node.slots.len() as f64 + GAP;
        }
        for (place, node) in drawn.nodes.iter().enumerate().rev().filter(|(_, node)| !node.is_leaf()) {
            let below = node.slots.iter().filter_map(|slot| slot.below).collect::<Vec<_>>();
            if let [first, .., last] | [first @ last] = below[..] {
                let right = left[last] + slot * drawn.nodes[last].slots.len() as f64;
                left[place] = (left[first] + right - slot * node.slots.len() as f64) / 2.0;
            }
        }
        Picture { drawn, slot, left, colour, width: (end - GAP - LEFT).max(LEAST), text: String::new() }
    }

    /// The leaves' slots in order.
    fn entries(&self) -> Vec<Entry> {
        let mut at = [0; 2];
        let mut entries = Vec::new();
        for (place, node) in self.drawn.nodes.iter().enumerate().filter(|(_, node)| node.is_leaf()) {
            for (number, &slot) in node.slots.iter().enumerate() {
                let middle = self.left[place] + self.slot * (number as f64 + 0.5);
                entries.push(Entry { slot, middle, colour: self.colour[place], at });
                at = [0, 1].map(|view| at[view] + slot.lengths[view] as u64);
            }
        }
        entries
    }

    fn write(&mut self, [x, y]: [f64; 2], more: &str, words: &str) {
        _ = writeln!(self.text, "<text x=\"{x:.1}\" y=\"{y:.1}\"{more}>{words}</text>");
    }

    fn line(&mut self, [x1, y1]: [f64; 2], [x2, y2]: [f64; 2], colour: &str) {
        _ = writeln!(
            self.text,
            "<line x1=\"{x1:.1}\" y1=\"{y1:.1}\" x2=\"{x2:.1}\" y2=\"{y2:.1}\" stroke=\"{colour}\"/>"
        );
    }

    fn heading(&mut self, entries: &[Entry]) {
        let head = &self.drawn.head;
        let of = counted(entries.len() as u32, "entry", "entries");
        let text = format!("A sheet of {of}: fan {}, limit {}", head.fan, head.limit);
        self.write([LEFT, 20.0], " font-size=\"14\" font-weight=\"bold\"", &text);
        let slots = "In each slot: prepare length, effect length and line ends; in a leaf, below the entry's id";
        self.write([LEFT, 36.0], " font-size=\"10\" fill=\"#444444\"", slots);
    }

    fn top(&self, node: &Node) -> f64 {
        let root = self.drawn.nodes.first().map_or(0, |root| root.level);
        TOP + LEVEL * (root - node.level) as f64
    }

    /// The lines from a node's slots to the nodes below them.
    fn links(&mut self, place: usize) {
        let drawn = self.drawn;
        let node = &drawn.nodes[place];
        for (number, slot) in node.slots.iter().enumerate() {
            let Some(below) = slot.below else { continue };
            let from = [self.left[place] + self.slot * (number as f64 + 0.5), self.top(node) + HEIGHT];
            let child = &drawn.nodes[below];
            let to = [self.left[below] + self.slot * child.slots.len() as f64 / 2.0, self.top(child)];
            self.line(from, to, "#666666");
        }
    }

    /// A node's slots side by side: the lengths of each, above them a leaf's entry; the finger's slot has a thick frame.
    fn node(&mut self, place: usize) {
        let drawn = self.drawn;
        let node = &drawn.nodes[place];
        let (top, finger) = (self.top(node), drawn.finger_in(node).map(|finger| finger.slot as usize));
        self.write([self.left[place], top - 4.0], &format!(" fill=\"#444444\"{OVER}"), &node.name());
        for (number, slot) in node.slots.iter().enumerate() {
            let x = self.left[place] + self.slot * number as f64;
            let middle = x + self.slot / 2.0;
            let (colour, frame) = (self.colour[place], if finger == Some(number) { 3 } else { 1 });
            _ = writeln!(
                self.text,
                "<rect x=\"{x:.1}\" y=\"{top:.1}\" width=\"{:.1}\" height=\"{HEIGHT}\" fill=\"white\" stroke=\"{colour}\" \
                 stroke-width=\"{frame}\"/>",
                self.slot
            );
            let below = if node.is_leaf() { 26.0 } else { 20.0 };
            self.write([middle, top + below], " font-size=\"10\" text-anchor=\"middle\"", &lengths(slot));
            if node.is_leaf() {
                let id = slot.child.to_string();
                self.write([middle, top + 13.0], " font-weight=\"bold\" text-anchor=\"middle\"", &id);
            }
        }
        if let Some(number) = finger {
            let x = self.left[place] + self.slot * (number as f64 + 0.5);
            self.write(
                [x, top + HEIGHT + 11.0],
                &format!(" text-anchor=\"middle\" font-weight=\"bold\"{OVER}"),
                "finger",
            );
        }
    }

    /// The two versions below the leaves, on one scale.
    fn versions(&mut self, entries: &[Entry], leaves: f64) {
        let last = entries.last();
        let total = [0, 1].map(|view| last.map_or(0, |last| last.at[view] + last.slot.lengths[view] as u64));
        let scale = self.width / total[0].max(total[1]).max(1) as f64;
        let top = [leaves + 48.0, leaves + 48.0 + STRIP + BAND];
        for (view, name) in ["prepare", "effect"].into_iter().enumerate() {
            let y = top[view] + STRIP / 2.0;
            self.write([LEFT - 10.0, y], " text-anchor=\"end\"", name);
            let long = format!("{} long", total[view]);
            self.write([LEFT - 10.0, y + 12.0], " font-size=\"10\" text-anchor=\"end\" fill=\"#444444\"", &long);
        }
        for entry in entries {
            let ends = [0, 1].map(|view| {
                [0, entry.slot.lengths[view] as u64].map(|more| LEFT + (entry.at[view] + more) as f64 * scale)
            });
            self.line([entry.middle, leaves], [(ends[0][0] + ends[0][1]) / 2.0, top[0]], "#bbbbbb");
            self.band(entry.colour, ends, [top[0] + STRIP, top[1]]);
            for (view, [from, to]) in ends.into_iter().enumerate() {
                self.block(entry, [from, to], top[view]);
            }
        }
    }

    /// From where an entry stands in the prepare version to where it stands in the effect version.
    fn band(&mut self, colour: &str, [[a, b], [c, d]]: [[f64; 2]; 2], [top, bottom]: [f64; 2]) {
        _ = writeln!(
            self.text,
            "<path d=\"M{a:.1} {top:.1}L{b:.1} {top:.1}L{d:.1} {bottom:.1}L{c:.1} {bottom:.1}z\" fill=\"{colour}\" \
             fill-opacity=\"0.25\" stroke=\"{colour}\" stroke-opacity=\"0.5\"/>"
        );
    }

    /// An entry in one version; a line where it has no length there.
    fn block(&mut self, entry: &Entry, [from, to]: [f64; 2], top: f64) {
        if from == to {
            return self.line([from, top], [from, top + STRIP], entry.colour);
        }
        _ = writeln!(
            self.text,
            "<rect x=\"{from:.1}\" y=\"{top:.1}\" width=\"{:.1}\" height=\"{STRIP}\" fill=\"{}\" stroke=\"white\"/>",
            to - from,
            entry.colour
        );
        let id = entry.slot.child.to_string();
        if to - from > 8.0 * id.len() as f64 + 4.0 {
            let more = " fill=\"white\" font-weight=\"bold\" text-anchor=\"middle\"";
            self.write([(from + to) / 2.0, top + 16.0], more, &id);
        }
    }
}

fn lengths(slot: &Slot) -> String {
    let [prepare, effect, lines] = slot.lengths;
    format!("{prepare} {effect} {lines}")
}
