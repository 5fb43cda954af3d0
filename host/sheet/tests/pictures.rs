//! What `tree`, `dot` and `svg` draw: the row's entries in order, every node once, the finger where the last lookup found its entry.

use oracle::lists::{Lister, Sizes, Style, GROWING};
use oracle::record::{Call, Record};
use oracle::row::Row;
use oracle::state::{EFFECT, NONE, PREPARE};
use sheet::console::Console;
use smelvock::raw::word;
use std::fs;
use std::path::Path;

/// A sheet of some entries, in the console and as the row, with the entry that the last lookup found.
fn grown(fan: u32, entries: u32) -> (Console, Row, u32) {
    let mut row = Row::make(200, [2, 2, 1]);
    let mut console = Console::new(false);
    console.line(&format!("new {fan} 200 2 2 1"));
    let mut lister = Lister::new(fan as u64, Style { weights: GROWING, sizes: Sizes::Small, close: 50, miss: 0 });
    while row.count() < entries {
        match lister.draw(&row).call() {
            Some(Call::Insert { before, lengths: [p, e, l] }) => {
                row.play(&Record::new(2, 0, before, p, e).with_lines(l as u16));
                let target = if before == NONE { "end".to_string() } else { before.to_string() };
                console.line(&format!("insert {target} {p} {e} {l}"));
            }
            _ => continue,
        }
    }
    let index = row.total(EFFECT) / 2;
    let found = row.answer(Some(Call::Lookup { view: EFFECT, index })).fields[0];
    console.line(&format!("lookup effect {index}"));
    (console, row, found)
}

fn sheets() -> impl Iterator<Item = (Console, Row, u32)> {
    [(4, 1), (4, 5), (4, 60), (5, 33), (8, 9), (13, 150), (32, 100)]
        .into_iter()
        .map(|(fan, entries)| grown(fan, entries))
}

/// The text between two marks, each time.
fn between<'a>(text: &'a str, from: &'a str, to: &'a str) -> impl Iterator<Item = &'a str> {
    text.split(from).skip(1).map(move |rest| rest.split(to).next().unwrap())
}

/// The row's entries as `id: prepare effect lines`.
fn listed(row: &Row) -> Vec<String> {
    let list = row.entries.iter().map(|entry| {
        let [prepare, effect, lines] = entry.lengths;
        format!("{}: {prepare} {effect} {lines}", entry.id)
    });
    list.collect()
}

#[test]
fn the_tree_as_text_has_the_rows_entries_in_order() {
    for (mut console, row, found) in sheets() {
        let text = console.line("tree");
        let head = console.words().head;
        let nodes = text.lines().skip(3).collect::<Vec<_>>();
        assert_eq!(nodes.len() as u32, head[word::LEAVES] + head[word::INNERS]);
        let body = nodes.join("\n");
        assert_eq!(between(&body, "[", "]").collect::<Vec<_>>(), listed(&row));
        let fingers = body.split(']').filter(|rest| rest.starts_with('<')).count();
        let marked = body.split("]<").next().unwrap().rsplit('[').next().unwrap();
        assert_eq!((fingers, marked.split(':').next()), (1, Some(found.to_string().as_str())), "{text}");
        let total = [PREPARE, EFFECT, 2].map(|view| row.total(view).to_string()).join(" ");
        assert_eq!(nodes[0], format!("inner {}: {total}, the root", head[word::ROOT]));
        assert!(!body.contains('('), "nothing is wrong with a sound tree: {text}");
    }
}

#[test]
fn a_small_tree_as_text() {
    let mut console = Console::new(false);
    console.lines("new 4 40 1 0\ninsert end 2 1 1");
    for _ in 0..12 {
        console.line("insert end 1 1");
    }
    console.line("lookup effect 4");
    let wanted = "\
fan 4, limit 40, stamp 14: 14 entries in 6 leaves and 3 inner nodes, 2 levels
finger in the effect view: leaf 2 from 3 (effect 3, prepare 5), slot 1 from 1 on (effect 1, prepare 1)
node: prepare effect lines; of a leaf each [entry: prepare effect lines], < where the finger is
inner 2: 15 13 1, the root
+- inner 0: 5 3 1
|  +- leaf 0: 3 1 1 [0: 1 0 0] [1: 2 1 1]
|  +- leaf 1: 2 2 0 [2: 1 1 0] [3: 1 1 0]
+- inner 1: 10 10 0
   +- leaf 2: 2 2 0 [4: 1 1 0] [5: 1 1 0]<
   +- leaf 3: 2 2 0 [6: 1 1 0] [7: 1 1 0]
   +- leaf 4: 2 2 0 [8: 1 1 0] [9: 1 1 0]
   +- leaf 5: 4 4 0 [10: 1 1 0] [11: 1 1 0] [12: 1 1 0] [13: 1 1 0]
";
    assert_eq!(console.line("tree"), wanted);
    let faults = [
        ("damage leaves 20 7", "leaf 1: 2 2 0 [2: 1 1 0] [3: 1 1 0] (names parent 7, place 1)"),
        ("damage leaves 20 0\ndamage homes 3 4", "[3: 1 1 0] (the home of entry 3 is leaf 4)"),
        ("damage homes 3 1\ndamage inners 4 9", "leaf 0: 9 1 1 [0: 1 0 0] [1: 2 1 1] (its slots sum to 3 1 1)"),
        ("damage inners 4 3\ndamage inners 3 1", "inner 0: 5 3 1 (leaf 1 can't be drawn)"),
        ("damage inners 3 0\ndamage head 2 99", "the root can't be drawn"),
    ];
    for (lines, fault) in faults {
        console.lines(lines);
        let text = console.line("tree");
        assert!(text.contains(fault), "{lines}: {text}");
    }
}

#[test]
fn the_graph_has_every_node_and_link_once() {
    for (mut console, row, found) in sheets() {
        let graph = console.line("dot");
        let head = console.words().head;
        let (leaves, inners) = (head[word::LEAVES] as usize, head[word::INNERS] as usize);
        let records = graph.lines().filter(|line| line.contains("[label=")).collect::<Vec<_>>();
        assert_eq!(records.len(), leaves + inners);
        let links = graph.lines().filter(|line| line.contains("->") && !line.contains("finger")).collect::<Vec<_>>();
        assert_eq!(links.len(), leaves + inners - 1, "a tree");
        let mut to = links.iter().map(|link| link.split("-> ").nth(1).unwrap()).collect::<Vec<_>>();
        to.sort();
        to.dedup();
        assert_eq!(to.len(), links.len(), "each node below one");
        let fields =
            records.iter().filter(|record| record.contains("leaf")).flat_map(|record| between(record, "> ", "|"));
        let entries = fields.map(|field| field.trim_end_matches(['}', '"', ']', ';']).replace("\\n", ": "));
        assert_eq!(entries.collect::<Vec<_>>(), listed(&row));
        let pointed = graph.lines().find(|line| line.contains("-> finger")).expect("a finger").trim();
        let at = console.line(&format!("cursor {found}"));
        let [leaf, slot] = ["leaf ", "slot "].map(|mark| between(&at, mark, ",").next().unwrap());
        assert_eq!(pointed, format!("leaf{leaf}:s{slot}:s -> finger [dir=back, style=dashed];"));
        assert!(graph.starts_with("digraph sheet {\n") && graph.ends_with("\n}\n"));
        assert_eq!(graph.matches('{').count(), graph.matches('}').count());
    }
}

/// The blocks of each version stand where the row says, as long as its entries, on one scale.
#[test]
fn the_picture_has_both_versions_to_scale() {
    for (mut console, row, _) in sheets() {
        let svg = console.line("svg");
        let number = |text: &str, name: &str| -> f64 {
            between(text, &format!(" {name}=\""), "\"")
                .next()
                .unwrap_or_else(|| panic!("{name}: {text}"))
                .parse()
                .unwrap()
        };
        let width = number(&svg, "width") - 120.0;
        let scale = width / row.total(PREPARE).max(row.total(EFFECT)) as f64;
        let blocks = svg.lines().filter(|line| line.contains(" height=\"24\"")).collect::<Vec<_>>();
        let mut tops = blocks.iter().map(|block| number(block, "y") as u32).collect::<Vec<_>>();
        tops.sort();
        tops.dedup();
        for (view, top) in [PREPARE, EFFECT].into_iter().zip(tops) {
            let drawn = blocks.iter().filter(|block| number(block, "y") as u32 == top);
            let drawn = drawn.map(|block| [number(block, "x") - 100.0, number(block, "width")]).collect::<Vec<_>>();
            let long = (0..row.entries.len()).filter(|&place| row.entries[place].lengths[view] > 0);
            let wanted = long.map(|place| [row.before(view, place), row.entries[place].lengths[view]]);
            let wanted = wanted.map(|block| block.map(|length| length as f64 * scale)).collect::<Vec<_>>();
            assert_eq!(drawn.len(), wanted.len());
            let off =
                drawn.iter().zip(&wanted).flat_map(|(drawn, wanted)| [0, 1].map(|at| (drawn[at] - wanted[at]).abs()));
            assert!(off.fold(0.0, f64::max) < 0.06, "{drawn:?} {wanted:?}");
        }
        assert_eq!(svg.matches("<path").count(), row.entries.len(), "a band for each entry");
        assert_eq!(svg.matches(">finger</text>").count(), 1);
        let ids = between(&svg, " font-weight=\"bold\" text-anchor=\"middle\">", "<").filter(|text| *text != "finger");
        let ids = ids.collect::<Vec<_>>();
        let leaves = row.entries.iter().map(|entry| entry.id.to_string()).collect::<Vec<_>>();
        assert!(ids.ends_with(&leaves.iter().map(String::as_str).collect::<Vec<_>>()), "the leaves' entries in order");
    }
}

/// docs/sheet.svg is what its command makes: `cargo run -p sheet -- --svg ../docs/sheet.svg < sheet/tests/picture.txt` in host/.
#[test]
fn the_committed_picture_is_made_by_its_command() {
    let here = Path::new(env!("CARGO_MANIFEST_DIR"));
    let mut console = Console::new(true);
    console.lines(&fs::read_to_string(here.join("tests/picture.txt")).unwrap());
    assert_eq!(console.differing, 0);
    assert_eq!(console.svg() + "\n", fs::read_to_string(here.join("../../docs/sheet.svg")).unwrap());
}
