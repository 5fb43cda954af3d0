//! The ratios port / lib.rs of every call as a picture: a dot for each fan on a logarithmic scale, at two numbers of entries.

use crate::report::grouped;
use crate::runs::Runs;
use std::fmt::Write;

/// Fans with their colours and shapes.
const FANS: [(u32, &str); 3] = [(4, "#0072b2"), (8, "#d55e00"), (32, "#009e73")];
const MARKS: [f64; 7] = [0.25, 0.5, 1.0, 2.0, 4.0, 8.0, 16.0];

const NAMES: f64 = 230.0;
const PANEL: f64 = 330.0;
const GAP: f64 = 40.0;
const TOP: f64 = 84.0;
const LINE: f64 = 22.0;

pub fn svg(runs: &Runs) -> String {
    let (names, sizes) = (runs.calls(), runs.sizes());
    let height = TOP + LINE * names.len() as f64 + 36.0;
    let width = NAMES + 2.0 * PANEL + 2.0 * GAP;
    let mut text = format!(
        "<svg xmlns=\"http://www.w3.org/2000/svg\" viewBox=\"0 0 {width} {height}\" width=\"{width}\" height=\"{height}\" \
         font-family=\"sans-serif\" font-size=\"12\">\n<rect width=\"{width}\" height=\"{height}\" fill=\"white\"/>\n"
    );
    legend(&mut text);
    for (row, name) in names.iter().enumerate() {
        let y = TOP + LINE * (row as f64 + 0.5);
        let name = name.trim_end_matches(" (port: its own areas)");
        write(&mut text, [NAMES - 10.0, y + 4.0], "end", "", name);
        let shade = if row.is_multiple_of(2) { "#f4f4f4" } else { "white" };
        for panel in 0..2 {
            let (x, y) = (left(panel), y - LINE / 2.0);
            _ = writeln!(text, "<rect x=\"{x}\" y=\"{y}\" width=\"{PANEL}\" height=\"{LINE}\" fill=\"{shade}\"/>");
        }
    }
    for (panel, entries) in [sizes[0], sizes[sizes.len() - 1]].into_iter().enumerate() {
        scale(&mut text, panel, entries, names.len());
        for (row, name) in names.iter().enumerate() {
            dots(&mut text, runs, panel, entries, row, name);
        }
    }
    text + "</svg>\n"
}

fn left(panel: usize) -> f64 {
    NAMES + panel as f64 * (PANEL + GAP)
}

/// Where a ratio stands on the scale, which ends at the outer marks.
fn across(ratio: f64) -> f64 {
    let [low, high] = [MARKS[0], MARKS[MARKS.len() - 1]].map(f64::ln);
    (ratio.ln().clamp(low, high) - low) / (high - low) * PANEL
}

fn write(text: &mut String, [x, y]: [f64; 2], anchor: &str, more: &str, words: &str) {
    _ = writeln!(text, "<text x=\"{x:.1}\" y=\"{y:.1}\" text-anchor=\"{anchor}\" {more}>{words}</text>");
}

fn legend(text: &mut String) {
    let title = "Time of a call, port / lib.rs (log scale; left of 1 the port is faster)";
    write(text, [NAMES, 22.0], "start", "font-size=\"14\" font-weight=\"bold\"", title);
    for (place, &(fan, colour)) in FANS.iter().enumerate() {
        let x = NAMES + 80.0 * place as f64;
        dot(text, [x + 6.0, 42.0], place, colour);
        write(text, [x + 16.0, 46.0], "start", "", &format!("N {fan}"));
    }
}

/// The marks of the scale, and its line at 1.
fn scale(text: &mut String, panel: usize, entries: u32, rows: usize) {
    let (x, bottom) = (left(panel), TOP + LINE * rows as f64);
    write(
        text,
        [x + PANEL / 2.0, 64.0],
        "middle",
        "font-weight=\"bold\"",
        &format!("{} entries", grouped(entries as f64)),
    );
    for mark in MARKS {
        let x = x + across(mark);
        let (colour, width) = if mark == 1.0 { ("black", 1.6) } else { ("#c8c8c8", 0.8) };
        _ = writeln!(
            text,
            "<line x1=\"{x:.1}\" y1=\"{TOP}\" x2=\"{x:.1}\" y2=\"{bottom}\" stroke=\"{colour}\" stroke-width=\"{width}\"/>"
        );
        write(text, [x, TOP - 5.0], "middle", "fill=\"#444444\"", &mark.to_string());
        write(text, [x, bottom + 15.0], "middle", "fill=\"#444444\"", &mark.to_string());
    }
}

/// One call's dots; a ratio past the scale stands at its end, with its number.
fn dots(text: &mut String, runs: &Runs, panel: usize, entries: u32, row: usize, name: &str) {
    for (place, &(fan, colour)) in FANS.iter().enumerate() {
        let Some(least) = runs.least(fan, entries, name) else { continue };
        let ratio = least.port / least.rust;
        let y = TOP + LINE * (row as f64 + 0.5) + (place as f64 - 1.0) * 5.0;
        dot(text, [left(panel) + across(ratio), y], place, colour);
        if ratio > MARKS[MARKS.len() - 1] {
            let x = left(panel) + PANEL - 8.0 - 40.0 * place as f64;
            write(text, [x, y + 4.0], "end", &format!("fill=\"{colour}\" font-size=\"10\""), &format!("{ratio:.0}"));
        }
    }
}

/// A circle, a square or a diamond, so that colours alone needn't be told apart.
fn dot(text: &mut String, [x, y]: [f64; 2], shape: usize, colour: &str) {
    _ = match shape {
        0 => writeln!(text, "<circle cx=\"{x:.1}\" cy=\"{y:.1}\" r=\"4\" fill=\"{colour}\"/>"),
        1 => writeln!(
            text,
            "<rect x=\"{:.1}\" y=\"{:.1}\" width=\"7\" height=\"7\" fill=\"{colour}\"/>",
            x - 3.5,
            y - 3.5
        ),
        _ => writeln!(text, "<path d=\"M{x:.1} {:.1}l4.8 4.8l-4.8 4.8l-4.8 -4.8z\" fill=\"{colour}\"/>", y - 4.8),
    };
}
