//! Every public item has an example, which `cargo test` runs: each line of the sources that begins one stands below a doc comment with
//! code in it. Fields, variants and the places of a head's words, which their type's or module's example names, have none of their own.

use std::fs;
use std::path::{Path, PathBuf};

/// Files of private modules, whose items aren't seen outside.
const PRIVATE: [&str; 4] = ["area.rs", "owned.rs", "convert.rs", "examples.rs"];

fn sources(folder: &Path, found: &mut Vec<PathBuf>) {
    for file in fs::read_dir(folder).expect("the folder is there") {
        let path = file.expect("it can be read").path();
        if path.is_dir() {
            sources(&path, found);
        } else if !PRIVATE.iter().any(|name| path.ends_with(name)) {
            found.push(path);
        }
    }
}

/// The name of the public item that begins in a line: one of the language, an export, or a call over one (`raw`'s macros).
fn item(line: &str) -> Option<&str> {
    let line = line.trim_start();
    let named = |rest: &str| rest.find(|c: char| !c.is_alphanumeric() && !"_$".contains(c)).unwrap_or(rest.len());
    let public = line.strip_prefix("pub ").and_then(|rest| {
        let kinds = ["fn ", "struct ", "enum ", "const ", "type ", "trait ", "mod "];
        let name = kinds.iter().find_map(|kind| rest.strip_prefix(kind));
        name.or_else(|| rest.contains(" as smelvock_").then_some(rest))
    });
    let name = public.or_else(|| (line.contains("[u32], Areas") && line.contains("; ")).then_some(line))?;
    Some(&name[..named(name)])
}

/// The doc comment and attributes just above a line.
fn above<'a>(lines: &[&'a str], at: usize) -> Vec<&'a str> {
    let own = |line: &&&str| ["///", "#["].iter().any(|start| line.trim_start().starts_with(start));
    lines[..at].iter().rev().take_while(own).copied().collect()
}

/// What is left out: exports as C has them, functions that a macro makes, places of words, and modules in files of their own, which begin with an
/// example instead.
fn left_out(lines: &[&str], at: usize, name: &str) -> bool {
    let line = lines[at].trim_start();
    let in_words = lines[..at].iter().rev().find(|line| line.contains("pub mod ") || line.starts_with('}'));
    name.starts_with('$') && !line.starts_with("pub const")
        || line.contains("*const")
        || name.starts_with("smelvock_")
        || line.starts_with("pub mod") && line.ends_with(';')
        || in_words.is_some_and(|line| line.starts_with("pub mod word"))
}

#[test]
fn every_public_item_has_an_example() {
    let mut files = Vec::new();
    sources(&Path::new(env!("CARGO_MANIFEST_DIR")).join("src"), &mut files);
    let (mut items, mut without) = (0, Vec::new());
    for file in files {
        let text = fs::read_to_string(&file).expect("it can be read");
        let lines = text.lines().collect::<Vec<_>>();
        for (at, line) in lines.iter().enumerate() {
            let Some(name) = item(line).filter(|name| !left_out(&lines, at, name)) else { continue };
            items += 1;
            if !above(&lines, at).iter().any(|line| line.contains("```")) {
                without.push(format!("{}:{}: {name}", file.display(), at + 1));
            }
        }
        let module = ["lib.rs", "edits.rs", "raw.rs", "stored.rs", "planning.rs", "reading.rs"]
            .iter()
            .any(|name| file.ends_with(name));
        let public = module && !["src/planning.rs", "src/reading.rs"].iter().any(|name| file.ends_with(name));
        if public && !text.lines().any(|line| line.starts_with("//! ```")) {
            without.push(format!("{}: the module", file.display()));
        }
    }
    println!("{items} public items");
    assert!(without.is_empty(), "without an example:\n{}", without.join("\n"));
    assert!(items > 120, "{items} items: the sources are written otherwise than this test reads them");
}
