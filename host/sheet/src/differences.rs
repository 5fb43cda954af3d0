//! Where the words of two trees differ, each said by its name.

use crate::words::{name, Area, Words, AREAS};

/// How many of a call's differences are said; the others are counted.
const MOST: usize = 8;

/// The words of the port that aren't those of lib.rs, which has words in use alone.
pub fn differences(port: &Words, lib: &Words) -> Vec<String> {
    let mut found = Vec::new();
    for (_, area) in AREAS {
        for (word, &wanted) in lib.area(area).iter().enumerate() {
            let there = port.area(area).get(word).copied();
            if there != Some(wanted) {
                let there = there.map_or("nothing".to_string(), |there| there.to_string());
                found.push(format!("{}: {there}, in lib.rs {wanted}", name(area, word, fan(lib))));
            }
        }
    }
    let more = found.len().saturating_sub(MOST);
    found.truncate(MOST);
    if more > 0 {
        found.push(format!("and {more} more words"));
    }
    found
}

fn fan(words: &Words) -> u32 {
    words.area(Area::Head)[smelvock::raw::word::FAN]
}
