//! Random histories of a sheet, and one history in other orders.

pub mod plain;

use merge::{Change, Edit};
use oracle::edits::NONE;
use oracle::random::Random;
use plain::Plain;

/// The first version of a sheet, and edits of so many departments. Each is written on its department's last edit and, one time in three,
/// on any other too, as if the department had fetched that.
pub fn history(random: &mut Random, departments: u64, count: usize) -> (String, Vec<Edit>) {
    let sheet: String = (0..random.below(4)).map(|row| format!("row {row}\n")).collect();
    let (mut plain, mut edits) = (Plain::new(&sheet), Vec::<Edit>::new());
    for number in 0..count as u64 {
        let department = char::from(b'A' + random.below(departments) as u8);
        let own = edits.iter().rposition(|edit| edit.department == department).map_or(NONE, |own| own as u32);
        let other = if number > 0 && random.percent(33) { random.below(number) as u32 } else { NONE };
        let parents = if random.percent(50) { [own, other] } else { [other, own] };
        let length = plain.text(&plain.version(parents)).chars().count() as u64;
        let edit = Edit { department, parents, change: change(random, number, length) };
        plain.take(&edit);
        edits.push(edit);
    }
    (sheet, edits)
}

/// A change of a sheet of that length: most at any position, many at the start or near it, where others are made too.
fn change(random: &mut Random, number: u64, length: u64) -> Change {
    let near = random.percent(40);
    let at = |random: &mut Random, end: u64| random.below(if near { end.min(3) } else { end });
    if length > 0 && random.percent(35) {
        let at = at(random, length);
        let count = 1 + random.below((length - at).min(9));
        return Change::Delete { at: at as u32, count: count as u32 };
    }
    let letter = char::from(b'a' + (number % 26) as u8);
    let mut text: String = std::iter::repeat_n(letter, 1 + random.below(5) as usize).collect();
    if random.percent(20) {
        text.push('\n');
    }
    Change::Insert { at: at(random, length + 1) as u32, text }
}

/// The same edits in another order in which each stands behind those that it rests on.
pub fn reordered(random: &mut Random, edits: &[Edit]) -> Vec<Edit> {
    let (mut order, mut left): (Vec<u32>, Vec<u32>) = (Vec::new(), (0..edits.len() as u32).collect());
    while !left.is_empty() {
        let ready = |&&edit: &&u32| edits[edit as usize].parents.iter().all(|parent| !left.contains(parent));
        let ready: Vec<u32> = left.iter().filter(ready).copied().collect();
        let next = ready[random.below(ready.len() as u64) as usize];
        left.retain(|&edit| edit != next);
        order.push(next);
    }
    listed(edits, &order)
}

/// Some of the edits, each behind those that it rests on, with their numbers in this order.
pub fn listed(edits: &[Edit], order: &[u32]) -> Vec<Edit> {
    let number = |of: u32| order.iter().position(|&edit| edit == of).map_or(NONE, |number| number as u32);
    let renumbered = |&edit: &u32| {
        let edit = edits[edit as usize].clone();
        Edit { parents: edit.parents.map(number), ..edit }
    };
    order.iter().map(renumbered).collect()
}
