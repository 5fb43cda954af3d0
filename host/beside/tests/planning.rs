//! Lists of the planning tree's calls: every answer and refusal is that of a plain row with bounds, every word lib.rs's, both audits say
//! yes, and a refused call leaves head and areas. For small trees every choice of lengths is tried, so that "could hold" and an entry's
//! positions are those of document 02's definitions.

use beside::planning::{make, Beside, Plans};
use oracle::at_fan;
use oracle::fans::FANS;
use oracle::lists::Sizes;
use oracle::planning::choice::{every_list, Choices};
use oracle::planning::lists::{Lister, Style, EVEN, GROWING, LOOKING};
use oracle::planning::{bounds, Bounds, Call, Row, KINDS};
use oracle::state::NONE;
use smelvock::raw::word::LEVELS;
use smelvock::PlanningTree;

const SCALE: u64 = if cfg!(debug_assertions) { 1 } else { 6 };

/// What the lists have met.
#[derive(Default, Debug)]
struct Met {
    /// Calls answered, by kind, and refused, by number.
    kinds: [u64; KINDS],
    refused: [u64; 21],
    /// Splits refused by 20, by the part that would be out of order: given, left.
    crossed: [u64; 2],
    /// Inserts and sets refused by 20 that would pass u32 too.
    crossed_and_past: u64,
    /// Positions whose first and last entry aren't the same; positions at or past the lowest total.
    apart: u64,
    past_lowest: u64,
    most_levels: u32,
}

impl Met {
    fn note(&mut self, before: &Row, call: Call, number: u32) {
        if number == 0 {
            self.kinds[call.kind()] += 1;
        } else {
            self.refused[number as usize] += 1;
        }
        match call {
            Call::Split { id, bounds: moved, .. } if number == 20 => {
                let own = before.entries[before.place(id).expect("it isn't 4")].bounds;
                let left = bounds(own.low - moved.low, own.high - moved.high);
                self.crossed[0] += moved.crossed() as u64;
                self.crossed[1] += left.crossed() as u64;
            }
            Call::Insert { bounds, .. } | Call::Set { bounds, .. } if number == 20 => {
                self.crossed_and_past += before.totals()[0].checked_add(bounds.low).is_none() as u64;
            }
            Call::FirstAt { position } | Call::LastAt { position } if number == 0 => {
                let [first, last] = [Call::FirstAt { position }, Call::LastAt { position }];
                self.apart += (before.clone().answer(first) != before.clone().answer(last)) as u64;
                self.past_lowest += (position >= before.totals()[0]) as u64;
            }
            _ => {}
        }
    }

    /// Whether every kind was answered and every refusal of a list met.
    fn whole(&self) -> bool {
        self.kinds.iter().all(|&count| count > 0)
            && [4, 5, 6, 7, 8, 17, 20].iter().all(|&number| self.refused[number] > 0)
    }
}

/// What a list begins with and how it is drawn.
#[derive(Clone, Copy)]
struct Run {
    style: Style,
    limit: u32,
    first: Bounds,
    calls: u64,
    /// Every word is compared after every so many calls.
    compared: u64,
}

fn list<const N: usize, P: Plans>(port: P, run: Run, seed: u64, met: &mut Met) {
    let mut list = Beside::<N, P>::new(port, run.limit, run.first);
    let mut lister = Lister::new(seed, run.style);
    for call in 1..=run.calls {
        let (drawn, before) = (lister.draw(&list.row), list.row.clone());
        let compared = call % run.compared == 0;
        match list.play(drawn, compared) {
            Ok(number) => met.note(&before, drawn, number),
            Err(parted) => panic!("call {call} of seed {seed}: {parted}"),
        }
        if compared {
            met.most_levels = met.most_levels.max(list.port.words()[0][LEVELS]);
        }
    }
}

fn style(weights: [u64; KINDS], sizes: Sizes, miss: u64) -> Style {
    Style { weights, sizes, close: 50, miss }
}

/// On the exports with guards around what is lent, and on `host/smelvock`'s own type with areas of its own.
fn on_both<const N: usize>(run: Run, seed: u64, met: &mut Met) {
    let (number, port) = make(N as u32, run.limit, run.first);
    assert_eq!(number, 0);
    list::<N, _>(port, run, seed, met);
    let Bounds { low, high } = run.first;
    let first = smelvock::Bounds { lowest: low, highest: high };
    let port = PlanningTree::<N>::with_limit(run.limit, first).expect("fan, limit and bounds are good");
    list::<N, _>(port, run, seed + 1, met);
}

#[test]
fn random_lists() {
    let runs = [
        Run { style: style(EVEN, Sizes::Small, 12), limit: 40, first: bounds(2, 4), calls: 900, compared: 1 },
        Run { style: style(LOOKING, Sizes::Small, 3), limit: 60, first: bounds(0, 9), calls: 900, compared: 1 },
        Run { style: style(EVEN, Sizes::Zeros, 12), limit: 30, first: bounds(0, 0), calls: 500, compared: 1 },
        Run { style: style(EVEN, Sizes::NearEnd, 20), limit: 20, first: bounds(0, NONE), calls: 500, compared: 1 },
        Run { style: style(GROWING, Sizes::Small, 2), limit: 700, first: bounds(1, 1), calls: 1_500, compared: 25 },
    ];
    let mut met = Met::default();
    for (seed, run) in (0..).step_by(100_000).zip(runs) {
        for (fan, again) in FANS.into_iter().flat_map(|fan| (0..SCALE).map(move |again| (fan, again))) {
            at_fan!(fan, N => on_both::<N>(run, seed + again * 1_000 + fan as u64 * 10, &mut met));
        }
    }
    let calls = met.kinds.iter().chain(&met.refused).sum::<u64>();
    println!("{calls} calls: {met:?}");
    assert!(met.whole() && met.most_levels >= 5, "{met:?}");
    assert!(met.crossed.iter().chain([&met.crossed_and_past, &met.apart, &met.past_lowest]).all(|&count| count > 100));
}

/// The tree's positions, and the first and last entry at every position and past the last, are what all choices come to.
fn by_force(tree: &mut impl Plans, row: &Row) -> u64 {
    let choices = Choices::of(&row.entries.iter().map(|entry| entry.bounds).collect::<Vec<_>>());
    let mut asked = |call| tree.play(call);
    for (place, &id) in row.entries.iter().map(|entry| &entry.id).enumerate() {
        let wanted =
            [choices.earliest(place), choices.latest(place)].map(|at| (0, [at.expect("there is a choice"), 0]));
        assert_eq!([Call::Earliest { id }, Call::Latest { id }].map(&mut asked), wanted, "id {id} of {row:?}");
    }
    let end = choices.positions();
    for position in (0..end + 3).chain([NONE - 1, NONE]) {
        let wanted = [choices.first_at(position), choices.last_at(position)];
        let wanted = wanted.map(|place| place.map_or((5, [0; 2]), |place| (0, [row.entries[place].id, 0])));
        let said = [Call::FirstAt { position }, Call::LastAt { position }].map(&mut asked);
        assert_eq!(said, wanted, "position {position} of {row:?}");
        assert_eq!(said[0].0 == 5, position >= row.totals()[1], "position {position} of {row:?}");
    }
    choices.count
}

/// Every list of some entries with small bounds, each inserted at the end.
#[test]
fn every_choice_of_every_small_tree() {
    let sizes: &[(usize, u32)] =
        if SCALE == 1 { &[(1, 4), (2, 3), (4, 2)] } else { &[(1, 9), (2, 5), (3, 4), (4, 3), (5, 2)] };
    let (mut trees, mut choices) = (0, 0);
    for &(entries, most) in sizes {
        every_list(entries, most, &mut |all| {
            let (number, mut tree) = make(4, 5, all[0]);
            let mut row = Row::make(5, all[0]).expect("in order");
            assert_eq!(number, 0);
            for &bounds in &all[1..] {
                let call = Call::Insert { before: NONE, bounds };
                assert_eq!(tree.play(call), row.answer(call));
            }
            choices += by_force(&mut tree, &row);
            trees += 1;
        });
    }
    println!("{trees} trees, {choices} choices of lengths");
    assert!(trees > 1_000 && choices > 8_000);
}

/// Random lists on trees of several leaves, with every choice tried after each call that changes one.
fn forced<const N: usize>(seed: u64) -> [u64; 2] {
    let (_, port) = make(N as u32, 9, bounds(1, 2));
    let mut list = Beside::<N, _>::new(port, 9, bounds(1, 2));
    let mut lister = Lister::new(seed, style([8, 60, 60, 60, 0, 0, 0, 0, 0, 20, 20], Sizes::Small, 5));
    let [mut trees, mut choices] = [0, 0];
    for _ in 0..150 {
        let call = lister.draw(&list.row);
        let number = list.play(call, true).unwrap();
        let ways = list.row.entries.iter().map(|entry| (entry.bounds.high - entry.bounds.low) as u64 + 1);
        let ways = ways.fold(1, u64::saturating_mul);
        if number == 0 && call.kind() < 4 && ways <= 4_000 {
            // on a copy: the finger of the list's own tree stays where its calls left it
            choices += by_force(&mut list.port.clone(), &list.row);
            trees += 1;
        }
    }
    [trees, choices]
}

#[test]
fn every_choice_after_every_call_of_random_lists() {
    let mut tried = [0, 0];
    for (fan, seed) in FANS.into_iter().flat_map(|fan| (0..2 * SCALE).map(move |seed| (fan, seed))) {
        let [trees, choices] = at_fan!(fan, N => forced::<N>(seed * 64 + fan as u64));
        tried = [tried[0] + trees, tried[1] + choices];
    }
    println!("{} trees, {} choices of lengths", tried[0], tried[1]);
    assert!(tried[0] > 500 && tried[1] > 10_000);
}
