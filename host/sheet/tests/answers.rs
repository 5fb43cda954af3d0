//! Answers and refusals in words, on random sessions beside the plain row: every number said is the row's.

use oracle::lists::{with_resets, Lister, Sizes, Style, EVEN, GROWING, LOOKING};
use oracle::random::Random;
use oracle::record::Call;
use oracle::row::Row;
use oracle::state::{EFFECT, LINES, NONE, PREPARE};
use sheet::console::Console;
use smelvock::raw::word;
use smelvock::Refusal;

/// The line that asks for a call.
fn line(call: Call) -> String {
    let views = ["prepare", "effect", "lines"];
    let three = |[prepare, effect, lines]: [u32; 3]| format!("{prepare} {effect} {lines}");
    match call {
        Call::Reset { lengths } => format!("reset {}", three(lengths)),
        Call::Insert { before: NONE, lengths } => format!("insert end {}", three(lengths)),
        Call::Insert { before, lengths } => format!("insert {before} {}", three(lengths)),
        Call::Split { id, lengths, before } => {
            format!("split {id} {} {}", three(lengths), if before { "before" } else { "after" })
        }
        Call::Set { id, lengths } => format!("set {id} {}", three(lengths)),
        Call::Update { id, lengths } => format!("update {id} {}", three(lengths)),
        Call::Lookup { view, index } => format!("lookup {} {index}", views[view]),
        Call::Select { view, index } => format!("select {} {index}", views[view]),
        Call::Rank { view, id } => format!("rank {} {id}", views[view]),
        Call::Next { id } => format!("next {id}"),
        Call::Compare { first, second } => format!("compare {first} {second}"),
        Call::Lengths { id } => format!("lengths {id}"),
        Call::Count => "count".to_string(),
        Call::First => "first".to_string(),
    }
}

fn numbers(text: &str) -> Vec<u32> {
    let digits = text.split(|c: char| !c.is_ascii_digit()).filter(|digits| !digits.is_empty());
    digits.map(|digits| digits.parse().expect("a word")).collect()
}

/// The numbers that an answer must have, in their order.
fn wanted(call: Call, [first, second, third, fourth]: [u32; 4]) -> Vec<u32> {
    match call {
        Call::Reset { lengths: [p, e, l] } => vec![0, p, e, l],
        Call::Insert { .. } | Call::Select { .. } => vec![first, second],
        Call::Split { id, .. } => vec![first, id],
        Call::Set { id, lengths: [p, e, l] } => vec![id, p, e, l],
        Call::Update { id, lengths: [p, e, l] } => vec![id, p, e, l, first],
        Call::Lookup { .. } => vec![first, second, third, fourth],
        Call::Rank { id, .. } => vec![id, first],
        Call::Next { id } if first == NONE => vec![id],
        Call::Compare { first, second } => vec![first, second],
        Call::Lengths { id } => vec![id, first, second, third],
        Call::Next { .. } | Call::Count | Call::First => vec![first],
    }
}

/// The numbers said, less a lookup's last: how many slots it examined, which the row doesn't count. It is within its bound, and the console
/// holds it against lib.rs's words.
fn counted(call: Call, said: &str, console: &Console) -> Vec<u32> {
    let mut numbers = numbers(said);
    if matches!(call, Call::Lookup { .. } | Call::Select { .. }) {
        let (examined, head) = (numbers.pop().expect("a count"), console.words().head);
        assert!((1..=head[word::FAN] * (head[word::LEVELS] + 2)).contains(&examined), "{said}");
    }
    numbers
}

/// The table that `show` must print, without its heads.
fn shown(row: &Row) -> Vec<Vec<u32>> {
    let line = |place: usize| {
        let entry = row.entries[place];
        let at = [PREPARE, EFFECT, LINES].map(|view| row.before(view, place));
        [&[entry.id][..], &at, &entry.lengths].concat()
    };
    (0..row.entries.len()).map(line).collect()
}

fn as_the_row(fan: u32, seed: u64, weights: [u64; 13], sizes: Sizes, met: &mut [u64; 18]) {
    let mut row = Row::make(60, [2, 2, 1]);
    let mut console = Console::new(true);
    console.line(&format!("new {fan} 60 2 2 1"));
    let mut lister = Lister::new(seed, Style { weights, sizes, close: 60, miss: 15 });
    for drawn in 0..600 {
        let Some(call) = lister.draw(&row).call() else { continue };
        let answer = row.answer(Some(call));
        let line = line(call);
        let said = console.line(&line);
        met[answer.number as usize] += 1;
        match answer.number {
            0 => assert_eq!(counted(call, &said, &console), wanted(call, answer.fields), "{line}: {said}"),
            number => assert_eq!(said, format!("{}\n", Refusal { number: number.into() }), "{line}"),
        }
        let order = ["stands before", "is", "stands after"][answer.fields[0].min(2) as usize];
        assert!(!matches!(call, Call::Compare { .. }) || answer.number != 0 || said.contains(order), "{line}: {said}");
        if drawn % 50 == 0 {
            let table = console.line("show");
            assert_eq!(table.lines().skip(1).map(numbers).collect::<Vec<_>>(), shown(&row));
            assert_eq!(console.line("audit"), "sound\n");
        }
    }
    assert_eq!(console.differing, 0);
}

#[test]
fn every_number_said_is_the_rows() {
    let mut met = [0; 18];
    for fan in [4, 5, 13, 32] {
        as_the_row(fan, fan as u64, with_resets(GROWING), Sizes::Small, &mut met);
        as_the_row(fan, 100 + fan as u64, EVEN, Sizes::NearEnd, &mut met);
        as_the_row(fan, 200 + fan as u64, LOOKING, Sizes::Zeros, &mut met);
    }
    println!("{} calls answered, refused by number: {met:?}", met[0]);
    assert!([0, 4, 5, 6, 7, 8, 17].iter().all(|&number| met[number] > 0), "{met:?}");
}

/// Inserts and splits for whichever seat, until the sheet is full, and again after a reset.
#[test]
fn seats_are_charged_as_the_rows() {
    let shares = [3, 0, 5, 1, 0, 0, 2, 0];
    let mut console = Console::new(true);
    console.line("new 4 20 9 9 9 shares 3 0 5 1 0 0 2 0");
    let mut row = Row::seated(20, [9; 3], shares).expect("the shares are few");
    let (mut random, mut met) = (Random::new(18), [0; 20]);
    for drawn in 0..300 {
        let seat = random.below(9) as u32;
        let id = random.below(row.count() as u64) as u32;
        let lengths = [0, 1, 2].map(|_| random.below(3) as u32);
        let (call, named) = match drawn % 100 {
            99 => (Call::Reset { lengths: [9; 3] }, None),
            _ if random.percent(50) => (Call::Insert { before: id, lengths }, Some(seat)),
            _ => (Call::Split { id, lengths, before: random.percent(50) }, Some(seat).filter(|_| !random.percent(5))),
        };
        let answer = row.answer_for(named, Some(call));
        let said = console.line(&(line(call) + &named.map_or(String::new(), |seat| format!(" for {seat}"))));
        met[answer.number as usize] += 1;
        match answer.number {
            0 => assert_eq!(numbers(&said), wanted(call, answer.fields), "{said}"),
            number => assert_eq!(said, format!("{}\n", Refusal { number: number.into() })),
        }
        let charges = row.seats.expect("it has seats").charges;
        assert_eq!(numbers(&console.line("seats")), [shares, charges].concat());
    }
    println!("answers by number: {met:?}");
    assert!([0, 6, 10, 17, 18].iter().all(|&number| met[number] > 0), "{met:?}");
    assert_eq!(console.differing, 0);
}

/// A list of lines for each refusal that a call by id can have; the last one is refused. A damaged tree has 2 and 9.
const REFUSED: &[(u32, &str)] = &[
    (1, "new 3 5 1 1"),
    (1, "new 33 5 1 1"),
    (1, "new 4 0 1 1"),
    (1, "new 4 65537 1 1"),
    (2, "damage head 1 600\nfirst"),
    (4, "next 1"),
    (4, "compare 0 4294967295"),
    (5, "lookup effect 0"),
    (6, "split 0 1 0 before"),
    (7, "set 0 4294967295 0\ninsert end 1 0"),
    (8, "new 4 1 0 0\ninsert end 0 0"),
    (9, "damage head 2 5000\nfirst"),
    (10, "set 7 0 0 65536"),
    (10, "new 3 0 0 0 65536"),
    (10, "insert end 1 1 for 0"),
    (17, "set 0 2 2\nsplit 0 0 0 before"),
    (18, "new 4 3 0 0 0 shares 1 1 0 0 0 0 0 0\ninsert end 0 0 for 2"),
    (19, "new 4 2 0 0 0 shares 1 1 0 0 0 0 0 0"),
    (21, "insert end 1 1\ndamage leaves 3 1\nrepair"),
];

#[test]
fn each_refusal_is_said_with_its_text() {
    for &(number, lines) in REFUSED {
        let mut console = Console::new(false);
        let said = console.lines(lines);
        assert_eq!(said.lines().last(), Some(Refusal { number }.to_string().as_str()), "{lines}");
        assert!(said.lines().last().is_some_and(|said| said.starts_with(&format!("refused by {number}: "))));
    }
    println!("{} refusals", REFUSED.len());
}

/// The pages, and the calls that the row hasn't.
#[test]
fn the_other_answers() {
    let mut console = Console::new(true);
    console.lines("new 4 9 3 3\ninsert end 2 0 7");
    let pages = console.line("print");
    assert_eq!((pages.len(), pages.lines().count()), (2_750, 50));
    assert_eq!(pages.lines().map(numbers).collect::<Vec<_>>()[..3], [vec![0, 0, 0, 3, 3], vec![1, 3, 3, 2, 0], vec![]]);
    assert_eq!(console.line("is_empty"), "no\n");
    assert_eq!(console.line("cursor 1"), "entry 1: leaf 0, slot 1, stamp 2\n");
    assert_eq!(console.line("cursor 2"), format!("{}\n", Refusal::ID));
    assert_eq!(console.line("seats"), "a tree without seats\n");
    console.lines("new 4 9 1 1 shares 0 1 2 3 0 0 0 0\ninsert end 1 1 for 6");
    assert_eq!(console.line("seats"), "shares 0 1 2 3 0 0 0 0\ncharges 0 0 0 0 0 0 1 0\n");
    assert_eq!(console.differing, 0);
}
