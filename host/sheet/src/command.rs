//! What a line of the console asks for. Each command has the name of its call in document 01's row, and lib.rs's own as another. One
//! more is a line of `forms!` and, unless it is a call of the row, a [`Command`] with its arm in the console's `play`.

use crate::line::{Line, Misspelt};
use crate::words::{Area, AREAS};
use oracle::record::Call;

#[derive(Clone, PartialEq, Eq, Debug)]
pub enum Command {
    New {
        fan: u32,
        limit: u32,
        lengths: [u32; 3],
        shares: Option<[u32; 8]>,
    },
    /// A call of the row, of which an insert or split names that seat, or none.
    Call {
        call: Call,
        seat: Option<u32>,
    },
    IsEmpty,
    Cursor {
        id: u32,
    },
    Seats,
    Print,
    Audit,
    Repair,
    Show,
    Tree,
    /// Into that file, or among the answers.
    Dot {
        file: Option<String>,
    },
    Svg {
        file: Option<String>,
    },
    /// Writes a word of the tree, as no call does.
    Damage {
        area: Area,
        word: u32,
        value: u32,
    },
    Help,
    Quit,
}

/// How a command is written, and what it does.
pub struct Form {
    pub name: &'static str,
    /// lib.rs's name of the call, where it is another.
    pub also: &'static [&'static str],
    pub takes: &'static str,
    pub does: &'static str,
    read: fn(&mut Line<'_>) -> Result<Command, Misspelt>,
}

/// Lists the forms: `name | other name, takes, does, reader;`.
macro_rules! forms {
    ($($name:literal $(| $also:literal)* $takes:literal $does:literal $read:expr;)*) => {
        pub const FORMS: &[Form] = &[
            $(Form { name: $name, also: &[$($also),*], takes: $takes, does: $does, read: $read }),*
        ];
    };
}

forms! {
    "new" | "make" "FAN LIMIT PREPARE EFFECT [LINES] [shares S0 .. S7]" "makes a sheet of one entry, id 0" |line| {
        let [fan, limit] = [line.number("the fan")?, line.number("the limit")?];
        Ok(Command::New { fan, limit, lengths: line.lengths()?, shares: line.shares()? })
    };
    "reset" "PREPARE EFFECT [LINES]" "makes this a sheet of one entry again" |line| {
        Ok(row(Call::Reset { lengths: line.lengths()? }))
    };
    "insert" "ID|end PREPARE EFFECT [LINES] [for SEAT]" "inserts an entry before that one, or at the end" |line| {
        let call = Call::Insert { before: line.target()?, lengths: line.lengths()? };
        Ok(Command::Call { call, seat: line.seat()? })
    };
    "split" | "split_entry" "ID PREPARE EFFECT [LINES] before|after [for SEAT]" "moves lengths into a new entry beside it" |line| {
        let call = Call::Split { id: line.id()?, lengths: line.lengths()?, before: line.side()? };
        Ok(Command::Call { call, seat: line.seat()? })
    };
    "set" | "set_lengths" "ID PREPARE EFFECT [LINES]" "gives an entry other lengths" |line| {
        Ok(row(Call::Set { id: line.id()?, lengths: line.lengths()? }))
    };
    "update" "ID PREPARE EFFECT [LINES]" "the same, and answers its effect position" |line| {
        Ok(row(Call::Update { id: line.id()?, lengths: line.lengths()? }))
    };
    "lookup" | "locate" "prepare|effect|lines POSITION" "finds the entry that holds a position" |line| {
        Ok(row(Call::Lookup { view: line.view()?, index: line.number("the position")? }))
    };
    "select" | "char_index_to_entry" "prepare|effect|lines POSITION" "the same, and answers entry and offset alone" |line| {
        Ok(row(Call::Select { view: line.view()?, index: line.number("the position")? }))
    };
    "rank" | "entry_to_char_index" "prepare|effect|lines ID" "an entry's position" |line| {
        Ok(row(Call::Rank { view: line.view()?, id: line.id()? }))
    };
    "next" "ID" "the entry after that one" |line| Ok(row(Call::Next { id: line.id()? }));
    "first" "" "the first entry" |_| Ok(row(Call::First));
    "compare" | "cmp" "ID ID" "which of two entries comes first" |line| {
        Ok(row(Call::Compare { first: line.id()?, second: line.number("the other entry's id")? }))
    };
    "lengths" "ID" "an entry's lengths" |line| Ok(row(Call::Lengths { id: line.id()? }));
    "count" | "len" "" "how many entries there are" |_| Ok(row(Call::Count));
    "is_empty" "" "whether there is none: never" |_| Ok(Command::IsEmpty);
    "cursor" "ID" "an entry's leaf and slot, and the stamp" |line| Ok(Command::Cursor { id: line.id()? });
    "seats" "" "shares and charges" |_| Ok(Command::Seats);
    "audit" "" "whether the tree is sound" |_| Ok(Command::Audit);
    "repair" "" "puts the tree right, by its lens, child numbers and leaf lengths" |_| Ok(Command::Repair);
    "print" "" "the sheet on paper, in pages" |_| Ok(Command::Print);
    "show" "" "the entries in order, with positions and lengths" |_| Ok(Command::Show);
    "tree" "" "draws the nodes and the finger" |_| Ok(Command::Tree);
    "dot" "[FILE]" "the tree for Graphviz" |line| Ok(Command::Dot { file: line.next().map(String::from) });
    "svg" "[FILE]" "a picture of both versions and the tree" |line| Ok(Command::Svg { file: line.next().map(String::from) });
    "damage" "head|leaves|inners|homes WORD VALUE" "writes a word of the tree, as a bad disk does" |line| {
        let area = line.one_of("the area", &AREAS)?;
        Ok(Command::Damage { area, word: line.number("the word")?, value: line.number("the value")? })
    };
    "help" "" "lists the commands" |_| Ok(Command::Help);
    "quit" "" "ends, as the end of the input does" |_| Ok(Command::Quit);
}

/// A call that names no seat.
fn row(call: Call) -> Command {
    Command::Call { call, seat: None }
}

impl Form {
    /// The command as it is written.
    pub fn usage(&self) -> String {
        [self.name, self.takes].join(" ").trim_end().to_string()
    }
}

/// The command of a line, nothing for an empty line or a comment, or what was expected in its place.
pub fn read(text: &str) -> Result<Option<Command>, Misspelt> {
    let mut line = Line::new(without_comment(text));
    let Some(name) = line.next() else { return Ok(None) };
    let form = FORMS.iter().find(|form| form.name == name || form.also.contains(&name)).ok_or_else(|| unknown(name))?;
    let command = (form.read)(&mut line).and_then(|command| line.end().map(|()| command));
    command.map(Some).map_err(|Misspelt(why)| Misspelt(format!("{why}; expected: {}", form.usage())))
}

/// A line up to the word that begins with `#`.
fn without_comment(text: &str) -> &str {
    let begins = |&(at, _): &(usize, &str)| text[..at].chars().next_back().is_none_or(char::is_whitespace);
    text.match_indices('#').find(begins).map_or(text, |(at, _)| &text[..at])
}

fn unknown(name: &str) -> Misspelt {
    let names = FORMS.iter().map(|form| form.name).collect::<Vec<_>>();
    let all = FORMS.iter().flat_map(|form| [form.name].into_iter().chain(form.also.iter().copied()));
    let close = all.map(|known| (distance(name, known), known)).min();
    let close = close.filter(|&(edits, known)| edits <= 2 && 2 * edits < known.len());
    let close = close.map_or(String::new(), |(_, known)| format!(" (`{known}`?)"));
    Misspelt(format!("`{name}` is no command{close}; expected one of: {}", names.join(", ")))
}

/// How many characters must be put in, left out or changed to make one word the other.
fn distance(one: &str, other: &str) -> usize {
    let other = other.chars().collect::<Vec<_>>();
    let mut row = (0..=other.len()).collect::<Vec<_>>();
    for (at, letter) in one.chars().enumerate() {
        let mut corner = std::mem::replace(&mut row[0], at + 1);
        for (at, &known) in other.iter().enumerate() {
            let changed = corner + (letter != known) as usize;
            corner = row[at + 1];
            row[at + 1] = changed.min(corner + 1).min(row[at] + 1);
        }
    }
    row[other.len()]
}
