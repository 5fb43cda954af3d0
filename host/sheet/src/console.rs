//! The console: what is said to each line.

use crate::along::{self, Along};
use crate::command::{read, Command, FORMS};
use crate::drawn::Drawn;
use crate::line::Misspelt;
use crate::said::{counted, said, said_of};
use crate::tree::{self, Tree};
use crate::words::{name, Area, Words};
use crate::{audited, dot, show, svg, text};
use smelvock::raw::word;
use std::fs;

/// What a command says, and where lib.rs differs.
type Played = (String, Vec<String>);

pub struct Console {
    tree: Box<dyn Tree>,
    along: Option<Box<dyn Along>>,
    /// How many commands lib.rs, the plain row or the oracle's audit differed at.
    pub differing: u64,
    /// Whether `quit` was read.
    pub ended: bool,
}

impl Console {
    /// The tree of `rowrun`: fan 8, limit 512, one entry of no length; beside lib.rs or not.
    pub fn new(beside: bool) -> Console {
        let along = beside.then(|| along::make(8, 512, [0; 3], None).expect("fan and limit are good"));
        Console::with(tree::make(8, 512, [0; 3], None).expect("fan and limit are good"), along)
    }

    pub fn with(tree: Box<dyn Tree>, along: Option<Box<dyn Along>>) -> Console {
        Console { tree, along, differing: 0, ended: false }
    }

    /// What is said to a line: nothing to an empty one. A misspelt one changes nothing.
    pub fn line(&mut self, text: &str) -> String {
        let (said, differs) = match read(text) {
            Ok(None) => return String::new(),
            Ok(Some(command)) => self.play(command),
            Err(Misspelt(why)) => (format!("not understood: {why}"), Vec::new()),
        };
        self.differing += !differs.is_empty() as u64;
        let differs = differs.into_iter().map(|differs| format!("differs: {differs}"));
        [said].into_iter().chain(differs).map(|said| said + "\n").collect()
    }

    /// What is said to each line of a text.
    pub fn lines(&mut self, text: &str) -> String {
        text.lines().map(|line| self.line(line)).collect()
    }

    /// The tree's words.
    pub fn words(&self) -> Words {
        self.tree.words()
    }

    fn play(&mut self, command: Command) -> Played {
        let quiet = |said: String| (said, Vec::new());
        match command {
            Command::New { fan, limit, lengths, shares } => self.make(fan, limit, lengths, shares),
            Command::Call { call, seat } => {
                let reply = self.tree.call(seat, call);
                let mut differs = self.beside(|along| along.call(seat, call, &reply));
                differs.extend(self.differing_words());
                (said(call, &reply), differs)
            }
            Command::IsEmpty => {
                quiet(said_of(self.tree.is_empty(), |empty| if empty { "yes" } else { "no" }.to_string()))
            }
            Command::Cursor { id } => self.cursor(id),
            Command::Seats => quiet(self.seats()),
            Command::Print => {
                let pages = self.tree.pages();
                let differs = self.beside(|along| along.pages(&pages));
                (said_of(pages, |pages| String::from_utf8_lossy(&pages).trim_end_matches('\n').to_string()), differs)
            }
            Command::Audit => self.audit(),
            Command::Repair => self.repair(),
            Command::Show => {
                let shown = show::of_tree(&mut *self.tree);
                let differs = self.beside(|along| along.shown(&shown));
                (said_of(shown, |shown| show::table(&shown)), differs)
            }
            Command::Tree => quiet(text::text(&self.drawn())),
            Command::Dot { file } => quiet(put(file, self.dot())),
            Command::Svg { file } => quiet(put(file, self.svg())),
            Command::Damage { area, word, value } => self.damage(area, word, value),
            Command::Help => quiet(help()),
            Command::Quit => {
                self.ended = true;
                quiet("bye".to_string())
            }
        }
    }

    fn cursor(&mut self, id: u32) -> Played {
        let answer = self.tree.cursor(id);
        let differs = self.beside(|along| along.cursor(id, answer));
        let said = said_of(answer, |at| format!("entry {id}: leaf {}, slot {}, stamp {}", at.leaf, at.slot, at.stamp));
        (said, differs)
    }

    /// What is found beside lib.rs, where it is played along.
    fn beside(&mut self, find: impl FnOnce(&mut dyn Along) -> Vec<String>) -> Vec<String> {
        self.along.as_mut().map_or(Vec::new(), |along| find(&mut **along))
    }

    fn differing_words(&mut self) -> Vec<String> {
        let words = self.along.is_some().then(|| self.tree.words());
        words.map_or(Vec::new(), |words| self.beside(|along| along.words(&words)))
    }

    fn make(&mut self, fan: u32, limit: u32, lengths: [u32; 3], shares: Option<[u32; 8]>) -> Played {
        let made = tree::make(fan, limit, lengths, shares);
        let along = self.along.is_some().then(|| along::make(fan, limit, lengths, shares));
        let wanted = along.as_ref().map(|along| along.as_ref().err().map_or(0, |&number| number));
        let number = made.as_ref().err().map_or(0, |refusal| refusal.number);
        let mut differs = Vec::new();
        if wanted.is_some_and(|wanted| wanted != number) {
            differs.push(format!("the plain row: number {}", wanted.unwrap_or(0)));
        }
        let said = match made {
            Err(refusal) => refusal.to_string(),
            Ok(tree) => {
                self.tree = tree;
                self.along = along.and_then(Result::ok);
                format!("a sheet of one entry, id 0: {}", crate::said::lengths(lengths))
            }
        };
        differs.extend(self.differing_words());
        (said, differs)
    }

    fn audit(&mut self) -> Played {
        let (answer, oracle) = (self.tree.audit(), audited::verdict(&self.tree.words()));
        let differs = self.beside(|_| audited::difference(answer, oracle).into_iter().collect());
        (audited::said(answer, oracle), differs)
    }

    fn repair(&mut self) -> Played {
        let before = self.tree.words();
        let answer = self.tree.repair();
        let after = self.tree.words();
        let mut differs = self.beside(|along| {
            if answer.is_ok() {
                along.repaired();
            }
            audited::repair_difference(&before, &after, answer).into_iter().collect()
        });
        differs.extend(self.differing_words());
        (said_of(answer, |words| format!("{} put right", counted(words, "word", "words"))), differs)
    }

    fn seats(&self) -> String {
        let head = self.tree.words().head;
        if head[word::SEATED] == 0 {
            return "a tree without seats".to_string();
        }
        let of = |from: usize| (0..8).map(|seat| head[from + seat].to_string()).collect::<Vec<_>>().join(" ");
        format!("shares {}\ncharges {}", of(word::SHARES), of(word::CHARGES))
    }

    fn damage(&mut self, area: Area, word: u32, value: u32) -> Played {
        let fan = self.tree.words().head[word::FAN].clamp(4, 32);
        if !self.tree.damage(area, word, value) {
            return ("there is no such word".to_string(), Vec::new());
        }
        (format!("{}: {value}", name(area, word as usize, fan)), self.differing_words())
    }

    fn drawn(&self) -> Drawn {
        Drawn::of(&self.tree.words())
    }

    /// The tree for Graphviz.
    pub fn dot(&self) -> String {
        dot::dot(&self.drawn())
    }

    /// The picture of both versions and the tree.
    pub fn svg(&self) -> String {
        svg::svg(&self.drawn())
    }
}

/// Puts a text into a file, or answers it.
fn put(file: Option<String>, text: String) -> String {
    let Some(file) = file else { return text };
    match fs::write(&file, text + "\n") {
        Ok(()) => format!("written to {file}"),
        Err(error) => format!("{file} can't be written: {error}"),
    }
}

fn help() -> String {
    let width = FORMS.iter().map(|form| form.usage().len()).max().unwrap_or(0);
    let lines = FORMS.iter().map(|form| {
        let also = if form.also.is_empty() { String::new() } else { format!(" (or {})", form.also.join(", ")) };
        format!("{:width$}  {}{also}", form.usage(), form.does)
    });
    lines.collect::<Vec<_>>().join("\n")
}
