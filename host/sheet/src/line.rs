//! The words of a command line, read one by one.

use oracle::state::{EFFECT, LINES, NONE, PREPARE};
use std::iter::Peekable;
use std::str::{FromStr, SplitWhitespace};

/// Why a line can't be read: what stands there, or is missing, in the place of what was expected.
#[derive(Clone, PartialEq, Eq, Debug)]
pub struct Misspelt(pub String);

pub struct Line<'a>(Peekable<SplitWhitespace<'a>>);

impl<'a> Line<'a> {
    pub fn new(text: &'a str) -> Self {
        Line(text.split_whitespace().peekable())
    }

    /// The next word; nothing at the end of the line.
    pub fn next(&mut self) -> Option<&'a str> {
        self.0.next()
    }

    /// Whether the next word is this one, which is then taken.
    pub fn is(&mut self, word: &str) -> bool {
        self.0.next_if(|&next| next == word).is_some()
    }

    /// The next word, which is named so in what is said where it is missing.
    fn word(&mut self, name: &str) -> Result<&'a str, Misspelt> {
        self.next().ok_or_else(|| Misspelt(format!("{name} is missing")))
    }

    pub fn number(&mut self, name: &str) -> Result<u32, Misspelt> {
        let word = self.word(name)?;
        number(word).ok_or_else(|| Misspelt(format!("`{word}` for {name} isn't a number from 0 to {}", u32::MAX)))
    }

    /// One of some words, and what it stands for.
    pub fn one_of<T: Copy>(&mut self, name: &str, known: &[(&str, T)]) -> Result<T, Misspelt> {
        let word = self.word(name)?;
        let found = known.iter().find(|(known, _)| *known == word);
        found.map(|&(_, meant)| meant).ok_or_else(|| {
            let known = known.iter().map(|(known, _)| *known).collect::<Vec<_>>().join(", ");
            Misspelt(format!("`{word}` for {name} is none of {known}"))
        })
    }

    pub fn view(&mut self) -> Result<usize, Misspelt> {
        self.one_of("the view", &[("prepare", PREPARE), ("effect", EFFECT), ("lines", LINES)])
    }

    pub fn id(&mut self) -> Result<u32, Misspelt> {
        self.number("the entry's id")
    }

    /// The id before which an entry is inserted, or the end.
    pub fn target(&mut self) -> Result<u32, Misspelt> {
        if self.is("end") {
            return Ok(NONE);
        }
        let word = self.word("the id or `end`")?;
        number(word).ok_or_else(|| Misspelt(format!("`{word}` is neither an entry's id nor `end`")))
    }

    /// Prepare length, effect length, and line ends, which may be left out.
    pub fn lengths(&mut self) -> Result<[u32; 3], Misspelt> {
        let [prepare, effect] = [self.number("the prepare length")?, self.number("the effect length")?];
        let given = self.0.peek().is_some_and(|word| word.starts_with(|c: char| c.is_ascii_digit() || c == '-'));
        let lines = if given { self.number("the line ends")? } else { 0 };
        Ok([prepare, effect, lines])
    }

    /// Whether a split's new entry comes before the old one.
    pub fn side(&mut self) -> Result<bool, Misspelt> {
        self.one_of("the side", &[("before", true), ("after", false)])
    }

    /// The seat behind `for`, where one is named.
    pub fn seat(&mut self) -> Result<Option<u32>, Misspelt> {
        if self.is("for") {
            return self.number("the seat").map(Some);
        }
        Ok(None)
    }

    /// The eight shares behind `shares`, where there are any.
    pub fn shares(&mut self) -> Result<Option<[u32; 8]>, Misspelt> {
        if !self.is("shares") {
            return Ok(None);
        }
        let mut shares = [0; 8];
        for (seat, share) in shares.iter_mut().enumerate() {
            *share = self.number(&format!("the share of seat {seat}"))?;
        }
        Ok(Some(shares))
    }

    /// Nothing may be left.
    pub fn end(&mut self) -> Result<(), Misspelt> {
        match self.next() {
            None => Ok(()),
            Some(word) => Err(Misspelt(format!("`{word}` isn't expected there"))),
        }
    }
}

/// Digits alone: no sign.
fn number(word: &str) -> Option<u32> {
    u32::from_str(word).ok().filter(|_| word.bytes().all(|byte| byte.is_ascii_digit()))
}
