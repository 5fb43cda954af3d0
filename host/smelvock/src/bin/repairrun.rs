//! `repairrun < FILE > OTHER`: reads a stored tree (`smelvock::stored`) from standard input, puts it right and writes it to standard
//! output; standard error gets how many words of its areas were others. Where repair is refused the tree is written back as it was, and
//! standard error gets the number. README has the exit statuses.

use smelvock::stored::Stored;
use smelvock::Refusal;
use std::io::{stdin, stdout, Read, Write};
use std::process::ExitCode;

/// Exit statuses beside 0 and the numbers of refusals: those of sysexits.h.
const USAGE: u8 = 64;
const DATA: u8 = 65;
const IO: u8 = 74;

fn main() -> ExitCode {
    match run() {
        Ok((status, told)) => ended(status, &told),
        Err((status, told)) => ended(status, told),
    }
}

fn ended(status: u8, told: &str) -> ExitCode {
    eprintln!("repairrun: {told}");
    ExitCode::from(status)
}

/// The exit status, and what standard error gets.
fn run() -> Result<(u8, String), (u8, &'static str)> {
    if std::env::args_os().len() > 1 {
        return Err((USAGE, "no arguments are wanted: a stored tree is read from standard input"));
    }
    let mut input = Vec::new();
    stdin().read_to_end(&mut input).map_err(|_| (IO, "standard input can't be read"))?;
    let mut stored = match Stored::from_bytes(&input) {
        Ok(stored) => stored,
        Err(malformed) => return Ok((DATA, malformed.to_string())),
    };
    let (status, told) = match stored.repair() {
        Ok(1) => (0, "1 word put right".to_string()),
        Ok(words) => (0, format!("{words} words put right")),
        Err(refusal @ Refusal { number }) => (number as u8, refusal.to_string()),
    };
    let mut output = stdout().lock();
    let written = output.write_all(&stored.to_bytes()).and_then(|()| output.flush());
    written.map(|()| (status, told)).map_err(|_| (IO, "standard output can't be written"))
}
