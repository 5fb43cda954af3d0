//! `sheet [--beside] [--echo] [--dot FILE] [--svg FILE] < COMMANDS`: the console on standard input and output.

use sheet::console::Console;
use std::io::{self, BufRead, IsTerminal, Write};
use std::process::ExitCode;
use std::{env, fs};

const USAGE: &str = "sheet [--beside] [--echo] [--dot FILE] [--svg FILE]
reads commands from standard input, a line each, and answers in words; `help` lists them
--beside    plays lib.rs along and says where it differs; the exit status is 1 then
--echo      prints each line behind `> ` before its answer
--dot FILE  writes the last tree for Graphviz
--svg FILE  writes a picture of the last sheet in both versions and its tree";

#[derive(Default)]
struct Options {
    beside: bool,
    echo: bool,
    help: bool,
    dot: Option<String>,
    svg: Option<String>,
}

fn options(mut words: impl Iterator<Item = String>) -> Result<Options, String> {
    let mut options = Options::default();
    while let Some(word) = words.next() {
        match word.as_str() {
            "--beside" => options.beside = true,
            "--echo" => options.echo = true,
            "--help" => options.help = true,
            "--dot" => options.dot = Some(words.next().ok_or("--dot: a file is missing")?),
            "--svg" => options.svg = Some(words.next().ok_or("--svg: a file is missing")?),
            _ => return Err(format!("{word}: no such option")),
        }
    }
    Ok(options)
}

/// Plays the lines of the input; what was typed at a terminal stands there already.
fn play(console: &mut Console, echo: bool) -> io::Result<()> {
    let (mut input, mut output) = (io::stdin().lock(), io::stdout().lock());
    let typed = io::stdin().is_terminal();
    let mut bytes = Vec::new();
    while !console.ended {
        if typed {
            write!(output, "> ")?;
            output.flush()?;
        }
        bytes.clear();
        if input.read_until(b'\n', &mut bytes)? == 0 {
            break;
        }
        let line = String::from_utf8_lossy(&bytes);
        if echo {
            writeln!(output, "{}", format!("> {}", line.trim_end()).trim_end())?;
        }
        write!(output, "{}", console.line(&line))?;
    }
    output.flush()
}

fn run() -> Result<u8, String> {
    let options = options(env::args().skip(1)).map_err(|why| format!("{why}\n{USAGE}"))?;
    if options.help {
        println!("{USAGE}");
        return Ok(0);
    }
    let mut console = Console::new(options.beside);
    play(&mut console, options.echo).map_err(|error| format!("standard input or output: {error}"))?;
    for (file, picture) in [(options.dot, console.dot()), (options.svg, console.svg())] {
        if let Some(file) = file {
            fs::write(&file, picture + "\n").map_err(|error| format!("{file} can't be written: {error}"))?;
        }
    }
    Ok((console.differing > 0) as u8)
}

fn main() -> ExitCode {
    match run() {
        Ok(status) => status.into(),
        Err(why) => {
            eprintln!("sheet: {why}");
            2.into()
        }
    }
}
