//! Lines that can't be read: each says what was expected, changes nothing, and the console goes on.

use sheet::command::FORMS;
use sheet::console::Console;

/// Lines and what is said of them, before the form of their command.
const MISSPELT: &[(&str, &str)] = &[
    ("new", "the fan is missing"),
    ("new 4", "the limit is missing"),
    ("new 4 5", "the prepare length is missing"),
    ("new 4 5 1", "the effect length is missing"),
    ("new four 5 1 1", "`four` for the fan isn't a number from 0 to 4294967295"),
    ("new 4 5 1 1 0 shares 1 2 3", "the share of seat 3 is missing"),
    ("new 4 5 1 1 0 shares 1 2 3 4 5 6 7 8 9", "`9` isn't expected there"),
    ("new 4 5 1 1 0 seats", "`seats` isn't expected there"),
    ("reset 1", "the effect length is missing"),
    ("insert", "the id or `end` is missing"),
    ("insert End 1 1", "`End` is neither an entry's id nor `end`"),
    ("insert -1 1 1", "`-1` is neither an entry's id nor `end`"),
    ("insert end +1 1", "`+1` for the prepare length isn't a number from 0 to 4294967295"),
    ("insert end 1 4294967296", "`4294967296` for the effect length isn't a number from 0 to 4294967295"),
    ("insert end 1 1 -1", "`-1` for the line ends isn't a number from 0 to 4294967295"),
    ("insert end 1 1 1x", "`1x` for the line ends isn't a number from 0 to 4294967295"),
    ("insert end 1 1 1 1", "`1` isn't expected there"),
    ("insert end 1 1 1 for", "the seat is missing"),
    ("insert end 1 1 1 for two", "`two` for the seat isn't a number from 0 to 4294967295"),
    ("split 0 1 1 0", "the side is missing"),
    ("split 0 1 1 0 between", "`between` for the side is none of before, after"),
    ("split end 1 1 before", "`end` for the entry's id isn't a number from 0 to 4294967295"),
    ("set 0", "the prepare length is missing"),
    ("update 0 1.5 1", "`1.5` for the prepare length isn't a number from 0 to 4294967295"),
    ("lookup 3", "`3` for the view is none of prepare, effect, lines"),
    ("lookup effect", "the position is missing"),
    ("select", "the view is missing"),
    ("rank effekt 0", "`effekt` for the view is none of prepare, effect, lines"),
    ("rank effect", "the entry's id is missing"),
    ("compare 0", "the other entry's id is missing"),
    ("damage heads 0 0", "`heads` for the area is none of head, leaves, inners, homes"),
    ("damage head", "the word is missing"),
    ("damage head 0", "the value is missing"),
    ("svg a b", "`b` isn't expected there"),
    ("quit now", "`now` isn't expected there"),
];

fn form(line: &str) -> String {
    let name = line.split(' ').next().unwrap();
    FORMS.iter().find(|form| form.name == name).expect("a command").usage()
}

/// What is said of the line, after which the tree is as it was and the next line is answered.
fn said(console: &mut Console, line: &str) -> String {
    let before = console.words();
    let said = console.line(line);
    assert_eq!(console.words(), before, "{line}");
    assert!(!console.ended);
    assert_eq!(console.line("count"), "2 entries\n");
    said
}

fn two_entries() -> Console {
    let mut console = Console::new(true);
    console.line("insert end 1 1");
    console
}

#[test]
fn each_says_what_was_expected() {
    let mut console = two_entries();
    for &(line, why) in MISSPELT {
        assert_eq!(said(&mut console, line), format!("not understood: {why}; expected: {}\n", form(line)));
    }
    println!("{} misspelt lines", MISSPELT.len());
    assert_eq!(console.differing, 0);
}

/// Every command, without the words that it takes and with one too many.
#[test]
fn every_command_says_its_form() {
    let mut console = two_entries();
    for form in FORMS {
        for name in [form.name].iter().chain(form.also) {
            let bare = said_or_done(&mut console, name, form.takes);
            let all_missing = !form.takes.is_empty() && !form.takes.starts_with('[');
            assert_eq!(bare.ends_with(&format!(" is missing; expected: {}\n", form.usage())), all_missing, "{bare}");
            let words = "x ".repeat(12);
            let many = said(&mut console, &format!("{name} {words}"));
            assert!(many.starts_with("not understood: `x` "), "{many}");
            assert!(many.ends_with(&format!("; expected: {}\n", form.usage())), "{many}");
        }
    }
}

/// A command that takes nothing is played on a console of its own: it may change the tree, or end.
fn said_or_done(console: &mut Console, name: &str, takes: &str) -> String {
    if takes.is_empty() || takes.starts_with('[') {
        return two_entries().line(name);
    }
    said(console, name)
}

#[test]
fn an_unknown_command() {
    let mut console = two_entries();
    let all = FORMS.iter().map(|form| form.name).collect::<Vec<_>>().join(", ");
    for (line, close) in [
        ("insrt end 1 1", " (`insert`?)"),
        ("INSERT end 1 1", ""),
        ("char_index_to_enty effect 1", " (`char_index_to_entry`?)"),
        ("counts", " (`count`?)"),
        ("remove 1", ""),
        ("foo", ""),
        ("1", ""),
    ] {
        let name = line.split(' ').next().unwrap();
        let wanted = format!("not understood: `{name}` is no command{close}; expected one of: {all}\n");
        assert_eq!(said(&mut console, line), wanted);
    }
}

#[test]
fn help_lists_every_command_with_what_it_takes() {
    let help = Console::new(false).line("help");
    assert_eq!(help.lines().count(), FORMS.len());
    for (line, form) in help.lines().zip(FORMS) {
        assert!(line.starts_with(&form.usage()) && line.contains(form.does), "{line}");
        assert!(form.also.iter().all(|name| line.contains(name)), "{line}");
    }
}
