//! `--beside` says where lib.rs, the plain row or the oracle's audit differ: of wrong trees, and of every changed word.

use oracle::record::Call;
use sheet::console::Console;
use sheet::tree::{make, Done, Reply, Tree};
use sheet::words::{name, Area, Words, AREAS};
use smelvock::{raw, Refusal};

/// A wrong tree: what it does instead of the port.
#[derive(Clone, Copy, PartialEq, Eq, Debug)]
enum Wrong {
    /// Document 01's mistakes near to hand, and some that its clause c shuts out by name.
    EffectPlusOffset,
    SideSwapped,
    InsertStoresNothing,
    EightBeforeTheLimit,
    NoneAfterAll,
    RefusalOfAll,
    OneEntryForAll,
    PrepareLeftZero,
    SplitUncounted,
    /// Of the other calls.
    CursorBeside,
    PageChanged,
    AuditAlwaysYes,
    SeatUncharged,
    OneSlotExamined,
    NothingRepaired,
    FingerKept,
}

struct Stand {
    tree: Box<dyn Tree>,
    wrong: Wrong,
    splits: u32,
}

impl Tree for Stand {
    fn call(&mut self, seat: Option<u32>, call: Call) -> Reply {
        let wrong = |wrong: Wrong| wrong == self.wrong;
        match call {
            Call::Insert { .. } if wrong(Wrong::InsertStoresNothing) => {
                return Ok(Done { fields: [1, 0, 0, 0], examined: 0 })
            }
            Call::Insert { .. } if wrong(Wrong::EightBeforeTheLimit) => return Err(Refusal::FULL),
            Call::Next { .. } if wrong(Wrong::NoneAfterAll) => {
                return Ok(Done { fields: [u32::MAX, 0, 0, 0], examined: 0 })
            }
            Call::Lookup { .. } if wrong(Wrong::OneEntryForAll) => return Ok(Done { fields: [0; 4], examined: 2 }),
            Call::Split { id, lengths, before } if wrong(Wrong::SideSwapped) => {
                return self.tree.call(seat, Call::Split { id, lengths, before: !before });
            }
            _ if wrong(Wrong::RefusalOfAll) => return Err(Refusal::FIELD),
            _ => {}
        }
        let Done { fields: [first, second, third, fourth], examined } = self.tree.call(seat, call)?;
        self.splits += matches!(call, Call::Split { .. }) as u32;
        let fields = match call {
            Call::Lookup { .. } if wrong(Wrong::EffectPlusOffset) => [first, second, third + second, fourth],
            Call::Lookup { .. } if wrong(Wrong::PrepareLeftZero) => [first, second, third, 0],
            Call::Count if wrong(Wrong::SplitUncounted) => [first - self.splits, 0, 0, 0],
            _ => [first, second, third, fourth],
        };
        if wrong(Wrong::SeatUncharged) {
            self.tree.damage(Area::Head, raw::word::CHARGES as u32 + 1, 0);
        }
        Ok(Done { fields, examined: if wrong(Wrong::OneSlotExamined) { examined.min(1) } else { examined } })
    }
    fn cursor(&self, id: u32) -> Result<raw::Cursor, Refusal> {
        let at = self.tree.cursor(id)?;
        Ok(raw::Cursor { slot: at.slot + (self.wrong == Wrong::CursorBeside) as u32, ..at })
    }
    fn is_empty(&self) -> Result<bool, Refusal> {
        self.tree.is_empty()
    }
    fn audit(&self) -> Result<bool, Refusal> {
        self.tree.audit().map(|sound| sound || self.wrong == Wrong::AuditAlwaysYes)
    }
    fn repair(&mut self) -> Result<u32, Refusal> {
        let finger = self.tree.words().head[raw::word::PRESENT];
        match self.wrong {
            Wrong::NothingRepaired => Ok(0),
            Wrong::FingerKept => {
                let repaired = self.tree.repair();
                self.tree.damage(Area::Head, raw::word::PRESENT as u32, finger);
                repaired
            }
            _ => self.tree.repair(),
        }
    }
    fn pages(&self) -> Result<Vec<u8>, Refusal> {
        let mut pages = self.tree.pages()?;
        pages[55 + 9] += (self.wrong == Wrong::PageChanged) as u8;
        Ok(pages)
    }
    fn words(&self) -> Words {
        self.tree.words()
    }
    fn damage(&mut self, area: Area, word: u32, value: u32) -> bool {
        self.tree.damage(area, word, value)
    }
}

/// Each wrong tree, the lines at which it is found out, and what is said of the last one.
const FOUND: &[(Wrong, &str, &str)] = &[
    (
        Wrong::EffectPlusOffset,
        "lookup effect 2",
        "the plain row: entry 0, offset 2; it stands at effect position 0, prepare position 0; 2 slots examined",
    ),
    (
        Wrong::PrepareLeftZero,
        "insert end 1 1 for 1\nlookup effect 3",
        "lib.rs: entry 1, offset 0; it stands at effect position 3, prepare position 3; 3 slots examined",
    ),
    (Wrong::SideSwapped, "split 0 1 1 before for 1", "leaf 0, slot 0, id: 0, in lib.rs 1"),
    (Wrong::InsertStoresNothing, "insert end 1 1 for 1", "entries: 1, in lib.rs 2"),
    (Wrong::EightBeforeTheLimit, "insert end 1 1 for 1", "lib.rs: entry 1, at effect position 3"),
    (Wrong::NoneAfterAll, "insert end 1 1 for 1\nnext 0", "the plain row: entry 1"),
    (Wrong::RefusalOfAll, "count", "the plain row: 1 entry"),
    (
        Wrong::OneEntryForAll,
        "insert end 1 1 for 1\nlookup prepare 3",
        "lib.rs: entry 1, offset 0; it stands at effect position 3, prepare position 3; 3 slots examined",
    ),
    (Wrong::SplitUncounted, "split 0 1 1 before for 1\ncount", "lib.rs: 2 entries"),
    (Wrong::CursorBeside, "cursor 0", "lib.rs: leaf 0, slot 0, stamp 1"),
    (Wrong::PageChanged, "insert end 1 1 for 1\nprint", "lib.rs has another sheet, from line 2 on"),
    (Wrong::AuditAlwaysYes, "damage homes 0 1\naudit", "the oracle's audit says No(\"homes\")"),
    (Wrong::SeatUncharged, "insert end 1 1 for 1", "charge of seat 1: 0, in lib.rs 1"),
    (Wrong::OneSlotExamined, "select effect 2", "lib.rs: entry 0, offset 2; 2 slots examined"),
    (Wrong::NothingRepaired, "damage homes 0 1\nrepair", "the oracle's repair answers Ok(1) and leaves other words"),
    (Wrong::FingerKept, "lookup effect 2\nrepair", "the oracle's repair answers Ok(0) and leaves other words"),
];

#[test]
fn each_wrong_tree_is_found_out() {
    let shares = Some([0, 2, 0, 0, 0, 0, 0, 0]);
    for &(wrong, lines, wanted) in FOUND {
        let tree = Box::new(Stand { tree: make(4, 9, [3, 3, 1], shares).unwrap(), wrong, splits: 0 });
        let along = sheet::along::make(4, 9, [3, 3, 1], shares).ok();
        let mut console = Console::with(tree, along);
        let said = console.lines(lines);
        let differs = said.lines().filter_map(|line| line.strip_prefix("differs: ")).collect::<Vec<_>>();
        assert!(differs.contains(&wanted), "{wrong:?}: {said}");
        assert!(console.differing > 0);
    }
    println!("{} wrong trees", FOUND.len());
}

/// Fourteen entries in a tree of two levels, with a finger and seats.
fn fourteen() -> Console {
    let mut console = Console::new(true);
    console.line("new 4 30 3 3 1 shares 1 2 3 4 0 0 0 0");
    for entry in 1..14 {
        console.line(&format!("insert end {entry} 2 {} for {}", entry % 3, entry % 4));
    }
    console.line("lookup effect 12");
    assert_eq!(console.differing, 0);
    console
}

/// One more in any word is said at once, by the word's name, and nothing is once it is taken back.
#[test]
fn every_changed_word_is_said() {
    let mut console = fourteen();
    let words = console.words();
    let head = words.head;
    let [leaves, inners] = [raw::word::LEAVES, raw::word::INNERS].map(|count| head[count] as usize * (3 + 4 * 4));
    let used = [head.len(), leaves, inners, head[raw::word::ENTRIES] as usize];
    assert_eq!((head[raw::word::LEVELS], head[raw::word::PRESENT]), (2, 1), "two levels and a finger");
    for ((text, area), used) in AREAS.into_iter().zip(used) {
        for word in 0..used {
            let old = words.area(area)[word];
            let new = old.wrapping_add(1);
            let said = console.line(&format!("damage {text} {word} {new}"));
            let name = name(area, word, 4);
            assert_eq!(said, format!("{name}: {new}\ndiffers: {name}: {new}, in lib.rs {old}\n"));
            assert_eq!(console.line(&format!("damage {text} {word} {old}")), format!("{name}: {old}\n"));
        }
    }
    println!("{used:?} words");
    assert_eq!(console.line(&format!("damage homes {} 1", 30)), "there is no such word\n");
    assert_eq!(console.line("audit"), "sound\n");
}

/// Stale sums, links, homes and unused slots are put right, and then nothing differs from lib.rs any more. The lookup goes from the root:
/// two slots of it, one of its second child, two of the leaf.
#[test]
fn what_repair_rewrites_is_as_lib_rs_has_it() {
    let mut console = fourteen();
    let damaged = "damage inners 4 99\ndamage leaves 1 7\ndamage leaves 2 3\ndamage homes 5 0\ndamage leaves 17 1";
    assert_eq!(console.lines(damaged).matches("differs: ").count(), 1 + 2 + 3 + 4 + 5);
    assert_eq!(console.line("audit"), "not sound: what fails is \"parent, at\"\n");
    assert_eq!(
        console.lines("repair\naudit\nrepair\nlookup effect 12\ncount"),
        "\
5 words put right
sound
0 words put right
entry 5, offset 1; it stands at effect position 11, prepare position 13; 5 slots examined
14 entries
"
    );
    console.line("damage leaves 3 1");
    assert_eq!(console.line("repair").lines().next(), Some(Refusal::UNSOUND.to_string().as_str()));
}

/// Words past those in use are anybody's.
#[test]
fn an_unused_word_may_be_changed() {
    let mut console = fourteen();
    let before = console.differing;
    console.lines("damage homes 29 7\ndamage leaves 280 7\ncount\naudit\nshow");
    assert_eq!(console.differing, before);
}

/// On any words every command ends and says something; audit's verdict is the oracle's.
#[test]
fn commands_end_on_any_words() {
    let console = fourteen();
    let words = console.words();
    let mut tried = 0;
    for (text, area) in AREAS {
        for (word, &old) in words.area(area).iter().enumerate().take(60) {
            for new in [0, old.wrapping_add(1), u32::MAX] {
                let mut console = of_words(&words);
                console.line(&format!("damage {text} {word} {new}"));
                let audit = console.line("audit");
                assert!(!audit.contains("differs"), "{text} {word} {new}: {audit}");
                let repair = console.line("repair");
                assert!(!repair.contains("oracle"), "{text} {word} {new}: {repair}");
                for line in ["tree", "dot", "svg", "show", "print", "first", "lookup effect 20", "next 5", "seats"] {
                    assert!(!console.line(line).is_empty(), "{text} {word} {new}: {line}");
                }
                tried += 1;
            }
        }
    }
    println!("{tried} damaged trees");
}

/// The tree of those words; only its audit is held against the oracle's.
fn of_words(words: &Words) -> Console {
    let Words { head, leaves, inners, homes } = words.clone();
    let tree = smelvock::PrepareEffectTree::<4>::from_words(head, leaves, inners, homes);
    Console::with(Box::new(tree), sheet::along::make(4, 30, [3, 3, 1], None).ok())
}

/// Trees that were made alike go on alike; what make refuses is compared too.
#[test]
fn a_new_tree_is_compared_from_its_making() {
    let mut console = Console::new(true);
    let said =
        console.lines("new 4 9 1 1 65536\nnew 2 9 1 1\nnew 4 2 1 1 shares 1 1 0 0 0 0 0 0\nnew 31 9 1 1\ninsert 0 1 1");
    assert_eq!(said.matches("refused by").count(), 3);
    assert_eq!((console.differing, said.lines().last()), (0, Some("entry 1, at effect position 0")));
    console.line("damage leaves 4 9");
    assert_eq!(console.differing, 1);
    console.lines("new 5 9 1 1\ncount");
    assert_eq!(console.differing, 1);
}
