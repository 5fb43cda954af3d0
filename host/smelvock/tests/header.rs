//! Each C header is what its static library has: a C program that includes it is compiled, linked and run.

use std::path::PathBuf;
use std::process::Command;

/// P1 to P12 as document 01 has them, then each other export on the sheet.
const WANTED: &str = "new 0
insert 0 1 3
insert 0 2 0
locate 0 0 0 5 0, 3 slots
locate 5 0 0 0 0, 0 slots
next 0 1
locate 0 2 0 0 0, 2 slots
locate 5 0 0 0 0, 0 slots
split_entry 0 3 0 1 0 2
insert 0 4 8
cursor 1 1
insert 8 0 0
split_entry 6 0 0 0 0 0
row 2 3 0 4 1
2749 bytes: 12 0 0
print 0 1
         2          0          0          0          5
         3          0          5          1          1
         0          1          6          2          2
         4          3          8          1          1
         1          4          9          2          0
blank 45, then !
locate 0 4 0 8 3, 4 slots
char_index_to_entry 0 1 0 0, 2 slots
char_index_to_entry 5 0 0 0, 0 slots
update 0 5
set_lengths 0
lengths 0 1 1 4
set_lengths 0
entry_to_char_index 0 8
entry_to_char_index 0 4
locate 0 3 3 5 0, 3 slots
locate 0 4 1 8 3, 5 slots
locate 5 0 0 0 0, 0 slots
split_entry 6 0 0 0 0 0
split_entry 8 0 0 0 0 0
split_entry 17 0 0 0 0 0
split_entry 17 0 0 0 0 0
cmp 0 2
len 0 5
is_empty 0 0
audit 0 1
repair 0 0, finger 0
stale: audit 0, repair 0 4, audit 1
an entry lost: repair 21 0, sum kept 1, then 1
stamp, leaf, slot: 3 13 14
cmp of bad cursors: 14 3 13
view 3: 10
flag 2: 10
65536 line ends: 10 10 10 10 10 10, then 0
35 words: 10
short: 2
reset 0 1 0
insert 0 1 0
split_entry 0 2 0 0 0 1
lengths 0 0 0 35
lengths 0 1 0 65500
insert 0 3 1
insert 0 4 2
stamp 10 0: 3
stamp 1: 0 0, then 0 0: 3 0
new_with_shares 0 1 2
seat 0: 0 18 18
seat 7: 0 2, then 0
seat 7: 18, seat 1: 0, charges 1 1 2, audit 1
seat 8: 10, nobody: 10, reset 0: charge 0, share 2
shares of the limit: 19, then 0
new 0 0, seat 0: 10
edits_check 0 11
511 words: 12 0 0
edits_difference 0 2: 1 2, then 7
edit 4: 4
its own parent: 15
";

/// Codes of 4 to 8 characters, worked out by hand, and each export of the planning tree.
const ROOMS: &str = "new 0: fan 4, seats' word 0
insert 0 1 5
insert 0 2 13
entry 2: 0 9 to 0 13
position 8: 0 1 to 0 1
position 9: 0 1 to 0 2
position 10: 0 1 to 0 2
position 11: 0 1 to 0 2
position 12: 0 1 to 0 2
position 13: 0 2 to 0 2
position 14: 5 0 to 5 0
split 0 3
split 20 0
split 20 0
split 17 0
split 17 0
split 6 0
split 10 0
count 4: 0 (5 to 5) 3 (1 to 3) 1 (3 to 5) 2 (1 to 1), audit 1
set 0
set 20
set 4
position 5: 0 3 to 0 3
position 13: 0 2 to 0 2
insert 0 4 0
insert 20 0 0
insert 7 0 0
insert 0 5 8
count 6: 4 (0 to 0) 0 (5 to 5) 3 (1 to 3) 5 (2 to 9) 1 (0 to 5) 2 (1 to 1), audit 1
insert 8 0 0
insert 20 0 0
split 8 0
insert 4 0 0
next 4, lengths 4
35 words: 10
short: 2
a lowest above its highest: audit 0
reset 20 0
count 1: 0 (1 to 2), audit 1
new 20: fan 0, seats' word 0
new 1: fan 0, seats' word 0
count of no tree: 1
";

/// Document 01's sheet with the effect lengths alone, worked out by hand, and each export of the reading copy.
const SCREEN: &str = "new 0: fan 4, seats' word 0
insert 0 1 3
insert 0 2 0
lookup 0 2 0 0
lookup 0 0 0 5
lookup 5 0 0 0
split 0 3
insert 0 4 8
row 2 at 0 3 at 5 0 at 6 4 at 8 1 at 9
insert 8 0 0
split 6 0
split 17 0
split 17 0
split 10 0
compare 0 0
compare 0 1
compare 0 2
compare 4 0
lookup 0 0 1 6
set 0
lookup 0 1 0 9
set 4
set 7
next 4, rank 4
35 words: 10
short: 2
reset 0
row 0 at 0
lookup 0 0 1 0
new 1: fan 0, seats' word 0
rank of no tree: 1
";

/// Compiles a program of tests/ with a library, runs it and compares what it prints.
fn prints(name: &str, library: &str, wanted: &str) {
    let here = PathBuf::from(env!("CARGO_MANIFEST_DIR"));
    let program = PathBuf::from(env!("CARGO_TARGET_TMPDIR")).join(name);
    let compiled = Command::new("cc")
        .args(["-std=c11", "-Wall", "-Wextra", "-Werror", "-pedantic", "-O2", "-o"])
        .arg(&program)
        .arg("-I")
        .arg(here.join("include"))
        .arg(here.join(format!("tests/{name}.c")))
        .arg(library)
        .status()
        .expect("cc is there");
    assert!(compiled.success());
    let ran = Command::new(&program).output().expect("the program runs");
    assert!(ran.status.success());
    assert_eq!(String::from_utf8_lossy(&ran.stdout), wanted);
}

#[test]
fn a_c_program_uses_the_header() {
    prints("sheet", env!("SMELVOCK_LIBRARY"), WANTED);
}

#[test]
fn a_c_program_uses_the_planning_tree() {
    prints("rooms", env!("SMELVOCK_PLANNING_LIBRARY"), ROOMS);
}

#[test]
fn a_c_program_uses_the_reading_copy() {
    prints("screen", env!("SMELVOCK_READING_LIBRARY"), SCREEN);
}
