//! Trees as bytes, and `repairrun` on them.

use smelvock::raw::word::{ENTRIES, FAN, INNERS, LEVELS, LIMIT, PRESENT, ROOT, SEATED};
use smelvock::stored::{Malformed, Stored};
use smelvock::{Lengths, PrepareEffectTree, Refusal, View};
use std::fs::File;
use std::io::Write;
use std::process::{Command, Output, Stdio};

/// The bytes before the head, and before the leaves.
const HEAD: usize = 24;
const LEAVES: usize = HEAD + 4 * 36;

fn lengths(id: u32) -> Lengths {
    Lengths { prepare: 1 + id % 5, effect: id % 3, lines: id % 4 }
}

/// So many entries at many places, with seats or without, and room for some more; no finger.
fn made<const N: usize>(entries: u32, with_seats: bool) -> PrepareEffectTree<N> {
    let limit = entries + 9;
    let made = match with_seats {
        true => PrepareEffectTree::<N>::with_shares(limit, lengths(0), [4, 0, 0, 0, 0, 0, 0, 1]),
        false => PrepareEffectTree::<N>::with_limit(limit, lengths(0)),
    };
    let mut tree = made.expect("fan, limit and shares are good");
    for id in 1..entries {
        let before = (id % 3 != 0).then(|| tree.cursor(id * 7 % id).expect("it is there"));
        let done = match with_seats {
            true => tree.insert_for((id % 8) as u8, before, lengths(id)),
            false => tree.insert(before, lengths(id)),
        };
        done.expect("there is room");
    }
    tree
}

/// Trees of one to six levels.
fn files() -> Vec<Vec<u8>> {
    let mut files = Vec::new();
    for with_seats in [false, true] {
        files.extend([1, 2, 9, 40, 200].map(|entries| made::<4>(entries, with_seats).to_bytes()));
        files.extend([1, 30, 300].map(|entries| made::<5>(entries, with_seats).to_bytes()));
        files.extend([1, 70, 500].map(|entries| made::<32>(entries, with_seats).to_bytes()));
    }
    files
}

/// The program's exit status and what it wrote, on those bytes.
fn repairrun(input: &[u8]) -> (i32, Vec<u8>, String) {
    let mut program = Command::new(env!("CARGO_BIN_EXE_repairrun"));
    let program = program.stdin(Stdio::piped()).stdout(Stdio::piped()).stderr(Stdio::piped());
    let mut child = program.spawn().expect("it starts");
    let (mut stdin, input) = (child.stdin.take().expect("a pipe"), input.to_vec());
    // it may write before it has read all
    let writer = std::thread::spawn(move || stdin.write_all(&input).expect("it reads on"));
    let Output { status, stdout, stderr } = child.wait_with_output().expect("it ends");
    writer.join().expect("no panic");
    (status.code().expect("an exit status"), stdout, String::from_utf8(stderr).expect("text"))
}

fn refused_by(number: i32) -> String {
    format!("repairrun: {}\n", Refusal { number: number as u32 })
}

#[test]
fn a_sound_tree_is_written_back_byte_for_byte() {
    let files = files();
    for file in &files {
        let stored = Stored::from_bytes(file).expect("it was just stored");
        assert_eq!(stored.to_bytes(), *file);
        assert_eq!(repairrun(file), (0, file.clone(), "repairrun: 0 words put right\n".to_string()));
    }
    println!("{} files", files.len());
}

/// What comes out of a file answers and grows as the tree that went in.
#[test]
fn a_stored_tree_goes_on_as_before() {
    for with_seats in [false, true] {
        let mut tree = made::<5>(200, with_seats);
        let (_, file, _) = repairrun(&tree.to_bytes());
        let mut again = PrepareEffectTree::<5>::from_bytes(&file).expect("a stored tree");
        assert_eq!((again.head(), again.shares(), again.charges()), (tree.head(), tree.shares(), tree.charges()));
        assert_eq!((again.audit(), again.sheet()), (Ok(true), tree.sheet()));
        for id in 200..209 {
            let inserted = [&mut tree, &mut again].map(|tree| match with_seats {
                true => tree.insert_for((id % 8) as u8, None, lengths(id)),
                false => tree.insert(None, lengths(id)),
            });
            assert_eq!(inserted[0], inserted[1]);
            let located = [&mut tree, &mut again].map(|tree| tree.locate(View::Lines, id));
            assert_eq!(located[0], located[1]);
        }
        assert_eq!((again.head(), again.audit(), again.sheet()), (tree.head(), Ok(true), tree.sheet()));
        assert_eq!(again.to_bytes(), tree.to_bytes());
    }
}

/// A finger is stored, and repair drops it; no word of the areas differs.
#[test]
fn a_finger_is_dropped() {
    let mut tree = made::<4>(40, false);
    tree.locate(View::Effect, 5).expect("it is there");
    let file = tree.to_bytes();
    let mut wanted = file.clone();
    wanted[HEAD + 4 * PRESENT..][..40].fill(0);
    assert_ne!(file, wanted);
    assert_eq!(Stored::from_bytes(&file).expect("stored").head, tree.head());
    assert_eq!(repairrun(&file), (0, wanted, "repairrun: 0 words put right\n".to_string()));
    assert_eq!((tree.repair(), tree.head()[PRESENT], tree.audit()), (Ok(0), 0, Ok(true)));
}

/// Stale sums in every inner node, every home 0, every parent 0: the words of the tree that was stored come back, and the count is that
/// of a plain comparison.
#[test]
fn a_damaged_tree_is_put_right() {
    for file in files() {
        let mut damaged = Stored::from_bytes(&file).expect("it was just stored");
        let size = 3 + 4 * damaged.head[FAN] as usize;
        let (nodes, entries) = (damaged.head[INNERS] as usize, damaged.head[ENTRIES] as usize);
        for node in damaged.inners.chunks_exact_mut(size).take(nodes) {
            node[1] = 0;
            (4..3 + 4 * node[0] as usize).step_by(4).for_each(|sum| node[sum] ^= 0x5A5A);
        }
        damaged.homes[..entries].fill(u32::MAX);
        let bytes = damaged.to_bytes();
        let words = bytes.chunks(4).zip(file.chunks(4)).filter(|(one, other)| one != other).count();
        assert_eq!(repairrun(&bytes), (0, file.clone(), format!("repairrun: {words} words put right\n")));
        assert_eq!(damaged.repair(), Ok(words as u32));
        damaged.inners[4] ^= 1;
        assert_eq!(repairrun(&damaged.to_bytes()), (0, file, "repairrun: 1 word put right\n".to_string()));
    }
}

/// 21, and the other numbers that repair can answer: the tree is written back as it was.
#[test]
fn a_refused_tree_is_written_back_as_it_was() {
    for file in files() {
        let sound = Stored::from_bytes(&file).expect("it was just stored");
        let refused = |number: i32, damage: &dyn Fn(&mut Stored)| {
            let mut damaged = sound.clone();
            damage(&mut damaged);
            let bytes = damaged.to_bytes();
            assert_eq!(repairrun(&bytes), (number, bytes, refused_by(number)));
        };
        refused(21, &|tree| tree.leaves[3] = tree.head[ENTRIES]);
        refused(21, &|tree| tree.leaves[6] = 65_536);
        refused(21, &|tree| tree.head[LEVELS] = 0);
        refused(21, &|tree| tree.head[ROOT] = u32::MAX);
        refused(10, &|tree| tree.head[SEATED] = 2);
        refused(1, &|tree| tree.head[FAN] = 33);
        refused(1, &|tree| tree.head[LIMIT] = 0);
        refused(2, &|tree| tree.homes.truncate(tree.homes.len() - 1));
        refused(2, &|tree| tree.leaves.clear());
        refused(2, &|tree| tree.head[LIMIT] = 65_536);
    }
    assert_eq!(refused_by(21), format!("repairrun: {}\n", Refusal::UNSOUND));
}

/// The stack that the documents name is enough, with what a thread takes itself.
#[test]
fn repair_in_a_thread_of_416_kib() {
    let mut tree = made::<4>(500, false);
    let thread = std::thread::Builder::new().stack_size(416 * 1024).spawn(move || tree.repair());
    assert_eq!(thread.expect("it starts").join().expect("no panic"), Ok(0));
}

/// Bytes that are no stored tree: the library and the program say why, and nothing is written.
fn malformed(input: &[u8], why: Malformed) {
    assert_eq!(Stored::from_bytes(input), Err(why));
    assert_eq!(PrepareEffectTree::<4>::from_bytes(input), Err(why));
    assert_eq!(repairrun(input), (65, vec![], format!("repairrun: {why}\n")));
}

#[test]
fn cut_off_at_every_byte() {
    let file = made::<4>(1, false).to_bytes();
    for bytes in 0..file.len() {
        let wanted = if bytes < HEAD { LEAVES } else { file.len() } as u64;
        // a count that isn't whole is none
        let counted = match bytes {
            16..20 => LEAVES + 4 * word(&file, 12) as usize,
            20..24 => LEAVES + 4 * (word(&file, 12) + word(&file, 16)) as usize,
            _ => wanted as usize,
        };
        malformed(&file[..bytes], Malformed::Short { bytes: bytes as u64, wanted: counted as u64 });
    }
    println!("cut off at each of {} bytes", file.len());
}

fn word(file: &[u8], at: usize) -> u32 {
    u32::from_le_bytes(file[at..at + 4].try_into().expect("four bytes"))
}

#[test]
fn too_long() {
    let file = made::<5>(30, true).to_bytes();
    for more in [1, 2, 3, 4, 5, 400] {
        let input = [&file[..], &vec![0; more]].concat();
        let (bytes, wanted) = (input.len() as u64, file.len() as u64);
        malformed(&input, Malformed::Long { bytes, wanted });
    }
    // a count too small for the words that follow
    let mut input = file.clone();
    input[20] -= 1;
    malformed(&input, Malformed::Long { bytes: file.len() as u64, wanted: file.len() as u64 - 4 });
}

#[test]
fn another_magic_or_version() {
    let file = made::<4>(9, false).to_bytes();
    for at in 0..8 {
        let mut input = file.clone();
        input[at] ^= 0x20;
        for bytes in [at + 1, 8, 9, 30, input.len()] {
            malformed(&input[..bytes.max(at + 1)], Malformed::Magic);
        }
    }
    for version in [0, 2, 0x0100_0000, u32::MAX] {
        let mut input = file.clone();
        input[8..12].copy_from_slice(&version.to_le_bytes());
        malformed(&input, Malformed::Version(version));
        malformed(&input[..12], Malformed::Version(version));
    }
    assert_eq!(Malformed::Magic.to_string(), "no stored tree: it doesn't begin with SMELVOCK");
    assert_eq!(Malformed::Version(2).to_string(), "a stored tree of version 2, where 1 is known");
}

/// Counts that ask for more bytes than there are, up to more than a u32 can count, in each area and in all.
#[test]
fn counts_that_are_too_large() {
    let file = made::<4>(9, false).to_bytes();
    let own = [12, 16, 20].map(|at| word(&file, at));
    for count in [1 << 20, 1 << 30, 1 << 31, u32::MAX] {
        for which in [&[0][..], &[1], &[2], &[0, 1], &[0, 1, 2]] {
            let mut counts = own;
            which.iter().for_each(|&area| counts[area] = count);
            let mut input = file.clone();
            input[12..24].copy_from_slice(&counts.map(u32::to_le_bytes).concat());
            let wanted = LEAVES as u64 + 4 * counts.into_iter().map(u64::from).sum::<u64>();
            malformed(&input, Malformed::Short { bytes: file.len() as u64, wanted });
        }
    }
}

#[test]
fn reads_and_writes_that_fail() {
    let told = |output: Output| (output.status.code(), String::from_utf8(output.stderr).expect("text"));
    let program = || Command::new(env!("CARGO_BIN_EXE_repairrun"));
    let folder = File::open(env!("CARGO_MANIFEST_DIR")).expect("it opens, and can't be read");
    let unread = program().stdin(folder).output().expect("it ends");
    assert!(unread.stdout.is_empty());
    assert_eq!(told(unread), (Some(74), "repairrun: standard input can't be read\n".to_string()));

    let file = std::path::Path::new(env!("CARGO_TARGET_TMPDIR")).join("stored");
    std::fs::write(&file, made::<4>(40, false).to_bytes()).expect("it can be written");
    let full = File::options().write(true).open("/dev/full").expect("Linux has it");
    let unwritten = program().stdin(File::open(&file).expect("it is there")).stdout(full).output().expect("it ends");
    assert_eq!(told(unwritten), (Some(74), "repairrun: standard output can't be written\n".to_string()));

    let usage = program().arg("file").stdin(Stdio::null()).output().expect("it ends");
    let wanted = "repairrun: no arguments are wanted: a stored tree is read from standard input\n";
    assert_eq!(told(usage), (Some(64), wanted.to_string()));
}
