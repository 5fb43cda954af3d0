//! The oracle's sheet against pages written out by hand from document 02, and lib.rs's against the row's.

use oracle::driver::Driver;
use oracle::lists::{Lister, Sizes, Style, GROWING};
use oracle::row::{Entry, Row};
use oracle::rust::Rust;
use oracle::sheet::{of_row, of_tree, sheetrun, PAGE_BYTES, PAGE_LINES};

/// Document 01's sheet of five entries, with line ends, which no line has.
fn five() -> Row {
    let entry = |(id, lengths)| Entry { id, lengths };
    Row {
        limit: 5,
        entries: [(2, [0, 5, 9]), (3, [1, 1, 0]), (0, [2, 2, 1]), (4, [1, 1, 0]), (1, [2, 0, 7])].map(entry).to_vec(),
        seats: None,
    }
}

#[test]
fn a_page_written_out() {
    let lines = [
        "         2          0          0          0          5\n",
        "         3          0          5          1          1\n",
        "         0          1          6          2          2\n",
        "         4          3          8          1          1\n",
        "         1          4          9          2          0\n",
    ];
    let blank = " ".repeat(54) + "\n";
    assert_eq!(of_row(&five()), lines.concat() + &blank.repeat(45));
}

#[test]
fn numbers_of_ten_digits_fill_their_columns() {
    let widest = Row::make(1, [u32::MAX, u32::MAX, 65_535]);
    assert!(of_row(&widest).starts_with("         0          0          0 4294967295 4294967295\n"));
    let last = Entry { id: 1, lengths: [0; 3] };
    let two = Row { entries: vec![widest.entries[0], last], ..Row::make(2, [0; 3]) };
    assert_eq!(&of_row(&two)[55..110], "         1 4294967295 4294967295          0          0\n");
}

/// A page for every fifty entries, and no blank line where the last page is full.
#[test]
fn pages_by_the_number_of_entries() {
    for (entries, pages, blank) in [(1, 1, 49), (49, 1, 1), (50, 1, 0), (51, 2, 49), (100, 2, 0), (101, 3, 49)] {
        let every = (0..entries).map(|id| Entry { id, lengths: [1; 3] }).collect();
        let row = Row { entries: every, ..Row::make(entries, [1; 3]) };
        let sheet = of_row(&row);
        assert_eq!(sheet.len(), pages * PAGE_BYTES);
        assert_eq!(sheet.lines().count(), pages * PAGE_LINES);
        assert!(sheet.lines().all(|line| line.len() == 54));
        assert_eq!(sheet.lines().filter(|line| line.trim().is_empty()).count(), blank, "{entries} entries");
    }
}

/// lib.rs's own answers make the row's sheet.
#[test]
fn of_lib_rs_and_of_the_row() {
    for (seed, sizes) in [Sizes::Small, Sizes::Zeros, Sizes::NearEnd].into_iter().enumerate() {
        let mut driver = Driver::<Rust<4>>::make(300, [3; 3], 0);
        let mut lister = Lister::new(seed as u64, Style { weights: GROWING, sizes, close: 50, miss: 4 });
        for _ in 0..20 {
            driver.play_drawn(&mut lister, 20).unwrap();
            assert_eq!(of_tree(&driver.subject.tree), of_row(&driver.row), "{} entries", driver.row.count());
        }
    }
}

#[test]
fn a_short_tail_leaves_the_sheet_of_the_whole_records() {
    let record = oracle::record::Record::new(2, 0, u32::MAX, 2, 0).encode();
    let two = "         0          0          0          0          0\n         1          0          0          2          0\n";
    assert!(sheetrun(&record).starts_with(two));
    assert_eq!(sheetrun(&[&record[..], b"abc"].concat()), sheetrun(&record));
    assert_eq!(sheetrun(&[]), of_row(&Row::make(512, [0; 3])));
}
