// The book as a plain list, beside the program `histories`, which replays the same calls on the proved book. tests/README.md has the form
// of the records and of the answers.
//
//   histories wide COUNT RECORDS         writes so many random histories
//   histories sides COUNT RECORDS        writes so many random histories of two sides that share a book
//   histories pairs COUNT RECORDS        writes so many pairs of histories that have the calls of one side in common
//   histories control COUNT RECORDS      writes so many random histories in which a controller runs through a book
//   histories sample RECORDS             writes the small set that is stored with the program
//   histories answers RECORDS            prints the list's answers
//   histories compare RECORDS            compares the answers that come in with the list's, and prints how many there were of each
//   histories compare-sides RECORDS      the same, and asks that the sides' calls met all that they can
//   histories compare-pairs RECORDS      the same, and asks that the side was told the same in both histories of a pair
//   histories compare-control RECORDS    the same, and asks that the controller's calls met all that they can, and whole runs went as one loop says
#![allow(dead_code)]

mod book;
mod called;
mod compare;
mod control;
mod enums;
mod file;
mod fixed;
mod fixed_control;
mod fixed_sides;
mod frames;
mod make;
mod make_control;
mod make_sides;
mod pairs;
mod record;
mod seen;
mod seen_control;
mod seen_sides;
mod sides;
mod tables;

#[path = "../oracle/model.rs"]
mod model;

use compare::compare;
use file::Records;
use make::Size;
use std::fs::File;
use std::io::{stdin, stdout, BufWriter, Result};

// Writes what is made to a file of records.
fn write(records: &str, make: impl Fn(&mut Records<BufWriter<File>>) -> Result<()>) -> Result<bool> {
    let mut to = Records::new(BufWriter::with_capacity(1 << 20, File::create(records)?));
    make(&mut to)?;
    to.flush()?;
    Ok(true)
}

fn run(words: &[&str]) -> Result<bool> {
    let number = |count: &str| count.parse().expect("a number");
    match words {
        ["wide", count, records] => write(records, |to| make::histories(number(count), 2021, Size::Wide, to)),
        ["sides", count, records] => write(records, |to| make_sides::histories(number(count), 5, Size::Wide, to)),
        ["pairs", count, records] => write(records, |to| pairs::pairs(number(count), 18, to)),
        ["control", count, records] => write(records, |to| make_control::histories(number(count), 8, Size::Wide, to)),
        ["sample", records] => write(records, |to| {
            make::histories(300, 13, Size::Sample, to)?;
            make_sides::histories(60, 17, Size::Sample, to)?;
            make_control::histories(13, 19, Size::Sample, to)
        }),
        ["answers", records] => compare::answers(records, BufWriter::new(stdout())).map(|_| true),
        ["compare", records] => compare(records, stdin(), &mut seen::Seen::default()),
        ["compare-sides", records] => compare(records, stdin(), &mut seen_sides::SeenSides::default()),
        ["compare-pairs", records] => compare(records, stdin(), &mut pairs::Pairs::default()),
        ["compare-control", records] => compare(records, stdin(), &mut seen_control::SeenControl::default()),
        _ => {
            let compares = "compare|compare-sides|compare-pairs|compare-control";
            eprintln!("histories wide|sides|pairs|control COUNT RECORDS, or histories sample|answers|{} RECORDS", compares);
            Ok(false)
        }
    }
}

fn main() {
    called::called("histories", run)
}
