// A recorded day, played by a model over a plain list of frames, beside the program `play`, which plays the same traces on the proved book.
//
//   playback report FILE..                      prints the model's reports, as the program does
//   playback sample FOLDER                      writes the run that is stored with the program: args, data, stdin and stdout
//   playback compare COUNT FOLDER PROGRAM..     compares the program's reports of so many traces with the model's, and tells what was met
#![allow(dead_code)]

mod cases;
mod compare;
mod day;
mod make;
mod report;
mod seen;

#[path = "../histories/book.rs"]
mod book;
#[path = "../histories/called.rs"]
mod called;
#[path = "../histories/enums.rs"]
mod enums;
#[path = "../histories/frames.rs"]
mod frames;
#[path = "../oracle/model.rs"]
mod model;
#[path = "../histories/record.rs"]
mod record;
#[path = "../oracle/texts.rs"]
mod texts;

use book::Book;
use cases::CASES;
use day::Day;
use record::Record;
use std::fs::{create_dir_all, read, write};
use std::io::Result;
use std::path::Path;

// The program's book has so many bytes.
const BOOK: usize = 4096;

pub fn report_of(name: &str, trace: &[u8]) -> (Day, String) {
    let mut book = Book::new();
    book.carry_out(&Record::Lend { length: BOOK, first: 0 });
    let day = day::play(trace, book);
    let report = report::report(name, &day);
    (day, report)
}

// The cases by hand, and some random ones, the last by standard input.
fn sample(folder: &Path) -> Result<()> {
    let mut maker = make::Maker::new(17);
    let by_hand = CASES.iter().map(|case| (case.name.to_string(), cases::bytes(case.trace)));
    let random = (1..=12).map(|i| (if i == 12 { "-".into() } else { format!("random-{}.trace", i) }, maker.trace()));
    let (mut args, mut stdout) = (String::new(), String::new());
    create_dir_all(folder.join("data"))?;
    for (name, trace) in by_hand.chain(random) {
        args += &format!("{}\n", name);
        stdout += &report_of(&name, &trace).1;
        let file = if name == "-" { folder.join("stdin") } else { folder.join("data").join(name) };
        write(file, trace)?;
    }
    write(folder.join("args"), args)?;
    write(folder.join("stdout"), stdout)
}

fn run(words: &[&str]) -> Result<bool> {
    for case in &CASES {
        let wanted = format!("trace {}\n{}", case.name, case.report);
        assert_eq!(report_of(case.name, &cases::bytes(case.trace)).1, wanted, "the report by hand");
    }
    match words {
        ["report", names @ ..] => {
            for name in names {
                let trace = read(if *name == "-" { "/dev/stdin" } else { name })?;
                print!("{}", report_of(name, &trace).1);
            }
        }
        ["sample", folder] => sample(Path::new(folder))?,
        ["compare", count, folder, program @ ..] => return compare::compare(count.parse().expect("a number"), folder, program),
        _ => {
            eprintln!("playback report FILE.., playback sample FOLDER, or playback compare COUNT FOLDER PROGRAM..");
            return Ok(false);
        }
    }
    Ok(true)
}

fn main() {
    called::called("playback", run)
}
