// The answers of the program beside those of the list, record by record.
use crate::book::{Answer, Book, Frame};
use crate::file::read;
use crate::record::{hex, Record};
use crate::sides::Shared;
use std::io::{BufRead, BufReader, Read, Result, Write};

fn bytes(answer: Answer, book: &Book) -> Vec<u8> {
    let written = answer.written.to_be_bytes();
    [&[answer.refusal, answer.place, written[0], written[1]], &book.bytes[..], &book.output[..]].concat()
}

pub fn answers(records: &str, mut to: impl Write) -> Result<()> {
    let mut book = Shared::new();
    for record in read(&std::fs::read(records)?) {
        let answer = book.carry_out(&record);
        to.write_all(&bytes(answer, &book))?;
    }
    to.flush()
}

// A record and its answers: what the book held before it, the list's answer, the book after it, and the bytes that the program answered.
pub struct Step<'a> {
    pub record: &'a Record,
    pub before: &'a std::result::Result<Vec<Frame>, u8>,
    pub answer: Answer,
    pub book: &'a Book,
    pub program: &'a [u8],
}

// Looks on while answers are compared, and has demands of its own.
pub trait Watch {
    // What is wrong, though the answers of this step are the same.
    fn add(&mut self, step: &Step) -> Option<String>;
    // What is wrong once all steps were taken.
    fn end(&mut self) -> Option<String> {
        None
    }
    // How many there were of each.
    fn words(&self) -> String;
    // What was never met.
    fn missing(&self) -> Vec<String>;
}

// Compares what comes in with what the list says of the same records. Says what differs, if something does, or what was never met.
pub fn compare(records: &str, from: impl Read, watch: &mut dyn Watch) -> Result<bool> {
    let records = std::fs::read(records)?;
    let mut from = BufReader::with_capacity(1 << 20, from);
    let (mut book, mut histories) = (Shared::new(), 0);
    // The records of this history so far.
    let mut since: Vec<Record> = vec![];
    let mut other = vec![];
    for record in read(&records) {
        if let Record::Lend { .. } = record {
            since.clear();
            histories += 1;
        }
        let before = book.content.clone();
        let answer = book.carry_out(&record);
        let ours = bytes(answer, &book);
        other.resize(ours.len(), 0);
        let whole = from.read_exact(&mut other).is_ok();
        if !whole || ours != other {
            since.push(record);
            differs(histories, &since, &ours, if whole { Some(&other) } else { None }, book.bytes.len());
            return Ok(false);
        }
        let wrong = watch.add(&Step { record: &record, before: &before, answer, book: &book, program: &other });
        since.push(record);
        if let Some(what) = wrong {
            println!("{}", what);
            return Ok(false);
        }
    }
    if !from.fill_buf()?.is_empty() {
        println!("the program answers more than it was asked");
        return Ok(false);
    }
    Ok(ended(watch))
}

// What the whole run lacks, if it lacks something.
fn ended(watch: &mut dyn Watch) -> bool {
    if let Some(what) = watch.end() {
        println!("{}", what);
        return false;
    }
    println!("{}", watch.words());
    let missing = watch.missing();
    if !missing.is_empty() {
        println!("never met: {}", missing.join(", "));
    }
    missing.is_empty()
}

fn words(answer: &[u8]) -> String {
    match answer[0] {
        0 => format!("done, {} bytes written", u16::from_be_bytes([answer[2], answer[3]])),
        refusal => format!("refusal {} at {}", refusal, answer[1]),
    }
}

fn differs(history: u64, since: &[Record], ours: &[u8], other: Option<&Vec<u8>>, book: usize) {
    println!("history {}, record {} (counted from 1) differs. The history up to it:", history, since.len());
    for record in since {
        println!("  {}", record.words());
    }
    println!("the list: {}", words(ours));
    let other = match other {
        Some(other) => other,
        None => return println!("the program: its answers end here"),
    };
    println!("the program: {}", words(other));
    let parts = [("the book", 4, 4 + book), ("the output", 4 + book, ours.len())];
    for (name, from, to) in parts {
        let (a, b) = (&ours[from..to], &other[from..to]);
        if let Some(at) = (0..a.len()).find(|i| a[*i] != b[*i]) {
            println!("{} differs first at byte {}", name, at);
            println!("  the list's:    {}", hex(a));
            println!("  the program's: {}", hex(b));
        }
    }
}
