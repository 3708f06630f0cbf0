// Pairs of histories that have a side's calls, the table and the buffer's length in common, while the other side's calls differ. The side has to get
// the same answers and the same bytes in both. Here they are made, and here the program's answers are held to that.
use crate::book::{FULL_REPLAY, START};
use crate::compare::{Step, Watch};
use crate::file::Records;
use crate::frames::Random;
use crate::make::History;
use crate::make_sides::Sharing;
use crate::record::{hex, Call, Record, Table};
use crate::tables::{right_table, wrong_quotas};
use std::collections::BTreeMap;
use std::io::{Result, Write};

// Of the pairs, counted from 0, the even ones have the calls of side 1 in common, the odd ones those of side 2.
fn side_of(pair: u64) -> u64 {
    1 + pair % 2
}

// ---- making them

// How many calls of the other side stand before each of the side's, and behind the last.
fn gaps(random: &mut Random, calls: usize) -> Vec<usize> {
    let most = random.one_of(&[0, 1, 2, 3]);
    let mut gaps: Vec<usize> = (0..=calls).map(|_| random.within(0, most)).collect();
    gaps[0] += random.one_of(&[0, 2, 4, 8]);
    gaps
}

// A side's calls among the other's, from a fresh book, with a read of the whole book now and then.
fn among<W: Write>(history: History<W>, length: usize, table: &Table, side: u64, calls: &[Call], gaps: &[usize]) -> Result<()> {
    let mut on = Sharing { history, table: table.clone() };
    let first = on.history.random.byte();
    on.history.record(Record::Lend { length, first })?;
    on.history.record(Record::Make)?;
    for (i, gap) in gaps.iter().enumerate() {
        for _ in 0..*gap {
            let call = on.any_call(3 - side);
            on.call(3 - side, call)?;
        }
        match on.history.random.below(40) {
            0 => on.history.record(Record::Replay { output: FULL_REPLAY })?,
            1 => on.history.record(Record::Ask { kind: 24, output: 6 })?,
            _ => {}
        }
        if let Some(call) = calls.get(i) {
            on.call(side, call.clone())?;
        }
    }
    Ok(())
}

// Two histories that have a side's calls, the table and the buffer's length in common. The side makes its calls up as if it were alone.
fn pair<W: Write>(random: &mut Random, side: u64, to: &mut Records<W>) -> Result<()> {
    let length = random.within(START + 8, START + 138);
    let mut table = right_table(random, length - START);
    if random.percent(2) {
        table.quotas = wrong_quotas(random, (length - START) as u64);
    }
    let mut nowhere = Records::new(std::io::sink());
    let count = random.within(3, 12);
    let mut alone = Sharing { history: History::new(random, &mut nowhere, vec![], 0), table };
    alone.history.record(Record::Lend { length, first: 0 })?;
    alone.history.record(Record::Make)?;
    let mut calls = vec![];
    for _ in 0..count {
        let call = alone.any_call(side);
        alone.call(side, call.clone())?;
        calls.push(call);
    }
    let table = alone.table;
    let one = gaps(random, count);
    let mut other = gaps(random, count);
    // In number and in place they differ always.
    while one[..count] == other[..count] || one.iter().sum::<usize>() == other.iter().sum::<usize>() {
        other = gaps(random, count);
    }
    among(History::new(random, to, vec![], 0), length, &table, side, &calls, &one)?;
    among(History::new(random, to, vec![], 0), length, &table, side, &calls, &other)
}

pub fn pairs<W: Write>(count: usize, seed: u64, to: &mut Records<W>) -> Result<()> {
    let mut random = Random(seed);
    for i in 0..count as u64 {
        pair(&mut random, side_of(i), to)?;
    }
    Ok(())
}

// ---- comparing them

// A record with what the program told, which is its answer and the output, and the book's bytes as it left them.
struct Answered {
    record: Record,
    told: Vec<u8>,
    book: Vec<u8>,
}

// A history of the program: its buffer's length, and the records behind that.
struct Told {
    length: usize,
    steps: Vec<Answered>,
}

impl Told {
    // The sides' calls, each with its caller and its table.
    fn calls(&self) -> impl Iterator<Item = (u64, &Table, &Answered)> {
        self.steps.iter().filter_map(|step| match &step.record {
            Record::Side { caller, table, .. } => Some((*caller, table, step)),
            _ => None,
        })
    }

    fn of(&self, side: u64) -> Vec<&Answered> {
        self.calls().filter(|(caller, ..)| *caller == side).map(|(.., step)| step).collect()
    }

    // How many calls of the other side stand before each of the side's.
    fn places(&self, side: u64) -> Vec<usize> {
        let callers: Vec<u64> = self.calls().map(|(caller, ..)| caller).collect();
        let before = |i: usize| callers[..i].iter().filter(|c| **c != side).count();
        (0..callers.len()).filter(|i| callers[*i] == side).map(before).collect()
    }

    // The one table of a history that the two sides' calls alone write, from a fresh book; none of any other history.
    fn table(&self) -> Option<&Table> {
        let (_, table, _) = self.calls().next()?;
        let is_new = matches!(self.steps[0].record, Record::Make);
        let is_read = |step: &Answered| matches!(step.record, Record::Ask { .. } | Record::Replay { .. } | Record::Side { .. });
        let is_one = self.calls().all(|(caller, t, _)| (caller == 1 || caller == 2) && t == table);
        if is_new && is_one && self.steps[1..].iter().all(is_read) { Some(table) } else { None }
    }

    fn words(&self) -> String {
        self.steps.iter().map(|step| format!("\n  {}: {}", step.record.words(), hex(&step.told))).collect()
    }
}

// The records in bytes.
fn bytes(steps: &[&Answered]) -> Vec<Vec<u8>> {
    steps.iter().map(|step| step.record.bytes()).collect()
}

#[derive(Default)]
pub struct Pairs {
    pairs: u64,
    // The latest two histories.
    told: Vec<Told>,
    // The side's calls that were compared, by side and answer; those at which the books' bytes differed.
    calls: BTreeMap<(u64, u8), u64>,
    apart: u64,
    // The other side's calls, in the first histories and in the second; pairs that differ in their number, in what they are, and in their places.
    others: [u64; 2],
    differ: [u64; 3],
    reads: u64,
}

impl Pairs {
    // The two histories of a pair are complete: says what is wrong with them.
    fn close(&mut self) -> Option<String> {
        let side = side_of(self.pairs);
        let (one, two) = (&self.told[0], &self.told[1]);
        let (calls, again) = (one.of(side), two.of(side));
        let wrong = |what: &str| {
            let of = format!("pair {} (counted from 1), of side {}: {}", self.pairs + 1, side, what);
            Some(format!("{}\nthe one:{}\nthe other:{}", of, one.words(), two.words()))
        };
        if one.length != two.length || one.table().is_none() || one.table() != two.table() || bytes(&calls) != bytes(&again) {
            return wrong("the histories do not have its calls, the table and the length in common, or others wrote to the book");
        }
        if let Some(i) = (0..calls.len()).find(|i| calls[*i].told != again[*i].told) {
            return wrong(&format!("its call {} (counted from 1) is not told the same", i + 1));
        }
        for (a, b) in calls.iter().zip(&again) {
            *self.calls.entry((side, a.told[0])).or_default() += 1;
            self.apart += (a.book != b.book) as u64;
        }
        let (first, second) = (bytes(&one.of(3 - side)), bytes(&two.of(3 - side)));
        self.others[0] += first.len() as u64;
        self.others[1] += second.len() as u64;
        self.differ[0] += (first.len() != second.len()) as u64;
        self.differ[1] += (first != second) as u64;
        self.differ[2] += (one.places(side) != two.places(side)) as u64;
        self.pairs += 1;
        self.told.clear();
        None
    }
}

impl Watch for Pairs {
    fn add(&mut self, step: &Step) -> Option<String> {
        if let Record::Lend { length, .. } = step.record {
            let wrong = if self.told.len() == 2 { self.close() } else { None };
            self.told.push(Told { length: *length, steps: vec![] });
            return wrong;
        }
        self.reads += !matches!(step.record, Record::Side { .. } | Record::Make) as u64;
        let (head, rest) = step.program.split_at(4);
        let (book, output) = rest.split_at(step.book.bytes.len());
        let answered = Answered { record: step.record.clone(), told: [head, output].concat(), book: book.to_vec() };
        self.told.last_mut().expect("a history").steps.push(answered);
        None
    }

    fn end(&mut self) -> Option<String> {
        if self.told.len() == 2 { self.close() } else { Some("a history without the other of its pair".into()) }
    }

    fn words(&self) -> String {
        let told = |side: u64| self.calls.iter().filter(|(call, _)| call.0 == side).map(|(call, n)| format!("{}: {}", call.1, n)).collect::<Vec<_>>();
        let lines = [
            format!(
                "{} pairs of histories, {} calls of a side answered twice, and the same; the books' bytes differed at {}",
                self.pairs,
                self.calls.values().sum::<u64>(),
                self.apart
            ),
            format!("answers to side 1: {}; to side 2: {}", told(1).join(", "), told(2).join(", ")),
            format!(
                "{} and {} calls of the other side: another number in {} pairs, other calls in {}, other places in {}; {} whole-book reads",
                self.others[0], self.others[1], self.differ[0], self.differ[1], self.differ[2], self.reads
            ),
        ];
        lines.join("\n")
    }

    fn missing(&self) -> Vec<String> {
        let answers = [0, 1, 2, 3, 4, 5, 8, 9, 12, 13, 17, 18];
        let owed = [1, 2].into_iter().flat_map(|side| answers.map(|answer| (side, answer)));
        let mut missing: Vec<String> =
            owed.filter(|call| !self.calls.contains_key(call)).map(|(side, answer)| format!("side {} with the answer {}", side, answer)).collect();
        let differ = [(self.differ[0], "number"), (self.differ[1], "content"), (self.differ[2], "place")];
        missing.extend(differ.iter().filter(|(n, _)| *n != self.pairs).map(|(_, what)| format!("calls of another {} in every pair", what)));
        missing
    }
}
