// Random histories. They are the same on every run and machine: the random numbers have a fixed seed.
use crate::book::{done, image, length, other_form, Answer, Frame, ACTIONS, FORMS, FULL, SETTINGS, SLOTS, START, VERSION};
use crate::file::Records;
use crate::fixed;
use crate::frames::{damaged, good, Random};
use crate::model::{commands, KINDS};
use crate::record::Record;
use crate::sides::Shared;
use std::io::{Result, Write};

// Most buffers have at most so many bytes, some more than a full book takes.
pub const LONG: usize = FULL + 29;

// ---- damage to a book

// Bytes to replace in a sound book: where, and by what.
fn damage(random: &mut Random, bytes: &[u8], frames: &[Frame]) -> (usize, Vec<u8>) {
    let offset_of = |frame: &Frame| 4 + 2 * crate::book::slot(frame.kind).expect("a setting");
    let at = |place: usize| bytes[place..place + 2].to_vec();
    let (start, end) = (START as u16, u16::from_be_bytes([bytes[2], bytes[3]]));
    match random.below(12) {
        0 => (0, vec![random.one_of(&[0, VERSION + 1, VERSION + 2, 255])]),
        1 => (1, vec![random.one_of(&[bytes[1].wrapping_add(1), bytes[1].wrapping_sub(1), SETTINGS.len() as u8, 255])]),
        2 => (2, random.one_of(&[end + 1, end - 1, start, start - 1, 0, bytes.len() as u16, bytes.len() as u16 + 1, 65535]).to_be_bytes().to_vec()),
        3 if (end as usize) < bytes.len() => (random.within(end as usize, bytes.len() - 1), vec![random.one_of(&[1, 128, 255])]),
        3 | 4 => (random.below(bytes.len()), vec![random.byte()]),
        5 => (random.below(START), vec![random.byte()]),
        6 if !frames.is_empty() => (random.within(START, end as usize - 1), vec![random.byte()]),
        // Two offsets swapped, whole header at once.
        7 if frames.len() > 1 => {
            let (a, b) = (random.below(frames.len()), random.below(frames.len()));
            let (a, b) = (offset_of(&frames[a]), offset_of(&frames[b]));
            let mut header = bytes[..START].to_vec();
            header[a..a + 2].copy_from_slice(&at(b));
            header[b..b + 2].copy_from_slice(&at(a));
            (0, header)
        }
        // One offset where another's frame is, with the count as it was or one too many.
        8 if !frames.is_empty() => {
            let from = offset_of(&frames[random.below(frames.len())]);
            let to = 4 + 2 * random.below(SLOTS);
            let mut header = bytes[..START].to_vec();
            header[to..to + 2].copy_from_slice(&at(from));
            header[1] += random.below(2) as u8;
            (0, header)
        }
        // A frame that no slot has any more, with or without the count that agrees.
        9 if !frames.is_empty() => {
            let gone = offset_of(&frames[random.below(frames.len())]);
            let mut header = bytes[..START].to_vec();
            header[gone..gone + 2].copy_from_slice(&[0, 0]);
            header[1] -= random.below(2) as u8;
            (0, header)
        }
        // An offset that is off by one.
        10 if !frames.is_empty() => {
            let place = offset_of(&frames[random.below(frames.len())]);
            let offset = u16::from_be_bytes([bytes[place], bytes[place + 1]]);
            (place, random.one_of(&[offset + 1, offset - 1]).to_be_bytes().to_vec())
        }
        _ => (random.within(1, START - 1), vec![random.byte()]),
    }
}

// ---- histories

// How long histories and buffers are: many and wide, or few and short for the stored sample.
#[derive(Clone, Copy, PartialEq)]
pub enum Size {
    Wide,
    Sample,
}

pub struct History<'a, W: Write> {
    pub random: &'a mut Random,
    to: &'a mut Records<W>,
    pub book: Shared,
    // What the latest record was answered by.
    pub answer: Answer,
    // The kinds that puts choose from: few, so that they meet again, or all.
    kinds: Vec<u64>,
    // So many of a hundred calls on a sound book come with damage to it.
    often: usize,
}

impl<'a, W: Write> History<'a, W> {
    pub fn new(random: &'a mut Random, to: &'a mut Records<W>, kinds: Vec<u64>, often: usize) -> Self {
        History { random, to, book: Shared::new(), answer: done(0), kinds, often }
    }

    pub fn record(&mut self, record: Record) -> Result<()> {
        self.answer = self.book.carry_out(&record);
        self.to.write(&record)
    }

    pub fn frames(&self) -> &[Frame] {
        self.book.content.as_deref().unwrap_or(&[])
    }

    // Of each setting that is held in one of two forms, the other.
    fn unheld_forms(&self) -> Vec<u64> {
        self.frames().iter().filter_map(|f| other_form(f.kind)).collect()
    }

    // Replaces bytes of the buffer, as many as a record takes at a time.
    pub fn poke(&mut self, at: usize, data: &[u8]) -> Result<()> {
        for (i, part) in data.chunks(255).enumerate() {
            self.record(Record::Poke { at: at + 255 * i, data: part.to_vec() })?;
        }
        Ok(())
    }

    // A book that was never put together by calls, in any order, as far as there is room: with one form of each setting, or with both of some.
    pub fn hand_in(&mut self, both: bool) -> Result<()> {
        let size = self.book.bytes.len();
        let mut kinds = SETTINGS.to_vec();
        self.random.shuffle(&mut kinds);
        kinds.truncate(self.random.below(SETTINGS.len() + 1));
        if both {
            let (short, long) = self.random.one_of(&FORMS);
            kinds.splice(0..0, [short, long]);
        }
        let mut left = size - START;
        let mut frames: Vec<Frame> = vec![];
        for kind in kinds {
            let is_there = |f: &Frame| f.kind == kind || !both && Some(f.kind) == other_form(kind);
            if length(kind) <= left && !frames.iter().any(is_there) {
                left -= length(kind);
                frames.push(Frame { kind, bytes: good(self.random, kind) });
            }
        }
        self.random.shuffle(&mut frames);
        self.poke(0, &image(&frames, size))
    }

    // Puts a frame of every kind, in any order.
    fn fill(&mut self) -> Result<()> {
        self.record(Record::Make)?;
        let mut kinds = SETTINGS.to_vec();
        self.random.shuffle(&mut kinds);
        for kind in kinds {
            let frame = good(self.random, kind);
            self.record(Record::Put { frame })?;
        }
        Ok(())
    }

    // The other form stored beside one that is held, with a fault more or none; without room for it the book is cut short, which is a fault too.
    pub fn store_both(&mut self) -> Result<()> {
        let size = self.book.bytes.len();
        let mut frames = self.frames().to_vec();
        let (short, long) = self.random.one_of(&FORMS);
        for kind in [short, long] {
            if !frames.iter().any(|f| f.kind == kind) {
                let frame = Frame { kind, bytes: good(self.random, kind) };
                frames.insert(self.random.below(frames.len() + 1), frame);
            }
        }
        let bytes = image(&frames, size);
        self.poke(0, &bytes)?;
        if self.random.percent(40) {
            let (at, data) = damage(self.random, &bytes, &frames);
            self.poke(at, &data[..data.len().min(bytes.len() - at)])?;
        }
        Ok(())
    }

    // Damage, or both forms of a setting.
    pub fn spoil(&mut self) -> Result<()> {
        if self.random.percent(40) {
            return self.store_both();
        }
        let (bytes, frames) = (self.book.bytes.clone(), self.frames().to_vec());
        let (at, data) = damage(self.random, &bytes, &frames);
        self.poke(at, &data[..data.len().min(bytes.len() - at)])
    }

    // Both forms of a setting, some calls on that book, and then the old bytes or neither.
    fn double(&mut self) -> Result<()> {
        let before = self.book.bytes.clone();
        self.store_both()?;
        for _ in 0..self.random.within(1, 3) {
            self.call()?;
        }
        if self.random.percent(60) { self.poke(0, &before) } else { Ok(()) }
    }

    // Damage, some calls on the damaged book, and then the old bytes, a new book, or neither.
    fn damage(&mut self) -> Result<()> {
        let before = self.book.bytes.clone();
        let frames = self.frames().to_vec();
        let (at, data) = damage(self.random, &before, &frames);
        let data = &data[..data.len().min(before.len() - at)];
        self.poke(at, data)?;
        for _ in 0..self.random.within(1, 3) {
            self.call()?;
        }
        match self.random.below(4) {
            0 | 1 if self.book.content.is_err() => self.poke(at, &before[at..at + data.len()]),
            2 => self.record(Record::Make),
            _ => Ok(()),
        }
    }

    fn kind(&mut self) -> u64 {
        let held = self.frames().len();
        let any = self.random.within(1, KINDS as usize) as u64;
        match self.random.below(20) {
            0 => self.random.one_of(&ACTIONS),
            // Wrong kinds, and kinds whose low bytes are those of a setting.
            1 => self.random.one_of(&[0, KINDS + 1, 255, 300, u64::MAX, 1 << 63, 256 + any, (1 << 32) + any, (1 << 56) + any]),
            2..=5 => self.random.one_of(&SETTINGS),
            6..=8 => any,
            9 | 10 if !self.unheld_forms().is_empty() => self.form(),
            _ if held > 0 => {
                let i = self.random.below(held);
                self.frames()[i].kind
            }
            _ => self.random.one_of(&SETTINGS),
        }
    }

    // An output for an answer of so many bytes: too short by one, exact, longer, or any.
    pub fn output(&mut self, need: usize) -> usize {
        match self.random.below(6) {
            0 => need.saturating_sub(1),
            1 | 2 => need,
            3 => need + 1,
            4 => need + self.random.below(40),
            _ => self.random.one_of(&[0, 1, 2, 3, 12, 13]),
        }
    }

    // A kind that is one of two forms; more often than not the form that is not held of a setting that is.
    fn form(&mut self) -> u64 {
        let unheld = self.unheld_forms();
        if !unheld.is_empty() && self.random.percent(70) {
            return self.random.one_of(&unheld);
        }
        let (short, long) = self.random.one_of(&FORMS);
        self.random.one_of(&[short, long])
    }

    fn put(&mut self) -> Result<()> {
        let frame = match self.random.below(24) {
            0..=3 => damaged(self.random),
            4 => {
                let kind = self.random.one_of(&ACTIONS);
                good(self.random, kind)
            }
            5..=10 => {
                let kind = self.form();
                good(self.random, kind)
            }
            _ => {
                let kind = self.kinds[self.random.below(self.kinds.len())];
                good(self.random, kind)
            }
        };
        self.record(Record::Put { frame })
    }

    pub fn call(&mut self) -> Result<()> {
        match self.random.below(100) {
            0..=51 => self.put(),
            52..=67 => {
                let kind = self.kind();
                self.record(Record::Remove { kind })
            }
            68..=84 => {
                let kind = self.kind();
                let need = commands().iter().find(|c| c.kind == kind).map_or(4, |c| c.length);
                let output = self.output(need);
                self.record(Record::Ask { kind, output })
            }
            85..=95 => {
                let need = self.frames().iter().map(|f| f.bytes.len() + 1).sum();
                let output = self.output(need);
                self.record(Record::Replay { output })
            }
            96..=97 => self.record(Record::Clear),
            _ => self.record(Record::Make),
        }
    }

    pub fn sound(&self) -> bool {
        self.book.content.is_ok()
    }

    fn run(&mut self, calls: usize) -> Result<()> {
        let size = self.book.bytes.len();
        match self.random.below(20) {
            0 => {}
            1..=3 if (START..=4096).contains(&size) => {
                let both = self.random.percent(40);
                self.hand_in(both)?
            }
            4 if size > 0 => {
                let n = self.random.below(size.min(START + 18));
                let bytes = self.random.bytes(n);
                self.poke(0, &bytes)?
            }
            5..=9 if (FULL - 2..=LONG).contains(&size) => self.fill()?,
            _ => self.record(Record::Make)?,
        }
        for _ in 0..calls {
            if self.sound() && self.random.percent(self.often) {
                if self.random.percent(30) { self.double()? } else { self.damage()? }
            } else if !self.sound() && self.random.percent(20) {
                self.record(Record::Make)?;
            } else {
                self.call()?;
            }
        }
        Ok(())
    }
}

// A buffer's length, and the most calls that a history on it has.
fn extent(random: &mut Random, size: Size) -> (usize, usize) {
    if size == Size::Sample {
        return match random.below(100) {
            0 => (random.one_of(&[4095, 4096, 4097]), 2),
            1 => (random.one_of(&[FULL - 1, FULL, FULL + 1]), 4),
            2..=9 => (random.one_of(&[0, 1, 3, START - 2, START - 1]), 20),
            _ => (random.within(START, START + 26), 12),
        };
    }
    match random.below(1000) {
        0..=4 => (random.within(LONG + 1, 4096), 20),
        5..=9 => (random.one_of(&[4095, 4096]), 20),
        10..=14 => (random.one_of(&[4097, 4098, 5000]), 6),
        15..=34 => (random.below(START), 10),
        35..=44 => (START - 1, 10),
        45..=244 => (random.within(START, START + 18), 60),
        245..=644 => (random.within(START + 19, START + 98), 60),
        645..=944 => (random.within(START + 99, LONG), 60),
        _ => (random.one_of(&[FULL - 2, FULL - 1, FULL, FULL + 1]), 60),
    }
}

pub fn histories<W: Write>(count: usize, seed: u64, size: Size, to: &mut Records<W>) -> Result<()> {
    let mut random = Random(seed);
    let first: Vec<fixed::Course> = fixed::courses(&mut random, size).into_iter().take(count).collect();
    for course in &first {
        course.run(&mut History::new(&mut random, to, vec![], 0))?;
    }
    for _ in first.len()..count {
        any(&mut random, size, to)?;
    }
    Ok(())
}

fn any<W: Write>(random: &mut Random, size: Size, to: &mut Records<W>) -> Result<()> {
    let (length, most) = extent(random, size);
    let mut kinds = SETTINGS.to_vec();
    random.shuffle(&mut kinds);
    if random.percent(50) {
        kinds.truncate(if size == Size::Sample { 2 } else { random.one_of(&[3, 5, 8]) });
    }
    let first = random.byte();
    let calls = random.within(1, most);
    let often = random.one_of(if size == Size::Sample { &[0, 15] } else { &[0, 0, 3, 12] });
    let mut history = History::new(random, to, kinds, often);
    history.record(Record::Lend { length, first })?;
    history.run(calls)
}
