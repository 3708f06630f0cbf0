// Random histories of two sides that share a book. They are the same on every run and machine: the random numbers have a fixed seed.
use crate::book::{length, other_form, place, weight, Frame, ACTIONS, FORMS, FULL, MOST_BYTES, SETTINGS, SLOTS, START};
use crate::file::Records;
use crate::fixed::filling;
use crate::fixed_sides;
use crate::frames::{damaged, good, Random};
use crate::make::{History, Size, LONG};
use crate::model::{commands, KINDS};
use crate::record::{Call, Record, Table};
use crate::sides::{owner, part};
use crate::tables::{kinds_of, place_of, right_table, wrong_caller, wrong_quotas};
use std::io::{Result, Write};

// A history of two sides, with the table that is right for it.
pub struct Sharing<'a, W: Write> {
    pub history: History<'a, W>,
    pub table: Table,
}

impl<W: Write> Sharing<'_, W> {
    pub fn room(&self) -> usize {
        self.history.book.bytes.len().saturating_sub(START)
    }

    // What a side holds by the history's table.
    pub fn held(&self, side: u64) -> Vec<Frame> {
        part(self.history.frames(), &self.table.owners, side).cloned().collect()
    }

    fn quota(&self, side: u64) -> usize {
        self.table.quotas[side as usize - 1].min(5000) as usize
    }

    pub fn call(&mut self, caller: u64, call: Call) -> Result<()> {
        let table = self.table.clone();
        self.call_with(caller, table, call)
    }

    // A record has 255 bytes of data at most, of which the table takes its part.
    pub fn call_with(&mut self, caller: u64, table: Table, mut call: Call) -> Result<()> {
        if let Call::Put { frame } = &mut call {
            frame.truncate(255 - 17 - table.owners.len());
        }
        self.history.record(Record::Side { caller, table, call })
    }

    pub fn put(&mut self, side: u64, kind: u64) -> Result<()> {
        let frame = good(self.history.random, kind);
        self.call(side, Call::Put { frame })
    }

    // How many bytes the frames of a side have once one of its kinds is put.
    fn after(&self, side: u64, kind: u64) -> usize {
        let mut held = self.held(side);
        place(Frame { kind, bytes: vec![0; length(kind)] }, &mut held);
        weight(&held)
    }

    // A side's own kinds that leave its frames at its quota if they are put, or one byte past it.
    fn edges(&self, side: u64) -> Vec<u64> {
        let quota = self.quota(side);
        kinds_of(&self.table.owners, side).into_iter().filter(|k| [quota, quota + 1].contains(&self.after(side, *k))).collect()
    }

    // Of the settings that a side holds in one of two forms, the other.
    fn unheld_forms(&self, side: u64) -> Vec<u64> {
        self.held(side).iter().filter_map(|f| other_form(f.kind)).collect()
    }

    fn frame(&mut self, side: u64) -> Vec<u8> {
        let kinds = match self.history.random.below(24) {
            0..=2 => return damaged(self.history.random),
            3 => ACTIONS.to_vec(),
            4 | 5 => kinds_of(&self.table.owners, 3 - side),
            6..=9 => self.unheld_forms(side),
            10..=15 => self.edges(side),
            _ => vec![],
        };
        let own = kinds_of(&self.table.owners, side);
        let kinds = [kinds, own, SETTINGS.to_vec()].into_iter().find(|kinds| !kinds.is_empty()).expect("settings");
        let kind = self.history.random.one_of(&kinds);
        good(self.history.random, kind)
    }

    fn kind(&mut self, side: u64) -> u64 {
        let (any, which) = (self.history.random.within(1, KINDS as usize) as u64, self.history.random.below(20));
        let held = |side| self.held(side).iter().map(|f| f.kind).collect::<Vec<u64>>();
        let kinds = match which {
            0 => ACTIONS.to_vec(),
            1 => vec![0, KINDS + 1, 255, 300, u64::MAX, 1 << 63, 256 + any, (1 << 32) + any, (1 << 56) + any],
            2 | 3 => held(3 - side),
            4 | 5 => kinds_of(&self.table.owners, 3 - side),
            6 | 7 => self.unheld_forms(side),
            8..=10 => kinds_of(&self.table.owners, side),
            _ => held(side),
        };
        self.history.random.one_of(if kinds.is_empty() { &SETTINGS } else { &kinds })
    }

    // A call that a side may think of.
    pub fn any_call(&mut self, side: u64) -> Call {
        match self.history.random.below(100) {
            0..=51 => Call::Put { frame: self.frame(side) },
            52..=65 => Call::Remove { kind: self.kind(side) },
            66..=81 => {
                let kind = self.kind(side);
                let need = commands().iter().find(|c| c.kind == kind).map_or(4, |c| c.length);
                Call::Ask { kind, output: self.history.output(need) }
            }
            82..=95 => {
                let held = self.held(side);
                Call::Replay { output: self.history.output(weight(&held) + held.len()) }
            }
            _ => Call::Clear,
        }
    }

    // A table, or a caller, that is wrong in one way; or a table of another book, which may be right for this one.
    fn spoilt(&mut self, caller: u64) -> (u64, Table) {
        let (room, held) = (self.room(), [1, 2].map(|side| weight(&self.held(side)) as u64));
        let random = &mut *self.history.random;
        let mut table = self.table.clone();
        let slot = random.below(SLOTS);
        match random.below(10) {
            0 => table.owners.truncate(random.one_of(&[SLOTS - 1, SLOTS - 1, slot])),
            1 => {
                let n = random.one_of(&[1, 1, 2, 35]);
                table.owners.extend((0..n).map(|_| 1 + random.below(2) as u8))
            }
            2 | 3 => table.owners[slot] = random.one_of(&[0, 3, 129, 255]),
            4 => {
                let (short, long) = random.one_of(&FORMS);
                let form = place_of(random.one_of(&[short, long]));
                table.owners[form] = if table.owners[form] == 1 { 2 } else { 1 };
            }
            5 | 6 => table.quotas = wrong_quotas(random, room as u64),
            // A quota below what is held, if something is.
            7 => {
                let i = random.below(2);
                table.quotas[i] = held[i].saturating_sub(random.one_of(&[1, 1, 2, 40]));
            }
            8 => table = right_table(random, room),
            _ => return (wrong_caller(random), table),
        }
        (caller, table)
    }

    // A call with a table that is wrong in one way, or in two.
    fn call_spoilt(&mut self) -> Result<()> {
        let side = self.history.random.one_of(&[1, 2]);
        let call = self.any_call(side);
        let right = self.table.clone();
        let (mut caller, mut table) = self.spoilt(side);
        if self.history.random.percent(15) && table.owners.len() == SLOTS {
            self.table = table;
            (caller, table) = self.spoilt(caller);
            self.table = right;
        }
        self.call_with(caller, table, call)
    }

    fn call_right(&mut self) -> Result<()> {
        let side = self.history.random.one_of(&[1, 2]);
        let call = self.any_call(side);
        self.call(side, call)
    }

    // A whole-book put that takes a side past its quota, calls of both sides, and the removal that brings it back.
    fn overrun(&mut self) -> Result<()> {
        let side = self.history.random.one_of(&[1, 2]);
        let others = weight(&self.held(3 - side));
        let is_over = |k: &u64| self.after(side, *k) > self.quota(side) && self.after(side, *k) + others <= self.room();
        let kinds: Vec<u64> = kinds_of(&self.table.owners, side).into_iter().filter(is_over).collect();
        if kinds.is_empty() {
            return self.call_right();
        }
        let kind = self.history.random.one_of(&kinds);
        let frame = good(self.history.random, kind);
        self.history.record(Record::Put { frame })?;
        for _ in 0..self.history.random.within(2, 5) {
            self.call_right()?;
        }
        self.history.record(Record::Remove { kind })?;
        self.call_right()
    }

    // Takes out something of a side that holds more than its quota, if there is one.
    fn relieve(&mut self) -> Result<()> {
        let is_over = |side: &u64| weight(&self.held(*side)) > self.quota(*side);
        match [1, 2].into_iter().find(is_over).map(|side| self.held(side)) {
            None => self.call_right(),
            Some(held) => {
                let kind = held[self.history.random.below(held.len())].kind;
                self.history.record(Record::Remove { kind })
            }
        }
    }

    // A side clears, and puts frames up to its quota exactly, or with the last of them to one byte past it.
    fn fill(&mut self) -> Result<()> {
        let side = self.history.random.one_of(&[1, 2]);
        let bytes = self.quota(side) + self.history.random.below(2);
        let is_own = |kind: u64| owner(&self.table.owners, kind) == Some(side);
        let kinds = if bytes > MOST_BYTES + 1 { None } else { filling(self.history.random, bytes, is_own) };
        let mut kinds = kinds.unwrap_or_default();
        self.history.random.shuffle(&mut kinds);
        self.call(side, Call::Clear)?;
        for kind in kinds {
            self.put(side, kind)?;
        }
        self.call_right()
    }

    // Damage, or both forms of a setting, some calls on that book, and then the old bytes or a new book.
    fn damage(&mut self) -> Result<()> {
        let before = self.history.book.bytes.clone();
        self.history.spoil()?;
        for _ in 0..self.history.random.within(1, 4) {
            if self.history.random.percent(60) { self.call_right()? } else { self.call_spoilt()? }
        }
        if self.history.random.percent(70) { self.history.poke(0, &before) } else { self.history.record(Record::Make) }
    }

    fn run(&mut self, calls: usize) -> Result<()> {
        let is_book = (START..=4096).contains(&self.history.book.bytes.len());
        match self.history.random.below(20) {
            0 if is_book => self.history.hand_in(false)?,
            1 => {}
            _ => self.history.record(Record::Make)?,
        }
        for _ in 0..calls {
            match self.history.random.below(100) {
                0..=4 if !self.history.sound() => self.history.record(Record::Make)?,
                5..=19 if self.history.sound() => self.relieve()?,
                20..=29 => self.history.call()?,
                30..=32 if self.history.sound() => self.overrun()?,
                33..=35 if self.history.sound() => self.fill()?,
                36..=37 if self.history.sound() => self.damage()?,
                38..=45 => self.call_spoilt()?,
                _ => self.call_right()?,
            }
        }
        Ok(())
    }
}

// A buffer's length, and the most calls that a history on it has.
fn extent(random: &mut Random, size: Size) -> (usize, usize) {
    if size == Size::Sample {
        return (random.within(START, START + 26), 12);
    }
    match random.below(1000) {
        0..=3 => (random.within(LONG + 1, 4096), 20),
        4..=6 => (random.one_of(&[4095, 4096]), 20),
        7..=10 => (random.one_of(&[4097, 4098, 5000]), 12),
        11..=20 => (random.below(START), 12),
        21..=30 => (START - 1, 12),
        31..=249 => (random.within(START, START + 18), 40),
        250..=699 => (random.within(START + 19, START + 98), 40),
        700..=949 => (random.within(START + 99, LONG), 40),
        _ => (random.one_of(&[FULL - 1, FULL, FULL + 1]), 40),
    }
}

// So many histories, of which those of a fixed course come first.
pub fn histories<W: Write>(count: usize, seed: u64, size: Size, to: &mut Records<W>) -> Result<()> {
    let mut random = Random(seed);
    let first: Vec<fixed_sides::Course> = fixed_sides::courses(&mut random, size).into_iter().take(count).collect();
    for course in &first {
        course.run(History::new(&mut random, to, vec![], 0))?;
    }
    for _ in first.len()..count {
        let (length, most) = extent(&mut random, size);
        let table = right_table(&mut random, length.saturating_sub(START));
        let (first, calls) = (random.byte(), random.within(1, most));
        let mut sharing = Sharing { history: History::new(&mut random, to, SETTINGS.to_vec(), 0), table };
        sharing.history.record(Record::Lend { length, first })?;
        sharing.run(calls)?;
    }
    Ok(())
}
