// Random histories in which a controller runs through a book. They are the same on every run and machine: the random numbers have a fixed seed.
use crate::book::{FULL, SETTINGS, START};
use crate::control;
use crate::file::Records;
use crate::fixed_control;
use crate::frames::{good, Random};
use crate::make::{History, Size, LONG};
use crate::record::{Record, State};
use std::io::{Result, Write};

// The codes of a status that let a run go on, and those that stop it.
pub const GOOD: [u8; 2] = [2, 3];
pub const BAD: [u8; 6] = [0, 1, 4, 5, 6, 7];

// A status of so many bytes with that code, if it has a byte for it; the other bits are any.
pub fn status(random: &mut Random, code: u8, length: usize) -> Vec<u8> {
    let mut bytes = random.bytes(length);
    if let Some(high) = bytes.first_mut() {
        *high = *high & !0x0E | code << 1;
    }
    bytes
}

// How the statuses of a run are chosen.
#[derive(Clone, Copy)]
enum Plan {
    Good,
    // Bad at this step, counted from 0.
    BadAt(u64),
    Any,
}

// A history, and where its run stands.
pub struct Steered<'a, W: Write> {
    pub history: History<'a, W>,
    pub state: State,
}

impl<W: Write> Steered<'_, W> {
    pub fn put(&mut self, kind: u64) -> Result<()> {
        let frame = good(self.history.random, kind);
        self.history.record(Record::Put { frame })
    }

    pub fn start(&mut self) -> Result<()> {
        self.history.record(Record::Start)?;
        if self.history.sound() {
            self.state = control::start(self.history.frames());
        }
        Ok(())
    }

    pub fn send(&mut self, state: State) -> Result<()> {
        self.history.record(Record::Send { state })
    }

    pub fn hear(&mut self, state: State, status: &[u8]) -> Result<()> {
        self.history.record(Record::Hear { state, status: status.to_vec() })
    }

    // Both calls in a state that is not the run's.
    pub fn aside(&mut self, state: State, status: &[u8]) -> Result<()> {
        self.send(state)?;
        self.hear(state, status)
    }

    // A step of the run.
    pub fn step(&mut self, status: &[u8]) -> Result<()> {
        self.aside(self.state, status)?;
        if self.history.sound() {
            self.state = control::hear(self.history.frames(), self.state, status);
        }
        Ok(())
    }

    // Most statuses have two bytes.
    fn any_status(&mut self, codes: &[u8]) -> Vec<u8> {
        let code = self.history.random.one_of(codes);
        let length = self.history.random.one_of(&[2, 2, 2, 2, 2, 2, 2, 2, 2, 2, 0, 1, 1, 3, 3, 4]);
        // One of no bytes says Fail.
        let length = if length == 0 && GOOD.contains(&code) { 1 } else { length };
        status(self.history.random, code, length)
    }

    fn planned(&mut self, plan: Plan, step: u64) -> Vec<u8> {
        match plan {
            Plan::BadAt(bad) if bad == step => self.any_status(&BAD),
            // The first judges nothing, so that it may be any.
            Plan::Good | Plan::BadAt(_) if step > 0 => self.any_status(&GOOD),
            _ => self.any_status(&[0, 1, 2, 3, 4, 5, 6, 7]),
        }
    }

    // A state that a caller may make up: counts at the end of the frames and past it, huge ones, and those whose low bytes are of a place.
    fn forged(&mut self) -> State {
        let frames = self.history.frames().len() as u64;
        let random = &mut *self.history.random;
        let place = random.below(frames as usize + 3) as u64;
        let count = match random.below(10) {
            0 => frames,
            1 | 2 => frames + 1,
            3 => u64::MAX,
            4 => random.next(),
            5 => random.one_of(&[1 << 8, 1 << 16, 1 << 31, 1 << 32, 1 << 63]) + place,
            _ => place,
        };
        State::of(random.one_of(&[0, 0, 1, 2]), count)
    }

    fn call_forged(&mut self) -> Result<()> {
        let (state, status) = (self.forged(), self.planned(Plan::Any, 0));
        if self.history.random.percent(50) {
            self.send(state)?;
        }
        self.hear(state, &status)
    }

    // A frame more, one less, or none.
    fn alter(&mut self) -> Result<()> {
        let held: Vec<u64> = self.history.frames().iter().map(|f| f.kind).collect();
        match self.history.random.below(8) {
            0 => self.history.record(Record::Clear),
            1..=4 if !held.is_empty() => {
                let kind = self.history.random.one_of(&held);
                self.history.record(Record::Remove { kind })
            }
            _ => {
                let kind = self.history.random.one_of(&SETTINGS);
                self.put(kind)
            }
        }
    }

    // Steps on a damaged book, and then the old bytes or a new book.
    fn damage(&mut self) -> Result<()> {
        let before = self.history.book.bytes.clone();
        self.history.spoil()?;
        for _ in 0..self.history.random.within(1, 3) {
            match self.history.random.below(4) {
                0 => self.history.record(Record::Start)?,
                1 => self.call_forged()?,
                _ => {
                    let status = self.planned(Plan::Any, 0);
                    self.step(&status)?
                }
            }
        }
        if self.history.random.percent(80) { self.history.poke(0, &before) } else { self.history.record(Record::Make) }
    }

    // What may come between two steps.
    fn between(&mut self) -> Result<()> {
        match self.history.random.below(40) {
            0 | 1 => self.history.call(),
            2 | 3 if self.history.sound() => self.alter(),
            4 if self.history.sound() => self.damage(),
            5..=7 => self.call_forged(),
            8 if !self.history.sound() => self.history.record(Record::Make),
            _ => Ok(()),
        }
    }

    // A run from its start to its end and past it, with something between its steps or not.
    fn run(&mut self, is_quiet: bool) -> Result<()> {
        self.start()?;
        let most = self.history.frames().len() as u64 + 1;
        let plan = match self.history.random.below(5) {
            0 | 1 => Plan::Good,
            2 | 3 => Plan::BadAt(self.history.random.below(most as usize) as u64),
            _ => Plan::Any,
        };
        let mut past = self.history.random.below(3) as u64;
        for step in 0..most + past {
            if !matches!(self.state, State::Running(_)) {
                if past == 0 {
                    break;
                }
                past -= 1;
            }
            if !is_quiet {
                self.between()?;
            }
            let status = self.planned(plan, step);
            self.step(&status)?;
        }
        Ok(())
    }

    // A book of some frames, put or handed in as bytes; none, or no book.
    fn fill(&mut self) -> Result<()> {
        let is_book = (START..=4096).contains(&self.history.book.bytes.len());
        match self.history.random.below(20) {
            0 => return Ok(()),
            1..=4 if is_book => {
                let both = self.history.random.percent(20);
                return self.history.hand_in(both);
            }
            _ => self.history.record(Record::Make)?,
        }
        let mut kinds = SETTINGS.to_vec();
        self.history.random.shuffle(&mut kinds);
        kinds.truncate(self.history.random.one_of(&[0, 1, 2, 3, 5, 8, 12, 20, SETTINGS.len()]));
        kinds.into_iter().try_for_each(|kind| self.put(kind))
    }
}

// A buffer's length.
fn extent(random: &mut Random, size: Size) -> usize {
    if size == Size::Sample {
        return random.within(START, START + 14);
    }
    match random.below(1000) {
        0..=2 => random.within(LONG + 1, 4096),
        3 | 4 => random.one_of(&[4095, 4096]),
        5..=7 => random.one_of(&[4097, 4098, 5000]),
        8..=15 => random.below(START),
        16..=20 => START - 1,
        21..=199 => random.within(START, START + 18),
        200..=599 => random.within(START + 19, START + 98),
        600..=899 => random.within(START + 99, LONG),
        _ => random.one_of(&[FULL - 1, FULL, FULL + 1]),
    }
}

// So many histories, of which those of a fixed course come first.
pub fn histories<W: Write>(count: usize, seed: u64, size: Size, to: &mut Records<W>) -> Result<()> {
    let mut random = Random(seed);
    let first: Vec<fixed_control::Course> = fixed_control::courses(size).into_iter().take(count).collect();
    for course in &first {
        course.run(Steered { history: History::new(&mut random, to, vec![], 0), state: State::Done })?;
    }
    for _ in first.len()..count {
        let (length, first) = (extent(&mut random, size), random.byte());
        let (runs, is_quiet) = (if size == Size::Sample { 1 } else { random.within(1, 4) }, random.percent(40));
        let mut steered = Steered { history: History::new(&mut random, to, SETTINGS.to_vec(), 0), state: State::Done };
        steered.history.record(Record::Lend { length, first })?;
        steered.fill()?;
        for _ in 0..runs {
            steered.run(is_quiet)?;
        }
    }
    Ok(())
}
