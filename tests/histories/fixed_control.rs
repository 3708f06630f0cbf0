// Histories of a controller whose course is fixed: a technician's book, every status at every place of a run, states that are over, an empty book,
// books that are refused, books that are altered between two steps, a full one, and each end of a run in books of every number of frames.
use crate::book::{image, other_form, Frame, FULL, MOST_FRAMES, SETTINGS, START, VERSION};
use crate::control::send;
use crate::frames::good;
use crate::make::Size;
use crate::make_control::{status, Steered, BAD};
use crate::record::{hex, Record, State};
use std::io::{Result, Write};

pub enum Course {
    Story,
    Statuses,
    Over,
    Empty,
    // A buffer of so many bytes.
    Refused(usize),
    Altered,
    Full,
    // A book of so many frames.
    Ends(usize),
}

// A buffer with room for three short frames.
const FEW: usize = START + 12;

pub fn courses(size: Size) -> Vec<Course> {
    let lengths = if size == Size::Sample { vec![START - 1, FEW] } else { vec![0, 1, START - 1, FEW, 4097] };
    let mut all = vec![Course::Story, Course::Statuses, Course::Over, Course::Empty, Course::Altered, Course::Full];
    all.extend(lengths.into_iter().map(Course::Refused));
    all.extend((1..=if size == Size::Sample { 0 } else { MOST_FRAMES }).map(Course::Ends));
    all
}

impl Course {
    pub fn run<W: Write>(&self, mut on: Steered<W>) -> Result<()> {
        match self {
            Course::Story => story(&mut on),
            Course::Statuses => statuses(&mut on),
            Course::Over => over(&mut on),
            Course::Empty => empty(&mut on),
            Course::Refused(length) => refused(&mut on, *length),
            Course::Altered => altered(&mut on),
            Course::Full => full(&mut on),
            Course::Ends(count) => ends(&mut on, *count),
        }
    }
}

// A new book with frames of these kinds.
fn begin<W: Write>(on: &mut Steered<W>, length: usize, kinds: &[u64]) -> Result<()> {
    let first = on.history.random.byte();
    on.history.record(Record::Lend { length, first })?;
    on.history.record(Record::Make)?;
    kinds.iter().try_for_each(|kind| on.put(*kind))
}

// A run by these statuses, which has to end as it is said, by hand.
fn runs<W: Write>(on: &mut Steered<W>, statuses: &[[u8; 2]], end: State) -> Result<()> {
    on.start()?;
    for status in statuses {
        on.step(status)?;
    }
    assert_eq!(on.state, end, "the state, by hand");
    Ok(())
}

// The receive path with its boost, then the frequency: done, stopped by each, and a first status that judges nothing; each with a step behind it.
fn story<W: Write>(on: &mut Steered<W>) -> Result<()> {
    begin(on, FEW, &[])?;
    for frame in [&[2, 1, 1, 4][..], &[2, 0, 0x33, 0xBE, 0x27, 0xA0]] {
        on.history.record(Record::Put { frame: frame.to_vec() })?;
    }
    let sent: Vec<Option<String>> = (0..4).map(|sent| send(on.history.frames(), State::Running(sent)).map(hex)).collect();
    assert_eq!(sent, [Some("02 01 01 04".into()), Some("02 00 33 be 27 a0".into()), Some("".into()), None], "what is sent, by hand");
    let (fail, perr, ok, data, unknown) = ([0xF1, 0xFF], [2, 0], [4, 0], [7, 0x21], [0x0A, 4]);
    runs(on, &[ok, ok, data, fail], State::Done)?;
    runs(on, &[fail, data, ok, ok], State::Done)?;
    runs(on, &[ok, fail, ok], State::Stopped(1))?;
    runs(on, &[perr, ok, unknown, ok], State::Stopped(2))?;
    runs(on, &[unknown, perr, fail], State::Stopped(1))
}

// Each code in a status of each length, with no frame sent, one, and all.
fn statuses<W: Write>(on: &mut Steered<W>) -> Result<()> {
    begin(on, FEW, &[4, 25])?;
    for sent in 0..3 {
        for code in 0..8 {
            let status = status(on.history.random, code, 2);
            on.hear(State::Running(sent), &status)?;
        }
        for length in [0, 1, 3, 4] {
            for code in [0, 2] {
                let status = status(on.history.random, code, length);
                on.hear(State::Running(sent), &status)?;
            }
        }
    }
    Ok(())
}

// States in which nothing is left to do in a book of two frames, some of them made up.
fn over<W: Write>(on: &mut Steered<W>) -> Result<()> {
    begin(on, FEW, &[25, 4])?;
    let running = [3, 258, (1 << 32) + 1, (1 << 63) + 1, u64::MAX].map(State::Running);
    let made_up = running.into_iter().chain([0, 1, 3, u64::MAX].map(State::Stopped));
    for state in made_up.chain([State::Done]) {
        on.aside(state, &[4, 0])?;
        on.hear(state, &[0, 0])?;
    }
    for code in [1, 3, 4] {
        let status = status(on.history.random, code, 2);
        on.hear(State::Done, &status)?;
        on.hear(State::Stopped(1), &status)?;
    }
    Ok(())
}

fn empty<W: Write>(on: &mut Steered<W>) -> Result<()> {
    begin(on, START, &[])?;
    runs(on, &[[0, 0]], State::Done)?;
    for count in [0, 1, u64::MAX] {
        on.aside(State::Running(count), &[4, 0])?;
        on.aside(State::Stopped(count), &[0, 0])?;
    }
    Ok(())
}

// Each call in each state.
fn every_call<W: Write>(on: &mut Steered<W>) -> Result<()> {
    on.history.record(Record::Start)?;
    [State::Running(0), State::Running(1), State::Done, State::Stopped(1)].into_iter().try_for_each(|state| on.aside(state, &[4, 0]))
}

// A buffer that is no book; with the length of one, a fault in its bytes, and both forms of a setting, with another fault and without.
fn refused<W: Write>(on: &mut Steered<W>, length: usize) -> Result<()> {
    begin(on, length, &[])?;
    if !(START..=4096).contains(&length) {
        return every_call(on);
    }
    let frames = [4, 25, 26].map(|kind| Frame { kind, bytes: good(on.history.random, kind) });
    let book = image(&frames, length);
    on.history.poke(0, &book)?;
    every_call(on)?;
    on.history.poke(0, &[VERSION + 1])?;
    every_call(on)
}

// So many good steps of a new run.
fn good_steps<W: Write>(on: &mut Steered<W>, count: usize) -> Result<()> {
    on.start()?;
    (0..count).try_for_each(|_| on.step(&[4, 0]))
}

// Between two steps a frame comes behind the last, or in the place of another; one goes, so that the run ends sooner; more go than are left, so
// that it is over as it is; and it goes on with the bytes of before.
fn altered<W: Write>(on: &mut Steered<W>) -> Result<()> {
    begin(on, FEW, &[4, 25])?;
    let before = on.history.book.bytes.clone();
    good_steps(on, 2)?;
    on.put(3)?;
    on.step(&[4, 0])?;
    on.put(4)?;
    on.step(&[6, 0])?;
    assert_eq!(on.state, State::Done, "the state behind a frame more, by hand");
    good_steps(on, 2)?;
    on.history.record(Record::Remove { kind: 25 })?;
    on.step(&[6, 0])?;
    assert_eq!(on.state, State::Done, "the state behind a frame less, by hand");
    good_steps(on, 2)?;
    on.history.record(Record::Remove { kind: 4 })?;
    on.step(&[0, 0])?;
    on.history.record(Record::Clear)?;
    on.step(&[0, 0])?;
    assert_eq!(on.state, State::Running(2), "the state where more are sent than there are, by hand");
    on.history.poke(0, &before)?;
    on.step(&[0, 0])?;
    assert_eq!(on.state, State::Stopped(2), "the state on the bytes of before, by hand");
    Ok(())
}

// A book of so many settings, in one form each, in any order.
fn hold<W: Write>(on: &mut Steered<W>, count: usize) -> Result<()> {
    let mut kinds = SETTINGS.to_vec();
    on.history.random.shuffle(&mut kinds);
    let mut frames: Vec<Frame> = vec![];
    for kind in kinds {
        if frames.len() < count && !frames.iter().any(|f| Some(f.kind) == other_form(kind)) {
            frames.push(Frame { kind, bytes: good(on.history.random, kind) });
        }
    }
    begin(on, FULL, &[])?;
    on.history.poke(0, &image(&frames, FULL))
}

// Each place of a book of all settings: what is sent there, and a stop.
fn full<W: Write>(on: &mut Steered<W>) -> Result<()> {
    hold(on, MOST_FRAMES)?;
    for sent in 0..=MOST_FRAMES {
        let status = status(on.history.random, BAD[sent % BAD.len()], 2);
        on.aside(State::Running(sent as u64), &status)?;
    }
    Ok(())
}

// A whole run to each end that there is in a book of so many frames.
fn ends<W: Write>(on: &mut Steered<W>, count: usize) -> Result<()> {
    hold(on, count)?;
    let good = vec![[4, 0]; count + 1];
    runs(on, &good, State::Done)?;
    for position in 1..=count {
        let bad = on.history.random.one_of(&BAD) << 1;
        runs(on, &[&good[..position], &[[bad, 0]]].concat(), State::Stopped(position as u64))?;
    }
    Ok(())
}
