// The controller over the plain list: single steps, and a whole run as one loop. The rules are the request's; nothing of the source is used.
use crate::book::{counting, refused, Answer, Book, Frame};
use crate::record::{Record, State};

// What a status says of the command before.
#[derive(Clone, Copy, Debug, PartialEq, Eq, PartialOrd, Ord)]
pub enum Said {
    Fail,
    PErr,
    Ok,
    Data,
    Unknown,
}

// Bits 11 to 9 of the two bytes, high byte first. A byte that is missing is 0, and further ones are not looked at.
pub fn code(status: &[u8]) -> u8 {
    let [high, low] = [0, 1].map(|i| status.get(i).copied().unwrap_or(0));
    (u16::from_be_bytes([high, low]) >> 9 & 7) as u8
}

impl Said {
    pub fn of(status: &[u8]) -> Said {
        match code(status) {
            0 => Said::Fail,
            1 => Said::PErr,
            2 => Said::Ok,
            3 => Said::Data,
            _ => Said::Unknown,
        }
    }

    pub fn is_bad(self) -> bool {
        matches!(self, Said::Fail | Said::PErr | Said::Unknown)
    }
}

// ---- steps

// What the steps of a run send: the replay in order, and behind it the final empty read. "An empty book is done at once."
fn sendings(frames: &[Frame]) -> Vec<&[u8]> {
    let replay = frames.iter().map(|f| &f.bytes[..]);
    if frames.is_empty() { vec![] } else { replay.chain([&[][..]]).collect() }
}

// What is sent in a state; none where the work is over.
pub fn send(frames: &[Frame], state: State) -> Option<&[u8]> {
    match state {
        State::Running(sent) => sendings(frames).get(usize::try_from(sent).ok()?).copied(),
        State::Done | State::Stopped(_) => None,
    }
}

pub fn start(frames: &[Frame]) -> State {
    if frames.is_empty() { State::Done } else { State::Running(0) }
}

// "The status at step k judges frame k-1": with so many frames sent before, it judges the last of them. "The first status judges nothing."
pub fn hear(frames: &[Frame], state: State, status: &[u8]) -> State {
    match (state, send(frames, state)) {
        (State::Running(sent), Some(_)) if sent > 0 && Said::of(status).is_bad() => State::Stopped(sent),
        (State::Running(_), Some([])) => State::Done,
        (State::Running(sent), Some(_)) => State::Running(sent + 1),
        _ => state,
    }
}

// ---- a whole run

// The frames that it sent, where it ended, and behind how many steps.
#[derive(Debug, PartialEq)]
pub struct Run {
    pub sent: Vec<Vec<u8>>,
    pub end: State,
    pub steps: usize,
}

// By the statuses of its steps; there have to be as many as it takes. A book of n frames, n above 0, takes at most n + 1.
pub fn run(frames: &[Frame], statuses: &[Vec<u8>]) -> Run {
    let most = if frames.is_empty() { 0 } else { frames.len() + 1 };
    let mut sent = vec![];
    for step in 1..=most {
        sent.extend(frames.get(step - 1).map(|f| f.bytes.clone()));
        if step > 1 && Said::of(&statuses[step - 1]).is_bad() {
            return Run { sent, end: State::Stopped(step as u64 - 1), steps: step };
        }
    }
    Run { sent, end: State::Done, steps: most }
}

// ---- the program's answers

// A state in the output: the outcome, and the count in eight bytes.
fn state_bytes(state: State) -> Vec<u8> {
    let (outcome, count) = state.numbers();
    [&[outcome], &count.to_be_bytes()[..]].concat()
}

// What is sent, in the output: whether nothing is left to do, how many bytes, and the bytes with zeros behind them.
fn sending_bytes(is_over: bool, frame: &[u8]) -> Vec<u8> {
    let mut bytes = [&[is_over as u8, frame.len() as u8], frame].concat();
    bytes.resize(14, 0);
    bytes
}

// The book's own refusals come first, in every state; a send that is refused sends nothing.
pub fn carry_out(book: &mut Book, record: &Record) -> Answer {
    book.output = counting(165, record.output());
    let frames = match book.content.clone() {
        Ok(frames) => frames,
        Err(refusal) => {
            if let Record::Send { .. } = record {
                book.write(&sending_bytes(false, &[]));
            }
            return refused(refusal);
        }
    };
    let told = match record {
        Record::Start => state_bytes(start(&frames)),
        Record::Send { state } => send(&frames, *state).map_or(sending_bytes(true, &[]), |frame| sending_bytes(false, frame)),
        Record::Hear { state, status } => state_bytes(hear(&frames, *state, status)),
        _ => unreachable!(),
    };
    book.write(&told)
}
