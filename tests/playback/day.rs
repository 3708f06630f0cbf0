// A recorded day played on a fresh book, a second time (REFERENCE, "Playback"): from the rules alone, without the source, over the plain list
// of histories/book.rs.
use crate::book::{slot, Book};
use crate::model::{decode, Decoded};
use crate::record::Record;

// The kinds that ask for a response, and how long it is.
pub const REQUESTS: [(u64, usize); 4] = [(9, 12), (10, 8), (22, 16), (23, 8)];

// What the latest sent record is.
#[derive(Clone, Copy, Debug, PartialEq, Eq, PartialOrd, Ord)]
pub enum Latest {
    Nothing,
    Undecodable,
    Setting,
    Action,
    Request(u64),
}

// Why a playback stops.
#[derive(Clone, Copy, Debug, PartialEq, Eq, PartialOrd, Ord)]
pub enum Fault {
    ShortHeader,
    LowOffset,
    PastTheEnd,
    Missing,
    Cut,
    Direction,
}

// What a record did: a put, nothing for an action, a reading (whether it is not the first to its request), or nothing at all.
#[derive(Clone, Copy, Debug, PartialEq, Eq, PartialOrd, Ord)]
pub enum Event {
    Accepted(u64),
    Refused(u8),
    Action(u64),
    Read(u64, bool),
    Skipped(Latest),
}

pub struct Day {
    pub book: Book,
    pub refusal: u8,
    pub place: usize,
    pub fault: Option<Fault>,
    pub accepted: u64,
    pub refused: [u64; 9],
    pub skipped: u64,
    // The bytes of the last reading of each request.
    pub readings: [Option<Vec<u8>>; 4],
    // Of each record that was played.
    pub events: Vec<Event>,
    latest: Latest,
    answered: bool,
}

pub struct Recorded<'a> {
    pub received: bool,
    pub bytes: &'a [u8],
}

pub fn word(trace: &[u8], at: usize) -> usize {
    u16::from_be_bytes([trace[at], trace[at + 1]]) as usize
}

// What stands at an offset: a whole record, or why it is none.
fn record_at(trace: &[u8], at: usize) -> Result<Recorded<'_>, Fault> {
    match trace.get(at..) {
        None => Err(Fault::PastTheEnd),
        Some([]) => Err(Fault::Missing),
        Some([2..=255, ..]) => Err(Fault::Direction),
        Some([direction, length, rest @ ..]) if rest.len() >= *length as usize => {
            Ok(Recorded { received: *direction == 1, bytes: &rest[..*length as usize] })
        }
        Some(_) => Err(Fault::Cut),
    }
}

// The records before any fault, and that fault with its place: where the record starts, 0 for the header.
pub fn records(trace: &[u8]) -> (Vec<Recorded<'_>>, Option<(Fault, usize)>) {
    let mut found = vec![];
    if trace.len() < 4 {
        return (found, Some((Fault::ShortHeader, 0)));
    }
    let mut at = word(trace, 2);
    if at < 4 {
        return (found, Some((Fault::LowOffset, 0)));
    }
    for _ in 0..word(trace, 0) {
        match record_at(trace, at) {
            Err(fault) => return (found, Some((fault, at))),
            Ok(record) => {
                at += 2 + record.bytes.len();
                found.push(record);
            }
        }
    }
    (found, None)
}

impl Day {
    fn new(book: Book) -> Day {
        Day {
            book,
            refusal: 0,
            place: 0,
            fault: None,
            accepted: 0,
            refused: [0; 9],
            skipped: 0,
            readings: [None, None, None, None],
            events: vec![],
            latest: Latest::Nothing,
            answered: false,
        }
    }

    // An action is only noted; all else goes into the book.
    fn sent(&mut self, bytes: &[u8]) -> Event {
        let kind = match decode(bytes) {
            Decoded::Kind(kind, _) => kind,
            Decoded::Refused(..) => 0,
        };
        self.answered = false;
        self.latest = match kind {
            0 => Latest::Undecodable,
            _ if REQUESTS.iter().any(|(request, _)| *request == kind) => Latest::Request(kind),
            _ if slot(kind).is_some() => Latest::Setting,
            _ => Latest::Action,
        };
        if let Latest::Action | Latest::Request(_) = self.latest {
            return Event::Action(kind);
        }
        match self.book.carry_out(&Record::Put { frame: bytes.to_vec() }).refusal {
            0 => {
                self.accepted += 1;
                Event::Accepted(kind)
            }
            number => {
                self.refused[number as usize] += 1;
                Event::Refused(number)
            }
        }
    }

    // A reading has its request before it and the length of that request's response.
    fn received(&mut self, bytes: &[u8]) -> Event {
        let fits = |(kind, length): &(u64, usize)| self.latest == Latest::Request(*kind) && *length == bytes.len();
        match REQUESTS.iter().position(fits) {
            Some(i) => {
                let again = core::mem::replace(&mut self.answered, true);
                self.readings[i] = Some(bytes.to_vec());
                Event::Read(REQUESTS[i].0, again)
            }
            None => {
                self.skipped += 1;
                Event::Skipped(self.latest)
            }
        }
    }
}

// The whole day, on a book that is made in the buffer that comes in.
pub fn play(trace: &[u8], book: Book) -> Day {
    let mut day = Day::new(book);
    day.refusal = day.book.carry_out(&Record::Make).refusal;
    if day.refusal != 0 {
        return day;
    }
    let (records, fault) = records(trace);
    for record in records {
        let event = if record.received { day.received(record.bytes) } else { day.sent(record.bytes) };
        day.events.push(event);
    }
    if let Some((fault, place)) = fault {
        day.fault = Some(fault);
        day.refusal = 15;
        day.place = place;
    }
    day
}
