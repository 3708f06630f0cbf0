// What the histories came to: every answer of every call, every swap of forms at the edge of the room, and every way to miss a form has to be met.
use crate::book::{length, other_form, weight, Answer, Book, Frame, FORMS, FULL, FULL_REPLAY, MOST_FRAMES, START};
use crate::compare::{Step, Watch};
use crate::model::{commands, decode, Decoded};
use crate::record::Record;
use std::collections::{BTreeMap, BTreeSet};

// The calls, and the refusals that each can give.
const CALLS: [(&str, &[u8]); 6] = [
    ("make", &[11]),
    ("put", &[11, 10, 16, 1, 2, 3, 4, 5, 13, 8]),
    ("remove", &[11, 10, 16, 13, 9]),
    ("ask", &[11, 10, 16, 13, 9, 12]),
    ("clear", &[11, 10, 16]),
    ("replay", &[11, 10, 16, 12]),
];

#[derive(Clone, Copy, Debug, PartialEq, Eq, PartialOrd, Ord)]
pub enum Place {
    Alone,
    First,
    Middle,
    Last,
}

impl Place {
    // Of the frame at an index, among so many.
    pub fn of(at: usize, count: usize) -> Place {
        match (at, count - 1 - at) {
            (0, 0) => Place::Alone,
            (0, _) => Place::First,
            (_, 0) => Place::Last,
            _ => Place::Middle,
        }
    }
}

pub const PLACES: [Place; 4] = [Place::Alone, Place::First, Place::Middle, Place::Last];

// The lengths of a sync word that have to be met, each put and each in a stored book: the least, those about the limit, and the greatest that there is.
pub const LENGTHS: [u8; 6] = [0, 63, 64, 65, 66, 127];

// How the list with the longer form fills the buffer.
#[derive(Clone, Copy, Debug, PartialEq, Eq, PartialOrd, Ord)]
enum Room {
    Spare,
    Exact,
    OneShort,
    Short,
}

// A put of a kind whose other form is held.
#[derive(Clone, Copy, Debug, PartialEq, Eq, PartialOrd, Ord)]
struct Swap {
    kind: u64,
    place: Place,
    room: Room,
}

#[derive(Default)]
pub struct Seen {
    histories: u64,
    calls: [[u64; 17]; CALLS.len()],
    // Puts that brought back a kind that had been taken out, that made a book of all settings, and that made the longest.
    returned: u64,
    full: u64,
    longest: u64,
    // Puts of frames that are one of two forms.
    paired: u64,
    swaps: BTreeMap<Swap, u64>,
    // The swaps that fill a buffer to its last byte, or lack one, by the buffer's length.
    edges: BTreeSet<(usize, Swap)>,
    // Of what is asked for or taken out: the form that is not held while the other is.
    missed: BTreeMap<(usize, u64), u64>,
    // The lengths of sync words that were put into a good book, and those that were in a book when it was called, each with the refusal.
    put_lengths: BTreeSet<(u8, u8)>,
    stored_lengths: BTreeSet<(u8, u8)>,
    // Calls on a book with both forms that has another fault too.
    spoilt: [u64; CALLS.len()],
    // Puts into a book with both forms of what does not decode.
    undecoded: u64,
    // A full book's replay, in as many bytes as it takes and in one less; no room for the longest book in a buffer one byte shorter.
    replayed: [u64; 2],
    byte_less: u64,
    // No room in a buffer that has room for everything: this must never be.
    impossible: u64,
    // Of this history: the kinds that were taken out, and whether a book with both forms was spoilt.
    gone: Vec<u64>,
    is_spoilt: bool,
}

// Which of the calls a record is; none for one that only sets the buffer up, and for a side's call or a controller's.
fn call(record: &Record) -> Option<usize> {
    Some(match record {
        Record::Lend { .. } | Record::Poke { .. } | Record::Side { .. } => return None,
        Record::Start | Record::Send { .. } | Record::Hear { .. } => return None,
        Record::Make => 0,
        Record::Put { .. } => 1,
        Record::Remove { .. } => 2,
        Record::Ask { .. } => 3,
        Record::Clear => 4,
        Record::Replay { .. } => 5,
    })
}

// The length of a sync word, in bits: kind 20 has eleven bytes and begins with 02 44.
fn sync_word(frame: &[u8]) -> Option<u8> {
    if frame.len() == 11 && frame.starts_with(&[0x02, 0x44]) { Some(frame[10] % 128) } else { None }
}

// The sync word where the header says that one stands, in slot 16.
fn stored(bytes: &[u8]) -> Option<u8> {
    let at = u16::from_be_bytes([*bytes.get(36)?, *bytes.get(37)?]) as usize;
    sync_word(bytes.get(at..at + 11)?)
}

fn taken(frames: &[Frame]) -> usize {
    START + weight(frames)
}

// The kind of a frame that is one of two forms. Most frames are told by opcode and length to be none, which is quicker than to decode them.
fn form_of(frame: &[u8]) -> Option<u64> {
    let command = commands().iter().find(|c| frame.len() == c.length && frame.starts_with(&c.opcode))?;
    other_form(command.kind)?;
    match decode(frame) {
        Decoded::Kind(kind, _) => Some(kind),
        Decoded::Refused(..) => None,
    }
}

// The swap that a put of a kind into these frames is, if it is one.
fn swap(kind: u64, frames: &[Frame], size: usize) -> Option<Swap> {
    let other = other_form(kind)?;
    let at = frames.iter().position(|f| f.kind == other)?;
    let place = Place::of(at, frames.len());
    let room = match taken(frames) - length(other) + length(kind).max(length(other)) {
        bytes if bytes < size => Room::Spare,
        bytes if bytes == size => Room::Exact,
        bytes if bytes == size + 1 => Room::OneShort,
        _ => Room::Short,
    };
    Some(Swap { kind, place, room })
}

impl Watch for Seen {
    fn add(&mut self, step: &Step) -> Option<String> {
        self.met(step.record, step.before, step.answer, step.book);
        None
    }

    fn words(&self) -> String {
        let total = |refusal: usize| self.calls.iter().map(|call| call[refusal]).sum::<u64>();
        let refusals: Vec<String> = (1..17).filter(|r| total(*r) > 0).map(|r| format!("{}: {}", r, total(r))).collect();
        let calls = (0..17).map(total).sum::<u64>();
        let puts = self.calls[1].iter().sum::<u64>();
        let longer = |swap: &Swap| FORMS.iter().any(|(_, long)| swap.kind == *long);
        let fits = |swap: &Swap| swap.room <= Room::Exact;
        let lines = [
            format!("{} histories, {} calls, {} done; refusals {}", self.histories, calls, total(0), refusals.join(", ")),
            format!(
                "{} puts that brought a kind back, {} that made a book of all {} settings, {} that made one of {} bytes; one byte less refused {}",
                self.returned, self.full, MOST_FRAMES, self.longest, FULL, self.byte_less
            ),
            format!(
                "{} of {} puts of a paired kind; swaps: {} to the longer form, {} to the shorter, {} refused for room; {} edges of the room met",
                self.paired,
                puts,
                self.swaps(|s| longer(s) && fits(s)),
                self.swaps(|s| !longer(s)),
                self.swaps(|s| longer(s) && !fits(s)),
                self.edges.len()
            ),
            format!(
                "{} asks and removals of the form that is not held; of books with both forms, {} calls refused by 16 and {} by 10 for another fault",
                self.missed.values().sum::<u64>(),
                total(16),
                self.spoilt.iter().sum::<u64>()
            ),
        ];
        lines.join("\n")
    }

    fn missing(&self) -> Vec<String> {
        let all = [self.owed_of_calls(), self.owed_of_forms(), self.owed_of_full_books(), self.owed_of_sync_words()].concat();
        all.into_iter().filter(|(met, _)| !met).map(|(_, what)| what).collect()
    }
}

impl Seen {
    // What a record did: the content before it, its answer, and the book after it.
    fn met(&mut self, record: &Record, before: &Result<Vec<Frame>, u8>, answer: Answer, book: &Book) {
        match record {
            Record::Lend { .. } => {
                self.histories += 1;
                self.gone.clear();
                self.is_spoilt = false;
            }
            Record::Poke { .. } => self.is_spoilt = before.as_ref().err() == Some(&16) && book.content.as_ref().err() == Some(&10),
            _ => {}
        }
        if let Some(which) = call(record) {
            self.calls[which][answer.refusal as usize] += 1;
            self.spoilt[which] += (self.is_spoilt && answer.refusal == 10) as u64;
        }
        // Of the calls one is enough, and a replay leaves the book as it found it.
        if let (Record::Replay { .. }, Some(length)) = (record, stored(&book.bytes)) {
            self.stored_lengths.insert((length, answer.refusal));
        }
        match record {
            Record::Put { frame } => self.put(frame, before, answer, book),
            Record::Remove { kind } if answer.refusal == 0 => self.gone.push(*kind),
            Record::Remove { kind } => self.miss(2, *kind, answer, book),
            Record::Ask { kind, .. } => self.miss(3, *kind, answer, book),
            Record::Replay { output } if *output <= FULL_REPLAY && book.content.as_deref().map_or(0, taken) == FULL => {
                self.replayed[0] += (answer.written as usize == FULL_REPLAY) as u64;
                self.replayed[1] += (answer.refusal == 12 && *output + 1 == FULL_REPLAY) as u64;
            }
            _ => {}
        }
    }

    fn put(&mut self, frame: &[u8], before: &Result<Vec<Frame>, u8>, answer: Answer, book: &Book) {
        let (size, form) = (book.bytes.len(), form_of(frame));
        self.paired += form.is_some() as u64;
        self.undecoded += (answer.refusal == 16 && matches!(decode(frame), Decoded::Refused(..))) as u64;
        self.impossible += (answer.refusal == 8 && size >= FULL) as u64;
        let before = match before {
            Ok(before) => before,
            Err(_) => return,
        };
        self.put_lengths.extend(sync_word(frame).map(|length| (length, answer.refusal)));
        let swapped = form.and_then(|kind| swap(kind, before, size));
        if let Some(swap) = swapped {
            *self.swaps.entry(swap).or_default() += 1;
            if let Room::Exact | Room::OneShort = swap.room {
                self.edges.insert((size, swap));
            }
        }
        let after = book.content.as_deref().unwrap_or(&[]);
        if after.len() > before.len() {
            self.returned += self.gone.contains(&after[before.len()].kind) as u64;
            self.full += (after.len() == MOST_FRAMES) as u64;
        }
        self.longest += (taken(after) == FULL && taken(before) < FULL) as u64;
        let replaced = swapped.and_then(|swap| other_form(swap.kind)).map_or(0, length);
        self.byte_less += (answer.refusal == 8 && size == FULL - 1 && taken(before) - replaced + frame.len() == FULL) as u64;
    }

    fn miss(&mut self, which: usize, kind: u64, answer: Answer, book: &Book) {
        let held = |other: u64| book.content.as_deref().map_or(false, |frames| frames.iter().any(|f| f.kind == other));
        if answer.refusal == 9 && other_form(kind).map_or(false, held) {
            *self.missed.entry((which, kind)).or_default() += 1;
        }
    }

    fn swaps(&self, which: impl Fn(&Swap) -> bool) -> u64 {
        self.swaps.iter().filter(|(swap, _)| which(swap)).map(|(_, n)| n).sum()
    }

    fn owed_of_calls(&self) -> Vec<(bool, String)> {
        let mut owed = vec![];
        for (which, (name, refusals)) in CALLS.iter().enumerate() {
            for refusal in std::iter::once(&0).chain(*refusals) {
                owed.push((self.calls[which][*refusal as usize] > 0, format!("a {} with the answer {}", name, refusal)));
            }
            owed.push((which == 0 || self.spoilt[which] > 0, format!("a {} refused by 10 on a book with both forms", name)));
        }
        owed.push((self.undecoded > 0, "a put refused by 16 that does not decode".into()));
        owed
    }

    fn owed_of_forms(&self) -> Vec<(bool, String)> {
        let mut owed = vec![(3 * self.paired >= self.calls[1].iter().sum(), "a third of all puts of paired kinds".into())];
        for (short, long) in FORMS {
            for place in PLACES {
                for (kind, room) in [(long, Room::Exact), (long, Room::OneShort), (short, Room::Exact)] {
                    let swap = Swap { kind, place, room };
                    owed.push((self.swaps.contains_key(&swap), format!("{:?}", swap)));
                }
            }
            for (kind, which) in [(short, 2), (short, 3), (long, 2), (long, 3)] {
                let what = format!("a {} of kind {} while its other form is held", CALLS[which].0, kind);
                owed.push((self.missed.contains_key(&(which, kind)), what));
            }
        }
        owed
    }

    fn owed_of_sync_words(&self) -> Vec<(bool, String)> {
        let mut owed = vec![];
        for length in LENGTHS {
            let (put, open) = if length <= 64 { (0, 0) } else { (5, 10) };
            owed.push((self.put_lengths.contains(&(length, put)), format!("a put of a sync word of {} bits with the answer {}", length, put)));
            owed.push((self.stored_lengths.contains(&(length, open)), format!("a book with one of {} bits with the answer {}", length, open)));
        }
        owed
    }

    fn owed_of_full_books(&self) -> Vec<(bool, String)> {
        vec![
            (self.longest > 0, format!("a book of {} bytes", FULL)),
            (self.byte_less > 0, format!("a put refused as the buffer has {} bytes", FULL - 1)),
            (self.impossible == 0, format!("room for every put in {} bytes", FULL)),
            (self.replayed[0] > 0, format!("a replay of {} bytes", FULL_REPLAY)),
            (self.replayed[1] > 0, format!("a replay of {} bytes into one less", FULL_REPLAY)),
        ]
    }
}
