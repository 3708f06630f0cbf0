// The book as a plain list of frames, and the bytes that the format gives it. Written from the rules alone, without the source.
use crate::model::{commands, decode, Decoded, Use, ROWS};
use crate::record::Record;

#[derive(Clone, Copy, PartialEq)]
pub struct Answer {
    pub refusal: u8,
    pub place: u8,
    pub written: u16,
}

pub fn done(written: usize) -> Answer {
    Answer { refusal: 0, place: 0, written: written as u16 }
}

pub fn refused(refusal: u8) -> Answer {
    Answer { refusal, place: 0, written: 0 }
}

#[derive(Clone, PartialEq)]
pub struct Frame {
    pub kind: u64,
    pub bytes: Vec<u8>,
}

// What the rows of the model come to: how many settings there are, how many of them are a longer form, and the bytes of one frame of each setting,
// in the longer form where there are two.
struct Counts {
    settings: usize,
    pairs: usize,
    bytes: usize,
}

const COUNTS: Counts = {
    let mut counts = Counts { settings: 0, pairs: 0, bytes: 0 };
    let mut at = 0;
    while at < ROWS.len() {
        match ROWS[at].used {
            Use::Action => {}
            Use::Setting => counts = Counts { settings: counts.settings + 1, bytes: counts.bytes + ROWS[at].length, ..counts },
            Use::LongerOf(shorter) => {
                let more = ROWS[at].length - ROWS[shorter as usize - 1].length;
                counts = Counts { settings: counts.settings + 1, pairs: counts.pairs + 1, bytes: counts.bytes + more };
            }
        }
        at += 1;
    }
    counts
};

// "Actions, never kept .. The other kinds are settings; slot numbers follow kind order." Of a pair of forms the shorter one is first.
struct Lists {
    actions: [u64; ROWS.len() - COUNTS.settings],
    settings: [u64; COUNTS.settings],
    forms: [(u64, u64); COUNTS.pairs],
}

const LISTS: Lists = {
    let mut lists = Lists { actions: [0; ROWS.len() - COUNTS.settings], settings: [0; COUNTS.settings], forms: [(0, 0); COUNTS.pairs] };
    let (mut at, mut slot, mut pair) = (0, 0, 0);
    while at < ROWS.len() {
        if let Use::Action = ROWS[at].used {
            lists.actions[at - slot] = ROWS[at].kind;
        } else {
            lists.settings[slot] = ROWS[at].kind;
            slot += 1;
        }
        if let Use::LongerOf(shorter) = ROWS[at].used {
            lists.forms[pair] = (shorter, ROWS[at].kind);
            pair += 1;
        }
        at += 1;
    }
    lists
};

pub const ACTIONS: [u64; ROWS.len() - COUNTS.settings] = LISTS.actions;
pub const SETTINGS: [u64; COUNTS.settings] = LISTS.settings;
pub const FORMS: [(u64, u64); COUNTS.pairs] = LISTS.forms;

// The layout: its version, and how many slots there are, of which each setting has one. A header has an offset for each, and an owner table an
// entry; frames start behind the header.
pub const VERSION: u8 = 1;
pub const SLOTS: usize = 29;
pub const START: usize = 4 + 2 * SLOTS;
const _: () = assert!(SETTINGS.len() <= SLOTS);

// A book that holds every setting, in the longer form where there are two: its frames, their bytes together, its own length, that of its replay.
pub const MOST_FRAMES: usize = SETTINGS.len() - FORMS.len();
pub const MOST_BYTES: usize = COUNTS.bytes;
pub const FULL: usize = START + MOST_BYTES;
pub const FULL_REPLAY: usize = MOST_BYTES + MOST_FRAMES;

// The form of its setting that a kind is not.
pub fn other_form(kind: u64) -> Option<u64> {
    let (short, long) = *FORMS.iter().find(|(short, long)| kind == *short || kind == *long)?;
    Some(if kind == short { long } else { short })
}

pub fn slot(kind: u64) -> Option<usize> {
    SETTINGS.iter().position(|k| *k == kind)
}

pub fn length(kind: u64) -> usize {
    commands().iter().find(|c| c.kind == kind).expect("a kind").length
}

// "byte 0 version 1, byte 1 count, bytes 2-3 end offset, then 29 two-byte offsets by slot (0 = absent), high byte first; frames from 62 in
// order of first entry; zeros from the end on"
pub fn image(frames: &[Frame], length: usize) -> Vec<u8> {
    let mut bytes = vec![0; START];
    bytes[0] = VERSION;
    bytes[1] = frames.len() as u8;
    for frame in frames {
        let at = 4 + 2 * slot(frame.kind).expect("a setting");
        let offset = bytes.len() as u16;
        bytes[at..at + 2].copy_from_slice(&offset.to_be_bytes());
        bytes.extend(&frame.bytes);
    }
    let end = bytes.len() as u16;
    bytes[2..4].copy_from_slice(&end.to_be_bytes());
    bytes.resize(length, 0);
    bytes
}

fn word(bytes: &[u8], at: usize) -> usize {
    u16::from_be_bytes([bytes[at], bytes[at + 1]]) as usize
}

// "Well formed: version 1, present frames tile 62 to end exactly, count agrees, each decodes to its slot's kind, tail zero."
fn well_formed(bytes: &[u8]) -> Option<Vec<Frame>> {
    let end = word(bytes, 2);
    let mut present: Vec<(usize, u64)> =
        SETTINGS.iter().enumerate().map(|(s, kind)| (word(bytes, 4 + 2 * s), *kind)).filter(|(offset, _)| *offset != 0).collect();
    present.sort();
    if bytes[0] != VERSION || bytes[1] as usize != present.len() || end > bytes.len() || bytes[end..].iter().any(|b| *b != 0) {
        return None;
    }
    let mut frames = vec![];
    let mut at = START;
    for (offset, kind) in present {
        let next = at + length(kind);
        if offset != at || next > end {
            return None;
        }
        match decode(&bytes[at..next]) {
            Decoded::Kind(k, _) if k == kind => frames.push(Frame { kind, bytes: bytes[at..next].to_vec() }),
            _ => return None,
        }
        at = next;
    }
    if at == end { Some(frames) } else { None }
}

fn holds_both_forms(frames: &[Frame]) -> bool {
    let held = |kind: u64| frames.iter().any(|f| f.kind == kind);
    FORMS.iter().any(|(short, long)| held(*short) && held(*long))
}

// What is wrong with a buffer is told in this order: its length, then its bytes, then a setting that they hold in both forms.
pub fn judged(bytes: &[u8]) -> Result<Vec<Frame>, u8> {
    if !(START..=4096).contains(&bytes.len()) {
        return Err(11);
    }
    match well_formed(bytes) {
        None => Err(10),
        Some(frames) if holds_both_forms(&frames) => Err(16),
        Some(frames) => Ok(frames),
    }
}

pub struct Book {
    pub bytes: Vec<u8>,
    // What the bytes hold; the refusal of a buffer that is no book.
    pub content: Result<Vec<Frame>, u8>,
    // What the latest call left in its output.
    pub output: Vec<u8>,
}

pub fn counting(from: u8, length: usize) -> Vec<u8> {
    (0..length).map(|i| from.wrapping_add(i as u8)).collect()
}

impl Book {
    pub fn new() -> Book {
        Book { bytes: vec![], content: Err(11), output: vec![] }
    }

    fn judge(&mut self) {
        self.content = judged(&self.bytes);
    }

    pub fn holds(&mut self, frames: Vec<Frame>) -> Answer {
        self.bytes = image(&frames, self.bytes.len());
        self.content = Ok(frames);
        done(0)
    }

    pub fn carry_out(&mut self, record: &Record) -> Answer {
        self.output = counting(165, record.output());
        match record {
            Record::Lend { length, first } => {
                self.bytes = counting(*first, *length);
                self.judge();
                done(0)
            }
            Record::Poke { at, data } => {
                if at + data.len() <= self.bytes.len() {
                    self.bytes[*at..at + data.len()].copy_from_slice(data);
                    self.judge();
                }
                done(0)
            }
            // "Make needs no old content."
            Record::Make if self.content.as_ref().err() == Some(&11) => refused(11),
            Record::Make => self.holds(vec![]),
            _ => match self.content.clone() {
                Err(refusal) => refused(refusal),
                Ok(frames) => self.call(record, frames),
            },
        }
    }

    // A call on a sound book, which holds these frames.
    fn call(&mut self, record: &Record, mut frames: Vec<Frame>) -> Answer {
        match record {
            Record::Put { frame } => self.put(frame, frames),
            Record::Clear => self.holds(vec![]),
            Record::Replay { .. } => self.write(&reel(&frames)),
            Record::Remove { kind } => match held(*kind, &frames) {
                Err(refusal) => refused(refusal),
                Ok(i) => {
                    frames.remove(i);
                    self.holds(frames)
                }
            },
            Record::Ask { kind, .. } => match held(*kind, &frames) {
                Err(refusal) => refused(refusal),
                Ok(i) => self.write(&frames[i].bytes),
            },
            _ => unreachable!(),
        }
    }

    fn put(&mut self, bytes: &[u8], mut frames: Vec<Frame>) -> Answer {
        match setting(bytes) {
            Err(answer) => return answer,
            Ok(frame) => place(frame, &mut frames),
        }
        // "frames plus 62 would exceed the buffer": those of the list as it is after the put
        if START + weight(&frames) > self.bytes.len() {
            return refused(8);
        }
        self.holds(frames)
    }

    // "report the bytes written and keep the rest of the output"
    pub fn write(&mut self, bytes: &[u8]) -> Answer {
        if bytes.len() > self.output.len() {
            return refused(12);
        }
        self.output[..bytes.len()].copy_from_slice(bytes);
        done(bytes.len())
    }
}

// "put decodes before all else"; 13 for an action.
pub fn setting(bytes: &[u8]) -> Result<Frame, Answer> {
    match decode(bytes) {
        Decoded::Refused(refusal, place) => Err(Answer { refusal, place, written: 0 }),
        Decoded::Kind(kind, _) if slot(kind).is_none() => Err(refused(13)),
        Decoded::Kind(kind, _) => Ok(Frame { kind, bytes: bytes.to_vec() }),
    }
}

// A setting that is held, in this form or the other, keeps its place.
pub fn place(frame: Frame, frames: &mut Vec<Frame>) {
    let other = other_form(frame.kind);
    match frames.iter_mut().find(|f| f.kind == frame.kind || Some(f.kind) == other) {
        Some(place) => *place = frame,
        None => frames.push(frame),
    }
}

// How many bytes the frames have.
pub fn weight(frames: &[Frame]) -> usize {
    frames.iter().map(|f| f.bytes.len()).sum()
}

// Each frame behind a byte with its length.
pub fn reel(frames: &[Frame]) -> Vec<u8> {
    frames.iter().flat_map(|f| core::iter::once(f.bytes.len() as u8).chain(f.bytes.iter().copied())).collect()
}

// Where a kind's frame stands in the list; 13 for a kind that is no setting, 9 for one that is not held.
pub fn held(kind: u64, frames: &[Frame]) -> Result<usize, u8> {
    slot(kind).ok_or(13)?;
    frames.iter().position(|f| f.kind == kind).ok_or(9)
}
