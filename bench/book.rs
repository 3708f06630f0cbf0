// The settings book in the Rust that one would write by hand from the reference: a lent buffer, judged whole at each call. bench/run compares
// the port's book with it.
use crate::decoder::decode;
use crate::rows::{FORMS, KINDS, SETTINGS, SLOTS};

// A refusal's number and place.
pub type Refusal = (u8, u8);
pub type Answer = Result<usize, Refusal>;

// The layout: its version, and a slot for each offset of the header, behind which the frames start.
const VERSION: u8 = 1;
const START: usize = 4 + 2 * SLOTS;
const LONGEST: usize = 4096;
const NOT_WELL_FORMED: Refusal = (10, 0);

const SLOT_OF: [u8; KINDS + 1] = {
    let mut slots = [255; KINDS + 1];
    let mut slot = 0;
    while slot < SETTINGS.len() {
        slots[SETTINGS[slot].0 as usize] = slot as u8;
        slot += 1;
    }
    slots
};

const OTHER_FORM: [Option<usize>; SETTINGS.len()] = {
    let mut others = [None; SETTINGS.len()];
    let mut pair = 0;
    while pair < FORMS.len() {
        let (short, long) = FORMS[pair];
        others[short] = Some(long);
        others[long] = Some(short);
        pair += 1;
    }
    others
};

pub fn slot_of(kind: u64) -> Result<usize, Refusal> {
    match SLOT_OF.get(kind as usize) {
        Some(slot) if *slot != 255 => Ok(*slot as usize),
        _ => Err((13, 0)),
    }
}

fn word(book: &[u8], at: usize) -> usize {
    u16::from_be_bytes([book[at], book[at + 1]]) as usize
}

fn set_word(book: &mut [u8], at: usize, value: usize) {
    book[at..at + 2].copy_from_slice(&(value as u16).to_be_bytes());
}

// A book that is well formed: where its frames end, and the offset and slot of each, in order.
struct Sound {
    end: usize,
    count: usize,
    frames: [(u16, u8); SETTINGS.len()],
}

fn judge(book: &[u8]) -> Result<Sound, Refusal> {
    if book.len() < START || book.len() > LONGEST {
        return Err((11, 0));
    }
    let end = word(book, 2);
    if book[0] != VERSION || end < START || end > book.len() || book[end..].iter().any(|b| *b != 0) {
        return Err(NOT_WELL_FORMED);
    }
    let mut frames = [(0, 0); SETTINGS.len()];
    let mut count = 0;
    for slot in 0..SETTINGS.len() {
        let offset = word(book, 4 + 2 * slot);
        if offset != 0 {
            frames[count] = (offset as u16, slot as u8);
            count += 1;
        }
    }
    if book[1] as usize != count {
        return Err(NOT_WELL_FORMED);
    }
    frames[..count].sort_unstable();
    let mut at = START;
    for (offset, slot) in &frames[..count] {
        let (kind, length) = SETTINGS[*slot as usize];
        let next = at + length as usize;
        if *offset as usize != at || next > end || decode(&book[at..next]).kind != kind {
            return Err(NOT_WELL_FORMED);
        }
        at = next;
    }
    if at != end {
        return Err(NOT_WELL_FORMED);
    }
    let held = |slot: usize| word(book, 4 + 2 * slot) != 0;
    if FORMS.iter().any(|(short, long)| held(*short) && held(*long)) {
        return Err((16, 0));
    }
    Ok(Sound { end, count, frames })
}

fn blank(book: &mut [u8]) {
    book.fill(0);
    book[0] = VERSION;
    set_word(book, 2, START);
}

pub fn make(book: &mut [u8]) -> Answer {
    if book.len() < START || book.len() > LONGEST {
        return Err((11, 0));
    }
    blank(book);
    Ok(0)
}

pub fn put(book: &mut [u8], frame: &[u8]) -> Answer {
    let sound = judge(book)?;
    let end = sound.end;
    let decoded = decode(frame);
    if decoded.refusal != 0 {
        return Err((decoded.refusal, decoded.place));
    }
    let slot = slot_of(decoded.kind as u64)?;
    let at = word(book, 4 + 2 * slot);
    if at != 0 {
        book[at..at + frame.len()].copy_from_slice(frame);
        return Ok(0);
    }
    if let Some(other) = OTHER_FORM[slot] {
        if word(book, 4 + 2 * other) != 0 {
            return swap(book, &sound, other, slot, frame);
        }
    }
    let next = end + frame.len();
    if next > book.len() {
        return Err((8, 0));
    }
    book[end..next].copy_from_slice(frame);
    book[1] += 1;
    set_word(book, 2, next);
    set_word(book, 4 + 2 * slot, end);
    Ok(0)
}

// A frame of one form where the other stands; the frames behind it move.
fn swap(book: &mut [u8], sound: &Sound, other: usize, slot: usize, frame: &[u8]) -> Answer {
    let (at, next) = held(book, other)?;
    let end = sound.end - (next - at) + frame.len();
    if end > book.len() {
        return Err((8, 0));
    }
    book.copy_within(next..sound.end, at + frame.len());
    book[at..at + frame.len()].copy_from_slice(frame);
    if end < sound.end {
        book[end..sound.end].fill(0);
    }
    for (offset, slot) in &sound.frames[..sound.count] {
        if *offset as usize > at {
            set_word(book, 4 + 2 * *slot as usize, *offset as usize - (next - at) + frame.len());
        }
    }
    set_word(book, 4 + 2 * other, 0);
    set_word(book, 4 + 2 * slot, at);
    set_word(book, 2, end);
    Ok(0)
}

// Where a kind's frame starts and ends.
fn held(book: &[u8], slot: usize) -> Result<(usize, usize), Refusal> {
    match word(book, 4 + 2 * slot) {
        0 => Err((9, 0)),
        at => Ok((at, at + SETTINGS[slot].1 as usize)),
    }
}

pub fn remove(book: &mut [u8], kind: u64) -> Answer {
    let sound = judge(book)?;
    let slot = slot_of(kind)?;
    let (at, next) = held(book, slot)?;
    let end = sound.end - (next - at);
    book.copy_within(next..sound.end, at);
    book[end..sound.end].fill(0);
    for (offset, slot) in &sound.frames[..sound.count] {
        if *offset as usize > at {
            set_word(book, 4 + 2 * *slot as usize, *offset as usize - (next - at));
        }
    }
    set_word(book, 4 + 2 * slot, 0);
    set_word(book, 2, end);
    book[1] -= 1;
    Ok(0)
}

pub fn ask(book: &[u8], kind: u64, out: &mut [u8]) -> Answer {
    judge(book)?;
    let (at, next) = held(book, slot_of(kind)?)?;
    let frame = &book[at..next];
    out.get_mut(..frame.len()).ok_or((12, 0))?.copy_from_slice(frame);
    Ok(frame.len())
}

pub fn replay(book: &[u8], out: &mut [u8]) -> Answer {
    let sound = judge(book)?;
    let total = sound.end - START + sound.count;
    if total > out.len() {
        return Err((12, 0));
    }
    let mut to = 0;
    for (offset, slot) in &sound.frames[..sound.count] {
        let (at, length) = (*offset as usize, SETTINGS[*slot as usize].1 as usize);
        out[to] = length as u8;
        out[to + 1..to + 1 + length].copy_from_slice(&book[at..at + length]);
        to += 1 + length;
    }
    Ok(total)
}
