// Books for the locker profile: every combination of what its rules look at, and random ones, good and damaged.
use crate::book::{image, other_form, weight, Frame, SETTINGS, SLOTS, START};
use crate::enums::*;
use crate::frames::{good, Random};
use crate::model::{checked, Built};
use crate::profile::is_long;

// A book with nothing but frames of kinds 1, 2 and 4.
pub const STORED: usize = START + 13;
const TWO: &[u64] = &[0, 1];
const SYNCWORDS: &[u64] = &[0x12, 0x34];
pub const COMBINATIONS: usize = SF.len() * LORA_BW.len() * LORA_CR.len() * LDRO.len() * HEADER_TYPE.len() * TWO.len() * SYNCWORDS.len();

// The arguments that the rules look at.
pub struct Lora {
    sf: u64,
    lora_bw: u64,
    lora_cr: u64,
    ldro: u64,
    header_type: u64,
    crc_en: u64,
    syncword: u64,
}

fn frame(kind: u64, arguments: &[u64]) -> Frame {
    match checked(kind, arguments) {
        Built::Frame(bytes) => Frame { kind, bytes },
        Built::Refused(..) => unreachable!(),
    }
}

impl Lora {
    pub fn combination(n: usize) -> Lora {
        let mut left = n;
        let mut next = |codes: &[u64]| {
            let code = codes[left % codes.len()];
            left /= codes.len();
            code
        };
        Lora {
            sf: next(SF),
            lora_bw: next(LORA_BW),
            lora_cr: next(LORA_CR),
            ldro: next(LDRO),
            header_type: next(HEADER_TYPE),
            crc_en: next(TWO),
            syncword: next(SYNCWORDS),
        }
    }

    // One that keeps all rules, but for an argument here and there.
    fn any(random: &mut Random) -> Lora {
        let mut either = |right: &[u64], all: &[u64]| {
            let is_right = random.percent(92);
            random.one_of(if is_right { right } else { all })
        };
        let (sf, lora_bw) = (either(&SF[2..], SF), either(&[4, 5], LORA_BW));
        let due = is_long(sf, lora_bw) as u64;
        Lora {
            sf,
            lora_bw,
            lora_cr: either(&[1, 2, 3, 4], LORA_CR),
            ldro: either(&[due], &[1 - due]),
            header_type: either(&[0], &[1]),
            crc_en: either(&[1], &[0]),
            syncword: either(&[0x12], &[0, 0x10, 0x13, 0x21, 0x34, 0x92, 0xFF]),
        }
    }

    // The free arguments are any.
    fn frames(&self, random: &mut Random) -> Vec<Frame> {
        let (filter, inverted) = (random.one_of(LORA_FILTER), random.below(2) as u64);
        let (preamble, payload) = (random.below(65_536) as u64, random.below(256) as u64);
        vec![
            frame(1, &[self.sf, self.lora_bw, self.lora_cr, self.ldro, filter]),
            frame(2, &[preamble, payload, self.header_type, self.crc_en, inverted]),
            frame(4, &[self.syncword]),
        ]
    }

    pub fn stored(&self, random: &mut Random) -> Vec<u8> {
        image(&self.frames(random), STORED)
    }
}

// Most have all three kinds; other settings stand between them, in any order, some of them in both forms.
fn any_frames(random: &mut Random, room: usize) -> Vec<Frame> {
    let mut frames = Lora::any(random).frames(random);
    while !frames.is_empty() && random.percent(8) {
        frames.remove(random.below(frames.len()));
    }
    let mut others: Vec<u64> = SETTINGS.iter().copied().filter(|kind| ![1, 2, 4].contains(kind)).collect();
    random.shuffle(&mut others);
    others.truncate(random.below(others.len()) / random.within(1, 6));
    for kind in others {
        let is_second = other_form(kind).map_or(false, |other| frames.iter().any(|f| f.kind == other));
        let frame = Frame { kind, bytes: good(random, kind) };
        if weight(&frames) + frame.bytes.len() <= room && (!is_second || random.percent(50)) {
            frames.push(frame);
        }
    }
    random.shuffle(&mut frames);
    frames
}

// The offset of a slot, in two bytes.
fn offset_at(slot: usize) -> usize {
    4 + 2 * slot
}

// In most ways the bytes are no book then, in some they are one still.
fn damage(random: &mut Random, bytes: &mut Vec<u8>, longest: usize) {
    let at = random.below(bytes.len());
    match random.below(10) {
        0 => bytes[at] ^= 1 << random.below(8),
        1 => bytes[random.below(4)] = random.byte(),
        2 => bytes[random.within(4, START - 1)] = random.byte(),
        3 if bytes.len() > START => bytes[random.within(START, at.max(START))] = random.byte(),
        3 | 4 => bytes.truncate(at),
        5 => bytes.resize(random.within(at, longest), 0),
        6 => bytes.resize(random.within(at, longest), 1),
        7 => {
            let (a, b) = (offset_at(random.below(SLOTS)), offset_at(random.below(SLOTS)));
            bytes.swap(a, b);
            bytes.swap(a + 1, b + 1);
        }
        8 => {
            let (a, b) = (offset_at(random.below(SLOTS)), offset_at(random.below(SLOTS)));
            bytes.copy_within(a..a + 2, b);
        }
        _ => *bytes = random.bytes(at),
    }
}

// A book of at most so many bytes, which have room for a header; one in five is damaged.
pub fn any_book(random: &mut Random, longest: usize) -> Vec<u8> {
    let frames = any_frames(random, longest.min(4096) - START);
    let least = START + weight(&frames);
    let size = match random.below(32) {
        0 => longest,
        1 => random.within(least, longest),
        2..=9 => least,
        _ => random.within(least, longest.min(least + 20)),
    };
    let mut bytes = image(&frames, size);
    if random.percent(20) {
        damage(random, &mut bytes, longest);
    }
    bytes
}
