// The answer to a request: by the Rust (rust.rs), or by a model of ours where the Rust has none. Texts, counter differences and widths are made
// by other means than the port's: by floats that are exact, by wrapping, by the rule of the widths.
use crate::banks::{Banks, CHECK, FIND};
use crate::coded::{CHECKED, DECODE};
use crate::enums::RX_BW;
use crate::model::{checked, decode, Built, Decoded};
use crate::profile::said;
use crate::sets::{PROFILE, RESPONSES};
use crate::texts::{level, ratio};
use crate::widths::Listed;
use crate::{ANSWER, PAYLOAD};

// Bytes of an answer: numbers low byte first.
trait Part {
    fn put(self, to: &mut Vec<u8>);
}

impl Part for bool {
    fn put(self, to: &mut Vec<u8>) {
        to.push(self as u8)
    }
}

macro_rules! number_parts {
    ($($type:ty)+) => {
        $(impl Part for $type {
            fn put(self, to: &mut Vec<u8>) {
                to.extend_from_slice(&self.to_le_bytes())
            }
        })+
    };
}

number_parts!(u8 i8 u16 u32 u64);

macro_rules! parts {
    ($to:ident: $($part:expr),+) => {{ $($part.put($to);)+ }};
}

#[cfg(source)]
#[path = "rust.rs"]
pub mod rust;

pub fn arguments_of(payload: &[u8; PAYLOAD]) -> [u64; 9] {
    let mut a = [0; 9];
    for (i, x) in a.iter_mut().enumerate() {
        for j in (0..8).rev() {
            *x = *x << 8 | payload[8 * i + j] as u64;
        }
    }
    a
}

// The answer; none where only the Rust has it, and its files are not at hand.
pub fn answer(op: u8, aux: u8, payload: &[u8; PAYLOAD]) -> Option<[u8; ANSWER]> {
    let mut bytes = Vec::with_capacity(ANSWER);
    let to = &mut bytes;
    let slice = &payload[..aux as usize];
    if is_the_rusts(op, aux) {
        #[cfg(not(source))]
        return None;
        #[cfg(source)]
        rust::answer(to, op, slice, payload);
    } else {
        match op {
            66..=72 => to.push(7),
            76 => text(to, level(half(payload, 0))),
            77 => text(to, ratio(payload[0] as i8)),
            78 => parts!(to: half(payload, 2).wrapping_sub(half(payload, 0))),
            79 => parts!(to: tenths(payload[0])),
            DECODE => decoded(to, slice),
            CHECKED => built(to, payload, aux as usize),
            CHECK | FIND => listed(to, op, Banks::read(payload), aux as usize),
            PROFILE => profiled(to, slice),
            _ => panic!("{} is no operation", op),
        }
    }
    let mut whole = [0; ANSWER];
    whole[..bytes.len()].copy_from_slice(&bytes);
    Some(whole)
}

// Whether the Rust answers a request: a response only of its own length, as the Rust refuses none.
pub fn is_the_rusts(op: u8, aux: u8) -> bool {
    match op {
        66..=72 => RESPONSES[op as usize - 66].1 == aux as usize,
        _ => op < 76,
    }
}

// Refusal, place, kind, count, four zeros, the arguments.
fn decoded(to: &mut Vec<u8>, frame: &[u8]) {
    match decode(frame) {
        Decoded::Kind(kind, arguments) => {
            parts!(to: 0u8, 0u8, kind as u8, arguments.len() as u8, 0u32);
            for x in arguments {
                x.put(to);
            }
        }
        Decoded::Refused(number, place) => parts!(to: number, place),
    }
}

// Refusal, place, length, the frame. The payload has the kind and then the arguments.
fn built(to: &mut Vec<u8>, payload: &[u8; PAYLOAD], count: usize) {
    let long = |i: usize| (0..8).rev().fold(0, |x, j| x << 8 | payload[8 * i + j] as u64);
    let arguments: Vec<u64> = (1..=count).map(long).collect();
    match checked(long(0), &arguments) {
        Built::Frame(frame) => {
            parts!(to: 0u8, 0u8, frame.len() as u8);
            to.extend(frame);
        }
        Built::Refused(number, place) => parts!(to: number, place),
    }
}

// Refusal, place, how many banks are right; and of a search all codes, as it leaves them.
fn listed(to: &mut Vec<u8>, op: u8, mut banks: Banks, count: usize) {
    let (needs, length) = (banks.list(count), banks.codes_len);
    let codes = &mut banks.codes[..length];
    let said = if op == CHECK { Listed::new().check(&needs, codes) } else { Listed::new().find(&needs, codes) };
    parts!(to: said.refusal, said.place, said.count);
    if op == FIND {
        to.extend(banks.codes);
    }
}

// Refusal, place, the first broken rule.
fn profiled(to: &mut Vec<u8>, book: &[u8]) {
    let said = said(book);
    parts!(to: said.refusal, 0u8, said.rule);
}

fn half(payload: &[u8; PAYLOAD], at: usize) -> u16 {
    u16::from_le_bytes([payload[at], payload[at + 1]])
}

fn text(to: &mut Vec<u8>, text: String) {
    to.push(text.len() as u8);
    to.extend(text.bytes());
}

// The width of a code of RxBw in tenths of kHz, as its name has it: 40,000 kHz over m d 2^e, whole from 10 kHz on, and else the nearest tenth.
// 0 for BwAuto and for a code that no name has.
pub fn tenths(code: u8) -> u16 {
    if code == 255 || !RX_BW.contains(&(code as u64)) {
        return 0;
    }
    let over = [13, 14, 15, 18][code as usize >> 6] * (1 + (code as u32 >> 3 & 7)) << (code & 7);
    (if 40_000 / over >= 10 { 40_000 / over * 10 } else { (2 * 400_000 + over) / (2 * over) }) as u16
}
