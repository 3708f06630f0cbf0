// Requests with lists of banks, to be checked and to be found. A list has up to 34 banks in nine needs: the first eight in turn, and the ninth for one
// bank anywhere.
use crate::sets::{Random, Set};
use crate::widths::{floor, Listed};
use crate::PAYLOAD;
use std::io::Result;

pub const CHECK: u8 = 82;
pub const FIND: u8 = 83;
pub const MOST: usize = 34;
const NEEDS: usize = 9;
const LAST: u64 = 3_076_923;

// What the payload holds behind `aux` banks: the needs, the length of the other list, the bank of the ninth need from 0, and the codes.
pub struct Banks {
    pub needs: [u64; NEEDS],
    pub codes_len: usize,
    pub odd: usize,
    pub codes: [u8; MOST],
}

impl Banks {
    pub fn read(payload: &[u8; PAYLOAD]) -> Banks {
        let long = |i: usize| u64::from_le_bytes(payload[8 * i..8 * i + 8].try_into().expect("eight bytes"));
        Banks {
            needs: core::array::from_fn(long),
            codes_len: payload[8 * NEEDS] as usize,
            odd: payload[8 * NEEDS + 1] as usize,
            codes: payload[8 * NEEDS + 2..].try_into().expect("34 codes"),
        }
    }

    fn written(&self) -> Vec<u8> {
        let mut bytes: Vec<u8> = self.needs.iter().flat_map(|need| need.to_le_bytes()).collect();
        bytes.extend([self.codes_len as u8, self.odd as u8]);
        bytes.extend(self.codes);
        bytes
    }

    fn need(&self, bank: usize) -> u64 {
        self.needs[if bank == self.odd { NEEDS - 1 } else { bank % (NEEDS - 1) }]
    }

    pub fn list(&self, count: usize) -> Vec<u64> {
        (0..count).map(|bank| self.need(bank)).collect()
    }
}

// Most needs are at the edge of a width, listed or not, and some are any number.
fn any_need(random: &mut Random, is_served: bool) -> u64 {
    let edge = floor(random.next() as u8) + random.below(3) - 1;
    let shift = random.below(64);
    let need = match random.below(8) {
        0 => random.next() >> shift,
        1 => random.below(LAST + 1000),
        _ => edge,
    };
    if is_served { need % (LAST + 1) } else { need }
}

// The right code, or any: a listed one, one of the same width, BwAuto.
fn any_code(random: &mut Random, listed: &Listed, need: u64, is_right: bool) -> u8 {
    let any = random.next() as u8;
    match (listed.narrowest(need), random.below(4)) {
        (Some(right), _) if is_right => right,
        (Some(right), 0) => (any..=254).find(|code| floor(*code) == floor(right)).unwrap_or(255),
        (_, 1) => listed.narrowest(floor(any)).unwrap_or(any),
        _ => any,
    }
}

// A third of the lists are right, a third are but for one bank, and the others may be anything.
fn any_list(set: &mut Set, listed: &Listed) -> Result<()> {
    let random = &mut set.random;
    let count = if random.below(12) == 0 { random.below(MOST as u64 + 1) } else { 1 + random.below(32) } as usize;
    let codes_len = if random.below(16) == 0 { random.below(MOST as u64 + 1) as usize } else { count };
    let (way, odd) = (random.below(3), random.below(count.max(1) as u64) as usize);
    let mut banks = Banks { needs: [0; NEEDS], codes_len, odd, codes: [0; MOST] };
    for i in 0..NEEDS {
        banks.needs[i] = any_need(random, way == 0 || way == 1 && i + 1 < NEEDS);
    }
    for i in 0..MOST {
        let is_right = match way {
            0 => true,
            1 => i != odd || random.below(2) == 0,
            _ => random.below(8) > 0,
        };
        banks.codes[i] = any_code(random, listed, banks.need(i), is_right);
    }
    asked(set, count, &banks)
}

fn asked(set: &mut Set, count: usize, banks: &Banks) -> Result<()> {
    set.ask_of(CHECK, count, &banks.written())?;
    set.ask_of(FIND, count, &banks.written())
}

// Each code where its width would be right, and one Hz above; then random lists.
pub fn banks(set: &mut Set, is_wide: bool) -> Result<()> {
    let listed = Listed::new();
    set.group("lists of banks");
    for code in 0..=u8::MAX {
        for above in 0..if is_wide { 2 } else { 1 } {
            let banks = Banks { needs: [floor(code) + above; NEEDS], codes_len: 1, odd: 0, codes: [code; MOST] };
            asked(set, 1, &banks)?;
        }
    }
    for _ in 0..if is_wide { 20_000 } else { 60 } {
        any_list(set, &listed)?;
    }
    Ok(())
}
