// Whether a book keeps the locker profile (REFERENCE, "Locker profile"): the frames of kinds 1, 2 and 4 that the bytes hold, and seven rules over
// their arguments. Written from the rules alone, without the source.
use crate::book::{judged, Frame};
use crate::model::{decode, Decoded};

// The refusal, or 0 and the first broken rule, which is 0 for a yes.
#[derive(Clone, Copy, Debug, PartialEq, Eq)]
pub struct Said {
    pub refusal: u8,
    pub rule: u8,
}

// A kind's arguments, if the list has a frame of it.
fn arguments(frames: &[Frame], kind: u64) -> Option<[u64; 9]> {
    let frame = frames.iter().find(|f| f.kind == kind)?;
    match decode(&frame.bytes) {
        Decoded::Kind(_, said) => {
            let mut all = [0; 9];
            all[..said.len()].copy_from_slice(&said);
            Some(all)
        }
        Decoded::Refused(..) => unreachable!(),
    }
}

// A width as a fraction: so many Hz over a number.
fn exact_width(code: u64) -> (u64, u64) {
    match code {
        0..=7 => (1_000_000, 1 << (7 - code)),
        8..=11 => (1_000_000, 12 << (11 - code)),
        _ => (812_500, 1 << (15 - code)),
    }
}

// Whether 2^sf chips take 16 ms or longer. Both times are multiplied by 1000 and by the width, so that whole numbers are compared.
pub fn is_long(sf: u64, lora_bw: u64) -> bool {
    let (hz, over) = exact_width(lora_bw);
    1000 * (1 << sf) * over >= 16 * hz
}

pub fn said(book: &[u8]) -> Said {
    let refused = |refusal| Said { refusal, rule: 0 };
    let frames = match judged(book) {
        Err(refusal) => return refused(refusal),
        Ok(frames) => frames,
    };
    let (modulation, packet, sync) = match (arguments(&frames, 1), arguments(&frames, 2), arguments(&frames, 4)) {
        (Some(modulation), Some(packet), Some(sync)) => (modulation, packet, sync),
        _ => return refused(22),
    };
    let [sf, lora_bw, lora_cr, ldro, ..] = modulation;
    let kept = [
        [7, 8, 9, 10, 11, 12].contains(&sf),
        [125_000, 250_000].iter().any(|hz| exact_width(lora_bw) == (1_000_000, 1_000_000 / hz)),
        [1, 2, 3, 4].contains(&lora_cr),
        packet[2] == 0,
        packet[3] == 1,
        sync[0] == 0x12,
        (ldro == 1) == is_long(sf, lora_bw),
    ];
    Said { refusal: 0, rule: kept.iter().position(|is_kept| !is_kept).map_or(0, |i| i as u8 + 1) }
}

// The answers that there are, by which a test tells that it met them all: yes, the rules, the refusals.
pub const ANSWERS: usize = 12;

pub fn place_among_answers(said: Said) -> usize {
    match said.refusal {
        0 => said.rule as usize,
        refusal => 8 + [11, 10, 16, 22].iter().position(|r| *r == refusal).expect("a refusal of a book, or 22"),
    }
}
