// Which width is right for a need, by fractions (REFERENCE, "Widths for banks"): of all listed ones that are at least the need, the least. And what
// is answered for a list of banks.
use crate::enums::*;
use core::cmp::Ordering;

// So many Hz over a number, compared by products that 128 bits hold whatever a need is.
#[derive(Clone, Copy)]
struct Width {
    hz: u128,
    over: u128,
}

impl Width {
    fn of_code(code: u8) -> Width {
        let (m, d, e) = ([13, 14, 15, 18][code as usize / 64], code as u128 / 8 % 8 + 1, code as u32 % 8);
        Width { hz: 40_000_000, over: m * d * 2u128.pow(e) }
    }

    fn of_need(need: u64) -> Width {
        Width { hz: need as u128, over: 1 }
    }

    fn cmp(&self, other: &Width) -> Ordering {
        (self.hz * other.over).cmp(&(other.hz * self.over))
    }
}

// The last need that the width of a code would serve, listed or not.
pub fn floor(code: u8) -> u64 {
    let width = Width::of_code(code);
    (width.hz / width.over) as u64
}

// Refusal and bank, or zeros and how many banks there are.
#[derive(Clone, Copy, Debug, PartialEq, Eq)]
pub struct Said {
    pub refusal: u8,
    pub place: u8,
    pub count: u8,
}

fn refused(refusal: u8, place: usize) -> Said {
    Said { refusal, place: place as u8, count: 0 }
}

// The listed codes with their widths, BwAuto not among them.
pub struct Listed(Vec<(u8, Width)>);

impl Listed {
    pub fn new() -> Listed {
        Listed(RX_BW.iter().filter(|code| **code != 255).map(|code| (*code as u8, Width::of_code(*code as u8))).collect())
    }

    pub fn narrowest(&self, need: u64) -> Option<u8> {
        let need = Width::of_need(need);
        let wide_enough = self.0.iter().filter(|(_, width)| width.cmp(&need) != Ordering::Less);
        wide_enough.min_by(|(_, a), (_, b)| a.cmp(b)).map(|(code, _)| *code)
    }

    pub fn check(&self, needs: &[u64], codes: &[u8]) -> Said {
        if needs.is_empty() || needs.len() > 32 || codes.len() != needs.len() {
            return refused(21, 0);
        }
        for (i, (need, code)) in needs.iter().zip(codes).enumerate() {
            match self.narrowest(*need) {
                None => return refused(19, i + 1),
                Some(right) if right != *code => return refused(20, i + 1),
                Some(_) => {}
            }
        }
        Said { refusal: 0, place: 0, count: needs.len() as u8 }
    }

    // The right code of each bank; where one has none, or there is no such list, nothing is written.
    pub fn find(&self, needs: &[u64], out: &mut [u8]) -> Said {
        let found: Vec<Option<u8>> = needs.iter().map(|need| self.narrowest(*need)).collect();
        let codes: Vec<u8> = found.iter().take(out.len()).map(|code| code.unwrap_or(0)).collect();
        let said = if out.len() == needs.len() { self.check(needs, &codes) } else { refused(21, 0) };
        if said.refusal == 0 {
            out.copy_from_slice(&codes);
        }
        said
    }
}
