// hb_widths_find and hb_widths_check on every need from 0 to 3,100,000, in lists of 32 and one that is shorter, against tests/oracle/widths.rs.
use super::*;
use rule::{Listed, Said};

const LAST: u64 = 3_100_000;

fn answer(said: Said) -> Answer {
    Answer { refusal: said.refusal as u32, place: said.place as u32, value: said.count as u64 }
}

// Both calls on a list, the second with the codes that the first one has to find, or else with what it leaves.
fn banks(listed: &Listed, needs: &[u64]) -> Answer {
    let (lent_needs, out) = (input(needs), output(needs.len()));
    let mut codes = out.to_vec();
    let wanted = answer(listed.find(needs, &mut codes));
    about("hb_widths_find\0", needs[0]);
    same("hb_widths_find", (hb::widths_find(lent_needs, out), &*out), (wanted, &codes[..]));
    about("hb_widths_check\0", needs[0]);
    same("hb_widths_check", hb::widths_check(lent_needs, input(&codes)), answer(listed.check(needs, &codes)));
    given_back();
    wanted
}

#[no_mangle]
pub extern "C" fn test_rust_widths() {
    given_back();
    let listed = Listed::new();
    let mut served = 0;
    for first in (0..=LAST).step_by(32) {
        let needs: Vec<u64> = (first..=LAST.min(first + 31)).collect();
        served += match banks(&listed, &needs) {
            Answer { refusal: 0, value, .. } => value,
            // A list is refused as a whole: each of its banks alone.
            _ => needs.iter().map(|need| banks(&listed, &[*need]).value).sum(),
        };
    }
    same("needs that a width serves", served, 3_076_924);
    for need in [1 << 32, 1 << 63, u64::MAX, u64::MAX / 11_520 + 1] {
        same("a need past every width", banks(&listed, &[0, need]).place, 2);
    }
}
