// hb_profile on every combination of what the rules look at, and on random books, against tests/oracle/profile.rs.
use super::*;
use crate::frames::Random;
use lockers::{any_book, Lora, COMBINATIONS};
use profile::{place_among_answers, said, ANSWERS};

// A few more bytes than a book may have.
const LONGEST: usize = 4200;

fn tried(book: &[u8], met: &mut [u32; ANSWERS]) {
    let wanted = said(book);
    about("hb_profile\0", book.len() as u64);
    let got = hb::profile(input(book));
    same("hb_profile", got, Answer { refusal: wanted.refusal as u32, place: 0, value: wanted.rule as u64 });
    given_back();
    met[place_among_answers(wanted)] += 1;
}

#[no_mangle]
pub extern "C" fn test_rust_profiles() {
    given_back();
    let mut random = Random(7);
    let mut met = [0; ANSWERS];
    for n in 0..COMBINATIONS {
        tried(&Lora::combination(n).stored(&mut random), &mut met);
    }
    same("combinations that keep all rules", met[0], 48);
    met = [0; ANSWERS];
    for _ in 0..200_000 {
        tried(&any_book(&mut random, LONGEST), &mut met);
    }
    same("whether each answer came", met.iter().all(|times| *times > 1000), true);
}
