// Which width each bank gets, in the Rust that one would write by hand from the reference: the listed codes with their divisors, of which each need
// takes the narrowest that suffices. bench/run compares the library's lists with it.
use crate::book::Answer;
use crate::cmd::RxBw;

const CLOCK: u128 = 40_000_000;
const LISTED: [RxBw; 90] = {
    use RxBw::*;
    [
        Bw3076, Bw2857, Bw2666, Bw2222, Bw1333, Bw1111, Bw888, Bw769, Bw740, Bw714, Bw666, Bw615, Bw571, Bw555, Bw533, Bw512, Bw476, Bw444,
        Bw384, Bw370, Bw357, Bw333, Bw307, Bw285, Bw277, Bw266, Bw256, Bw238, Bw222, Bw192, Bw185, Bw178, Bw166, Bw153, Bw142, Bw138, Bw133,
        Bw128, Bw119, Bw111, Bw96, Bw92, Bw89, Bw83, Bw76, Bw71, Bw69, Bw66, Bw64, Bw59, Bw55, Bw48, Bw46, Bw44, Bw41, Bw38, Bw35, Bw34, Bw33,
        Bw32, Bw29, Bw27, Bw24, Bw23, Bw22, Bw20, Bw19, Bw17, Bw16, Bw14, Bw13, Bw12, Bw11, Bw10, Bw9p6, Bw8p9, Bw8p7, Bw8p3, Bw8, Bw7p4, Bw6p9,
        Bw6, Bw5p8, Bw5p6, Bw5p2, Bw4p8, Bw4p5, Bw4p3, Bw4p2, Bw3p5,
    ]
};

#[derive(Clone, Copy)]
struct Width {
    code: u8,
    divisor: u32,
}

const fn width(bw: RxBw) -> Width {
    let code = bw as u8;
    let m = [13, 14, 15, 18][code as usize >> 6];
    Width { code, divisor: m * ((code as u32 >> 3 & 7) + 1) << (code & 7) }
}

const WIDTHS: [Width; 90] = {
    let mut widths = [width(RxBw::Bw3076); 90];
    let mut i = 0;
    while i < 90 {
        widths[i] = width(LISTED[i]);
        i += 1;
    }
    widths
};

// The greatest divisor is that of the smallest width.
fn narrowest(need: u64) -> Option<u8> {
    let suffices = |w: &&Width| need as u128 * w.divisor as u128 <= CLOCK;
    WIDTHS.iter().filter(suffices).max_by_key(|w| w.divisor).map(|w| w.code)
}

fn are_lengths_right(needs: &[u64], codes: &[u8]) -> bool {
    (1..=32).contains(&needs.len()) && codes.len() == needs.len()
}

pub fn check(needs: &[u64], codes: &[u8]) -> Answer {
    if !are_lengths_right(needs, codes) {
        return Err((21, 0));
    }
    for (i, (need, code)) in needs.iter().zip(codes).enumerate() {
        match narrowest(*need) {
            None => return Err((19, i as u8 + 1)),
            Some(right) if right != *code => return Err((20, i as u8 + 1)),
            Some(_) => {}
        }
    }
    Ok(needs.len())
}

pub fn find(needs: &[u64], out: &mut [u8]) -> Answer {
    if !are_lengths_right(needs, out) {
        return Err((21, 0));
    }
    let mut found = [0; 32];
    for (i, need) in needs.iter().enumerate() {
        found[i] = narrowest(*need).ok_or((19, i as u8 + 1))?;
    }
    out.copy_from_slice(&found[..needs.len()]);
    Ok(needs.len())
}
