// Random numbers, and random frames made by the checked builder of oracle/model.rs. They are the same on every run and machine: the seed is fixed.
use crate::model::{checked, commands, Built, Field, KINDS};

// splitmix64.
pub struct Random(pub u64);

impl Random {
    pub fn next(&mut self) -> u64 {
        self.0 = self.0.wrapping_add(0x9E37_79B9_7F4A_7C15);
        let z = (self.0 ^ self.0 >> 30).wrapping_mul(0xBF58_476D_1CE4_E5B9);
        let z = (z ^ z >> 27).wrapping_mul(0x94D0_49BB_1331_11EB);
        z ^ z >> 31
    }

    pub fn below(&mut self, n: usize) -> usize {
        (self.next() % n as u64) as usize
    }

    pub fn within(&mut self, least: usize, most: usize) -> usize {
        least + self.below(most - least + 1)
    }

    // True so many times in a hundred.
    pub fn percent(&mut self, n: usize) -> bool {
        self.below(100) < n
    }

    pub fn one_of<T: Copy>(&mut self, list: &[T]) -> T {
        list[self.below(list.len())]
    }

    pub fn byte(&mut self) -> u8 {
        self.next() as u8
    }

    pub fn bytes(&mut self, n: usize) -> Vec<u8> {
        (0..n).map(|_| self.byte()).collect()
    }

    pub fn shuffle<T>(&mut self, list: &mut [T]) {
        for i in (1..list.len()).rev() {
            list.swap(i, self.below(i + 1));
        }
    }
}

fn argument(random: &mut Random, field: &Field) -> u64 {
    if let Some(codes) = field.codes {
        return random.one_of(codes);
    }
    match random.below(8) {
        0 => 0,
        1 => field.most,
        _ => field.cut(random.next()),
    }
}

pub fn good(random: &mut Random, kind: u64) -> Vec<u8> {
    let command = commands().iter().find(|c| c.kind == kind).expect("a kind");
    let arguments: Vec<u64> = command.fields.iter().map(|f| argument(random, f)).collect();
    match checked(kind, &arguments) {
        Built::Frame(frame) => frame,
        Built::Refused(..) => unreachable!(),
    }
}

// A good frame but for one enum or one number with a limit, which is any that its field can hold.
fn strange(random: &mut Random) -> Vec<u8> {
    let holds_more = |f: &&Field| f.most < f.ones() || f.codes.map_or(false, |codes| (codes.len() as u64) <= f.ones());
    let strict: Vec<(u64, &Field)> = commands().iter().flat_map(|c| c.fields.iter().filter(holds_more).map(move |f| (c.kind, f))).collect();
    let (kind, field) = random.one_of(&strict);
    let mut frame = good(random, kind);
    for (byte, bit) in &field.bits {
        frame[*byte] = frame[*byte] & !(1 << bit) | (random.below(2) as u8) << bit;
    }
    frame
}

// A good frame of some kind, with damage that can give each of the refusals 1 to 5, or any bytes.
pub fn damaged(random: &mut Random) -> Vec<u8> {
    if random.percent(20) {
        return strange(random);
    }
    let kind = random.within(1, KINDS as usize) as u64;
    let mut frame = good(random, kind);
    let last = frame.len() - 1;
    match random.below(9) {
        0 => frame.truncate(random.below(2)),
        1 => frame[1] = random.byte(),
        2 => frame[0] = random.byte(),
        3 => frame.truncate(random.below(last + 1)),
        4 => frame.extend(random.bytes(1)),
        5 if last > 1 => frame[random.within(2, last)] ^= 1 << random.below(8),
        5 | 6 => frame[2..].iter_mut().for_each(|b| *b = random.byte()),
        7 => {
            let n = random.below(14);
            frame = random.bytes(n)
        }
        _ => {
            let n = if random.percent(30) { 255 } else { random.below(256) };
            frame.resize(n, 0);
        }
    }
    frame
}
