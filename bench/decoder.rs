// A decoder in the Rust that one would write by hand from the reference: a match on opcode and length, the bits that no field holds, the codes,
// the arguments. bench/generate.py writes the arm of each kind from docs/commands.json, and bench/run compares the port's decoder with it.
pub struct Decoded {
    pub refusal: u8,
    pub place: u8,
    pub kind: u8,
    pub count: u8,
    pub args: [u64; 9],
}

pub fn refused(refusal: u8, place: u8) -> Decoded {
    Decoded { refusal, place, kind: 0, count: 0, args: [0; 9] }
}

// The lowest byte with a bit outside the masks, from byte 2 on.
fn stray(f: &[u8], masks: &[u8]) -> Option<u8> {
    for (i, m) in masks.iter().enumerate() {
        if f[i + 2] & !m != 0 {
            return Some(i as u8 + 2);
        }
    }
    None
}

fn said(kind: u8, args: &[u64]) -> Decoded {
    let mut all = [0; 9];
    all[..args.len()].copy_from_slice(args);
    Decoded { refusal: 0, place: 0, kind, count: args.len() as u8, args: all }
}

fn be(f: &[u8]) -> u64 {
    f.iter().fold(0, |v, b| v << 8 | *b as u64)
}

/* LOOKUPS */

macro_rules! no_stray {
    ($f:ident, $($mask:expr),*) => {
        if let Some(at) = stray($f, &[$($mask),*]) {
            return refused(4, at);
        }
    };
}

pub fn decode(f: &[u8]) -> Decoded {
    if f.len() < 2 {
        return refused(1, 0);
    }
    if f[0] != 2 {
        return refused(2, 0);
    }
    match (f[1], f.len()) {
        /* ARMS */
        _ => refused(2, 0),
    }
}
