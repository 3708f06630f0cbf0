// The decoder of bench/decoder.rs behind a walk over the rows: each frame is sought in the table from its first row on, and then decoded.
// bench/run compares the port's decoder with it, to show what going straight to the row is worth.
use crate::decoder::{decode, refused, Decoded};
use crate::rows::ROWS;

pub fn walk(f: &[u8]) -> Decoded {
    if f.len() < 2 {
        return refused(1, 0);
    }
    if f[0] != 2 {
        return refused(2, 0);
    }
    let mut refusal = 2;
    for &(opcode, length) in ROWS.iter() {
        if f[1] == opcode {
            if f.len() == length {
                return decode(f);
            }
            refusal = 3;
        }
    }
    refused(refusal, 0)
}
