// Requests to the decoder and the checked builder: good frames and arguments, each damaged in every way that is refused.
use crate::model::{checked, commands, Built, Command, Field, KINDS};
use crate::sets::{Random, Set};
use std::io::Result;

pub const DECODE: u8 = 80;
pub const CHECKED: u8 = 81;
pub const MOST: usize = 12;

// A value that the field allows.
fn good(random: &mut Random, field: &Field) -> u64 {
    let any = match random.below(3) {
        0 => random.next() & 1,
        1 => u64::MAX,
        _ => random.next(),
    };
    match field.codes {
        Some(codes) => random.one_of(codes),
        None => field.cut(any),
    }
}

fn arguments(random: &mut Random, c: &Command) -> Vec<u64> {
    c.fields.iter().map(|f| good(random, f)).collect()
}

fn frame(random: &mut Random, c: &Command) -> Vec<u8> {
    match checked(c.kind, &arguments(random, c)) {
        Built::Frame(frame) => frame,
        Built::Refused(..) => panic!("a good argument of kind {} is refused", c.kind),
    }
}

fn decode(set: &mut Set, frame: &[u8]) -> Result<()> {
    set.ask_of(DECODE, frame.len(), frame)
}

fn build(set: &mut Set, kind: u64, arguments: &[u64]) -> Result<()> {
    let bytes: Vec<u8> = [kind].iter().chain(arguments).flat_map(|x| x.to_le_bytes()).collect();
    set.ask_of(CHECKED, arguments.len(), &bytes)
}

// Good frames, and each of their bytes replaced by every other.
fn damaged(set: &mut Set, is_wide: bool) -> Result<()> {
    for c in commands() {
        for _ in 0..if is_wide { 8 } else { 1 } {
            let whole = frame(&mut set.random, c);
            decode(set, &whole)?;
            for at in 0..whole.len() {
                for step in 1..if is_wide { 256 } else { 4 } {
                    let mut other = whole.clone();
                    other[at] ^= if is_wide { step as u8 } else { 1 << (3 * (step - 1) + at % 2) };
                    decode(set, &other)?;
                }
            }
        }
    }
    Ok(())
}

// Every length to 13 behind every opcode byte.
fn lengths(set: &mut Set, is_wide: bool) -> Result<()> {
    for second in 0..=u8::MAX {
        for length in 0..=13 {
            for first in if is_wide { &[2, 0, 1, 3, 255][..] } else { &[2][..] } {
                if is_wide || (second as usize + length) % 7 == 0 {
                    let mut bytes = [0; 13];
                    bytes[0] = *first;
                    bytes[1] = second;
                    decode(set, &bytes[..length])?;
                }
            }
        }
    }
    Ok(())
}

// Random bytes of any length, and behind a command's opcode of its own length.
fn random(set: &mut Set, is_wide: bool) -> Result<()> {
    for _ in 0..if is_wide { 100_000 } else { 20 } {
        let length = set.random.below(21) as usize;
        set.ask_of(DECODE, length, &[])?;
    }
    for c in commands() {
        for _ in 0..if is_wide { 4_000 } else { 2 } {
            set.ask_of(DECODE, c.length, &c.opcode)?;
            let fewer = set.random.next() & set.random.next() & set.random.next();
            let mut bytes = [c.opcode.to_vec(), fewer.to_le_bytes().to_vec(), vec![0; 2]].concat();
            bytes.truncate(c.length);
            decode(set, &bytes)?;
        }
    }
    Ok(())
}

// The limit of a field and one past it, every small code, and all ones; the other arguments good.
fn limits(set: &mut Set, is_wide: bool) -> Result<()> {
    for c in commands() {
        for (i, f) in c.fields.iter().enumerate() {
            let mut points = vec![0, f.most, f.most.wrapping_add(1), f.ones(), f.ones().wrapping_add(1), u64::MAX, 1 << 63, 1 << 32];
            if is_wide {
                points.extend(0..=260);
            } else {
                points.extend((0..=16).filter(|v| f.takes(*v) != f.takes(v + 1)));
            }
            for point in points {
                let mut values = arguments(&mut set.random, c);
                values[i] = point;
                build(set, c.kind, &values)?;
            }
        }
    }
    Ok(())
}

// Missing and surplus arguments, with a bad one before them at times.
fn counts(set: &mut Set, is_wide: bool) -> Result<()> {
    for c in commands() {
        for count in 0..=MOST {
            for turn in 0..if is_wide { 40 } else { 1 } {
                let mut values = arguments(&mut set.random, c);
                while values.len() < count {
                    values.push(set.random.below(2));
                }
                values.truncate(count);
                if turn % 4 == 3 && count > 0 {
                    let at = set.random.below(count as u64) as usize;
                    values[at] = set.random.next();
                }
                build(set, c.kind, &values)?;
            }
        }
    }
    Ok(())
}

fn kinds(set: &mut Set) -> Result<()> {
    for kind in [0, KINDS + 1, KINDS + 2, 127, 128, 255, 256, 257, 256 + KINDS, 300, 1 << 16, 1 << 32, (1 << 32) + 1, 1 << 63, u64::MAX] {
        for count in 0..=3 {
            build(set, kind, &[0, 1, 2][..count])?;
        }
    }
    Ok(())
}

// Good arguments, and the frame that they give, decoded.
fn rounds(set: &mut Set, is_wide: bool) -> Result<()> {
    for c in commands() {
        for _ in 0..if is_wide { 4_000 } else { 3 } {
            let values = arguments(&mut set.random, c);
            build(set, c.kind, &values)?;
            let whole = frame(&mut set.random, c);
            decode(set, &whole)?;
        }
    }
    Ok(())
}

// Sync words of every length that a byte can say, by all three: the plain builder cuts a length, the other two have a limit.
fn sync_words(set: &mut Set, is_wide: bool) -> Result<()> {
    let near = [0, 1, 63, 64, 65, 66, 127, 128, 191, 192, 193, 255];
    let lengths: Vec<u64> = if is_wide { (0..=255).collect() } else { near.to_vec() };
    for _ in 0..if is_wide { 200 } else { 1 } {
        for length in &lengths {
            for order in 0..=1 {
                let word = set.random.next();
                set.build(20, &[word, order, *length])?;
                build(set, 20, &[word, order, *length])?;
                decode(set, &[&[0x02, 0x44], &word.to_be_bytes()[..], &[*length as u8]].concat())?;
            }
        }
    }
    // A bad order comes first; lengths whose low bits are good.
    for length in [64, 65, 1 << 7, (1 << 8) + 64, (1 << 32) + 64, (1 << 63) + 1] {
        for order in 1..=2 {
            build(set, 20, &[0, order, length])?;
        }
    }
    Ok(())
}

pub fn codec(set: &mut Set, is_wide: bool) -> Result<()> {
    set.group("frames decoded: good ones, damaged ones, other lengths, random bytes");
    damaged(set, is_wide)?;
    lengths(set, is_wide)?;
    random(set, is_wide)?;
    set.group("arguments checked: limits, counts, kinds; and rounds of both");
    limits(set, is_wide)?;
    counts(set, is_wide)?;
    kinds(set)?;
    rounds(set, is_wide)?;
    set.group("lengths of a sync word: plain, checked, decoded");
    sync_words(set, is_wide)
}
