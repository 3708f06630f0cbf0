// hb_plain on any arguments: against a model (tests/oracle/model.rs, with the plain places of its fields), and
// against the Rust's own builders where they are beside the repository.
use super::*;

#[cfg(source)]
#[path = "../oracle/builders.rs"]
mod builders;

// A code of its enum, yes or no, or any number: numbers have more than one bit.
fn accepted(field: &model::Field, v: u64) -> bool {
    match (field.codes, field.rust) {
        (Some(_), Some(codes)) => codes.contains(&v),
        _ => v < 2 || field.bits.len() > 1,
    }
}

fn wanted(kind: u64, args: &[u64]) -> Built {
    let c = match commands().iter().find(|c| c.kind == kind) {
        Some(c) => c,
        None => return Built::Refused(13, 0),
    };
    let is_good = |i: usize| i < c.fields.len() && i < args.len() && accepted(&c.fields[i], args[i]);
    if let Some(i) = (0..c.fields.len().max(args.len())).find(|i| !is_good(*i)) {
        return Built::Refused(6, i as u8 + 1);
    }
    let mut frame = vec![0; c.length];
    frame[..2].copy_from_slice(&c.opcode);
    for (i, field) in c.fields.iter().enumerate() {
        for (j, (byte, bit)) in field.plain.iter().enumerate() {
            frame[*byte] |= ((args[i] >> j & 1) as u8) << bit;
        }
    }
    Built::Frame(frame)
}

// What the Rust builds, its arguments cut to its types. It has seven DIO numbers only.
#[cfg(source)]
fn as_the_rust(kind: u64, args: &[u64], got: Frame) {
    let mut cut = [0; 9];
    for (i, argument) in builders::arguments(kind as u8).iter().enumerate() {
        cut[i] = match argument {
            builders::Argument::Number { width, .. } => args[i] & u64::MAX >> (64 - width),
            builders::Argument::Codes(codes) if kind == 14 && i == 1 && !codes.contains(&(args[1] & 15)) => return,
            builders::Argument::Codes(_) => args[i] & if kind == 14 { 15 } else { u64::MAX },
        };
    }
    same(&format!("hb_plain of {} {:?}, by the Rust", kind, args), got, framed(Built::Frame(builders::frame(kind as u8, &cut))));
}

fn plain(kind: u64, args: &[u64]) {
    about("hb_plain\0", kind);
    let got = hb::plain(kind, input(args));
    same(&format!("hb_plain of {} {:?}", kind, args), got, framed(wanted(kind, args)));
    given_back();
    #[cfg(source)]
    if got.refusal == 0 {
        as_the_rust(kind, args, got);
    }
}

// Any numbers beside good codes; then one argument that is any number; then another count or kind.
fn many(c: &Command) {
    let any_number = |f: &model::Field| if f.codes.is_none() && f.bits.len() > 1 { random() >> random() % 64 } else { good(f) };
    let mut args: Vec<u64> = c.fields.iter().map(any_number).collect();
    plain(c.kind, &args);
    if !args.is_empty() {
        let at = random() as usize % args.len();
        args[at] = random() >> random() % 64;
        plain(c.kind, &args);
    }
    args.resize(random() as usize % 12, 0);
    plain(c.kind, &args);
    plain(random() >> random() % 64, &args);
}

#[no_mangle]
pub extern "C" fn test_rust_plain() {
    given_back();
    for kind in [0, KINDS + 1, 1 << 32, u64::MAX] {
        plain(kind, &[]);
    }
    commands().iter().for_each(|c| each_argument(c, plain));
    for _ in 0..250 {
        commands().iter().for_each(many);
    }
}
