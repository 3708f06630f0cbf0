// The requests: the wide set and the sample. Both are the same on every run: the random numbers have a fixed seed.
use crate::answers::{answer, is_the_rusts};
use crate::banks::banks;
use crate::builders::{arguments, Argument};
use crate::coded::codec;
use crate::enums::{LORA_BW, LORA_CR, SF};
use crate::frames;
use crate::lockers::{any_book, Lora, COMBINATIONS};
use crate::model::{FILES, KINDS};
use crate::profile::{place_among_answers, said, ANSWERS};
use crate::{ANSWER, HEAD, PAYLOAD, REQUEST};
use std::fs::File;
use std::io::{BufWriter, Error, ErrorKind, Result, Write};

// A kind with at most this many different calls has them all in the wide set.
const ALL: u64 = 1 << 17;
// So many requests has every other kind there, at least.
const MANY: usize = 40_000;
// So many requests has each kind in the sample, at least, where there are as many.
const FEW: usize = 24;

// Operation and stated length of each response.
pub const RESPONSES: [(u8, usize); 7] = [(66, 12), (67, 8), (68, 16), (69, 8), (70, 4), (71, 6), (72, 6)];
const LONGEST: usize = 20;

pub const PROFILE: u8 = 84;

// splitmix64.
pub struct Random(u64);

impl Random {
    pub fn next(&mut self) -> u64 {
        self.0 = self.0.wrapping_add(0x9E37_79B9_7F4A_7C15);
        let z = (self.0 ^ self.0 >> 30).wrapping_mul(0xBF58_476D_1CE4_E5B9);
        let z = (z ^ z >> 27).wrapping_mul(0x94D0_49BB_1331_11EB);
        z ^ z >> 31
    }

    pub fn below(&mut self, n: u64) -> u64 {
        self.next() % n
    }

    pub fn one_of(&mut self, list: &[u64]) -> u64 {
        list[self.below(list.len() as u64) as usize]
    }

    fn payload(&mut self) -> [u8; PAYLOAD] {
        let mut bytes = [0; PAYLOAD];
        for b in bytes.iter_mut() {
            *b = self.next() as u8;
        }
        bytes
    }
}

pub struct Set {
    requests: BufWriter<File>,
    answers: BufWriter<File>,
    pub random: Random,
    groups: Vec<Group>,
}

// How many requests the Rust answered, and our model; and how many were left out.
#[derive(Default)]
struct Group {
    name: String,
    rust: usize,
    model: usize,
    left: usize,
}

impl Group {
    fn named(name: &str) -> Group {
        Group { name: name.to_string(), ..Group::default() }
    }

    // Takes note of a request, and tells whether it has an answer.
    fn count(&mut self, op: u8, aux: u8, is_answered: bool) -> bool {
        *match (is_answered, is_the_rusts(op, aux)) {
            (false, _) => &mut self.left,
            (true, true) => &mut self.rust,
            (true, false) => &mut self.model,
        } += 1;
        is_answered
    }

    fn print(&self) {
        println!("{:>9} {:>9} {:>9} {}", self.rust, self.model, self.left, self.name);
    }
}

impl Set {
    fn new(requests: &str, answers: &str) -> Result<Set> {
        Ok(Set {
            requests: BufWriter::with_capacity(1 << 20, File::create(requests)?),
            answers: BufWriter::with_capacity(1 << 20, File::create(answers)?),
            random: Random(2021),
            groups: vec![],
        })
    }

    pub fn group(&mut self, name: &str) {
        self.groups.push(Group::named(name));
    }

    fn ask(&mut self, op: u8, aux: usize, payload: &[u8; PAYLOAD]) -> Result<()> {
        let answer = answer(op, aux as u8, payload);
        if self.groups.last_mut().expect("a group").count(op, aux as u8, answer.is_some()) {
            let mut request = [0; REQUEST];
            request[0] = op;
            request[1] = aux as u8;
            request[HEAD..].copy_from_slice(payload);
            self.requests.write_all(&request)?;
            self.answers.write_all(&answer.expect("an answer"))?;
        }
        Ok(())
    }

    // A request with these bytes first, and what the random numbers give behind them.
    pub fn ask_of(&mut self, op: u8, aux: usize, first: &[u8]) -> Result<()> {
        let mut payload = self.random.payload();
        payload[..first.len()].copy_from_slice(first);
        self.ask(op, aux, &payload)
    }

    pub fn build(&mut self, kind: u8, values: &[u64]) -> Result<()> {
        let mut payload = [0; PAYLOAD];
        for (i, x) in values.iter().enumerate() {
            payload[8 * i..8 * i + 8].copy_from_slice(&x.to_le_bytes());
        }
        self.ask(kind, 0, &payload)
    }

    fn end(mut self) -> Result<()> {
        self.requests.flush()?;
        self.answers.flush()?;
        println!("     Rust     model  left out");
        let mut all = Group::named("in all");
        for group in &self.groups {
            group.print();
            all = Group { rust: all.rust + group.rust, model: all.model + group.model, left: all.left + group.left, ..all };
        }
        all.print();
        Ok(())
    }
}

fn ones(bits: u32) -> u64 {
    u64::MAX >> (64 - bits)
}

// 0, 1, the field's limit, one past it where the type has it, and all ones.
fn limits(field: u32, width: u32) -> Vec<u64> {
    let mut list = vec![0, 1, ones(field), ones(width)];
    if field < width {
        list.push(ones(field) + 1);
    }
    list
}

fn any(random: &mut Random, argument: Argument) -> u64 {
    match argument {
        Argument::Codes(list) => random.one_of(list),
        Argument::Number { field, width } => match random.below(4) {
            0 => random.one_of(&limits(field, width)),
            1 => 1 << random.below(width as u64),
            2 => random.next() & ones(1 + random.below(width as u64) as u32),
            _ => random.next() & ones(width),
        },
    }
}

// How many values an argument has; too many to count is u64::MAX.
fn size(argument: &Argument) -> u64 {
    match argument {
        Argument::Codes(list) => list.len() as u64,
        Argument::Number { width, .. } => 1u64.checked_shl(*width).unwrap_or(u64::MAX),
    }
}

fn nth(argument: &Argument, n: u64) -> u64 {
    match argument {
        Argument::Codes(list) => list[n as usize],
        Argument::Number { .. } => n,
    }
}

fn product(sizes: impl Iterator<Item = u64>) -> u64 {
    sizes.fold(1, |all, n| all.saturating_mul(n))
}

// Every call of a kind.
fn every(set: &mut Set, kind: u8, takes: &[Argument]) -> Result<()> {
    for case in 0..product(takes.iter().map(size)) {
        let mut rest = case;
        let mut values = vec![];
        for a in takes {
            values.push(nth(a, rest % size(a)));
            rest /= size(a);
        }
        set.build(kind, &values)?;
    }
    Ok(())
}

// Each limit and each single bit of each number: the other numbers 0, all ones, and random; the codes random.
fn edges(set: &mut Set, kind: u8, takes: &[Argument]) -> Result<()> {
    for (i, a) in takes.iter().enumerate() {
        if let Argument::Number { field, width } = *a {
            let mut points = limits(field, width);
            points.extend((0..width).map(|b| 1 << b));
            for point in points {
                for others in 0..3 {
                    let mut values: Vec<u64> = takes.iter().map(|a| beside(&mut set.random, *a, others)).collect();
                    values[i] = point;
                    set.build(kind, &values)?;
                }
            }
        }
    }
    Ok(())
}

fn beside(random: &mut Random, argument: Argument, others: u8) -> u64 {
    match (argument, others) {
        (Argument::Number { .. }, 0) => 0,
        (Argument::Number { width, .. }, 1) => ones(width),
        _ => any(random, argument),
    }
}

// Every combination of codes, again and again until there are many, each with its own numbers.
fn mixed(set: &mut Set, kind: u8, takes: &[Argument]) -> Result<()> {
    let coded = |a: &Argument| if let Argument::Codes(list) = a { list.len() as u64 } else { 1 };
    let all = product(takes.iter().map(coded));
    for case in 0..(MANY as u64).max(all) {
        let mut rest = case % all;
        let mut values = vec![];
        for a in takes {
            values.push(match a {
                Argument::Codes(list) => list[(rest % coded(a)) as usize],
                number => any(&mut set.random, *number),
            });
            rest /= coded(a);
        }
        set.build(kind, &values)?;
    }
    Ok(())
}

// The sample of a kind: each code of each argument and each limit once, then random values.
fn some(set: &mut Set, kind: u8, takes: &[Argument]) -> Result<()> {
    let most = takes.iter().map(|a| if let Argument::Codes(list) = a { list.len() } else { FEW }).max().unwrap_or(1);
    for case in 0..most.max(FEW) {
        let mut values = vec![];
        for (i, a) in takes.iter().enumerate() {
            let first = match *a {
                Argument::Codes(list) => (case < list.len()).then(|| list[(case + i) % list.len()]),
                Argument::Number { field, width } => limits(field, width).get(case).copied(),
            };
            values.push(first.unwrap_or_else(|| any(&mut set.random, *a)));
        }
        set.build(kind, &values)?;
    }
    Ok(())
}

fn builder(set: &mut Set, kind: u8, is_wide: bool) -> Result<()> {
    let takes = arguments(kind);
    let all = product(takes.iter().map(size));
    if all <= if is_wide { ALL } else { FEW as u64 } {
        every(set, kind, &takes)
    } else if is_wide {
        edges(set, kind, &takes)?;
        mixed(set, kind, &takes)
    } else {
        some(set, kind, &takes)
    }
}

fn builders(set: &mut Set, is_wide: bool) -> Result<()> {
    for (at, (file, first)) in FILES.iter().enumerate() {
        let last = FILES.get(at + 1).map_or(KINDS, |(_, next)| next - 1);
        set.group(&format!("builders of {}.rs, kinds {} to {}", file, first, last));
        for kind in *first..=last {
            builder(set, kind as u8, is_wide)?;
        }
    }
    Ok(())
}

// In the wide set every two bytes; in the sample each value of each part of a status. Then slices of other lengths.
fn statuses(set: &mut Set, is_wide: bool) -> Result<()> {
    set.group("statuses");
    if is_wide {
        for n in 0..=u16::MAX {
            set.ask_of(64, 2, &n.to_be_bytes())?;
        }
    } else {
        for n in 0..32 {
            let high = n as u8 | set.random.next() as u8 & 0xE0;
            let low = (n << 4) as u8 | set.random.next() as u8 & 15;
            set.ask_of(64, 2, &[high, low])?;
            set.ask_of(64, 2, &[high, n as u8])?;
        }
    }
    for length in 0..=6 {
        for _ in 0..if is_wide { 300 } else { 3 } {
            set.ask_of(64, length, &[])?;
        }
    }
    Ok(())
}

// The four bytes of an interrupt, high first, in a request that has this mask.
fn interrupt(set: &mut Set, length: usize, value: u32, mask: u32) -> Result<()> {
    let mut payload = set.random.payload();
    payload[..4].copy_from_slice(&value.to_be_bytes());
    payload[64..68].copy_from_slice(&mask.to_le_bytes());
    set.ask(65, length, &payload)
}

fn interrupts(set: &mut Set, is_wide: bool) -> Result<()> {
    set.group("interrupts");
    for bit in 0..32 {
        interrupt(set, 4, 1 << bit, !0)?;
        interrupt(set, 4, !(1 << bit), 1 << bit)?;
        if is_wide {
            for other in 0..32 {
                interrupt(set, 4, 1 << bit, 1 << other)?;
            }
        }
    }
    for length in 0..=6 {
        for value in [0, u32::MAX] {
            for mask in [0, 1, u32::MAX] {
                interrupt(set, length, value, mask)?;
            }
        }
        for _ in 0..if is_wide { 3_000 } else { 3 } {
            let (value, mask, fewer) = (set.random.next(), set.random.next(), set.random.next());
            interrupt(set, length, value as u32, mask as u32)?;
            interrupt(set, length, value as u32, (mask & fewer & fewer >> 32) as u32)?;
        }
    }
    Ok(())
}

fn responses(set: &mut Set, is_wide: bool) -> Result<()> {
    set.group("responses");
    for (op, stated) in RESPONSES {
        for length in 0..=LONGEST {
            set.ask(op, length, &[0; PAYLOAD])?;
            if is_wide || length == stated {
                set.ask(op, length, &[255; PAYLOAD])?;
            }
            let often = match (is_wide, length == stated) {
                (true, true) => 10_000,
                (true, false) => 50,
                (false, true) => 12,
                (false, false) => 0,
            };
            for _ in 0..often {
                set.ask_of(op, length, &[])?;
            }
        }
        if is_wide {
            for bit in 0..8 * stated {
                let mut payload = [0; PAYLOAD];
                payload[bit / 8] = 1 << (bit % 8);
                set.ask(op, stated, &payload)?;
                set.ask(op, stated, &payload.map(|b| !b))?;
            }
        }
    }
    Ok(())
}

fn enum_methods(set: &mut Set, is_wide: bool) -> Result<()> {
    set.group("methods of LoraBw, LoraCr and Sf");
    for x in LORA_BW {
        // A pair of the sample has its lower code first; the widths go another way, so both orders are there.
        for y in LORA_BW.iter().filter(|y| is_wide || x <= *y) {
            set.ask_of(73, 0, &[*x as u8, *y as u8])?;
        }
    }
    for x in LORA_CR {
        set.ask_of(74, 0, &[*x as u8])?;
    }
    for x in SF {
        for y in SF {
            set.ask_of(75, 0, &[*x as u8, *y as u8])?;
        }
    }
    Ok(())
}

fn texts(set: &mut Set, is_wide: bool) -> Result<()> {
    set.group("texts of levels");
    if is_wide {
        for count in 0..=u16::MAX {
            set.ask_of(76, 0, &count.to_le_bytes())?;
        }
    } else {
        for count in [0, 1, 2, 19, 20, 181, 199, 200, 255, 256, 510, 511, 512, 1999, 2000, 19_999, 20_000, 65_534, 65_535u16] {
            set.ask_of(76, 0, &count.to_le_bytes())?;
        }
        for _ in 0..20 {
            set.ask_of(76, 0, &[])?;
        }
    }
    set.group("texts of SNRs");
    for byte in 0..=u8::MAX {
        // The sample has every third, and those beside the change of sign and of the number of digits.
        if is_wide || byte % 3 == 0 || [1, 4, 39, 40, 127, 128, 129, 216, 217, 252, 253, 254, 255].contains(&byte) {
            set.ask_of(77, 0, &[byte])?;
        }
    }
    Ok(())
}

fn counters(set: &mut Set, is_wide: bool) -> Result<()> {
    set.group("differences of counters");
    let ends: &[u16] = if is_wide { &[0, 1, 2, 3, 255, 256, 32_767, 32_768, 65_533, 65_534, 65_535] } else { &[0, 3, 32_768, 65_535] };
    for earlier in ends {
        for later in ends {
            let (e, l) = (earlier.to_le_bytes(), later.to_le_bytes());
            set.ask_of(78, 0, &[e[0], e[1], l[0], l[1]])?;
        }
    }
    for _ in 0..if is_wide { 20_000 } else { 8 } {
        set.ask_of(78, 0, &[])?;
    }
    Ok(())
}

fn widths(set: &mut Set) -> Result<()> {
    set.group("names of RxBw");
    for code in 0..=u8::MAX {
        set.ask_of(79, 0, &[code])?;
    }
    Ok(())
}

fn profile(set: &mut Set, book: &[u8]) -> Result<()> {
    set.ask_of(PROFILE, book.len(), book)
}

// Each combination of what the rules look at, and random books; the sample has four of these for each answer.
fn profiles(set: &mut Set, is_wide: bool) -> Result<()> {
    set.group("locker profiles");
    let mut random = frames::Random(2026);
    let mut met = [0; ANSWERS];
    if is_wide {
        for n in 0..COMBINATIONS {
            profile(set, &Lora::combination(n).stored(&mut random))?;
        }
    }
    for _ in 0..200_000 {
        let book = any_book(&mut random, PAYLOAD);
        let times = &mut met[place_among_answers(said(&book))];
        if is_wide || *times < 4 {
            *times += 1;
            profile(set, &book)?;
        }
    }
    assert!(met.iter().all(|times| *times >= 4), "an answer of the profile is missing: {:?}", met);
    Ok(())
}

fn whole(requests: &str, answers: &str, is_wide: bool) -> Result<()> {
    let mut set = Set::new(requests, answers)?;
    builders(&mut set, is_wide)?;
    statuses(&mut set, is_wide)?;
    interrupts(&mut set, is_wide)?;
    responses(&mut set, is_wide)?;
    enum_methods(&mut set, is_wide)?;
    texts(&mut set, is_wide)?;
    counters(&mut set, is_wide)?;
    widths(&mut set)?;
    codec(&mut set, is_wide)?;
    banks(&mut set, is_wide)?;
    profiles(&mut set, is_wide)?;
    set.end()
}

pub fn wide(requests: &str, answers: &str) -> Result<()> {
    whole(requests, answers, true)
}

pub fn sample(requests: &str, answers: &str) -> Result<()> {
    whole(requests, answers, false)
}

// Holds stored answers to those of the Rust and the model, as far as they are at hand.
pub fn stored(requests: &str, answers: &str) -> Result<()> {
    let (requests, answers) = (std::fs::read(requests)?, std::fs::read(answers)?);
    let mut all = Group::named("stored");
    for (i, (request, stored)) in requests.chunks_exact(REQUEST).zip(answers.chunks_exact(ANSWER)).enumerate() {
        let (op, aux) = (request[0], request[1]);
        let ours = answer(op, aux, request[HEAD..].try_into().expect("a payload"));
        if all.count(op, aux, ours.is_some()) && ours.map_or(true, |a| a != stored) {
            return Err(Error::new(ErrorKind::Other, format!("stored request {} (counted from 0), operation {}: another answer", i, op)));
        }
    }
    all.print();
    Ok(())
}
