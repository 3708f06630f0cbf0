// Histories of two sides whose course is fixed: an installer's and an operator's, tables that are wrong in every way, sides over their quotas,
// stored books with a fault, refusals in their order, the edges of a quota, frames of both sides by turns, and a full book.
use crate::book::{image, length, weight, Frame, FORMS, MOST_BYTES, SETTINGS, SLOTS, START, VERSION};
use crate::frames::{good, Random};
use crate::make::{History, Size};
use crate::make_sides::Sharing;
use crate::model::KINDS;
use crate::record::{hex, Call, Record, Table};
use crate::seen::{Place, PLACES};
use crate::tables::{by_radio, place_of};
use std::io::{Result, Write};

pub enum Course {
    Story,
    Tables,
    // A side whose frames exceed its quota.
    Over(u64),
    // Buffers of wrong lengths, and books with a fault.
    Stored(usize),
    Order(u64),
    // A side puts kinds that fill its quota, or are one byte too long for it, once the last is put.
    Edge { side: u64, kinds: Vec<u64>, last: u64, lacks: usize },
    // A side that has no room, beside one that has it all.
    Nothing(u64),
    Amid,
    Full,
}

// Kinds that one side or the other has by the radio, in the order in which the courses put them.
const INSTALLERS: [u64; 3] = [24, 1, 4];
const OPERATORS: [u64; 3] = [18, 21, 17];

fn kinds(side: u64) -> [u64; 3] {
    if side == 1 { INSTALLERS } else { OPERATORS }
}

// Both sides' first two kinds, and quotas that have a byte to spare.
const HELD: [u64; 2] = [11, 9];

// Each swap of forms at the edge of a quota, at each place in the side's list; and the edge without a swap.
fn edges(random: &mut Random, size: Size) -> Vec<Course> {
    let mut all = vec![];
    for side in [1, 2] {
        for lacks in [0, 1] {
            all.push(Course::Edge { side, kinds: vec![24, 1], last: 4, lacks });
            for (i, (short, long)) in FORMS.into_iter().enumerate() {
                for (j, place) in PLACES.into_iter().enumerate() {
                    let mut kinds = vec![1, 4, 7, 12, 24, 31];
                    random.shuffle(&mut kinds);
                    let (at, others) = match place {
                        Place::Alone => (0, 0),
                        Place::First => (0, 2),
                        Place::Middle => (1, 2),
                        Place::Last => (2, 2),
                    };
                    kinds.truncate(others);
                    kinds.insert(at, short);
                    // The sample has each with one side.
                    if size == Size::Wide || (i + j + lacks) % 2 == side as usize - 1 {
                        all.push(Course::Edge { side, kinds, last: long, lacks });
                    }
                }
            }
        }
    }
    all
}

// A buffer for a few frames.
const FEW: usize = START + 28;

pub fn courses(random: &mut Random, size: Size) -> Vec<Course> {
    let mut all = vec![Course::Story, Course::Tables, Course::Over(1), Course::Over(2)];
    let lengths = if size == Size::Sample { vec![START - 1, FEW] } else { vec![0, START - 1, FEW, 4097] };
    all.extend(lengths.into_iter().map(Course::Stored));
    all.extend([Course::Order(1), Course::Order(2), Course::Nothing(1), Course::Nothing(2), Course::Amid, Course::Full]);
    all.extend(edges(random, size));
    all
}

impl Course {
    pub fn run<W: Write>(&self, history: History<W>) -> Result<()> {
        let mut on = Sharing { history, table: Table { owners: by_radio(1), quotas: [0, 0] } };
        match self {
            Course::Story => story(&mut on),
            Course::Tables => tables(&mut on),
            Course::Over(side) => over(&mut on, *side),
            Course::Stored(length) => stored(&mut on, *length),
            Course::Order(side) => order(&mut on, *side),
            Course::Edge { side, kinds, last, lacks } => edge(&mut on, *side, kinds, *last, *lacks),
            Course::Nothing(side) => nothing(&mut on, *side),
            Course::Amid => amid(&mut on),
            Course::Full => full(&mut on),
        }
    }
}

// A buffer that both quotas fill, and a new book in it.
fn begin<W: Write>(on: &mut Sharing<W>, quotas: [u64; 2]) -> Result<()> {
    on.table.quotas = quotas;
    let first = on.history.random.byte();
    on.history.record(Record::Lend { length: START + (quotas[0] + quotas[1]) as usize, first })?;
    on.history.record(Record::Make)
}

// Each side's first two kinds, by turns.
fn both_hold<W: Write>(on: &mut Sharing<W>) -> Result<()> {
    for i in 0..2 {
        for side in [1, 2] {
            on.put(side, kinds(side)[i])?;
        }
    }
    Ok(())
}

// A side's replay into as many bytes as it takes, after one that is a byte short.
fn replay<W: Write>(on: &mut Sharing<W>, side: u64) -> Result<()> {
    let held = on.held(side);
    let output = weight(&held) + held.len();
    if output > 0 {
        on.call(side, Call::Replay { output: output - 1 })?;
    }
    on.call(side, Call::Replay { output })
}

// Every call of a side, with a table and a caller that need not be the right ones.
fn every_call<W: Write>(on: &mut Sharing<W>, side: u64, caller: u64, table: &Table) -> Result<()> {
    let [held, _, unheld] = kinds(side);
    let frame = good(on.history.random, unheld);
    let calls = [
        Call::Put { frame },
        Call::Remove { kind: held },
        Call::Ask { kind: held, output: 12 },
        Call::Replay { output: 24 },
        Call::Clear,
    ];
    for call in calls {
        on.call_with(caller, table.clone(), call)?;
    }
    Ok(())
}

const INSTALLER: u64 = 1;
const OPERATOR: u64 = 2;

fn put(frame: &[u8]) -> Call {
    Call::Put { frame: frame.to_vec() }
}

// The frames that both hold, in words.
fn shown<W: Write>(on: &Sharing<W>) -> [Vec<String>; 2] {
    on.history.book.lists().map(|list| list.iter().map(|f| hex(&f.bytes)).collect())
}

// The installer and the operator fill their quotas, and the book; each is refused one frame more, and what is the other's.
fn story<W: Write>(on: &mut Sharing<W>) -> Result<()> {
    begin(on, [13, 15])?;
    let calls = [
        (INSTALLER, put(&[2, 0, 0x33, 0xBE, 0x27, 0xA0])),
        (OPERATOR, put(&[2, 0x42, 0x11, 0xFF])),
        (INSTALLER, put(&[2, 1, 1])),
        (INSTALLER, put(&[2, 0x20, 0x74, 0x10])),
        (OPERATOR, put(&[2, 0x40, 0, 0, 0xC3, 0x50, 0, 0, 0, 0x61, 0xA8])),
        // Both quotas are full: a frame more, or a byte more by the longer form, has no room; the same kind again has.
        (INSTALLER, put(&[2, 0x23, 0x12])),
        (INSTALLER, put(&[2, 1, 1, 7])),
        (OPERATOR, put(&[2, 0x45, 0x0A, 0xFF])),
        (INSTALLER, put(&[2, 0x20, 0x84, 0x10])),
        // What is the other's, held or not.
        (INSTALLER, put(&[2, 0x45, 0x0A, 0xFF])),
        (INSTALLER, Call::Ask { kind: 16, output: 12 }),
        (INSTALLER, Call::Remove { kind: 20 }),
        (OPERATOR, put(&[2, 0, 0x33, 0xBE, 0x27, 0xA1])),
        (OPERATOR, Call::Ask { kind: 4, output: 12 }),
        (OPERATOR, Call::Remove { kind: 24 }),
    ];
    let mut answers = vec![];
    for (side, call) in calls {
        on.call(side, call)?;
        answers.push(on.history.answer.refusal);
    }
    for side in [INSTALLER, OPERATOR] {
        replay(on, side)?;
    }
    assert_eq!(answers, [0, 0, 0, 0, 0, 8, 8, 8, 0, 18, 18, 18, 18, 18, 18], "the answers, by hand");
    assert_eq!(shown(on)[0], ["02 00 33 be 27 a0", "02 01 01", "02 20 84 10"], "the installer's, by hand");
    assert_eq!(shown(on)[1], ["02 42 11 ff", "02 40 00 00 c3 50 00 00 00 61 a8"], "the operator's, by hand");
    story_ends(on)
}

// The operator clears, which leaves the installer's frames, and the installer makes room for the longer form.
fn story_ends<W: Write>(on: &mut Sharing<W>) -> Result<()> {
    on.call(OPERATOR, Call::Clear)?;
    on.call(OPERATOR, put(&[2, 0x45, 0x0A, 0xFF]))?;
    on.call(INSTALLER, Call::Remove { kind: 1 })?;
    on.call(INSTALLER, put(&[2, 1, 1, 7]))?;
    for side in [INSTALLER, OPERATOR] {
        replay(on, side)?;
    }
    on.history.record(Record::Replay { output: 20 })?;
    assert_eq!(shown(on)[0], ["02 00 33 be 27 a0", "02 01 01 07"], "the installer's in the end, by hand");
    assert_eq!(shown(on)[1], ["02 45 0a ff"], "the operator's in the end, by hand");
    assert_eq!(hex(&on.history.book.output), "06 02 00 33 be 27 a0 04 02 01 01 07 04 02 45 0a ff b6 b7 b8", "all in order, by hand");
    Ok(())
}

// Tables that are wrong in one way each, of a book whose room is so much.
fn wrong_tables(right: &Table, room: u64) -> Vec<Table> {
    let with = |owners: Vec<u8>| Table { owners, quotas: right.quotas };
    let entry = |kind: u64, owner: u8| {
        let mut owners = right.owners.clone();
        owners[place_of(kind)] = owner;
        with(owners)
    };
    let entries = |n: usize| with(right.owners.iter().copied().chain([1, 2]).take(n).collect());
    let mut all: Vec<Table> = [0, SLOTS - 1, SLOTS + 1].into_iter().map(entries).collect();
    all.extend([0, 3, 255].map(|owner| entry(KINDS, owner)));
    all.extend(FORMS.map(|(_, long)| entry(long, 2)));
    let [a, b] = right.quotas;
    // Their sum is past 2^64, and what is left of it in 64 bits is the room.
    let past = [u64::MAX - 4, 1 << 63, u64::MAX].map(|q| [q, room.wrapping_sub(q)]);
    let quotas = [[a, b + 1], [a + 1, b], [room + 1, 0], [u64::MAX, u64::MAX], [a - 2, b], [a, b - 2]];
    all.extend(quotas.into_iter().chain(past).map(|quotas| Table { owners: right.owners.clone(), quotas }));
    all
}

// Every call with each of them; then calls that are refused for another reason too, and callers that are no side.
fn tables<W: Write>(on: &mut Sharing<W>) -> Result<()> {
    begin(on, HELD)?;
    both_hold(on)?;
    let right = on.table.clone();
    for table in wrong_tables(&right, on.room() as u64) {
        for side in [1, 2] {
            every_call(on, side, side, &table)?;
        }
    }
    let surplus = Table { owners: [&right.owners[..], &[1]].concat(), quotas: right.quotas };
    for side in [1, 2] {
        for call in later(on, side) {
            on.call_with(side, surplus.clone(), call)?;
        }
    }
    for caller in [0, 3, 257, (1 << 32) + 2, u64::MAX] {
        every_call(on, 1, caller, &right)?;
    }
    for side in [1, 2] {
        every_call(on, side, side, &right)?;
    }
    Ok(())
}

// Calls that are refused in each way that comes behind the table.
fn later<W: Write>(on: &mut Sharing<W>, side: u64) -> Vec<Call> {
    let ([held, _, unheld], [foreign, _, unheld_foreign]) = (kinds(side), kinds(3 - side));
    // They do not decode: by 1 to 5, those of 4 and 5 with a kind of each side.
    let mut frames: Vec<Vec<u8>> = vec![vec![2], vec![2, 0xFF], vec![2, 0x23], vec![2, 0x10, 0, 0, 0, 0, 0, 0, 0x80]];
    frames.extend([vec![2, 1, 2], vec![2, 0x42, 0x20, 0], vec![2, 0x20, 0, 0], vec![2, 0x44, 0, 0, 0, 0, 0, 0, 0, 0, 65]]);
    // An action, the other side's kinds, and one of its own for which there is no room.
    frames.extend([8, foreign, unheld_foreign, if side == 1 { 11 } else { 16 }].map(|kind| good(on.history.random, kind)));
    let mut calls: Vec<Call> = frames.into_iter().map(|frame| Call::Put { frame }).collect();
    for kind in [8, KINDS + 1, (1 << 32) + held, foreign, unheld_foreign, unheld] {
        calls.extend([Call::Remove { kind }, Call::Ask { kind, output: 0 }, Call::Ask { kind, output: 12 }]);
    }
    let output = length(held);
    calls.extend([Call::Ask { kind: held, output: output - 1 }, Call::Ask { kind: held, output }, Call::Replay { output }]);
    calls
}

// What is refused with a right table, in the order of the refusals.
fn order<W: Write>(on: &mut Sharing<W>, side: u64) -> Result<()> {
    begin(on, HELD)?;
    both_hold(on)?;
    for call in later(on, side) {
        on.call(side, call)?;
    }
    replay(on, side)?;
    on.call(side, Call::Remove { kind: kinds(side)[0] })?;
    on.call(side, Call::Clear)?;
    replay(on, side)
}

// The whole book puts what takes a side past its quota, by a byte and by more: both sides are refused until it is taken back.
fn over<W: Write>(on: &mut Sharing<W>, side: u64) -> Result<()> {
    on.table.owners = by_radio(side);
    begin(on, if side == 1 { [10, 14] } else { [14, 10] })?;
    for (caller, kind) in [(side, 24), (3 - side, 18), (side, 27)] {
        on.put(caller, kind)?;
    }
    let table = on.table.clone();
    let short = good(on.history.random, 27);
    for (kind, back) in [(28, Record::Put { frame: short }), (1, Record::Remove { kind: 1 })] {
        let frame = good(on.history.random, kind);
        on.history.record(Record::Put { frame })?;
        for caller in [1, 2] {
            every_call(on, caller, caller, &table)?;
        }
        on.history.record(back)?;
        for caller in [1, 2] {
            replay(on, caller)?;
        }
    }
    Ok(())
}

// Every call on a buffer that is no book, or on a book that is damaged, or that holds both forms of a setting; with a right table and a wrong one.
fn stored<W: Write>(on: &mut Sharing<W>, size: usize) -> Result<()> {
    let first = on.history.random.byte();
    on.history.record(Record::Lend { length: size, first })?;
    on.history.record(Record::Make)?;
    let right = Table { owners: by_radio(1), quotas: [size.saturating_sub(START + 20) as u64, 9] };
    let wrong = Table { owners: vec![1; SLOTS - 1], quotas: right.quotas };
    let mut faults: Vec<Vec<u8>> = vec![vec![]];
    if size == FEW {
        let frames = [25, 4, 26].map(|kind| Frame { kind, bytes: good(on.history.random, kind) });
        faults = vec![vec![VERSION + 1], image(&frames, size)];
    }
    for bytes in faults {
        on.history.poke(0, &bytes)?;
        for side in [1, 2] {
            for table in [&right, &wrong] {
                every_call(on, side, side, table)?;
            }
            on.call_with(side, right.clone(), Call::Put { frame: vec![2] })?;
        }
    }
    Ok(())
}

// The side's kinds, among the other's, and then the last, which reaches the quota or passes it by a byte; and what a swap of forms gives after it.
fn edge<W: Write>(on: &mut Sharing<W>, side: u64, kinds: &[u64], last: u64, lacks: usize) -> Result<()> {
    on.table.owners = by_radio(side);
    let swapped = FORMS.iter().find(|forms| forms.1 == last).map(|forms| forms.0);
    let others = kinds.iter().filter(|k| Some(**k) != swapped).map(|k| length(*k)).sum::<usize>();
    let quota = (others + length(last) - lacks) as u64;
    begin(on, if side == 1 { [quota, 8] } else { [8, quota] })?;
    on.put(3 - side, 18)?;
    for kind in kinds {
        on.put(side, *kind)?;
    }
    on.put(3 - side, 21)?;
    on.put(side, last)?;
    replay(on, side)?;
    if let Some(short) = swapped {
        let unheld = if lacks == 0 { short } else { last };
        on.call(side, Call::Ask { kind: unheld, output: 12 })?;
        on.call(side, Call::Remove { kind: unheld })?;
        on.put(side, short)?;
        on.put(side, last)?;
    }
    replay(on, 3 - side)
}

// A quota of nothing, and one of the whole room.
fn nothing<W: Write>(on: &mut Sharing<W>, side: u64) -> Result<()> {
    begin(on, if side == 1 { [0, 17] } else { [13, 0] })?;
    for kind in kinds(side) {
        on.put(side, kind)?;
    }
    for kind in kinds(3 - side) {
        on.put(3 - side, kind)?;
    }
    for side in [side, 3 - side] {
        replay(on, side)?;
        on.call(side, Call::Clear)?;
    }
    Ok(())
}

// Frames of both sides by turns: each replays its own, and takes its own out alone.
fn amid<W: Write>(on: &mut Sharing<W>) -> Result<()> {
    begin(on, [13, 17])?;
    for side in [1, 2] {
        for i in 0..3 {
            on.put(1, INSTALLERS[i])?;
            on.put(2, OPERATORS[i])?;
        }
        for side in [1, 2] {
            replay(on, side)?;
        }
        on.call(side, Call::Clear)?;
        on.history.record(Record::Replay { output: 20 })?;
        for side in [1, 2] {
            replay(on, side)?;
        }
    }
    Ok(())
}

// Every setting, in the longer form where there are two: both quotas are full, and so is the book. What is held is put again.
fn full<W: Write>(on: &mut Sharing<W>) -> Result<()> {
    let side_of = |kind: u64| if (16..=21).contains(&kind) { 2 } else { 1 };
    begin(on, [MOST_BYTES as u64 - 49, 49])?;
    for kind in SETTINGS {
        on.put(side_of(kind), kind)?;
    }
    for kind in [25, 27, 20, 28, 26] {
        on.put(side_of(kind), kind)?;
    }
    for side in [1, 2] {
        replay(on, side)?;
    }
    Ok(())
}
