// What the sides' histories came to: every answer of every call of each side, every reason for 17 by itself, every two refusals that one call
// could get, and every edge of a quota has to be met.
use crate::book::{length, other_form, place, reel, slot, weight, Frame, FORMS, SLOTS, START};
use crate::compare::{Step, Watch};
use crate::model::{commands, decode, Decoded};
use crate::record::{Call, Record, Table};
use crate::seen::{Place, PLACES};
use crate::sides::{owner, parts, wrong, Lists, Wrong};
use std::collections::BTreeMap;

#[derive(Clone, Copy, Debug, PartialEq, Eq, PartialOrd, Ord)]
enum Name {
    Put,
    Remove,
    Ask,
    Clear,
    Replay,
}

// The calls, and the refusals that each can give.
const CALLS: [(Name, &[u8]); 5] = [
    (Name::Put, &[11, 10, 16, 17, 1, 2, 3, 4, 5, 13, 18, 8]),
    (Name::Remove, &[11, 10, 16, 17, 13, 18, 9]),
    (Name::Ask, &[11, 10, 16, 17, 13, 18, 9, 12]),
    (Name::Clear, &[11, 10, 16, 17]),
    (Name::Replay, &[11, 10, 16, 17, 12]),
];

// Of two refusals that one call could get, the first is given.
const ORDER: [(Name, &[(u8, u8)]); 5] = [
    (Name::Put, &[(17, 1), (17, 2), (17, 3), (17, 4), (17, 5), (17, 13), (17, 18), (17, 8), (4, 13), (4, 18), (5, 18), (4, 8), (5, 8), (18, 8)]),
    (Name::Remove, &[(17, 13), (17, 18), (17, 9), (18, 9)]),
    (Name::Ask, &[(17, 13), (17, 18), (17, 9), (17, 12), (13, 12), (18, 9), (18, 12), (9, 12)]),
    (Name::Clear, &[]),
    (Name::Replay, &[(17, 12)]),
];

// Each way in which a table is wrong: of the pairs of forms, each split.
fn reasons() -> Vec<Wrong> {
    let mut all = vec![Wrong::Fewer, Wrong::More, Wrong::Owner, Wrong::Caller, Wrong::Quotas, Wrong::Over(1), Wrong::Over(2)];
    all.extend(FORMS.iter().map(|forms| Wrong::Split(forms.0)));
    all
}

// How the frames of a side come to fill its quota.
#[derive(Clone, Copy, Debug, PartialEq, Eq, PartialOrd, Ord)]
enum Edge {
    Behind,
    Over,
    // By this form in place of the other.
    Swap(u64, Place),
}

// Something that has to be met.
#[derive(Clone, Copy, Debug, PartialEq, Eq, PartialOrd, Ord)]
enum Met {
    Answer(Name, u64, u8),
    // Refused by 17 for one reason; by a caller who is a side, for all but the caller.
    Alone(Name, u64, Wrong),
    // The refusal that was given, and one that would have come after it.
    Before(Name, u8, u8),
    // The numbers that were wrong: of entries, of an owner, of a caller whose low byte may be a side's.
    Entries(usize),
    Owner(u8),
    Caller(u64),
    Huge,
    // Quotas: that sum to the room, by one above it, past 2^64 with a good sum in what is left, and 0 beside the room.
    SumIsRoom,
    SumIsAbove,
    SumIsPast,
    NothingAndAll(u64),
    // Frames above a quota by one byte; a whole-book put that took a side past its quota, and a call that brought it back.
    OverByOne(u64),
    Overrun(u64),
    Back(u64),
    // A kind of the other side, which holds it or does not.
    Foreign(Name, u64, bool),
    // The form that is not held while the other is.
    OtherForm(Name, u64),
    // A put that reaches the quota exactly, or passes it by one byte and is refused.
    Reaches(u64, Edge),
    Passes(u64, Edge),
    Swaps(bool, Edge),
    // No room in the quota while the buffer has some; both quotas full, and the book to its last byte.
    RoomElsewhere(u64),
    BothFull,
    // An answer that fills its output, and one for which it is one byte too short.
    Exact(Name),
    OneShort(Name),
    // Calls while the other side's frames stand among the side's own.
    Amid(Name, u64),
    // The side holds nothing while the other holds something.
    Empty(u64),
}

#[derive(Default)]
pub struct SeenSides {
    histories: u64,
    answers: BTreeMap<u8, u64>,
    whole: u64,
    met: BTreeMap<Met, u64>,
    // The latest right table of this history, and whether each side is past its quota by it.
    table: Option<Table>,
    past: [bool; 2],
}

fn name(call: &Call) -> Name {
    match call {
        Call::Put { .. } => Name::Put,
        Call::Remove { .. } => Name::Remove,
        Call::Ask { .. } => Name::Ask,
        Call::Clear => Name::Clear,
        Call::Replay { .. } => Name::Replay,
    }
}

// The kind that a call is for: of a frame that does not decode, the one that opcode and length say.
fn kind_of(call: &Call) -> Option<u64> {
    match call {
        Call::Put { frame } => commands().iter().find(|c| frame.len() == c.length && frame.starts_with(&c.opcode)).map(|c| c.kind),
        Call::Remove { kind } | Call::Ask { kind, .. } => Some(*kind),
        _ => None,
    }
}

// How many bytes a side's frames have after a put of a kind.
fn after(kind: u64, own: &[Frame]) -> usize {
    let mut own = own.to_vec();
    place(Frame { kind, bytes: vec![0; length(kind)] }, &mut own);
    weight(&own)
}

// A call of a side on a sound book.
struct Called<'a> {
    caller: u64,
    table: &'a Table,
    call: &'a Call,
    room: usize,
    frames: &'a [Frame],
    lists: Lists,
    wrong: Vec<Wrong>,
}

impl Called<'_> {
    // The caller's list, if the caller is a side.
    fn own(&self) -> &[Frame] {
        if self.caller == 1 || self.caller == 2 { &self.lists[self.caller as usize - 1] } else { &[] }
    }

    fn quota(&self) -> u64 {
        if self.caller == 2 { self.table.quotas[1] } else { self.table.quotas[0] }
    }

    fn is_foreign(&self, kind: u64) -> bool {
        slot(kind).is_some() && owner(&self.table.owners, kind) != Some(self.caller)
    }

    fn is_held(&self, kind: u64) -> bool {
        self.frames.iter().any(|f| f.kind == kind)
    }

    // How many bytes the call writes, if it is done.
    fn need(&self) -> usize {
        match self.call {
            Call::Ask { kind, .. } => commands().iter().find(|c| c.kind == *kind).map_or(0, |c| c.length),
            Call::Replay { .. } => reel(self.own()).len(),
            _ => 0,
        }
    }

    // Every refusal that the call could get, in any order.
    fn refusals(&self) -> Vec<u8> {
        let kind = kind_of(self.call);
        let is_named = matches!(self.call, Call::Remove { .. } | Call::Ask { .. });
        let no_room = |k: u64| matches!(self.call, Call::Put { .. }) && slot(k).is_some() && after(k, self.own()) as u64 > self.quota();
        let short = match self.call {
            Call::Ask { output, .. } | Call::Replay { output } => *output < self.need(),
            _ => false,
        };
        let mut all = vec![
            (!self.wrong.is_empty(), 17),
            (kind.map_or(false, |k| slot(k).is_none()), 13),
            (kind.map_or(false, |k| self.is_foreign(k)), 18),
            (is_named && kind.map_or(false, |k| slot(k).is_some() && !self.is_held(k)), 9),
            (kind.map_or(false, no_room), 8),
            (short, 12),
        ];
        if let Call::Put { frame } = self.call {
            if let Decoded::Refused(refusal, _) = decode(frame) {
                all.push((true, refusal));
            }
        }
        all.into_iter().filter(|(is, _)| *is).map(|(_, refusal)| refusal).collect()
    }

    // How a put of a kind goes into the side's list.
    fn edge(&self, kind: u64) -> Edge {
        let own = self.own();
        if own.iter().any(|f| f.kind == kind) {
            return Edge::Over;
        }
        match own.iter().position(|f| Some(f.kind) == other_form(kind)) {
            None => Edge::Behind,
            Some(at) => Edge::Swap(kind, Place::of(at, own.len())),
        }
    }

    // Whether frames of the other side stand between two of the side's own.
    fn is_amid(&self) -> bool {
        let own: Vec<bool> = self.frames.iter().map(|f| owner(&self.table.owners, f.kind) == Some(self.caller)).collect();
        let (first, last) = (own.iter().position(|is| *is), own.iter().rposition(|is| *is));
        first.zip(last).map_or(false, |(first, last)| own[first..last].contains(&false))
    }
}

impl SeenSides {
    fn meet(&mut self, met: Met) {
        *self.met.entry(met).or_default() += 1;
    }

    // A call on a sound book that was refused by 17.
    fn refused_by_table(&mut self, called: &Called) {
        let (table, caller) = (called.table, called.caller);
        let reason = match called.wrong[..] {
            [reason] => reason,
            _ => return,
        };
        self.meet(Met::Alone(name(called.call), if reason == Wrong::Caller { 0 } else { caller }, reason));
        let sum = table.quotas[0].checked_add(table.quotas[1]);
        let left = table.quotas[0].wrapping_add(table.quotas[1]);
        match reason {
            Wrong::Fewer | Wrong::More => self.meet(Met::Entries(table.owners.len())),
            Wrong::Owner => table.owners.iter().filter(|o| **o != 1 && **o != 2).for_each(|o| self.meet(Met::Owner(*o))),
            Wrong::Caller if caller > 255 && (1..=2).contains(&(caller % 256)) => self.meet(Met::Huge),
            Wrong::Caller => self.meet(Met::Caller(caller)),
            Wrong::Quotas if sum == Some(called.room as u64 + 1) => self.meet(Met::SumIsAbove),
            Wrong::Quotas if sum.is_none() && left <= called.room as u64 => self.meet(Met::SumIsPast),
            Wrong::Over(side) => {
                let i = side as usize - 1;
                if weight(&called.lists[i]) as u64 == table.quotas[i] + 1 {
                    self.meet(Met::OverByOne(side));
                }
            }
            _ => {}
        }
    }

    // A call on a sound book with a right table.
    fn judged(&mut self, called: &Called, refusal: u8) {
        let (caller, this) = (called.caller, name(called.call));
        if called.table.quotas.iter().sum::<u64>() == called.room as u64 && refusal == 0 {
            self.meet(Met::SumIsRoom);
            if called.quota() == called.room as u64 && this == Name::Put {
                self.meet(Met::NothingAndAll(caller));
            }
        }
        if let (Some(kind), 18) = (kind_of(called.call), refusal) {
            self.meet(Met::Foreign(this, caller, called.is_held(kind)));
        }
        if let (Some(kind), 9) = (kind_of(called.call), refusal) {
            if other_form(kind).map_or(false, |other| called.is_held(other)) {
                self.meet(Met::OtherForm(this, kind));
            }
        }
        match called.call {
            Call::Put { .. } => self.put(called, refusal),
            Call::Ask { output, .. } | Call::Replay { output } if called.need() > 0 => match (refusal, called.need() as i64 - *output as i64) {
                (0, 0) => self.meet(Met::Exact(this)),
                (12, 1) => self.meet(Met::OneShort(this)),
                _ => {}
            },
            _ => {}
        }
        if refusal == 0 && called.is_amid() {
            self.meet(Met::Amid(this, caller));
        }
        if refusal == 0 && this == Name::Replay && called.own().is_empty() && !called.frames.is_empty() {
            self.meet(Met::Empty(caller));
        }
    }

    fn put(&mut self, called: &Called, refusal: u8) {
        let kind = match kind_of(called.call) {
            Some(kind) if refusal == 0 || refusal == 8 => kind,
            _ => return,
        };
        let (edge, bytes, quota) = (called.edge(kind), after(kind, called.own()), called.quota());
        let is_swap = matches!(edge, Edge::Swap(..));
        if refusal == 0 && bytes as u64 == quota {
            self.meet(if is_swap { Met::Swaps(true, edge) } else { Met::Reaches(called.caller, edge) });
            let others = weight(&called.lists[2 - called.caller as usize]);
            if bytes + others == called.room {
                self.meet(Met::BothFull);
            }
        }
        if refusal == 8 {
            if bytes as u64 == quota + 1 {
                self.meet(if is_swap { Met::Swaps(false, edge) } else { Met::Passes(called.caller, edge) });
            }
            if after(kind, called.frames) <= called.room {
                self.meet(Met::RoomElsewhere(called.caller));
            }
        }
    }

    // Whether a side is past its quota, by the latest right table: what a whole-book call did to that.
    fn watch_quotas(&mut self, record: &Record, frames: &[Frame]) {
        let table = match &self.table {
            Some(table) => table,
            None => return,
        };
        let lists = parts(frames, &table.owners);
        let past = [0, 1].map(|i| weight(&lists[i]) as u64 > table.quotas[i]);
        for side in [1, 2] {
            let i = side as usize - 1;
            match record {
                Record::Put { .. } if past[i] && !self.past[i] => self.meet(Met::Overrun(side)),
                Record::Remove { .. } if !past[i] && self.past[i] => self.meet(Met::Back(side)),
                _ => {}
            }
        }
        self.past = past;
    }

    fn side(&mut self, step: &Step, caller: u64, table: &Table, call: &Call) {
        let refusal = step.answer.refusal;
        *self.answers.entry(refusal).or_default() += 1;
        if caller == 1 || caller == 2 {
            self.meet(Met::Answer(name(call), caller, refusal));
        }
        let frames = step.before.as_deref().unwrap_or(&[]);
        let (lists, room) = (parts(frames, &table.owners), step.book.bytes.len().saturating_sub(START));
        let called = Called { caller, table, call, room, frames, wrong: wrong(table, caller, room, &lists), lists };
        for later in called.refusals().into_iter().filter(|r| *r != refusal && refusal != 0) {
            self.meet(Met::Before(name(call), refusal, later));
        }
        if step.before.is_ok() {
            if refusal == 17 {
                return self.refused_by_table(&called);
            }
            self.judged(&called, refusal);
            self.table = Some(table.clone());
        }
    }
}

fn owed() -> Vec<Met> {
    let mut all = vec![Met::SumIsRoom, Met::SumIsAbove, Met::SumIsPast, Met::Huge, Met::BothFull];
    all.extend([0, SLOTS - 1, SLOTS + 1].map(Met::Entries));
    all.extend([0, 3, 255].map(Met::Owner));
    all.extend([0, 3, u64::MAX].map(Met::Caller));
    for ((call, refusals), (_, order)) in CALLS.into_iter().zip(ORDER) {
        all.extend([11, 10, 16].map(|refusal| Met::Before(call, refusal, 17)));
        all.extend(order.iter().map(|(first, second)| Met::Before(call, *first, *second)));
        for side in [1, 2] {
            all.extend(std::iter::once(&0).chain(refusals).map(|refusal| Met::Answer(call, side, *refusal)));
            all.extend(reasons().into_iter().map(|reason| Met::Alone(call, if reason == Wrong::Caller { 0 } else { side }, reason)));
        }
    }
    for side in [1, 2] {
        for call in [Name::Put, Name::Remove, Name::Ask] {
            all.extend([true, false].map(|held| Met::Foreign(call, side, held)));
        }
        all.extend([Name::Clear, Name::Replay].map(|call| Met::Amid(call, side)));
        all.extend([Met::NothingAndAll(side), Met::OverByOne(side), Met::Overrun(side), Met::Back(side)]);
        all.extend([Met::Reaches(side, Edge::Behind), Met::Reaches(side, Edge::Over), Met::Passes(side, Edge::Behind)]);
        all.extend([Met::RoomElsewhere(side), Met::Empty(side)]);
    }
    for (short, long) in FORMS {
        for place in PLACES {
            all.extend([true, false].map(|fits| Met::Swaps(fits, Edge::Swap(long, place))));
        }
        for kind in [short, long] {
            all.extend([Name::Remove, Name::Ask].map(|call| Met::OtherForm(call, kind)));
        }
    }
    all.extend([Name::Ask, Name::Replay].into_iter().flat_map(|call| [Met::Exact(call), Met::OneShort(call)]));
    all
}

impl Watch for SeenSides {
    fn add(&mut self, step: &Step) -> Option<String> {
        match step.record {
            Record::Lend { .. } => {
                self.histories += 1;
                self.table = None;
                self.past = [false; 2];
            }
            Record::Poke { .. } | Record::Start | Record::Send { .. } | Record::Hear { .. } => {}
            Record::Side { caller, table, call } => self.side(step, *caller, table, call),
            _ => self.whole += 1,
        }
        if let Ok(frames) = &step.book.content {
            self.watch_quotas(step.record, frames);
        }
        None
    }

    fn words(&self) -> String {
        let sum = |which: &dyn Fn(&Met) -> bool| self.met.iter().filter(|(met, _)| which(met)).map(|(_, n)| n).sum::<u64>();
        let refusals: Vec<String> = self.answers.iter().filter(|(r, _)| **r > 0).map(|(r, n)| format!("{}: {}", r, n)).collect();
        let calls: u64 = self.answers.values().sum();
        let done = self.answers.get(&0).copied().unwrap_or(0);
        let lines = [
            format!("{} histories, {} calls of the sides, {} done; refusals {}", self.histories, calls, done, refusals.join(", ")),
            format!(
                "{} calls refused by 17 for one reason alone; {} whole-book calls, {} puts past a quota, {} removals that brought it back",
                sum(&|met| matches!(met, Met::Alone(..))),
                self.whole,
                sum(&|met| matches!(met, Met::Overrun(_))),
                sum(&|met| matches!(met, Met::Back(_)))
            ),
            format!(
                "{} puts that reached a quota exactly, {} that lacked one byte; 18 for a kind that is held {}, that is not {}",
                sum(&|met| matches!(met, Met::Reaches(..) | Met::Swaps(true, _))),
                sum(&|met| matches!(met, Met::Passes(..) | Met::Swaps(false, _))),
                sum(&|met| matches!(met, Met::Foreign(_, _, true))),
                sum(&|met| matches!(met, Met::Foreign(_, _, false)))
            ),
        ];
        lines.join("\n")
    }

    fn missing(&self) -> Vec<String> {
        owed().into_iter().filter(|met| !self.met.contains_key(met)).map(|met| format!("{:?}", met)).collect()
    }
}
