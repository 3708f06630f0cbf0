// Two sides that share a book. Each has a plain list of its own, which answers its calls; the joint list, which is the book's, gives the bytes.
// The rules are the request's; nothing of the source is used.
use crate::book::{counting, held, place, reel, refused, setting, slot, weight, Answer, Book, Frame, FORMS, SLOTS, START};
use crate::control;
use crate::record::{Call, Record, Table};
use std::ops::Deref;

// What makes a table wrong: too few entries or too many, an owner or a caller that is no side, a setting whose forms have two owners, quotas that
// together are more than the room, or a side with more bytes of frames than its quota.
#[derive(Clone, Copy, Debug, PartialEq, Eq, PartialOrd, Ord)]
pub enum Wrong {
    Fewer,
    More,
    Owner,
    Caller,
    // Of which setting, by its shorter form.
    Split(u64),
    Quotas,
    // Whose frames.
    Over(u64),
}

// The frames of side 1, and those of side 2.
pub type Lists = [Vec<Frame>; 2];

fn is_side(number: u64) -> bool {
    number == 1 || number == 2
}

// Whose a kind is by its slot's entry, if there is one.
pub fn owner(owners: &[u8], kind: u64) -> Option<u64> {
    owners.get(slot(kind)?).map(|o| *o as u64)
}

// A side's part of the joint list, in the order that it has there.
pub fn part<'a>(frames: &'a [Frame], owners: &'a [u8], side: u64) -> impl Iterator<Item = &'a Frame> {
    frames.iter().filter(move |f| owner(owners, f.kind) == Some(side))
}

pub fn parts(frames: &[Frame], owners: &[u8]) -> Lists {
    [1, 2].map(|side| part(frames, owners, side).cloned().collect())
}

// All that is wrong with a table beside a buffer with so much room for frames, of which the sides hold these.
pub fn wrong(table: &Table, caller: u64, room: usize, lists: &Lists) -> Vec<Wrong> {
    let owners = &table.owners;
    let split = |(short, long): &(u64, u64)| match (owner(owners, *short), owner(owners, *long)) {
        (Some(a), Some(b)) => is_side(a) && is_side(b) && a != b,
        _ => false,
    };
    let sum: u128 = table.quotas.iter().map(|q| *q as u128).sum();
    let mut all = vec![
        (owners.len() < SLOTS, Wrong::Fewer),
        (owners.len() > SLOTS, Wrong::More),
        (owners.iter().any(|o| !is_side(*o as u64)), Wrong::Owner),
        (!is_side(caller), Wrong::Caller),
        (sum > room as u128, Wrong::Quotas),
        (weight(&lists[0]) as u64 > table.quotas[0], Wrong::Over(1)),
        (weight(&lists[1]) as u64 > table.quotas[1], Wrong::Over(2)),
    ];
    all.extend(FORMS.iter().map(|forms| (split(forms), Wrong::Split(forms.0))));
    all.into_iter().filter(|(is, _)| *is).map(|(_, what)| what).collect()
}

// The book that two sides share.
pub struct Shared {
    book: Book,
    // The owners of the latest call whose table was right, and the lists of both sides by them. They are carried along by every call, and are
    // made of the joint list only where the book's bytes came from outside, or the owners are others.
    kept: Option<(Vec<u8>, Lists)>,
}

impl Deref for Shared {
    type Target = Book;

    fn deref(&self) -> &Book {
        &self.book
    }
}

impl Shared {
    pub fn new() -> Shared {
        Shared { book: Book::new(), kept: None }
    }

    // What the sides hold, by the latest right table; nothing before there was one.
    pub fn lists(&self) -> Lists {
        self.kept.as_ref().map_or([vec![], vec![]], |(_, lists)| lists.clone())
    }

    pub fn carry_out(&mut self, record: &Record) -> Answer {
        let answer = match record {
            Record::Side { caller, table, call } => {
                self.book.output = counting(165, record.output());
                self.side(*caller, table, call).unwrap_or_else(|refusal| refusal)
            }
            Record::Start | Record::Send { .. } | Record::Hear { .. } => control::carry_out(&mut self.book, record),
            _ => {
                let answer = self.book.carry_out(record);
                self.follow(record, answer);
                answer
            }
        };
        if let (Some((owners, lists)), Ok(frames)) = (&self.kept, &self.book.content) {
            let agree = |side: u64| part(frames, owners, side).eq(&lists[side as usize - 1]);
            assert!(agree(1) && agree(2), "the sides' lists are not the parts of the joint list");
        }
        answer
    }

    // What a whole-book call does to the list of the side that owns the kind. Bytes from outside leave no lists.
    fn follow(&mut self, record: &Record, answer: Answer) {
        let (owners, lists) = match &mut self.kept {
            Some((owners, lists)) if answer.refusal == 0 => (&*owners, lists),
            _ => return,
        };
        let of = |kind: u64| owner(owners, kind).expect("an owner") as usize - 1;
        match record {
            Record::Lend { .. } | Record::Poke { .. } => self.kept = None,
            Record::Make | Record::Clear => *lists = [vec![], vec![]],
            Record::Put { frame } => {
                let frame = setting(frame).unwrap_or_else(|_| panic!("a setting"));
                let side = of(frame.kind);
                place(frame, &mut lists[side])
            }
            Record::Remove { kind } => lists[of(*kind)].retain(|f| f.kind != *kind),
            _ => {}
        }
    }

    // A side's call: the book's own refusals, then 17; then the side's list answers, and what it accepts is done to the joint list too.
    fn side(&mut self, caller: u64, table: &Table, call: &Call) -> Result<Answer, Answer> {
        let mut joint = self.book.content.clone().map_err(refused)?;
        let mut lists = match &self.kept {
            Some((owners, lists)) if *owners == table.owners => lists.clone(),
            _ => parts(&joint, &table.owners),
        };
        if !wrong(table, caller, self.book.bytes.len() - START, &lists).is_empty() {
            return Err(refused(17));
        }
        // A call that is refused leaves them so.
        self.kept = Some((table.owners.clone(), lists.clone()));
        let told = called(caller, table, call, &mut lists[caller as usize - 1], &mut joint)?;
        assert!(START + weight(&joint) <= self.book.bytes.len(), "what fits both quotas does not fit the book");
        self.kept = Some((table.owners.clone(), lists));
        Ok(match told {
            Some(bytes) => self.book.write(&bytes),
            None => self.book.holds(joint),
        })
    }
}

// A call on the side's own list, which alone answers, and the same on the joint list; the bytes that an output gets, if the call has one.
fn called(caller: u64, table: &Table, call: &Call, own: &mut Vec<Frame>, joint: &mut Vec<Frame>) -> Result<Option<Vec<u8>>, Answer> {
    match call {
        Call::Put { frame } => {
            let frame = setting(frame)?;
            owned(frame.kind, caller, table)?;
            place(frame.clone(), own);
            if weight(own) as u64 > table.quotas[caller as usize - 1] {
                return Err(refused(8));
            }
            place(frame, joint);
        }
        Call::Remove { kind } => {
            own.remove(owned_and_held(*kind, caller, table, own)?);
            joint.retain(|f| f.kind != *kind);
        }
        Call::Clear => {
            own.clear();
            joint.retain(|f| owner(&table.owners, f.kind) != Some(caller));
        }
        Call::Ask { kind, .. } => return Ok(Some(own[owned_and_held(*kind, caller, table, own)?].bytes.clone())),
        Call::Replay { .. } => return Ok(Some(reel(own))),
    }
    Ok(None)
}

// 13 for a kind that is no setting, and then 18 for one of the other side, which may hold it or not.
fn owned(kind: u64, caller: u64, table: &Table) -> Result<(), Answer> {
    slot(kind).ok_or_else(|| refused(13))?;
    if owner(&table.owners, kind) == Some(caller) { Ok(()) } else { Err(refused(18)) }
}

// Where a kind's frame stands in the side's own list; 9 comes last.
fn owned_and_held(kind: u64, caller: u64, table: &Table, own: &[Frame]) -> Result<usize, Answer> {
    owned(kind, caller, table)?;
    held(kind, own).map_err(refused)
}
