// Owner tables: right ones, and numbers that make a table wrong.
use crate::book::{length, other_form, slot, FORMS, SETTINGS, SLOTS};
use crate::frames::Random;
use crate::record::Table;
use crate::sides::owner;

// Owners for every slot; the two forms of a setting have one, and a slot that no setting has is side 1's.
pub fn owners(of: impl FnMut(u64) -> u8) -> Vec<u8> {
    let mut owners: Vec<u8> = SETTINGS.iter().copied().map(of).collect();
    owners.resize(SLOTS, 1);
    for (short, long) in FORMS {
        owners[place_of(long)] = owners[place_of(short)];
    }
    owners
}

// One side, an installer, has the settings of LoRa and the common ones; the other, an operator, has those of FSK.
pub fn by_radio(installer: u64) -> Vec<u8> {
    owners(|kind| if (16..=21).contains(&kind) { 3 - installer as u8 } else { installer as u8 })
}

pub fn place_of(kind: u64) -> usize {
    slot(kind).expect("a setting")
}

// A side's settings.
pub fn kinds_of(owners: &[u8], side: u64) -> Vec<u64> {
    SETTINGS.iter().copied().filter(|k| owner(owners, *k) == Some(side)).collect()
}

// Part of the room for a side: none, all, what some of its frames take exactly or but for a byte, or anything.
fn quota(random: &mut Random, owners: &[u8], side: u64, room: usize) -> usize {
    let mut kinds = kinds_of(owners, side);
    random.shuffle(&mut kinds);
    kinds.truncate(random.within(1, 6));
    let some: usize = kinds.iter().filter(|k| other_form(**k).map_or(true, |o| !kinds.contains(&o) || o < **k)).map(|k| length(*k)).sum();
    let quota = match random.below(10) {
        0 => 0,
        1 => room,
        2..=5 => some,
        6 => some.saturating_sub(1),
        _ => random.within(0, room),
    };
    quota.min(room)
}

// A right table for a buffer with so much room. The quotas sum to the room more often than not.
pub fn right_table(random: &mut Random, room: usize) -> Table {
    let owners = match random.below(12) {
        0 => owners(|_| 1),
        1 => owners(|_| 2),
        2 | 3 => by_radio(1),
        _ => {
            let most = random.one_of(&[20, 50, 50, 80]);
            owners(|_| 1 + random.percent(most) as u8)
        }
    };
    let first = random.one_of(&[1, 2]);
    let one = quota(random, &owners, first, room);
    let other = if random.percent(60) { room - one } else { quota(random, &owners, 3 - first, room - one) };
    let quotas = if first == 1 { [one as u64, other as u64] } else { [other as u64, one as u64] };
    Table { owners, quotas }
}

// Quotas whose sum is above the room: by one, by much, or past 2^64, where what is left of it may look like a good sum.
pub fn wrong_quotas(random: &mut Random, room: u64) -> [u64; 2] {
    let part = random.below(room as usize + 1) as u64;
    let any = random.next();
    let [a, b] = match random.below(8) {
        0 | 1 => [part, room - part + 1],
        2 => [room + 1, 0],
        3 => [part, u64::MAX - random.below(3) as u64],
        4 => [any, room.wrapping_sub(any)],
        5 => [u64::MAX, part + 1],
        6 => [1 << 63, 1 << 63],
        _ => [u64::MAX, u64::MAX],
    };
    let [a, b] = if (a as u128 + b as u128) > room as u128 { [a, b] } else { [a, u64::MAX] };
    if random.percent(50) { [a, b] } else { [b, a] }
}

// Numbers that name no side; some have a low byte or word that does.
pub fn wrong_caller(random: &mut Random) -> u64 {
    random.one_of(&[0, 0, 3, 3, 255, 256, 257, 258, (1 << 32) + 1, (1 << 32) + 2, (1 << 63) + 1, u64::MAX, u64::MAX - 1])
}
