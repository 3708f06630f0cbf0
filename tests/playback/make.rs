// Random traces, good and bad. They are the same on every run and machine: the seed is fixed.
use crate::book::{ACTIONS, SETTINGS};
use crate::day::REQUESTS;
use crate::frames::{damaged, good, Random};

// A trace before it is bytes: what stands between header and first record and behind the last are any bytes.
struct Parts {
    between: Vec<u8>,
    records: Vec<(u8, Vec<u8>)>,
    behind: Vec<u8>,
}

fn header(count: usize, first: usize) -> Vec<u8> {
    [(count as u16).to_be_bytes(), (first as u16).to_be_bytes()].concat()
}

impl Parts {
    // With another count than that of its records.
    fn counting(&self, count: usize) -> Vec<u8> {
        let mut bytes = header(count, 4 + self.between.len());
        bytes.extend(&self.between);
        for (direction, data) in &self.records {
            bytes.extend([*direction, data.len() as u8]);
            bytes.extend(data);
        }
        bytes.extend(&self.behind);
        bytes
    }

    fn bytes(&self) -> Vec<u8> {
        self.counting(self.records.len())
    }
}

pub struct Maker {
    random: Random,
    // The kinds of settings that are sent: few, so that they meet again, or all.
    kinds: Vec<u64>,
    // The length of the response to the latest sent record, if it is a request.
    fitting: Option<usize>,
    // Traces of which a playback is a beginning of another's.
    waiting: Vec<Vec<u8>>,
}

impl Maker {
    pub fn new(seed: u64) -> Maker {
        Maker { random: Random(seed), kinds: vec![], fitting: None, waiting: vec![] }
    }

    // ---- records

    fn sent(&mut self) -> Vec<u8> {
        let random = &mut self.random;
        self.fitting = None;
        let kind = match random.below(12) {
            0 | 1 => return damaged(random),
            2 => random.one_of(&ACTIONS),
            3..=6 => {
                let (kind, length) = random.one_of(&REQUESTS);
                self.fitting = Some(length);
                kind
            }
            _ => random.one_of(&self.kinds),
        };
        good(random, kind)
    }

    fn received(&mut self) -> Vec<u8> {
        let random = &mut self.random;
        let any = random.one_of(&REQUESTS).1;
        let length = match random.below(8) {
            0..=4 => self.fitting.unwrap_or(any),
            5 => any,
            6 => self.fitting.unwrap_or(any) + random.one_of(&[0, 2]) - 1,
            _ => random.one_of(&[0, 1, 2, 4, 6, 20, 255]),
        };
        let mut bytes = random.bytes(length);
        // Counters and levels at their ends.
        if random.percent(10) {
            bytes = vec![random.one_of(&[0, 1, 127, 128, 255]); length];
        }
        bytes
    }

    fn records(&mut self, count: usize) -> Vec<(u8, Vec<u8>)> {
        self.kinds = SETTINGS.to_vec();
        self.random.shuffle(&mut self.kinds);
        self.kinds.truncate(self.random.one_of(&[2, 4, SETTINGS.len()]));
        self.fitting = None;
        (0..count).map(|_| if self.random.percent(60) { (0, self.sent()) } else { (1, self.received()) }).collect()
    }

    // ---- traces

    fn parts(&mut self, count: usize) -> Parts {
        let records = self.records(count);
        let some = |random: &mut Random| {
            let length = if random.percent(30) { random.within(1, 9) } else { 0 };
            random.bytes(length)
        };
        Parts { between: some(&mut self.random), records, behind: some(&mut self.random) }
    }

    // A header that is not its trace's, with records announced or none.
    fn misled(&mut self, mut bytes: Vec<u8>) -> Vec<u8> {
        let random = &mut self.random;
        let length = bytes.len();
        let first = match random.below(4) {
            0 => random.below(4),
            1 => length,
            2 => random.one_of(&[length + 1, length + 2, length + 300, 65535]),
            _ => random.within(4, length),
        };
        let count = random.one_of(&[0, 0, 1, 2, 65535]);
        bytes[..4].copy_from_slice(&header(count, first));
        bytes
    }

    fn bad(&mut self) -> Vec<u8> {
        let count = self.random.below(9);
        let mut parts = self.parts(count);
        match self.random.below(8) {
            0 => self.misled(parts.bytes()),
            1 => parts.counting(self.random.below(count + 1)),
            2 => {
                let more = self.random.one_of(&[1, 2, 9, 256, 65535 - count]);
                parts.counting(count + more)
            }
            3 if count > 0 => {
                parts.records[self.random.below(count)].0 = self.random.within(2, 255) as u8;
                parts.bytes()
            }
            4 => {
                let n = self.random.below(4);
                self.random.bytes(n)
            }
            5 => {
                let n = self.random.within(4, 60);
                let bytes = self.random.bytes(n);
                self.misled(bytes)
            }
            6 => {
                let mut bytes = parts.bytes();
                let at = self.random.below(bytes.len());
                bytes[at] = self.random.byte();
                bytes
            }
            _ => {
                let mut bytes = parts.bytes();
                bytes.truncate(self.random.below(bytes.len()));
                bytes
            }
        }
    }

    // A trace, and all that begin as it does: with smaller counts, cut behind each record, and cut within each.
    fn prefixes(&mut self) -> Vec<Vec<u8>> {
        let count = self.random.within(2, 8);
        let parts = self.parts(count);
        let whole = parts.bytes();
        let mut all: Vec<Vec<u8>> = (0..count).map(|n| parts.counting(n)).collect();
        let mut at = 4 + parts.between.len();
        for (_, data) in &parts.records {
            all.push(whole[..at].to_vec());
            all.push(whole[..at + self.random.within(1, 1 + data.len())].to_vec());
            at += 2 + data.len();
        }
        all.push(whole);
        all
    }

    pub fn trace(&mut self) -> Vec<u8> {
        if let Some(trace) = self.waiting.pop() {
            return trace;
        }
        match self.random.below(100) {
            0 | 1 => {
                self.waiting = self.prefixes();
                self.trace()
            }
            2..=34 => self.bad(),
            35 => self.filled(),
            _ => {
                let count = self.random.below(13);
                self.long(count)
            }
        }
    }

    // Each setting once, in any order, among a few other records.
    fn filled(&mut self) -> Vec<u8> {
        let mut parts = self.parts(6);
        for kind in SETTINGS {
            let at = self.random.below(parts.records.len() + 1);
            parts.records.insert(at, (0, good(&mut self.random, kind)));
        }
        parts.bytes()
    }

    // A good trace of so many records.
    pub fn long(&mut self, count: usize) -> Vec<u8> {
        self.parts(count).bytes()
    }

    // As many records as there can be, each as long as it can be, the first as late as it can be: 16,908,030 bytes.
    pub fn longest(&mut self) -> Vec<u8> {
        let mut bytes = header(65535, 65535);
        bytes.extend(self.random.bytes(65535 - 4));
        for i in 0..65535 {
            bytes.extend([(i % 3 == 2) as u8, 255]);
            bytes.extend([2, 0x29 + (i % 2) as u8]);
            bytes.resize(bytes.len() + 253, i as u8);
        }
        bytes
    }
}
