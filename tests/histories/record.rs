// The records of a history, in words and in bytes. tests/README.md has their form.
pub const HEAD: usize = 12;
// The longest output that is lent, and that of a controller's calls, with bytes to spare.
pub const LENT: usize = 512;
pub const CONTROL_LENT: usize = 16;

// What comes with a side's call: the owner of each slot, and how many bytes of frames each side may hold.
#[derive(Clone, PartialEq)]
pub struct Table {
    pub owners: Vec<u8>,
    pub quotas: [u64; 2],
}

// What a side calls for.
#[derive(Clone)]
pub enum Call {
    Put { frame: Vec<u8> },
    Remove { kind: u64 },
    Ask { kind: u64, output: usize },
    Clear,
    Replay { output: usize },
}

// Where a controller stands: so many frames are sent, all is done, or a frame, counted from 1, was judged bad.
#[derive(Clone, Copy, Debug, PartialEq)]
pub enum State {
    Running(u64),
    Done,
    Stopped(u64),
}

impl State {
    pub fn of(outcome: u8, count: u64) -> State {
        match outcome {
            0 => State::Running(count),
            1 => State::Done,
            2 => State::Stopped(count),
            _ => panic!("{} is no outcome", outcome),
        }
    }

    // The outcome, and the count.
    pub fn numbers(self) -> (u8, u64) {
        match self {
            State::Running(sent) => (0, sent),
            State::Done => (1, 0),
            State::Stopped(position) => (2, position),
        }
    }
}

#[derive(Clone)]
pub enum Record {
    Lend { length: usize, first: u8 },
    Poke { at: usize, data: Vec<u8> },
    Make,
    Put { frame: Vec<u8> },
    Remove { kind: u64 },
    Ask { kind: u64, output: usize },
    Clear,
    Replay { output: usize },
    Side { caller: u64, table: Table, call: Call },
    Start,
    Send { state: State },
    Hear { state: State, status: Vec<u8> },
}

use Record::*;

fn number(bytes: &[u8]) -> u64 {
    bytes.iter().fold(0, |n, b| n << 8 | *b as u64)
}

// The data of a side's call: both quotas, the number of owners, the owners, and what the call is for.
fn data(table: &Table, what: &[u8]) -> Vec<u8> {
    let [one, two] = table.quotas.map(u64::to_be_bytes);
    [&one[..], &two, &[table.owners.len() as u8], &table.owners, what].concat()
}

// The table, and what the call is for.
fn parted(data: &[u8]) -> (Table, &[u8]) {
    let end = 17 + data[16] as usize;
    (Table { owners: data[17..end].to_vec(), quotas: [number(&data[..8]), number(&data[8..16])] }, &data[end..])
}

impl Record {
    pub fn bytes(&self) -> Vec<u8> {
        let (operation, size, kind, data): (u8, usize, u64, Vec<u8>) = match self {
            Lend { length, first } => (1, *length, *first as u64, vec![]),
            Poke { at, data } => (2, *at, 0, data.clone()),
            Make => (3, 0, 0, vec![]),
            Put { frame } => (4, 0, 0, frame.clone()),
            Remove { kind } => (5, 0, *kind, vec![]),
            Ask { kind, output } => (6, *output, *kind, vec![]),
            Clear => (7, 0, 0, vec![]),
            Replay { output } => (8, *output, 0, vec![]),
            Side { caller, table, call } => match call {
                Call::Put { frame } => (9, 0, *caller, data(table, frame)),
                Call::Remove { kind } => (10, 0, *caller, data(table, &kind.to_be_bytes())),
                Call::Ask { kind, output } => (11, *output, *caller, data(table, &kind.to_be_bytes())),
                Call::Clear => (12, 0, *caller, data(table, &[])),
                Call::Replay { output } => (13, *output, *caller, data(table, &[])),
            },
            Start => (14, CONTROL_LENT, 0, vec![]),
            Send { state } => (15, CONTROL_LENT, state.numbers().1, vec![state.numbers().0]),
            Hear { state, status } => (16, CONTROL_LENT, state.numbers().1, [&[state.numbers().0], &status[..]].concat()),
        };
        let mut bytes = vec![operation, data.len() as u8];
        bytes.extend((size as u16).to_be_bytes());
        bytes.extend(kind.to_be_bytes());
        bytes.extend(data);
        bytes
    }

    pub fn of(bytes: &[u8]) -> Record {
        let size = u16::from_be_bytes([bytes[2], bytes[3]]) as usize;
        let kind = number(&bytes[4..HEAD]);
        let data = bytes[HEAD..].to_vec();
        match bytes[0] {
            1 => Lend { length: size, first: kind as u8 },
            2 => Poke { at: size, data },
            3 => Make,
            4 => Put { frame: data },
            5 => Remove { kind },
            6 => Ask { kind, output: size },
            7 => Clear,
            8 => Replay { output: size },
            9..=13 => {
                let (table, what) = parted(&data);
                let call = match bytes[0] {
                    9 => Call::Put { frame: what.to_vec() },
                    10 => Call::Remove { kind: number(what) },
                    11 => Call::Ask { kind: number(what), output: size },
                    12 => Call::Clear,
                    _ => Call::Replay { output: size },
                };
                Side { caller: kind, table, call }
            }
            14 => Start,
            15 => Send { state: State::of(data[0], kind) },
            16 => Hear { state: State::of(data[0], kind), status: data[1..].to_vec() },
            operation => panic!("{} is no operation", operation),
        }
    }

    // How many bytes of output the call gets.
    pub fn output(&self) -> usize {
        match self {
            Ask { output, .. } | Replay { output } => (*output).min(LENT),
            Side { call: Call::Ask { output, .. } | Call::Replay { output }, .. } => (*output).min(LENT),
            Start | Send { .. } | Hear { .. } => CONTROL_LENT,
            _ => 0,
        }
    }

    pub fn words(&self) -> String {
        match self {
            Lend { length, first } => format!("lend a buffer of {} bytes that count up from {}", length, first),
            Poke { at, data } => format!("replace the bytes from {} on by {}", at, hex(data)),
            Make => "make".into(),
            Put { frame } => format!("put [{}]", hex(frame)),
            Remove { kind } => format!("remove kind {}", kind),
            Ask { kind, output } => format!("ask for kind {} with an output of {}", kind, output),
            Clear => "clear".into(),
            Replay { output } => format!("replay with an output of {}", output),
            Start => "start".into(),
            Send { state } => format!("send in the state {:?}", state),
            Hear { state, status } => format!("hear [{}] in the state {:?}", hex(status), state),
            Side { caller, table, call } => {
                let call = match call {
                    Call::Put { frame } => format!("puts [{}]", hex(frame)),
                    Call::Remove { kind } => format!("removes kind {}", kind),
                    Call::Ask { kind, output } => format!("asks for kind {} with an output of {}", kind, output),
                    Call::Clear => "clears".into(),
                    Call::Replay { output } => format!("replays with an output of {}", output),
                };
                format!("side {} {}; {} owners [{}], quotas {:?}", caller, call, table.owners.len(), hex(&table.owners), table.quotas)
            }
        }
    }
}

pub fn hex(bytes: &[u8]) -> String {
    bytes.iter().map(|b| format!("{:02x}", b)).collect::<Vec<_>>().join(" ")
}
