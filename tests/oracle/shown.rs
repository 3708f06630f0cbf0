// The first request whose two answers differ, in a form to read.
use crate::answers::arguments_of;
use crate::builders::{arguments, LAST};
use crate::{ANSWER, HEAD, PAYLOAD, REQUEST};
use std::io::Result;

const OPERATIONS: [&str; 21] = [
    "Status",
    "Intr",
    "LoraRxStatsRsp",
    "LoraPacketStatusRsp",
    "FskRxStatsRsp",
    "FskPacketStatusRsp",
    "RssiInstRsp",
    "TimestampValueRsp",
    "CcaResultRsp",
    "LoraBw",
    "LoraCr",
    "Sf",
    "text of a level",
    "text of an SNR",
    "difference of a counter",
    "name of an RxBw",
    "decoder",
    "checked builder",
    "widths of banks checked",
    "widths of banks found",
    "locker profile",
];

pub fn differ(requests: &str, answers: &str, others: &str) -> Result<()> {
    let (name, other_name) = (answers, others);
    let requests = std::fs::read(requests)?;
    let answers = std::fs::read(answers)?;
    let others = std::fs::read(others)?;
    for (i, request) in requests.chunks_exact(REQUEST).enumerate() {
        let ours = &answers[ANSWER * i..ANSWER * (i + 1)];
        let theirs = &others[(ANSWER * i).min(others.len())..(ANSWER * (i + 1)).min(others.len())];
        if ours != theirs {
            println!("request {} (counted from 0): {}", i, shown(request));
            println!("  {}: {}", name, hex(ours));
            println!("  {}: {}", other_name, hex(theirs));
            return Ok(());
        }
    }
    println!("{}: {} bytes; {}: {} bytes; no request differs", name, answers.len(), other_name, others.len());
    Ok(())
}

fn shown(request: &[u8]) -> String {
    let mut payload = [0; PAYLOAD];
    payload.copy_from_slice(&request[HEAD..]);
    match request[0] {
        kind @ 1..=LAST => {
            let count = arguments(kind).len();
            format!("builder of kind {}, arguments {:?}", kind, &arguments_of(&payload)[..count])
        }
        op @ 64..=84 => {
            let name = OPERATIONS[op as usize - 64];
            format!("operation {}, {}, slice of {}, payload {}", op, name, request[1], hex(&payload))
        }
        op => format!("operation {}", op),
    }
}

fn hex(bytes: &[u8]) -> String {
    bytes.iter().map(|b| format!("{:02x}", b)).collect::<Vec<_>>().join(" ")
}
