// A recorded day in the Rust that one would write by hand from the reference: a pass over the records, each put into the book of bench/book.rs or
// read by the driver's own responses. bench/run compares the port's playback with it.
use crate::book;
use crate::cmd::{cmd_fsk, cmd_lora};
use crate::decoder::decode;

#[derive(Default)]
pub struct Day {
    pub refusal: u8,
    pub place: usize,
    pub records: u64,
    pub accepted: u64,
    pub refused: [u64; 9],
    pub skipped: u64,
    pub lora_rx_stats: Option<cmd_lora::LoraRxStatsRsp>,
    pub lora_packet_status: Option<cmd_lora::LoraPacketStatusRsp>,
    pub fsk_rx_stats: Option<cmd_fsk::FskRxStatsRsp>,
    pub fsk_packet_status: Option<cmd_fsk::FskPacketStatusRsp>,
    latest: u8,
}

// The response, if the bytes have its length.
macro_rules! response {
    ($rsp:path, $bytes:expr) => {{
        let mut rsp = <$rsp>::new();
        let room = rsp.as_mut();
        if room.len() == $bytes.len() {
            room.copy_from_slice($bytes);
            Some(rsp)
        } else {
            None
        }
    }};
}

impl Day {
    fn fault(mut self, place: usize) -> Day {
        self.refusal = 15;
        self.place = place;
        self
    }

    fn send(&mut self, book: &mut [u8], frame: &[u8]) {
        let decoded = decode(frame);
        self.latest = decoded.kind;
        if decoded.refusal == 0 && book::slot_of(decoded.kind as u64).is_err() {
            return;
        }
        match book::put(book, frame) {
            Ok(_) => self.accepted += 1,
            Err((number, _)) => self.refused[number as usize] += 1,
        }
    }

    fn receive(&mut self, bytes: &[u8]) {
        let read = match self.latest {
            9 => response!(cmd_lora::LoraRxStatsRsp, bytes).map(|r| self.lora_rx_stats = Some(r)),
            10 => response!(cmd_lora::LoraPacketStatusRsp, bytes).map(|r| self.lora_packet_status = Some(r)),
            22 => response!(cmd_fsk::FskRxStatsRsp, bytes).map(|r| self.fsk_rx_stats = Some(r)),
            23 => response!(cmd_fsk::FskPacketStatusRsp, bytes).map(|r| self.fsk_packet_status = Some(r)),
            _ => None,
        };
        if read.is_none() {
            self.skipped += 1;
        }
    }
}

fn word(trace: &[u8], at: usize) -> usize {
    u16::from_be_bytes([trace[at], trace[at + 1]]) as usize
}

// The bytes of the record at an offset, if it fits.
fn bytes_at(trace: &[u8], at: usize) -> Option<&[u8]> {
    let length = *trace.get(at + 1)? as usize;
    trace.get(at + 2..at + 2 + length)
}

pub fn play(trace: &[u8], book: &mut [u8]) -> Day {
    let mut day = Day::default();
    if let Err((number, _)) = book::make(book) {
        day.refusal = number;
        return day;
    }
    if trace.len() < 4 || word(trace, 2) < 4 {
        return day.fault(0);
    }
    let mut at = word(trace, 2);
    for _ in 0..word(trace, 0) {
        match (trace.get(at), bytes_at(trace, at)) {
            (Some(0), Some(frame)) => {
                day.send(book, frame);
                at += 2 + frame.len();
            }
            (Some(1), Some(bytes)) => {
                day.receive(bytes);
                at += 2 + bytes.len();
            }
            _ => return day.fault(at),
        }
        day.records += 1;
    }
    day
}
