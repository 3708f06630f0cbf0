// The report of a day, as the program `play` prints it (REFERENCE, "Playback").
use crate::book::Frame;
use crate::day::Day;
use crate::model::{bits_of, decode, value, Decoded};
use crate::texts::{level, ratio};

// The readings in the order of the requests, with the fields and their places (REFERENCE, "Responses"); a level is a byte and a lower bit.
const READINGS: [&str; 4] = [
    "lora_rx_stats pkt_rx 2-3, crc_error 4-5, header_error 6-7, detection 8-9, false_sync 10-11",
    "lora_packet_status crc 2.4, coding_rate 2.3-0, pkt_length 3, snr_pkt 4, rssi_pkt 5+7.1, rssi_signal_pkt 6+7.0, detector 7.5-2",
    "fsk_rx_stats pkt_rx 2-3, crc_error 4-5, len_error 6-7, pbl_det 8-9, sync_ok 10-11, sync_fail 12-13, timeout 14-15",
    "fsk_packet_status pkt_len 2-3, rssi_avg 4+6.2, rssi_sync 5+6.0, addr_match_bcast 6.5, addr_match_node 6.4, lqi 7",
];

fn field(text: &'static str, bytes: &[u8]) -> String {
    let (name, place) = text.split_once(' ').expect("a name and a place");
    let count = value(&bits_of(place), bytes);
    match name {
        "snr_pkt" => format!(" {} {}", name, ratio(count as u8 as i8)),
        _ if name.starts_with("rssi") => format!(" {} {}", name, level(count as u16)),
        _ => format!(" {} {}", name, count),
    }
}

fn reading(line: &'static str, bytes: &[u8]) -> String {
    let (name, fields) = line.split_once(' ').expect("a name and fields");
    let fields: String = fields.split(", ").map(|text| field(text, bytes)).collect();
    format!("{}{}\n", name, fields)
}

// The line that a dump of the book's replay has for a frame.
fn frame(index: usize, frame: &Frame) -> String {
    let arguments = match decode(&frame.bytes) {
        Decoded::Kind(_, arguments) => arguments,
        Decoded::Refused(..) => panic!("a book holds a frame that does not decode"),
    };
    let arguments: String = arguments.iter().map(|a| format!(" {}", a)).collect();
    format!("frame {} {} 0 0{}\n", index, frame.kind, arguments)
}

pub fn report(name: &str, day: &Day) -> String {
    let mut text = format!("trace {}\nrecords {}\naccepted {}\n", name, day.events.len(), day.accepted);
    for (number, count) in day.refused.iter().enumerate().filter(|(_, count)| **count > 0) {
        text += &format!("refused {} {}\n", number, count);
    }
    text += &format!("skipped {}\n", day.skipped);
    for (line, bytes) in READINGS.iter().zip(&day.readings) {
        text += &bytes.as_ref().map_or(String::new(), |bytes| reading(line, bytes));
    }
    for (index, held) in day.book.content.as_ref().map_or(&[][..], |frames| frames).iter().enumerate() {
        text += &frame(index, held);
    }
    if day.refusal == 15 {
        text += &format!("stopped 15 {}\n", day.place);
    }
    text
}
