// Traces and their reports, both written by hand: what the model gives is held to them. They are stored with the program `play`.
pub struct Case {
    pub name: &'static str,
    pub trace: &'static str,
    pub report: &'static str,
}

const fn case(name: &'static str, trace: &'static str, report: &'static str) -> Case {
    Case { name, trace, report }
}

pub const CASES: [Case; 15] = [
    case(
        "bank-17.trace",
        "00 0D 00 04 00 03 02 23 34 00 06 02 00 33 BE 27 A0 00 04 02 22 05 02 00 02 02 29 01 0C 04 04 00 05 00 00 00 00 00 06 00 01 \
         00 02 02 2A 01 08 04 04 11 18 F9 5A 5B 06 00 02 02 46 01 10 04 04 00 01 00 00 00 00 00 02 00 01 00 00 00 00 00 02 02 47 \
         01 08 04 04 00 03 3C 3C 11 0C 01 03 01 02 03 02 00",
        "records 12\naccepted 2\nrefused 4 1\nskipped 1\n\
         lora_rx_stats pkt_rx 5 crc_error 0 header_error 0 detection 6 false_sync 1\n\
         lora_packet_status crc 1 coding_rate 1 pkt_length 24 snr_pkt -1.75 rssi_pkt -90.5 rssi_signal_pkt -91.0 detector 1\n\
         fsk_rx_stats pkt_rx 1 crc_error 0 len_error 0 pbl_det 2 sync_ok 1 sync_fail 0 timeout 0\n\
         fsk_packet_status pkt_len 3 rssi_avg -60.0 rssi_sync -60.5 addr_match_bcast 0 addr_match_node 1 lqi 12\n\
         frame 0 4 0 0 52\nframe 1 24 0 0 868100000\nstopped 15 96\n",
    ),
    // Faults of the header come before anything else; no records are a day too.
    case("empty.trace", "", "records 0\naccepted 0\nskipped 0\nstopped 15 0\n"),
    case("short.trace", "00 01 00", "records 0\naccepted 0\nskipped 0\nstopped 15 0\n"),
    case("low.trace", "00 01 00 03 00 02 02 29", "records 0\naccepted 0\nskipped 0\nstopped 15 0\n"),
    case("low-none.trace", "00 00 00 00", "records 0\naccepted 0\nskipped 0\nstopped 15 0\n"),
    case("past.trace", "00 01 01 00 00 00", "records 0\naccepted 0\nskipped 0\nstopped 15 256\n"),
    case("past-none.trace", "00 00 FF FF", "records 0\naccepted 0\nskipped 0\n"),
    // A record that breaks off, in its bytes or before its length, and one of a direction that there is not.
    case("cut.trace", "00 02 00 04 00 03 02 23 12 00 03 02 23", "records 1\naccepted 1\nskipped 0\nframe 0 4 0 0 18\nstopped 15 9\n"),
    case("cut-length.trace", "00 02 00 04 00 03 02 23 12 01", "records 1\naccepted 1\nskipped 0\nframe 0 4 0 0 18\nstopped 15 9\n"),
    case("direction.trace", "00 03 00 04 00 02 02 28 02 00 00 03 02 23 12", "records 1\naccepted 0\nskipped 0\nstopped 15 8\n"),
    // Neither what stands between header and first record nor what stands behind the last is looked at.
    case("between.trace", "00 01 00 06 FF FF 00 03 02 0F 01 02 00 FF", "records 1\naccepted 1\nskipped 0\nframe 0 31 0 0 1\n"),
    // Each of the refusals that a put may have in a large book; a kind that is sent again is overwritten in its place.
    case(
        "refused.trace",
        "00 0A 00 04 00 00 00 01 02 00 02 03 23 00 03 02 28 00 00 05 02 10 00 00 00 00 04 02 22 00 80 00 04 02 20 40 10 \
         00 03 02 23 01 00 03 02 01 01 00 03 02 23 02",
        "records 10\naccepted 3\nrefused 1 2\nrefused 2 1\nrefused 3 2\nrefused 4 1\nrefused 5 1\nskipped 0\nframe 0 4 0 0 2\nframe 1 25 0 0 1\n",
    ),
    // A sync word of 64 bits is put, a longer one is refused and changes nothing.
    case(
        "sync-word.trace",
        "00 03 00 04 00 0B 02 44 01 23 45 67 89 AB CD EF C0 00 0B 02 44 01 23 45 67 89 AB CD EF 41 00 0B 02 44 00 00 00 00 00 00 00 00 FF",
        "records 3\naccepted 1\nrefused 5 2\nskipped 0\nframe 0 20 0 0 81985529216486895 1 64\n",
    ),
    // Responses to nothing, to an action, to a setting, to a frame that is refused, and of another length; then one that fits.
    case(
        "skipped.trace",
        "00 0C 00 04 01 00 00 02 02 28 01 08 00 00 00 00 00 00 00 00 00 03 02 23 00 01 08 00 00 00 00 00 00 00 00 00 03 02 2A 00 \
         01 08 00 00 00 00 00 00 00 00 00 02 02 2A 01 07 00 00 00 00 00 00 00 01 09 00 00 00 00 00 00 00 00 00 01 0C 00 00 00 00 00 00 00 00 00 00 00 00 \
         01 08 FF FF 00 00 00 00 00 00",
        "records 12\naccepted 1\nrefused 3 1\nskipped 7\n\
         lora_packet_status crc 0 coding_rate 0 pkt_length 0 snr_pkt 0.00 rssi_pkt 0.0 rssi_signal_pkt 0.0 detector 0\nframe 0 4 0 0 0\n",
    ),
    // A request stays the latest behind its response, and the last reading counts.
    case(
        "again.trace",
        "00 06 00 04 00 02 02 47 01 08 00 00 FF FF FF FF FF FF 01 08 00 00 00 01 00 00 04 00 00 02 02 2A 01 08 00 00 FF FF FF 00 00 03 \
         01 08 FF FF EF 00 80 FF FF FF",
        "records 6\naccepted 0\nskipped 0\n\
         lora_packet_status crc 0 coding_rate 15 pkt_length 0 snr_pkt -32.00 rssi_pkt -255.5 rssi_signal_pkt -255.5 detector 15\n\
         fsk_packet_status pkt_len 1 rssi_avg -0.5 rssi_sync 0.0 addr_match_bcast 0 addr_match_node 0 lqi 0\n",
    ),
];

pub fn bytes(hex: &str) -> Vec<u8> {
    hex.split_whitespace().map(|byte| u8::from_str_radix(byte, 16).expect("a byte")).collect()
}
