// The checked builder and the decoder, a second time (REFERENCE, "Checked builder" and "Decoder"): a field is the list of its bits, each a
// byte and a bit of the frame, the lowest bit of the value first. The codes of an enum are the Rust's.
use crate::enums::*;

pub struct Field {
    pub name: &'static str,
    // The bits that the checked builder and the decoder have; none for kind 17's unit.
    pub bits: Vec<(usize, u32)>,
    // The greatest number that they take.
    pub most: u64,
    pub codes: Option<&'static [u64]>,
    // The bits that the plain builder fills, and the codes that the Rust has.
    pub plain: Vec<(usize, u32)>,
    pub rust: Option<&'static [u64]>,
}

impl Field {
    // All ones, in as many bits as the field has.
    pub fn ones(&self) -> u64 {
        u64::MAX.checked_shr(64 - self.bits.len() as u32).unwrap_or(0)
    }

    // Whether the checked builder and the decoder take v.
    pub fn takes(&self, v: u64) -> bool {
        v <= self.most && self.codes.map_or(true, |codes| codes.contains(&v))
    }

    // A number that they take, made of any; all ones give the greatest.
    pub fn cut(&self, any: u64) -> u64 {
        if any == u64::MAX { self.most } else { any.checked_rem(self.most.wrapping_add(1)).unwrap_or(any) }
    }
}

pub struct Command {
    pub kind: u64,
    pub opcode: [u8; 2],
    pub length: usize,
    pub fields: Vec<Field>,
}

// What a book does with a kind: it keeps a setting, of which two kinds can be the forms, a shorter and a longer one; it never keeps an action.
#[derive(Clone, Copy)]
pub enum Use {
    Setting,
    LongerOf(u64),
    Action,
}

use Use::{Action, LongerOf, Setting};

pub struct Row {
    pub kind: u64,
    pub opcode: u16,
    pub length: usize,
    pub used: Use,
    fields: &'static str,
}

const fn row(kind: u64, opcode: u16, length: usize, used: Use, fields: &'static str) -> Row {
    Row { kind, opcode, length, used, fields }
}

// How many kinds there are: their numbers are 1 to this one.
pub const KINDS: u64 = 39;

// The files of the Rust that have their builders, each with its first kind.
pub const FILES: &[(&str, u64)] = &[("cmd_lora", 1), ("cmd_fsk", 16), ("cmd_common", 24)];

// Kind, opcode, length, use, and the arguments with their places (REFERENCE, "Commands"). A name that enums.rs has is that enum's; "low" marks the
// address, whose low byte comes first, "plain" the place that the plain builder has instead, and "to 64" a number that has a limit.
pub const ROWS: [Row; KINDS as usize] = [
    row(1, 0x0220, 4, Setting, "sf 2.7-4, lora_bw 2.3-0, lora_cr 3.7-4, ldro 3.1-0, lora_filter 3.3-2"),
    row(2, 0x0221, 6, Setting, "pbl_len 2-3, payload_len 4, header_type 5.2, crc_en 5.1, invert_iq 5.0"),
    row(3, 0x0222, 4, Setting, "symbols 2, timeout_format 3.0"),
    row(4, 0x0223, 3, Setting, "syncword 2"),
    row(5, 0x0226, 8, Setting, "pmod_en 2.7, dram_ret 2.2-0, wakeup_time 3-4, min_sleep_time 5-7"),
    row(6, 0x0226, 12, LongerOf(5), "pmod_en 2.7, dram_ret 2.2-0, wakeup_time 3-4, min_sleep_time 5-7, err_thr 8.6-0, \
        min_sym 9.7-4, detect_time_sym 9.3-0, start_offset 10, end_offset 11"),
    row(7, 0x0227, 9, Setting, "nb_symbols 2, pbl_any 3.4, pnr_delta 3.3-0, lora_exit_mode 4, timeout 5-7, det_peak 8"),
    row(8, 0x0228, 2, Action, ""),
    row(9, 0x0229, 2, Action, ""),
    row(10, 0x022A, 2, Action, ""),
    row(11, 0x022B, 11, Setting, "addr_len 2.7-4, addr_pos 2.3-0, addr 3-10low"),
    row(12, 0x022D, 4, Setting, "sync1 2.4-0, sync2 3.4-0"),
    row(13, 0x022E, 8, Setting, "sd1_sw1 2.4-0, sd1_sw2 3.4-0, sd2_sw1 4.4-0, sd2_sw2 5.4-0, sd3_sw1 6.4-0, sd3_sw2 7.4-0"),
    row(14, 0x021D, 3, Setting, "timing_sync_mode 2.7-6, dio_num 2.3-0"),
    row(15, 0x021D, 4, Setting, "thr_gain 2.7-6, thr 2.5-2, lvl_gain 2.1-0, detect 3.4, rssi_thr 3.3-0"),
    row(16, 0x0240, 11, Setting, "bitrate 2-5, pulse_shape 6.3-0, rx_bw 7, fdev 8-10"),
    row(17, 0x0241, 9, Setting, "pbl_len_tx 2-3, pbl_len_detect 4, pbl_long 5.4, pld_len_unit none plain 5.4, \
        addr_comp 5.3-2, fsk_pkt_format 5.1-0, pld_len 6-7, crc 8.7-4, dc_free 8.0"),
    row(18, 0x0242, 4, Setting, "whiten_type 2.4, init 2.3-0+3 plain 2-3"),
    row(19, 0x0243, 10, Setting, "polynom 2-5, init 6-9"),
    row(20, 0x0244, 11, Setting, "syncword 2-9, bit_order 10.7, nb_bits 10.6-0 to 64"),
    row(21, 0x0245, 4, Setting, "addr_node 2, addr_bcast 3"),
    row(22, 0x0246, 2, Action, ""),
    row(23, 0x0247, 2, Action, ""),
    row(24, 0x0200, 6, Setting, "rf_freq 2-5"),
    row(25, 0x0201, 3, Setting, "rx_path 2.0"),
    row(26, 0x0201, 4, LongerOf(25), "rx_path 2.0, rx_boost 3.2-0"),
    row(27, 0x0202, 4, Setting, "pa_sel 2.7, pa_lf_mode 2.1-0, pa_lf_duty_cycle 2.6-4 plain 2.7-4, pa_lf_slices 3.3-0"),
    row(28, 0x0202, 5, LongerOf(27), "pa_sel 2.7, pa_lf_mode 2.1-0, pa_lf_duty_cycle 2.6-4 plain 2.7-4, pa_lf_slices 3.3-0, pa_hf_duty_cycle 4.4-0"),
    row(29, 0x020C, 5, Action, "rx_timeout 2-4"),
    row(30, 0x020D, 5, Action, "tx_timeout 2-4"),
    row(31, 0x020F, 3, Setting, "pa_sel 2.0"),
    row(32, 0x0210, 9, Action, "rx_max_time 2-4, cycle_time 5-7, use_lora_cad 8.4, dram_ret 8.2-0"),
    row(33, 0x0211, 10, Setting, "clear 2.7, auto_txrx_mode 2.1-0, timeout 3-5, delay 6-9"),
    row(34, 0x0215, 8, Setting, "rx_timeout 2-4, tx_timeout 5-7"),
    row(35, 0x0216, 3, Setting, "timestamp_index 2.5-4, timestamp_source 2.3-0"),
    row(36, 0x0218, 5, Action, "duration 2-4"),
    row(37, 0x0218, 6, Action, "duration 2-4, gain 5"),
    row(38, 0x021A, 3, Setting, "gain_step 2.3-0"),
    row(39, 0x021B, 10, Setting, "cad_timeout 2-4, threshold 5, exit_mode 6.1-0, trx_timeout 7-9"),
];

// A kind's row stands at its number.
const _: () = {
    let mut at = 0;
    while at < ROWS.len() {
        assert!(ROWS[at].kind == at as u64 + 1);
        at += 1;
    }
};

// The codes that the Rust has for an argument of that name.
fn enum_of(name: &str) -> Option<&'static [u64]> {
    ENUMS.iter().find(|(known, _)| known.eq_ignore_ascii_case(name)).map(|(_, codes)| *codes)
}

// The codes that the checked builder and the decoder take: kind 17 takes bytes as its unit and no bits, kind 14 any number of a DIO.
fn codes_of(name: &str) -> Option<&'static [u64]> {
    match name {
        "pld_len_unit" => Some(&[0]),
        "dio_num" => None,
        _ => enum_of(name),
    }
}

fn number(text: &str) -> usize {
    text.parse().expect("a number")
}

// The bits of a place such as "2.7-4", "5.2", "2-3", "4" or "2.3-0+3", the lowest first.
pub fn bits_of(place: &str) -> Vec<(usize, u32)> {
    if place == "none" {
        return vec![];
    }
    if let Some((high, low)) = place.split_once('+') {
        return [bits_of(low), bits_of(high)].concat();
    }
    if let Some((byte, bits)) = place.split_once('.') {
        let (high, low) = bits.split_once('-').unwrap_or((bits, bits));
        return (number(low)..=number(high)).map(|bit| (number(byte), bit as u32)).collect();
    }
    let (bytes, low_first) = match place.strip_suffix("low") {
        Some(bytes) => (bytes, true),
        None => (place, false),
    };
    let (first, last) = bytes.split_once('-').unwrap_or((bytes, bytes));
    let mut order: Vec<usize> = (number(first)..=number(last)).collect();
    if !low_first {
        order.reverse();
    }
    order.into_iter().flat_map(|byte| (0..8).map(move |bit| (byte, bit))).collect()
}

pub fn commands() -> &'static [Command] {
    thread_local! {
        static COMMANDS: &'static [Command] = Box::leak(ROWS.iter().map(command).collect::<Vec<_>>().into_boxed_slice());
    }
    COMMANDS.with(|all| *all)
}

fn command(row: &'static Row) -> Command {
    let fields = row.fields.split(", ").filter(|text| !text.is_empty()).map(field).collect();
    Command { kind: row.kind, opcode: row.opcode.to_be_bytes(), length: row.length, fields }
}

// A field of a text such as "init 2.3-0+3 plain 2-3" or "nb_bits 10.6-0 to 64".
fn field(text: &'static str) -> Field {
    let (name, place) = text.split_once(' ').expect("a name and a place");
    let (place, limit) = place.split_once(" to ").map_or((place, None), |(place, most)| (place, Some(number(most) as u64)));
    let (place, plain) = place.split_once(" plain ").unwrap_or((place, place));
    let field = Field { name, bits: bits_of(place), most: 0, codes: codes_of(name), plain: bits_of(plain), rust: enum_of(name) };
    Field { most: limit.unwrap_or(field.ones()), ..field }
}

pub fn value(bits: &[(usize, u32)], frame: &[u8]) -> u64 {
    bits.iter().rev().fold(0, |v, (byte, bit)| v << 1 | (frame[*byte] >> bit & 1) as u64)
}

pub enum Decoded {
    Kind(u64, Vec<u64>),
    Refused(u8, u8),
}

pub fn decode(frame: &[u8]) -> Decoded {
    let commands = commands();
    if frame.len() < 2 {
        return Decoded::Refused(1, 0);
    }
    if !commands.iter().any(|c| c.opcode == frame[..2]) {
        return Decoded::Refused(2, 0);
    }
    let c = match commands.iter().find(|c| c.opcode == frame[..2] && c.length == frame.len()) {
        Some(c) => c,
        None => return Decoded::Refused(3, 0),
    };
    for byte in 2..frame.len() {
        for bit in 0..8 {
            if frame[byte] >> bit & 1 == 1 && !c.fields.iter().any(|f| f.bits.contains(&(byte, bit))) {
                return Decoded::Refused(4, byte as u8);
            }
        }
    }
    let lacking = c.fields.iter().filter(|f| !f.takes(value(&f.bits, frame)));
    if let Some(byte) = lacking.map(|f| f.bits.iter().map(|(byte, _)| *byte).min().expect("a bit")).min() {
        return Decoded::Refused(5, byte as u8);
    }
    Decoded::Kind(c.kind, c.fields.iter().map(|f| value(&f.bits, frame)).collect())
}

pub enum Built {
    Frame(Vec<u8>),
    Refused(u8, u8),
}

pub fn checked(kind: u64, arguments: &[u64]) -> Built {
    let commands = commands();
    let c = match commands.iter().find(|c| c.kind == kind) {
        Some(c) => c,
        None => return Built::Refused(13, 0),
    };
    for i in 0..c.fields.len().max(arguments.len()) {
        let good = i < c.fields.len() && i < arguments.len() && c.fields[i].takes(arguments[i]);
        if !good {
            return Built::Refused(6, i as u8 + 1);
        }
    }
    let mut frame = vec![0; c.length];
    frame[..2].copy_from_slice(&c.opcode);
    for (field, v) in c.fields.iter().zip(arguments) {
        for (i, (byte, bit)) in field.bits.iter().enumerate() {
            frame[*byte] |= ((v >> i & 1) as u8) << bit;
        }
    }
    Built::Frame(frame)
}
