// The answers that the Rust has, by its files as they stand.
use super::{arguments_of, Part};
use crate::builders::{frame, LAST};
use crate::cmd::cmd_common::{CcaResultRsp, RssiInstRsp, TimestampValueRsp};
use crate::cmd::cmd_fsk::{FskPacketStatusRsp, FskRxStatsRsp};
use crate::cmd::cmd_lora::{LoraPacketStatusRsp, LoraRxStatsRsp};
use crate::enums::{lora_bw, lora_cr, sf};
use crate::status::{Intr, Status};
use crate::{Lr2021Error, PAYLOAD};
use std::cmp::Ordering;

impl Part for Ordering {
    fn put(self, to: &mut Vec<u8>) {
        to.push(match self {
            Ordering::Less => 0,
            Ordering::Equal => 1,
            Ordering::Greater => 2,
        })
    }
}

// A Status keeps its number to itself.
impl Part for Status {
    fn put(self, to: &mut Vec<u8>) {
        number_of(self).put(to)
    }
}

fn number_of(status: Status) -> u16 {
    unsafe { std::mem::transmute(status) }
}

// A slice of the response's own length.
macro_rules! response {
    ($to:ident, $slice:ident, $type:ty: $($field:ident)+) => {{
        let mut r = <$type>::new();
        r.as_mut().copy_from_slice($slice);
        parts!($to: 0u8, r.status() $(, r.$field())+);
    }};
}

pub fn answer(to: &mut Vec<u8>, op: u8, slice: &[u8], payload: &[u8; PAYLOAD]) {
    let (x, y) = (payload[0] as u64, payload[1] as u64);
    match op {
        1..=LAST => {
            let f = frame(op, &arguments_of(payload));
            to.push(f.len() as u8);
            to.extend(f);
        }
        64 => {
            status(to, Status::from_slice(slice));
            status(to, Status::from_array([payload[0], payload[1]]));
        }
        65 => {
            let mask = u32::from_le_bytes([payload[64], payload[65], payload[66], payload[67]]);
            let i = Intr::from_slice(slice);
            parts!(to: i.value(), accessors(i), i.none(), i.intr_match(mask));
            parts!(to: Intr::new(mask).value(), Intr::new_txrx().value(), Intr::new_ranging().value());
        }
        66 => response!(to, slice, LoraRxStatsRsp: pkt_rx crc_error header_error detection false_sync),
        67 => response!(to, slice, LoraPacketStatusRsp:
            crc coding_rate pkt_length snr_pkt rssi_pkt rssi_signal_pkt detector),
        68 => response!(to, slice, FskRxStatsRsp: pkt_rx crc_error len_error pbl_det sync_ok sync_fail timeout),
        69 => response!(to, slice, FskPacketStatusRsp:
            pkt_len rssi_avg rssi_sync addr_match_bcast addr_match_node lqi),
        70 => response!(to, slice, RssiInstRsp: rssi),
        71 => response!(to, slice, TimestampValueRsp: timestamp),
        72 => response!(to, slice, CcaResultRsp: rssi_min rssi_max rssi_avg),
        73 => parts!(to: lora_bw(x).to_hz(), lora_bw(x).is_fractional(), lora_bw(x).cmp(&lora_bw(y))),
        74 => parts!(to: lora_cr(x).is_li(), lora_cr(x).denominator()),
        75 => parts!(to: sf(x).cmp(&sf(y))),
        _ => panic!("{} is no operation of the Rust's", op),
    }
}

fn status(to: &mut Vec<u8>, s: Status) {
    to.extend(number_of(s).to_be_bytes());
    parts!(to: s.cmd() as u8, s.is_ok(), s.irq(), s.reset_src() as u8, s.chip_mode() as u8);
    to.push(match s.check() {
        Ok(()) => 0,
        Err(Lr2021Error::CmdFail) => 1,
        Err(Lr2021Error::CmdErr) => 2,
        Err(_) => 3,
    });
}

// The accessors in bit order, the first at bit 0.
fn accessors(i: Intr) -> u32 {
    let all = [
        i.rx_fifo(),
        i.tx_fifo(),
        i.rng_req_vld(),
        i.tx_timestamp(),
        i.rx_timestamp(),
        i.preamble_detected(),
        i.header_valid(),
        i.cad_detected(),
        i.lora_hdr_timestamp(),
        i.header_err(),
        i.eol(),
        i.pa(),
        i.lora_tx_rx_hop(),
        i.sync_fail(),
        i.lora_symbol_end(),
        i.lora_timestamp_stat(),
        i.error(),
        i.cmd(),
        i.rx_done(),
        i.tx_done(),
        i.cad_done(),
        i.timeout(),
        i.crc_error(),
        i.len_error(),
        i.addr_error(),
        i.fhss(),
        i.inter_packet1(),
        i.inter_packet2(),
        i.rng_resp_done(),
        i.rng_req_dis(),
        i.rng_exch_vld(),
        i.rng_timeout(),
    ];
    (0..32).map(|b| (all[b] as u32) << b).sum()
}

// The width that the name of a code of RxBw says, in tenths of kHz: Bw9p6 is 96, Bw3076 is 30760; 0 for BwAuto and
// for a code that no name has.
pub fn tenths_by_name(code: u8) -> u16 {
    let source = include_str!("../../target/lr2021/cmd/cmd_fsk.rs");
    let start = source.find("pub enum RxBw {").expect("the enum RxBw");
    for line in source[start..].lines().skip(1) {
        if line.trim() == "}" {
            break;
        }
        let (name, number) = line.trim().trim_end_matches(',').split_once(" = ").expect("a name and its code");
        if number.parse() == Ok(code) {
            return named(name);
        }
    }
    0
}

fn named(name: &str) -> u16 {
    let width = name.strip_prefix("Bw").expect("a name that begins with Bw");
    if width == "Auto" {
        return 0;
    }
    let (whole, tenth) = width.split_once('p').unwrap_or((width, "0"));
    10 * whole.parse::<u16>().expect("a width") + tenth.parse::<u16>().expect("a tenth")
}
