// The Rust, unchanged, exported to C for bench/run; its own crate root needs a bus, so this takes its place.
#![no_std]
#![allow(dead_code, unused_imports, unexpected_cfgs)]

#[path = "../../tests/oracle/driver.rs"]
pub mod driver;
use driver::{cmd, status};
use status::{Intr, Status};

#[panic_handler]
fn panic(_: &core::panic::PanicInfo) -> ! { loop {} }

// Nothing unwinds here, but the core library's archive asks for it.
#[no_mangle]
pub extern "C" fn rust_eh_personality() {}

// ---- readers: each reads all that there is, and mixes it so that nothing is left out

fn mixed(s: Status) -> u64 {
    s.cmd() as u64 ^ ((s.is_ok() as u64) << 4) ^ ((s.irq() as u64) << 5) ^ ((s.reset_src() as u64) << 6) ^ ((s.chip_mode() as u64) << 12)
}

#[no_mangle]
pub unsafe extern "C" fn rs_status(p: *const u8, n: usize) -> u64 {
    mixed(Status::from_slice(core::slice::from_raw_parts(p, n)))
}

#[no_mangle]
pub unsafe extern "C" fn rs_intr(p: *const u8, n: usize) -> u64 {
    let i = Intr::from_slice(core::slice::from_raw_parts(p, n));
    i.value() as u64 ^ ((i.rx_done() as u64) << 32) ^ ((i.tx_done() as u64) << 33)
        ^ ((i.timeout() as u64) << 34) ^ ((i.crc_error() as u64) << 35)
        ^ ((i.none() as u64) << 36) ^ ((i.preamble_detected() as u64) << 37)
        ^ ((i.header_err() as u64) << 38) ^ ((i.rng_timeout() as u64) << 39)
}

// A response is filled as the Rust fills it; another length gives 7, as here.
macro_rules! response {
    ($name:ident, $rsp:path, $len:expr, $mix:expr) => {
        #[no_mangle]
        pub unsafe extern "C" fn $name(p: *const u8, n: usize) -> u64 {
            if n != $len { return 7; }
            let mut r = <$rsp>::new();
            r.as_mut().copy_from_slice(core::slice::from_raw_parts(p, n));
            let mix: fn(&mut $rsp) -> u64 = $mix;
            mix(&mut r)
        }
    };
}

fn mixed_lora_rx_stats(r: &mut cmd_lora::LoraRxStatsRsp) -> u64 {
    mixed(r.status()) ^ ((r.pkt_rx() as u64) << 1) ^ ((r.crc_error() as u64) << 2)
        ^ ((r.header_error() as u64) << 3) ^ ((r.detection() as u64) << 4)
        ^ ((r.false_sync() as u64) << 5)
}
response!(rs_lora_rx_stats, cmd_lora::LoraRxStatsRsp, 12, mixed_lora_rx_stats);

fn mixed_lora_packet_status(r: &mut cmd_lora::LoraPacketStatusRsp) -> u64 {
    mixed(r.status()) ^ ((r.crc() as u64) << 1) ^ ((r.coding_rate() as u64) << 2)
        ^ ((r.pkt_length() as u64) << 3) ^ (((r.snr_pkt() < 0) as u64) << 4)
        ^ ((r.rssi_pkt() as u64) << 5) ^ ((r.rssi_signal_pkt() as u64) << 6)
        ^ ((r.detector() as u64) << 7)
}
response!(rs_lora_packet_status, cmd_lora::LoraPacketStatusRsp, 8, mixed_lora_packet_status);

fn mixed_fsk_rx_stats(r: &mut cmd_fsk::FskRxStatsRsp) -> u64 {
    mixed(r.status()) ^ ((r.pkt_rx() as u64) << 1) ^ ((r.crc_error() as u64) << 2)
        ^ ((r.len_error() as u64) << 3) ^ ((r.pbl_det() as u64) << 4)
        ^ ((r.sync_ok() as u64) << 5) ^ ((r.sync_fail() as u64) << 6)
        ^ ((r.timeout() as u64) << 7)
}
response!(rs_fsk_rx_stats, cmd_fsk::FskRxStatsRsp, 16, mixed_fsk_rx_stats);

fn mixed_fsk_packet_status(r: &mut cmd_fsk::FskPacketStatusRsp) -> u64 {
    mixed(r.status()) ^ ((r.pkt_len() as u64) << 1) ^ ((r.rssi_avg() as u64) << 2)
        ^ ((r.rssi_sync() as u64) << 3) ^ ((r.addr_match_bcast() as u64) << 4)
        ^ ((r.addr_match_node() as u64) << 5) ^ ((r.lqi() as u64) << 6)
}
response!(rs_fsk_packet_status, cmd_fsk::FskPacketStatusRsp, 8, mixed_fsk_packet_status);

fn mixed_rssi_inst(r: &mut cmd_common::RssiInstRsp) -> u64 {
    mixed(r.status()) ^ ((r.rssi() as u64) << 1)
}
response!(rs_rssi_inst, cmd_common::RssiInstRsp, 4, mixed_rssi_inst);

fn mixed_timestamp_value(r: &mut cmd_common::TimestampValueRsp) -> u64 {
    mixed(r.status()) ^ ((r.timestamp() as u64) << 1)
}
response!(rs_timestamp_value, cmd_common::TimestampValueRsp, 6, mixed_timestamp_value);

fn mixed_cca_result(r: &mut cmd_common::CcaResultRsp) -> u64 {
    mixed(r.status()) ^ ((r.rssi_min() as u64) << 1) ^ ((r.rssi_max() as u64) << 2)
        ^ ((r.rssi_avg() as u64) << 3)
}
response!(rs_cca_result, cmd_common::CcaResultRsp, 6, mixed_cca_result);

// ---- the decoder, beside one written by hand, and that one behind a walk over the rows

mod decoder;
mod rows;

#[path = "../../bench/walk.rs"]
mod walk;

fn mixed_decoded(d: decoder::Decoded) -> u64 {
    let mut mix = d.refusal as u64 ^ ((d.place as u64) << 8) ^ ((d.kind as u64) << 16) ^ ((d.count as u64) << 24);
    for (i, v) in d.args.iter().enumerate() {
        mix ^= v << i;
    }
    mix
}

#[no_mangle]
pub unsafe extern "C" fn rs_decode(p: *const u8, n: usize) -> u64 {
    mixed_decoded(decoder::decode(core::slice::from_raw_parts(p, n)))
}

#[no_mangle]
pub unsafe extern "C" fn rs_walk(p: *const u8, n: usize) -> u64 {
    mixed_decoded(walk::walk(core::slice::from_raw_parts(p, n)))
}

// ---- the book, beside one written by hand

#[path = "../../bench/book.rs"]
mod book;

// The number of bytes written, or 65,536 with the refusal and its place.
fn told(said: book::Answer) -> u64 {
    match said {
        Ok(written) => written as u64,
        Err((number, place)) => 65536 | number as u64 | (place as u64) << 8,
    }
}

use core::slice::{from_raw_parts, from_raw_parts_mut};

#[no_mangle]
pub unsafe extern "C" fn rs_make(book: *mut u8, n: usize) -> u64 {
    told(book::make(from_raw_parts_mut(book, n)))
}

#[no_mangle]
pub unsafe extern "C" fn rs_put(book: *mut u8, n: usize, frame: *const u8, m: usize) -> u64 {
    told(book::put(from_raw_parts_mut(book, n), from_raw_parts(frame, m)))
}

#[no_mangle]
pub unsafe extern "C" fn rs_remove(book: *mut u8, n: usize, kind: u64) -> u64 {
    told(book::remove(from_raw_parts_mut(book, n), kind))
}

#[no_mangle]
pub unsafe extern "C" fn rs_ask(book: *const u8, n: usize, kind: u64, out: *mut u8, m: usize) -> u64 {
    told(book::ask(from_raw_parts(book, n), kind, from_raw_parts_mut(out, m)))
}

#[no_mangle]
pub unsafe extern "C" fn rs_replay(book: *const u8, n: usize, out: *mut u8, m: usize) -> u64 {
    told(book::replay(from_raw_parts(book, n), from_raw_parts_mut(out, m)))
}

// ---- a recorded day, beside one written by hand

#[path = "../../bench/play.rs"]
mod play;

fn mixed_day(d: &mut play::Day) -> u64 {
    let mut mix = d.refusal as u64 ^ ((d.place as u64) << 4) ^ (d.records << 8) ^ (d.accepted << 12) ^ (d.skipped << 16);
    for (i, n) in d.refused.iter().enumerate() {
        mix ^= n << (20 + i);
    }
    mix ^= d.lora_rx_stats.as_mut().map_or(0, mixed_lora_rx_stats) << 1;
    mix ^= d.lora_packet_status.as_mut().map_or(0, mixed_lora_packet_status) << 2;
    mix ^= d.fsk_rx_stats.as_mut().map_or(0, mixed_fsk_rx_stats) << 3;
    mix ^ d.fsk_packet_status.as_mut().map_or(0, mixed_fsk_packet_status) << 4
}

#[no_mangle]
pub unsafe extern "C" fn rs_played(trace: *const u8, n: usize, book: *mut u8, m: usize) -> u64 {
    mixed_day(&mut play::play(from_raw_parts(trace, n), from_raw_parts_mut(book, m)))
}

// ---- widths for banks, beside those found by hand

#[path = "../../bench/widths.rs"]
mod widths;

#[no_mangle]
pub unsafe extern "C" fn rs_find(needs: *const u64, n: usize, out: *mut u8, m: usize) -> u64 {
    told(widths::find(from_raw_parts(needs, n), from_raw_parts_mut(out, m)))
}

#[no_mangle]
pub unsafe extern "C" fn rs_check(needs: *const u64, n: usize, codes: *const u8, m: usize) -> u64 {
    told(widths::check(from_raw_parts(needs, n), from_raw_parts(codes, m)))
}

// ---- builders
