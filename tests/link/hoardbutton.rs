// The functions of include/hoardbutton.h for Rust: the library's structs as they are, its pointers with their lengths as slices, so that
// a caller needs no `unsafe`. Needs no std.
#![allow(dead_code)]

// The header's sizes of what a caller lends: a book for all settings, the longest replay, and a dump for each byte of a reel.
pub const BOOK_ALL: usize = 231;
pub const REPLAY_MAX: usize = 195;
pub const DUMP_BYTE_MAX: usize = 28;

macro_rules! structs {
    ($($name:ident { $($field:ident: $type:ty),+ })+) => {
        $(#[repr(C)]
        #[derive(Clone, Copy, Debug, PartialEq, Eq)]
        pub struct $name { $(pub $field: $type),+ })+
    };
}

structs! {
    Frame { refusal: u32, place: u32, len: u32, bytes: [u8; 12] }
    Decoded { refusal: u32, place: u32, kind: u32, count: u32, args: [u64; 9] }
    Answer { refusal: u32, place: u32, value: u64 }
    Controller { outcome: u64, count: u64 }
    Control { refusal: u32, place: u32, state: Controller }
    Sending { refusal: u32, place: u32, over: u32, len: u32, bytes: [u8; 12] }
    Step { refusal: u32, ended: u32, start: u64, end: u64, next: u64 }
    Status { value: u16, irq: bool, ok: bool, cmd: u32, reset_src: u32, chip_mode: u32 }
    LoraRxStats { refusal: u32, status: u16, pkt_rx: u16, crc_error: u16, header_error: u16, detection: u16, false_sync: u16 }
    LoraPacketStatus { refusal: u32, status: u16, crc: bool, coding_rate: u8, pkt_length: u8, snr_pkt: i8, rssi_pkt: u16, rssi_signal_pkt: u16,
        detector: u8 }
    FskRxStats { refusal: u32, status: u16, pkt_rx: u16, crc_error: u16, len_error: u16, pbl_det: u16, sync_ok: u16, sync_fail: u16,
        timeout: u16 }
    FskPacketStatus { refusal: u32, status: u16, pkt_len: u16, rssi_avg: u16, rssi_sync: u16, addr_match_bcast: bool, addr_match_node: bool,
        lqi: u8 }
    RssiInst { refusal: u32, status: u16, rssi: u16 }
    TimestampValue { refusal: u32, status: u16, timestamp: u32 }
    CcaResult { refusal: u32, status: u16, rssi_min: u16, rssi_max: u16, rssi_avg: u16 }
    Day { refusal: u32, place: u64, records: u64, accepted: u64, skipped: u64, refused: [u64; 9], has_lora_rx_stats: bool,
        has_lora_packet_status: bool, has_fsk_rx_stats: bool, has_fsk_packet_status: bool, lora_rx_stats: LoraRxStats,
        lora_packet_status: LoraPacketStatus, fsk_rx_stats: FskRxStats, fsk_packet_status: FskPacketStatus }
}

// A declaration, and a wrapper that calls it with these arguments.
macro_rules! functions {
    ($($name:ident($($given:ident: $type:ty),*) -> $answer:ty = $c:ident($($c_type:ty = $argument:expr),*);)+) => {
        $(pub fn $name($($given: $type),*) -> $answer {
            extern "C" {
                fn $c($(_: $c_type),*) -> $answer;
            }
            unsafe { $c($($argument),*) }
        })+
    };
}

functions! {
    plain(k: u64, a: &[u64]) -> Frame = hb_plain(u64 = k, *const u64 = a.as_ptr(), usize = a.len());
    checked(k: u64, a: &[u64]) -> Frame = hb_checked(u64 = k, *const u64 = a.as_ptr(), usize = a.len());
    decode(f: &[u8]) -> Decoded = hb_decode(*const u8 = f.as_ptr(), usize = f.len());
    book_make(b: &mut [u8]) -> Answer = hb_book_make(*mut u8 = b.as_mut_ptr(), usize = b.len());
    book_put(b: &mut [u8], f: &[u8]) -> Answer = hb_book_put(*mut u8 = b.as_mut_ptr(), usize = b.len(), *const u8 = f.as_ptr(), usize = f.len());
    book_remove(b: &mut [u8], k: u64) -> Answer = hb_book_remove(*mut u8 = b.as_mut_ptr(), usize = b.len(), u64 = k);
    book_ask(b: &[u8], k: u64, out: &mut [u8]) -> Answer
        = hb_book_ask(*const u8 = b.as_ptr(), usize = b.len(), u64 = k, *mut u8 = out.as_mut_ptr(), usize = out.len());
    book_clear(b: &mut [u8]) -> Answer = hb_book_clear(*mut u8 = b.as_mut_ptr(), usize = b.len());
    book_replay(b: &[u8], out: &mut [u8]) -> Answer
        = hb_book_replay(*const u8 = b.as_ptr(), usize = b.len(), *mut u8 = out.as_mut_ptr(), usize = out.len());
    side_put(b: &mut [u8], t: &[u8], quotas: [u64; 2], caller: u64, f: &[u8]) -> Answer
        = hb_side_put(*mut u8 = b.as_mut_ptr(), usize = b.len(), *const u8 = t.as_ptr(), usize = t.len(), u64 = quotas[0], u64 = quotas[1], u64 = caller,
            *const u8 = f.as_ptr(), usize = f.len());
    side_remove(b: &mut [u8], t: &[u8], quotas: [u64; 2], caller: u64, k: u64) -> Answer
        = hb_side_remove(*mut u8 = b.as_mut_ptr(), usize = b.len(), *const u8 = t.as_ptr(), usize = t.len(), u64 = quotas[0], u64 = quotas[1], u64 = caller,
            u64 = k);
    side_ask(b: &[u8], t: &[u8], quotas: [u64; 2], caller: u64, k: u64, out: &mut [u8]) -> Answer
        = hb_side_ask(*const u8 = b.as_ptr(), usize = b.len(), *const u8 = t.as_ptr(), usize = t.len(), u64 = quotas[0], u64 = quotas[1], u64 = caller,
            u64 = k, *mut u8 = out.as_mut_ptr(), usize = out.len());
    side_clear(b: &mut [u8], t: &[u8], quotas: [u64; 2], caller: u64) -> Answer
        = hb_side_clear(*mut u8 = b.as_mut_ptr(), usize = b.len(), *const u8 = t.as_ptr(), usize = t.len(), u64 = quotas[0], u64 = quotas[1], u64 = caller);
    side_replay(b: &[u8], t: &[u8], quotas: [u64; 2], caller: u64, out: &mut [u8]) -> Answer
        = hb_side_replay(*const u8 = b.as_ptr(), usize = b.len(), *const u8 = t.as_ptr(), usize = t.len(), u64 = quotas[0], u64 = quotas[1], u64 = caller,
            *mut u8 = out.as_mut_ptr(), usize = out.len());
    status(b: &[u8]) -> Status = hb_status(*const u8 = b.as_ptr(), usize = b.len());
    intr(b: &[u8]) -> u32 = hb_intr(*const u8 = b.as_ptr(), usize = b.len());
    lora_rx_stats(b: &[u8]) -> LoraRxStats = hb_lora_rx_stats(*const u8 = b.as_ptr(), usize = b.len());
    lora_packet_status(b: &[u8]) -> LoraPacketStatus = hb_lora_packet_status(*const u8 = b.as_ptr(), usize = b.len());
    fsk_rx_stats(b: &[u8]) -> FskRxStats = hb_fsk_rx_stats(*const u8 = b.as_ptr(), usize = b.len());
    fsk_packet_status(b: &[u8]) -> FskPacketStatus = hb_fsk_packet_status(*const u8 = b.as_ptr(), usize = b.len());
    rssi_inst(b: &[u8]) -> RssiInst = hb_rssi_inst(*const u8 = b.as_ptr(), usize = b.len());
    timestamp_value(b: &[u8]) -> TimestampValue = hb_timestamp_value(*const u8 = b.as_ptr(), usize = b.len());
    cca_result(b: &[u8]) -> CcaResult = hb_cca_result(*const u8 = b.as_ptr(), usize = b.len());
    level_text(half_dbm: u16, out: &mut [u8]) -> Answer = hb_level_text(u16 = half_dbm, *mut u8 = out.as_mut_ptr(), usize = out.len());
    snr_text(quarter_db: i8, out: &mut [u8]) -> Answer = hb_snr_text(i8 = quarter_db, *mut u8 = out.as_mut_ptr(), usize = out.len());
    counter_difference(earlier: u16, later: u16) -> u16 = hb_counter_difference(u16 = earlier, u16 = later);
    lora_bw_hz(code: u8) -> u32 = hb_lora_bw_hz(u8 = code);
    rx_bw_tenths(code: u8) -> u16 = hb_rx_bw_tenths(u8 = code);
    widths_check(needs: &[u64], codes: &[u8]) -> Answer
        = hb_widths_check(*const u64 = needs.as_ptr(), usize = needs.len(), *const u8 = codes.as_ptr(), usize = codes.len());
    widths_find(needs: &[u64], codes: &mut [u8]) -> Answer
        = hb_widths_find(*const u64 = needs.as_ptr(), usize = needs.len(), *mut u8 = codes.as_mut_ptr(), usize = codes.len());
    profile(b: &[u8]) -> Answer = hb_profile(*const u8 = b.as_ptr(), usize = b.len());
    controller_start(b: &[u8]) -> Control = hb_controller_start(*const u8 = b.as_ptr(), usize = b.len());
    controller_send(b: &[u8], state: Controller) -> Sending = hb_controller_send(*const u8 = b.as_ptr(), usize = b.len(), Controller = state);
    controller_hear(b: &[u8], state: Controller, status: &[u8]) -> Control
        = hb_controller_hear(*const u8 = b.as_ptr(), usize = b.len(), Controller = state, *const u8 = status.as_ptr(), usize = status.len());
    reel_step(r: &[u8], at: u64) -> Step = hb_reel_step(*const u8 = r.as_ptr(), usize = r.len(), u64 = at);
    dump(r: &[u8], out: &mut [u8]) -> Answer = hb_dump(*const u8 = r.as_ptr(), usize = r.len(), *mut u8 = out.as_mut_ptr(), usize = out.len());
    play(t: &[u8], b: &mut [u8]) -> Day = hb_play(*const u8 = t.as_ptr(), usize = t.len(), *mut u8 = b.as_mut_ptr(), usize = b.len());
}
