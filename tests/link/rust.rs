// The library called from Rust, over buffers that the C harness lends (link.c): each function once good and once bad, and many frames and
// arguments against tests/oracle/model.rs. No std: so it also runs where an emulator runs the library.
#![no_std]
#![cfg_attr(before_1_68, feature(default_alloc_error_handler))]
#![allow(unknown_lints, unexpected_cfgs, dead_code, unused_imports, static_mut_refs, non_snake_case)]

#[macro_use]
extern crate alloc;
use alloc::vec::Vec;
use core::alloc::{GlobalAlloc, Layout};

// model.rs keeps its table in a thread_local, which core lacks; here is one thread, so a static will do.
macro_rules! thread_local {
    (static $name:ident: $type:ty = $made:expr;) => {
        struct Kept;
        impl Kept {
            fn with<T>(&self, see: impl Fn(&$type) -> T) -> T {
                static mut MADE: Option<$type> = None;
                unsafe { see(MADE.get_or_insert_with(|| $made)) }
            }
        }
        let $name = Kept;
    };
}

#[path = "hoardbutton.rs"]
mod hoardbutton;
#[path = "../oracle/model.rs"]
mod model;
#[path = "../oracle/widths.rs"]
mod rule;
#[path = "../oracle/profile.rs"]
mod profile;
#[path = "../oracle/lockers.rs"]
mod lockers;
#[path = "controllers.rs"]
mod controllers;
#[path = "plain.rs"]
mod plain;
#[path = "plays.rs"]
mod plays;
#[path = "profiles.rs"]
mod profiles;
#[path = "widths.rs"]
mod widths;

// Of the other tests: the plain list, the controller over it, random frames, and the model of playback.
mod book {
    use alloc::vec::Vec;
    include!("../histories/book.rs");
}
mod control {
    use alloc::vec::Vec;
    include!("../histories/control.rs");
}
mod record {
    use alloc::{string::String, vec::Vec};
    include!("../histories/record.rs");
}
mod frames {
    use alloc::vec::Vec;
    include!("../histories/frames.rs");
}
mod day {
    use alloc::vec::Vec;
    include!("../playback/day.rs");
}
mod make {
    use alloc::vec::Vec;
    include!("../playback/make.rs");
}

// The Rust's own enums give the codes, if they are beside the repository. The files of tests/oracle find Vec and Box here.
mod enums {
    pub use alloc::{boxed::Box, vec::Vec};
    #[cfg(not(source))]
    include!("../histories/enums.rs");
    #[cfg(source)]
    include!("../oracle/enums.rs");
}

#[cfg(source)]
#[path = "../oracle/driver.rs"]
mod driver;
#[cfg(source)]
use driver::{cmd, status, Lr2021Error};

use book::{FULL, FULL_REPLAY, SLOTS, START, VERSION};
use hoardbutton as hb;
use hoardbutton::{Answer, Decoded, Frame, Step};
use model::{commands, Built, Command, KINDS};

// The sizes that hoardbutton.rs has of the header are those of the plain list.
const _: () = assert!(hb::BOOK_ALL == FULL && hb::REPLAY_MAX == FULL_REPLAY);

extern "C" {
    static mut lent: u32;
    fn lend(n: usize) -> *mut u8;
    fn lend_const(from: *const u8, n: usize) -> *const u8;
    fn any() -> u64;
    fn trying(call: *const u8, input: *const u8, number: u64);
    fn malloc(n: usize) -> *mut u8;
    fn free(p: *mut u8);
    #[link_name = "same"]
    fn passed(what: *const u8, got: u64, wanted: u64);
    fn failed(text: *const u8, n: usize) -> !;
}

struct Libc;
unsafe impl GlobalAlloc for Libc {
    unsafe fn alloc(&self, layout: Layout) -> *mut u8 { malloc(layout.size()) }
    unsafe fn dealloc(&self, p: *mut u8, _: Layout) { free(p) }
}
#[global_allocator]
static LIBC: Libc = Libc;

fn stopped(text: &str) -> ! {
    unsafe { failed(text.as_ptr(), text.len()) }
}
#[panic_handler]
fn panic(why: &core::panic::PanicInfo) -> ! {
    stopped(&format!("{}", why))
}
// Nothing unwinds here, but the core library's archive asks for it.
#[no_mangle]
pub extern "C" fn rust_eh_personality() {}

pub fn random() -> u64 {
    unsafe { any() }
}

// What is tried from here on, for the report of a crash. The name ends in a zero, and the number is a kind or a length.
pub fn about(call: &'static str, number: u64) {
    unsafe { trying(call.as_ptr(), b"from Rust\0".as_ptr(), number) }
}

// A slice on lent memory, for one call: the next `given_back` takes it back.
pub fn input<T>(values: &[T]) -> &'static [T] {
    let n = core::mem::size_of_val(values);
    unsafe { core::slice::from_raw_parts(lend_const(values.as_ptr() as *const u8, n) as *const T, values.len()) }
}
pub fn output(n: usize) -> &'static mut [u8] {
    unsafe { core::slice::from_raw_parts_mut(lend(n), n) }
}
pub fn given_back() {
    unsafe { lent = 0 }
}

pub fn same<T: PartialEq + core::fmt::Debug>(what: &str, got: T, wanted: T) {
    if got != wanted {
        stopped(&format!("{}: {:X?} is not {:X?}", what, got, wanted));
    }
    unsafe { passed(b"\0".as_ptr(), 0, 0) }
}

pub fn framed(built: Built) -> Frame {
    match built {
        Built::Refused(number, place) => Frame { refusal: number as u32, place: place as u32, len: 0, bytes: [0; 12] },
        Built::Frame(frame) => {
            let mut bytes = [0; 12];
            bytes[..frame.len()].copy_from_slice(&frame);
            Frame { refusal: 0, place: 0, len: frame.len() as u32, bytes }
        }
    }
}

// Each argument in turn: every small number, so that each code and the first past it is met, and the limits of a wide field.
pub fn each_argument(c: &Command, build: impl Fn(u64, &[u64])) {
    for (i, field) in c.fields.iter().enumerate() {
        let limit = 1u64.checked_shl(field.bits.len() as u32).unwrap_or(0);
        for v in (0..=257).chain([limit.wrapping_sub(1), limit, 1 << 32, 1 << 63, u64::MAX]) {
            let mut args: Vec<u64> = c.fields.iter().map(good).collect();
            args[i] = v;
            build(c.kind, &args);
        }
    }
}

fn checked(kind: u64, args: &[u64]) -> Frame {
    about("hb_checked\0", kind);
    let got = hb::checked(kind, input(args));
    same(&format!("hb_checked of {} {:?}", kind, args), got, framed(model::checked(kind, args)));
    given_back();
    got
}

fn decoded(frame: &[u8]) {
    let mut wanted = Decoded { refusal: 0, place: 0, kind: 0, count: 0, args: [0; 9] };
    match model::decode(frame) {
        model::Decoded::Refused(number, place) => (wanted.refusal, wanted.place) = (number as u32, place as u32),
        model::Decoded::Kind(kind, args) => {
            (wanted.kind, wanted.count) = (kind as u32, args.len() as u32);
            wanted.args[..args.len()].copy_from_slice(&args);
        }
    }
    about("hb_decode\0", frame.len() as u64);
    same(&format!("hb_decode of {:02X?}", frame), hb::decode(input(frame)), wanted);
    given_back();
}

// A value that the field allows, often a least or a greatest one.
pub fn good(field: &model::Field) -> u64 {
    match (field.codes, random() % 3) {
        (Some(codes), _) => codes[random() as usize % codes.len()],
        (None, 0) => field.cut(random() & 1),
        (None, 1) => field.most,
        (None, _) => field.cut(random()),
    }
}

// Good arguments and their frame; then arguments and frames that are damaged in one way or another.
fn against_model(c: &Command) {
    let mut args: Vec<u64> = c.fields.iter().map(good).collect();
    let frame = checked(c.kind, &args);
    let mut bytes = frame.bytes[..frame.len as usize].to_vec();
    decoded(&bytes);
    let at = random() as usize % bytes.len();
    bytes[at] ^= 1 << random() % 8;
    decoded(&bytes);
    bytes[2..].iter_mut().for_each(|b| *b = random() as u8);
    decoded(&bytes);
    bytes.truncate(random() as usize % 13);
    decoded(&bytes);
    bytes.extend((0..random() % 4).map(|_| random() as u8));
    decoded(&bytes);
    if !args.is_empty() {
        let at = random() as usize % args.len();
        args[at] = random() >> random() % 64;
        checked(c.kind, &args);
    }
    args.resize(random() as usize % 12, 0);
    checked(c.kind, &args);
    checked(random() >> random() % 64, &args);
}

// Done with so many bytes written, or refused.
fn done(value: u64) -> Answer {
    Answer { refusal: 0, place: 0, value }
}
fn refused(refusal: u32) -> Answer {
    Answer { refusal, place: 0, value: 0 }
}

fn books() {
    let (frame, book, out, reel, text) = (input(&[2, 0x23, 0x34]), output(START + 3), output(3), output(4), output(11));
    same("hb_book_clear of no book", hb::book_clear(book), refused(10));
    same("hb_book_make", (hb::book_make(book), hb::book_make(&mut [])), (done(0), refused(11)));
    same("hb_book_put", (hb::book_put(book, frame), hb::book_put(book, &[])), (done(0), refused(1)));
    same("hb_book_put, no room", hb::book_put(book, &hb::checked(25, &[1]).bytes[..3]), refused(8));
    same("hb_book_ask", (hb::book_ask(book, 4, &mut out[..2]), hb::book_ask(book, 4, out), &*out), (refused(12), done(3), frame));
    same("hb_book_replay", (hb::book_replay(book, &mut reel[..3]), hb::book_replay(book, reel)), (refused(12), done(4)));
    same("hb_reel_step", hb::reel_step(reel, 0), Step { refusal: 0, ended: 0, start: 1, end: 4, next: 4 });
    same("hb_reel_step", hb::reel_step(reel, 5), Step { refusal: 14, ended: 0, start: 0, end: 0, next: 0 });
    same("hb_dump", (hb::dump(reel, &mut text[..10]), hb::dump(reel, text), &*text), (refused(12), done(11), b"0 4 0 0 52\n"));
    same("hb_book_remove", (hb::book_remove(book, 4), hb::book_remove(book, 4)), (done(0), refused(9)));
    same("hb_book_clear", hb::book_clear(book), done(0));
    same("hb_level_text", (hb::level_text(65535, &mut text[..8]), &text[..8]), (done(8), &b"-32767.5"[..]));
    same("hb_snr_text", (hb::snr_text(-7, text), &text[..5]), (done(5), &b"-1.75"[..]));
    same("texts, no room", (hb::level_text(181, &mut text[..4]), hb::snr_text(0, &mut [])), (refused(12), refused(12)));
    same("hb_counter_difference", hb::counter_difference(65535, 3), 4);
    same("widths", (hb::lora_bw_hz(12), hb::lora_bw_hz(16), hb::rx_bw_tenths(31), hb::rx_bw_tenths(255)), (101562, 0, 60, 0));
    given_back();
}

// The receive path with its boost, the frequency, the path without the boost, and with it again; then a stored book that has it both ways.
fn forms() {
    let (book, reel) = (output(START + 10), output(12));
    same("hb_book_make", hb::book_make(book), done(0));
    for frame in [&[2, 1, 1, 4][..], &[2, 0, 0x33, 0xBE, 0x27, 0xA0], &[2, 1, 1], &[2, 1, 1, 7]] {
        same("hb_book_put", hb::book_put(book, frame), done(0));
    }
    same("hb_book_ask, hb_book_remove", (hb::book_ask(book, 25, reel), hb::book_remove(book, 25)), (refused(9), refused(9)));
    same("hb_book_replay", (hb::book_replay(book, reel), &*reel), (done(12), &[4, 2, 1, 1, 7, 6, 2, 0, 0x33, 0xBE, 0x27, 0xA0]));
    book.fill(0);
    let start = START as u8;
    for (at, byte) in [(0, VERSION), (1, 2), (3, start + 7), (43, start), (45, start + 3)] {
        book[at] = byte;
    }
    book[START..START + 7].copy_from_slice(&[2, 1, 0, 2, 1, 0, 7]);
    same("hb_book_ask, hb_book_remove", (hb::book_ask(book, 25, reel), hb::book_remove(book, 26)), (refused(16), refused(16)));
    same("hb_book_put, hb_book_clear", (hb::book_put(book, &[2]), hb::book_clear(book)), (refused(16), refused(16)));
    same("hb_book_replay", hb::book_replay(book, reel), refused(16));
    given_back();
}

// The frequency and the FSK settings have two owners: each side fills its quota, and neither sees the other's frame.
fn sides() {
    let (book, out, reel, quotas) = (output(START + 10), output(4), output(12), [6, 4]);
    let mut owners = [1; SLOTS];
    owners[12..18].fill(2);
    let (owners, frequency, addresses) = (input(&owners), input(&[2, 0, 0x33, 0xBE, 0x27, 0xA0]), input(&[2, 0x45, 17, 255]));
    same("hb_side_clear of no book", hb::side_clear(book, owners, quotas, 1), refused(10));
    same("hb_book_make", hb::book_make(book), done(0));
    same("hb_side_put", (hb::side_put(book, owners, quotas, 1, frequency), hb::side_put(book, owners, quotas, 1, &[2])), (done(0), refused(1)));
    same("hb_side_put, the other's", hb::side_put(book, owners, quotas, 1, addresses), refused(18));
    same("hb_side_put", hb::side_put(book, owners, quotas, 2, addresses), done(0));
    same("hb_side_put, over the quota", hb::side_put(book, owners, quotas, 1, &[2, 1, 0]), refused(8));
    same("hb_side_ask", (hb::side_ask(book, owners, quotas, 2, 21, out), &*out), (done(4), addresses));
    same("hb_side_ask", (hb::side_ask(book, owners, quotas, 2, 24, out), hb::side_ask(book, owners, quotas, 2, 20, out)), (refused(18), refused(9)));
    same("hb_side_replay", (hb::side_replay(book, owners, quotas, 2, reel), &reel[..5]), (done(5), &[4, 2, 0x45, 17, 255][..]));
    same("hb_side_replay", hb::side_replay(book, owners, quotas, 1, &mut reel[..6]), refused(12));
    same("a wrong table", (hb::side_clear(book, &owners[1..], quotas, 1), hb::side_clear(book, owners, [6, u64::MAX], 2)), (refused(17), refused(17)));
    same("hb_side_remove", (hb::side_remove(book, owners, quotas, 1, 21), hb::side_remove(book, owners, quotas, 1, 24)), (refused(18), done(0)));
    same("hb_side_clear", (hb::side_clear(book, owners, quotas, 2), hb::book_replay(book, reel)), (done(0), done(0)));
    given_back();
}

// The bytes are 81, 82 and so on.
fn responses() {
    let bytes: Vec<u8> = (0x81..0x91).collect();
    let b = |n: usize| {
        given_back();
        input(&bytes[..n])
    };
    let r = hb::status(b(2));
    same("hb_status", (r.value, r.irq, r.ok, r.cmd, r.reset_src, r.chip_mode), (0x8182, true, false, 0, 16, 2));
    same("hb_status, hb_intr", (hb::status(&[]).value, hb::intr(b(4)), hb::intr(&[])), (0, 0x81828384, 0));
    let r = hb::lora_rx_stats(b(12));
    same("hb_lora_rx_stats", (r.status, r.pkt_rx, r.crc_error, r.header_error), (0x8182, 0x8384, 0x8586, 0x8788));
    same("hb_lora_rx_stats", (r.detection, r.false_sync, hb::lora_rx_stats(b(11)).refusal), (0x898A, 0x8B8C, 7));
    let r = hb::lora_packet_status(b(8));
    same("hb_lora_packet_status", (r.crc, r.coding_rate, r.pkt_length, r.snr_pkt), (false, 3, 0x84, 0x85u8 as i8));
    same("hb_lora_packet_status", (r.rssi_pkt, r.rssi_signal_pkt, r.detector), (2 * 0x86, 2 * 0x87, 2));
    let r = hb::fsk_rx_stats(b(16));
    same("hb_fsk_rx_stats", (r.pkt_rx, r.crc_error, r.len_error, r.pbl_det), (0x8384, 0x8586, 0x8788, 0x898A));
    same("hb_fsk_rx_stats", (r.sync_ok, r.sync_fail, r.timeout), (0x8B8C, 0x8D8E, 0x8F90));
    let r = hb::fsk_packet_status(b(8));
    same("hb_fsk_packet_status", (r.pkt_len, r.rssi_avg, r.rssi_sync), (0x8384, 2 * 0x85 + 1, 2 * 0x86 + 1));
    same("hb_fsk_packet_status", (r.addr_match_bcast, r.addr_match_node, r.lqi), (false, false, 0x88));
    same("hb_rssi_inst", (hb::rssi_inst(b(4)).rssi, hb::rssi_inst(b(5)).refusal), (2 * 0x83, 7));
    same("hb_timestamp_value", (hb::timestamp_value(b(6)).timestamp, hb::timestamp_value(b(4)).refusal), (0x83848586, 7));
    let r = hb::cca_result(b(6));
    same("hb_cca_result", (r.rssi_min, r.rssi_max, r.rssi_avg, hb::cca_result(b(3)).refusal), (2 * 0x83 + 1, 2 * 0x84 + 1, 2 * 0x85, 7));
    same("hb_lora_packet_status, hb_fsk_packet_status", (hb::lora_packet_status(b(9)).refusal, hb::fsk_packet_status(b(7)).refusal), (7, 7));
    same("hb_fsk_rx_stats of none", hb::fsk_rx_stats(&[]).refusal, 7);
    given_back();
}

#[no_mangle]
pub extern "C" fn test_rust() {
    given_back();
    about("a call\0", 0);
    books();
    forms();
    sides();
    responses();
    commands().iter().for_each(|c| each_argument(c, |kind, args| drop(checked(kind, args))));
    for _ in 0..250 {
        commands().iter().for_each(against_model);
    }
}
