// hb_play on random traces and books of many lengths, wrong ones included, against tests/playback.
use super::*;
use crate::book::Book;
use crate::frames::Random;
use crate::record::Record;

const FILL: u8 = 0xA5;

// A response read from its bytes, with its mark that it was; zeros where there was none.
fn last<T>(bytes: &Option<Vec<u8>>, read: fn(&[u8]) -> T) -> (bool, T) {
    match bytes {
        Some(bytes) => (true, read(bytes)),
        None => (false, unsafe { core::mem::zeroed() }),
    }
}

fn wanted(day: &day::Day) -> hb::Day {
    let (has_lora_rx_stats, lora_rx_stats) = last(&day.readings[0], hb::lora_rx_stats);
    let (has_lora_packet_status, lora_packet_status) = last(&day.readings[1], hb::lora_packet_status);
    let (has_fsk_rx_stats, fsk_rx_stats) = last(&day.readings[2], hb::fsk_rx_stats);
    let (has_fsk_packet_status, fsk_packet_status) = last(&day.readings[3], hb::fsk_packet_status);
    hb::Day {
        refusal: day.refusal as u32,
        place: day.place as u64,
        records: day.events.len() as u64,
        accepted: day.accepted,
        skipped: day.skipped,
        refused: day.refused,
        has_lora_rx_stats,
        has_lora_packet_status,
        has_fsk_rx_stats,
        has_fsk_packet_status,
        lora_rx_stats,
        lora_packet_status,
        fsk_rx_stats,
        fsk_packet_status,
    }
}

// Most books have room for some settings and not for all; some have no length of a book.
fn size(random: &mut Random) -> usize {
    match random.below(16) {
        0 => random.below(START),
        1 => random.within(4090, 4200),
        2 => random.below(4201),
        _ => random.within(START, FULL + 20),
    }
}

#[no_mangle]
pub extern "C" fn test_rust_plays() {
    let (mut maker, mut random) = (make::Maker::new(12), Random(12));
    let mut refused = [0; 16];
    for _ in 0..6000 {
        let (trace, size) = (maker.trace(), size(&mut random));
        let mut book = Book::new();
        book.carry_out(&Record::Lend { length: size, first: 0 });
        let day = day::play(&trace, book);
        about("hb_play\0", size as u64);
        let out = output(size);
        same(&format!("hb_play of {:02X?} on {} bytes", trace, size), hb::play(input(&trace), out), wanted(&day));
        let kept = if day.refusal == 11 { vec![FILL; size] } else { day.book.bytes };
        same(&format!("the book after hb_play of {:02X?} on {} bytes", trace, size), &*out, &kept[..]);
        given_back();
        refused[day.refusal as usize] += 1;
        refused.iter_mut().zip(day.refused).for_each(|(total, n)| *total += n);
    }
    let met: Vec<usize> = (1..16).filter(|number| refused[*number] > 0).collect();
    same("refusals that were met", &met[..], &[1, 2, 3, 4, 5, 8, 11, 15][..]);
}
