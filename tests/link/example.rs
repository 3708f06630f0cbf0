// Settings of a radio in a book: built, put, replayed and dumped; and a level as text.
// rustc example.rs -L native=DIRECTORY -l static=hoardbutton, with the directory of libhoardbutton.a.
mod hoardbutton;
use hoardbutton as hb;

// Builds a setting and puts it into the book, or says why not.
fn set(book: &mut [u8], kind: u64, args: &[u64]) {
    let frame = hb::checked(kind, args);
    if frame.refusal != 0 {
        println!("refusal {} at argument {}", frame.refusal, frame.place);
        return;
    }
    let kept = hb::book_put(book, &frame.bytes[..frame.len as usize]);
    assert_eq!(kept.refusal, 0, "the book has room for all settings");
}

fn main() {
    let (mut book, mut reel, mut text) = ([0; hb::BOOK_ALL], [0; hb::REPLAY_MAX], [0; hb::DUMP_BYTE_MAX * hb::REPLAY_MAX]);
    hb::book_make(&mut book);

    // Kind 24 is the frequency in Hz. Kind 1 is the LoRa modulation: Sf7, Bw125, Cr1Ham45Si, no optimisation, filter by the radio.
    set(&mut book, 24, &[868_100_000]);
    set(&mut book, 1, &[7, 4, 1, 0, 0]);
    // No width has the code 16.
    set(&mut book, 1, &[7, 16, 1, 0, 0]);

    let played = hb::book_replay(&book, &mut reel).value as usize;
    let dumped = hb::dump(&reel[..played], &mut text).value as usize;
    print!("{}", String::from_utf8_lossy(&text[..dumped]));
    let level = hb::level_text(181, &mut text).value as usize;
    println!("{} dBm", String::from_utf8_lossy(&text[..level]));
}
