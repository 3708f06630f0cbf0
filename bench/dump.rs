// A dump in the Rust that one would write by hand from the reference: buffered, over C's calls, since a program with std does not start under
// `qemu-x86_64`. bench/run compares the program `dump` with it.
#![no_std]

#[path = "../target/bench/decoder.rs"]
mod decoder;

use core::panic::PanicInfo;
use decoder::Decoded;

extern "C" {
    fn open(path: *const u8, flags: i32, ...) -> i32;
    fn read(fd: i32, to: *mut u8, size: usize) -> isize;
    fn write(fd: i32, from: *const u8, size: usize) -> isize;
}

#[panic_handler]
fn panic(_: &PanicInfo) -> ! {
    loop {}
}

// Nothing unwinds here, but the core library's archive asks for it.
#[no_mangle]
pub extern "C" fn rust_eh_personality() {}

const SIZE: usize = 65536;
// No line is longer: thirteen numbers of at most twenty digits, a blank behind each.
const LINE: usize = 13 * 21;

struct Output {
    bytes: [u8; SIZE],
    len: usize,
    failed: bool,
}

impl Output {
    fn flush(&mut self) {
        let mut at = 0;
        while at < self.len && !self.failed {
            let n = unsafe { write(1, self.bytes[at..self.len].as_ptr(), self.len - at) };
            self.failed = n <= 0;
            at += n.max(0) as usize;
        }
        self.len = 0;
    }

    fn number(&mut self, mut n: u64) {
        let mut digits = [0; 20];
        let mut at = digits.len();
        loop {
            at -= 1;
            digits[at] = b'0' + (n % 10) as u8;
            n /= 10;
            if n == 0 {
                break;
            }
        }
        let text = &digits[at..];
        self.bytes[self.len..self.len + text.len()].copy_from_slice(text);
        self.len += text.len();
    }

    fn line(&mut self, index: u64, kind: u8, refusal: u8, place: u8, args: &[u64]) {
        if SIZE - self.len < LINE {
            self.flush();
        }
        self.number(index);
        for n in [kind, refusal, place] {
            self.bytes[self.len] = b' ';
            self.len += 1;
            self.number(n as u64);
        }
        for n in args {
            self.bytes[self.len] = b' ';
            self.len += 1;
            self.number(*n);
        }
        self.bytes[self.len] = b'\n';
        self.len += 1;
    }
}

fn dump(fd: i32) {
    let mut input = [0; SIZE];
    let mut output = Output { bytes: [0; SIZE], len: 0, failed: false };
    let (mut from, mut have, mut index) = (0, 0, 0);
    while !output.failed {
        while from < have && have - from > input[from] as usize {
            let next = from + 1 + input[from] as usize;
            let Decoded { refusal, place, kind, count, args } = decoder::decode(&input[from + 1..next]);
            output.line(index, kind, refusal, place, &args[..count as usize]);
            index += 1;
            from = next;
        }
        input.copy_within(from..have, 0);
        have -= from;
        from = 0;
        let n = unsafe { read(fd, input[have..].as_mut_ptr(), SIZE - have) };
        if n <= 0 {
            break;
        }
        have += n as usize;
    }
    if have > 0 {
        output.line(index, 0, 14, 0, &[]);
    }
    output.flush();
}

#[no_mangle]
pub unsafe extern "C" fn main(argc: i32, argv: *const *const u8) -> i32 {
    let fd = if argc > 1 { open(*argv.add(1), 0) } else { 0 };
    if fd < 0 {
        return 1;
    }
    dump(fd);
    0
}
