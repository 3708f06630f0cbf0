// A file of records. tests/README.md has its form.
use crate::record::{Record, HEAD};
use std::io::{Result, Write};

// No record crosses a multiple of so many bytes.
const BLOCK: usize = 65536;

pub struct Records<W: Write> {
    to: W,
    at: usize,
}

impl<W: Write> Records<W> {
    pub fn new(to: W) -> Self {
        Records { to, at: 0 }
    }

    // A record that would cross the end of a block stands behind it, and zeros fill the block up.
    pub fn write(&mut self, record: &Record) -> Result<()> {
        let bytes = record.bytes();
        let left = BLOCK - self.at % BLOCK;
        if left < bytes.len() {
            self.to.write_all(&vec![0; left])?;
            self.at += left;
        }
        self.at += bytes.len();
        self.to.write_all(&bytes)
    }

    pub fn flush(&mut self) -> Result<()> {
        self.to.flush()
    }
}

pub fn read(bytes: &[u8]) -> impl Iterator<Item = Record> + '_ {
    bytes.chunks(BLOCK).flat_map(|block| {
        let mut at = 0;
        std::iter::from_fn(move || {
            if block.len() - at < HEAD || block[at] == 0 {
                return None;
            }
            let from = at;
            at += HEAD + block[at + 1] as usize;
            Some(Record::of(&block[from..at]))
        })
    })
}
