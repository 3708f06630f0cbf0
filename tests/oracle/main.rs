// The supplied Rust as an oracle, and a model of ours for what it has no answer to. It makes requests and answers them, by the Rust files as
// they stand, unchanged, and by the model; the Rattle program `vectors` answers the same requests. tests/README.md has the form of both.
// Compiled without `--cfg source`, where those files are not at hand, it leaves out what only they can answer, and tells how much that is.
//
//   oracle wide REQUESTS ANSWERS            writes the wide set, and prints how many requests each group has
//   oracle sample REQUESTS ANSWERS          writes the small set that is stored with the program
//   oracle stored REQUESTS ANSWERS          holds stored answers to those that it has
//   oracle differ REQUESTS ANSWERS OTHERS   prints the first request whose answers differ
#![allow(unknown_lints, unexpected_cfgs, dead_code)]

mod answers;
mod banks;
#[path = "../histories/book.rs"]
mod book;
mod builders;
mod coded;
#[cfg(source)]
#[path = "../histories/enums.rs"]
mod codes;
#[cfg(source)]
mod driver;
#[cfg(source)]
mod enums;
#[cfg(not(source))]
#[path = "../histories/enums.rs"]
mod enums;
#[path = "../histories/frames.rs"]
mod frames;
mod lockers;
mod model;
mod profile;
#[path = "../histories/record.rs"]
mod record;
mod sets;
mod shown;
mod texts;
mod widths;

#[cfg(source)]
use driver::{cmd, status, Lr2021Error};

pub const REQUEST: usize = 112;
pub const HEAD: usize = 4;
pub const PAYLOAD: usize = 108;
pub const ANSWER: usize = 80;

// The codes as tests/histories has them are the Rust's, in whatever order, and the widths are those that its names say.
#[cfg(source)]
fn as_the_rust() {
    fn sorted(codes: &[u64]) -> Vec<u64> {
        let mut codes = codes.to_vec();
        codes.sort();
        codes
    }
    assert_eq!(codes::ENUMS.len(), enums::ENUMS.len(), "the number of enums");
    for (name, listed) in codes::ENUMS {
        let rust = enums::ENUMS.iter().find(|(other, _)| other == name).map(|(_, codes)| sorted(codes));
        assert_eq!(Some(sorted(listed)), rust, "the codes of {}", name);
    }
    for code in 0..=255 {
        assert_eq!(answers::tenths(code), answers::rust::tenths_by_name(code), "the width of code {}", code);
    }
}

fn main() {
    #[cfg(source)]
    as_the_rust();
    let words: Vec<String> = std::env::args().skip(1).collect();
    let words: Vec<&str> = words.iter().map(String::as_str).collect();
    let done = match words.as_slice() {
        ["wide", requests, answers] => sets::wide(requests, answers),
        ["sample", requests, answers] => sets::sample(requests, answers),
        ["stored", requests, answers] => sets::stored(requests, answers),
        ["differ", requests, answers, others] => shown::differ(requests, answers, others),
        _ => {
            eprintln!("oracle wide|sample|stored REQUESTS ANSWERS, or oracle differ REQUESTS ANSWERS OTHERS");
            std::process::exit(2)
        }
    };
    if let Err(why) = done {
        eprintln!("oracle: {}", why);
        std::process::exit(1)
    }
}
