// A program's main: its words, and a status that is 0 only where all went well.
use std::io::Result;

pub fn called(name: &str, run: fn(&[&str]) -> Result<bool>) {
    let words: Vec<String> = std::env::args().skip(1).collect();
    let words: Vec<&str> = words.iter().map(String::as_str).collect();
    match run(&words) {
        Ok(true) => {}
        Ok(false) => std::process::exit(1),
        Err(why) => {
            eprintln!("{}: {}", name, why);
            std::process::exit(1)
        }
    }
}
