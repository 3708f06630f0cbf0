// The reports of the program `play` beside those of the model, many traces to a run.
use crate::make::Maker;
use crate::record::hex;
use crate::report_of;
use crate::seen::Seen;
use std::io::{Result, Write};
use std::path::Path;
use std::process::{ChildStdin, Command, Stdio};
use std::time::Duration;

// So many traces go to one run: the first by standard input, the others as files.
const BATCH: usize = 1000;
// In so many runs, standard input comes in small pieces, and goes on coming while the program reads.
const SLOW: usize = 50;

struct Named {
    name: String,
    trace: Vec<u8>,
}

fn named(name: &str, trace: Vec<u8>) -> Named {
    Named { name: name.into(), trace }
}

// A program that has enough before the end of its input closes it.
fn give(mut input: ChildStdin, trace: &[u8], slowly: bool) {
    let piece = if slowly { trace.len() / 100 + 1 } else { trace.len().max(1) };
    for part in trace.chunks(piece) {
        if input.write_all(part).is_err() {
            return;
        }
        std::thread::sleep(Duration::from_micros(if slowly { 600 } else { 0 }));
    }
}

// What the program writes in this folder.
fn run(program: &[&str], folder: &Path, batch: &[Named], slowly: bool) -> Result<Vec<u8>> {
    let mut command = Command::new(program[0]);
    command.args(&program[1..]).args(batch.iter().map(|t| &t.name)).current_dir(folder);
    let mut child = command.stdin(Stdio::piped()).stdout(Stdio::piped()).spawn()?;
    let input = child.stdin.take().expect("a standard input");
    let output = std::thread::scope(|scope| {
        scope.spawn(|| give(input, &batch[0].trace, slowly));
        child.wait_with_output()
    });
    Ok(output?.stdout)
}

fn differs(trace: &Named, report: &str, written: &[u8]) {
    let written = String::from_utf8_lossy(written);
    let theirs = written.find("\ntrace ").map_or(&written[..], |end| &written[..=end]);
    println!("the reports of a trace of {} bytes differ: {}", trace.trace.len(), hex(&trace.trace[..trace.trace.len().min(600)]));
    println!("the model's:\n{}the program's:\n{}", report, theirs);
}

// Plays the traces of a run, and says which of them has another report, if one has.
fn is_same(program: &[&str], folder: &Path, batch: &[Named], slowly: bool, seen: &mut Seen) -> Result<bool> {
    for t in &batch[1..] {
        std::fs::write(folder.join(&t.name), &t.trace)?;
    }
    let written = run(program, folder, batch, slowly)?;
    // A file that is written over, and not anew, waits for the disk.
    for t in &batch[1..] {
        std::fs::remove_file(folder.join(&t.name))?;
    }
    let mut rest = &written[..];
    for t in batch {
        let (day, report) = report_of(&t.name, &t.trace);
        seen.add(&t.trace, &day);
        if !rest.starts_with(report.as_bytes()) {
            differs(t, &report, rest);
            return Ok(false);
        }
        rest = &rest[report.len()..];
    }
    if !rest.is_empty() {
        println!("the program writes more than the reports: {}", String::from_utf8_lossy(rest));
    }
    Ok(rest.is_empty())
}

// Traces that are longer than the program's buffers, each by standard input and from a file.
fn long(program: &[&str], folder: &Path, maker: &mut Maker, seen: &mut Seen) -> Result<bool> {
    let traces = [maker.long(5000), maker.long(65535), maker.longest()];
    for trace in traces {
        let batch = [named("-", trace.clone()), named("long", trace)];
        if !is_same(program, folder, &batch, true, seen)? {
            return Ok(false);
        }
    }
    Ok(true)
}

pub fn compare(count: usize, folder: &str, program: &[&str]) -> Result<bool> {
    let folder = Path::new(folder);
    let mut maker = Maker::new(2021);
    let mut seen = Seen::default();
    if !long(program, folder, &mut maker, &mut Seen::default())? {
        return Ok(false);
    }
    for run in 0..(count + BATCH - 1) / BATCH {
        let size = BATCH.min(count - run * BATCH);
        let name = |i: usize| if i == 0 { "-".into() } else { format!("{}.trace", i) };
        let batch: Vec<Named> = (0..size).map(|i| named(&name(i), maker.trace())).collect();
        if !is_same(program, folder, &batch, run < SLOW, &mut seen)? {
            return Ok(false);
        }
    }
    println!("{}", seen.words());
    let missing = seen.missing();
    if !missing.is_empty() {
        println!("never met: {}", missing.join(", "));
    }
    Ok(missing.is_empty())
}
