// The controller on random books, whole runs and single steps, against tests/histories/control.rs.
use super::*;
use crate::book::{image, judged};
use crate::frames::Random;
use crate::record::State;
use hoardbutton::{Control, Controller, Sending};
use lockers::any_book;

// A few more bytes than a book may have.
const LONGEST: usize = 4200;

type Content = Result<Vec<book::Frame>, u8>;

fn numbers(state: State) -> Controller {
    let (outcome, count) = state.numbers();
    Controller { outcome: outcome as u64, count }
}

// The state that the model has for these numbers; none for one that no call gives, which is over as it is.
fn state(given: Controller) -> Option<State> {
    match given.outcome {
        0 => Some(State::Running(given.count)),
        1 if given.count == 0 => Some(State::Done),
        2 => Some(State::Stopped(given.count)),
        _ => None,
    }
}

fn started(content: &Content) -> Control {
    match content {
        Err(refusal) => Control { refusal: *refusal as u32, place: 0, state: numbers(State::Done) },
        Ok(frames) => Control { refusal: 0, place: 0, state: numbers(control::start(frames)) },
    }
}

fn sent(content: &Content, given: Controller) -> Sending {
    let mut sending = Sending { refusal: 0, place: 0, over: 0, len: 0, bytes: [0; 12] };
    match content {
        Err(refusal) => sending.refusal = *refusal as u32,
        Ok(frames) => match state(given).and_then(|s| control::send(frames, s)) {
            None => sending.over = 1,
            Some(frame) => {
                sending.len = frame.len() as u32;
                sending.bytes[..frame.len()].copy_from_slice(frame);
            }
        },
    }
    sending
}

fn heard(content: &Content, given: Controller, status: &[u8]) -> Control {
    match content {
        Err(refusal) => Control { refusal: *refusal as u32, place: 0, state: given },
        Ok(frames) => Control { refusal: 0, place: 0, state: state(given).map_or(given, |s| numbers(control::hear(frames, s, status))) },
    }
}

// How often each came: running, done, stopped; nothing left to send; a refusal.
#[derive(Default)]
struct Met {
    outcomes: [u32; 3],
    over: u32,
    refused: u32,
}

// A step: what it sends, and the state behind it.
fn step(book: &'static [u8], content: &Content, state: Controller, status: &[u8], met: &mut Met) -> (Sending, Controller) {
    let (sending, control) = (sent(content, state), heard(content, state, status));
    same("hb_controller_send", hb::controller_send(book, state), sending);
    same("hb_controller_hear", hb::controller_hear(book, state, input(status)), control);
    unsafe { lent -= 1 }
    met.over += sending.over;
    met.refused += (control.refusal > 0) as u32;
    if let Some(times) = met.outcomes.get_mut(control.state.outcome as usize) {
        *times += 1;
    }
    (sending, control.state)
}

// Most are good, but for a first byte in ten, which is any.
fn any_status(random: &mut Random) -> Vec<u8> {
    let n = random.one_of(&[2, 2, 2, 2, 2, 2, 0, 1, 3, 4]);
    let mut status = random.bytes(n);
    if let (Some(high), true) = (status.first_mut(), random.percent(90)) {
        *high = *high & 0xF1 | random.one_of(&[4, 6]);
    }
    status
}

// Numbers that a caller may make up: of a state, of any size, and such as have the low bytes of a state.
fn any_state(random: &mut Random) -> Controller {
    let far = |random: &mut Random, near: u64| match random.below(2) {
        0 => random.next() >> random.below(64),
        _ => (1 << random.within(8, 63)) + near,
    };
    let (mut outcome, mut count) = (random.below(3) as u64, random.below(12) as u64);
    if random.percent(20) {
        outcome = far(random, outcome);
    }
    if random.percent(40) {
        count = far(random, count);
    }
    Controller { outcome, count }
}

// A whole run, with steps of made-up states beside it. What it sent, and where it ended, have to be as one loop says.
fn any_run(random: &mut Random, met: &mut Met) {
    let bytes = if random.percent(4) { image(&[], START + random.below(3)) } else { any_book(random, LONGEST) };
    let (content, book) = (judged(&bytes), input(&bytes));
    about("a controller\0", bytes.len() as u64);
    let mut state = started(&content).state;
    same("hb_controller_start", hb::controller_start(book), started(&content));
    let (mut frames, mut statuses) = (vec![], vec![]);
    while state.outcome == 0 {
        let status = any_status(random);
        if random.percent(10) {
            step(book, &content, any_state(random), &status, met);
        }
        let (sending, next) = step(book, &content, state, &status, met);
        if sending.len > 0 {
            frames.push(sending.bytes[..sending.len as usize].to_vec());
        }
        state = next;
        statuses.push(status);
    }
    step(book, &content, state, &any_status(random), met);
    step(book, &content, any_state(random), &any_status(random), met);
    if let Ok(held) = &content {
        let run = control::run(held, &statuses);
        same("a whole run", (frames, state, statuses.len()), (run.sent, numbers(run.end), run.steps));
    }
    given_back();
}

#[no_mangle]
pub extern "C" fn test_rust_controllers() {
    given_back();
    let (mut random, mut met) = (Random(88), Met::default());
    for _ in 0..6000 {
        any_run(&mut random, &mut met);
    }
    let times = [met.outcomes[0], met.outcomes[1], met.outcomes[2], met.over, met.refused];
    same("whether each came", times.iter().all(|times| *times > 500), true);
}
