// What a controller's histories came to: every call in every state, every refusal in each, every status at every place of a run, every place of a stop
// and every way to alter a book between two steps has to be met. Here too whole runs are held to one loop over the replay.
use crate::book::{Frame, MOST_FRAMES};
use crate::compare::{Step, Watch};
use crate::control::{code, run, Run, Said};
use crate::record::{Record, State};
use std::collections::BTreeMap;

#[derive(Clone, Copy, Debug, PartialEq, Eq, PartialOrd, Ord)]
enum Name {
    Start,
    Send,
    Hear,
}

// Where a state stands in a book: none of its frames are sent, some or all; the run is over; or it is said to run in a book of fewer frames than are
// sent, or of none.
#[derive(Clone, Copy, Debug, PartialEq, Eq, PartialOrd, Ord)]
enum Stands {
    First,
    Amid,
    All,
    Done,
    Stopped,
    Past,
    Empty,
}

use Stands::*;

impl Stands {
    fn of(state: State, frames: &[Frame]) -> Stands {
        let held = frames.len() as u64;
        match state {
            State::Done => Done,
            State::Stopped(_) => Stopped,
            State::Running(_) if held == 0 => Empty,
            State::Running(0) => First,
            State::Running(sent) if sent < held => Amid,
            State::Running(sent) if sent == held => All,
            State::Running(_) => Past,
        }
    }
}

// What altered a book between two steps.
#[derive(Clone, Copy, Debug, PartialEq, Eq, PartialOrd, Ord)]
enum By {
    Put,
    Remove,
    Clear,
    Poke,
    Make,
}

// How a whole run ended: of an empty book at once, done, or stopped, at its last frame or at another.
#[derive(Clone, Copy, Debug, PartialEq, Eq, PartialOrd, Ord)]
enum Whole {
    AtOnce,
    AllGood,
    Amidst,
    AtLast,
}

// What a call met.
#[derive(Clone, Copy, Debug, PartialEq, Eq, PartialOrd, Ord)]
enum Met {
    // A refusal, in a state of this outcome; a start has none.
    Refused(Name, Option<u8>, u8),
    // Whether a start had frames to send.
    Starts(bool),
    Calls(Name, Stands),
    // The frame of this place, from 1, was sent; its status stopped the run.
    Sends(u64),
    Stops(u64),
    // What a status said, and the bits of one that judged a frame; whether one of so many bytes was good.
    Heard(Stands, Said),
    Code(u8),
    Length(usize, bool),
    // The greatest count that there is, in a state of this outcome; one past the frames whose low byte is not.
    Greatest(Name, u8),
    Low(Name),
    // The next step came on other bytes, which were written by this, and stands so in them.
    Altered(By, Stands),
    Ran(Whole),
    // A step of a run behind its end, on the same bytes.
    Behind,
}

// A run from its start on, while the book stays as it is.
struct Following {
    book: Vec<u8>,
    frames: Vec<Frame>,
    state: State,
    sent: Vec<Vec<u8>>,
    statuses: Vec<Vec<u8>>,
    // Whether this step has sent, and the status is yet to come.
    is_sent: bool,
    is_closed: bool,
}

#[derive(Default)]
pub struct SeenControl {
    histories: u64,
    calls: [u64; 3],
    refusals: BTreeMap<u8, u64>,
    met: BTreeMap<Met, u64>,
    // Whole runs, by the number of frames and by how they ended, as numbers.
    runs: BTreeMap<(usize, (u8, u64)), u64>,
    following: Option<Following>,
    // The latest running state that a call gave, with the bytes that it was on, and what altered them.
    latest: Option<(State, Vec<u8>)>,
    altered: Option<By>,
}

// The program's output, behind its answer and the book.
fn output<'a>(step: &Step<'a>) -> &'a [u8] {
    &step.program[4 + step.book.bytes.len()..]
}

// The state that the program wrote.
fn told(step: &Step) -> State {
    let (outcome, count) = output(step)[..9].split_at(1);
    State::of(outcome[0], count.iter().fold(0, |n, b| n << 8 | *b as u64))
}

impl Following {
    // The book's bytes stay the same, and the step goes by the state that the one before gave.
    fn goes_on(&self, step: &Step, state: State) -> bool {
        self.book == step.book.bytes && self.state == state
    }

    // The run has ended: says what is wrong with it as a whole.
    fn closed(&mut self) -> Option<String> {
        self.is_closed = true;
        let wanted = run(&self.frames, &self.statuses);
        let was = Run { sent: std::mem::take(&mut self.sent), end: self.state, steps: self.statuses.len() };
        let (held, steps) = (self.frames.len(), was.steps);
        if was != wanted || steps > held + 1 || held == 0 && steps > 0 {
            return Some(format!("a run of {} frames by {:02x?}:\n  as one loop: {:?}\n  step by step: {:?}", held, self.statuses, wanted, was));
        }
        None
    }

    fn whole(&self) -> Whole {
        match self.state {
            State::Done if self.frames.is_empty() => Whole::AtOnce,
            State::Stopped(position) if position < self.frames.len() as u64 => Whole::Amidst,
            State::Stopped(_) => Whole::AtLast,
            _ => Whole::AllGood,
        }
    }
}

impl SeenControl {
    fn meet(&mut self, met: Met) {
        *self.met.entry(met).or_default() += 1;
    }

    // Ends the run that is followed, if its state is an end.
    fn close(&mut self) -> Option<String> {
        let following = self.following.as_mut().filter(|f| !f.is_closed && !matches!(f.state, State::Running(_)))?;
        let wrong = following.closed();
        let (frames, end, whole) = (following.frames.len(), following.state.numbers(), following.whole());
        *self.runs.entry((frames, end)).or_default() += 1;
        self.meet(Met::Ran(whole));
        wrong
    }

    fn follow_start(&mut self, step: &Step, frames: &[Frame]) -> Option<String> {
        let (book, state) = (step.book.bytes.clone(), told(step));
        self.following =
            Some(Following { book, frames: frames.to_vec(), state, sent: vec![], statuses: vec![], is_sent: false, is_closed: false });
        self.close()
    }

    fn follow_send(&mut self, step: &Step, state: State) -> Option<String> {
        let following = self.following.as_mut().filter(|f| f.goes_on(step, state))?;
        let (is_over, sent) = (output(step)[0] == 1, output(step)[2..2 + output(step)[1] as usize].to_vec());
        following.is_sent = true;
        if is_over != following.is_closed || is_over && !sent.is_empty() {
            return Some("a run that goes on sends nothing, or one that has ended sends".into());
        }
        if !sent.is_empty() {
            following.sent.push(sent);
        }
        None
    }

    fn follow_hear(&mut self, step: &Step, state: State, status: &[u8]) -> Option<String> {
        let following = self.following.as_mut().filter(|f| f.goes_on(step, state) && f.is_sent)?;
        following.is_sent = false;
        following.state = told(step);
        if following.is_closed {
            let is_kept = following.state == state;
            self.meet(Met::Behind);
            return if is_kept { None } else { Some("a step after the end changes the state".into()) };
        }
        following.statuses.push(status.to_vec());
        self.close()
    }

    // A status in a state that is not over judges a frame, but for the first.
    fn judged(&mut self, stands: Stands, status: &[u8], after: State) {
        self.meet(Met::Heard(stands, Said::of(status)));
        if let Amid | All = stands {
            self.meet(Met::Code(code(status)));
            self.meet(Met::Length(status.len(), !Said::of(status).is_bad()));
            if let State::Stopped(position) = after {
                self.meet(Met::Stops(position));
            }
        }
    }

    // A send or a hear on a sound book.
    fn called(&mut self, name: Name, state: State, step: &Step, frames: &[Frame]) -> Stands {
        let (stands, (outcome, count)) = (Stands::of(state, frames), state.numbers());
        self.meet(Met::Calls(name, stands));
        if count == u64::MAX {
            self.meet(Met::Greatest(name, outcome));
        }
        if stands == Past && count % 256 <= frames.len() as u64 {
            self.meet(Met::Low(name));
        }
        if let (Some((latest, bytes)), Some(by)) = (&self.latest, self.altered) {
            if *latest == state && *bytes != step.book.bytes {
                self.meet(Met::Altered(by, stands));
            }
        }
        stands
    }

    // A call that was answered by a state or by what is sent.
    fn answered(&mut self, step: &Step, frames: &[Frame]) -> Option<String> {
        match step.record {
            Record::Start => {
                self.meet(Met::Starts(told(step) != State::Done));
                self.keep(step);
                self.follow_start(step, frames)
            }
            Record::Send { state } => {
                self.called(Name::Send, *state, step, frames);
                if let (State::Running(sent), [_, 1..=12, ..]) = (state, output(step)) {
                    self.meet(Met::Sends(sent + 1));
                }
                self.follow_send(step, *state)
            }
            Record::Hear { state, status } => {
                let stands = self.called(Name::Hear, *state, step, frames);
                self.judged(stands, status, told(step));
                self.keep(step);
                self.follow_hear(step, *state, status)
            }
            _ => None,
        }
    }

    fn keep(&mut self, step: &Step) {
        self.latest = Some((told(step), step.book.bytes.clone()));
        self.altered = None;
    }

    fn call(&mut self, step: &Step, name: Name, state: Option<State>) -> Option<String> {
        self.calls[name as usize] += 1;
        match step.before {
            Ok(frames) => self.answered(step, frames),
            Err(_) => {
                let refusal = step.answer.refusal;
                *self.refusals.entry(refusal).or_default() += 1;
                self.meet(Met::Refused(name, state.map(|s| s.numbers().0), refusal));
                None
            }
        }
    }
}

fn owed() -> Vec<Met> {
    let mut all = vec![Met::Starts(true), Met::Starts(false), Met::Behind];
    all.extend([Whole::AtOnce, Whole::AllGood, Whole::Amidst, Whole::AtLast].map(Met::Ran));
    all.extend([(By::Put, Amid), (By::Remove, All), (By::Remove, Past), (By::Clear, Empty), (By::Poke, All)].map(|(by, stands)| Met::Altered(by, stands)));
    for refusal in [11, 10, 16] {
        all.push(Met::Refused(Name::Start, None, refusal));
        for name in [Name::Send, Name::Hear] {
            all.extend([0, 1, 2].map(|outcome| Met::Refused(name, Some(outcome), refusal)));
        }
    }
    for name in [Name::Send, Name::Hear] {
        all.extend([First, Amid, All, Done, Stopped, Past, Empty].map(|stands| Met::Calls(name, stands)));
        all.extend([Met::Greatest(name, 0), Met::Greatest(name, 2), Met::Low(name)]);
    }
    for stands in [First, Amid, All, Done, Stopped] {
        all.extend([Said::Fail, Said::PErr, Said::Ok, Said::Data, Said::Unknown].map(|said| Met::Heard(stands, said)));
    }
    all.extend([Past, Empty].into_iter().flat_map(|stands| [Said::Fail, Said::Ok].map(|said| Met::Heard(stands, said))));
    all.extend((0..8).map(Met::Code));
    all.extend((0..5).flat_map(|length| [Met::Length(length, false), Met::Length(length, true)]).filter(|met| *met != Met::Length(0, true)));
    all.extend((1..=MOST_FRAMES as u64).flat_map(|place| [Met::Sends(place), Met::Stops(place)]));
    all
}

impl Watch for SeenControl {
    fn add(&mut self, step: &Step) -> Option<String> {
        match step.record {
            Record::Lend { .. } => {
                self.histories += 1;
                self.following = None;
                self.latest = None;
            }
            Record::Put { .. } => self.altered = Some(By::Put),
            Record::Remove { .. } => self.altered = Some(By::Remove),
            Record::Clear => self.altered = Some(By::Clear),
            Record::Poke { .. } => self.altered = Some(By::Poke),
            Record::Make => self.altered = Some(By::Make),
            Record::Start => return self.call(step, Name::Start, None),
            Record::Send { state } => return self.call(step, Name::Send, Some(*state)),
            Record::Hear { state, .. } => return self.call(step, Name::Hear, Some(*state)),
            _ => {}
        }
        None
    }

    fn words(&self) -> String {
        let sum = |which: &dyn Fn(&Met) -> bool| self.met.iter().filter(|(met, _)| which(met)).map(|(_, n)| n).sum::<u64>();
        let refusals: Vec<String> = self.refusals.iter().map(|(r, n)| format!("{}: {}", r, n)).collect();
        let ended = |outcome: u8| self.runs.iter().filter(|((_, end), _)| end.0 == outcome).map(|(_, n)| n).sum::<u64>();
        let lines = [
            format!(
                "{} histories, {} steps heard, {} sendings, {} starts; refusals {}",
                self.histories,
                self.calls[2],
                self.calls[1],
                self.calls[0],
                refusals.join(", ")
            ),
            format!(
                "{} statuses judged nothing, {} let the run go on, {} stopped it; {} came where it was over; {} calls on a book altered since",
                sum(&|met| matches!(met, Met::Heard(First, _))),
                sum(&|met| matches!(met, Met::Heard(Amid | All, said) if !said.is_bad())),
                sum(&|met| matches!(met, Met::Stops(_))),
                sum(&|met| matches!(met, Met::Heard(Done | Stopped | Past | Empty, _))),
                sum(&|met| matches!(met, Met::Altered(..)))
            ),
            format!(
                "{} whole runs done and {} stopped, with {} ends by frames and place; {} steps behind the end of one",
                ended(1),
                ended(2),
                self.runs.len(),
                sum(&|met| *met == Met::Behind)
            ),
        ];
        lines.join("\n")
    }

    fn missing(&self) -> Vec<String> {
        owed().into_iter().filter(|met| !self.met.contains_key(met)).map(|met| format!("{:?}", met)).collect()
    }
}
