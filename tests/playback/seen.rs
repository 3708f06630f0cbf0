// What the traces came to: each event, fault and shape has to be met.
use crate::book::{other_form, ACTIONS, FORMS, MOST_FRAMES, SETTINGS};
use crate::day::{records, word, Day, Event, Fault, Latest, REQUESTS};
use std::collections::{BTreeMap, BTreeSet};

#[derive(Default)]
pub struct Seen {
    traces: u64,
    records: u64,
    events: BTreeMap<Event, u64>,
    faults: BTreeMap<Fault, u64>,
    shapes: BTreeMap<&'static str, u64>,
    swaps: BTreeSet<u64>,
}

const SHAPES: [&str; 7] = [
    "first offset below 4, no records",
    "first offset past the end, no records",
    "bytes between header and first record",
    "bytes behind the last record",
    "record of no bytes",
    "record of 255 bytes",
    "book of all settings",
];

// The kinds that were accepted while the other form of their setting was held.
fn swapped(day: &Day) -> BTreeSet<u64> {
    let (mut held, mut found) = (BTreeSet::new(), BTreeSet::new());
    for event in &day.events {
        if let Event::Accepted(kind) = event {
            if other_form(*kind).map_or(false, |other| held.remove(&other)) {
                found.insert(*kind);
            }
            held.insert(*kind);
        }
    }
    found
}

fn shapes(trace: &[u8], day: &Day) -> [bool; SHAPES.len()] {
    let (found, _) = records(trace);
    let (count, first) = if trace.len() < 4 { (0, 4) } else { (word(trace, 0), word(trace, 2)) };
    let end = first + found.iter().map(|r| 2 + r.bytes.len()).sum::<usize>();
    [
        count == 0 && first < 4,
        count == 0 && first > trace.len(),
        !found.is_empty() && first > 4,
        !found.is_empty() && day.fault.is_none() && end < trace.len(),
        found.iter().any(|r| r.bytes.is_empty()),
        found.iter().any(|r| r.bytes.len() == 255),
        day.book.content.as_ref().map_or(false, |frames| frames.len() == MOST_FRAMES),
    ]
}

impl Seen {
    pub fn add(&mut self, trace: &[u8], day: &Day) {
        self.traces += 1;
        self.records += day.events.len() as u64;
        for event in &day.events {
            *self.events.entry(*event).or_default() += 1;
        }
        if let Some(fault) = day.fault {
            *self.faults.entry(fault).or_default() += 1;
        }
        for (name, _) in SHAPES.iter().zip(shapes(trace, day)).filter(|(_, met)| *met) {
            *self.shapes.entry(name).or_default() += 1;
        }
        self.swaps.extend(swapped(day));
    }

    // How many traces and records there were, and how many of each kind.
    pub fn words(&self) -> String {
        let sum = |which: fn(&Event) -> bool| self.events.iter().filter(|(event, _)| which(event)).map(|(_, n)| n).sum::<u64>();
        let refused: Vec<String> = (1..=8)
            .filter_map(|number| self.events.get(&Event::Refused(number)).map(|n| format!("{}: {}", number, n)))
            .collect();
        format!(
            "{} traces, {} records: {} puts accepted, refused {}; {} actions, {} readings, {} skipped; {} playbacks stopped",
            self.traces,
            self.records,
            sum(|event| matches!(event, Event::Accepted(_))),
            refused.join(", "),
            sum(|event| matches!(event, Event::Action(_))),
            sum(|event| matches!(event, Event::Read(..))),
            sum(|event| matches!(event, Event::Skipped(_))),
            self.faults.values().sum::<u64>(),
        )
    }

    // What was never met; refusal 8 is for small books only.
    pub fn missing(&self) -> Vec<String> {
        let latest = [Latest::Nothing, Latest::Undecodable, Latest::Setting, Latest::Action];
        let requests = REQUESTS.iter().map(|(kind, _)| *kind);
        let events = (SETTINGS.iter().map(|kind| Event::Accepted(*kind)))
            .chain((1..=5).map(Event::Refused))
            .chain(ACTIONS.iter().map(|kind| Event::Action(*kind)))
            .chain(requests.clone().flat_map(|kind| [Event::Read(kind, false), Event::Read(kind, true)]))
            .chain(latest.into_iter().chain(requests.map(Latest::Request)).map(Event::Skipped));
        let faults = [Fault::ShortHeader, Fault::LowOffset, Fault::PastTheEnd, Fault::Missing, Fault::Cut, Fault::Direction];
        let events = events.filter(|event| !self.events.contains_key(event)).map(|event| format!("{:?}", event));
        let faults = faults.iter().filter(|fault| !self.faults.contains_key(fault)).map(|fault| format!("{:?}", fault));
        let shapes = SHAPES.iter().filter(|name| !self.shapes.contains_key(*name)).map(|name| name.to_string());
        let forms = FORMS.iter().flat_map(|(short, long)| [*short, *long]).filter(|kind| !self.swaps.contains(kind));
        let forms = forms.map(|kind| format!("kind {} in the place of its other form", kind));
        events.chain(faults).chain(shapes).chain(forms).collect()
    }
}
