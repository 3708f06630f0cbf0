// Histories whose course is fixed: a technician's, full books, stored books with both forms, sync words of every length, and each swap of forms at the
// edge of the room.
use crate::book::{image, length, other_form, Frame, FORMS, FULL, MOST_BYTES, SETTINGS, START, VERSION};
use crate::frames::{good, Random};
use crate::make::{History, Size, LONG};
use crate::record::{hex, Record};
use crate::seen::{Place, LENGTHS, PLACES};
use std::io::{Result, Write};

pub enum Course {
    Technician,
    // Every setting in its longer form, in a buffer of so many bytes.
    Full(usize),
    // Both forms of a setting in a stored book.
    Both((u64, u64)),
    // Sync words whose last bytes, the order and the length, are these.
    SyncWords(Vec<u8>),
    Edge(Edge),
}

// A buffer that these kinds fill, or for which they are one byte too long, once the shorter form among them is the longer one.
pub struct Edge {
    size: usize,
    forms: (u64, u64),
    kinds: Vec<u64>,
}

// Kinds of such settings, named by their shorter forms, at most one form of each, whose frames take so many bytes together, if there are any.
pub fn filling(random: &mut Random, bytes: usize, is_such: impl Fn(u64) -> bool) -> Option<Vec<u64>> {
    let forms = |kind: u64| [Some(kind), other_form(kind)].into_iter().flatten().map(|k| (k, length(k))).collect::<Vec<_>>();
    let is_longer = |kind: u64| FORMS.iter().any(|(_, long)| kind == *long);
    let mut settings: Vec<_> = SETTINGS.iter().filter(|k| is_such(**k) && !is_longer(**k)).map(|k| forms(*k)).collect();
    random.shuffle(&mut settings);
    // Whether the settings from i on can take so many bytes.
    let mut reach = vec![vec![false; bytes + 1]; settings.len() + 1];
    reach[settings.len()][0] = true;
    for i in (0..settings.len()).rev() {
        for sum in 0..=bytes {
            reach[i][sum] = reach[i + 1][sum] || settings[i].iter().any(|(_, n)| *n <= sum && reach[i + 1][sum - n]);
        }
    }
    let (mut kinds, mut left) = (vec![], bytes);
    for (i, setting) in settings.iter().enumerate().filter(|_| reach[0][bytes]) {
        let fitting: Vec<_> = setting.iter().filter(|(_, n)| *n <= left && reach[i + 1][left - n]).copied().collect();
        if !fitting.is_empty() && (!reach[i + 1][left] || random.percent(50)) {
            let (kind, n) = random.one_of(&fitting);
            kinds.push(kind);
            left -= n;
        }
    }
    if reach[0][bytes] { Some(kinds) } else { None }
}

// The edge of a buffer at which the longer form stands at that place, and lacks so many bytes; in a buffer with room for all there is no edge,
// and the book is as full as it can be.
fn edge(random: &mut Random, size: usize, forms: (u64, u64), place: Place, lacks: usize) -> Option<Edge> {
    let (short, long) = forms;
    let bytes = (size + lacks).checked_sub(START + length(long))?.min(MOST_BYTES - length(long));
    // Few kinds may be one where the place wants two.
    let mut tries = (0..40).map_while(|_| filling(random, bytes, |kind| kind != short));
    let mut kinds = tries.find(|kinds| match place {
        Place::Alone => kinds.is_empty(),
        Place::First | Place::Last => !kinds.is_empty(),
        Place::Middle => kinds.len() > 1,
    })?;
    let at = match place {
        Place::Alone | Place::First => 0,
        Place::Middle => random.within(1, kinds.len() - 1),
        Place::Last => kinds.len(),
    };
    kinds.insert(at, short);
    Some(Edge { size, forms, kinds })
}

// At every length that a book of few bytes has; of the sample at the least length that has the edge.
fn edges(random: &mut Random, size: Size) -> Vec<Edge> {
    let mut all = vec![];
    for forms in FORMS {
        for place in PLACES {
            for lacks in [0, 1] {
                let lengths = (START..=LONG).filter(|n| lacks == 0 || *n < FULL);
                let found = lengths.filter_map(|n| edge(random, n, forms, place, lacks));
                all.extend(found.take(if size == Size::Sample { 1 } else { LONG }));
            }
        }
    }
    all
}

pub fn courses(random: &mut Random, size: Size) -> Vec<Course> {
    let mut all = vec![Course::Technician, Course::Full(FULL - 1), Course::Full(FULL)];
    all.extend(FORMS.map(Course::Both));
    all.push(Course::SyncWords(if size == Size::Sample { LENGTHS.iter().flat_map(|n| [*n, 128 + n]).collect() } else { (0..=255).collect() }));
    all.extend(edges(random, size).into_iter().map(Course::Edge));
    all
}

impl Course {
    pub fn run<W: Write>(&self, on: &mut History<W>) -> Result<()> {
        match self {
            Course::Technician => technician(on),
            Course::Full(size) => full(on, *size),
            Course::Both(forms) => both(on, *forms),
            Course::SyncWords(lasts) => sync_words(on, lasts),
            Course::Edge(edge) => swapped(on, edge),
        }
    }
}

fn begin<W: Write>(on: &mut History<W>, length: usize) -> Result<()> {
    let first = on.random.byte();
    on.record(Record::Lend { length, first })?;
    on.record(Record::Make)
}

fn put<W: Write>(on: &mut History<W>, kind: u64) -> Result<()> {
    let frame = good(on.random, kind);
    on.record(Record::Put { frame })
}

// The replay into as many bytes as it takes.
fn replay<W: Write>(on: &mut History<W>) -> Result<()> {
    let output = on.frames().iter().map(|f| f.bytes.len() + 1).sum();
    on.record(Record::Replay { output })
}

// The receive path with its boost, the frequency, the path without the boost, and the path with it again.
fn technician<W: Write>(on: &mut History<W>) -> Result<()> {
    begin(on, START + 18)?;
    for frame in [&[2, 1, 1, 4][..], &[2, 0, 0x33, 0xBE, 0x27, 0xA0], &[2, 1, 1], &[2, 1, 1, 7]] {
        on.record(Record::Put { frame: frame.to_vec() })?;
        replay(on)?;
    }
    let held: Vec<String> = on.frames().iter().map(|f| hex(&f.bytes)).collect();
    assert_eq!(held, ["02 01 01 07", "02 00 33 be 27 a0"], "the list, by hand");
    Ok(())
}

// The last put has no room where the buffer is one byte too short.
fn full<W: Write>(on: &mut History<W>, size: usize) -> Result<()> {
    begin(on, size)?;
    for kind in SETTINGS {
        put(on, kind)?;
    }
    let output = on.frames().iter().map(|f| f.bytes.len() + 1).sum::<usize>();
    on.record(Record::Replay { output: output - 1 })?;
    on.record(Record::Replay { output })
}

// Every call but make is refused, with another fault for another reason; what comes next is a new book.
fn both<W: Write>(on: &mut History<W>, (short, long): (u64, u64)) -> Result<()> {
    begin(on, START + 28)?;
    let frames = [short, 4, long].map(|kind| Frame { kind, bytes: good(on.random, kind) });
    on.poke(0, &image(&frames, START + 28))?;
    for version in [VERSION, VERSION + 1] {
        on.poke(0, &[version])?;
        on.record(Record::Put { frame: vec![2] })?;
        for kind in [4, short, long] {
            put(on, kind)?;
            on.record(Record::Ask { kind, output: 12 })?;
            on.record(Record::Remove { kind })?;
        }
        on.record(Record::Clear)?;
        on.record(Record::Replay { output: 40 })?;
    }
    on.record(Record::Make)?;
    put(on, long)?;
    replay(on)
}

// A sync word is put over another; then the same length is stored in the book, behind its back. One of more than 64 bits is not put, and a book
// that holds it is refused by every call.
fn sync_words<W: Write>(on: &mut History<W>, lasts: &[u8]) -> Result<()> {
    begin(on, START + 28)?;
    for last in lasts {
        on.record(Record::Make)?;
        for kind in [4, 20, 25] {
            put(on, kind)?;
        }
        let mut frame = good(on.random, 20);
        frame[10] = *last;
        on.record(Record::Put { frame })?;
        replay(on)?;
        // It stands behind the header and kind 4.
        on.poke(START + length(4) + 10, &[*last])?;
        put(on, 4)?;
        on.record(Record::Ask { kind: 20, output: 11 })?;
        on.record(Record::Replay { output: 40 })?;
        on.record(Record::Remove { kind: 20 })?;
        on.record(Record::Clear)?;
    }
    Ok(())
}

// The longer form in the place of the shorter, if there is room; what is asked for and taken out goes by the exact kind; and both once more.
fn swapped<W: Write>(on: &mut History<W>, edge: &Edge) -> Result<()> {
    begin(on, edge.size)?;
    for kind in &edge.kinds {
        put(on, *kind)?;
    }
    let (short, long) = edge.forms;
    put(on, long)?;
    for kind in [short, long] {
        on.record(Record::Ask { kind, output: length(kind) })?;
    }
    let unheld = if on.frames().iter().any(|f| f.kind == long) { short } else { long };
    on.record(Record::Remove { kind: unheld })?;
    put(on, short)?;
    put(on, long)?;
    replay(on)
}
