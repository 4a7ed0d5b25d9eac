//! What the calls are measured on; the same in every run of the benchmark.

use compare::make::{text, width, Made, MAX_DATA, TYPES};
use compare::random::Random;
use plain::Edition::{self, Ansi, Unicode};

use crate::rows::searches::Searched;

pub const BATCH: usize = 16 << 20;
pub const STRINGS: usize = 256;
/// So many events are written or appended in turn.
const EVENTS: u32 = 16;
/// How the batches grow that show how times do, in MiB.
const GROWING: [usize; 4] = [1, 4, 16, 64];
/// Every sixth record of a batch has this type.
pub const ONE_TYPE: u16 = 4;

/// A sort of records: their name, and about which Length they have.
#[derive(Clone, Copy, PartialEq)]
pub struct Sort {
    name: &'static str,
    length: usize,
}

impl Sort {
    const fn new(name: &'static str, length: usize) -> Sort {
        Sort { name, length }
    }
}

const SHORTEST: Sort = Sort::new("84 bytes", 84);
const SHORT: Sort = Sort::new("100 bytes", 100);
const MIDDLE: Sort = Sort::new("1 KiB", 1024);
const LONG: Sort = Sort::new("60 KiB", 60 << 10);
const LONGEST: Sort = Sort::new("256 KiB", 262_100);

/// Those that are walked and read, and those on which other calls are measured.
const SORTS: [Sort; 5] = [SHORTEST, SHORT, MIDDLE, LONG, LONGEST];
const SOME: [Sort; 3] = [SHORT, MIDDLE, LONG];

const EDITIONS: [Edition; 2] = [Unicode, Ansi];

/// What a row says of an edition; Unicode goes without saying.
pub fn in_edition(name: &str, edition: Edition) -> String {
    match edition {
        Unicode => name.into(),
        Ansi => format!("{name}, ANSI"),
    }
}

/// All of it.
pub struct Inputs {
    pub searched: Searched,
    /// Of every sort, in both editions.
    pub batches: Vec<Batch>,
    pub events: Vec<Events>,
    pub long_names: [Record; 2],
    pub many_strings: [Record; 2],
    /// In windows-1252.
    pub text: Vec<u8>,
    pub growing: [Batch; 4],
}

impl Inputs {
    pub fn new() -> Inputs {
        let rng = &mut Random::new(1);
        let mut batches = Vec::new();
        let mut events = Vec::new();
        for edition in EDITIONS {
            batches.extend(SORTS.map(|sort| Batch::new(edition, rng, sort, BATCH)));
            events.extend(SOME.map(|sort| Events::new(edition, rng, sort)));
        }
        Inputs {
            searched: Searched::new(rng),
            batches,
            events,
            long_names: EDITIONS.map(|edition| Record::long_name(edition, rng)),
            many_strings: EDITIONS.map(|edition| Record::many_strings(edition, rng)),
            text: windows_1252(rng, 1 << 20),
            growing: GROWING.map(|mib| Batch {
                name: format!("{mib} MiB"),
                ..Batch::new(Unicode, rng, SHORT, mib << 20)
            }),
        }
    }

    /// The batches of some sorts.
    pub fn some_batches(&self) -> impl Iterator<Item = &Batch> + Clone {
        self.batches
            .iter()
            .filter(|batch| SOME.contains(&batch.sort))
    }
}

/// Records of one sort, of each type in turn.
pub struct Batch {
    pub edition: Edition,
    sort: Sort,
    pub name: String,
    pub log: Vec<u8>,
}

impl Batch {
    /// As many records as fit into so many bytes.
    pub fn new(edition: Edition, rng: &mut Random, sort: Sort, bytes: usize) -> Batch {
        let mut log = Vec::with_capacity(bytes);
        for number in 1.. {
            let made = event(edition, rng, sort, number);
            if log.len() + made.length() > bytes {
                break;
            }
            log.extend(made.encode(None));
        }
        let name = in_edition(sort.name, edition);
        Batch {
            edition,
            sort,
            name,
            log,
        }
    }
}

/// Events of one sort.
pub struct Events {
    pub edition: Edition,
    pub name: String,
    pub made: Vec<Made>,
}

impl Events {
    pub fn new(edition: Edition, rng: &mut Random, sort: Sort) -> Events {
        let numbers = 1..=EVENTS;
        Events {
            edition,
            name: in_edition(sort.name, edition),
            made: numbers.map(|n| event(edition, rng, sort, n)).collect(),
        }
    }
}

/// One record.
pub struct Record {
    pub edition: Edition,
    pub bytes: Vec<u8>,
}

impl Record {
    /// With a name of 30,000 units.
    pub fn long_name(edition: Edition, rng: &mut Random) -> Record {
        let mut made = Made::new(edition);
        made.source = text(edition, rng, 30_000);
        let bytes = made.encode(None);
        Record { edition, bytes }
    }

    /// With 256 strings, which have 64 KiB together.
    pub fn many_strings(edition: Edition, rng: &mut Random) -> Record {
        let mut made = Made::new(edition);
        push_strings(&mut made, rng, STRINGS, 256 / width(edition) - 1);
        let bytes = made.encode(None);
        Record { edition, bytes }
    }
}

/// Text in windows-1252; one byte in 64 is a mark above 0x7F.
fn windows_1252(rng: &mut Random, bytes: usize) -> Vec<u8> {
    let byte = |_| match rng.once_in(64) {
        true => rng.range(0x80, 0xFF) as u8,
        false => rng.range(0x20, 0x7E) as u8,
    };
    (0..bytes).map(byte).collect()
}

/// One event of a sort.
fn event(edition: Edition, rng: &mut Random, sort: Sort, number: u32) -> Made {
    let mut made = Made::new(edition);
    made.fields.record_number = number;
    made.fields.event_type = TYPES[number as usize % TYPES.len()];
    // In both editions names alone make 84 bytes.
    let (source, computer) = match (sort.length, edition) {
        (84, Ansi) => (11, 9),
        (..500, _) => (5, 4),
        _ => (12, 10),
    };
    made.source = text(edition, rng, source);
    made.computer = text(edition, rng, computer);
    if sort.length > 500 {
        made.sid = [&[1, 5][..], &rng.bytes(26)].concat();
        // What the data cannot take is in the strings, of 784 bytes each.
        match sort.length > MAX_DATA {
            true => push_strings(&mut made, rng, STRINGS, 784 / width(edition) - 1),
            false => push_strings(&mut made, rng, 6, 20),
        }
    }
    if sort.length > made.length() {
        let more = sort.length - made.length() + rng.below(16);
        made.data = rng.bytes(more);
    }
    made
}

/// So many strings, all of this length.
fn push_strings(made: &mut Made, rng: &mut Random, count: usize, units: usize) {
    for _ in 0..count {
        made.push_string(rng, units);
    }
}
