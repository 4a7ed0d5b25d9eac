//! One input given to both libraries in one edition; a difference panics.

use std::collections::HashSet;
use std::fmt::{Debug, Write};
use std::hash::{DefaultHasher, Hasher};
use std::io::{ErrorKind, Write as _};
use std::ops::{Range, RangeInclusive};
use std::path::Path;
use std::process::{Command, Output, Stdio};

use eventlog::{Direction, ReadKind, Refusal, Refused, Run, Text};
use plain::{status, Edition, Types};

use crate::ahead::{ahead, read_all, Ahead};
use crate::make::{begins_with_zero, get, Made, MAX_LENGTH, TOO_LONG};

/// The calls that refuse, and the listing program.
#[derive(Clone, Copy, Debug, PartialEq, Eq)]
pub enum Call {
    Step,
    StepBack,
    String,
    NextString,
    Walk,
    WalkBack,
    Write,
    Append,
    Listing,
    Program,
}

pub const CALLS: usize = Call::Program as usize + 1;

/// The calls that judge a buffer, at one place or as a whole.
const JUDGES: [Call; 4] = [Call::Step, Call::StepBack, Call::Walk, Call::WalkBack];

/// What has to occur beside every refusal and status. Far is a place past
/// 65,536, long a batch of more bytes than that, full one of 65,000 to 65,536,
/// large a record of at least half of them, a long read one of more than 500,000
/// bytes. The longest record has the largest Length; too long is the next Length,
/// with all its bytes there.
#[derive(Clone, Copy, Debug, PartialEq, Eq)]
pub enum Case {
    /// A record read at a far place.
    FarRecord,
    /// A record read that ends at a far place.
    FarRecordBack,
    /// A string of a record at a far place.
    FarString,
    /// A record appended at a far place.
    FarAppend,
    /// A long batch listed.
    LongListing,
    /// A long batch listed as refused.
    LongListingRefused,
    /// A full batch listed.
    FullListing,
    /// A full batch listed as refused.
    FullListingRefused,
    /// A full batch and an output that is one byte short.
    FullListingShort,
    /// The program lists a full batch.
    FullProgram,
    /// The program refuses a record of a full batch.
    FullProgramRefused,
    /// The program gets no byte.
    EmptyProgram,
    /// A long read forwards.
    LongRead,
    /// A long read backwards.
    LongReadBack,
    /// A read of 524,284 bytes, the most there can be.
    LargestRead,
    /// A large record appended, with room to spare.
    LargeAppend,
    /// A large record appended, with exactly as much room as it takes.
    LargeAppendExact,
    /// A large record refused for one byte of room.
    LargeAppendRefused,
    /// A record appended behind the number 4,294,967,295.
    WrappedNumber,
    /// The longest record read,
    LongestRecord,
    /// and from the rear.
    LongestRecordBack,
    /// A record refused as too long,
    TooLongRecord,
    /// and from the rear.
    TooLongRecordBack,
    /// The longest record written.
    LongestWrite,
    /// An event refused, as its record would be too long.
    TooLongWrite,
    /// The longest record appended.
    LongestAppend,
    /// A read of the longest record and nothing else.
    LongestRead,
    /// A read refused that would have to ask for the largest Length.
    LongestNeeded,
    /// A good record with a Length2 whose first unit is zero.
    ZeroUnit,
    /// A name that runs up to such a Length2.
    ZeroUnitName,
    /// A string that runs up to such a Length2.
    ZeroUnitString,
    /// The program lists one record that fills its input.
    FullProgramRecord,
    /// A record that is longer when it is written again.
    LongerRewrite,
    /// A record that is shorter when it is written again.
    ShorterRewrite,
    /// A record that cannot be written again: it would be too long.
    RefusedRewrite,
}

pub const CASES: [Case; 35] = [
    Case::FarRecord,
    Case::FarRecordBack,
    Case::FarString,
    Case::FarAppend,
    Case::LongListing,
    Case::LongListingRefused,
    Case::FullListing,
    Case::FullListingRefused,
    Case::FullListingShort,
    Case::FullProgram,
    Case::FullProgramRefused,
    Case::EmptyProgram,
    Case::LongRead,
    Case::LongReadBack,
    Case::LargestRead,
    Case::LargeAppend,
    Case::LargeAppendExact,
    Case::LargeAppendRefused,
    Case::WrappedNumber,
    Case::LongestRecord,
    Case::LongestRecordBack,
    Case::TooLongRecord,
    Case::TooLongRecordBack,
    Case::LongestWrite,
    Case::TooLongWrite,
    Case::LongestAppend,
    Case::LongestRead,
    Case::LongestNeeded,
    Case::ZeroUnit,
    Case::ZeroUnitName,
    Case::ZeroUnitString,
    Case::FullProgramRecord,
    Case::LongerRewrite,
    Case::ShorterRewrite,
    Case::RefusedRewrite,
];

/// Where far and long begin: what 16 bits count, and the listing program's limit.
const FAR: usize = 65_536;
/// Where large begins.
const LARGE: usize = FAR / 2;
/// How long a full batch is.
const FULL: RangeInclusive<usize> = 65_000..=FAR;
/// Where a long read begins.
const LONG_READ: usize = 500_001;
/// The most that records can have within the largest size: Lengths are multiples
/// of 4.
pub const LARGEST_READ: usize = plain::MAX_READ / 4 * 4;

/// The six statuses.
pub const STATUSES: [u32; 6] = [
    0,
    0xC000_000D,
    0xC000_0008,
    0xC000_018E,
    0xC000_0011,
    0xC000_0023,
];

/// The four good flags; all others count as one kind more.
pub const FLAGS: [u32; 4] = [5, 9, 6, 10];

/// What a read does with records that are not wanted.
#[derive(Clone, Copy, Debug, PartialEq, Eq)]
pub enum Skip {
    /// They are skipped before the first one copied,
    Before,
    /// between two that are copied,
    Between,
    /// and after the last.
    After,
    /// One that is skipped would not have fitted, and one after it is copied.
    Long,
    /// None that is wanted is left after them.
    End,
    /// One that is refused comes after them.
    Refused,
    /// The wanted one after them is too long.
    Small,
}

pub const SKIPS: [Skip; 7] = [
    Skip::Before,
    Skip::Between,
    Skip::After,
    Skip::Long,
    Skip::End,
    Skip::Refused,
    Skip::Small,
];

/// Every set of types; all that have another bit count as one more.
pub const SETS: usize = 64;

/// What was compared, and with which answers.
#[derive(Clone, Debug)]
pub struct Tally {
    /// Different buffers that were judged, each counted once in a round.
    pub buffers: u64,
    pub calls: u64,
    /// By call and refusal, 0 for none.
    pub refusals: [[u64; 18]; CALLS],
    /// By kind of flags and status.
    pub statuses: [[u64; 6]; 5],
    /// By kind of good flags and what was skipped.
    pub skips: [[u64; SKIPS.len()]; 4],
    /// Reads by their set, those with wrong flags or sizes left out.
    pub sets: [u64; SETS + 1],
    /// Reads for all types that answer as without sets.
    pub without_sets: u64,
    pub cases: [u64; CASES.len()],
}

impl Default for Tally {
    fn default() -> Self {
        Tally {
            buffers: 0,
            calls: 0,
            refusals: [[0; 18]; CALLS],
            statuses: [[0; 6]; 5],
            skips: [[0; SKIPS.len()]; 4],
            sets: [0; SETS + 1],
            without_sets: 0,
            cases: [0; CASES.len()],
        }
    }
}

impl Tally {
    pub fn add(&mut self, other: &Tally) {
        self.buffers += other.buffers;
        self.calls += other.calls;
        self.without_sets += other.without_sets;
        for (sum, n) in self.cases.iter_mut().zip(other.cases) {
            *sum += n;
        }
        for (sum, n) in self.sets.iter_mut().zip(other.sets) {
            *sum += n;
        }
        let more = other.skips.as_flattened();
        for (sum, n) in self.skips.as_flattened_mut().iter_mut().zip(more) {
            *sum += n;
        }
        let more = other.refusals.as_flattened();
        for (sum, n) in self.refusals.as_flattened_mut().iter_mut().zip(more) {
            *sum += n;
        }
        let more = other.statuses.as_flattened();
        for (sum, n) in self.statuses.as_flattened_mut().iter_mut().zip(more) {
            *sum += n;
        }
    }

    pub fn met(&self, call: Call, number: u32) -> u64 {
        self.refusals[call as usize][number as usize]
    }

    /// Calls that judged a buffer: how many, and how many refused nothing.
    pub fn judgements(&self) -> (u64, u64) {
        let all = JUDGES.map(|call| self.refusals[call as usize].iter().sum::<u64>());
        let good = JUDGES.map(|call| self.met(call, 0));
        (all.iter().sum(), good.iter().sum())
    }
}

/// Where a part lies: the place told, where the slice itself lies in the
/// buffer, and its length. The same place and length are the same bytes.
#[derive(Debug, PartialEq, Eq)]
struct Location {
    told: usize,
    at: usize,
    len: usize,
}

fn location(s: &[u8], part: &[u8], told: usize) -> Location {
    let at = (part.as_ptr() as usize).wrapping_sub(s.as_ptr() as usize);
    Location {
        told,
        at,
        len: part.len(),
    }
}

/// A record of either library.
#[derive(Debug, PartialEq, Eq)]
struct Seen {
    start: usize,
    length: usize,
    fields: plain::Fields,
    source_name: Location,
    computer_name: Location,
    sid: Location,
    strings: Location,
    event_data: Location,
}

/// A refusal is its number, its field and the place.
type Answered = Result<Seen, (u32, usize, usize)>;

fn seen_proved(s: &[u8], answer: Result<eventlog::Record, eventlog::BadRecord>) -> Answered {
    let r = answer.map_err(|r| (r.refusal.number(), r.field, r.at))?;
    let (event, places) = (r.event, r.places);
    Ok(Seen {
        start: r.start,
        length: r.length,
        fields: plain::Fields {
            record_number: r.record_number,
            time_generated: event.time_generated,
            time_written: event.time_written,
            event_id: event.event_id,
            event_type: event.event_type,
            num_strings: event.num_strings,
            event_category: event.event_category,
            reserved_flags: event.reserved_flags,
        },
        source_name: location(s, event.source_name.as_bytes(), places.source_name),
        computer_name: location(s, event.computer_name.as_bytes(), places.computer_name),
        sid: location(s, event.sid, places.sid),
        strings: location(s, event.strings, places.strings),
        event_data: location(s, event.event_data, places.event_data),
    })
}

fn seen_plain(s: &[u8], answer: Result<plain::Record, plain::Refusal>) -> Answered {
    let r = answer.map_err(|r| (r.number, r.field, r.at))?;
    Ok(Seen {
        start: r.start,
        length: r.length,
        fields: r.fields,
        source_name: location(s, r.source_name, r.source_name_at),
        computer_name: location(s, r.computer_name, r.computer_name_at),
        sid: location(s, r.sid, r.sid_at),
        strings: location(s, r.strings, r.strings_at),
        event_data: location(s, r.event_data, r.event_data_at),
    })
}

/// The event of a plain record, to be written again.
fn again<'a>(r: &plain::Record<'a>) -> plain::Event<'a> {
    plain::Event {
        fields: r.fields,
        source_name: r.source_name,
        computer_name: r.computer_name,
        sid: r.sid,
        strings: r.strings,
        event_data: r.event_data,
    }
}

/// A handle of both libraries.
#[derive(Debug)]
pub struct Handles {
    pub proved: eventlog::Handle,
    pub plain: plain::Handle,
}

impl Handles {
    /// Fresh ones for the set with these bits.
    pub fn fresh(types: u32) -> Self {
        Handles {
            proved: eventlog::Handle::fresh(eventlog::Types::from_bits(types)),
            plain: plain::Handle::fresh(Types(types)),
        }
    }

    pub fn boundary(at: usize, types: u32) -> Self {
        Handles {
            proved: eventlog::Handle {
                place: eventlog::Place::Boundary(at),
                types: eventlog::Types::from_bits(types),
            },
            plain: plain::Handle {
                place: plain::Place::Boundary(at),
                types: Types(types),
            },
        }
    }
}

/// The proved read's answer. What a `Batch` or a `ReadError` leaves out is 0,
/// which the binding's own tests see to.
fn read_proved(answer: Result<eventlog::Batch, eventlog::ReadError>) -> plain::Answer {
    let (status, read, needed, handle) = match answer {
        Ok(batch) => (0, batch.bytes.len(), 0, batch.handle),
        Err(error) => {
            let needed = match error.status {
                eventlog::Status::BufferTooSmall { needed } => needed,
                _ => 0,
            };
            (error.status.code(), 0, needed, error.handle)
        }
    };
    let place = match handle.place {
        eventlog::Place::Fresh => plain::Place::Fresh,
        eventlog::Place::Boundary(at) => plain::Place::Boundary(at),
    };
    plain::Answer {
        status,
        read,
        needed,
        handle: plain::Handle {
            place,
            types: Types(handle.types.bits()),
        },
    }
}

/// The four good flags as the proved library has them.
fn kind_and_direction(flags: u32, number: u32) -> Option<(ReadKind, Direction)> {
    match flags {
        5 => Some((ReadKind::Sequential, Direction::Forwards)),
        9 => Some((ReadKind::Sequential, Direction::Backwards)),
        6 => Some((ReadKind::Seek(number), Direction::Forwards)),
        10 => Some((ReadKind::Seek(number), Direction::Backwards)),
        _ => None,
    }
}

/// A refusal of the proved library as the plain one has it.
fn plainly(why: Refused) -> plain::Refused {
    plain::Refused {
        number: why.refusal.number(),
        field: why.field,
    }
}

/// What may be refused; number and field are 0 for none.
fn numbers_of(refused: Option<Refused>) -> plain::Refused {
    refused.map_or_else(plain::Refused::default, plainly)
}

/// A read request.
#[derive(Clone, Copy, Debug)]
pub struct Request {
    pub flags: u32,
    pub number: u32,
    pub size: usize,
    pub out: usize,
}

fn hex(bytes: &[u8]) -> String {
    let mut text = String::with_capacity(bytes.len() * 2);
    for byte in bytes {
        let _ = write!(text, "{byte:02x}");
    }
    text
}

/// Compares, counts, and says where it is when there is a difference.
pub struct Check {
    /// What all is given as,
    pub edition: Edition,
    /// as the proved library has it.
    proved: eventlog::Edition,
    label: String,
    pub tally: Tally,
    fill: u8,
    out: [Vec<u8>; 2],
    /// The hashes of the buffers judged so far.
    judged: HashSet<u64>,
}

impl Check {
    pub fn new(edition: Edition, label: String) -> Self {
        Check {
            edition,
            proved: match edition {
                Edition::Unicode => eventlog::Edition::Unicode,
                Edition::Ansi => eventlog::Edition::Ansi,
            },
            label,
            tally: Tally::default(),
            fill: 0,
            out: Default::default(),
            judged: HashSet::new(),
        }
    }

    #[cold]
    fn differ(&self, call: &str, inputs: &[&[u8]], proved: &dyn Debug, plain: &dyn Debug) -> ! {
        let mut text = format!(
            "difference in {call} ({}, {:?})\n",
            self.label, self.edition
        );
        for input in inputs {
            let _ = writeln!(text, "input, {} bytes: {}", input.len(), hex(input));
        }
        panic!("{text}proved: {proved:?}\nplain:  {plain:?}");
    }

    fn count(&mut self, call: Call, number: u32) {
        self.tally.calls += 1;
        self.tally.refusals[call as usize][number.min(17) as usize] += 1;
    }

    /// Counts a judged buffer, if no equal one was judged before. Two with the
    /// same hash count as one, so the count is never too high.
    fn count_buffer(&mut self, s: &[u8]) {
        let mut hasher = DefaultHasher::new();
        hasher.write(s);
        self.tally.buffers += u64::from(self.judged.insert(hasher.finish()));
    }

    fn count_case(&mut self, case: Case, met: bool) {
        self.tally.cases[case as usize] += u64::from(met);
    }

    /// step at a place. Answers the number of strings where it is good.
    pub fn step(&mut self, s: &[u8], at: usize) -> Option<u32> {
        let proved = seen_proved(s, eventlog::step(self.proved, s, at));
        let plain = seen_plain(s, plain::step(self.edition, s, at));
        if proved != plain {
            self.differ(&format!("step at {at}"), &[s], &proved, &plain);
        }
        let (number, field) = proved.as_ref().err().map_or((0, 0), |r| (r.0, r.1));
        let refusals = (
            numbers_of(eventlog::refusal(self.proved, s, at)),
            plain::refusal(self.edition, s, at),
        );
        let stepped = plain::Refused { number, field };
        if refusals != (stepped, stepped) {
            self.differ(&format!("refusal at {at}"), &[s], &refusals.0, &refusals.1);
        }
        self.count_buffer(s);
        self.count_case(Case::FarRecord, number == 0 && at > FAR);
        let length = proved.as_ref().map_or(0, |seen| seen.length);
        self.count_case(Case::LongestRecord, length == MAX_LENGTH);
        let zero_unit = number == 0 && begins_with_zero(self.edition, length);
        self.count_case(Case::ZeroUnit, zero_unit);
        let too_long = number == 2 && s.len() - at >= TOO_LONG;
        let too_long = too_long && get(s, at, 4) == TOO_LONG as u32;
        self.count_case(Case::TooLongRecord, too_long);
        self.count(Call::Step, number);
        proved.ok().map(|seen| u32::from(seen.fields.num_strings))
    }

    /// step_back at a place.
    pub fn step_back(&mut self, s: &[u8], end: usize) {
        let proved = seen_proved(s, eventlog::step_back(self.proved, s, end));
        let plain = seen_plain(s, plain::step_back(self.edition, s, end));
        if proved != plain {
            self.differ(&format!("step_back at {end}"), &[s], &proved, &plain);
        }
        self.count_buffer(s);
        self.count_case(Case::FarRecordBack, proved.is_ok() && end > FAR);
        let length = proved.as_ref().map_or(0, |seen| seen.length);
        self.count_case(Case::LongestRecordBack, length == MAX_LENGTH);
        let too_long = matches!(proved, Err((2, ..))) && end >= TOO_LONG;
        let too_long = too_long && get(s, end - 4, 4) == TOO_LONG as u32;
        self.count_case(Case::TooLongRecordBack, too_long);
        self.count(Call::StepBack, proved.err().map_or(0, |r| r.0));
    }

    /// A good record read and written again (Rule 6.15): its event in the
    /// writer's own layout, at most four bytes longer, or refusal 2.
    pub fn rewrite(&mut self, s: &[u8]) {
        let event = plain::step(self.edition, s, 0).expect("the record is good");
        let read = eventlog::step(self.proved, s, 0).expect("the record is good");
        let mut out = self.outputs(s.len() + 4);
        let number = read.record_number;
        let proved =
            eventlog::write(self.proved, number, &read.event, &mut out[0]).map_err(Refusal::number);
        let plain = plain::write(self.edition, &again(&event), &mut out[1]);
        let longer = plain.is_ok_and(|length| length > s.len());
        let right = match plain {
            Ok(length) => {
                plain::step(self.edition, &out[1], 0).is_ok_and(|r| again(&r) == again(&event))
                    && length <= s.len() + 4
            }
            Err(number) => number == 2 && s.len() == MAX_LENGTH,
        };
        if proved != plain || !right {
            self.differ("rewriting", &[s], &proved, &plain);
        }
        self.same_outputs("rewriting", &[s], out, plain.unwrap_or(0));
        self.count_case(Case::LongerRewrite, longer);
        self.count_case(
            Case::ShorterRewrite,
            plain.is_ok_and(|length| length < s.len()),
        );
        self.count_case(Case::RefusedRewrite, plain.is_err());
    }

    /// A record of a log whose text runs up to Length2: refused so from both
    /// ends, by steps and walks.
    pub fn unended(&mut self, log: &[u8], record: Range<usize>, refusal: u32) {
        self.at(log, record.start);
        self.step_back(log, record.end);
        self.walks(log);
        let steps = (
            plain::judge(self.edition, log, record.start).map_err(|why| why.number),
            plain::judge_back(self.edition, log, record.end).map_err(|why| why.number),
        );
        let walks = [
            plain::walk(self.edition, log),
            plain::walk_back(self.edition, log),
        ]
        .map(|w| (w.refusal, w.at));
        let expected = [record.start, record.end].map(|at| (refusal, at));
        if steps != (Err(refusal), Err(refusal)) || walks != expected {
            self.differ("a text without an end", &[log], &expected, &(steps, walks));
        }
        let zero_unit = begins_with_zero(self.edition, record.len());
        self.count_case(Case::ZeroUnitName, zero_unit && refusal == 9);
        self.count_case(Case::ZeroUnitString, zero_unit && refusal == 11);
    }

    /// String `k` of the record at a place.
    pub fn string(&mut self, s: &[u8], at: usize, k: u32) {
        let refused = plain::string_refusal(self.edition, s, at, k);
        let number = refused.number;
        let plain = match number {
            0 => Ok(location(s, plain::string(self.edition, s, at, k), 0)),
            _ => Err(refused),
        };
        let proved = match eventlog::string(self.proved, s, at, k) {
            Ok(string) => Ok(location(s, string.as_bytes(), 0)),
            Err(refused) => Err(plainly(refused)),
        };
        let told = numbers_of(eventlog::string_refusal(self.proved, s, at, k));
        if proved != plain || told != refused {
            self.differ(
                &format!("string {k} at {at}"),
                &[s],
                &(proved, told),
                &(plain, refused),
            );
        }
        if number != 0 && !plain::string(self.edition, s, at, k).is_empty() {
            self.differ(
                &format!("string {k} at {at}"),
                &[s],
                &proved,
                &"a part although refused",
            );
        }
        self.count_case(Case::FarString, number == 0 && at > FAR);
        self.count(Call::String, number);
    }

    /// The string at a place of a run. What the proved answer leaves out of a
    /// refusal is 0 and the place, which the binding's own tests see to.
    pub fn next_string(&mut self, s: &[u8], (at, len): (usize, usize), place: usize) {
        let plain = plain::next_string(self.edition, s, (at, len), place);
        let proved = match eventlog::next_string(self.proved, s, Run { at, len }, place) {
            Ok((string, next)) => {
                let lies = location(s, string.as_bytes(), 0);
                (0, lies.at, lies.len, next)
            }
            Err(refusal) => (refusal.number(), 0, 0, place),
        };
        if proved != (plain.refusal, plain.at, plain.len, plain.next) {
            let call = format!("next_string at {place} of {len} bytes at {at}");
            self.differ(&call, &[s], &proved, &plain);
        }
        self.count(Call::NextString, plain.refusal);
    }

    /// Runs that start and end around these bytes of the buffer, and places
    /// around their edges.
    pub fn runs(&mut self, s: &[u8], (at, len): (usize, usize)) {
        let end = at + len;
        let starts = [
            0,
            at.saturating_sub(1),
            at,
            at + 1,
            end,
            s.len(),
            usize::MAX,
        ];
        let ends = [
            0,
            at,
            end.saturating_sub(1),
            end,
            end + 1,
            s.len(),
            s.len() + 1,
        ];
        let places = [0, 1, 2, 3].map(|n| {
            [
                at + n,
                (at + n).wrapping_sub(4),
                end + n,
                (end + n).wrapping_sub(4),
            ]
        });
        for start in starts {
            let lens = ends.map(|end| end.wrapping_sub(start));
            for len in [&lens[..], &[0, 1, 2, usize::MAX]].concat() {
                for place in places.as_flattened() {
                    self.next_string(s, (start, len), *place);
                }
                for place in [0, s.len(), usize::MAX] {
                    self.next_string(s, (start, len), place);
                }
            }
        }
    }

    /// Both steps at a place, and some strings.
    pub fn at(&mut self, s: &[u8], at: usize) {
        if let Some(strings) = self.step(s, at) {
            self.string(s, at, 0);
            if strings > 0 {
                self.string(s, at, strings / 2);
                self.string(s, at, strings - 1);
                self.string(s, at, strings);
            }
        }
        self.step_back(s, at);
    }

    /// Both walks.
    pub fn walks(&mut self, s: &[u8]) {
        let walks = [
            (eventlog::walk(self.proved, s), s.len()),
            (eventlog::walk_back(self.proved, s), 0),
        ];
        let proved = walks.map(|(walk, reached)| match walk {
            Ok(count) => (count, 0, 0, reached),
            Err(stopped) => {
                let number = stopped.refusal.number();
                (stopped.count, number, stopped.field, stopped.at)
            }
        });
        let plain = [
            plain::walk(self.edition, s),
            plain::walk_back(self.edition, s),
        ];
        let plain = plain.map(|w| (w.count, w.refusal, w.field, w.at));
        if proved != plain {
            self.differ("walk, walk_back", &[s], &proved, &plain);
        }
        self.count_buffer(s);
        self.count(Call::Walk, plain[0].1);
        self.count(Call::WalkBack, plain[1].1);
    }

    /// The proved library's records from the front and from the rear, up to the
    /// refusal where there is one, and the strings of each, against plain steps.
    pub fn records(&mut self, s: &[u8]) {
        let (mut at, mut end) = (0, s.len());
        let (mut front, mut rear) = (Vec::new(), Vec::new());
        while at < s.len() {
            front.push(seen_plain(s, plain::step(self.edition, s, at)));
            at += plain::judge(self.edition, s, at).unwrap_or(s.len());
        }
        while end > 0 {
            rear.push(seen_plain(s, plain::step_back(self.edition, s, end)));
            end -= plain::judge_back(self.edition, s, end).unwrap_or(end);
        }
        let proved: [Vec<Answered>; 2] = [
            eventlog::records(self.proved, s)
                .map(|r| seen_proved(s, r))
                .collect(),
            eventlog::records_back(self.proved, s)
                .map(|r| seen_proved(s, r))
                .collect(),
        ];
        let plain = [front, rear];
        if proved != plain {
            self.differ("records, records_back", &[s], &proved, &plain);
        }
        for record in eventlog::records(self.proved, s).flatten() {
            self.strings(s, &record);
        }
        self.tally.calls += 2;
    }

    /// All strings of a record, one after another and by number, and none more.
    fn strings(&mut self, s: &[u8], record: &eventlog::Record) {
        let run = (record.places.strings, record.event.strings.len());
        self.runs(s, run);
        let mut place = run.0;
        let mut strings = record.strings();
        for k in 0..=u32::from(record.event.num_strings) {
            let next = strings.next().map(Text::as_bytes);
            let numbered = record.string(k).ok().map(Text::as_bytes);
            let plain = match plain::string_refusal(self.edition, s, record.start, k).number {
                0 => Some(plain::string(self.edition, s, record.start, k)),
                _ => None,
            };
            if (next, numbered) != (plain, plain) {
                let call = format!("string {k} of the record at {}", record.start);
                self.differ(&call, &[s], &(next, numbered), &plain);
            }
            self.next_string(s, run, place);
            let found = plain::next_string(self.edition, s, run, place);
            if (found.refusal == 0) != plain.is_some() {
                let call = format!("next string {k} of the record at {}", record.start);
                self.differ(&call, &[s], &found, &plain);
            }
            place = found.next;
        }
        if place != run.0 + run.1 {
            self.differ("strings in turn", &[s], &place, &run);
        }
        self.tally.calls += 2;
    }

    /// A whole buffer: steps and strings at its ends, both walks, the parts by
    /// place, the listing.
    pub fn buffer(&mut self, s: &[u8]) {
        let strings = self.step(s, 0);
        // A long record takes long to judge, which each ask does.
        let numbers = match s.len() {
            LARGE.. => &[0, u32::MAX][..],
            _ => &[0, 1, 2, 255, 256, 257, u32::MAX],
        };
        for k in numbers {
            self.string(s, 0, *k);
        }
        if let Some(n @ 1..) = strings {
            self.string(s, 0, n / 2);
            self.string(s, 0, n - 1);
            self.string(s, 0, n);
        }
        self.step_back(s, s.len());
        self.walks(s);
        self.parts(s, 0);
        self.listing(s, s.len() + 64);
    }

    /// The plain library's parts by place, against the proved record's.
    pub fn parts(&mut self, s: &[u8], at: usize) {
        let plain = [
            plain::source_name(self.edition, s, at),
            plain::computer_name(self.edition, s, at),
            plain::sid(self.edition, s, at),
            plain::event_data(self.edition, s, at),
        ];
        let proved = eventlog::step(self.proved, s, at).map_or([&[][..]; 4], |r| {
            let names = [r.event.source_name, r.event.computer_name].map(Text::as_bytes);
            [names[0], names[1], r.event.sid, r.event.event_data]
        });
        if proved != plain {
            self.differ(&format!("parts at {at}"), &[s], &proved, &plain);
        }
    }

    /// Both outputs of this length, filled alike.
    fn outputs(&mut self, len: usize) -> [Vec<u8>; 2] {
        self.fill = self.fill.wrapping_mul(5).wrapping_add(0x37);
        let mut outputs = std::mem::take(&mut self.out);
        for out in &mut outputs {
            out.clear();
            out.resize(len, self.fill);
        }
        outputs
    }

    /// Compares both outputs and what must be as it was filled.
    fn same_outputs(&mut self, call: &str, inputs: &[&[u8]], out: [Vec<u8>; 2], used: usize) {
        if out[0] != out[1] {
            let at = out[0].iter().zip(&out[1]).position(|(a, b)| a != b);
            let shown = format!("{call}: outputs differ from byte {at:?} on");
            self.differ(&shown, inputs, &hex(&out[0]), &hex(&out[1]));
        }
        let past = out[0].get(used..).unwrap_or_default();
        if past.iter().any(|b| *b != self.fill) {
            self.differ(
                &format!("{call}: both change the output past {used}"),
                inputs,
                &hex(&out[0]),
                &"",
            );
        }
        self.out = out;
    }

    /// The listing into outputs of the text's own length, of one byte less, and
    /// of another length.
    pub fn listing(&mut self, s: &[u8], other: usize) {
        let text = listing_text(self.edition, s);
        assert!(text.len() <= s.len() + 64);
        for out_len in [text.len(), text.len() - 1, other] {
            self.listing_into(s, &text, out_len);
        }
    }

    fn listing_into(&mut self, s: &[u8], text: &str, out_len: usize) {
        let mut out = self.outputs(out_len);
        let proved = match eventlog::listing(self.proved, s, &mut out[0]) {
            Ok(text) => Ok(text.len()),
            Err(refusal) => Err(refusal.number()),
        };
        let full = FULL.contains(&s.len());
        let plain = if out_len < text.len() {
            self.count_case(Case::FullListingShort, full && out_len + 1 == text.len());
            Err(15)
        } else {
            out[1][..text.len()].copy_from_slice(text.as_bytes());
            let (long, records) = (s.len() > FAR, text.starts_with("records"));
            self.count_case(Case::LongListing, long && records);
            self.count_case(Case::LongListingRefused, long && !records);
            self.count_case(Case::FullListing, full && records);
            self.count_case(Case::FullListingRefused, full && !records);
            Ok(text.len())
        };
        let call = format!("listing into {out_len}");
        if proved != plain {
            self.differ(&call, &[s], &proved, &plain);
        }
        self.same_outputs(&call, &[s], out, plain.unwrap_or(0));
        self.count(Call::Listing, plain.err().unwrap_or(0));
    }

    /// The built listing program, which lists Unicode and gets the batch in two
    /// pieces. It exits with success and says nothing on standard error.
    pub fn program(&mut self, s: &[u8], piece: usize) {
        assert_eq!(self.edition, Edition::Unicode);
        let answer = run_program(s, piece);
        let proved = (
            answer.status.code(),
            String::from_utf8_lossy(&answer.stdout).into_owned(),
            String::from_utf8_lossy(&answer.stderr).into_owned(),
        );
        let text = plain::listing(self.edition, s);
        let number = listed_refusal(&text);
        let plain = (Some(0), text, String::new());
        if proved != plain {
            self.differ("the program list", &[s], &proved, &plain);
        }
        let full = FULL.contains(&s.len());
        self.count_case(Case::FullProgram, full && number == 0);
        self.count_case(Case::FullProgramRefused, full && number != 0);
        self.count_case(Case::EmptyProgram, s.is_empty());
        let one = s.len() == FAR && plain::judge(self.edition, s, 0) == Ok(FAR);
        self.count_case(Case::FullProgramRecord, one);
        self.count(Call::Program, number);
    }

    /// Writing an event of this edition into an output of a length.
    pub fn write(&mut self, event: &Made, out_len: usize) {
        assert_eq!(event.edition, self.edition);
        let mut out = self.outputs(out_len);
        let number = event.fields.record_number;
        let proved = eventlog::write(self.proved, number, &event.proved(), &mut out[0]);
        let proved = proved.map_err(Refusal::number);
        let plain = plain::write(self.edition, &event.plain(), &mut out[1]);
        let call = format!("write into {out_len} of {:?}", event.fields);
        let inputs = parts_of(event);
        if proved != plain {
            self.differ(&call, &inputs, &proved, &plain);
        }
        if let Ok(length) = plain {
            let laid_out = event.encode(None);
            if out[1].get(..length) != Some(&laid_out[..]) {
                let other = "both differ from the layout of the specification";
                self.differ(&call, &inputs, &hex(&out[0]), &other);
            }
            self.step(&laid_out, 0);
            self.step_back(&out[0], length);
        }
        self.same_outputs(&call, &inputs, out, plain.unwrap_or(0));
        self.count_case(Case::LongestWrite, plain == Ok(MAX_LENGTH));
        let too_long = plain == Err(2) && event.length() == TOO_LONG;
        self.count_case(Case::TooLongWrite, too_long);
        self.count(Call::Write, plain.err().unwrap_or(0));
    }

    /// Appending an event to a log; answers the new used length.
    pub fn append(&mut self, log: &mut Vec<u8>, used: usize, event: &Made) -> Option<usize> {
        let mut other = log.clone();
        let old = log.clone();
        let proved = eventlog::append(self.proved, log, used, &event.proved()).map_err(plainly);
        let plain = plain::append(self.edition, &mut other, used, &event.plain());
        let call = format!("append behind {used} of {:?}", event.fields);
        let parts = parts_of(event);
        let inputs = [&old, parts[0], parts[1], parts[2], parts[3], parts[4]];
        if proved != plain {
            self.differ(&call, &inputs, &proved, &plain);
        }
        if *log != other {
            self.differ(&call, &inputs, &hex(log), &hex(&other));
        }
        let written = plain.map_or(used..used, |end| used..end);
        let kept = |range: std::ops::Range<usize>| log.get(range.clone()) == old.get(range);
        if !kept(0..written.start) || !kept(written.end..old.len()) {
            self.differ(&call, &inputs, &"both change other bytes", &hex(log));
        }
        self.count_append(log, used, event, plain.map_err(|why| why.number));
        plain.ok()
    }

    fn count_append(&mut self, log: &[u8], used: usize, event: &Made, answer: Result<usize, u32>) {
        self.count(Call::Append, answer.err().unwrap_or(0));
        let good = answer.is_ok();
        let wrapped = good && used > 0 && log.get(used + 8..used + 12) == Some(&[0; 4]);
        self.count_case(Case::WrappedNumber, wrapped);
        self.count_case(Case::FarAppend, good && used > FAR);
        self.count_case(Case::LongestAppend, good && event.length() == MAX_LENGTH);
        let (room, length) = (log.len().saturating_sub(used), event.length());
        if length >= LARGE {
            self.count_case(Case::LargeAppend, good && room > length);
            self.count_case(Case::LargeAppendExact, good && room == length);
            let short = answer == Err(15) && room + 1 == length;
            self.count_case(Case::LargeAppendRefused, short);
        }
    }

    /// A read; answers the next handles.
    pub fn read(&mut self, handles: Handles, log: &[u8], request: Request) -> Handles {
        let Request {
            flags,
            number,
            size,
            out,
        } = request;
        let mut out = self.outputs(out);
        let given = handles.plain;
        let answer = match kind_and_direction(flags, number) {
            Some((kind, direction)) => {
                let handle = handles.proved;
                handle.read(self.proved, log, kind, direction, size, &mut out[0])
            }
            None => {
                let handle = handles.proved;
                handle.read_with_flags(self.proved, log, flags, number, size, &mut out[0])
            }
        };
        let seen = read_proved(answer);
        let plain = given.read(self.edition, log, flags, number, size, &mut out[1]);
        let call = || format!("read with {given:?}, {request:?}");
        if seen != plain {
            self.differ(&call(), &[log], &seen, &plain);
        }
        let past = out[0].get(plain.read..).unwrap_or_default();
        if out[0] != out[1] || past.iter().any(|b| *b != self.fill) {
            self.same_outputs(&call(), &[log], out, plain.read);
        } else {
            self.out = out;
        }
        self.tally.calls += 1;
        self.count_case(Case::LongRead, plain.read >= LONG_READ && flags & 4 != 0);
        self.count_case(
            Case::LongReadBack,
            plain.read >= LONG_READ && flags & 8 != 0,
        );
        self.count_case(Case::LargestRead, plain.read == LARGEST_READ);
        let longest = size == MAX_LENGTH && plain.read == MAX_LENGTH;
        self.count_case(Case::LongestRead, longest);
        self.count_case(Case::LongestNeeded, plain.needed == MAX_LENGTH);
        let kind = FLAGS.iter().position(|f| *f == flags).unwrap_or(4);
        match STATUSES.iter().position(|s| *s == plain.status) {
            Some(status) => self.tally.statuses[kind][status] += 1,
            None => self.differ(&call(), &[log], &seen, &"no such status"),
        }
        self.sets_of(given, log, request, &plain);
        let types = plain.handle.types.0;
        match plain.handle.place {
            plain::Place::Fresh => Handles::fresh(types),
            plain::Place::Boundary(at) => Handles::boundary(at, types),
        }
    }

    /// What the handle's set made of a read: with all six types it answers as
    /// without sets, else what was skipped is counted.
    fn sets_of(
        &mut self,
        given: plain::Handle,
        log: &[u8],
        request: Request,
        answer: &plain::Answer,
    ) {
        let plain::Handle { place, types } = given;
        if types == Types::ALL {
            let mut out = vec![self.fill; request.out];
            let all = read_all(self.edition, place, log, request, &mut out);
            if all != *answer || out[..all.read] != self.out[1][..all.read] {
                let call = format!("read without sets with {given:?}, {request:?}");
                self.differ(&call, &[log], &answer, &all);
            }
            self.tally.without_sets += 1;
        }
        let Request {
            flags,
            number,
            size,
            out,
        } = request;
        let Some(kind) = FLAGS.iter().position(|f| *f == flags) else {
            return;
        };
        if size > plain::MAX_READ.min(out) {
            return;
        }
        self.tally.sets[(types.0 as usize).min(SETS)] += 1;
        let lost = matches!(place, plain::Place::Boundary(at) if at > log.len());
        if types == Types::ALL || !types.is_valid() || lost {
            return;
        }
        if let Ok(ahead) = ahead(self.edition, place, log, flags, number) {
            for skip in skips(&ahead, types, size, answer) {
                self.tally.skips[kind][skip as usize] += 1;
            }
        }
    }
}

/// What a read skipped of what was ahead of it.
fn skips(ahead: &Ahead, types: Types, size: usize, answer: &plain::Answer) -> Vec<Skip> {
    let mut met = Vec::new();
    let mut read = 0;
    let mut skipped = 0;
    let mut long = false;
    for record in &ahead.records {
        if !types.contains(record.event_type) {
            skipped += 1;
            long |= record.length > size - read;
            continue;
        }
        if read == answer.read {
            break;
        }
        if skipped > 0 {
            met.push(if read == 0 {
                Skip::Before
            } else {
                Skip::Between
            });
        }
        if long {
            met.push(Skip::Long);
        }
        read += record.length;
        (skipped, long) = (0, false);
    }
    if skipped > 0 {
        met.push(match answer.status {
            status::SUCCESS => Skip::After,
            status::END_OF_FILE => Skip::End,
            status::EVENTLOG_FILE_CORRUPT => Skip::Refused,
            _ => Skip::Small,
        });
    }
    met
}

fn parts_of(event: &Made) -> [&[u8]; 5] {
    [
        &event.source,
        &event.computer,
        &event.sid,
        &event.strings,
        &event.data,
    ]
}

/// What the program `list` writes for a batch on its standard input.
fn run_program(s: &[u8], piece: usize) -> Output {
    let path = Path::new(env!("CARGO_MANIFEST_DIR")).join("../../crates/list/out/list");
    let mut program = Command::new(&path)
        .stdin(Stdio::piped())
        .stdout(Stdio::piped())
        .stderr(Stdio::piped())
        .spawn()
        .unwrap_or_else(|e| panic!("{}: {e}: run `rt run` in crates/list first", path.display()));
    let mut input = program.stdin.take().expect("standard input is a pipe");
    let (first, second) = s.split_at(piece.min(s.len()));
    for bytes in [first, second] {
        match input.write_all(bytes) {
            // The program does not read on where there are too many bytes.
            Err(e) if e.kind() == ErrorKind::BrokenPipe && s.len() > FAR => {}
            answer => answer.expect("the program reads its input"),
        }
    }
    drop(input);
    program.wait_with_output().expect("the program ends")
}

/// The refusal that a listing tells, 0 for none.
fn listed_refusal(text: &str) -> u32 {
    match text.strip_prefix("refused ") {
        Some(rest) => {
            let number = rest.split(' ').next().unwrap_or_default();
            number.parse().expect("a listing tells a refusal's number")
        }
        None => 0,
    }
}

/// The plain listing. Its limit of 65,536 bytes is the listing program's, not
/// the proved call's, so a longer batch is listed from plain steps.
fn listing_text(edition: Edition, s: &[u8]) -> String {
    if s.len() <= plain::MAX_LISTED {
        return plain::listing(edition, s);
    }
    let mut lines = String::new();
    let (mut at, mut count) = (0, 0);
    while at < s.len() {
        match plain::step(edition, s, at) {
            Ok(r) => {
                let number = r.fields.record_number;
                let _ = writeln!(lines, "{} {} {number}", r.start, r.length);
                at += r.length;
            }
            Err(r) => return format!("refused {} at {} field {}\n", r.number, r.at, r.field),
        }
        count += 1;
    }
    format!("records {count}\n{lines}")
}
