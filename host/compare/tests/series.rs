//! Reads and appends mixed at random, on one lent buffer and one handle: the proved
//! calls, and a model on a list and an index that knows no place of a byte. After
//! every operation both must agree on all that there is.

use std::io::{stdout, Write};
use std::time::Instant;

use compare::check::{Request, FLAGS, SETS};
use compare::make::{self, Made, Size};
use compare::random::Random;
use plain::{status, Edition};

/// The series of an edition: every set has as many.
const SERIES: usize = 80 * SETS;
/// The operations of a series.
const OPERATIONS: usize = 20;
/// The fewest operations of an edition.
const FEWEST: usize = 100_000;
/// The most that a read may ask for.
const MAX_READ: usize = 524_287;
/// The refusal of what does not fit.
const NO_ROOM: u32 = 15;

/// An entry of the list, with what it was written from.
struct Entry {
    record: Vec<u8>,
    number: u32,
    event_type: u16,
}

/// The second program.
struct Model {
    edition: Edition,
    /// The oldest first; they only grow at the end.
    entries: Vec<Entry>,
    /// How many entries are before it, `None` where nothing was read yet.
    cursor: Option<usize>,
    types: u32,
    /// How many bytes the buffer has left.
    room: usize,
    /// What the writer writes to before the room is asked.
    page: Vec<u8>,
}

/// What a read answers but its handle and its output.
#[derive(Debug, PartialEq, Eq)]
struct Answer {
    status: u32,
    read: usize,
    needed: usize,
}

impl Answer {
    fn refused(status: u32) -> Self {
        Answer {
            status,
            read: 0,
            needed: 0,
        }
    }
}

impl Model {
    /// The event as an entry with this number, or the writer's refusal.
    fn entry(&mut self, number: u32, event: &Made) -> Result<Entry, u32> {
        let fields = plain::Fields {
            record_number: number,
            ..event.fields
        };
        let numbered = plain::Event {
            fields,
            ..event.plain()
        };
        let length = plain::write(self.edition, &numbered, &mut self.page)?;
        Ok(Entry {
            record: self.page[..length].to_vec(),
            number,
            event_type: fields.event_type,
        })
    }

    fn append(&mut self, event: &Made) -> Result<(), u32> {
        let last = self.entries.last();
        let number = last.map_or(1, |last| last.number.wrapping_add(1));
        let entry = self.entry(number, event)?;
        self.room = match self.room.checked_sub(entry.record.len()) {
            Some(room) => room,
            None => return Err(NO_ROOM),
        };
        self.entries.push(entry);
        Ok(())
    }

    fn wants(&self, entry: &Entry) -> bool {
        let bit = match entry.event_type {
            0 => 32,
            other => u32::from(other),
        };
        self.types & bit != 0
    }

    fn read(&mut self, request: Request, out: &mut [u8]) -> Answer {
        let Request {
            flags,
            number,
            size,
            ..
        } = request;
        let (seek, forwards) = match flags {
            5 => (false, true),
            9 => (false, false),
            6 => (true, true),
            10 => (true, false),
            _ => return Answer::refused(status::INVALID_PARAMETER),
        };
        if size > MAX_READ || size > out.len() || self.types >= 64 {
            return Answer::refused(status::INVALID_PARAMETER);
        }
        let from = if seek {
            let oldest = self.entries.iter().position(|e| e.number == number);
            match oldest {
                Some(n) if forwards => n,
                Some(n) => n + 1,
                None => return Answer::refused(status::INVALID_PARAMETER),
            }
        } else {
            match self.cursor {
                Some(n) => n,
                None if forwards => 0,
                None => self.entries.len(),
            }
        };
        let ahead: Vec<usize> = match forwards {
            true => (from..self.entries.len()).collect(),
            false => (0..from).rev().collect(),
        };
        let mut copied = Vec::new();
        let mut last = None;
        for n in ahead {
            let entry = &self.entries[n];
            if !self.wants(entry) {
                continue;
            }
            if copied.len() + entry.record.len() > size {
                if last.is_none() {
                    return Answer {
                        needed: entry.record.len(),
                        ..Answer::refused(status::BUFFER_TOO_SMALL)
                    };
                }
                break;
            }
            copied.extend(&entry.record);
            last = Some(n);
        }
        let Some(last) = last else {
            return Answer::refused(status::END_OF_FILE);
        };
        self.cursor = Some(if forwards { last + 1 } else { last });
        out[..copied.len()].copy_from_slice(&copied);
        Answer {
            status: status::SUCCESS,
            read: copied.len(),
            needed: 0,
        }
    }

    /// The bytes of the first `n` entries.
    fn joined(&self, n: usize) -> Vec<u8> {
        let records = self.entries[..n].iter().map(|entry| &entry.record[..]);
        records.collect::<Vec<_>>().concat()
    }

    /// Where the cursor stands, as a handle has it.
    fn place(&self) -> eventlog::Place {
        match self.cursor {
            None => eventlog::Place::Fresh,
            Some(n) => eventlog::Place::Boundary(self.joined(n).len()),
        }
    }
}

/// What must occur, so that the agreement says something.
#[derive(Clone, Copy, Debug)]
enum Case {
    /// The answers of a read,
    Copied,
    Invalid,
    EndOfFile,
    TooSmall,
    /// and why one is invalid: the first that applies.
    WrongFlags,
    WrongSize,
    WrongSet,
    AbsentNumber,
    /// The answers of an append.
    Appended,
    NoRoom,
    WrongEvent,
    /// No byte of the buffer is left.
    Full,
    /// The number 0 comes after another.
    Wrapped,
    /// On from the cursor, the other way than it came there.
    Turned,
    /// A seek of a number that several entries have.
    SeveralNumbers,
    /// On from a cursor that was at the end before an append.
    OldEnd,
    /// A first read, backwards and after an append.
    FreshEnd,
    /// A first read after a refused one.
    FreshRefused,
}

const CASES: [Case; 18] = [
    Case::Copied,
    Case::Invalid,
    Case::EndOfFile,
    Case::TooSmall,
    Case::WrongFlags,
    Case::WrongSize,
    Case::WrongSet,
    Case::AbsentNumber,
    Case::Appended,
    Case::NoRoom,
    Case::WrongEvent,
    Case::Full,
    Case::Wrapped,
    Case::Turned,
    Case::SeveralNumbers,
    Case::OldEnd,
    Case::FreshEnd,
    Case::FreshRefused,
];

struct Tally {
    operations: usize,
    cases: [usize; CASES.len()],
    /// Reads of each set, the last for all with another bit.
    sets: [usize; SETS + 1],
}

impl Tally {
    fn count(&mut self, case: Case, met: bool) {
        self.cases[case as usize] += usize::from(met);
    }
}

/// Both programs in the middle of a series, and what only the count asks for.
struct Series<'t> {
    model: Model,
    proved: eventlog::Edition,
    /// The buffer, the same as it was lent, and its used length.
    buffer: Vec<u8>,
    lent: Vec<u8>,
    used: usize,
    out: [Vec<u8>; 2],
    tally: &'t mut Tally,
    /// Which way the cursor came where it is.
    came_forwards: bool,
    /// The cursor was at the end when an entry came behind it.
    at_old_end: bool,
    /// Nothing was read yet, but something was appended, or a read was refused.
    fresh_appended: bool,
    fresh_refused: bool,
}

impl<'t> Series<'t> {
    fn new(edition: Edition, types: u32, rng: &mut Random, tally: &'t mut Tally) -> Self {
        let mut model = Model {
            edition,
            entries: Vec::new(),
            cursor: None,
            types,
            room: 0,
            page: vec![0; make::MAX_LENGTH],
        };
        let count = rng.below(13);
        let first = match rng.below(3) {
            0 => rng.range(0xFFFF_FFFD, 0xFFFF_FFFF) as u32,
            1 => 1,
            _ => rng.bits() as u32,
        };
        let equal = rng.once_in(4);
        for i in 0..count {
            let size = some_size(rng);
            let event = Made::good(edition, rng, size);
            let number = match equal {
                true => rng.below(4) as u32,
                false => first.wrapping_add(i as u32),
            };
            let entry = model.entry(number, &event).expect("a good event");
            model.entries.push(entry);
        }
        // Little of it, so that most series come to its end.
        model.room = match rng.below(8) {
            0 => rng.below(200),
            _ => 4 * rng.below(300),
        };
        let lent = [model.joined(count), rng.bytes(model.room)].concat();
        Series {
            used: lent.len() - model.room,
            model,
            proved: match edition {
                Edition::Unicode => eventlog::Edition::Unicode,
                Edition::Ansi => eventlog::Edition::Ansi,
            },
            buffer: lent.clone(),
            lent,
            out: Default::default(),
            tally,
            came_forwards: false,
            at_old_end: false,
            fresh_appended: false,
            fresh_refused: false,
        }
    }

    /// That a refusal tells the old used length, the binding's own tests see to.
    fn append(&mut self, event: &Made, label: &str) {
        let (cursor, count) = (self.model.cursor, self.model.entries.len());
        let proved = eventlog::append(self.proved, &mut self.buffer, self.used, &event.proved());
        let model = self.model.append(event);
        let expected = match model {
            Ok(()) => Ok(self.model.joined(count + 1).len()),
            Err(refusal) => Err((refusal, 0)),
        };
        let proved = proved.map_err(|why| (why.refusal.number(), why.field));
        assert_eq!(proved, expected, "{label}: append");
        if let Ok(used) = proved {
            self.used = used;
            self.at_old_end |= cursor == Some(count);
            self.fresh_appended |= cursor.is_none();
        }
        let (tally, room) = (&mut self.tally, self.model.room);
        tally.count(Case::Appended, model.is_ok());
        tally.count(Case::NoRoom, model == Err(NO_ROOM));
        tally.count(Case::WrongEvent, model.is_err_and(|why| why != NO_ROOM));
        tally.count(Case::Full, model.is_ok() && room == 0);
        let zero = self.model.entries.last().is_some_and(|e| e.number == 0);
        tally.count(Case::Wrapped, model.is_ok() && count > 0 && zero);
    }

    fn read(
        &mut self,
        handle: eventlog::Handle,
        request: Request,
        fill: u8,
        label: &str,
    ) -> eventlog::Handle {
        let Request {
            flags,
            number,
            size,
            out,
        } = request;
        for output in &mut self.out {
            output.clear();
            output.resize(out, fill);
        }
        let cursor = self.model.cursor;
        let log = &self.buffer[..self.used];
        let answer =
            handle.read_with_flags(self.proved, log, flags, number, size, &mut self.out[0]);
        let (proved, handle) = seen(answer);
        let model = self.model.read(request, &mut self.out[1]);
        assert_eq!(proved, model, "{label}: {request:?} from {cursor:?}");
        let same = self.out[0] == self.out[1];
        assert!(same, "{label}: the outputs differ, {request:?}");
        self.count_read(cursor, request, &model);
        handle
    }

    fn count_read(&mut self, cursor: Option<usize>, request: Request, answer: &Answer) {
        let Request {
            flags,
            number,
            size,
            out,
        } = request;
        let tally = &mut self.tally;
        tally.sets[(self.model.types as usize).min(SETS)] += 1;
        let copied = answer.status == status::SUCCESS;
        let invalid = answer.status == status::INVALID_PARAMETER;
        tally.count(Case::Copied, copied);
        tally.count(Case::Invalid, invalid);
        tally.count(Case::EndOfFile, answer.status == status::END_OF_FILE);
        tally.count(Case::TooSmall, answer.status == status::BUFFER_TOO_SMALL);
        if invalid {
            let why = if !FLAGS.contains(&flags) {
                Case::WrongFlags
            } else if size > MAX_READ || size > out {
                Case::WrongSize
            } else if self.model.types as usize >= SETS {
                Case::WrongSet
            } else {
                Case::AbsentNumber
            };
            tally.count(why, true);
        }
        if !copied {
            self.fresh_refused |= cursor.is_none();
            return;
        }
        let (seek, forwards) = (flags & 2 != 0, flags & 4 != 0);
        let have = self.model.entries.iter().filter(|e| e.number == number);
        tally.count(Case::SeveralNumbers, seek && have.count() > 1);
        let turned = cursor.is_some() && forwards != self.came_forwards;
        tally.count(Case::Turned, !seek && turned);
        tally.count(Case::OldEnd, !seek && forwards && self.at_old_end);
        let fresh = !seek && cursor.is_none();
        tally.count(Case::FreshEnd, fresh && !forwards && self.fresh_appended);
        tally.count(Case::FreshRefused, fresh && self.fresh_refused);
        self.came_forwards = forwards;
        self.at_old_end = false;
    }

    /// What there is besides an operation's answer.
    fn same(&self, handle: &eventlog::Handle, types: u32, label: &str) {
        assert_eq!(handle.place, self.model.place(), "{label}: the place");
        assert_eq!(handle.types.bits(), types, "{label}: the set");
        let mut expected = self.model.joined(self.model.entries.len());
        assert_eq!(self.used, expected.len(), "{label}: the used length");
        expected.extend(&self.lent[self.used..]);
        assert!(self.buffer == expected, "{label}: the buffer differs");
    }
}

/// The proved read's answer, and its handle. What the binding leaves out is 0,
/// which its own tests see to.
fn seen(answer: Result<eventlog::Batch, eventlog::ReadError>) -> (Answer, eventlog::Handle) {
    match answer {
        Ok(batch) => {
            let read = batch.bytes.len();
            let answer = Answer {
                read,
                ..Answer::refused(status::SUCCESS)
            };
            (answer, batch.handle)
        }
        Err(error) => {
            let needed = match error.status {
                eventlog::Status::BufferTooSmall { needed } => needed,
                _ => 0,
            };
            let answer = Answer {
                needed,
                ..Answer::refused(error.status.code())
            };
            (answer, error.handle)
        }
    }
}

fn some_size(rng: &mut Random) -> Size {
    match rng.once_in(30) {
        true => Size::Medium,
        false => Size::Small,
    }
}

fn any_event(edition: Edition, rng: &mut Random) -> Made {
    let size = some_size(rng);
    match rng.once_in(6) {
        true => Made::bad(edition, rng, size),
        false => Made::good(edition, rng, size),
    }
}

/// A request, mostly with these flags, for up to a few entries of the list.
fn any_request(rng: &mut Random, entries: &[Entry], flags: u32) -> Request {
    let flags = match rng.below(24) {
        0 => rng.below(17) as u32,
        1 => flags | 1 << rng.below(32),
        _ => flags,
    };
    let from = rng.below(entries.len() + 1);
    let some = entries[from..].iter().take(rng.below(4));
    let span = some.map(|entry| entry.record.len()).sum();
    let size = match rng.below(16) {
        0 => 0,
        1 => usize::saturating_sub(span, 1),
        2 => span + 1,
        3..6 => rng.range(64, 400),
        6 if rng.once_in(16) => rng.pick(&[MAX_READ, MAX_READ + 1, 1 << 32, usize::MAX]),
        _ => span,
    };
    let out = match rng.below(12) {
        _ if size > MAX_READ + 1 => rng.below(300),
        0 => size.saturating_sub(1),
        1..4 => size + rng.below(100),
        _ => size,
    };
    let number = match entries.get(from) {
        Some(entry) if !rng.once_in(8) => entry.number,
        _ => rng.below(20) as u32,
    };
    Request {
        flags,
        number,
        size,
        out,
    }
}

fn one_series(edition: Edition, series: usize, tally: &mut Tally) {
    let mut rng = Random::new(14 << 56 ^ (edition as u64) << 52 ^ series as u64);
    let rng = &mut rng;
    let types = match rng.once_in(20) {
        true => (series % SETS) as u32 | 1 << rng.range(6, 31),
        false => (series % SETS) as u32,
    };
    let mut both = Series::new(edition, types, rng, tally);
    let mut handle = eventlog::Handle::fresh(eventlog::Types::from_bits(types));
    let mut flags = rng.pick(&FLAGS);
    for operation in 0..OPERATIONS {
        let label = format!("{edition:?}, series {series}, operation {operation}");
        if rng.below(5) < 2 {
            both.append(&any_event(edition, rng), &label);
        } else {
            // Mostly on in the same way; sometimes a turn or a seek.
            flags = match rng.below(8) {
                0 => rng.pick(&FLAGS),
                1 => (12 - (flags & 12)) | 1,
                2..5 => (flags & 12) | 1,
                _ => flags,
            };
            let request = any_request(rng, &both.model.entries, flags);
            handle = both.read(handle, request, rng.bits() as u8, &label);
        }
        both.same(&handle, types, &label);
        both.tally.operations += 1;
    }
}

#[test]
fn both_agree_after_every_operation() {
    for edition in [Edition::Unicode, Edition::Ansi] {
        let start = Instant::now();
        let mut tally = Tally {
            operations: 0,
            cases: [0; CASES.len()],
            sets: [0; SETS + 1],
        };
        for series in 0..SERIES {
            one_series(edition, series, &mut tally);
        }
        let Tally {
            operations,
            cases,
            sets,
        } = tally;
        let seconds = start.elapsed().as_secs_f64();
        // Not by print!, which is shown only for a test that fails.
        let mut out = stdout().lock();
        writeln!(
            out,
            "\n{edition:?}: {operations} operations, {seconds:.1} s"
        )
        .unwrap();
        for case in CASES {
            writeln!(out, "{case:?} {}", cases[case as usize]).unwrap();
        }
        drop(out);
        assert!(operations >= FEWEST, "only {operations} operations");
        for case in CASES {
            assert!(cases[case as usize] > 0, "{edition:?}: {case:?}");
        }
        for (set, reads) in sets.into_iter().enumerate() {
            assert!(reads > 0, "{edition:?}: set {set}");
        }
    }
}
