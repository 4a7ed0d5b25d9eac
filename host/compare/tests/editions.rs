//! The edition's number at the C border: 0 is Unicode, and every other number is
//! ANSI. The calls are declared here once more, since the binding gives 0 and 1
//! alone.

use compare::make::{self, Made, Size};
use compare::random::Random;
// Links the library.
use eventlog as _;
use plain::Edition;

#[repr(C)]
#[derive(Clone, Copy, Debug, Default, PartialEq, Eq)]
struct Fields {
    record_number: u32,
    time_generated: u32,
    time_written: u32,
    event_id: u32,
    event_type: u16,
    num_strings: u16,
    event_category: u16,
    reserved_flags: u16,
}

#[repr(C)]
struct Unnumbered {
    time_generated: u32,
    time_written: u32,
    event_id: u32,
    event_type: u16,
    num_strings: u16,
    event_category: u16,
    reserved_flags: u16,
}

#[repr(C)]
#[derive(Clone, Copy, Debug, Default, PartialEq, Eq)]
struct Part {
    at: usize,
    len: usize,
}

#[repr(C)]
#[derive(Clone, Copy, Debug, Default, PartialEq, Eq)]
struct Record {
    start: usize,
    length: usize,
    fields: Fields,
    source_name: Part,
    computer_name: Part,
    sid: Part,
    strings: Part,
    event_data: Part,
}

#[repr(C)]
#[derive(Clone, Copy, Debug, PartialEq, Eq)]
struct Refused {
    refusal: u32,
    field: usize,
}

#[repr(C)]
#[derive(Clone, Copy, Debug, PartialEq, Eq)]
struct Stepped {
    refusal: u32,
    field: usize,
    at: usize,
    found: Record,
}

#[repr(C)]
#[derive(Clone, Copy, Debug, PartialEq, Eq)]
struct Next {
    refusal: u32,
    string: Part,
    next: usize,
}

#[repr(C)]
#[derive(Clone, Copy, Debug, PartialEq, Eq)]
struct Walked {
    count: usize,
    refusal: u32,
    field: usize,
    at: usize,
}

#[repr(C)]
#[derive(Clone, Copy, Debug, PartialEq, Eq)]
struct Written {
    refusal: u32,
    length: usize,
}

#[repr(C)]
#[derive(Clone, Copy, Debug, PartialEq, Eq)]
struct Appended {
    refusal: u32,
    field: usize,
    used: usize,
}

#[repr(C)]
#[derive(Clone, Copy, Debug, PartialEq, Eq)]
struct Handle {
    kind: u32,
    types: u32,
    boundary: usize,
}

#[repr(C)]
#[derive(Clone, Copy, Debug, PartialEq, Eq)]
struct Answer {
    status: u32,
    read: usize,
    needed: usize,
    handle: Handle,
}

#[rustfmt::skip]
unsafe extern "C" {
    fn eventlog_step(edition: u32, s: *const u8, len: usize, at: usize) -> Stepped;
    fn eventlog_step_back(edition: u32, s: *const u8, len: usize, end: usize) -> Stepped;
    fn eventlog_refusal(edition: u32, s: *const u8, len: usize, at: usize) -> Refused;
    fn eventlog_string(edition: u32, s: *const u8, len: usize, at: usize, k: u32) -> Part;
    fn eventlog_string_refusal(edition: u32, s: *const u8, len: usize, at: usize, k: u32) -> Refused;
    fn eventlog_next_string(edition: u32, s: *const u8, len: usize, run: Part, place: usize) -> Next;
    fn eventlog_walk(edition: u32, s: *const u8, len: usize) -> Walked;
    fn eventlog_walk_back(edition: u32, s: *const u8, len: usize) -> Walked;
    fn eventlog_write(
        edition: u32, fields: Fields, source: *const u8, source_len: usize, computer: *const u8, computer_len: usize,
        sid: *const u8, sid_len: usize, strings: *const u8, strings_len: usize, data: *const u8, data_len: usize,
        out: *mut u8, out_len: usize,
    ) -> Written;
    fn eventlog_append(
        edition: u32, log: *mut u8, log_len: usize, used: usize, fields: Unnumbered, source: *const u8,
        source_len: usize, computer: *const u8, computer_len: usize, sid: *const u8, sid_len: usize,
        strings: *const u8, strings_len: usize, data: *const u8, data_len: usize,
    ) -> Appended;
    fn eventlog_read(
        edition: u32, handle: Handle, log: *const u8, log_len: usize, flags: u32, number: u32, size: usize,
        out: *mut u8, out_len: usize,
    ) -> Answer;
    fn eventlog_listing(edition: u32, s: *const u8, len: usize, out: *mut u8, out_len: usize) -> Written;
}

/// The numbers, and what each of them is.
const NUMBERS: [(u32, Edition); 6] = [
    (0, Edition::Unicode),
    (1, Edition::Ansi),
    (2, Edition::Ansi),
    (0x100, Edition::Ansi),
    (0x8000_0000, Edition::Ansi),
    (0xFFFF_FFFF, Edition::Ansi),
];

/// What an output holds before a call.
const LENT: u8 = 0xEE;

fn part(s: &[u8], at: usize, part: &[u8]) -> Part {
    assert_eq!(&s[at..at + part.len()], part);
    Part {
        at,
        len: part.len(),
    }
}

/// A plain step as C has it.
fn stepped(s: &[u8], at: usize, step: Result<plain::Record, plain::Refusal>) -> Stepped {
    let (refusal, field, found) = match step {
        Err(why) => (why.number, why.field, Record::default()),
        Ok(r) => {
            let found = Record {
                start: r.start,
                length: r.length,
                fields: fields(&r.fields),
                source_name: part(s, r.source_name_at, r.source_name),
                computer_name: part(s, r.computer_name_at, r.computer_name),
                sid: part(s, r.sid_at, r.sid),
                strings: part(s, r.strings_at, r.strings),
                event_data: part(s, r.event_data_at, r.event_data),
            };
            (0, 0, found)
        }
    };
    Stepped {
        refusal,
        field,
        at,
        found,
    }
}

fn fields(f: &plain::Fields) -> Fields {
    Fields {
        record_number: f.record_number,
        time_generated: f.time_generated,
        time_written: f.time_written,
        event_id: f.event_id,
        event_type: f.event_type,
        num_strings: f.num_strings,
        event_category: f.event_category,
        reserved_flags: f.reserved_flags,
    }
}

fn refused(why: plain::Refused) -> Refused {
    Refused {
        refusal: why.number,
        field: why.field,
    }
}

fn walked(w: plain::Walked) -> Walked {
    Walked {
        count: w.count,
        refusal: w.refusal,
        field: w.field,
        at: w.at,
    }
}

/// All calls that read a buffer, at a place.
fn read_at(number: u32, edition: Edition, s: &[u8], at: usize) {
    let (p, len) = (s.as_ptr(), s.len());
    // SAFETY: `s` is readable for its length; any numbers may be given.
    unsafe {
        let front = stepped(s, at, plain::step(edition, s, at));
        assert_eq!(eventlog_step(number, p, len, at), front);
        let rear = stepped(s, at, plain::step_back(edition, s, at));
        assert_eq!(eventlog_step_back(number, p, len, at), rear);
        let why = refused(plain::refusal(edition, s, at));
        assert_eq!(eventlog_refusal(number, p, len, at), why);
        for k in 0..4 {
            let why = plain::string_refusal(edition, s, at, k);
            let told = eventlog_string_refusal(number, p, len, at, k);
            assert_eq!(told, refused(why));
            let expected = match why.number {
                0 => {
                    let string = plain::string(edition, s, at, k);
                    part(s, string.as_ptr() as usize - p as usize, string)
                }
                _ => Part::default(),
            };
            assert_eq!(eventlog_string(number, p, len, at, k), expected);
        }
        for (run, place) in [((at, 20), at), ((at, 100), at + 61), ((0, len), at + 1)] {
            let next = plain::next_string(edition, s, run, place);
            let expected = Next {
                refusal: next.refusal,
                string: Part {
                    at: next.at,
                    len: next.len,
                },
                next: next.next,
            };
            let run = Part {
                at: run.0,
                len: run.1,
            };
            assert_eq!(eventlog_next_string(number, p, len, run, place), expected);
        }
    }
}

/// The walks, the listing and some reads of a log.
fn read_whole(number: u32, edition: Edition, s: &[u8], boundary: usize) {
    let (p, len) = (s.as_ptr(), s.len());
    let mut out = vec![LENT; len + 64];
    // SAFETY: `s` is readable, `out` writable for its length.
    unsafe {
        let front = walked(plain::walk(edition, s));
        assert_eq!(eventlog_walk(number, p, len), front);
        let rear = walked(plain::walk_back(edition, s));
        assert_eq!(eventlog_walk_back(number, p, len), rear);

        // A longer one is refused by the plain listing alone (Rule 12.8).
        if len <= plain::MAX_LISTED {
            let text = plain::listing(edition, s);
            let written = eventlog_listing(number, p, len, out.as_mut_ptr(), out.len());
            assert_eq!((written.refusal, written.length), (0, text.len()));
            assert_eq!(&out[..text.len()], text.as_bytes());
        }
    }
    for (flags, record, kind, types) in [
        (5, 0, 1, 63),
        (9, 0, 1, 63),
        (5, 0, 0, 63),
        (9, 0, 0, 63),
        (6, 3, 0, 63),
        (10, 3, 1, 63),
        // Some types, none, and a set with another bit, of handles of any kind.
        (5, 0, 0, 21),
        (9, 0, u32::MAX, 42),
        (6, 3, 7, 48),
        (10, 3, 0, 7),
        (5, 0, 2, 0),
        (9, 0, 2, 64),
        (10, 3, 0, u32::MAX),
    ] {
        let size = len / 2 + 70;
        let [mut proved, mut ordinary] = [(); 2].map(|()| vec![LENT; size]);
        let handle = Handle {
            kind,
            types,
            boundary,
        };
        let place = match kind {
            0 => plain::Place::Fresh,
            _ => plain::Place::Boundary(boundary),
        };
        // SAFETY: `s` is readable, `proved` writable for its length.
        let answer = unsafe {
            eventlog_read(
                number,
                handle,
                p,
                len,
                flags,
                record,
                size,
                proved.as_mut_ptr(),
                size,
            )
        };
        let given = plain::Handle {
            place,
            types: plain::Types(types),
        };
        let expected = given.read(edition, s, flags, record, size, &mut ordinary);
        let (status, read, needed) = (expected.status, expected.read, expected.needed);
        assert_eq!(
            (answer.status, answer.read, answer.needed),
            (status, read, needed)
        );
        let next = match expected.handle.place {
            plain::Place::Boundary(boundary) if status == 0 => Handle {
                kind: 1,
                types,
                boundary,
            },
            _ => handle,
        };
        assert_eq!(answer.handle, next);
        assert!(proved == ordinary, "the outputs differ");
    }
}

/// Writing an event, and appending it to a log.
fn write(number: u32, edition: Edition, event: &Made, log: &[u8]) {
    let f = event.fields;
    let length = event.length().min(make::MAX_LENGTH) + 8;
    let [mut proved, mut ordinary] = [(); 2].map(|()| vec![LENT; length]);
    let (source, computer) = (&event.source, &event.computer);
    let (sid, strings, data) = (&event.sid, &event.strings, &event.data);
    // SAFETY: the parts are readable for their lengths, `proved` is writable for its own.
    #[rustfmt::skip]
    let written = unsafe {
        eventlog_write(
            number, fields(&f), source.as_ptr(), source.len(), computer.as_ptr(), computer.len(), sid.as_ptr(),
            sid.len(), strings.as_ptr(), strings.len(), data.as_ptr(), data.len(), proved.as_mut_ptr(), length,
        )
    };
    let expected = match plain::write(edition, &event.plain(), &mut ordinary) {
        Ok(length) => Written { refusal: 0, length },
        Err(refusal) => Written { refusal, length: 0 },
    };
    assert_eq!(written, expected);
    assert!(proved == ordinary, "the outputs differ");

    let used = log.len();
    let [mut proved, mut ordinary] = [(); 2].map(|()| [log, &vec![LENT; length]].concat());
    let unnumbered = Unnumbered {
        time_generated: f.time_generated,
        time_written: f.time_written,
        event_id: f.event_id,
        event_type: f.event_type,
        num_strings: f.num_strings,
        event_category: f.event_category,
        reserved_flags: f.reserved_flags,
    };
    // SAFETY: as above.
    #[rustfmt::skip]
    let appended = unsafe {
        eventlog_append(
            number, proved.as_mut_ptr(), proved.len(), used, unnumbered, source.as_ptr(), source.len(),
            computer.as_ptr(), computer.len(), sid.as_ptr(), sid.len(), strings.as_ptr(), strings.len(),
            data.as_ptr(), data.len(),
        )
    };
    let expected = match plain::append(edition, &mut ordinary, used, &event.plain()) {
        Ok(used) => (0, 0, used),
        Err(why) => (why.number, why.field, used),
    };
    assert_eq!((appended.refusal, appended.field, appended.used), expected);
    assert!(proved == ordinary, "the logs differ");
}

/// Records, logs and events of both editions, given as each of the numbers.
#[test]
fn every_number_but_0_is_ansi() {
    let mut rng = Random::new(7);
    let rng = &mut rng;
    for i in 0..400 {
        let made = [Edition::Unicode, Edition::Ansi][i % 2];
        let broken = rng.once_in(4);
        let count = rng.range(1, 4);
        let (log, places) = make::log(made, rng, count, Size::Small, broken);
        let boundary = rng.pick(&places);
        let event = match rng.once_in(3) {
            true => Made::bad(made, rng, Size::Small),
            false => Made::good(made, rng, Size::Small),
        };
        for (number, edition) in NUMBERS {
            for &at in &places {
                read_at(number, edition, &log, at);
            }
            read_whole(number, edition, &log, boundary);
            write(number, edition, &event, &log);
        }
    }
}

/// The number tells them apart: T in each edition, with its own number and the
/// other one's.
#[test]
fn the_number_decides() {
    for made in [Edition::Unicode, Edition::Ansi] {
        let mut event = Made::new(made);
        let zero = make::zero(made);
        let text = |letters: &[u8]| -> Vec<u8> {
            letters
                .iter()
                .flat_map(|c| [&[*c], &zero[1..]].concat())
                .collect()
        };
        event.source = text(b"Scale");
        event.computer = text(b"T1");
        event.sid = vec![1, 1, 0, 0, 0, 0, 0, 0, 0, 0, 0, 0];
        event.strings = [text(b"OK"), zero.to_vec()].concat();
        event.fields.num_strings = 1;
        event.data = vec![0; 3];
        let record = event.encode(None);
        let (p, len) = (record.as_ptr(), record.len());
        assert_eq!(len, if made == Edition::Unicode { 104 } else { 92 });
        for (number, edition) in NUMBERS {
            let why = match edition == made {
                true => (0, 0),
                false => (12, 48),
            };
            // SAFETY: `record` is readable for its length.
            let (front, rear) = unsafe {
                (
                    eventlog_step(number, p, len, 0),
                    eventlog_step_back(number, p, len, len),
                )
            };
            assert_eq!((front.refusal, front.field), why, "{number}");
            assert_eq!((rear.refusal, rear.field), why, "{number}");
        }
    }
}
