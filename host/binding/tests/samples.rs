//! The bench samples through the binding, in Unicode.

use eventlog::Edition::Unicode;
use eventlog::*;

#[allow(dead_code)]
#[path = "../../samples.rs"]
mod samples;

use samples::*;

const S_NUMBER: u32 = 7;
const T_NUMBER: u32 = 8;

fn t_event() -> Event<'static> {
    Event {
        num_strings: 1,
        source_name: Text::new(SCALE),
        computer_name: Text::new(T1),
        sid: SID,
        strings: OK_RUN,
        event_data: &[0; 3],
        ..Event::default()
    }
}

fn put(bytes: &[u8], at: usize, value: u8) -> Vec<u8> {
    let mut changed = bytes.to_vec();
    changed[at] = value;
    changed
}

/// What may be refused, number and field.
fn told(refused: Option<Refused>) -> Option<(Refusal, usize)> {
    refused.map(|why| (why.refusal, why.field))
}

/// The refusal of a call alone.
fn why<T>(answer: Result<T, Refused>) -> Result<T, Refusal> {
    answer.map_err(|why| why.refusal)
}

/// Refusal and place of a step.
fn refused(answer: Result<Record, BadRecord>) -> (Refusal, usize) {
    let bad = answer.expect_err("the record is refused");
    (bad.refusal, bad.at)
}

#[test]
fn read() {
    let log = s_t();
    let s = step(Unicode, &log, 0).unwrap();
    assert_eq!((s.start, s.length, s.record_number), (0, 64, S_NUMBER));
    assert_eq!(s.event, Event::default());

    let t = step(Unicode, &log, 64).unwrap();
    assert_eq!((t.start, t.length, t.record_number), (64, 104, T_NUMBER));
    assert_eq!(t.event, t_event());
    assert_eq!(t.event.source_name, "Scale");
    assert_eq!(t.event.computer_name, "T1");
    let Places {
        source_name,
        computer_name,
        sid,
        strings,
        event_data,
        ..
    } = t.places;
    let places = [source_name, computer_name, sid, strings, event_data];
    assert_eq!(places, [56, 68, 76, 88, 94].map(|at| 64 + at));
    assert_eq!(step_back(Unicode, &log, 168), Ok(t));
    assert_eq!(step_back(Unicode, &log, 64), Ok(s));
}

#[test]
fn strings() {
    let log = s_t();
    assert_eq!(string(Unicode, &log, 64, 0), Ok(Text::new(OK)));
    assert_eq!(why(string(Unicode, &log, 64, 1)), Err(Refusal::NoString));
    assert_eq!(why(string(Unicode, &log, 0, 0)), Err(Refusal::NoString));
    assert_eq!(why(string(Unicode, &log, 1, 0)), Err(Refusal::Length));
    assert_eq!(string_refusal(Unicode, &log, 64, 0), None);
    let none = string_refusal(Unicode, &log, 64, u32::MAX);
    assert_eq!(told(none), Some((Refusal::NoString, 0)));

    let [s, t] = [0, 64].map(|at| step(Unicode, &log, at).unwrap());
    assert!(t.strings().eq(["OK"]) && s.strings().next().is_none());
    assert_eq!(t.string(0), Ok(Text::new(OK)));
    for (record, k) in [(t, 1), (t, u32::MAX), (s, 0)] {
        assert_eq!(record.string(k), Err(Refusal::NoString));
    }
}

#[test]
fn refusals() {
    for (number, field, why, bytes) in [
        (1, 0, Refusal::Place, vec![]),
        (1, 0, Refusal::Place, S[..63].to_vec()),
        (2, 0, Refusal::Length, put(&S, 0, 60)),
        (3, 0, Refusal::CutShort, T[..103].to_vec()),
        (4, 4, Refusal::Signature, put(&T, 4, 0)),
        (5, 100, Refusal::Length2, put(&T, 100, 100)),
        (6, 24, Refusal::EventType, put(&T, 24, 3)),
        (6, 24, Refusal::EventType, put(&T, 24, 32)),
        (7, 30, Refusal::Flags, put(&T, 31, 0x40)),
        (8, 26, Refusal::StringCount, put(&put(&T, 26, 1), 27, 1)),
        (9, 60, Refusal::Name, put(&S, 56, 1)),
        (10, 44, Refusal::Sid, put(&T, 44, 77)),
        (11, 36, Refusal::Strings, put(&T, 36, 90)),
        (12, 48, Refusal::Data, put(&T, 52, 95)),
        (13, 0, Refusal::Size, put(&T, 48, 2)),
    ] {
        assert_eq!(refused(step(Unicode, &bytes, 0)), (why, 0));
        assert_eq!(told(refusal(Unicode, &bytes, 0)), Some((why, field)));
        assert_eq!(step(Unicode, &bytes, 0).unwrap_err().field, field);
        assert_eq!(why.number(), number);
    }
    assert_eq!(refusal(Unicode, &put(&T, 24, 16), 0), None);
    assert_eq!(refusal(Unicode, &put(&T, 31, 0x80), 0), None);
    for at in [65, usize::MAX] {
        assert_eq!(refused(step(Unicode, &S, at)), (Refusal::Place, at));
        assert_eq!(refused(step_back(Unicode, &S, at)), (Refusal::Place, at));
    }
}

#[test]
fn walked_and_listed() {
    let log = s_t();
    assert_eq!(
        (walk(Unicode, &log), walk_back(Unicode, &log)),
        (Ok(2), Ok(2))
    );
    assert_eq!(
        (walk(Unicode, &[]), walk_back(Unicode, &[])),
        (Ok(0), Ok(0))
    );
    let stopped = walk(Unicode, &log[..167]).unwrap_err();
    let why = (stopped.count, stopped.refusal, stopped.field, stopped.at);
    assert_eq!(why, (1, Refusal::CutShort, 0, 64));
    let stopped = walk_back(Unicode, &log[1..]).unwrap_err();
    let why = (stopped.count, stopped.refusal, stopped.field, stopped.at);
    assert_eq!(why, (1, Refusal::Place, 0, 63));

    let text = |s: &[u8]| {
        let mut out = vec![b'x'; s.len() + 64];
        let text = listing(Unicode, s, &mut out).unwrap().to_string();
        assert!(out[text.len()..].iter().all(|b| *b == b'x'));
        text
    };
    assert_eq!(text(&log), "records 2\n0 64 7\n64 104 8\n");
    assert_eq!(text(&log[..167]), "refused 3 at 64 field 0\n");
    assert_eq!(text(&[]), "records 0\n");
    assert_eq!(listing(Unicode, &log, &mut [0; 26]).map(str::len), Ok(26));
    assert_eq!(listing(Unicode, &log, &mut [0; 25]), Err(Refusal::Output));
}

#[test]
fn iterated() {
    let log = s_t();
    let [s, t] = [0, 64].map(|at| step(Unicode, &log, at));
    assert!(records(Unicode, &log).eq([s, t]) && records_back(Unicode, &log).eq([t, s]));
    assert_eq!(
        (
            records(Unicode, &[]).next(),
            records_back(Unicode, &[]).next()
        ),
        (None, None)
    );

    // A refusal is the last item, and the place stays where it was refused.
    let cut = &log[..167];
    let mut front = records(Unicode, cut);
    assert_eq!(front.size_hint(), (1, Some(3)));
    assert_eq!(front.next(), Some(step(Unicode, cut, 0)));
    assert_eq!(front.next().map(refused), Some((Refusal::CutShort, 64)));
    assert_eq!(
        (front.next(), front.next(), front.place()),
        (None, None, 64)
    );
    assert_eq!(front.size_hint(), (0, Some(0)));

    let late = &log[1..];
    let mut rear = records_back(Unicode, late);
    assert_eq!((rear.place(), rear.size_hint()), (167, (1, Some(3))));
    assert_eq!(rear.next(), Some(step(Unicode, late, 63)));
    assert_eq!(rear.next().map(refused), Some((Refusal::Place, 63)));
    assert_eq!((rear.next(), rear.next(), rear.place()), (None, None, 63));
    assert_eq!(rear.size_hint(), (0, Some(0)));
}

/// Why there is no iterator with two ends: the first bytes of one record are the
/// data of another, whose Length2 is the first one's `TimeWritten`. Both are good,
/// and the bytes are refused.
#[test]
fn ends_that_overlap() {
    let mut rear = [0; 64];
    let event = Event {
        time_written: 80,
        ..Event::default()
    };
    assert_eq!(write(Unicode, 2, &event, &mut rear), Ok(64));
    let mut front = [0; 80];
    let event = Event {
        event_data: &rear[..16],
        ..Event::default()
    };
    assert_eq!(write(Unicode, 1, &event, &mut front), Ok(80));
    let both = [&front[..], &rear[20..]].concat();
    let first = records(Unicode, &both).next().unwrap().unwrap();
    let last = records_back(Unicode, &both).next().unwrap().unwrap();
    assert_eq!((first.length, last.start), (80, 60));
    assert!(walk(Unicode, &both).is_err() && walk_back(Unicode, &both).is_err());
}

#[test]
fn written_and_appended() {
    let mut out = [0xAA; 110];
    assert_eq!(write(Unicode, T_NUMBER, &t_event(), &mut out), Ok(104));
    assert_eq!((&out[..104], &out[104..]), (&T[..], &[0xAA; 6][..]));
    let short = write(Unicode, T_NUMBER, &t_event(), &mut [0; 103]);
    assert_eq!(short, Err(Refusal::Output));
    let none = write(Unicode, S_NUMBER, &Event::default(), &mut []);
    assert_eq!(none, Err(Refusal::Output));

    let mut log = [0; 200];
    log[..64].copy_from_slice(&S);
    assert_eq!(append(Unicode, &mut log, 64, &t_event()), Ok(168));
    assert_eq!(log[..168], s_t());
    assert_eq!(
        why(append(Unicode, &mut log, 168, &t_event())),
        Err(Refusal::Output)
    );
    assert_eq!(
        why(append(Unicode, &mut log, 167, &t_event())),
        Err(Refusal::LogEnd)
    );
    assert_eq!(
        why(append(Unicode, &mut log, 201, &t_event())),
        Err(Refusal::Place)
    );
    assert_eq!(append(Unicode, &mut log, 0, &Event::default()), Ok(64));
    assert_eq!(step(Unicode, &log, 0).unwrap().record_number, 1);
}

/// Every field of an event has its own place, in writing, appending and reading.
#[test]
fn every_field() {
    let event = Event {
        time_generated: 0x2423_2221,
        time_written: 0x3433_3231,
        event_id: 0x4443_4241,
        event_type: event_type::AUDIT_FAILURE,
        num_strings: 1,
        event_category: 0x5251,
        reserved_flags: XML_FLAG,
        event_data: &[0xD1, 0xD2, 0xD3],
        ..t_event()
    };
    let mut record = T;
    record[8..32].copy_from_slice(&[
        0x11, 0x12, 0x13, 0x14, 0x21, 0x22, 0x23, 0x24, 0x31, 0x32, 0x33, 0x34, 0x41, 0x42, 0x43,
        0x44, 16, 0, 1, 0, 0x51, 0x52, 0x00, 0x80,
    ]);
    record[94..97].copy_from_slice(event.event_data);
    let mut out = [0; 104];
    assert_eq!(write(Unicode, 0x1413_1211, &event, &mut out), Ok(104));
    assert_eq!(out, record);
    let read = step(Unicode, &record, 0).unwrap();
    assert_eq!((read.record_number, read.event), (0x1413_1211, event));
    record[8..12].copy_from_slice(&[1, 0, 0, 0]);
    assert_eq!(append(Unicode, &mut out, 0, &event), Ok(104));
    assert_eq!(out, record);
}

/// A read with these flags, and how much of the output it used.
fn serve(place: Place, log: &[u8], flags: u32, number: u32, size: usize) -> (Vec<u8>, Served) {
    let mut out = vec![0xAA; 200];
    let handle = Handle {
        place,
        types: Types::ALL,
    };
    let answer = handle.read_with_flags(Unicode, log, flags, number, size, &mut out);
    let (served, handle) = match answer {
        Ok(batch) => (Ok((batch.bytes.len(), batch.handle.place)), batch.handle),
        Err(error) => (Err((error.status, error.handle.place)), error.handle),
    };
    assert_eq!(handle.types, Types::ALL);
    (out, served)
}

type Served = Result<(usize, Place), (Status, Place)>;

#[test]
fn served() {
    use Place::{Boundary, Fresh};
    let log = s_t();
    let (out, first) = serve(Fresh, &log, 5, 0, 64);
    assert_eq!(first, Ok((64, Boundary(64))));
    assert_eq!((&out[..64], out[64]), (&S[..], 0xAA));
    let (out, small) = serve(Boundary(64), &log, 5, 0, 103);
    let needed = 104;
    assert_eq!(
        small,
        Err((Status::BufferTooSmall { needed }, Boundary(64)))
    );
    assert_eq!(out, [0xAA; 200]);

    let (out, back) = serve(Fresh, &log, 9, 0, 168);
    assert_eq!(back, Ok((168, Boundary(0))));
    assert_eq!(out[..168], [&T[..], &S[..]].concat());
    let (_, end) = serve(Boundary(0), &log, 9, 0, 168);
    assert_eq!(end, Err((Status::EndOfFile, Boundary(0))));

    let (_, none) = serve(Fresh, &log, 6, 9, 168);
    assert_eq!(none, Err((Status::InvalidParameter, Fresh)));
    let (_, seek) = serve(Fresh, &log, 6, 8, 168);
    assert_eq!(seek, Ok((104, Boundary(168))));
}

/// The four good flags as a kind and a direction. The boundary is not where a
/// seek or a turn would go on from.
#[test]
fn kinds_and_directions() {
    use Direction::{Backwards, Forwards};
    use ReadKind::{Seek, Sequential};
    let log = [&s_t()[..], &S, &T].concat();
    for (flags, kind, direction, boundary) in [
        (5, Sequential, Forwards, 168 + 64),
        (9, Sequential, Backwards, 168 - 104),
        (6, Seek(T_NUMBER), Forwards, 64 + 104),
        (10, Seek(T_NUMBER), Backwards, 64),
    ] {
        let place = Place::Boundary(168);
        let mut out = [0xAA; 200];
        let types = Types::ALL;
        let answer = Handle { place, types }.read(Unicode, &log, kind, direction, 104, &mut out);
        let batch = answer.unwrap();
        assert_eq!(batch.handle.place, Place::Boundary(boundary));
        let bytes = batch.bytes.len();
        let with_flags = serve(place, &log, flags, T_NUMBER, 104);
        assert_eq!(
            with_flags,
            (out.to_vec(), Ok((bytes, Place::Boundary(boundary))))
        );
    }
}

#[test]
fn statuses() {
    use Place::{Boundary, Fresh};
    let broken = put(&s_t(), 68, 0);
    let small = Status::BufferTooSmall { needed: 64 };
    for (code, status, place, flags) in [
        (0xC000_0008, Status::InvalidHandle, Boundary(169), 5),
        (0xC000_000D, Status::InvalidParameter, Boundary(169), 0),
        (0xC000_0011, Status::EndOfFile, Boundary(0), 9),
        (0xC000_0023, small, Fresh, 5),
        (0xC000_018E, Status::EventlogFileCorrupt, Boundary(64), 5),
    ] {
        let (out, answer) = serve(place, &broken, flags, 0, 0);
        assert_eq!(answer, Err((status, place)));
        assert_eq!(out, [0xAA; 200]);
        assert_eq!(status.code(), code);
    }
}

/// The samples of Rules 11.80 to 11.84.
#[test]
fn some_types() {
    use Direction::Forwards;
    use ReadKind::{Seek, Sequential};
    let four = put(&S, 24, 4);
    let log = [&four[..], &S, &four].concat();
    let mut out = [0; 192];
    let handle = Handle::fresh(Types::INFORMATION);
    let batch = handle.read(Unicode, &log, Sequential, Forwards, 128, &mut out);
    let batch = batch.unwrap();
    assert_eq!(batch.bytes, [&four[..], &four].concat());
    let end = Handle {
        place: Place::Boundary(192),
        types: Types::INFORMATION,
    };
    assert_eq!(batch.handle, end);

    let at_last = || Handle {
        place: Place::Boundary(128),
        types: Types::SUCCESS,
    };
    let handle = Handle::fresh(Types::SUCCESS);
    let small = handle.read(Unicode, &log, Sequential, Forwards, 63, &mut out);
    let small = small.unwrap_err();
    assert_eq!(small.status, Status::BufferTooSmall { needed: 64 });
    assert_eq!(small.handle, Handle::fresh(Types::SUCCESS));
    let batch = small
        .handle
        .read(Unicode, &log, Sequential, Forwards, 128, &mut out);
    let batch = batch.unwrap();
    assert_eq!((batch.bytes, &batch.handle), (&S[..], &at_last()));
    let none = batch
        .handle
        .read(Unicode, &log, Sequential, Forwards, 128, &mut out);
    let none = none.unwrap_err();
    assert_eq!((none.status, none.handle), (Status::EndOfFile, at_last()));

    // The record found is not wanted.
    let handle = Handle::fresh(Types::SUCCESS);
    let sought = handle.read(Unicode, &log, Seek(7), Forwards, 64, &mut out);
    let sought = sought.unwrap();
    assert_eq!((sought.bytes, sought.handle), (&S[..], at_last()));

    let wrong = || Handle::fresh(Types::from_bits(64));
    for kind in [Sequential, Seek(7)] {
        let refused = wrong().read(Unicode, &log, kind, Forwards, 64, &mut out);
        let refused = refused.unwrap_err();
        assert_eq!(refused.status, Status::InvalidParameter);
        assert_eq!(refused.handle, wrong());
    }
    let counts = [0x3F, 0x21, 0x40, u32::MAX].map(|bits| Types::from_bits(bits).count());
    assert_eq!(counts, [6, 2, 0, 6]);
}

// The bench samples that are not proved.

#[test]
fn types_and_flags() {
    let both = told(refusal(Unicode, &put(&T, 24, 32), 0));
    assert_eq!(both, Some((Refusal::EventType, 24)));
    assert_eq!(refusal(Unicode, &put(&T, 24, 16), 0), None);
    let both = told(refusal(Unicode, &put(&S, 0, 60), 0));
    assert_eq!(both, Some((Refusal::Length, 0)));
    assert_eq!(refusal(Unicode, &put(&T, 31, 0x80), 0), None);
    let both = told(refusal(Unicode, &put(&T, 31, 0x40), 0));
    assert_eq!(both, Some((Refusal::Flags, 30)));
}

#[test]
fn most_strings() {
    let strings = [0; 2 * 257];
    let with_strings = |num_strings: u16, record: &mut [u8]| {
        let event = Event {
            num_strings,
            strings: &strings[..2 * usize::from(num_strings)],
            ..Event::default()
        };
        write(Unicode, S_NUMBER, &event, record)
    };
    let mut record = [0; 64 + 2 * 256];
    assert_eq!(with_strings(256, &mut record), Ok(record.len()));
    assert_eq!(refusal(Unicode, &record, 0), None);
    assert_eq!(step(Unicode, &record, 0).unwrap().strings().count(), 256);
    let one_more = with_strings(257, &mut [0; 1000]);
    assert_eq!(one_more, Err(Refusal::StringCount));
    let both = told(refusal(Unicode, &put(&record, 26, 1), 0));
    assert_eq!(both, Some((Refusal::StringCount, 26)));
}

#[test]
fn longest_record() {
    let (name, data) = ([b'x', 0].repeat(100_320), vec![0; 61_440]);
    let of_length = |units: usize, record: &mut [u8]| {
        let event = Event {
            source_name: Text::new(&name[..2 * units]),
            event_data: &data,
            ..Event::default()
        };
        write(Unicode, S_NUMBER, &event, record)
    };
    let mut record = vec![0; 262_144];
    assert_eq!(of_length(100_318, &mut record), Ok(262_140));
    assert_eq!(refusal(Unicode, &record, 0), None);
    assert_eq!(of_length(100_319, &mut record), Err(Refusal::Length));
    assert_eq!(of_length(100_320, &mut record), Err(Refusal::Length));
    record[..4].copy_from_slice(&262_144u32.to_le_bytes());
    record[262_140..].copy_from_slice(&262_144u32.to_le_bytes());
    assert_eq!(
        told(refusal(Unicode, &record, 0)),
        Some((Refusal::Length, 0))
    );
    let back = refused(step_back(Unicode, &record, 262_144));
    assert_eq!(back, (Refusal::Length, 262_144));
}

/// The largest Length with no gap after the names: padded, it would be too long, so it is read and cannot be written
/// again.
#[test]
fn longest_record_without_gap() {
    let mut record = S[..56].to_vec();
    record.extend([b'x', 0].repeat(100_319));
    record.extend([0; 4]);
    assert_eq!(record.len(), 200_698);
    record.extend([0xAA; 61_438]);
    record.extend(262_140_u32.to_le_bytes());
    for (at, value) in [(0, 262_140_u32), (48, 61_438), (52, 200_698)] {
        record[at..at + 4].copy_from_slice(&value.to_le_bytes());
    }
    let read = step(Unicode, &record, 0).unwrap();
    assert_eq!((read.length, read.places.event_data), (262_140, 200_698));
    assert_eq!(step_back(Unicode, &record, 262_140), Ok(read));
    let mut out = vec![0xEE; 262_144];
    assert_eq!(
        write(Unicode, 7, &read.event, &mut out),
        Err(Refusal::Length)
    );
    assert!(out.iter().all(|byte| *byte == 0xEE));
    // Two bytes of data less, and the padded record is not longer.
    let event = Event {
        event_data: &read.event.event_data[..61_436],
        ..read.event
    };
    assert_eq!(write(Unicode, 7, &event, &mut out), Ok(262_140));
}

/// The largest Length with every part: two names, a SID, as many strings and as
/// much data as there can be.
#[test]
fn longest_record_of_every_part() {
    let source = [b's', 0].repeat(40_000);
    let computer = [b'c', 0].repeat(10_001);
    let sid = [&[1, 15][..], &[5; 66]].concat();
    let strings: Vec<Vec<u8>> = (0..256u16)
        .map(|k| {
            (k + 1)
                .to_le_bytes()
                .repeat(if k < 255 { 195 } else { 300 })
        })
        .collect();
    let run: Vec<u8> = strings
        .iter()
        .flat_map(|s| s.iter().copied().chain([0, 0]))
        .collect();
    let data = vec![0xD1; 61_440];
    let event = Event {
        event_type: event_type::AUDIT_FAILURE,
        num_strings: 256,
        reserved_flags: XML_FLAG,
        source_name: Text::new(&source),
        computer_name: Text::new(&computer),
        sid: &sid,
        strings: &run,
        event_data: &data,
        ..Event::default()
    };

    let mut record = vec![0xAA; MAX_LENGTH + 4];
    assert_eq!(
        write(Unicode, T_NUMBER, &event, &mut record[..MAX_LENGTH - 1]),
        Err(Refusal::Output)
    );
    assert!(record.iter().all(|b| *b == 0xAA));
    assert_eq!(write(Unicode, T_NUMBER, &event, &mut record), Ok(262_140));
    assert_eq!(record[MAX_LENGTH..], [0xAA; 4]);
    record.truncate(MAX_LENGTH);

    let found = step(Unicode, &record, 0).unwrap();
    assert_eq!(step_back(Unicode, &record, 262_140), Ok(found));
    assert_eq!((found.start, found.length), (0, 262_140));
    assert_eq!((found.record_number, found.event), (T_NUMBER, event));
    let places = found.places;
    assert_eq!((places.source_name, places.computer_name), (56, 80_058));
    let places = [places.sid, places.strings, places.event_data];
    assert_eq!(places, [100_064, 100_132, 200_694]);
    assert!(found.strings().map(Text::as_bytes).eq(strings.iter()));
    for (k, string) in (0..).zip(&strings) {
        assert_eq!(found.string(k), Ok(Text::new(string)));
    }
    for k in [0, 128, 255] {
        assert_eq!(
            string(Unicode, &record, 0, k),
            Ok(Text::new(&strings[k as usize]))
        );
    }
    assert_eq!(
        why(string(Unicode, &record, 0, 256)),
        Err(Refusal::NoString)
    );

    // In a log: between S and T, walked and served from both ends.
    let end = 64 + MAX_LENGTH;
    let mut log = vec![0; end + 104];
    log[..64].copy_from_slice(&S);
    let short = append(Unicode, &mut log[..end - 1], 64, &event);
    assert_eq!(why(short), Err(Refusal::Output));
    assert_eq!(append(Unicode, &mut log, 64, &event), Ok(end));
    assert_eq!(log[64..end], record);
    assert_eq!(append(Unicode, &mut log, end, &t_event()), Ok(end + 104));
    assert_eq!(
        (walk(Unicode, &log), walk_back(Unicode, &log)),
        (Ok(3), Ok(3))
    );
    assert!(records(Unicode, &log).eq([0, 64, end].map(|at| step(Unicode, &log, at))));
    assert!(records_back(Unicode, &log).eq([end, 64, 0].map(|at| step(Unicode, &log, at))));
    let mut text = [0; 100];
    assert_eq!(
        listing(Unicode, &log, &mut text),
        Ok("records 3\n0 64 7\n64 262140 8\n262204 104 9\n")
    );
    for (direction, from, to) in [
        (Direction::Forwards, 64, end),
        (Direction::Backwards, end, 64),
    ] {
        let handle = || Handle {
            place: Place::Boundary(from),
            types: Types::ALL,
        };
        let kind = ReadKind::Sequential;
        let mut out = vec![0xAA; MAX_LENGTH + 1];
        let small = handle().read(Unicode, &log, kind, direction, MAX_LENGTH - 1, &mut out);
        let needed = MAX_LENGTH;
        assert_eq!(small.unwrap_err().status, Status::BufferTooSmall { needed });
        let batch = handle().read(Unicode, &log, kind, direction, MAX_LENGTH, &mut out);
        let batch = batch.unwrap();
        assert_eq!(batch.bytes, record);
        assert_eq!(batch.handle.place, Place::Boundary(to));
        assert_eq!(out[MAX_LENGTH], 0xAA);
        // A seek finds it, and the other two records fit with it.
        let mut out = vec![0; MAX_READ];
        let sought = handle().read(
            Unicode,
            &log,
            ReadKind::Seek(8),
            direction,
            MAX_READ,
            &mut out,
        );
        let expected = match direction {
            Direction::Forwards => log[64..].to_vec(),
            Direction::Backwards => [&log[64..end], &log[..64]].concat(),
        };
        assert_eq!(sought.unwrap().bytes, expected);
    }

    // One unit more in a string fills a gap, two are too long.
    let run = [&[1; 4][..], &run].concat();
    for (more, answer) in [(2, Ok(262_140)), (4, Err(Refusal::Length))] {
        let strings = &run[4 - more..];
        let longer = Event { strings, ..event };
        assert_eq!(write(Unicode, T_NUMBER, &longer, &mut record), answer);
        assert_eq!(
            append(Unicode, &mut log, 64, &longer).is_ok(),
            answer.is_ok()
        );
    }
}

/// At these Lengths the first unit of Length2 is zero. It ends no name and no
/// string; a zero unit right before it does.
#[test]
fn texts_that_run_up_to_length2() {
    for said in [65_536_u32, 131_072, 196_608] {
        let length = said as usize;
        let of = |zeros: usize, num_strings: u8, last: usize| {
            let mut record = [&S[..56], &vec![0; zeros]].concat();
            record.resize(length - 4 - last, 1);
            record.resize(length - 4, 0);
            record.extend(said.to_le_bytes());
            record[..4].copy_from_slice(&said.to_le_bytes());
            (record[26], record[36]) = (num_strings, 60);
            assert_eq!(record[length - 4..length - 2], [0, 0]);
            let front = told(refusal(Unicode, &record, 0));
            let back = step_back(Unicode, &record, length).err();
            assert_eq!(front, back.map(|bad| (bad.refusal, bad.field)));
            front
        };
        assert_eq!(of(0, 0, 0), Some((Refusal::Name, 56)));
        assert_eq!(of(0, 0, 2), Some((Refusal::Name, length - 4)));
        assert_eq!(of(0, 0, 4), None);
        assert_eq!(of(2, 0, 0), Some((Refusal::Name, 58)));
        assert_eq!(of(2, 0, 2), None);
        assert_eq!(of(4, 1, 0), Some((Refusal::Strings, 36)));
        assert_eq!(of(4, 1, 2), None);
        assert_eq!(of(4, 2, 2), Some((Refusal::Strings, 36)));
        assert_eq!(of(4, 2, 4), None);
    }
}

#[test]
fn sizes_and_seeks() {
    use Place::{Boundary, Fresh};
    let log = s_t();
    let (out, newest) = serve(Fresh, &log, 9, 0, 167);
    assert_eq!(newest, Ok((104, Boundary(64))));
    assert_eq!((&out[..104], &out[104..]), (&T[..], &[0xAA; 96][..]));
    for flags in [6, 10] {
        let (_, none) = serve(Fresh, &log, flags, 9, 168);
        assert_eq!(none, Err((Status::InvalidParameter, Fresh)));
    }
    for (flags, needed) in [(5, 64), (9, 104)] {
        let (_, nothing) = serve(Fresh, &log, flags, 0, 0);
        assert_eq!(nothing, Err((Status::BufferTooSmall { needed }, Fresh)));
        let (_, end) = serve(Fresh, &[], flags, 0, 0);
        assert_eq!(end, Err((Status::EndOfFile, Fresh)));
    }
}
