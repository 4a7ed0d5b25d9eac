//! Every call with records of one-byte units: the samples S and T in ANSI, and
//! what each edition says of the other one's T.

use eventlog::Edition::{Ansi, Unicode};
use eventlog::*;

#[allow(dead_code)]
#[path = "../../samples.rs"]
mod samples;

use samples::*;

const S_NUMBER: u32 = 7;
const T_NUMBER: u32 = 8;

fn t_event() -> Event<'static> {
    Event {
        num_strings: 1,
        source_name: Text::new(b"Scale"),
        computer_name: Text::new(b"T1"),
        sid: SID,
        strings: b"OK\0",
        event_data: &[0; 3],
        ..Event::default()
    }
}

fn places(record: &Record) -> [usize; 5] {
    let p = record.places;
    [
        p.source_name,
        p.computer_name,
        p.sid,
        p.strings,
        p.event_data,
    ]
}

/// Refusal and field of a step.
fn refused(answer: Result<Record, BadRecord>) -> (Refusal, usize, usize) {
    let bad = answer.expect_err("the record is refused");
    (bad.refusal, bad.field, bad.at)
}

#[test]
fn stepped() {
    let log = ansi_s_t();
    let s = step(Ansi, &log, 0).unwrap();
    assert_eq!((s.edition, s.start, s.length), (Ansi, 0, 64));
    assert_eq!((s.record_number, s.event), (S_NUMBER, Event::default()));
    assert_eq!(places(&s), [56, 57, 60, 60, 60]);

    let t = step(Ansi, &log, 64).unwrap();
    assert_eq!((t.edition, t.start, t.length), (Ansi, 64, 92));
    assert_eq!((t.record_number, t.event), (T_NUMBER, t_event()));
    assert_eq!(t.event.source_name.as_bytes(), b"Scale");
    assert_eq!(places(&t), [56, 62, 68, 80, 83].map(|at| 64 + at));
    assert_eq!(step_back(Ansi, &log, 156), Ok(t));
    assert_eq!(step_back(Ansi, &log, 64), Ok(s));
    assert_eq!(refusal(Ansi, &log, 64), None);
    assert_eq!(refused(step(Ansi, &log, 1)), (Refusal::Length, 0, 1));
}

#[test]
fn strings() {
    let log = ansi_s_t();
    assert_eq!(string(Ansi, &log, 64, 0), Ok(Text::new(b"OK")));
    let none = string(Ansi, &log, 64, 1).unwrap_err();
    assert_eq!((none.refusal, none.field), (Refusal::NoString, 0));
    assert_eq!(string_refusal(Ansi, &log, 64, 0), None);
    assert!(string_refusal(Ansi, &log, 0, 0).is_some());

    let event = Event {
        num_strings: 3,
        strings: b"A\0\0BCD\0",
        ..t_event()
    };
    let mut record = [0; 200];
    let length = write(Ansi, 1, &event, &mut record).unwrap();
    let found = step(Ansi, &record[..length], 0).unwrap();
    let expected = [&b"A"[..], b"", b"BCD"];
    assert!(found.strings().map(Text::as_bytes).eq(expected));
    let run = Run {
        at: found.places.strings,
        len: 7,
    };
    let mut place = run.at;
    for (k, string) in (0..).zip(expected) {
        assert_eq!(found.string(k), Ok(Text::new(string)));
        assert_eq!(eventlog::string(Ansi, &record, 0, k), Ok(Text::new(string)));
        let (next, after) = next_string(Ansi, &record, run, place).unwrap();
        assert_eq!((next.as_bytes(), after), (string, place + string.len() + 1));
        place = after;
    }
    assert_eq!(found.string(3), Err(Refusal::NoString));
    let end = next_string(Ansi, &record, run, place);
    assert_eq!((end, place), (Err(Refusal::NoString), run.at + run.len));
}

#[test]
fn walked_iterated_and_listed() {
    let log = ansi_s_t();
    assert_eq!((walk(Ansi, &log), walk_back(Ansi, &log)), (Ok(2), Ok(2)));
    assert_eq!((walk(Ansi, &[]), walk_back(Ansi, &[])), (Ok(0), Ok(0)));
    let [s, t] = [0, 64].map(|at| step(Ansi, &log, at));
    assert!(records(Ansi, &log).eq([s, t]));
    assert!(records_back(Ansi, &log).eq([t, s]));
    let stopped = walk(Ansi, &log[..155]).unwrap_err();
    let why = (stopped.count, stopped.refusal, stopped.field, stopped.at);
    assert_eq!(why, (1, Refusal::CutShort, 0, 64));
    let mut out = [0; 100];
    let text = listing(Ansi, &log, &mut out);
    assert_eq!(text, Ok("records 2\n0 64 7\n64 92 8\n"));
}

#[test]
fn written_and_appended() {
    let mut out = [0xAA; 100];
    assert_eq!(write(Ansi, T_NUMBER, &t_event(), &mut out), Ok(92));
    assert_eq!((&out[..92], &out[92..]), (&ANSI_T[..], &[0xAA; 8][..]));
    let short = write(Ansi, T_NUMBER, &t_event(), &mut [0; 91]);
    assert_eq!(short, Err(Refusal::Output));
    assert_eq!(write(Ansi, S_NUMBER, &Event::default(), &mut out), Ok(64));
    assert_eq!(out[..64], S);

    let mut log = [0; 200];
    log[..64].copy_from_slice(&S);
    assert_eq!(append(Ansi, &mut log, 64, &t_event()), Ok(156));
    assert_eq!(log[..156], ansi_s_t());
    let full = append(Ansi, &mut log, 156, &t_event()).unwrap_err();
    assert_eq!(full.refusal, Refusal::Output);
}

/// Any number of bytes, none of them zero.
#[test]
fn names() {
    let mut out = [0; 300];
    for name in [&b""[..], b"a", b"ab", b"abc", &[0xFF; 33]] {
        let event = Event {
            source_name: Text::new(name),
            computer_name: Text::new(name),
            ..t_event()
        };
        let length = write(Ansi, 1, &event, &mut out).unwrap();
        assert_eq!(step(Ansi, &out[..length], 0).unwrap().event, event);
        assert_eq!(
            step_back(Ansi, &out[..length], length).unwrap().event,
            event
        );
    }
    for name in [&b"\0"[..], b"a\0", b"\0a", b"a\0b", b"S\0c\0"] {
        let name = Text::new(name);
        let source = Event {
            source_name: name,
            ..t_event()
        };
        let computer = Event {
            computer_name: name,
            ..t_event()
        };
        for event in [source, computer] {
            assert_eq!(write(Ansi, 1, &event, &mut out), Err(Refusal::Name));
        }
    }
}

#[test]
fn served() {
    let log = ansi_s_t();
    let mut out = [0xAA; 200];
    let kind = ReadKind::Sequential;
    let first = Handle::fresh(Types::ALL).read(Ansi, &log, kind, Direction::Forwards, 64, &mut out);
    let first = first.unwrap();
    assert_eq!((first.edition, first.bytes), (Ansi, &S[..]));
    let handle = first.handle;
    assert_eq!(handle.place, Place::Boundary(64));
    let small = handle.read(Ansi, &log, kind, Direction::Forwards, 91, &mut out);
    let small = small.unwrap_err();
    assert_eq!(small.status, Status::BufferTooSmall { needed: 92 });
    let second = small.handle.read_with_flags(Ansi, &log, 5, 0, 92, &mut out);
    assert_eq!(second.unwrap().bytes, ANSI_T);

    let back =
        Handle::fresh(Types::ALL).read(Ansi, &log, kind, Direction::Backwards, 156, &mut out);
    let back = back.unwrap();
    assert_eq!(back.bytes, [&ANSI_T[..], &S].concat());
    // The records of a batch are read in its edition.
    let names: Vec<_> = back
        .records()
        .map(|r| r.unwrap().event.source_name)
        .collect();
    assert_eq!(names, [Text::new(b"Scale"), Text::default()]);
    let end = back
        .handle
        .read(Ansi, &log, kind, Direction::Backwards, 156, &mut out);
    assert_eq!(end.unwrap_err().status, Status::EndOfFile);
    let seek = ReadKind::Seek(T_NUMBER);
    let sought =
        Handle::fresh(Types::ALL).read(Ansi, &log, seek, Direction::Forwards, 156, &mut out);
    assert_eq!(sought.unwrap().bytes, ANSI_T);
}

/// S is a good record in both editions, T in its own one alone.
#[test]
fn read_in_the_other_edition() {
    for (edition, log) in [(Ansi, s_t()), (Unicode, ansi_s_t())] {
        let end = log.len();
        let why = (Refusal::Data, 48);
        assert_eq!(step(edition, &log, 0).unwrap().length, 64);
        assert_eq!(refused(step(edition, &log, 64)), (why.0, why.1, 64));
        assert_eq!(refused(step_back(edition, &log, end)), (why.0, why.1, end));
        let told = [
            refusal(edition, &log, 64),
            string_refusal(edition, &log, 64, 0),
            string(edition, &log, 64, 0).err(),
        ];
        assert_eq!(
            told.map(|r| r.map(|r| (r.refusal, r.field))),
            [Some(why); 3]
        );
        let stopped = walk(edition, &log).unwrap_err();
        assert_eq!((stopped.count, stopped.refusal, stopped.at), (1, why.0, 64));
        let stopped = walk_back(edition, &log).unwrap_err();
        assert_eq!(
            (stopped.count, stopped.refusal, stopped.at),
            (0, why.0, end)
        );
        assert!(records(edition, &log).nth(1).unwrap().is_err());
        assert!(records_back(edition, &log).next().unwrap().is_err());
        let mut out = [0; 400];
        let text = listing(edition, &log, &mut out);
        assert_eq!(text, Ok("refused 12 at 64 field 48\n"));
        let mut longer = [&log[..], &[0; 200]].concat();
        let behind = append(edition, &mut longer, end, &Event::default());
        let behind = behind.unwrap_err();
        assert_eq!((behind.refusal, behind.field), (Refusal::LogEnd, 48));
        let kind = ReadKind::Sequential;
        let read = Handle::fresh(Types::ALL).read(
            edition,
            &log,
            kind,
            Direction::Backwards,
            400,
            &mut out,
        );
        assert_eq!(read.unwrap_err().status, Status::EventlogFileCorrupt);
    }
}
