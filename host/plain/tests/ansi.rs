//! Records whose names and strings are bytes up to a zero byte.

mod common;

use common::*;
use plain::Edition::{Ansi, Unicode};
use plain::*;

fn boundary(at: usize) -> Handle {
    Handle {
        place: Place::Boundary(at),
        types: Types::ALL,
    }
}

/// Number and field with which `s` is refused, from the front and from the rear.
fn both(edition: Edition, s: &[u8]) -> [(u32, usize); 2] {
    let rear = judge_back(edition, s, s.len()).err().unwrap_or_default();
    [refusal(edition, s, 0), rear].map(|why| (why.number, why.field))
}

/// Both walks.
fn walks(edition: Edition, s: &[u8]) -> [(usize, u32, usize, usize); 2] {
    [walk(edition, s), walk_back(edition, s)].map(|w| (w.count, w.refusal, w.field, w.at))
}

#[test]
fn s_is_read() {
    let record = step(Ansi, &S, 0).unwrap();
    let expected = Record {
        edition: Ansi,
        start: 0,
        length: 64,
        fields: s_event().fields,
        source_name: &[],
        source_name_at: 56,
        computer_name: &[],
        computer_name_at: 57,
        sid: &[],
        sid_at: 60,
        strings: &[],
        strings_at: 60,
        event_data: &[],
        event_data_at: 60,
    };
    assert_eq!(record, expected);
    assert_eq!(step_back(Ansi, &S, 64), Ok(expected));
    assert_eq!(written(Ansi, &s_event()), S);
}

#[test]
fn t_is_read() {
    let record = step(Ansi, &ANSI_T, 0).unwrap();
    assert_eq!((record.start, record.length), (0, 92));
    assert_eq!(record.fields, t_event().fields);
    assert_eq!(record.source_name, b"Scale");
    assert_eq!(record.computer_name, b"T1");
    assert_eq!((record.sid, record.strings), (SID, &b"OK\0"[..]));
    assert_eq!(record.event_data, [0; 3]);
    assert_eq!(record.string(0), Some(&b"OK"[..]));
    assert_eq!(record.string(1), None);
    let places = [
        record.source_name_at,
        record.computer_name_at,
        record.sid_at,
        record.strings_at,
        record.event_data_at,
    ];
    assert_eq!(places, [56, 62, 68, 80, 83]);
    assert_eq!(step_back(Ansi, &ANSI_T, 92), Ok(record));
    assert_eq!(written(Ansi, &ansi_t_event()), ANSI_T);
}

#[test]
fn parts_of_t_by_place() {
    let log = ansi_s_t();
    assert_eq!(source_name(Ansi, &log, 64), b"Scale");
    assert_eq!(computer_name(Ansi, &log, 64), b"T1");
    assert_eq!(sid(Ansi, &log, 64), SID);
    assert_eq!(event_data(Ansi, &log, 64), [0; 3]);
    assert_eq!(string(Ansi, &log, 64, 0), b"OK");
    assert_eq!(string_refusal(Ansi, &log, 64, 0), Refused::default());
    assert_eq!(string_refusal(Ansi, &log, 64, 1).number, 17);
    assert_eq!(string(Ansi, &log, 64, 1), b"");
}

/// S has the same bytes in both editions, T has not.
#[test]
fn judged_in_the_other_edition() {
    for (edition, t) in [(Ansi, &T[..]), (Unicode, &ANSI_T)] {
        assert_eq!(both(edition, t), [(12, 48); 2]);
        assert_eq!(step(edition, t, 0).unwrap_err().number, 12);
        assert_eq!(step_back(edition, t, t.len()).unwrap_err().number, 12);
        let log = [&S[..], t].concat();
        let end = log.len();
        assert_eq!(walks(edition, &log), [(1, 12, 48, 64), (0, 12, 48, end)]);
        assert_eq!(listing(edition, &log), "refused 12 at 64 field 48\n");
        let mut longer = log.clone();
        longer.resize(end + 200, 0);
        let refused = Refused {
            number: 14,
            field: 48,
        };
        assert_eq!(append(edition, &mut longer, end, &s_event()), Err(refused));
        let mut out = [0; 200];
        let answer = boundary(64).read(edition, &log, 5, 0, 200, &mut out);
        assert_eq!(answer.status, 0xC000_018E);
        let answer = Handle::fresh(Types::ALL).read(edition, &log, 9, 0, 200, &mut out);
        assert_eq!(answer.status, 0xC000_018E);
        let answer = Handle::fresh(Types::ALL).read(edition, &log, 6, 8, 200, &mut out);
        assert_eq!(answer.status, 0xC000_018E);
    }
    assert_eq!(
        (judge(Ansi, &S, 0), judge(Unicode, &S, 0)),
        (Ok(64), Ok(64))
    );
}

#[test]
fn walked_and_listed() {
    let log = ansi_s_t();
    assert_eq!(walks(Ansi, &log), [(2, 0, 0, 156), (2, 0, 0, 0)]);
    assert_eq!(walks(Ansi, &log[..155])[0], (1, 3, 0, 64));
    assert_eq!(listing(Ansi, &log), "records 2\n0 64 7\n64 92 8\n");
    assert_eq!(walks(Ansi, &[]), [(0, 0, 0, 0); 2]);
}

#[test]
fn served_both_ways() {
    let log = ansi_s_t();
    let answer = |status, read, needed, handle| Answer {
        status,
        read,
        needed,
        handle,
    };
    let mut out = [0xAA; 200];
    let first = Handle::fresh(Types::ALL).read(Ansi, &log, 5, 0, 64, &mut out);
    assert_eq!(first, answer(0, 64, 0, boundary(64)));
    assert_eq!((&out[..64], out[64]), (&S[..], 0xAA));
    let small = first.handle.read(Ansi, &log, 5, 0, 91, &mut out);
    assert_eq!(small, answer(0xC000_0023, 0, 92, boundary(64)));
    let second = first.handle.read(Ansi, &log, 5, 0, 92, &mut out);
    assert_eq!(second, answer(0, 92, 0, boundary(156)));
    assert_eq!(out[..92], ANSI_T);
    let back = Handle::fresh(Types::ALL).read(Ansi, &log, 9, 0, 156, &mut out);
    assert_eq!(back, answer(0, 156, 0, boundary(0)));
    assert_eq!(out[..156], [&ANSI_T[..], &S].concat());
    let end = back.handle.read(Ansi, &log, 9, 0, 156, &mut out);
    assert_eq!(end, answer(0xC000_0011, 0, 0, boundary(0)));
    let sought = Handle::fresh(Types::ALL).read(Ansi, &log, 6, 8, 156, &mut out);
    assert_eq!(sought, answer(0, 92, 0, boundary(156)));
}

#[test]
fn appended() {
    let mut log = [0xAA; 200];
    log[..64].copy_from_slice(&S);
    assert_eq!(append(Ansi, &mut log, 64, &ansi_t_event()), Ok(156));
    assert_eq!(log[..156], ansi_s_t());
    assert!(log[156..].iter().all(|b| *b == 0xAA));
    let full = append(Ansi, &mut log, 156, &ansi_t_event());
    assert_eq!(number(full), Err(15));
    assert_eq!(append(Ansi, &mut log, 0, &s_event()), Ok(64));
    assert_eq!(step(Ansi, &log, 0).unwrap().fields.record_number, 1);
}

/// A name may have any number of bytes, but no zero byte.
#[test]
fn names() {
    let bytes = [0xFF; 70];
    for len in 0..=bytes.len() {
        let event = Event {
            source_name: &bytes[..len],
            computer_name: &bytes[..len / 3],
            ..ansi_t_event()
        };
        let record = written(Ansi, &event);
        let names_end = 56 + len + 1 + len / 3 + 1;
        assert_eq!(
            record.len(),
            (names_end.next_multiple_of(4) + 18).next_multiple_of(4) + 4
        );
        let found = step(Ansi, &record, 0).unwrap();
        assert_eq!(
            (found.source_name, found.computer_name),
            (event.source_name, event.computer_name)
        );
        assert_eq!(found.computer_name_at, 56 + len + 1);
        assert_eq!(found.sid_at, names_end.next_multiple_of(4));
        assert_eq!(slow(Ansi, &record, 0), Ok(record.len()));
        let odd = if len % 2 == 1 || len / 3 % 2 == 1 {
            Err(9)
        } else {
            Err(11)
        };
        assert_eq!(write(Unicode, &event, &mut [0; 400]), odd);

        for zero in 0..len {
            let mut name = bytes[..len].to_vec();
            name[zero] = 0;
            let mut out = [0xAA; 400];
            let source_name = &name[..];
            assert_eq!(
                write(
                    Ansi,
                    &Event {
                        source_name,
                        ..event
                    },
                    &mut out
                ),
                Err(9)
            );
            let computer_name = &name[..];
            assert_eq!(
                write(
                    Ansi,
                    &Event {
                        computer_name,
                        ..event
                    },
                    &mut out
                ),
                Err(9)
            );
            assert_eq!(out, [0xAA; 400]);
        }
    }
}

#[test]
fn runs() {
    let write_run = |num_strings, strings| {
        let event = Event {
            fields: Fields {
                num_strings,
                ..Fields::default()
            },
            strings,
            ..Event::default()
        };
        write(Ansi, &event, &mut [0; 400])
    };
    for (count, run) in [
        (0, &b""[..]),
        (1, b"\0"),
        (1, b"A\0"),
        (2, b"\0\0"),
        (2, b"A\0BC\0"),
        (3, b"A\0\0BC\0"),
    ] {
        let length = (60 + run.len()).next_multiple_of(4) + 4;
        assert_eq!(write_run(count, run), Ok(length), "{count} {run:?}");
    }
    for (count, run) in [
        (0, &b"\0"[..]),
        (1, b""),
        (1, b"A"),
        (1, b"\0\0"),
        (1, b"A\0\0"),
        (1, b"A\0B"),
        (2, b"A\0"),
        (2, b"A\0B"),
        (2, b"A\0B\0C\0"),
    ] {
        assert_eq!(write_run(count, run), Err(11), "{count} {run:?}");
    }
}

#[test]
fn strings_in_turn() {
    // "A", the empty one, and two bytes without an end.
    let s = b".A\0\0BC";
    let found = |at, len, next| NextString {
        refusal: 0,
        at,
        len,
        next,
    };
    let none = |next| NextString {
        refusal: 17,
        at: 0,
        len: 0,
        next,
    };
    let run = (1, 5);
    assert_eq!(next_string(Ansi, s, run, 1), found(1, 1, 3));
    assert_eq!(next_string(Ansi, s, run, 2), found(2, 0, 3));
    assert_eq!(next_string(Ansi, s, run, 3), found(3, 0, 4));
    for place in [0, 4, 5, 6, 7, usize::MAX] {
        assert_eq!(next_string(Ansi, s, run, place), none(place));
    }
    for run in [(1, 6), (1, usize::MAX), (usize::MAX, 1), (1, 1), (2, 4)] {
        assert_eq!(next_string(Ansi, s, run, 1), none(1));
    }
}

/// T with another gap after the names; the gap is not zero.
fn gapped_t(gap: usize) -> Vec<u8> {
    let mut record = [&ANSI_T[..65], &vec![0xEE; gap], &ANSI_T[68..86]].concat();
    record.resize(record.len().next_multiple_of(4), 0xEE);
    let length = record.len() as u32 + 4;
    record.extend(length.to_le_bytes());
    let first = 65 + gap as u32;
    let places = [(0, length), (44, first), (36, first + 12), (52, first + 15)];
    places.iter().fold(record, |r, (at, n)| with32(&r, *at, *n))
}

#[test]
fn gaps_before_the_first_part() {
    for (gap, length) in [(0, 88), (1, 88), (2, 92), (3, 92), (8, 96), (40, 128)] {
        let record = gapped_t(gap);
        assert_eq!(record.len(), length);
        let read = step(Ansi, &record, 0).unwrap();
        let places = [read.sid_at, read.strings_at, read.event_data_at];
        assert_eq!(places, [65, 77, 80].map(|at| at + gap));
        assert_eq!(step_back(Ansi, &record, length), Ok(read));
    }
    for at in [0, 56, 64, 88, 92, u32::MAX] {
        assert_eq!(both(Ansi, &with32(&ANSI_T, 44, at)), [(10, 44); 2]);
    }
}

/// Length2's first byte is zero where Length is a multiple of 256. It ends no
/// text; a zero byte right before it does.
#[test]
fn texts_that_run_up_to_length2() {
    for length in [256, 1024, 65_536, 131_072, 196_608, 262_144 - 256] {
        let of = |zeros: usize, strings: u16, last: usize| {
            let mut record = [&S[..56], &vec![0; zeros]].concat();
            record.resize(length - 4 - last, 1);
            record.resize(length - 4, 0);
            record.extend((length as u32).to_le_bytes());
            let record = with16(&with32(&record, 0, length as u32), 26, strings);
            let record = with32(&record, 36, 58);
            assert_eq!(judge(Ansi, &record, 0), slow(Ansi, &record, 0));
            both(Ansi, &record)
        };
        assert_eq!(of(0, 0, 0), [(9, 56); 2]);
        assert_eq!(of(0, 0, 1), [(9, length - 4); 2]);
        assert_eq!(of(0, 0, 2), [(0, 0); 2]);
        assert_eq!(of(1, 0, 0), [(9, 57); 2]);
        assert_eq!(of(1, 0, 1), [(0, 0); 2]);
        assert_eq!(of(2, 1, 0), [(11, 36); 2]);
        assert_eq!(of(2, 1, 1), [(0, 0); 2]);
        assert_eq!(of(2, 2, 1), [(11, 36); 2]);
        assert_eq!(of(2, 2, 2), [(0, 0); 2]);
    }
}

#[test]
fn limits() {
    let name = vec![b'a'; 262_140];
    let data = vec![0; 61_440];
    let mut out = vec![0; 262_148];
    let mut of = |source_name, event_data| {
        let event = Event {
            source_name,
            event_data,
            ..s_event()
        };
        write(Ansi, &event, &mut out)
    };
    // The names take two zero bytes more, so 58 and 60 with the gap.
    for (len, answer) in [
        (262_077, Ok(262_140)),
        (262_078, Ok(262_140)),
        (262_079, Err(2)),
        (262_140, Err(2)),
    ] {
        assert_eq!(of(&name[..len], &[]), answer, "{len}");
    }
    for (len, answer) in [(200_638, Ok(262_140)), (200_639, Err(2))] {
        assert_eq!(of(&name[..len], &data), answer, "{len}");
    }
    let run = [0; 257];
    let of = |num_strings: u16| Event {
        fields: Fields {
            num_strings,
            ..Fields::default()
        },
        strings: &run[..usize::from(num_strings)],
        ..Event::default()
    };
    let most = written(Ansi, &of(256));
    assert_eq!((most.len(), judge(Ansi, &most, 0)), (320, Ok(320)));
    assert_eq!(write(Ansi, &of(257), &mut [0; 400]), Err(8));
    assert_eq!(both(Ansi, &with16(&most, 26, 257)), [(8, 26); 2]);
}
