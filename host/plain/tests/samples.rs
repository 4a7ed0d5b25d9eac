//! The samples of section 11.

mod common;

use common::*;
use plain::Edition::Unicode;
use plain::*;

const FORWARDS: u32 = 5;
const BACKWARDS: u32 = 9;

fn boundary(at: usize) -> Handle {
    Handle {
        place: Place::Boundary(at),
        types: Types::ALL,
    }
}

/// Number and field with which `s` is refused at 0, from the front and, as a
/// whole, from the rear.
fn fields(s: &[u8]) -> [(u32, usize); 2] {
    assert_eq!(
        refusal(Unicode, s, 0),
        judge(Unicode, s, 0).err().unwrap_or_default()
    );
    let rear = judge_back(Unicode, s, s.len()).err().unwrap_or_default();
    [refusal(Unicode, s, 0), rear].map(|why| (why.number, why.field))
}

/// The numbers alone.
fn both(s: &[u8]) -> (u32, u32) {
    let [front, rear] = fields(s);
    (front.0, rear.0)
}

fn refused_at(number: u32, at: usize) -> Refusal {
    Refusal {
        number,
        field: 0,
        at,
    }
}

fn why(number: u32, field: usize) -> Refused {
    Refused { number, field }
}

#[test]
fn s_is_read() {
    let record = step(Unicode, &S, 0).unwrap();
    let expected = Record {
        edition: Unicode,
        start: 0,
        length: 64,
        fields: Fields {
            record_number: 7,
            ..Fields::default()
        },
        source_name: &[],
        source_name_at: 56,
        computer_name: &[],
        computer_name_at: 58,
        sid: &[],
        sid_at: 60,
        strings: &[],
        strings_at: 60,
        event_data: &[],
        event_data_at: 60,
    };
    assert_eq!(record, expected);
    assert_eq!(step_back(Unicode, &S, 64), Ok(expected));
    assert_eq!(judge(Unicode, &S, 0), Ok(64));
    assert_eq!(judge_back(Unicode, &S, 64), Ok(64));
    assert_eq!(written(Unicode, &s_event()), S);
}

#[test]
fn t_is_read() {
    let record = step(Unicode, &T, 0).unwrap();
    assert_eq!((record.start, record.length), (0, 104));
    assert_eq!(record.fields, t_event().fields);
    assert_eq!((record.source_name, record.source_name_at), (SCALE, 56));
    assert_eq!((record.computer_name, record.computer_name_at), (T1, 68));
    assert_eq!((record.sid, record.sid_at), (SID, 76));
    assert_eq!((record.strings, record.strings_at), (OK_RUN, 88));
    assert_eq!((record.event_data, record.event_data_at), (&[0; 3][..], 94));
    assert_eq!(step_back(Unicode, &T, 104), Ok(record));
    assert_eq!(written(Unicode, &t_event()), T);
}

#[test]
fn parts_of_t_by_place() {
    let log = s_t();
    assert_eq!(source_name(Unicode, &log, 64), SCALE);
    assert_eq!(computer_name(Unicode, &log, 64), T1);
    assert_eq!(sid(Unicode, &log, 64), SID);
    assert_eq!(event_data(Unicode, &log, 64), [0; 3]);
    assert_eq!(string(Unicode, &log, 64, 0), OK);
    assert_eq!(string_refusal(Unicode, &log, 64, 0), why(0, 0));
    for k in [1, 2, 256, u32::MAX] {
        assert_eq!(string(Unicode, &log, 64, k), b"");
        assert_eq!(string_refusal(Unicode, &log, 64, k), why(17, 0));
    }
    // S has none of the parts.
    for part in [source_name, computer_name, sid, event_data] {
        assert_eq!(part(Unicode, &log, 0), b"");
    }
    assert_eq!(refusal(Unicode, &log, 0), why(0, 0));
    assert_eq!(string_refusal(Unicode, &log, 0, 0), why(17, 0));
    // A refused record hands back nothing; it is judged before the number.
    for part in [source_name, computer_name, sid, event_data] {
        assert_eq!(part(Unicode, &log, 4), b"");
    }
    assert_eq!(string(Unicode, &log, 4, 0), b"");
    assert_eq!(refusal(Unicode, &log, 4), why(2, 0));
    assert_eq!(
        (
            string_refusal(Unicode, &log, 4, 0),
            string_refusal(Unicode, &log, 4, 9)
        ),
        (why(2, 0), why(2, 0))
    );
    // They are the caller's own bytes.
    assert!(std::ptr::eq(sid(Unicode, &log, 64), &log[140..152]));
    assert!(std::ptr::eq(string(Unicode, &log, 64, 0), &log[152..156]));
}

#[test]
fn t_changed() {
    assert_eq!(both(&with32(&T, 36, 90)), (11, 11));
    assert_eq!(both(&with32(&T, 52, 95)), (12, 12));
    assert_eq!(refusal(Unicode, &with32(&T, 100, 100), 0), why(5, 100));
    assert_eq!(both(&with16(&T, 24, 3)), (6, 6));
    assert_eq!(both(&with16(&T, 24, 32)), (6, 6));
    assert_eq!(both(&with16(&T, 24, 16)), (0, 0));
    assert_eq!(both(&with16(&T, 30, 0x8000)), (0, 0));
    assert_eq!(both(&with16(&T, 30, 0x4000)), (7, 7));
    let many = with16(&T, 26, 300);
    assert_eq!(both(&with16(&many, 30, 0x8000)), (8, 8));
    assert_eq!(both(&with16(&many, 30, 0x4000)), (7, 7));
}

#[test]
fn fields_that_failed() {
    let same = |bytes: &[u8], number, field| {
        assert_eq!(fields(bytes), [(number, field); 2]);
    };
    same(&[], 1, 0);
    same(&with32(&T, 4, 0), 4, 4);
    same(&with16(&T, 24, 3), 6, 24);
    same(&with16(&T, 30, 0x4000), 7, 30);
    same(&with16(&T, 26, 257), 8, 26);
    same(&with32(&T, 44, 77), 10, 44);
    same(&with32(&T, 40, 16), 10, 44);
    same(&with32(&T, 36, 90), 11, 36);
    same(&with16(&T, 26, 5), 11, 36);
    same(&with32(&T, 52, 95), 12, 48);
    same(&with32(&T, 48, 61_441), 12, 48);
    same(&with32(&T, 48, 2), 13, 0);
    // Neither name of S ends, or only SourceName does.
    same(&with32(&S, 56, 0x0001_0001), 9, 56);
    same(&with32(&S, 56, 0x0001_0000), 9, 58);
    same(&with32(&S, 56, 0x0000_0001), 9, 60);
    // Length, and Length2 from the rear, is where the number was read.
    assert_eq!(fields(&with32(&T, 0, 100)), [(5, 96), (5, 0)]);
    assert_eq!(fields(&with32(&T, 100, 100)), [(5, 100), (4, 4)]);
    assert_eq!(fields(&with32(&T, 0, 60)), [(2, 0), (5, 0)]);
    assert_eq!(fields(&with32(&T, 100, 108)), [(5, 100), (3, 0)]);
}

#[test]
fn s_changed() {
    let mut longer = S[..60].to_vec();
    longer.extend([0; 4]);
    longer.extend(68u32.to_le_bytes());
    let longer = with32(&longer, 0, 68);
    let record = step(Unicode, &longer, 0).unwrap();
    assert_eq!((record.length, record.fields.record_number), (68, 7));
    let places = [record.sid_at, record.strings_at, record.event_data_at];
    assert_eq!(places, [64; 3]);
    assert_eq!(both(&with32(&S, 0, 60)), (2, 5));
    assert_eq!(both(&with16(&S, 30, 0x8000)), (7, 7));
    assert_eq!(both(&with16(&S, 30, 0x4000)), (7, 7));
    assert_eq!(both(&with32(&S, 60, 60)), (5, 2));
}

/// T with another gap after the names; the gap is not zero.
fn gapped_t(gap: usize) -> Vec<u8> {
    let parts = &T[76..97];
    let mut record = [&T[..74], &vec![0xEE; gap], parts].concat();
    record.resize(record.len().next_multiple_of(4), 0xEE);
    let length = record.len() as u32 + 4;
    record.extend(length.to_le_bytes());
    let first = 74 + gap as u32;
    let places = [(0, length), (44, first), (36, first + 12), (52, first + 18)];
    places.iter().fold(record, |r, (at, n)| with32(&r, *at, *n))
}

#[test]
fn gaps_before_the_first_part() {
    for (gap, length) in [(0, 100), (1, 100), (2, 104), (8, 108), (40, 140)] {
        let record = gapped_t(gap);
        let read = step(Unicode, &record, 0).unwrap();
        assert_eq!(record.len(), length);
        let places = [read.sid_at, read.strings_at, read.event_data_at];
        assert_eq!(places, [74, 86, 92].map(|at| at + gap));
        assert_eq!(step_back(Unicode, &record, length), Ok(read));
        assert_eq!(
            (read.sid, read.string(0), read.event_data),
            (SID, Some(OK), &[0; 3][..])
        );
        // Written again it is T.
        assert_eq!(written(Unicode, &t_event()), T);
    }
    // An offset inside the names, or past Length2, and a gap between later parts.
    for at in [0, 56, 68, 73, 100, 104, u32::MAX] {
        assert_eq!(fields(&with32(&T, 44, at)), [(10, 44); 2]);
    }
    assert_eq!(fields(&with32(&gapped_t(8), 36, 95)), [(11, 36); 2]);
    assert_eq!(fields(&with32(&gapped_t(8), 52, 101)), [(12, 48); 2]);
    // Without a SID the strings come first, without strings the data.
    let no_sid = with32(&T, 40, 0);
    assert_eq!(fields(&no_sid), [(0, 0); 2]);
    assert_eq!(step(Unicode, &no_sid, 0).unwrap().sid_at, 88);
    let data_alone = with16(&no_sid, 26, 0);
    let read = step(Unicode, &data_alone, 0).unwrap();
    assert_eq!([read.sid_at, read.strings_at, read.event_data_at], [94; 3]);
    assert_eq!(fields(&with32(&no_sid, 36, 73)), [(11, 36); 2]);
    assert_eq!(fields(&with32(&data_alone, 52, 73)), [(12, 48); 2]);
    // Four bytes more before Length2 are too many behind a part, and gap without one.
    let longer = [&T[..100], &[0; 4], &108u32.to_le_bytes()[..]].concat();
    let longer = with32(&longer, 0, 108);
    assert_eq!(fields(&longer), [(13, 0); 2]);
    let gap_alone = with32(&with16(&with32(&longer, 40, 0), 26, 0), 48, 0);
    let read = step(Unicode, &gap_alone, 0).unwrap();
    assert_eq!([read.sid_at, read.strings_at, read.event_data_at], [104; 3]);
}

#[test]
fn strings_in_turn() {
    // "A", the empty one, and two units without an end.
    let s = b".A\0\0\0\0\0B\0C\0";
    let found = |at, len, next| NextString {
        refusal: 0,
        at,
        len,
        next,
    };
    let none = |next| NextString {
        refusal: 17,
        at: 0,
        len: 0,
        next,
    };
    let run = (1, 10);
    assert_eq!(next_string(Unicode, s, run, 1), found(1, 2, 5));
    assert_eq!(next_string(Unicode, s, run, 5), found(5, 0, 7));
    for place in [0, 7, 10, 11, 12, usize::MAX] {
        assert_eq!(next_string(Unicode, s, run, place), none(place));
    }
    // Units are counted from the place.
    assert_eq!(next_string(Unicode, s, run, 2), found(2, 0, 4));
    for run in [(1, 11), (1, usize::MAX), (usize::MAX, 1), (1, 3), (2, 9)] {
        assert_eq!(next_string(Unicode, s, run, 1), none(1));
    }
}

#[test]
fn empty_buffer() {
    assert_eq!(step(Unicode, &[], 0), Err(refused_at(1, 0)));
    assert_eq!(step_back(Unicode, &[], 0), Err(refused_at(1, 0)));
    let none = Walked {
        count: 0,
        refusal: 0,
        field: 0,
        at: 0,
    };
    assert_eq!((walk(Unicode, &[]), walk_back(Unicode, &[])), (none, none));
}

#[test]
fn log_forwards() {
    let log = s_t();
    let mut out = [0xAA; 200];
    let first = Handle::fresh(Types::ALL).read(Unicode, &log, FORWARDS, 0, 64, &mut out);
    assert_eq!(
        first,
        Answer {
            status: 0,
            read: 64,
            needed: 0,
            handle: boundary(64)
        }
    );
    assert_eq!(out[..64], S);
    assert!(out[64..].iter().all(|b| *b == 0xAA));

    let mut out = [0xAA; 200];
    let second = first.handle.read(Unicode, &log, FORWARDS, 0, 103, &mut out);
    assert_eq!(
        second,
        Answer {
            status: 0xC000_0023,
            read: 0,
            needed: 104,
            handle: boundary(64)
        }
    );
    assert_eq!(out, [0xAA; 200]);
}

#[test]
fn log_backwards() {
    let log = s_t();
    let mut out = [0xAA; 200];
    let first = Handle::fresh(Types::ALL).read(Unicode, &log, BACKWARDS, 0, 168, &mut out);
    assert_eq!(
        first,
        Answer {
            status: 0,
            read: 168,
            needed: 0,
            handle: boundary(0)
        }
    );
    assert_eq!(out[..104], T);
    assert_eq!(out[104..168], S);
    assert!(out[168..].iter().all(|b| *b == 0xAA));

    let second = first
        .handle
        .read(Unicode, &log, BACKWARDS, 0, 168, &mut out);
    assert_eq!(
        second,
        Answer {
            status: 0xC000_0011,
            read: 0,
            needed: 0,
            handle: boundary(0)
        }
    );

    let mut out = [0xAA; 200];
    let only = Handle::fresh(Types::ALL).read(Unicode, &log, BACKWARDS, 0, 167, &mut out);
    assert_eq!(
        (only.status, only.read, only.handle),
        (0, 104, boundary(64))
    );
    assert_eq!(out[..104], T);
    assert!(out[104..].iter().all(|b| *b == 0xAA));
}

#[test]
fn seek_nine() {
    for flags in [6, 10] {
        let mut out = [0xAA; 200];
        let answer = Handle::fresh(Types::ALL).read(Unicode, &s_t(), flags, 9, 200, &mut out);
        assert_eq!(
            answer,
            Answer {
                status: 0xC000_000D,
                read: 0,
                needed: 0,
                handle: Handle::fresh(Types::ALL)
            }
        );
        assert_eq!(out, [0xAA; 200]);
    }
}

#[test]
fn size_zero() {
    let log = s_t();
    for (flags, needed) in [(FORWARDS, 64), (BACKWARDS, 104)] {
        let answer = Handle::fresh(Types::ALL).read(Unicode, &log, flags, 0, 0, &mut []);
        assert_eq!((answer.status, answer.needed), (0xC000_0023, needed));
        assert_eq!(answer.handle, Handle::fresh(Types::ALL));
        let answer = Handle::fresh(Types::ALL).read(Unicode, &[], flags, 0, 0, &mut []);
        assert_eq!((answer.status, answer.needed), (0xC000_0011, 0));
        assert_eq!(answer.handle, Handle::fresh(Types::ALL));
    }
}

#[test]
fn listings() {
    let log = s_t();
    assert_eq!(listing(Unicode, &log), "records 2\n0 64 7\n64 104 8\n");
    assert_eq!(listing(Unicode, &log[..167]), "refused 3 at 64 field 0\n");
    assert_eq!(listing(Unicode, &[]), "records 0\n");
    assert_eq!(
        listing(Unicode, &vec![0; 65_537]),
        "refused 16 at 0 field 0\n"
    );
    assert_eq!(
        listing(Unicode, &vec![0; 65_536]),
        "refused 2 at 0 field 0\n"
    );
    // 1024 times S fills the program's buffer to the last byte.
    let full = S.repeat(1024);
    assert!(listing(Unicode, &full).starts_with("records 1024\n0 64 7\n64 64 7\n"));
    assert!(listing(Unicode, &full).ends_with("\n65472 64 7\n"));
    assert_eq!(
        listing(Unicode, &[&full[..], &S].concat()),
        "refused 16 at 0 field 0\n"
    );
    // So does one record, the longest that the program lists.
    let one = written(
        Unicode,
        &Event {
            source_name: &[b'a', 0].repeat(32_736),
            ..s_event()
        },
    );
    assert_eq!(listing(Unicode, &one), "records 1\n0 65536 7\n");
    // Length is still judged up to its own limit: a longer one is cut short.
    for (length, text) in [
        (65_540, "refused 3 at 0 field 0\n"),
        (262_140, "refused 3 at 0 field 0\n"),
        (262_144, "refused 2 at 0 field 0\n"),
    ] {
        assert_eq!(listing(Unicode, &with32(&one, 0, length)), text);
    }
}
