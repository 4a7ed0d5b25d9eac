//! Read requests: seeks, turning round, broken logs, and whole series of reads
//! against the count of section 9.

mod common;

use common::*;
use plain::Edition::Unicode;
use plain::*;

const SEEK_FORWARDS: u32 = 6;
const SEEK_BACKWARDS: u32 = 10;

fn at(place: usize) -> Handle {
    Handle {
        place: Place::Boundary(place),
        types: Types::ALL,
    }
}

/// Three records: S (7) at 0, T (8) at 64, S (9) at 168.
fn three() -> Vec<u8> {
    [s_t(), with32(&S, 8, 9)].concat()
}

/// A read into a marked output; checks that the rest of it is unchanged.
fn read(handle: Handle, log: &[u8], flags: u32, number: u32, size: usize) -> (Answer, Vec<u8>) {
    let mut out = vec![0xAA; size + 9];
    let answer = handle.read(Unicode, log, flags, number, size, &mut out);
    assert!(out[answer.read..].iter().all(|b| *b == 0xAA));
    if answer.status != 0 {
        assert_eq!((answer.read, answer.handle), (0, handle));
        assert!((answer.needed != 0) == (answer.status == 0xC000_0023));
    } else {
        assert_eq!(answer.needed, 0);
    }
    out.truncate(answer.read);
    (answer, out)
}

#[test]
fn seeks() {
    let log = three();
    let (answer, out) = read(at(0), &log, SEEK_FORWARDS, 8, 1000);
    assert_eq!((answer.status, answer.handle), (0, at(232)));
    assert_eq!(out, log[64..]);
    let (answer, out) = read(at(232), &log, SEEK_FORWARDS, 8, 104);
    assert_eq!((answer.status, answer.handle), (0, at(168)));
    assert_eq!(out, T);
    let (answer, out) = read(Handle::fresh(Types::ALL), &log, SEEK_BACKWARDS, 8, 1000);
    assert_eq!((answer.status, answer.handle), (0, at(0)));
    assert_eq!(out, [&T[..], &S].concat());
    let (answer, out) = read(Handle::fresh(Types::ALL), &log, SEEK_BACKWARDS, 7, 1000);
    assert_eq!((answer.status, answer.handle), (0, at(0)));
    assert_eq!(out, S);
    let (answer, _) = read(Handle::fresh(Types::ALL), &log, SEEK_BACKWARDS, 8, 103);
    assert_eq!((answer.status, answer.needed), (0xC000_0023, 104));
    // Not there, whatever the log: an empty one included.
    for log in [&log[..], &[]] {
        let (answer, _) = read(Handle::fresh(Types::ALL), log, SEEK_FORWARDS, 10, 1000);
        assert_eq!(answer.status, 0xC000_000D);
    }
    // The number is for seeks only.
    let (answer, out) = read(Handle::fresh(Types::ALL), &log, 5, 8, 64);
    assert_eq!((answer.status, out), (0, S.to_vec()));
    // The handle's place does not matter for a seek, even inside a record.
    let (answer, out) = read(at(33), &log, SEEK_FORWARDS, 9, 64);
    assert_eq!((answer.status, answer.handle), (0, at(232)));
    assert_eq!(out, log[168..]);
}

#[test]
fn seeks_find_the_first() {
    let log = [&T[..], &S, &T, &S].concat();
    let (answer, _) = read(Handle::fresh(Types::ALL), &log, SEEK_FORWARDS, 7, 64);
    assert_eq!(answer.handle, at(168));
    let (answer, _) = read(Handle::fresh(Types::ALL), &log, SEEK_BACKWARDS, 7, 64);
    assert_eq!(answer.handle, at(104));
}

#[test]
fn seeks_in_a_broken_log() {
    let mut log = three();
    log[64 + 24] = 3;
    let (answer, out) = read(Handle::fresh(Types::ALL), &log, SEEK_FORWARDS, 7, 1000);
    assert_eq!((answer.status, answer.handle), (0, at(64)));
    assert_eq!(out, S);
    for number in [8, 9, 10] {
        for flags in [SEEK_FORWARDS, SEEK_BACKWARDS] {
            let (answer, _) = read(Handle::fresh(Types::ALL), &log, flags, number, 1000);
            assert_eq!(answer.status, 0xC000_018E);
        }
    }
    // A tail too short for a record refuses, too.
    let log = [&S[..], &[0]].concat();
    let (answer, _) = read(Handle::fresh(Types::ALL), &log, SEEK_FORWARDS, 8, 1000);
    assert_eq!(answer.status, 0xC000_018E);
}

#[test]
fn broken_logs() {
    let mut log = three();
    log[64 + 24] = 3;
    // Forwards: S, then T refuses; T's refusal comes before its size.
    let (answer, out) = read(Handle::fresh(Types::ALL), &log, 5, 0, 1000);
    assert_eq!((answer.status, answer.handle, out), (0, at(64), S.to_vec()));
    for size in [0, 1000] {
        let (answer, _) = read(at(64), &log, 5, 0, size);
        assert_eq!((answer.status, answer.needed), (0xC000_018E, 0));
    }
    // Backwards: the last S, then T refuses.
    let (answer, out) = read(Handle::fresh(Types::ALL), &log, 9, 0, 1000);
    assert_eq!((answer.status, answer.handle), (0, at(168)));
    assert_eq!(out, log[168..]);
    let (answer, _) = read(at(168), &log, 9, 0, 1000);
    assert_eq!(answer.status, 0xC000_018E);
    // Inside a record, and with fewer bytes left than any record has.
    for place in [1, 63, 65, 200, 231] {
        for flags in [5, 9] {
            let (answer, _) = read(at(place), &log, flags, 0, 1000);
            assert_eq!(answer.status, 0xC000_018E, "{place} {flags}");
        }
    }
    assert_eq!(read(at(232), &log, 5, 0, 0).0.status, 0xC000_0011);
    assert_eq!(read(at(0), &log, 9, 0, 0).0.status, 0xC000_0011);
    assert_eq!(read(at(233), &log, 5, 0, 0).0.status, 0xC000_0008);
}

#[test]
fn turning_round_returns_the_last_record_again() {
    let log = three();
    let (answer, out) = read(Handle::fresh(Types::ALL), &log, 5, 0, 168);
    assert_eq!(out, s_t());
    let (answer, out) = read(answer.handle, &log, 9, 0, 104);
    assert_eq!((answer.handle, out), (at(64), T.to_vec()));
    let (answer, out) = read(answer.handle, &log, 5, 0, 104);
    assert_eq!((answer.handle, out), (at(168), T.to_vec()));
}

#[test]
fn a_record_in_the_data_is_not_met() {
    let inner = s_t();
    let outer = written(
        Unicode,
        &Event {
            event_data: &inner,
            ..s_event()
        },
    );
    let log = [&outer[..], &S, &outer].concat();
    let whole = |at| Walked {
        count: 3,
        refusal: 0,
        field: 0,
        at,
    };
    assert_eq!(walk(Unicode, &log), whole(log.len()));
    assert_eq!(walk_back(Unicode, &log), whole(0));
    let (answer, _) = read(Handle::fresh(Types::ALL), &log, SEEK_FORWARDS, 8, 1000);
    assert_eq!(answer.status, 0xC000_000D);
}

/// One series of reads in one direction for a set of types against the count of
/// Rule 9.5.
fn series(edition: Edition, rng: &mut Rng, records: &[Vec<u8>], types: Types, backwards: bool) {
    let log = records.concat();
    // R of Rule 9.4: the wanted records, each with its start.
    let mut order: Vec<(usize, &[u8])> = Vec::new();
    let mut start = 0;
    for record in records {
        let event_type = u16::from_le_bytes([record[24], record[25]]);
        if types.contains(event_type) {
            order.push((start, record));
        }
        start += record.len();
    }
    if backwards {
        order.reverse();
    }
    let flags = if backwards { 9 } else { 5 };
    let mut handle = Handle::fresh(types);
    let mut c = 0;
    let mut copied = Vec::new();
    for _ in 0..12 {
        let asked = if rng.below(8) == 0 {
            rng.next() as u32 & 31
        } else {
            flags
        };
        let size = match rng.below(4) {
            0 => rng.below(130),
            1 => 2_000,
            _ => rng.below(800),
        };
        let out_len = match rng.below(8) {
            0 => size.saturating_sub(1),
            1 => size,
            _ => size + rng.below(50),
        };
        let mut out = rng.bytes(out_len);
        let before = out.clone();
        let right = [5, 6, 9, 10].contains(&asked) && size <= out_len;
        if right && asked != flags {
            continue;
        }
        let wrong = !right || types.0 > 63;
        let number = rng.next() as u32;
        let answer = handle.read(edition, &log, asked, number, size, &mut out);

        let left = &order[c..];
        let (status, read, needed) = if wrong {
            (0xC000_000D, 0, 0)
        } else if left.is_empty() {
            (0xC000_0011, 0, 0)
        } else if left[0].1.len() > size {
            (0xC000_0023, 0, left[0].1.len())
        } else {
            let mut sum = 0;
            for (_, record) in left {
                if sum + record.len() > size {
                    break;
                }
                sum += record.len();
                c += 1;
                copied.extend_from_slice(record);
            }
            (0, sum, 0)
        };
        assert_eq!(
            (answer.status, answer.read, answer.needed),
            (status, read, needed)
        );
        assert_eq!(out[..read], copied[copied.len() - read..]);
        assert_eq!(out[read..], before[read..]);
        let place = match order[..c].last() {
            None => Place::Fresh,
            Some((start, record)) if !backwards => Place::Boundary(start + record.len()),
            Some((start, _)) => Place::Boundary(*start),
        };
        assert_eq!(answer.handle, Handle { place, types });
        handle = answer.handle;
    }
    let all: Vec<&[u8]> = order[..c].iter().map(|(_, record)| *record).collect();
    assert_eq!(copied, all.concat());
}

#[test]
fn series_of_reads() {
    let mut rng = Rng(3);
    for i in 0..6000 {
        let edition = EDITIONS[i % 2];
        let types = match i % 3 {
            0 => Types::ALL,
            1 => Types(rng.below(64) as u32),
            _ => Types(rng.pick(&[1, 32, 48, 63, 64, 127, 1 << 31])),
        };
        let count = rng.below(12);
        let records: Vec<_> = (0..count)
            .map(|_| written(edition, &Owned::random(edition, &mut rng).event()))
            .collect();
        series(edition, &mut rng, &records, types, false);
        series(edition, &mut rng, &records, types, true);
    }
}

/// N reads that ask for the largest Length copy N records, however long they are.
#[test]
fn as_many_reads_as_records_reach_the_end() {
    let mut rng = Rng(11);
    let name = [b'a', 0].repeat(131_038);
    let mut records = Vec::new();
    for i in 0..30 {
        let mut owned = Owned::random(Unicode, &mut rng);
        if i % 10 > 7 {
            owned.source_name = name[..2 * (131_038 - rng.below(2) * 65_536)].to_vec();
            owned.computer_name.clear();
            owned.sid.clear();
            owned.fields.num_strings = 0;
            owned.fields.reserved_flags = 0;
            owned.run.clear();
            owned.event_data.clear();
        }
        records.push(written(Unicode, &owned.event()));
    }
    assert!(records.iter().any(|r| r.len() == 262_140));
    let log = records.concat();
    let mut out = vec![0; 262_140];
    for flags in [5, 9] {
        let mut handle = Handle::fresh(Types::ALL);
        let mut copied = 0;
        for _ in 0..records.len() {
            let answer = handle.read(Unicode, &log, flags, 0, 262_140, &mut out);
            assert!(answer.status == 0 || copied == log.len());
            copied += answer.read;
            handle = answer.handle;
        }
        assert_eq!(copied, log.len());
        let answer = handle.read(Unicode, &log, flags, 0, 262_140, &mut out);
        assert_eq!(answer.status, 0xC000_0011);
    }
}
