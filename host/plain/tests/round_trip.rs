//! What is written reads back, and changed bytes are judged as the slow reader
//! judges them.

mod common;

use common::*;
use plain::Edition::Unicode;
use plain::*;

#[test]
fn written_records_read_back() {
    let mut rng = Rng(1);
    for i in 0..6000 {
        let edition = EDITIONS[i % 2];
        let owned = Owned::random(edition, &mut rng);
        let event = owned.event();
        let bytes = written(edition, &event);
        assert_eq!(slow(edition, &bytes, 0), Ok(bytes.len()));

        let before = rng.below(9);
        let after = rng.below(9);
        let buffer = [rng.bytes(before), bytes.clone(), rng.bytes(after)].concat();
        let record = step(edition, &buffer, before).unwrap();
        assert_eq!((record.start, record.length), (before, bytes.len()));
        assert_eq!(
            step_back(edition, &buffer, before + bytes.len()),
            Ok(record)
        );

        let read = Event {
            fields: record.fields,
            source_name: record.source_name,
            computer_name: record.computer_name,
            sid: record.sid,
            strings: record.strings,
            event_data: record.event_data,
        };
        assert_eq!(read, event);
        assert_eq!(written(edition, &read), bytes);
        for (part, at) in [
            (record.source_name, record.source_name_at),
            (record.computer_name, record.computer_name_at),
            (record.sid, record.sid_at),
            (record.strings, record.strings_at),
            (record.event_data, record.event_data_at),
        ] {
            assert!(std::ptr::eq(part, &buffer[at..at + part.len()]));
        }
        assert_eq!(
            record.computer_name_at,
            record.source_name_at + record.source_name.len() + width(edition)
        );
        assert_eq!(record.strings_at, record.sid_at + record.sid.len());
        assert_eq!(
            record.event_data_at,
            record.strings_at + record.strings.len()
        );

        for (k, expected) in owned.strings.iter().enumerate() {
            assert_eq!(string(edition, &buffer, before, k as u32), expected);
            assert_eq!(string_refusal(edition, &buffer, before, k as u32).number, 0);
        }
        let count = owned.strings.len() as u32;
        assert_eq!(string(edition, &buffer, before, count), b"");
        assert_eq!(string_refusal(edition, &buffer, before, count).number, 17);
        assert_eq!(source_name(edition, &buffer, before), event.source_name);
        assert_eq!(computer_name(edition, &buffer, before), event.computer_name);
        assert_eq!(sid(edition, &buffer, before), event.sid);
        assert_eq!(event_data(edition, &buffer, before), event.event_data);
    }
}

#[test]
fn gaps_and_unused_numbers_may_hold_anything() {
    let mut t = T;
    for at in (32..36).chain(74..76).chain(97..100) {
        t[at] = 0xFF;
    }
    assert_eq!(judge(Unicode, &t, 0), Ok(104));
    let mut s = S;
    for at in (32..40).chain(44..48).chain(52..56) {
        s[at] = 0xFF;
    }
    assert_eq!(
        (judge(Unicode, &s, 0), judge_back(Unicode, &s, 64)),
        (Ok(64), Ok(64))
    );
    assert_eq!(
        step(Unicode, &s, 0).unwrap().fields,
        step(Unicode, &S, 0).unwrap().fields
    );
}

#[test]
fn writing_does_not_keep_old_bytes() {
    // Gaps are written as zero, whatever the output held.
    let mut ones = [0xFF; 104];
    assert_eq!(write(Unicode, &t_event(), &mut ones), Ok(104));
    assert_eq!(ones, T);
}

fn why(r: Refusal) -> Refused {
    Refused {
        number: r.number,
        field: r.field,
    }
}

fn compare(edition: Edition, s: &[u8]) {
    assert_eq!(judge(edition, s, 0), slow(edition, s, 0));
    assert_eq!(
        judge_back(edition, s, s.len()),
        slow_back(edition, s, s.len())
    );
    assert_eq!(
        step(edition, s, 0).map(|r| r.length).map_err(why),
        slow(edition, s, 0)
    );
    let back = step_back(edition, s, s.len());
    assert_eq!(
        back.map(|r| r.length).map_err(why),
        slow_back(edition, s, s.len())
    );
    assert_eq!(
        refusal(edition, s, 0),
        slow(edition, s, 0).err().unwrap_or_default()
    );
}

/// Both samples in both editions: each is judged in the other one too.
#[test]
fn every_byte_of_t_changed() {
    for t in [&T[..], &ANSI_T] {
        for at in 0..t.len() {
            for value in 0..=255 {
                let mut changed = t.to_vec();
                changed[at] = value;
                for edition in EDITIONS {
                    compare(edition, &changed);
                }
            }
        }
    }
}

#[test]
fn random_changes() {
    for edition in EDITIONS {
        changes(edition, &mut Rng(5));
    }
}

fn changes(edition: Edition, rng: &mut Rng) {
    let fields = [0, 24, 26, 28, 30, 36, 40, 44, 48, 52];
    let mut accepted = 0;
    let mut seen = [false; 14];
    for _ in 0..60_000 {
        let mut bytes = written(edition, &Owned::random(edition, rng).event());
        for _ in 0..1 + rng.below(2) {
            let end = bytes.len();
            match rng.below(4) {
                0 => {
                    let at = rng.pick(&fields);
                    bytes[at] = bytes[at].wrapping_add(rng.pick(&[1, 2, 4, 252, 254, 255]));
                }
                1 => bytes[rng.below(end)] = 0,
                2 => bytes[rng.below(end)] = rng.next() as u8,
                _ => {
                    // Another Length at both ends, with bytes to match.
                    let room = rng.pick(&[4, 8]);
                    bytes.truncate(end - 4);
                    bytes.extend(rng.bytes(room));
                    let length = bytes.len() as u32;
                    bytes[..4].copy_from_slice(&length.to_le_bytes());
                    let at = bytes.len() - 4;
                    bytes[at..].copy_from_slice(&length.to_le_bytes());
                }
            }
        }
        for judged in EDITIONS {
            compare(judged, &bytes);
        }
        match slow(edition, &bytes, 0) {
            Ok(_) => accepted += 1,
            Err(why) => seen[why.number as usize] = true,
        }
    }
    assert!(accepted > 1000);
    // A whole record is never too few bytes for one.
    assert!(seen[2..].iter().all(|number| *number), "{seen:?}");
}

#[test]
fn walks_agree() {
    let mut rng = Rng(7);
    for i in 0..4000 {
        let edition = EDITIONS[i % 2];
        let count = rng.below(7);
        let records: Vec<_> = (0..count)
            .map(|_| written(edition, &Owned::random(edition, &mut rng).event()))
            .collect();
        let mut log = records.concat();
        let whole = |at| Walked {
            count,
            refusal: 0,
            field: 0,
            at,
        };
        assert_eq!(walk(edition, &log), whole(log.len()));
        assert_eq!(walk_back(edition, &log), whole(0));

        let mut at = 0;
        for record in &records {
            assert_eq!(step(edition, &log, at).unwrap().length, record.len());
            at += record.len();
            assert_eq!(step_back(edition, &log, at).unwrap().length, record.len());
        }

        // Changed at random: the walks are the repeated slow steps.
        if !log.is_empty() {
            let at = rng.below(log.len());
            log[at] = rng.next() as u8;
            if rng.below(4) == 0 {
                log.truncate(at);
            }
        }
        let front = slow_walk(edition, &log);
        let rear = slow_walk_back(edition, &log);
        assert_eq!(
            (walk(edition, &log), walk_back(edition, &log)),
            (front, rear)
        );
        assert_eq!(front.refusal == 0, rear.refusal == 0);
        if front.refusal == 0 {
            assert_eq!(front.count, rear.count);
        }
        let text = listing(edition, &log);
        let first = text.lines().next().unwrap();
        if front.refusal == 0 {
            assert_eq!(first, format!("records {}", front.count));
            assert_eq!(text.lines().count(), front.count + 1);
        } else {
            let Walked {
                refusal, field, at, ..
            } = front;
            assert_eq!(first, format!("refused {refusal} at {at} field {field}"));
            assert_eq!(text.lines().count(), 1);
        }
    }
}

fn slow_walk(edition: Edition, s: &[u8]) -> Walked {
    let (mut count, mut at) = (0, 0);
    while at != s.len() {
        match slow(edition, s, at) {
            Ok(length) => at += length,
            Err(why) => return stopped(count, why, at),
        }
        count += 1;
    }
    stopped(count, Refused::default(), at)
}

fn slow_walk_back(edition: Edition, s: &[u8]) -> Walked {
    let (mut count, mut end) = (0, s.len());
    while end != 0 {
        match slow_back(edition, s, end) {
            Ok(length) => end -= length,
            Err(why) => return stopped(count, why, end),
        }
        count += 1;
    }
    stopped(count, Refused::default(), end)
}

fn stopped(count: usize, why: Refused, at: usize) -> Walked {
    Walked {
        count,
        refusal: why.number,
        field: why.field,
        at,
    }
}
