//! Appending to a log.

mod common;

use common::*;
use plain::Edition::Unicode;
use plain::*;

#[test]
fn numbers_count_on() {
    let mut log = [0xAA; 400];
    let mut used = 0;
    for (event, number, length) in [(t_event(), 1, 104), (s_event(), 2, 64), (t_event(), 3, 104)] {
        let before = used;
        used = append(Unicode, &mut log, used, &event).unwrap();
        assert_eq!(used, before + length);
        let record = step(Unicode, &log, before).unwrap();
        assert_eq!(record.fields.record_number, number);
        let expected = Event {
            fields: Fields {
                record_number: number,
                ..event.fields
            },
            ..event
        };
        assert_eq!(log[before..used], written(Unicode, &expected));
        assert!(log[used..].iter().all(|b| *b == 0xAA));
    }
    assert_eq!(
        walk(Unicode, &log[..used]),
        Walked {
            count: 3,
            refusal: 0,
            field: 0,
            at: used,
        }
    );
}

#[test]
fn numbers_wrap() {
    let mut log = with32(&S, 8, u32::MAX);
    log.resize(128, 0);
    assert_eq!(append(Unicode, &mut log, 64, &s_event()), Ok(128));
    assert_eq!(step(Unicode, &log, 64).unwrap().fields.record_number, 0);
    log.resize(192, 0);
    assert_eq!(append(Unicode, &mut log, 128, &s_event()), Ok(192));
    assert_eq!(step(Unicode, &log, 128).unwrap().fields.record_number, 1);
}

#[test]
fn refusals_change_nothing() {
    let wrong = Event {
        fields: Fields {
            event_type: 3,
            ..Fields::default()
        },
        ..Event::default()
    };
    let mut log = s_t();
    log.extend([0xAA; 63]);
    let before = log.clone();
    let mut expect = |used, event: &Event, number| {
        // The field of 14 is that of the step from the rear.
        let field = if number == 14 {
            step_back(Unicode, &log, used).unwrap_err().field
        } else {
            0
        };
        let refused = Err(Refused { number, field });
        assert_eq!(append(Unicode, &mut log, used, event), refused);
        assert_eq!(log, before);
    };
    expect(232, &wrong, 1);
    for used in [1, 63, 65, 104, 167, 169, 231] {
        expect(used, &wrong, 14);
    }
    expect(168, &wrong, 6);
    expect(0, &wrong, 6);
    expect(168, &s_event(), 15);
    assert_eq!(number(append(Unicode, &mut [], 0, &s_event())), Err(15));
    assert_eq!(number(append(Unicode, &mut [], 1, &s_event())), Err(1));
    // Only the last record is judged.
    let mut log = [0xFF; 200];
    log[36..100].copy_from_slice(&S);
    assert_eq!(append(Unicode, &mut log, 100, &s_event()), Ok(164));
    assert_eq!(step(Unicode, &log, 100).unwrap().fields.record_number, 8);
}

#[test]
fn broken_ends() {
    for (at, byte, field) in [
        (4, 0, 4),
        (0, 100, 0),
        (24, 3, 24),
        (44, 77, 44),
        (48, 2, 0),
    ] {
        let mut log = s_t();
        log[64 + at] = byte;
        let refused = Err(Refused { number: 14, field });
        assert_eq!(append(Unicode, &mut log, 168, &s_event()), refused);
    }
}
