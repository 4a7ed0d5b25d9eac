//! Reads for some types of events (Rules 8.27 to 8.31).

mod common;

use common::*;
use plain::Edition::Unicode;
use plain::*;

const END: u32 = status::END_OF_FILE;
const WRONG: u32 = status::INVALID_PARAMETER;
const CORRUPT: u32 = status::EVENTLOG_FILE_CORRUPT;
const SMALL: u32 = status::BUFFER_TOO_SMALL;

const EVENT_TYPES: [u16; 6] = [0, 1, 2, 4, 8, 16];

fn fresh(types: u32) -> Handle {
    Handle::fresh(Types(types))
}

fn at(place: usize, types: u32) -> Handle {
    Handle {
        place: Place::Boundary(place),
        types: Types(types),
    }
}

/// S with another number and type.
fn s(number: u32, event_type: u8) -> Vec<u8> {
    let mut record = with32(&S, 8, number);
    record[24] = event_type;
    record
}

/// T with another number and type.
fn t(number: u32, event_type: u8) -> Vec<u8> {
    let mut record = with32(&T, 8, number);
    record[24] = event_type;
    record
}

/// The log of Rules 11.80 to 11.84.
fn samples() -> Vec<u8> {
    [s(7, 4), s(7, 0), s(7, 4)].concat()
}

/// A read that succeeds: what it copied, and the boundary.
fn read(handle: Handle, log: &[u8], flags: u32, number: u32, size: usize) -> (Vec<u8>, usize) {
    let mut out = vec![0xAA; size + 5];
    let answer = handle.read(Unicode, log, flags, number, size, &mut out);
    assert_eq!((answer.status, answer.needed), (0, 0));
    assert!(out[answer.read..].iter().all(|b| *b == 0xAA));
    assert_eq!(answer.handle.types, handle.types);
    let Place::Boundary(boundary) = answer.handle.place else {
        panic!("a success has a boundary");
    };
    out.truncate(answer.read);
    (out, boundary)
}

/// A read that is refused: its status, and what it needs.
fn refused(handle: Handle, log: &[u8], flags: u32, number: u32, size: usize) -> (u32, usize) {
    let mut out = vec![0xAA; size];
    let answer = handle.read(Unicode, log, flags, number, size, &mut out);
    assert!(out.iter().all(|b| *b == 0xAA));
    assert_eq!((answer.read, answer.handle), (0, handle));
    (answer.status, answer.needed)
}

#[test]
fn samples_of_types() {
    let log = samples();
    let both = [s(7, 4), s(7, 4)].concat();
    assert_eq!(read(fresh(4), &log, 5, 0, 128), (both, 192));
    assert_eq!(refused(fresh(32), &log, 5, 0, 63), (SMALL, 64));
    assert_eq!(read(fresh(32), &log, 5, 0, 128), (S.to_vec(), 128));
    assert_eq!(refused(at(128, 32), &log, 5, 0, 128), (END, 0));
    assert_eq!(read(fresh(32), &log, 6, 7, 64), (S.to_vec(), 128));
    assert_eq!(refused(fresh(64), &log, 5, 0, 64), (WRONG, 0));
    let counts = [0x3F, 0x21, 0x40, 0xFFFF_FFFF].map(|types| Types(types).count());
    assert_eq!(counts, [6, 2, 0, 6]);
}

#[test]
fn sets() {
    for types in 0..128 {
        let set = Types(types);
        let held = EVENT_TYPES.into_iter().filter(|t| set.contains(*t)).count();
        assert_eq!((set.count(), set.is_valid()), (held as u32, types < 64));
    }
    for bit in 0..32 {
        let set = Types(1 << bit);
        assert_eq!((set.count(), set.is_valid()), ((bit < 6) as u32, bit < 6));
    }
    for event_type in 0..=u16::MAX {
        let known = EVENT_TYPES.contains(&event_type);
        assert_eq!(Types::ALL.contains(event_type), known);
        assert_eq!(Types(u32::MAX).contains(event_type), known);
    }
    // Each type by its own bit alone.
    let log = EVENT_TYPES.map(|t| s(1, t as u8)).concat();
    for (i, event_type) in EVENT_TYPES.into_iter().enumerate() {
        let bit = if event_type == 0 {
            32
        } else {
            event_type.into()
        };
        let copied = s(1, event_type as u8);
        assert_eq!(
            read(fresh(bit), &log, 5, 0, 384),
            (copied.clone(), 64 * (i + 1))
        );
        assert_eq!(read(fresh(bit), &log, 9, 0, 384), (copied, 64 * i));
        let (rest, _) = read(fresh(63 - bit), &log, 5, 0, 384);
        assert_eq!(rest, [&log[..64 * i], &log[64 * (i + 1)..]].concat());
    }
}

/// A wrong set comes after wrong flags and sizes, which have the same status, and
/// before a wrong boundary; a seek is refused too.
#[test]
fn a_set_with_another_bit() {
    let log = samples();
    for types in [64, 63 | 64, 1 << 16, 1 << 31, u32::MAX] {
        for flags in [5, 6, 9, 10] {
            for handle in [fresh(types), at(64, types), at(193, types)] {
                assert_eq!(refused(handle, &log, flags, 7, 192), (WRONG, 0));
            }
            assert_eq!(refused(fresh(types), &[], flags, 7, 0), (WRONG, 0));
        }
    }
    assert_eq!(
        refused(at(193, 63), &log, 5, 0, 192).0,
        status::INVALID_HANDLE
    );
    // No type is wanted, and no bit is wrong.
    for flags in [5, 6, 9, 10] {
        assert_eq!(refused(fresh(0), &log, flags, 7, 192), (END, 0));
    }
    assert_eq!(refused(fresh(0), &log, 6, 8, 192), (WRONG, 0));
}

/// The boundary is where the last copied record ended: those skipped after it are
/// met again, whatever became of them.
#[test]
fn boundaries() {
    let log = [s(1, 1), s(2, 2), t(3, 1), s(4, 2), s(5, 1), s(6, 2)].concat();
    let first_two = [s(1, 1), t(3, 1)].concat();
    assert_eq!(read(fresh(1), &log, 5, 0, 200), (first_two, 232));
    assert_eq!(read(at(232, 1), &log, 5, 0, 64), (s(5, 1), 360));
    assert_eq!(refused(at(360, 1), &log, 5, 0, 64), (END, 0));
    let last_two = [s(5, 1), t(3, 1)].concat();
    assert_eq!(read(fresh(1), &log, 9, 0, 200), (last_two, 128));
    assert_eq!(read(at(128, 1), &log, 9, 0, 200), (s(1, 1), 0));
    // The next one that is wanted is too long, and not the one at the boundary.
    assert_eq!(refused(at(64, 1), &log, 5, 0, 103), (SMALL, 104));
    assert_eq!(refused(at(296, 1), &log, 9, 0, 103), (SMALL, 104));
    assert_eq!(refused(at(296, 1), &log, 9, 0, 0), (SMALL, 104));
    // One that is skipped takes no room, however long it is.
    let twos = [s(2, 2), s(4, 2), s(6, 2)].concat();
    assert_eq!(read(fresh(2), &log, 5, 0, 192).0, twos);
    assert_eq!(read(fresh(2), &log, 9, 0, 191).1, 232);
    // A wanted one that does not fit stops the read, even where a later one would.
    let log = [s(1, 1), t(2, 1), s(3, 1)].concat();
    assert_eq!(read(fresh(1), &log, 5, 0, 128), (s(1, 1), 64));
    // Turning round returns the last one copied again, past those skipped.
    let log = [s(1, 1), s(2, 2), s(3, 1)].concat();
    assert_eq!(read(fresh(1), &log, 9, 0, 64), (s(3, 1), 128));
    assert_eq!(read(at(128, 1), &log, 9, 0, 64), (s(1, 1), 0));
    assert_eq!(read(at(0, 1), &log, 5, 0, 64), (s(1, 1), 64));
    assert_eq!(read(at(64, 1), &log, 5, 0, 64), (s(3, 1), 192));
}

#[test]
fn seeks_past_other_types() {
    let log = [s(1, 1), s(2, 2), s(3, 2), s(4, 1)].concat();
    for number in [2, 3, 4] {
        assert_eq!(read(fresh(1), &log, 6, number, 64), (s(4, 1), 256));
    }
    for number in [1, 2, 3] {
        assert_eq!(read(fresh(1), &log, 10, number, 64), (s(1, 1), 0));
    }
    let both = [s(4, 1), s(1, 1)].concat();
    assert_eq!(read(fresh(1), &log, 10, 4, 128), (both, 0));
    assert_eq!(refused(fresh(2), &log, 6, 4, 64), (END, 0));
    assert_eq!(refused(fresh(2), &log, 10, 1, 64), (END, 0));
    assert_eq!(refused(fresh(2), &log, 6, 5, 64), (WRONG, 0));
    assert_eq!(refused(fresh(1), &log, 6, 3, 63), (SMALL, 64));
    // The first with the number is found, though the second is the wanted one.
    let log = [s(1, 1), s(7, 2), s(3, 1), s(7, 1)].concat();
    let rest = [s(3, 1), s(7, 1)].concat();
    assert_eq!(read(fresh(1), &log, 6, 7, 192), (rest, 256));
    assert_eq!(read(fresh(1), &log, 10, 7, 192), (s(1, 1), 0));
}

/// A damaged record is no record of another type: it is met while skipping.
#[test]
fn damage_while_skipping() {
    let good = [s(1, 1), s(2, 2), s(3, 2), s(4, 2), s(5, 1)];
    // The signature, Length2, the type, the flags: in the third of five.
    for (place, value) in [(4, 0), (60, 1), (24, 3), (24, 32), (31, 1)] {
        let mut log = good.concat();
        log[128 + place] = value;
        assert_eq!(read(fresh(1), &log, 5, 0, 320), (s(1, 1), 64));
        assert_eq!(read(fresh(1), &log, 9, 0, 320), (s(5, 1), 256));
        assert_eq!(refused(at(64, 1), &log, 5, 0, 320), (CORRUPT, 0));
        assert_eq!(refused(at(256, 1), &log, 9, 0, 320), (CORRUPT, 0));
        assert_eq!(refused(fresh(1), &log, 6, 2, 320), (CORRUPT, 0));
        // What was copied decides, and not what was skipped before the damage.
        assert_eq!(read(fresh(2), &log, 5, 0, 320), (s(2, 2), 128));
        for types in [0, 4, 32] {
            assert_eq!(refused(fresh(types), &log, 5, 0, 0), (CORRUPT, 0));
            assert_eq!(refused(fresh(types), &log, 9, 0, 0), (CORRUPT, 0));
        }
        // Before the damage a wanted one that is too long is met first.
        assert_eq!(refused(fresh(2), &log, 5, 0, 63), (SMALL, 64));
    }
    // A few bytes behind the last skipped one are no end.
    let tail = [&s(2, 2)[..], &[0]].concat();
    assert_eq!(refused(fresh(1), &tail, 5, 0, 64), (CORRUPT, 0));
    let head = [&[0], &s(2, 2)[..]].concat();
    assert_eq!(refused(fresh(1), &head, 9, 0, 64), (CORRUPT, 0));
}

/// A good record inside data is met where a boundary says so, and skipped like any
/// other.
#[test]
fn a_boundary_inside_data() {
    let inner = [s(7, 2), s(8, 1)].concat();
    let event = Event {
        event_data: &inner,
        ..s_event()
    };
    let log = written(Unicode, &event);
    let from = log.windows(inner.len()).position(|w| w == inner).unwrap();
    assert_eq!(read(at(from, 1), &log, 5, 0, 64), (s(8, 1), from + 128));
    assert_eq!(read(at(from + 128, 2), &log, 9, 0, 64), (s(7, 2), from));
    // Behind them there is no record.
    assert_eq!(refused(at(from, 4), &log, 5, 0, 64), (CORRUPT, 0));
}
