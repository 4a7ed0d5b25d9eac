//! The calls of `include/eventlog.h`, each behind a safe function: the only
//! unsafe code. A slice goes over as pointer and length.

use core::mem::offset_of;

use crate::{Edition, Event};

#[repr(C)]
#[derive(Clone, Copy, Debug, Default, PartialEq, Eq)]
pub(crate) struct Fields {
    pub record_number: u32,
    pub time_generated: u32,
    pub time_written: u32,
    pub event_id: u32,
    pub event_type: u16,
    pub num_strings: u16,
    pub event_category: u16,
    pub reserved_flags: u16,
}

#[repr(C)]
struct Unnumbered {
    time_generated: u32,
    time_written: u32,
    event_id: u32,
    event_type: u16,
    num_strings: u16,
    event_category: u16,
    reserved_flags: u16,
}

#[repr(C)]
#[derive(Clone, Copy, Debug, Default, PartialEq, Eq)]
pub(crate) struct Part {
    pub at: usize,
    pub len: usize,
}

#[repr(C)]
#[derive(Debug, Default, PartialEq, Eq)]
pub(crate) struct Record {
    pub start: usize,
    pub length: usize,
    pub fields: Fields,
    pub source_name: Part,
    pub computer_name: Part,
    pub sid: Part,
    pub strings: Part,
    pub event_data: Part,
}

#[repr(C)]
#[derive(Clone, Copy, Debug, PartialEq, Eq)]
pub(crate) struct Refused {
    pub refusal: u32,
    pub field: usize,
}

#[repr(C)]
#[derive(Debug, PartialEq, Eq)]
pub(crate) struct Stepped {
    pub refusal: u32,
    pub field: usize,
    pub at: usize,
    pub found: Record,
}

#[repr(C)]
#[derive(Debug, PartialEq, Eq)]
pub(crate) struct NextString {
    pub refusal: u32,
    pub string: Part,
    pub next: usize,
}

#[repr(C)]
#[derive(Debug, PartialEq, Eq)]
pub(crate) struct Walked {
    pub count: usize,
    pub refusal: u32,
    pub field: usize,
    pub at: usize,
}

#[repr(C)]
#[derive(Debug, PartialEq, Eq)]
pub(crate) struct Written {
    pub refusal: u32,
    pub length: usize,
}

#[repr(C)]
#[derive(Debug, PartialEq, Eq)]
pub(crate) struct Appended {
    pub refusal: u32,
    pub field: usize,
    pub used: usize,
}

#[repr(C)]
#[derive(Clone, Copy, Debug, PartialEq, Eq)]
pub(crate) struct Handle {
    pub kind: u32,
    pub types: u32,
    pub boundary: usize,
}

#[repr(C)]
#[derive(Debug, PartialEq, Eq)]
pub(crate) struct Answer {
    pub status: u32,
    pub read: usize,
    pub needed: usize,
    pub handle: Handle,
}

// The sizes that a C compiler gives the header's structs.
const _: () = {
    assert!(size_of::<Fields>() == 24 && size_of::<Unnumbered>() == 20);
    assert!(size_of::<Part>() == 16 && size_of::<Record>() == 120);
    assert!(size_of::<Refused>() == 16);
    assert!(size_of::<Stepped>() == 144 && size_of::<NextString>() == 32);
    assert!(size_of::<Walked>() == 32);
    assert!(size_of::<Written>() == 16 && size_of::<Appended>() == 24);
    assert!(size_of::<Handle>() == 16 && size_of::<Answer>() == 40);
    assert!(offset_of!(Handle, types) == 4 && offset_of!(Handle, boundary) == 8);
};

unsafe extern "C" {
    fn eventlog_step(edition: u32, buffer: *const u8, buffer_len: usize, at: usize) -> Stepped;
    fn eventlog_step_back(
        edition: u32,
        buffer: *const u8,
        buffer_len: usize,
        end: usize,
    ) -> Stepped;
    fn eventlog_refusal(edition: u32, buffer: *const u8, buffer_len: usize, at: usize) -> Refused;
    fn eventlog_string(
        edition: u32,
        buffer: *const u8,
        buffer_len: usize,
        at: usize,
        k: u32,
    ) -> Part;
    fn eventlog_string_refusal(
        edition: u32,
        buffer: *const u8,
        buffer_len: usize,
        at: usize,
        k: u32,
    ) -> Refused;
    fn eventlog_next_string(
        edition: u32,
        buffer: *const u8,
        buffer_len: usize,
        run: Part,
        place: usize,
    ) -> NextString;
    fn eventlog_walk(edition: u32, buffer: *const u8, buffer_len: usize) -> Walked;
    fn eventlog_walk_back(edition: u32, buffer: *const u8, buffer_len: usize) -> Walked;
    fn eventlog_write(
        edition: u32,
        fields: Fields,
        source_name: *const u8,
        source_name_len: usize,
        computer_name: *const u8,
        computer_name_len: usize,
        sid: *const u8,
        sid_len: usize,
        strings: *const u8,
        strings_len: usize,
        event_data: *const u8,
        event_data_len: usize,
        out: *mut u8,
        out_len: usize,
    ) -> Written;
    fn eventlog_append(
        edition: u32,
        log: *mut u8,
        log_len: usize,
        used: usize,
        fields: Unnumbered,
        source_name: *const u8,
        source_name_len: usize,
        computer_name: *const u8,
        computer_name_len: usize,
        sid: *const u8,
        sid_len: usize,
        strings: *const u8,
        strings_len: usize,
        event_data: *const u8,
        event_data_len: usize,
    ) -> Appended;
    fn eventlog_fresh(types: u32) -> Handle;
    fn eventlog_types_count(types: u32) -> u32;
    fn eventlog_read(
        edition: u32,
        handle: Handle,
        log: *const u8,
        log_len: usize,
        flags: u32,
        record_number: u32,
        size: usize,
        out: *mut u8,
        out_len: usize,
    ) -> Answer;
    fn eventlog_listing(
        edition: u32,
        buffer: *const u8,
        buffer_len: usize,
        out: *mut u8,
        out_len: usize,
    ) -> Written;
    fn eventlog_card_blocks(bytes: usize) -> usize;
    fn eventlog_card_write(log: *const u8, log_len: usize, out: *mut u8, out_len: usize)
    -> Written;
    fn eventlog_card_read(
        image: *const u8,
        image_len: usize,
        out: *mut u8,
        out_len: usize,
    ) -> Written;
    fn eventlog_card_judge(image: *const u8, image_len: usize, place: usize) -> u32;
    fn eventlog_windows_1252_to_utf16(
        bytes: *const u8,
        bytes_len: usize,
        out: *mut u8,
        out_len: usize,
    ) -> Written;
    fn eventlog_windows_1252_from_utf16(
        units: *const u8,
        units_len: usize,
        out: *mut u8,
        out_len: usize,
    ) -> Written;
}

#[inline]
pub(crate) fn step(edition: Edition, buffer: &[u8], at: usize) -> Stepped {
    // SAFETY: `buffer` is readable for its length; any place may be asked for.
    unsafe { eventlog_step(edition.number(), buffer.as_ptr(), buffer.len(), at) }
}

#[inline]
pub(crate) fn step_back(edition: Edition, buffer: &[u8], end: usize) -> Stepped {
    // SAFETY: as in `step`.
    unsafe { eventlog_step_back(edition.number(), buffer.as_ptr(), buffer.len(), end) }
}

#[inline]
pub(crate) fn refusal(edition: Edition, buffer: &[u8], at: usize) -> Refused {
    // SAFETY: as in `step`.
    unsafe { eventlog_refusal(edition.number(), buffer.as_ptr(), buffer.len(), at) }
}

#[inline]
pub(crate) fn string(edition: Edition, buffer: &[u8], at: usize, k: u32) -> Part {
    // SAFETY: as in `step`; any number may be asked for.
    unsafe { eventlog_string(edition.number(), buffer.as_ptr(), buffer.len(), at, k) }
}

#[inline]
pub(crate) fn string_refusal(edition: Edition, buffer: &[u8], at: usize, k: u32) -> Refused {
    // SAFETY: as in `string`.
    unsafe { eventlog_string_refusal(edition.number(), buffer.as_ptr(), buffer.len(), at, k) }
}

#[inline]
pub(crate) fn next_string(edition: Edition, buffer: &[u8], run: Part, place: usize) -> NextString {
    // SAFETY: `buffer` is readable for its length; any run and place may be given.
    unsafe { eventlog_next_string(edition.number(), buffer.as_ptr(), buffer.len(), run, place) }
}

#[inline]
pub(crate) fn walk(edition: Edition, buffer: &[u8]) -> Walked {
    // SAFETY: `buffer` is readable for its length.
    unsafe { eventlog_walk(edition.number(), buffer.as_ptr(), buffer.len()) }
}

#[inline]
pub(crate) fn walk_back(edition: Edition, buffer: &[u8]) -> Walked {
    // SAFETY: `buffer` is readable for its length.
    unsafe { eventlog_walk_back(edition.number(), buffer.as_ptr(), buffer.len()) }
}

#[inline]
pub(crate) fn write(
    edition: Edition,
    record_number: u32,
    e: &Event<'_>,
    out: &mut [u8],
) -> Written {
    let fields = Fields {
        record_number,
        time_generated: e.time_generated,
        time_written: e.time_written,
        event_id: e.event_id,
        event_type: e.event_type,
        num_strings: e.num_strings,
        event_category: e.event_category,
        reserved_flags: e.reserved_flags,
    };
    let (source_name, computer_name) = (e.source_name.as_bytes(), e.computer_name.as_bytes());
    // SAFETY: the parts are readable for their lengths, `out` is writable for
    // its own and, as a `&mut`, overlaps none of them.
    unsafe {
        eventlog_write(
            edition.number(),
            fields,
            source_name.as_ptr(),
            source_name.len(),
            computer_name.as_ptr(),
            computer_name.len(),
            e.sid.as_ptr(),
            e.sid.len(),
            e.strings.as_ptr(),
            e.strings.len(),
            e.event_data.as_ptr(),
            e.event_data.len(),
            out.as_mut_ptr(),
            out.len(),
        )
    }
}

#[inline]
pub(crate) fn append(edition: Edition, log: &mut [u8], used: usize, e: &Event<'_>) -> Appended {
    let fields = Unnumbered {
        time_generated: e.time_generated,
        time_written: e.time_written,
        event_id: e.event_id,
        event_type: e.event_type,
        num_strings: e.num_strings,
        event_category: e.event_category,
        reserved_flags: e.reserved_flags,
    };
    let (source_name, computer_name) = (e.source_name.as_bytes(), e.computer_name.as_bytes());
    // SAFETY: as in `write`, with `log` for `out`; any `used` may be given.
    unsafe {
        eventlog_append(
            edition.number(),
            log.as_mut_ptr(),
            log.len(),
            used,
            fields,
            source_name.as_ptr(),
            source_name.len(),
            computer_name.as_ptr(),
            computer_name.len(),
            e.sid.as_ptr(),
            e.sid.len(),
            e.strings.as_ptr(),
            e.strings.len(),
            e.event_data.as_ptr(),
            e.event_data.len(),
        )
    }
}

#[inline]
pub(crate) fn fresh(types: u32) -> Handle {
    // SAFETY: takes any number.
    unsafe { eventlog_fresh(types) }
}

pub(crate) fn types_count(types: u32) -> u32 {
    // SAFETY: takes any number.
    unsafe { eventlog_types_count(types) }
}

#[inline]
pub(crate) fn read(
    edition: Edition,
    handle: Handle,
    log: &[u8],
    flags: u32,
    number: u32,
    size: usize,
    out: &mut [u8],
) -> Answer {
    // SAFETY: `log` is readable and `out` writable for its length; a `&mut`
    // does not overlap; any handle and numbers may be given.
    unsafe {
        eventlog_read(
            edition.number(),
            handle,
            log.as_ptr(),
            log.len(),
            flags,
            number,
            size,
            out.as_mut_ptr(),
            out.len(),
        )
    }
}

#[inline]
pub(crate) fn listing(edition: Edition, buffer: &[u8], out: &mut [u8]) -> Written {
    // SAFETY: `buffer` is readable and `out` writable for its length; a `&mut`
    // does not overlap.
    unsafe {
        eventlog_listing(
            edition.number(),
            buffer.as_ptr(),
            buffer.len(),
            out.as_mut_ptr(),
            out.len(),
        )
    }
}

pub(crate) fn card_blocks(bytes: usize) -> usize {
    // SAFETY: any number may be given.
    unsafe { eventlog_card_blocks(bytes) }
}

pub(crate) fn card_write(log: &[u8], out: &mut [u8]) -> Written {
    // SAFETY: as in `listing`.
    unsafe { eventlog_card_write(log.as_ptr(), log.len(), out.as_mut_ptr(), out.len()) }
}

pub(crate) fn card_read(image: &[u8], out: &mut [u8]) -> Written {
    // SAFETY: as in `listing`.
    unsafe { eventlog_card_read(image.as_ptr(), image.len(), out.as_mut_ptr(), out.len()) }
}

pub(crate) fn card_judge(image: &[u8], place: usize) -> u32 {
    // SAFETY: as in `step`.
    unsafe { eventlog_card_judge(image.as_ptr(), image.len(), place) }
}

pub(crate) fn windows_1252_to_utf16(bytes: &[u8], out: &mut [u8]) -> Written {
    let (len, room) = (bytes.len(), out.len());
    // SAFETY: as in `listing`.
    unsafe { eventlog_windows_1252_to_utf16(bytes.as_ptr(), len, out.as_mut_ptr(), room) }
}

pub(crate) fn windows_1252_from_utf16(units: &[u8], out: &mut [u8]) -> Written {
    let (len, room) = (units.len(), out.len());
    // SAFETY: as in `listing`.
    unsafe { eventlog_windows_1252_from_utf16(units.as_ptr(), len, out.as_mut_ptr(), room) }
}

#[cfg(test)]
mod tests {
    use super::*;
    use crate::Edition::{Ansi, Unicode};
    use crate::{Text, utf16};
    use std::vec;
    use std::vec::Vec;

    /// Sample T's number and event, with data that is not zero.
    const NUMBER: u32 = 8;
    const EVENT: Event<'static> = Event {
        time_generated: 0,
        time_written: 0,
        event_id: 0,
        event_type: 0,
        num_strings: 1,
        event_category: 0,
        reserved_flags: 0,
        source_name: utf16!("Scale"),
        computer_name: utf16!("T1"),
        sid: &[1, 1, 0, 0, 0, 0, 0, 0, 0, 0, 0, 0],
        strings: b"O\0K\0\0\0",
        event_data: &[1, 2, 3],
    };
    const LENGTH: usize = 104;
    /// The set of its type, that of all six, that of the other five, and a set
    /// of a bit that is no type's.
    const WANTED: u32 = 32;
    const ALL: u32 = 63;
    const OTHERS: u32 = ALL - WANTED;
    const HIGH: u32 = 1 << 31;

    #[inline]
    fn record() -> Vec<u8> {
        let mut record = vec![0; LENGTH];
        let written = Written {
            refusal: 0,
            length: LENGTH,
        };
        assert_eq!(write(Unicode, NUMBER, &EVENT, &mut record), written);
        record
    }

    fn changed(changes: &[(usize, u8)]) -> Vec<u8> {
        let mut record = record();
        for (at, byte) in changes {
            record[*at] = *byte;
        }
        record
    }

    /// Bytes with each refusal of the reader, the same from the front and from
    /// the rear, and its field, from the front and from the rear.
    fn refused_records() -> [(u32, [usize; 2], Vec<u8>); 13] {
        let no_zero_unit: Vec<(usize, u8)> = (56..LENGTH - 4).map(|at| (at, 1)).collect();
        [
            (1, [0, 0], vec![]),
            (2, [0, 0], changed(&[(0, 60), (LENGTH - 4, 60)])),
            (3, [0, 0], changed(&[(0, 200), (LENGTH - 4, 200)])),
            (4, [4, 4], changed(&[(4, 0)])),
            (5, [96, 0], changed(&[(0, 100)])),
            (6, [24, 24], changed(&[(24, 3)])),
            (7, [30, 30], changed(&[(31, 0x40)])),
            (8, [26, 26], changed(&[(27, 1)])),
            (9, [56, 56], changed(&no_zero_unit)),
            (10, [44, 44], changed(&[(44, 77)])),
            (11, [36, 36], changed(&[(36, 90)])),
            (12, [48, 48], changed(&[(52, 95)])),
            (13, [0, 0], changed(&[(48, 2)])),
        ]
    }

    static TOO_MUCH_DATA: [u8; 61_441] = [0; 61_441];
    static TOO_LONG_NAME: [u8; 262_140] = [1; 262_140];

    /// Events with each refusal of the writer but that of the output.
    fn refused_events() -> [(u32, Event<'static>); 8] {
        let with = |change: fn(&mut Event<'static>)| {
            let mut event = EVENT;
            change(&mut event);
            event
        };
        [
            (6, with(|e| e.event_type = 3)),
            (7, with(|e| e.reserved_flags = 1)),
            (8, with(|e| e.num_strings = 257)),
            (9, with(|e| e.computer_name = Text::new(b"T"))),
            (10, with(|e| e.sid = &[1])),
            (11, with(|e| e.strings = &[])),
            (12, with(|e| e.event_data = &TOO_MUCH_DATA)),
            (2, with(|e| e.source_name = Text::new(&TOO_LONG_NAME))),
        ]
    }

    /// Behind eight bytes, so that the place is not 0.
    fn behind_8(record: &[u8]) -> Vec<u8> {
        [&[0xEE; 8], record].concat()
    }

    #[test]
    fn steps_answer_the_place_asked_for() {
        let s = behind_8(&record());
        let end = 8 + LENGTH;
        for (stepped, at) in [
            (step(Unicode, &s, 8), 8),
            (step_back(Unicode, &s, end), end),
        ] {
            let Stepped { refusal, field, .. } = stepped;
            assert_eq!((refusal, field, stepped.at), (0, 0, at));
            let found = stepped.found;
            assert_eq!((found.start, found.length), (8, LENGTH));
        }
    }

    #[test]
    fn refused_steps_find_nothing() {
        for (number, [front, rear], record) in refused_records() {
            let s = behind_8(&record);
            let nothing = |field, at| Stepped {
                refusal: number,
                field,
                at,
                found: Record::default(),
            };
            assert_eq!(step(Unicode, &s, 8), nothing(front, 8));
            assert_eq!(step_back(Unicode, &s, s.len()), nothing(rear, s.len()));
            let refused = Refused {
                refusal: number,
                field: front,
            };
            assert_eq!(refusal(Unicode, &s, 8), refused);
            assert_eq!(string_refusal(Unicode, &s, 8, 0), refused);
            assert_eq!(string(Unicode, &s, 8, 0), Part::default());
        }
    }

    #[test]
    fn refused_strings_lie_nowhere() {
        let s = behind_8(&record());
        assert_eq!(string(Unicode, &s, 8, 0), Part { at: 96, len: 4 });
        for k in [1, 256, u32::MAX] {
            let none = Refused {
                refusal: 17,
                field: 0,
            };
            assert_eq!(string_refusal(Unicode, &s, 8, k), none);
            assert_eq!(string(Unicode, &s, 8, k), Part::default());
        }
    }

    #[test]
    fn refused_next_strings_lie_nowhere() {
        let s = behind_8(&record());
        let run = Part { at: 96, len: 6 };
        let found = NextString {
            refusal: 0,
            string: Part { at: 96, len: 4 },
            next: 102,
        };
        assert_eq!(next_string(Unicode, &s, run, 96), found);
        let nothing = |next| NextString {
            refusal: 17,
            string: Part::default(),
            next,
        };
        for place in [0, 95, 101, 102, 103, s.len(), usize::MAX] {
            assert_eq!(next_string(Unicode, &s, run, place), nothing(place));
        }
        for (at, len) in [(96, 5), (96, s.len() - 95), (96, usize::MAX), (96, 0)] {
            assert_eq!(next_string(Unicode, &s, Part { at, len }, 96), nothing(96));
        }
    }

    #[test]
    fn walks_answer_where_they_stopped() {
        let s = [record(), record()].concat();
        let walked = |count, refusal, field, at| Walked {
            count,
            refusal,
            field,
            at,
        };
        assert_eq!(walk(Unicode, &s), walked(2, 0, 0, s.len()));
        assert_eq!(walk_back(Unicode, &s), walked(2, 0, 0, 0));
        for (refusal, [front, rear], record) in refused_records().into_iter().skip(1) {
            let behind = [&s, &record[..]].concat();
            assert_eq!(walk(Unicode, &behind), walked(2, refusal, front, s.len()));
            let before = [&record[..], &s].concat();
            assert_eq!(
                walk_back(Unicode, &before),
                walked(2, refusal, rear, LENGTH)
            );
        }
    }

    #[test]
    fn refused_writes_have_no_length() {
        let refused = |refusal| Written { refusal, length: 0 };
        let mut out = [0xEE; 200];
        for (refusal, event) in refused_events() {
            assert_eq!(write(Unicode, NUMBER, &event, &mut out), refused(refusal));
        }
        assert_eq!(
            write(Unicode, NUMBER, &EVENT, &mut out[..LENGTH - 1]),
            refused(15)
        );
        let log = record();
        let text = listing(Unicode, &log, &mut [0; 200]).length;
        assert_eq!(listing(Unicode, &log, &mut out[..text - 1]), refused(15));
        assert_eq!(out, [0xEE; 200]);
    }

    #[test]
    fn refused_appends_have_the_old_length() {
        let mut log = [&record()[..], &[0xEE; LENGTH - 1]].concat();
        let old = log.clone();
        for (refusal, used) in [
            (1, LENGTH * 2),
            (1, usize::MAX),
            (14, 1),
            (14, LENGTH - 1),
            (14, LENGTH + 1),
            (15, LENGTH),
        ] {
            let field = 0;
            let refused = Appended {
                refusal,
                field,
                used,
            };
            assert_eq!(append(Unicode, &mut log, used, &EVENT), refused);
        }
        for (refusal, event) in refused_events() {
            for used in [0, LENGTH] {
                let refused = Appended {
                    refusal,
                    field: 0,
                    used,
                };
                assert_eq!(append(Unicode, &mut log, used, &event), refused);
            }
        }
        assert_eq!(log, old);
    }

    #[test]
    fn appends_behind_a_bad_record_have_its_field() {
        for (_, [_, field], record) in refused_records().into_iter().skip(1) {
            let used = record.len();
            let refused = Appended {
                refusal: 14,
                field,
                used,
            };
            assert_eq!(append(Unicode, &mut record.clone(), used, &EVENT), refused);
        }
    }

    #[test]
    fn refused_reads_read_nothing() {
        let whole = [record(), record()].concat();
        let broken = [record(), changed(&[(4, 0)])].concat();
        let of = |kind, types, boundary| Handle {
            kind,
            types,
            boundary,
        };
        let (fresh, boundary) = (fresh(ALL), |boundary| of(1, ALL, boundary));
        let end = whole.len();
        let mut out = [0xEE; 208];
        for (status, needed, log, handle, flags, number, size) in [
            (0xC000_000D, 0, &whole, boundary(LENGTH), 0, 0, LENGTH),
            (0xC000_000D, 0, &whole, fresh, 5, 0, end + 1),
            (0xC000_000D, 0, &whole, fresh, 6, 9, end),
            // A set with another bit; every member comes back.
            (0xC000_000D, 0, &whole, of(0, 64, 9), 5, 0, end),
            (0xC000_000D, 0, &whole, of(7, u32::MAX, end + 1), 9, 0, end),
            (0xC000_000D, 0, &whole, of(1, HIGH, 9), 6, NUMBER, end),
            (0xC000_0008, 0, &whole, boundary(end + 1), 5, 0, end),
            (0xC000_0011, 0, &whole, boundary(end), 5, 0, end),
            (0xC000_0011, 0, &whole, boundary(0), 9, 0, end),
            // The record's type is not wanted.
            (0xC000_0011, 0, &whole, of(7, OTHERS, LENGTH), 5, 0, end),
            (0xC000_0011, 0, &whole, of(0, 0, 9), 9, 0, end),
            (0xC000_0011, 0, &whole, of(0, 0, 9), 6, NUMBER, end),
            (0xC000_018E, 0, &broken, of(0, OTHERS, 0), 5, 0, 0),
            (0xC000_0023, LENGTH, &whole, of(7, WANTED, LENGTH), 5, 0, 0),
            (0xC000_0023, LENGTH, &whole, fresh, 5, 0, LENGTH - 1),
            (0xC000_0023, LENGTH, &whole, boundary(LENGTH), 9, 0, 0),
            (0xC000_018E, 0, &broken, boundary(LENGTH), 5, 0, end),
            (0xC000_018E, 0, &broken, fresh, 6, 9, end),
        ] {
            let refused = Answer {
                status,
                read: 0,
                needed,
                handle,
            };
            assert_eq!(
                read(Unicode, handle, log, flags, number, size, &mut out),
                refused
            );
        }
        assert_eq!(out, [0xEE; 208]);
    }

    #[test]
    fn a_read_needs_nothing() {
        for types in [ALL, WANTED, WANTED + 1] {
            let (log, mut out) = (record(), [0; LENGTH]);
            let read = read(Unicode, fresh(types), &log, 5, 0, LENGTH, &mut out);
            let handle = Handle {
                kind: 1,
                types,
                boundary: LENGTH,
            };
            let expected = Answer {
                status: 0,
                read: LENGTH,
                needed: 0,
                handle,
            };
            assert_eq!(read, expected);
        }
    }

    /// Sample T in ANSI, and what each call answers of it in the other edition.
    #[test]
    fn every_call_hands_the_edition_on() {
        let event = Event {
            source_name: Text::new(b"Scale"),
            computer_name: Text::new(b"T1"),
            strings: b"OK\0",
            ..EVENT
        };
        let (length, end) = (92, 2 * 92);
        let mut log = vec![0; end];
        let written = write(Ansi, NUMBER, &event, &mut log);
        assert_eq!((written.refusal, written.length), (0, length));
        assert_eq!(write(Unicode, NUMBER, &event, &mut [0; 200]).refusal, 9);
        assert_eq!(append(Unicode, &mut log, length, &event).refusal, 14);
        let appended = append(Ansi, &mut log, length, &event);
        assert_eq!((appended.refusal, appended.used), (0, end));

        let run = Part { at: 80, len: 3 };
        for (edition, number) in [(Ansi, 0), (Unicode, 12)] {
            assert_eq!(step(edition, &log, 0).refusal, number);
            assert_eq!(step_back(edition, &log, end).refusal, number);
            assert_eq!(refusal(edition, &log, length).refusal, number);
            assert_eq!(string_refusal(edition, &log, 0, 0).refusal, number);
            assert_eq!(walk(edition, &log).refusal, number);
            assert_eq!(walk_back(edition, &log).refusal, number);
            let none = if number == 0 { 0 } else { 17 };
            assert_eq!(next_string(edition, &log, run, run.at).refusal, none);
            let status = if number == 0 { 0 } else { 0xC000_018E };
            let answer = read(edition, fresh(ALL), &log, 5, 0, end, &mut vec![0; end]);
            assert_eq!(answer.status, status);
            // "records 2", or "refused 12".
            let mut text = [0; 200];
            assert_eq!(listing(edition, &log, &mut text).refusal, 0);
            assert_eq!(text[3], if number == 0 { b'o' } else { b'u' });
        }
        assert_eq!(string(Ansi, &log, 0, 0), Part { at: 80, len: 2 });
        assert_eq!(string(Unicode, &log, 0, 0), Part::default());
    }

    #[test]
    fn every_kind_but_0_is_a_boundary() {
        let of = |kind, boundary| Handle {
            kind,
            types: ALL,
            boundary,
        };
        assert_eq!(fresh(ALL), of(0, 0));
        for kind in [1, 2, 7, u32::MAX] {
            let past = of(kind, 1);
            let answer = read(Unicode, past, &[], 5, 0, 0, &mut []);
            assert_eq!((answer.status, answer.handle), (0xC000_0008, past));
            let answer = read(Unicode, of(kind, 0), &[], 5, 0, 0, &mut []);
            assert_eq!(answer.status, 0xC000_0011);
        }
        // A fresh handle's boundary is not looked at.
        let fresh = of(0, 9);
        let answer = read(Unicode, fresh, &[], 5, 0, 0, &mut []);
        assert_eq!((answer.status, answer.handle), (0xC000_0011, fresh));
    }

    #[test]
    fn a_fresh_handle_has_any_set() {
        for types in [0, 1, ALL, 64, u32::MAX] {
            let handle = Handle {
                kind: 0,
                types,
                boundary: 0,
            };
            assert_eq!(fresh(types), handle);
        }
        assert_eq!([0x3F, 0x21, 0x40, u32::MAX].map(types_count), [6, 2, 0, 6]);
    }
}
