//! The limits of Rule 3.1, from both sides, and the order of the refusals.

mod common;

use common::*;
use plain::Edition::Unicode;
use plain::*;

/// An event whose record is 200,696 + 61,440 + 4 bytes long with 100,318 units
/// and all the data that there can be.
fn long<'a>(name: &'a [u8], data: &'a [u8]) -> Event<'a> {
    Event {
        source_name: name,
        event_data: data,
        ..Event::default()
    }
}

#[test]
fn longest_record() {
    let units = [b'a', 0].repeat(100_320);
    let data = vec![7; 61_440];

    let record = written(Unicode, &long(&units[..200_636], &data));
    assert_eq!(record.len(), 262_140);
    assert_eq!(judge(Unicode, &record, 0), Ok(262_140));
    assert_eq!(judge_back(Unicode, &record, 262_140), Ok(262_140));
    assert_eq!(slow(Unicode, &record, 0), Ok(262_140));
    assert_eq!(slow_back(Unicode, &record, 262_140), Ok(262_140));
    assert_eq!(event_data(Unicode, &record, 0), data);
    assert_eq!(source_name(Unicode, &record, 0), &units[..200_636]);

    let mut out = vec![0xAA; 270_000];
    for n in [200_638, 200_640] {
        assert_eq!(write(Unicode, &long(&units[..n], &data), &mut out), Err(2));
    }
    assert!(out.iter().all(|b| *b == 0xAA));

    // The same record with four more bytes, 262,144 in all.
    let mut longer = record.clone();
    longer.truncate(262_136);
    longer.extend([0; 4]);
    longer.extend(262_144u32.to_le_bytes());
    let longer = with32(&longer, 0, 262_144);
    assert_eq!(longer.len(), 262_144);
    assert_eq!(number(judge(Unicode, &longer, 0)), Err(2));
    assert_eq!(number(judge_back(Unicode, &longer, 262_144)), Err(2));
}

/// Every part is past what 16 bits count, but for the names' start.
#[test]
fn longest_record_of_every_part() {
    let source = [b's', 0].repeat(40_000);
    let computer = [b'c', 0].repeat(10_001);
    let sid = [&[1, 15][..], &[5; 66]].concat();
    let strings: Vec<Vec<u8>> = (0..256u16)
        .map(|k| {
            (k + 1)
                .to_le_bytes()
                .repeat(if k < 255 { 195 } else { 300 })
        })
        .collect();
    let run: Vec<u8> = strings
        .iter()
        .flat_map(|s| s.iter().copied().chain([0, 0]))
        .collect();
    let data = vec![0; 61_440];
    let event = Event {
        fields: Fields {
            record_number: 7,
            num_strings: 256,
            reserved_flags: XML_FLAG,
            ..Fields::default()
        },
        source_name: &source,
        computer_name: &computer,
        sid: &sid,
        strings: &run,
        event_data: &data,
    };
    let record = written(Unicode, &event);
    assert_eq!(record.len(), 262_140);
    let found = step(Unicode, &record, 0).unwrap();
    assert_eq!(step_back(Unicode, &record, 262_140), Ok(found));
    assert_eq!((found.start, found.length), (0, 262_140));
    assert_eq!((found.source_name, found.source_name_at), (&source[..], 56));
    let computer_at = 56 + 80_000 + 2;
    assert_eq!(
        (found.computer_name, found.computer_name_at),
        (&computer[..], computer_at)
    );
    assert_eq!((found.sid, found.sid_at), (&sid[..], 100_064));
    assert_eq!((found.strings, found.strings_at), (&run[..], 100_132));
    assert_eq!(
        (found.event_data, found.event_data_at),
        (&data[..], 200_694)
    );
    let mut place = found.strings_at;
    for (k, expected) in strings.iter().enumerate() {
        assert_eq!(string(Unicode, &record, 0, k as u32), expected);
        let next = next_string(Unicode, &record, (100_132, run.len()), place);
        assert_eq!(
            (next.refusal, next.at, next.len),
            (0, place, expected.len())
        );
        place = next.next;
    }
    assert_eq!(place, 200_694);
    assert_eq!(string_refusal(Unicode, &record, 0, 256).number, 17);

    // Behind S, as the log's next record, and served from both ends.
    let mut log = vec![0xAA; 64 + 262_140];
    log[..64].copy_from_slice(&S);
    assert_eq!(
        number(append(Unicode, &mut log[..64 + 262_139], 64, &event)),
        Err(15)
    );
    assert!(log[64..].iter().all(|b| *b == 0xAA));
    assert_eq!(append(Unicode, &mut log, 64, &event), Ok(64 + 262_140));
    assert_eq!(log[64..], with32(&record, 8, 8));
    let walked = |at| Walked {
        count: 2,
        refusal: 0,
        field: 0,
        at,
    };
    assert_eq!(walk(Unicode, &log), walked(64 + 262_140));
    assert_eq!(walk_back(Unicode, &log), walked(0));
    let mut out = vec![0xAA; 262_140];
    for (flags, at) in [(5, 64), (9, 64 + 262_140)] {
        let handle = Handle {
            place: Place::Boundary(at),
            types: Types::ALL,
        };
        let answer = handle.read(Unicode, &log, flags, 0, 262_139, &mut out);
        assert_eq!((answer.status, answer.needed), (0xC000_0023, 262_140));
        let answer = handle.read(Unicode, &log, flags, 0, 262_140, &mut out);
        assert_eq!((answer.status, answer.read), (0, 262_140));
        assert_eq!(out, log[64..]);
        out.fill(0xAA);
    }

    // One unit more in a name or a string fills a gap, two are too long.
    let source = [b's', 0].repeat(40_002);
    let run = [&[1; 4][..], &run].concat();
    let mut out = vec![0; 270_000];
    for (more, answer) in [(2, Ok(262_140)), (4, Err(2))] {
        let name = Event {
            source_name: &source[..80_000 + more],
            ..event
        };
        let string = Event {
            strings: &run[4 - more..],
            ..event
        };
        assert_eq!(write(Unicode, &name, &mut out), answer);
        assert_eq!(write(Unicode, &string, &mut out), answer);
    }
}

/// A record of this Length that keeps every rule but for its texts: `body`
/// stands from the names on, and then units that are not zero up to Length2.
fn running_on(length: usize, body: &[u8], strings: u16) -> Vec<u8> {
    let mut record = S.to_vec();
    record.truncate(56);
    record.extend(body);
    record.resize(length - 4, 1);
    record.extend((length as u32).to_le_bytes());
    let record = with16(&with32(&record, 0, length as u32), 26, strings);
    with32(&record, 36, 56 + body.len() as u32)
}

/// The first unit of Length2 is zero at these Lengths, and ends no text.
#[test]
fn texts_that_run_up_to_length2() {
    for length in [65_536, 131_072, 196_608] {
        let refused = |body: &[u8], strings: u16| {
            let record = running_on(length, body, strings);
            assert_eq!(record[length - 4..length - 2], [0, 0]);
            assert_eq!(record.len(), length);
            let why = judge(Unicode, &record, 0).unwrap_err();
            assert_eq!(slow(Unicode, &record, 0), Err(why));
            assert_eq!(judge_back(Unicode, &record, length), Err(why));
            assert_eq!(slow_back(Unicode, &record, length), Err(why));
            // In a log too, whose next bytes look like more of the record.
            let log = [&S[..], &record, &S].concat();
            let stopped = |at| Walked {
                count: 1,
                refusal: why.number,
                field: why.field,
                at,
            };
            assert_eq!(walk(Unicode, &log), stopped(64));
            assert_eq!(walk_back(Unicode, &log), stopped(64 + length));
            why.number
        };
        // Neither name ends; only the source name does; the names do.
        assert_eq!(refused(&[], 0), 9);
        assert_eq!(refused(&[0, 0], 0), 9);
        assert_eq!(refused(&[0; 4], 1), 11);
        // The first of two strings ends.
        let mut record = running_on(length, &[0; 4], 2);
        record[70..72].fill(0);
        assert_eq!(number(judge(Unicode, &record, 0)), Err(11));
        assert_eq!(number(judge_back(Unicode, &record, length)), Err(11));

        // With a zero unit right before Length2 each of them is good.
        for (body, strings, zeros) in [(&[][..], 0, 4), (&[0; 2][..], 0, 2), (&[0; 4][..], 1, 2)] {
            let mut record = running_on(length, body, strings);
            record[length - 4 - zeros..length - 4].fill(0);
            assert_eq!(judge(Unicode, &record, 0), Ok(length));
            assert_eq!(judge_back(Unicode, &record, length), Ok(length));
            assert_eq!(slow(Unicode, &record, 0), Ok(length));
            assert_eq!(slow_back(Unicode, &record, length), Ok(length));
        }
    }
}

#[test]
fn output_bounds() {
    for (event, bytes) in [(s_event(), &S[..]), (t_event(), &T[..])] {
        let mut out = [0xAA; 120];
        assert_eq!(write(Unicode, &event, &mut out[..bytes.len() - 1]), Err(15));
        assert_eq!(out, [0xAA; 120]);
        assert_eq!(
            write(Unicode, &event, &mut out[..bytes.len()]),
            Ok(bytes.len())
        );
        assert_eq!(&out[..bytes.len()], bytes);
        assert!(out[bytes.len()..].iter().all(|b| *b == 0xAA));
    }
}

#[test]
fn string_counts() {
    let run = [0; 2 * 257];
    let event = |count: u16| Event {
        fields: Fields {
            num_strings: count,
            ..Fields::default()
        },
        strings: &run[..2 * usize::from(count)],
        ..Event::default()
    };
    let most = written(Unicode, &event(256));
    assert_eq!(most.len(), 60 + 512 + 4);
    assert_eq!(judge(Unicode, &most, 0), Ok(576));
    assert_eq!(string_refusal(Unicode, &most, 0, 255).number, 0);
    assert_eq!(string_refusal(Unicode, &most, 0, 256).number, 17);
    assert_eq!(write(Unicode, &event(257), &mut [0; 1000]), Err(8));

    let more = with16(&most, 26, 257);
    let both = (
        number(judge(Unicode, &more, 0)),
        number(judge_back(Unicode, &more, 576)),
    );
    assert_eq!(both, (Err(8), Err(8)));
    // One fewer leaves two bytes that nothing accounts for; the gap takes them.
    let fewer = with16(&most, 26, 255);
    assert_eq!(judge(Unicode, &fewer, 0), Ok(576));
    let fewer = with16(&most, 26, 254);
    assert_eq!(number(judge(Unicode, &fewer, 0)), Err(13));
}

#[test]
fn data_lengths() {
    let data = vec![0; 61_441];
    assert_eq!(written(Unicode, &long(&[], &data[..61_440])).len(), 61_504);
    assert_eq!(
        write(Unicode, &long(&[], &data), &mut vec![0; 70_000]),
        Err(12)
    );

    // 61,441 bytes with everything else right: here the bound binds the reader.
    let mut record = written(Unicode, &long(&[], &data[..61_440]));
    record.truncate(60 + 61_440);
    record.extend([0; 4]);
    record.extend(61_508u32.to_le_bytes());
    let record = with32(&with32(&record, 0, 61_508), 48, 61_441);
    assert_eq!(number(judge(Unicode, &record, 0)), Err(12));
    assert_eq!(number(judge_back(Unicode, &record, 61_508)), Err(12));
}

fn with_sid(sid: &[u8]) -> Event<'_> {
    Event { sid, ..s_event() }
}

#[test]
fn sid_lengths() {
    for n in 0..=17u8 {
        let mut sid = vec![1, n];
        sid.resize(8 + 4 * usize::from(n), 0xFF);
        if n > 15 {
            assert_eq!(write(Unicode, &with_sid(&sid), &mut [0; 400]), Err(10));
            continue;
        }
        let record = written(Unicode, &with_sid(&sid));
        assert_eq!(plain::sid(Unicode, &record, 0), sid);
        for (at, value) in [(60, 0), (60, 2), (61, n + 1)] {
            let mut wrong = record.clone();
            wrong[at] = value;
            assert_eq!(number(judge(Unicode, &wrong, 0)), Err(10));
            assert_eq!(
                write(
                    Unicode,
                    &with_sid(&wrong[60..60 + sid.len()]),
                    &mut [0; 400]
                ),
                Err(10)
            );
        }
        let longer = [&sid[..], &[0]].concat();
        assert_eq!(write(Unicode, &with_sid(&longer), &mut [0; 400]), Err(10));
        assert_eq!(
            write(Unicode, &with_sid(&sid[..sid.len() - 1]), &mut [0; 400]),
            Err(10)
        );
    }
    for short in [&[1][..], &[1, 0], &[0; 8]] {
        assert_eq!(write(Unicode, &with_sid(short), &mut [0; 400]), Err(10));
    }
}

#[test]
fn sums_that_wrap() {
    // Offset plus length is a place inside the record only in 32 bits.
    for length in [u32::MAX, u32::MAX - 3, 0x8000_0000, 0xFFFF_FFB4] {
        assert_eq!(number(judge(Unicode, &with32(&T, 40, length), 0)), Err(10));
        assert_eq!(number(judge(Unicode, &with32(&T, 48, length), 0)), Err(12));
        let moved = with32(&with32(&T, 48, length), 52, 97u32.wrapping_sub(length));
        assert_eq!(number(judge(Unicode, &moved, 0)), Err(12));
    }
    assert_eq!(number(judge(Unicode, &T, usize::MAX)), Err(1));
    assert_eq!(number(judge_back(Unicode, &T, usize::MAX)), Err(1));
    assert_eq!(
        step(Unicode, &T, usize::MAX),
        Err(Refusal {
            number: 1,
            field: 0,
            at: usize::MAX
        })
    );
    assert_eq!(
        step_back(Unicode, &T, usize::MAX),
        Err(Refusal {
            number: 1,
            field: 0,
            at: usize::MAX
        })
    );
    assert_eq!(
        number(append(Unicode, &mut T.clone(), usize::MAX, &s_event())),
        Err(1)
    );
}

#[test]
fn places() {
    let log = s_t();
    for at in 0..=log.len() + 70 {
        assert_eq!(judge(Unicode, &log, at), slow(Unicode, &log, at), "at {at}");
        assert_eq!(
            judge_back(Unicode, &log, at),
            slow_back(Unicode, &log, at),
            "end {at}"
        );
    }
    assert_eq!(
        step(Unicode, &log, 105),
        Err(Refusal {
            number: 1,
            field: 0,
            at: 105
        })
    );
    assert_eq!(
        step_back(Unicode, &log, 169),
        Err(Refusal {
            number: 1,
            field: 0,
            at: 169
        })
    );
    assert_eq!(
        step_back(Unicode, &log, 63),
        Err(Refusal {
            number: 1,
            field: 0,
            at: 63
        })
    );
    assert_eq!(step_back(Unicode, &log, 100).unwrap_err().at, 100);
    assert_eq!(step(Unicode, &log, 64).unwrap().start, 64);
    assert_eq!(
        step_back(Unicode, &log, 168).unwrap(),
        step(Unicode, &log, 64).unwrap()
    );
    assert_eq!(
        step_back(Unicode, &log, 64).unwrap(),
        step(Unicode, &log, 0).unwrap()
    );
}

#[test]
fn reading_refuses_in_order() {
    // Each row breaks one more rule, from the last to the first.
    let mut bytes = T.to_vec();
    let mut expect = |at: usize, change: &[u8], number: u32| {
        bytes[at..at + change.len()].copy_from_slice(change);
        assert_eq!(
            judge(Unicode, &bytes, 0).map_err(|why| why.number),
            Err(number)
        );
    };
    expect(48, &[0], 13);
    expect(48, &[7], 12);
    expect(36, &[90], 11);
    expect(44, &[77], 10);
    expect(68, &[1; 32], 9);
    expect(26, &[1, 1], 8);
    expect(30, &[1], 7);
    expect(24, &[3], 6);
    expect(100, &[0], 5);
    expect(4, &[0], 4);
    expect(0, &[108], 3);
    expect(0, &[109], 2);
    assert_eq!(number(judge(Unicode, &bytes[..63], 0)), Err(1));
}

#[test]
fn reading_back_refuses_in_order() {
    let mut bytes = T.to_vec();
    let mut expect = |at: usize, change: &[u8], number: u32| {
        bytes[at..at + change.len()].copy_from_slice(change);
        assert_eq!(
            judge_back(Unicode, &bytes, 104).map_err(|why| why.number),
            Err(number)
        );
    };
    expect(52, &[95], 12);
    expect(24, &[3], 6);
    expect(0, &[100], 5);
    expect(4, &[0], 4);
    expect(100, &[108], 3);
    expect(100, &[109], 2);
    assert_eq!(number(judge_back(Unicode, &bytes, 63)), Err(1));
    assert_eq!(number(judge_back(Unicode, &bytes, 105)), Err(1));
}

#[test]
fn writing_refuses_in_order() {
    let zero_inside = [b'a', 0, 0, 0, b'b', 0];
    let big = [b'a', 0].repeat(110_000);
    let data = vec![0; 61_441];
    let mut event = Event {
        fields: Fields {
            event_type: 3,
            reserved_flags: 1,
            num_strings: 257,
            ..Fields::default()
        },
        source_name: &[1],
        computer_name: &zero_inside,
        sid: &[1],
        strings: &[0],
        event_data: &data,
    };
    let mut out = [0xAA; 100];
    let mut expect =
        |event: &Event, number| assert_eq!(write(Unicode, event, &mut out), Err(number));
    expect(&event, 6);
    event.fields.event_type = 0;
    expect(&event, 7);
    event.fields.reserved_flags = 0;
    expect(&event, 8);
    event.fields.num_strings = 0;
    expect(&event, 9);
    event.source_name = &big;
    expect(&event, 9);
    event.computer_name = &[];
    expect(&event, 10);
    event.sid = SID;
    expect(&event, 11);
    event.strings = &[];
    expect(&event, 12);
    event.event_data = &data[..61_440];
    expect(&event, 2);
    event.source_name = &[];
    expect(&event, 15);
    assert_eq!(out, [0xAA; 100]);
    event.event_data = &data[..4];
    assert_eq!(write(Unicode, &event, &mut out), Ok(80));
}

#[test]
fn names_and_runs_that_are_refused() {
    let mut out = [0xAA; 400];
    for name in [
        &[1][..],
        &[1, 0, 1],
        &[0, 0],
        &[1, 0, 0, 0],
        &[1, 2, 3, 4, 5, 6, 7, 8, 0, 0],
    ] {
        let source = Event {
            source_name: name,
            ..s_event()
        };
        let computer = Event {
            computer_name: name,
            ..s_event()
        };
        assert_eq!(write(Unicode, &source, &mut out), Err(9));
        assert_eq!(write(Unicode, &computer, &mut out), Err(9));
    }
    let runs: [(u16, &[u8]); 9] = [
        (0, &[0, 0]),
        (0, &[0]),
        (1, &[]),
        (1, &[1, 0]),
        (1, &[0, 0, 0]),
        (1, &[0, 0, 0, 0]),
        (1, &[0, 0, 1, 0]),
        (2, &[0, 0, 1, 0]),
        (2, &[0, 0]),
    ];
    for (count, run) in runs {
        let event = Event {
            fields: Fields {
                num_strings: count,
                ..Fields::default()
            },
            strings: run,
            ..Event::default()
        };
        assert_eq!(write(Unicode, &event, &mut out), Err(11), "{count} {run:?}");
    }
    assert_eq!(out, [0xAA; 400]);
    // A zero byte on each side of a unit's edge is no zero unit.
    let name = [1, 0, 0, 1, 1, 0, 0, 1, 1, 0, 0, 1];
    let record = written(
        Unicode,
        &Event {
            source_name: &name,
            ..s_event()
        },
    );
    assert_eq!(source_name(Unicode, &record, 0), name);
}

#[test]
fn read_sizes_and_flags() {
    let log = s_t();
    let mut out = vec![0xAA; 524_288];
    for flags in [5, 9] {
        let answer = Handle::fresh(Types::ALL).read(Unicode, &log, flags, 0, 524_287, &mut out);
        assert_eq!((answer.status, answer.read), (0, 168));
        out.fill(0xAA);
        let answer = Handle::fresh(Types::ALL).read(Unicode, &log, flags, 0, 524_288, &mut out);
        assert_eq!(
            (answer.status, answer.read, answer.needed),
            (0xC000_000D, 0, 0)
        );
        let answer = Handle::fresh(Types::ALL).read(Unicode, &log, flags, 0, 201, &mut out[..200]);
        assert_eq!(answer.status, 0xC000_000D);
        assert_eq!(answer.handle, Handle::fresh(Types::ALL));
        assert!(out.iter().all(|b| *b == 0xAA));
    }
    for bits in (0..64).chain([1 << 31 | 5, 0x100 | 9, u32::MAX]) {
        let right = [5, 6, 9, 10].contains(&bits);
        let answer = Handle::fresh(Types::ALL).read(Unicode, &log, bits, 7, 200, &mut out);
        assert_eq!(answer.status == 0, right, "flags {bits}");
        assert!(right || answer.status == 0xC000_000D);
    }
    // Wrong flags and sizes come before a wrong handle.
    let past = Handle {
        place: Place::Boundary(169),
        types: Types::ALL,
    };
    assert_eq!(
        past.read(Unicode, &log, 4, 0, 0, &mut []).status,
        0xC000_000D
    );
    assert_eq!(
        past.read(Unicode, &log, 5, 0, 1, &mut []).status,
        0xC000_000D
    );
    for flags in [5, 6, 9, 10] {
        let answer = past.read(Unicode, &log, flags, 7, 200, &mut out);
        assert_eq!((answer.status, answer.handle), (0xC000_0008, past));
    }
}
