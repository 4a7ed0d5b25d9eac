//! The search for the zero unit: texts of every length up to some blocks of the
//! proved search, a zero unit at every place of them, few and many bytes behind
//! them, and all of it at even and at odd places of the buffer, in both editions.

use std::ops::Range;

use compare::check::Check;
use compare::make::{text, width, zero, Made};
use compare::random::Random;
use plain::Edition;

/// The proved search passes blocks of 4 units in a name and of 8 in strings, and
/// blocks of 64 after 32 units: two blocks of each, and some units more.
const UNITS: usize = 32 + 2 * 64 + 2 * 8 + 3;

/// Bytes behind a text: none, fewer than a block of each size has, and more.
const BEHIND: [usize; 6] = [0, 3, 7, 15, 120, 300];

/// Where a record starts in its buffer.
const STARTS: [usize; 2] = [0, 1];

/// A source name, a computer name, the first and the last string.
const TEXTS: usize = 4;

/// In each edition.
fn in_both(what: &str, run: fn(Edition, &mut Random, &mut Check)) {
    for edition in [Edition::Unicode, Edition::Ansi] {
        let mut check = Check::new(edition, what.into());
        run(edition, &mut Random::new(5), &mut check);
    }
}

/// An event with one long text, and where that lies in its record.
fn event(
    edition: Edition,
    rng: &mut Random,
    which: usize,
    units: usize,
    behind: usize,
) -> (Made, Range<usize>) {
    let mut texts = [2, 3, 1, 3].map(|units| text(edition, rng, units));
    texts[which] = text(edition, rng, units);
    let len = texts[which].len();
    // Short names take seven units; the strings start at a multiple of 4.
    let width = width(edition);
    let strings = (56 + 7 * width).next_multiple_of(4);
    let at = [56, 56 + 3 * width, strings, strings + 2 * width][which];
    let [source, computer, first, last] = texts;
    let zero = zero(edition);
    let mut made = Made {
        source,
        computer,
        strings: [&first[..], zero, &last, zero].concat(),
        data: vec![0xEE; behind],
        ..Made::new(edition)
    };
    made.fields.num_strings = 2;
    (made, at..at + len)
}

/// The record in a buffer, with bytes before and behind it.
fn placed(made: &Made, start: usize) -> (Vec<u8>, usize) {
    let record = made.encode(None);
    let end = start + record.len();
    let buffer = [&vec![0xEE; start][..], &record, &[0xEE; 9]].concat();
    (buffer, end)
}

#[test]
fn texts_of_every_length() {
    in_both("texts of every length", |edition, rng, check| {
        for units in 0..=UNITS {
            for behind in BEHIND {
                for which in 0..TEXTS {
                    let (made, long) = event(edition, rng, which, units, behind);
                    check.write(&made, made.length());
                    for start in STARTS {
                        let (buffer, end) = placed(&made, start);
                        assert!(buffer[start + long.end..].starts_with(zero(edition)));
                        assert_eq!(check.step(&buffer, start), Some(2));
                        check.step_back(&buffer, end);
                        for k in 0..2 {
                            check.string(&buffer, start, k);
                        }
                    }
                }
            }
        }
    });
}

#[test]
fn zero_bytes_at_every_place() {
    in_both("zero bytes at every place", |edition, rng, check| {
        for which in 0..TEXTS {
            for (behind, start) in [(0, 0), (15, 1), (120, 0), (300, 1)] {
                let (made, long) = event(edition, rng, which, UNITS, behind);
                let (buffer, end) = placed(&made, start);
                // In Unicode at even places a zero unit, at odd ones the halves of two units.
                for place in long.start..long.end - 1 {
                    let mut changed = buffer.clone();
                    if edition == Edition::Ansi {
                        changed[start + place] = 0;
                        check.at(&changed, start);
                        check.step_back(&changed, end);
                    }
                    changed[start + place..][..2].fill(0);
                    check.at(&changed, start);
                    check.step_back(&changed, end);
                    // The unit before it and the one behind it are zero too.
                    changed[start + place - 2..][..6].fill(0);
                    check.at(&changed, start);
                }
            }
        }
    });
}

#[test]
fn events_with_a_zero_unit_at_every_place() {
    in_both("events with a zero unit", |edition, rng, check| {
        let width = width(edition);
        for which in 0..TEXTS {
            let (made, _) = event(edition, rng, which, UNITS, 3);
            for unit in 0..UNITS {
                let mut changed = made.clone();
                let (part, from) = match which {
                    0 => (&mut changed.source, 0),
                    1 => (&mut changed.computer, 0),
                    2 => (&mut changed.strings, 0),
                    _ => (&mut changed.strings, 2 * width),
                };
                part[from + width * unit..][..width].fill(0);
                check.write(&changed, made.length());
            }
        }
    });
}

#[test]
fn strings_of_a_run_at_every_place() {
    in_both("strings of a run", |edition, rng, check| {
        let width = width(edition);
        for start in STARTS {
            for len in 0..=width * UNITS {
                let mut s = text(edition, rng, UNITS + 4);
                for place in 0..len {
                    let at = start + place;
                    let kept = s[at..at + width].to_vec();
                    s[at..at + width].fill(0);
                    for from in [start, start + 1, at, at + width] {
                        check.next_string(&s, (start, len), from);
                    }
                    s[at..at + width].copy_from_slice(&kept);
                }
                check.next_string(&s, (start, len), start);
            }
        }
    });
}
