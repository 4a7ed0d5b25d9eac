//! Names and strings of one record.

use std::hint::black_box;

use plain::Edition;

use super::Calls;
use crate::calls::versions;
use crate::inputs::{in_edition, Record, STRINGS};

/// How often a long name is walked over.
const WALKS: usize = 1000;

type OverRecord = fn(Edition, &[u8]) -> usize;
type Asker = fn(Edition, &[u8], u32) -> usize;

/// Many walks of one record with a name of 30,000 units.
pub fn long_names(calls: &mut Calls, records: &[Record]) {
    for Record { edition, bytes } in records {
        let works: [OverRecord; 3] = versions!(walk);
        let works = works.map(|work| move || sum(WALKS, |_| work(*edition, black_box(bytes))));
        let on = in_edition("1,000 walks", *edition);
        calls.row("a name of 30,000 units", &on, 1, works);
    }
}

/// All strings of a record of 64 KiB, after a step in turn, and each by its number.
pub fn all(calls: &mut Calls, records: &[Record]) {
    for Record { edition, bytes } in records {
        let works: [OverRecord; 3] = versions!(strings_in_turn);
        let works = works.map(|work| move || work(*edition, black_box(bytes)));
        let on = in_edition("a step, and then in turn", *edition);
        calls.row("256 strings", &on, 1, works);
    }
    for Record { edition, bytes } in records {
        let works: [Asker; 3] = versions!(string);
        let works =
            works.map(|work| move || sum(STRINGS, |k| work(*edition, black_box(bytes), k as u32)));
        let on = in_edition("by number", *edition);
        calls.row("256 strings", &on, 1, works);
    }
}

/// The first, a middle and the last one by itself.
pub fn single(calls: &mut Calls, records: &[Record]) {
    for Record { edition, bytes } in records {
        for k in [0, STRINGS / 2 - 1, STRINGS - 1] {
            let works: [Asker; 3] = versions!(string);
            let works = works.map(|work| move || work(*edition, black_box(bytes), k as u32));
            let on = in_edition(&k.to_string(), *edition);
            calls.row("string", &on, 1, works);
        }
    }
}

/// The sum of what so many calls answer.
fn sum(times: usize, call: impl Fn(usize) -> usize) -> usize {
    (0..times).map(call).sum()
}
