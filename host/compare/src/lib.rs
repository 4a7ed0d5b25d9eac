//! The proved library (`eventlog`) compared with the plain one on made inputs, in
//! both editions.
//!
//! Work is cut into rounds of a family of inputs in an edition; each has its own
//! seed, so a difference names the round that shows it again.

pub mod ahead;
pub mod card;
pub mod check;
pub mod make;
pub mod random;
pub mod windows_1252;

use check::{Check, Handles, Request, Tally};
use make::{Made, Size, FIELDS};
use plain::{Edition, Types};
use random::Random;

/// A kind of inputs: its name and one round of it.
pub type Family = (&'static str, fn(&mut Random, &mut Check));

/// All kinds of inputs, those with short ones first.
pub const FAMILIES: [Family; 14] = [
    ("fields", fields),
    ("bytes", bytes),
    ("cuts", cuts),
    ("noise", noise),
    ("logs", logs),
    ("appends", appends),
    ("reads", reads),
    ("writes", writes),
    ("limits", limits),
    ("listings", listings),
    ("runs", runs),
    ("lengths", lengths),
    ("editions", editions),
    ("types", types),
];

/// The set of all types.
const ALL: u32 = Types::ALL.0;

/// One round of a family in an edition.
pub fn round(edition: Edition, family: usize, round: u64) -> Tally {
    let (name, run) = FAMILIES[family];
    let mut rng = Random::new((family as u64) << 56 ^ (edition as u64) << 52 ^ round);
    let mut check = Check::new(edition, format!("family {name}, round {round}"));
    run(&mut rng, &mut check);
    check.tally
}

fn some_size(rng: &mut Random) -> Size {
    match rng.below(12) {
        0 => Size::Medium,
        _ => Size::Small,
    }
}

/// Records of all sizes but the largest, with every single-field damage.
fn fields(rng: &mut Random, check: &mut Check) {
    for _ in 0..3 {
        let size = if rng.once_in(8) {
            Size::Medium
        } else {
            Size::Small
        };
        let good = make::record(check.edition, rng, size);
        check.buffer(&good);
        check.rewrite(&good);
        every_field(rng, check, &good);
    }
}

/// Every fixed field and Length2 of a record, set to boundary values.
fn every_field(rng: &mut Random, check: &mut Check, good: &[u8]) {
    // Bytes behind it, so that a longer Length still fits.
    let len = rng.pick(&[0, 4, 200]);
    let whole = [good, &rng.bytes(len)].concat();
    let length = good.len() as u32;
    let length2 = (good.len() - 4, 4);
    for (at, size) in FIELDS.into_iter().chain([length2]) {
        for value in make::boundary_values(make::get(good, at, size), length) {
            let mut changed = whole.clone();
            make::put(&mut changed, at, size, value);
            check.at(&changed, 0);
            check.step_back(&changed, good.len());
            if at == 0 {
                // Length and Length2 both, wherever that then lies.
                let length2 = (value as usize).saturating_sub(4);
                make::put(&mut changed, length2, 4, value);
                check.at(&changed, 0);
                check.step_back(&changed, value as usize);
            }
            if value % 16 == 3 {
                check.buffer(&changed[..good.len()]);
            }
        }
    }
}

/// Byte flips: every byte of small records, some of longer ones.
fn bytes(rng: &mut Random, check: &mut Check) {
    let good = make::record(check.edition, rng, Size::Small);
    for at in 0..good.len() {
        let old = good[at];
        let bit = 1 << rng.below(8);
        for value in [0, 0xFF, old ^ 1, old ^ bit, old.wrapping_add(1)] {
            let mut changed = good.clone();
            changed[at] = value;
            check.at(&changed, 0);
            check.step_back(&changed, changed.len());
        }
    }
    for _ in 0..300 {
        let size = some_size(rng);
        let mut changed = make::record(check.edition, rng, size);
        make::damage(rng, &mut changed);
        check.buffer(&changed);
    }
}

/// Truncations, more bytes, any places.
fn cuts(rng: &mut Random, check: &mut Check) {
    let good = match rng.once_in(3) {
        true => make::nested(check.edition, rng),
        false => make::record(check.edition, rng, Size::Small),
    };
    let before = rng.below(9);
    let mut whole = rng.bytes(before);
    whole.extend(&good);
    let behind = rng.below(9);
    whole.extend(rng.bytes(behind));
    for len in 0..=good.len() {
        check.buffer(&good[..len]);
        check.buffer(&good[len..]);
    }
    for at in 0..=whole.len() + 2 {
        check.at(&whole, at);
    }
    for at in [
        1 << 31,
        1 << 32,
        usize::MAX - 63,
        usize::MAX - 1,
        usize::MAX,
    ] {
        check.at(&whole, at);
        check.string(&whole, at, 0);
    }
    let longer = make::record(check.edition, rng, Size::Medium);
    for _ in 0..20 {
        let len = rng.below(longer.len() + 1);
        check.buffer(&longer[..len]);
        check.step_back(&longer, len);
    }
}

/// Several records, in order or broken, and records inside data.
fn logs(rng: &mut Random, check: &mut Check) {
    for i in 0..20 {
        let (count, size) = match i {
            0 if rng.once_in(4) => (rng.range(2, 9), Size::Large),
            _ => (rng.below(9), some_size(rng)),
        };
        let broken = rng.once_in(2);
        let (log, places) = make::log(check.edition, rng, count, size, broken);
        whole_log(rng, check, &log, &places);
    }
    let nested = make::nested(check.edition, rng);
    for at in 0..=nested.len() {
        check.at(&nested, at);
    }
}

/// A log as a batch, at its places and others, and a piece of it.
fn whole_log(rng: &mut Random, check: &mut Check, log: &[u8], places: &[usize]) {
    check.buffer(log);
    check.records(log);
    check.listing(log, rng.below(log.len() + 65));
    for &at in places {
        check.at(log, at);
        check.parts(log, at);
        for _ in 0..3 {
            let near = (at + rng.below(9)).saturating_sub(4);
            check.at(log, near);
        }
    }
    for _ in 0..10 {
        let at = rng.below(log.len() + 2);
        check.at(log, at);
    }
    let (from, to) = (rng.below(log.len() + 1), rng.below(log.len() + 1));
    check.buffer(&log[from.min(to)..from.max(to)]);
}

/// Records and logs that were made in the other edition, by themselves and beside
/// those of this one; and the other one's events, written and appended.
fn editions(rng: &mut Random, check: &mut Check) {
    let other = make::other(check.edition);
    for i in 0..30 {
        let size = some_size(rng);
        let record = make::record(other, rng, size);
        check.buffer(&record);
        let (count, broken) = (rng.below(4), rng.once_in(4));
        let (mut log, mut places) = make::log(other, rng, count, Size::Small, broken);
        if i % 3 == 0 {
            whole_log(rng, check, &log, &places);
            continue;
        }
        // Records of this edition before those, and behind them.
        let (before, mixed) = make::log(check.edition, rng, 2, Size::Small, false);
        let (behind, last) = make::log(check.edition, rng, 2, Size::Small, false);
        let len = before.len() + log.len();
        places = places.iter().map(|at| before.len() + at).collect();
        places.extend(mixed);
        places.extend(last.iter().map(|at| len + at));
        log = [before, log, behind].concat();
        whole_log(rng, check, &log, &places);
        let mut handles = Handles::fresh(any_types(rng));
        for _ in 0..8 {
            let flags = rng.pick(&check::FLAGS);
            let request = any_request(rng, &log, &places, flags);
            handles = check.read(handles, &log, request);
        }
        let event = Made {
            edition: check.edition,
            ..Made::good(other, rng, size)
        };
        let out = event.length() - rng.below(2);
        check.write(&event, out);
        let used = rng.pick(&places);
        check.append(&mut log, used, &event);
    }
}

/// Logs in which few records are wanted and others are long or damaged: from every
/// place between records, by seeks for each of them, and for every set.
fn types(rng: &mut Random, check: &mut Check) {
    for i in 0..4 {
        let wanted = rng.pick(&[1, 2, 4, 8, 16, 32, 33, 20]);
        let (log, places) = sparse_log(rng, check.edition, wanted);
        check.walks(&log);
        for &at in &places {
            let number = match at + 12 <= log.len() {
                true => make::get(&log, at + 8, 4),
                false => 0,
            };
            for flags in check::FLAGS {
                let span = rng.pick(&places);
                let size = any_size(rng, &log, span).min(plain::MAX_READ);
                for types in [wanted, wanted | rng.below(check::SETS) as u32] {
                    let request = Request {
                        flags,
                        number,
                        size,
                        out: size,
                    };
                    check.read(Handles::boundary(at, types), &log, request);
                }
            }
        }
        let sets = match i {
            0 => 0..check::SETS as u32 + 2,
            _ => wanted..wanted + 1,
        };
        for types in sets {
            for flags in [5, 9] {
                whole_series(rng, check, &log, types, flags);
            }
        }
    }
}

/// A log with few records of the wanted types, in half of the cases with one that
/// is damaged; and the places between them.
fn sparse_log(rng: &mut Random, edition: Edition, wanted: u32) -> (Vec<u8>, Vec<usize>) {
    let (mut log, mut places) = (Vec::new(), vec![0]);
    for _ in 0..rng.range(1, 4) {
        let size = rng.pick(&[Size::Small, Size::Small, Size::Medium]);
        let count = rng.below(4);
        let (more, ends) = make::log(edition, rng, count, size, false);
        places.extend(ends[1..].iter().map(|end| log.len() + end));
        log.extend(more);
    }
    let starts = &places[..places.len() - 1];
    for start in starts {
        let held = rng.once_in(4);
        let types = make::TYPES.into_iter();
        let types = types.filter(|t| Types(wanted).contains(*t) == held);
        let event_type = rng.pick(&types.collect::<Vec<_>>());
        make::put(&mut log, start + 24, 2, event_type.into());
    }
    if !starts.is_empty() && rng.once_in(2) {
        let start = rng.pick(starts);
        let length = make::get(&log, start, 4);
        let length2 = (length as usize - 4, 4);
        let (at, size) = rng.pick(&[&FIELDS[..], &[length2]].concat());
        let old = make::get(&log, start + at, size);
        let value = rng.pick(&make::boundary_values(old, length));
        make::put(&mut log, start + at, size, value);
    }
    (log, places)
}

/// Reads one way from a fresh handle on, until one that asks for much is refused.
fn whole_series(rng: &mut Random, check: &mut Check, log: &[u8], types: u32, flags: u32) {
    let mut handles = Handles::fresh(types);
    for _ in 0..40 {
        let size = rng.pick(&[64, 200, 400, 1000, log.len().min(plain::MAX_READ)]);
        let request = Request {
            flags,
            number: 0,
            size,
            out: size,
        };
        let before = handles.plain;
        handles = check.read(handles, log, request);
        if handles.plain == before && size >= log.len().min(1000) {
            break;
        }
    }
}

/// Plausible heads over bodies with many zero units, and mere bytes.
fn noise(rng: &mut Random, check: &mut Check) {
    for _ in 0..1500 {
        let mut made = make::noise(check.edition, rng);
        if rng.once_in(8) {
            make::damage(rng, &mut made);
        }
        check.at(&made, 0);
        check.step_back(&made, made.len());
        if rng.once_in(8) {
            check.buffer(&made);
        }
    }
    for _ in 0..100 {
        let len = rng.below(200);
        let made = rng.bytes(len);
        check.buffer(&made);
    }
}

/// Large records, and small changes of them.
fn limits(rng: &mut Random, check: &mut Check) {
    for _ in 0..4 {
        let mut made = Made::good(check.edition, rng, Size::Large);
        check.buffer(&made.encode(Some(rng)));
        let out = made.length() - rng.below(2);
        check.write(&made, out);
        if rng.once_in(8) {
            // One step too long, for the reader and the writer.
            made.fit(rng, make::TOO_LONG);
            check.buffer(&made.encode(Some(rng)));
            check.write(&made, make::TOO_LONG);
        }
        if rng.once_in(8) {
            let longest = make::longest_without_gap(check.edition, rng);
            check.buffer(&longest);
            check.rewrite(&longest);
        }
        let good = make::record(check.edition, rng, Size::Large);
        check.rewrite(&good);
        check.buffer(&good);
        if rng.once_in(200) {
            every_field(rng, check, &good);
        }
        for _ in 0..8 {
            changed_large(rng, check, &good);
        }
    }
}

/// A record whose Length is an edge, or one step too long, by itself and between
/// others; and a text that runs up to such a Length2, or to any.
fn lengths(rng: &mut Random, check: &mut Check) {
    let length = rng.pick(&[&make::EDGES[..], &[make::TOO_LONG]].concat());
    let mut made = Made::good(check.edition, rng, Size::Small);
    if length < 65_000 {
        made = Made::new(check.edition);
    }
    if length < 65_000 || length > 130_000 && rng.once_in(2) {
        made.data = rng.bytes(make::MAX_DATA);
    }
    made.fit(rng, length);
    check.write(&made, length);
    between(rng, check, &made);

    let any = 4 * rng.range(100, 2000);
    for length in [rng.pick(&[65_536, 131_072, 196_608, any]), any] {
        let (mut record, refusal) = make::unended(check.edition, rng, length);
        let (before, _) = make::log(check.edition, rng, 2, Size::Small, false);
        let (after, _) = make::log(check.edition, rng, 2, Size::Small, false);
        let log = [&before[..], &record, &after].concat();
        let start = before.len();
        check.unended(&log, start..start + length, refusal);
        // Its last unit zero: the text ends, and what comes after it decides.
        let last = length - 4 - make::width(check.edition);
        record[last..length - 4].fill(0);
        check.at(&record, 0);
        check.step_back(&record, length);
    }
}

/// An event's record by itself and in a log between others: judged, read and
/// appended.
fn between(rng: &mut Random, check: &mut Check, made: &Made) {
    let record = made.encode(Some(rng));
    check.buffer(&record);
    let (before, _) = make::log(check.edition, rng, 2, Size::Small, false);
    let (after, _) = make::log(check.edition, rng, 2, Size::Small, false);
    let log = [&before[..], &record, &after].concat();
    let (start, end) = (before.len(), before.len() + record.len());
    check.at(&log, start);
    check.at(&log, end);
    check.walks(&log);
    for size in [record.len(), record.len() - 1, plain::MAX_READ] {
        for (at, flags) in [(start, 5), (end, 9)] {
            let request = Request {
                flags,
                number: 0,
                size,
                out: size,
            };
            check.read(Handles::boundary(at, ALL), &log, request);
            check.read(Handles::boundary(at, any_types(rng)), &log, request);
        }
    }
    let mut log = [before, rng.bytes(record.len())].concat();
    check.append(&mut log, start, made);
}

fn changed_large(rng: &mut Random, check: &mut Check, good: &[u8]) {
    let mut changed = good.to_vec();
    match rng.below(4) {
        0 | 1 => {
            let length2 = (good.len() - 4, 4);
            let (at, size) = rng.pick(&[&FIELDS[..], &[length2]].concat());
            let old = make::get(good, at, size);
            let value = rng.pick(&make::boundary_values(old, good.len() as u32));
            make::put(&mut changed, at, size, value);
        }
        2 => make::damage(rng, &mut changed),
        _ => {
            let len = rng.below(changed.len());
            changed.truncate(len);
        }
    }
    check.step(&changed, 0);
    check.step_back(&changed, changed.len());
    check.walks(&changed);
    let k = rng.below(300) as u32;
    check.string(&changed, 0, k);
}

/// Any event, into an output of any size.
fn writes(rng: &mut Random, check: &mut Check) {
    for i in 0..400 {
        let size = match i {
            0 => Size::Large,
            _ => some_size(rng),
        };
        let event = match rng.once_in(3) {
            true => Made::good(check.edition, rng, size),
            false => Made::bad(check.edition, rng, size),
        };
        let length = event.length();
        let out = match rng.below(8) {
            0 => rng.pick(&[0, 1, 56, 63, 64, 65]),
            1 => length - 1,
            2 => length + 1,
            3 => rng.below(length),
            4 => length + rng.below(100),
            _ => length,
        };
        check.write(&event, out);
    }
}

/// Appends behind any used length, to good and broken logs.
fn appends(rng: &mut Random, check: &mut Check) {
    for _ in 0..100 {
        let count = rng.below(4);
        let broken = rng.once_in(4);
        let (mut log, places) = make::log(check.edition, rng, count, Size::Small, broken);
        if let (Some(last), true) = (places.iter().rev().nth(1), rng.once_in(4)) {
            make::put(&mut log, last + 8, 4, u32::MAX);
        }
        let end = log.len();
        let room = rng.below(700);
        log.extend(rng.bytes(room));
        let used = match rng.below(10) {
            0 => 0,
            1 => rng.below(log.len() + 1),
            2 => rng.pick(&[log.len(), log.len() + 1, usize::MAX, usize::MAX - 63]),
            3 => rng.pick(&places),
            4 => (end + rng.below(9)).saturating_sub(4),
            _ => end,
        };
        some_appends(rng, check, log, used);
    }
    large_appends(rng, check);
}

/// A few appends, one after another.
fn some_appends(rng: &mut Random, check: &mut Check, mut log: Vec<u8>, mut used: usize) {
    for i in 0..5 {
        let size = if i == 4 { some_size(rng) } else { Size::Small };
        let event = match rng.once_in(4) {
            true => Made::bad(check.edition, rng, size),
            false => Made::good(check.edition, rng, size),
        };
        if rng.once_in(8) {
            // Exactly as much room as it takes, or one byte less.
            let len = used.saturating_add(event.length()) - rng.below(2);
            log.resize(len.min(log.len() + 2000), 0);
        }
        if let Some(now) = check.append(&mut log, used, &event) {
            used = now;
        }
    }
    if used <= log.len() {
        check.walks(&log[..used]);
        check.step_back(&log, used);
    }
}

/// Appends of a large record: room to spare, exactly enough, one byte less.
fn large_appends(rng: &mut Random, check: &mut Check) {
    let size = rng.pick(&[Size::Small, Size::Large]);
    let count = rng.below(4);
    let (log, _) = make::log(check.edition, rng, count, size, false);
    let used = log.len();
    let event = Made::good(check.edition, rng, Size::Large);
    let length = event.length();
    for room in [length + rng.range(1, 99), length, length - 1] {
        let mut log = [&log[..], &rng.bytes(room)].concat();
        if let Some(now) = check.append(&mut log, used, &event) {
            check.walks(&log[..now]);
            check.at(&log, used);
            check.step_back(&log, now);
        }
    }
}

/// Every place of every run in a few bytes, most of them zero.
fn runs(rng: &mut Random, check: &mut Check) {
    for _ in 0..6 {
        let len = rng.below(13);
        let s: Vec<u8> = (0..len).map(|_| rng.below(3) as u8 / 2).collect();
        for at in 0..=len + 1 {
            for run in 0..=len + 2 - at {
                for place in 0..=len + 2 {
                    check.next_string(&s, (at, run), place);
                }
            }
        }
    }
    let s = make::record(check.edition, rng, Size::Medium);
    let (from, to) = (rng.below(s.len() + 1), rng.below(s.len() + 1));
    check.runs(&s, (from.min(to), from.abs_diff(to)));
}

/// Lists of reads over a log, one handle after the other.
fn reads(rng: &mut Random, check: &mut Check) {
    for i in 0..30 {
        let broken = rng.once_in(3);
        let (count, size) = match i {
            0 if rng.once_in(6) => (rng.range(9, 14), Size::Large),
            1 => (rng.below(12), Size::Medium),
            _ => (rng.below(14), Size::Small),
        };
        let (log, places) = make::log(check.edition, rng, count, size, broken);
        check.walks(&log);
        let mut handles = Handles::fresh(any_types(rng));
        let mut flags = rng.pick(&check::FLAGS);
        let list = match size {
            Size::Large => 12,
            _ => rng.pick(&[1, 5, 40, 40, 150]),
        };
        for _ in 0..list {
            if rng.once_in(12) {
                handles = any_handles(rng, &log, &places);
            }
            // Mostly on in the same way; sometimes a turn or a seek.
            match rng.below(10) {
                0 => flags = rng.pick(&check::FLAGS),
                1 => flags = (12 - (flags & 12)) | 1,
                2 => flags = (flags & 12) | 1,
                _ => {}
            }
            let request = any_request(rng, &log, &places, flags);
            handles = check.read(handles, &log, request);
        }
    }
    if rng.once_in(5) {
        long_reads(rng, check);
    }
}

/// Reads of about the largest size, of records that fill it exactly and stand
/// between others.
fn long_reads(rng: &mut Random, check: &mut Check) {
    let (before, _) = make::log(check.edition, rng, 3, Size::Small, false);
    let block = make::records_of(check.edition, rng, check::LARGEST_READ);
    let (after, _) = make::log(check.edition, rng, 3, Size::Medium, false);
    let log = [&before[..], &block, &after].concat();
    let (start, end) = (before.len(), before.len() + block.len());
    let first = make::get(&log, start + 8, 4);
    let most = plain::MAX_READ;
    for size in [most, most - 1, block.len(), block.len() - 1, most + 1] {
        let out = size + rng.below(3);
        for (handles, flags) in [
            (Handles::boundary(start, ALL), 5),
            (Handles::boundary(end, ALL), 9),
            (Handles::fresh(ALL), rng.pick(&check::FLAGS)),
            (Handles::fresh(any_types(rng)), rng.pick(&check::FLAGS)),
        ] {
            let request = Request {
                flags,
                number: first,
                size,
                out,
            };
            check.read(handles, &log, request);
        }
    }
}

/// Batches around the listing program's limit, short ones and none, listed by
/// the call and by the built program.
fn listings(rng: &mut Random, check: &mut Check) {
    let length = match rng.below(8) {
        0 => FULL_BATCH,
        1 => FULL_BATCH + 4 * rng.range(1, 500),
        _ => FULL_BATCH - 4 * rng.below(130),
    };
    let mut batch = match rng.once_in(8) {
        true => {
            // One record that fills the program's input.
            let mut made = Made::good(check.edition, rng, Size::Small);
            made.fit(rng, FULL_BATCH);
            made.encode(Some(rng))
        }
        false => make::records_of(check.edition, rng, length),
    };
    listed(rng, check, &batch);
    damage_record(check.edition, rng, &mut batch);
    listed(rng, check, &batch);
    let extra = rng.below(3);
    batch.extend(rng.bytes(extra));
    listed(rng, check, &batch);
    let (count, broken) = (rng.below(5), rng.once_in(2));
    let (mut log, _) = make::log(check.edition, rng, count, Size::Small, broken);
    if rng.once_in(2) {
        damage_record(check.edition, rng, &mut log);
    }
    listed(rng, check, &log);
}

/// What the listing program takes at most.
const FULL_BATCH: usize = plain::MAX_LISTED;

fn listed(rng: &mut Random, check: &mut Check, batch: &[u8]) {
    check.listing(batch, batch.len() + 64);
    check.listing(batch, batch.len() + 63);
    if check.edition == Edition::Unicode {
        let piece = rng.below(batch.len() + 1);
        check.program(batch, piece);
    }
}

/// Changes a field of one of the records, or any bytes.
fn damage_record(edition: Edition, rng: &mut Random, batch: &mut Vec<u8>) {
    let places = make::starts(edition, batch);
    if places.is_empty() || rng.once_in(4) {
        return make::damage(rng, batch);
    }
    let start = rng.pick(&places);
    let length = make::get(batch, start, 4);
    match rng.below(8) {
        // No zero unit from the names on.
        0 => return batch[start + 56..start + length as usize - 4].fill(1),
        // The data is absent, but there is room for it.
        1 => return make::put(batch, start + 48, 4, 0),
        _ => {}
    }
    let (at, size) = rng.pick(&FIELDS);
    let old = make::get(batch, start + at, size);
    let value = rng.pick(&make::boundary_values(old, length));
    make::put(batch, start + at, size, value);
}

/// A set of types: mostly all of them, sometimes with another bit.
fn any_types(rng: &mut Random) -> u32 {
    match rng.below(16) {
        0..10 => ALL,
        10..14 => rng.below(check::SETS) as u32,
        14 => 1 << rng.below(32),
        _ => rng.below(check::SETS) as u32 | 1 << rng.range(6, 31),
    }
}

fn any_handles(rng: &mut Random, log: &[u8], places: &[usize]) -> Handles {
    let types = any_types(rng);
    match rng.below(4) {
        0 => Handles::fresh(types),
        1 => Handles::boundary(rng.below(log.len() + 3), types),
        2 => Handles::boundary(rng.pick(places), types),
        _ => {
            let far = rng.pick(&[log.len(), log.len() + 1, usize::MAX, 1 << 32]);
            Handles::boundary(far, types)
        }
    }
}

/// A request, mostly with these flags, often for the bytes between two places.
fn any_request(rng: &mut Random, log: &[u8], places: &[usize], flags: u32) -> Request {
    let flags = match rng.below(16) {
        0 => rng.below(33) as u32,
        1 => flags | 1 << rng.below(32),
        _ => flags,
    };
    let (from, to) = (rng.pick(places), rng.pick(places));
    let size = any_size(rng, log, from.abs_diff(to));
    let out = match rng.below(12) {
        _ if size > 1_000_000 => rng.below(300),
        0 => size.saturating_sub(1),
        1 => rng.below(size + 1),
        2 | 3 => size + rng.below(100),
        _ => size,
    };
    let number = match rng.below(4) {
        0 => rng.bits() as u32,
        1 => rng.below(6) as u32,
        _ if from + 12 <= log.len() => make::get(log, from + 8, 4),
        _ => 0,
    };
    Request {
        flags,
        number,
        size,
        out,
    }
}

fn any_size(rng: &mut Random, log: &[u8], span: usize) -> usize {
    match rng.below(12) {
        0 => 0,
        1 => span.saturating_sub(1),
        2 => span + 1,
        3 => rng.below(log.len() + 1),
        4 => log.len(),
        5 => rng.pick(&[63, 64, 65, 100, 65_532, make::MAX_LENGTH]),
        6 if rng.once_in(8) => rng.pick(&[524_286, 524_287, 524_288, 600_000]),
        7 if rng.once_in(4) => rng.pick(&[usize::MAX, 1 << 32, 1 << 31]),
        8 => rng.range(64, 400),
        _ => span,
    }
}
