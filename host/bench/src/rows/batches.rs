//! Walks, steps, reads and listings of batches.

use std::hint::black_box;

use compare::make::{get, starts};
use plain::{flags, Edition, Types, MAX_LISTED, MAX_READ};

use super::{output_row, Calls};
use crate::calls::{versions, Output, Reads};
use crate::inputs::{Batch, ONE_TYPE};

/// What a read asks for, where a record fits.
pub const READ: usize = 64 << 10;

pub const FORWARDS: u32 = flags::SEQUENTIAL | flags::FORWARDS;
const BACKWARDS: u32 = flags::SEQUENTIAL | flags::BACKWARDS;

pub type OverLog = fn(Edition, &[u8]) -> usize;
type Reader = fn(Edition, &[u8], Reads, &mut [u8]) -> usize;
type Seeker = fn(Edition, &[u8], u32, &mut [u8]) -> usize;
type Lister = fn(Edition, &[&[u8]], &mut [u8]) -> usize;

/// Walks in both directions, and reads in both: of all types, and of one.
pub fn walks_and_reads(calls: &mut Calls, batches: &[Batch]) {
    for batch in batches {
        over_log(calls, "walk", batch, 1, versions!(walk));
    }
    for batch in batches {
        over_log(calls, "walk back", batch, 1, versions!(walk_back));
    }
    let (all, one) = (Types::ALL.0, u32::from(ONE_TYPE));
    for (kind, flags, types) in [
        ("read forwards", FORWARDS, all),
        ("read backwards", BACKWARDS, all),
        ("read forwards, one type of six", FORWARDS, one),
        ("read backwards, one type of six", BACKWARDS, one),
    ] {
        for batch in batches {
            let size = match longest(batch) {
                ..=READ => READ,
                _ => MAX_READ,
            };
            reads(calls, kind, batch, 1, Reads { flags, types, size });
        }
    }
}

/// One record after the other: steps, reads that have room for one, and a seek to
/// the last one.
pub fn one_by_one<'a>(calls: &mut Calls, batches: impl Iterator<Item = &'a Batch> + Clone) {
    for batch in batches.clone() {
        over_log(calls, "step", batch, 1, versions!(steps));
    }
    for batch in batches.clone() {
        let one = Reads {
            flags: FORWARDS,
            types: Types::ALL.0,
            size: longest(batch),
        };
        reads(calls, "read forwards, one record at a time", batch, 1, one);
    }
    for batch in batches.clone() {
        seek(calls, batch);
    }
}

/// A call that goes over the whole log.
pub fn over_log(
    calls: &mut Calls,
    kind: &'static str,
    batch: &Batch,
    parts: usize,
    works: [OverLog; 3],
) {
    let (edition, log) = (batch.edition, &batch.log[..]);
    let works = works.map(|work| move || work(edition, black_box(log)));
    calls.row(kind, &batch.name, parts, works);
}

/// Reads of the whole log.
pub fn reads(calls: &mut Calls, kind: &'static str, batch: &Batch, parts: usize, reads: Reads) {
    let (edition, log) = (batch.edition, &batch.log[..]);
    let works: [Reader; 3] = versions!(reads);
    let works = works
        .map(|work| -> Output { Box::new(move |out| work(edition, black_box(log), reads, out)) });
    output_row(calls, (kind, &batch.name), parts, reads.size, works);
}

/// A read of the last record alone.
fn seek(calls: &mut Calls, batch: &Batch) {
    let (edition, log) = (batch.edition, &batch.log[..]);
    let last = starts(edition, log).pop().unwrap_or(0);
    let number = get(log, last + 8, 4);
    let works: [Seeker; 3] = versions!(seek);
    let works = works
        .map(|work| -> Output { Box::new(move |out| work(edition, black_box(log), number, out)) });
    let on = ("seek to the last record", &batch.name[..]);
    output_row(calls, on, 1, log.len() - last, works);
}

/// All records are listed, in batches as long as the ordinary version takes.
pub fn listings<'a>(calls: &mut Calls, batches: impl Iterator<Item = &'a Batch>) {
    for batch in batches {
        listing(calls, "listing", batch);
    }
}

fn listing(calls: &mut Calls, kind: &'static str, batch: &Batch) {
    let (edition, name) = (batch.edition, &batch.name[..]);
    if !calls.wants(kind, name) {
        return;
    }
    let pieces = &pieces(edition, &batch.log)[..];
    for piece in pieces {
        let [a, b, c] = versions!(listed(edition, piece));
        assert!(a == b && b == c, "{kind}, {name}: the texts differ");
    }
    let works: [Lister; 3] = versions!(listings);
    let works = works.map(|work| {
        let mut out = vec![0; MAX_LISTED + eventlog::LISTING_ROOM];
        move || work(edition, black_box(pieces), &mut out)
    });
    calls.row(kind, name, 1, works);
}

/// A log in pieces of whole records.
fn pieces(edition: Edition, log: &[u8]) -> Vec<&[u8]> {
    let mut pieces = Vec::new();
    let (mut from, mut to) = (0, 0);
    for end in starts(edition, log).into_iter().skip(1).chain([log.len()]) {
        if end - from > MAX_LISTED {
            pieces.push(&log[from..to]);
            from = to;
        }
        to = end;
    }
    pieces.push(&log[from..]);
    pieces
}

/// The Length of the longest record.
fn longest(batch: &Batch) -> usize {
    let starts = starts(batch.edition, &batch.log).into_iter();
    let lengths = starts.map(|at| get(&batch.log, at, 4));
    lengths.max().unwrap_or(0) as usize
}
