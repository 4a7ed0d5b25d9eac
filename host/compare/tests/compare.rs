//! Both libraries on every family of inputs in both editions. `COMPARE_ROUNDS`
//! asks for more rounds of each family than the default, which judges a million
//! buffers in Unicode, and half as many in ANSI.

use std::env;
use std::io::{stdout, Write};
use std::sync::atomic::{AtomicBool, AtomicU64, Ordering::Relaxed};
use std::sync::Mutex;
use std::thread;
use std::time::Instant;

use compare::check::{Call, Case, Skip, Tally, CASES, FLAGS, SETS, SKIPS, STATUSES};
use compare::{round, FAMILIES};
use plain::Edition;

/// The fewest rounds of each family in Unicode; in ANSI they are half as many.
const ROUNDS: u64 = 250;
/// The fewest buffers that they judge.
const BUFFERS: u64 = 1_000_000;
const THREADS: usize = 2;

/// Where a round panics, says which one it was, as a panic of a library itself
/// does not, and stops the other thread.
struct Watch<'a> {
    stop: &'a AtomicBool,
    edition: Edition,
    family: usize,
    number: u64,
}

impl Drop for Watch<'_> {
    fn drop(&mut self) {
        if thread::panicking() {
            self.stop.store(true, Relaxed);
            let (name, _) = FAMILIES[self.family];
            let Watch {
                edition, number, ..
            } = self;
            eprintln!("that was family {name}, round {number}, {edition:?}");
        }
    }
}

#[test]
fn both_answer_the_same() {
    let rounds = rounds();
    all_rounds(Edition::Unicode, rounds, BUFFERS);
    all_rounds(Edition::Ansi, rounds / 2, BUFFERS / 2);
}

fn all_rounds(edition: Edition, rounds: u64, fewest: u64) {
    let start = Instant::now();
    let tallies = run(edition, rounds);
    let mut total = Tally::default();
    // Not by print!, which is shown only for a test that fails.
    let mut out = stdout().lock();
    writeln!(out, "\n{edition:?}").unwrap();
    for ((tally, seconds), (name, _)) in tallies.iter().zip(FAMILIES) {
        total.add(tally);
        writeln!(out, "{name:8} {}, {seconds:.1} s", counts(tally)).unwrap();
    }
    let seconds = start.elapsed().as_secs_f64();
    let counts = counts(&total);
    writeln!(out, "{rounds} rounds: {counts}, {seconds:.1} s").unwrap();
    drop(out);
    let buffers = total.buffers;
    assert!(buffers >= fewest, "only {buffers} buffers");
    reached(edition, &total);
}

/// Never fewer than the default, so that a variable left behind does not make
/// the test pass without comparing.
fn rounds() -> u64 {
    let asked = env::var("COMPARE_ROUNDS").map_or(ROUNDS, |text| {
        text.parse().expect("COMPARE_ROUNDS is a number")
    });
    asked.max(ROUNDS)
}

/// All rounds of all families; what each family compared, and its seconds.
fn run(edition: Edition, rounds: u64) -> Vec<(Tally, f64)> {
    let work = AtomicU64::new(0);
    let stop = AtomicBool::new(false);
    let tallies = Mutex::new(vec![(Tally::default(), 0.0); FAMILIES.len()]);
    let worker = || {
        while !stop.load(Relaxed) {
            let next = work.fetch_add(1, Relaxed);
            let (family, number) = ((next / rounds) as usize, next % rounds);
            if family >= FAMILIES.len() {
                break;
            }
            let stop = &stop;
            let _watch = Watch {
                stop,
                edition,
                family,
                number,
            };
            let begun = Instant::now();
            let tally = round(edition, family, number);
            let mut tallies = tallies.lock().unwrap();
            tallies[family].0.add(&tally);
            tallies[family].1 += begun.elapsed().as_secs_f64();
        }
    };
    thread::scope(|scope| {
        for _ in 0..THREADS {
            scope.spawn(worker);
        }
    });
    tallies.into_inner().unwrap()
}

fn counts(tally: &Tally) -> String {
    let Tally { buffers, calls, .. } = tally;
    let (judgements, good) = tally.judgements();
    format!("{buffers:7} buffers, {judgements:7} judgements ({good} good), {calls} calls")
}

/// The cases of the listing program, which lists Unicode.
const PROGRAM: [Case; 4] = [
    Case::FullProgram,
    Case::FullProgramRefused,
    Case::EmptyProgram,
    Case::FullProgramRecord,
];

/// Every answer of every call occurred.
fn reached(edition: Edition, total: &Tally) {
    let program = edition == Edition::Unicode;
    let reading: Vec<u32> = (0..=13).collect();
    let writing = [0, 2, 6, 7, 8, 9, 10, 11, 12, 15];
    let expected: [(Call, Vec<u32>); 10] = [
        (Call::Step, reading.clone()),
        (Call::StepBack, reading.clone()),
        (Call::String, [&reading[..], &[17]].concat()),
        (Call::NextString, vec![0, 17]),
        (Call::Walk, reading.clone()),
        (Call::WalkBack, reading.clone()),
        (
            Call::Program,
            match program {
                true => [&reading[..], &[16]].concat(),
                false => vec![],
            },
        ),
        (Call::Write, writing.to_vec()),
        (Call::Append, [&writing[..], &[1, 14]].concat()),
        (Call::Listing, vec![0, 15]),
    ];
    for (call, numbers) in expected {
        for number in 0..18 {
            let met = total.met(call, number) > 0;
            let expected = numbers.contains(&number);
            assert_eq!(met, expected, "{edition:?} {call:?} {number}");
        }
    }
    for (kind, counts) in total.statuses.iter().enumerate() {
        for (status, count) in STATUSES.iter().zip(counts) {
            // Wrong flags have one answer.
            let possible = kind < 4 || *status == 0xC000_000D;
            let flags = FLAGS.get(kind);
            assert_eq!(
                *count > 0,
                possible,
                "{edition:?} flags {flags:?} status {status:#x}"
            );
        }
    }
    for (flags, counts) in FLAGS.iter().zip(total.skips) {
        for (skip, count) in SKIPS.iter().zip(counts) {
            // What stands before a record that a seek finds is good.
            let possible = *flags != 10 || *skip != Skip::Refused;
            assert_eq!(count > 0, possible, "{edition:?} flags {flags} {skip:?}");
        }
    }
    for (set, count) in total.sets.iter().enumerate() {
        // The last stands for all sets with another bit.
        assert!(*count > 0, "{edition:?} set {set} of {SETS}");
    }
    assert!(total.without_sets >= total.sets[SETS - 1], "{edition:?}");
    for case in CASES {
        let met = total.cases[case as usize] > 0;
        let possible = program || !PROGRAM.contains(&case);
        assert_eq!(met, possible, "{edition:?} {case:?}");
    }
}
