//! The search for zero units by itself.

use std::hint::black_box;
use std::ops::RangeInclusive;

use compare::make::text;
use compare::random::Random;
use plain::Edition::Unicode;

use crate::calls::{by_unit, proved, tuned, untuned};
use crate::table::Table;

/// At least so many units are searched in a round.
const SEARCHED: usize = 60_000;
/// Bytes behind a text that is searched, as a record has them.
const BEHIND: usize = 200;

/// The place after so many zero units.
type Search = fn(&[u8], u32) -> usize;

/// Runs of strings to be searched, at even and at odd addresses.
pub struct Runs {
    name: String,
    strings: u32,
    runs: Vec<Vec<u8>>,
    /// How often all of them are searched in a round.
    times: usize,
}

impl Runs {
    /// So many runs of strings of these lengths.
    fn new(
        rng: &mut Random,
        name: &str,
        (count, strings): (usize, u32),
        units: RangeInclusive<usize>,
    ) -> Runs {
        let (low, high) = units.into_inner();
        let mut all = 0;
        let mut runs = Vec::new();
        for i in 0..count {
            let mut run = vec![0xEE; i % 2];
            for _ in 0..strings {
                let units = rng.range(low, high);
                run.extend(text(Unicode, rng, units));
                run.extend([0, 0]);
                all += units + 1;
            }
            run.extend([0xEE; BEHIND]);
            runs.push(run);
        }
        Runs {
            name: name.into(),
            strings,
            runs,
            times: SEARCHED.div_ceil(all),
        }
    }

    /// The sum of what the searches answer.
    fn sum(&self, search: Search) -> usize {
        let mut sum = 0;
        for _ in 0..self.times {
            for (i, run) in self.runs.iter().enumerate() {
                sum += search(black_box(&run[i % 2..]), self.strings);
            }
        }
        sum
    }

    fn row(&self, table: &mut Table<4>, kind: &'static str, searches: [Search; 4]) {
        let works = searches.map(|search| move || self.sum(search));
        table.row(kind, &self.name, self.runs.len() * self.times, works);
    }
}

/// Names and strings of some lengths.
pub struct Searched {
    names: Vec<Runs>,
    strings: Vec<Runs>,
}

impl Searched {
    pub fn new(rng: &mut Random) -> Searched {
        let lengths = [(8, "8"), (30, "30"), (300, "300"), (30_000, "30,000")];
        let mut of_each = || -> Vec<Runs> {
            let runs = lengths.map(|(n, units)| {
                let name = format!("{units} units");
                Runs::new(rng, &name, (16, 1), n..=n)
            });
            runs.into()
        };
        let (mut names, mut strings) = (of_each(), of_each());
        // Many of them, so that the processor does not learn their lengths.
        names.push(Runs::new(
            rng,
            "5 to 12 units at random",
            (20_000, 1),
            5..=12,
        ));
        strings.push(Runs::new(
            rng,
            "six of 0 to 20 units at random",
            (20_000, 6),
            0..=20,
        ));
        Searched { names, strings }
    }

    pub fn rows(&self, table: &mut Table<4>) {
        for runs in &self.names {
            runs.row(
                table,
                "search of a name",
                [
                    |t, _| proved::name_end(t),
                    |t, _| by_unit::name_end(t),
                    |t, _| tuned::name_end(t),
                    |t, _| untuned::name_end(t),
                ],
            );
        }
        for runs in &self.strings {
            runs.row(
                table,
                "search of strings",
                [
                    proved::strings_end,
                    by_unit::strings_end,
                    tuned::strings_end,
                    untuned::strings_end,
                ],
            );
        }
    }
}
