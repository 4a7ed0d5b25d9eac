//! The rows of the benchmark, by the kind of call.

mod batches;
mod growth;
mod others;
pub mod searches;
mod strings;
mod writes;

use crate::calls::Output;
use crate::chart::Bar;
use crate::inputs::Inputs;
use crate::table::Table;

/// The times of the proved library and of both ordinary ones.
type Calls = Table<3>;

const VERSIONS: [&str; 3] = ["proved", "plain", "simple"];

/// All that is measured.
pub struct Tables {
    calls: Calls,
    growth: Calls,
    strings: Calls,
    searches: Table<4>,
}

impl Tables {
    /// Only rows whose name has one of these words, or all where there is none.
    pub fn new(only: &[String]) -> Tables {
        Tables {
            calls: Table::new("Calls, in ms:", 1e-3, VERSIONS, only),
            growth: Table::new(
                "Growth: batches of records of 100 bytes, in ns for each byte:",
                1e-9,
                VERSIONS,
                only,
            ),
            strings: Table::new(
                "One of the 256 strings of a record of 64 KiB by its number, in µs:",
                1e-6,
                VERSIONS,
                only,
            ),
            searches: Table::new(
                "One search for a zero unit, in ns:",
                1e-9,
                ["proved", "before", "plain", "simple"],
                only,
            ),
        }
    }

    /// One run: goes over everything so many times, and keeps the least times. So a
    /// row is not measured at one moment only, nor with its outputs at one place.
    pub fn run(&mut self, inputs: &Inputs, passes: usize) {
        self.calls.next_run();
        self.growth.next_run();
        self.strings.next_run();
        self.searches.next_run();
        for _ in 0..passes {
            self.pass(inputs);
        }
    }

    /// Measures everything once.
    fn pass(&mut self, inputs: &Inputs) {
        let calls = &mut self.calls;
        batches::walks_and_reads(calls, &inputs.batches);
        batches::one_by_one(calls, inputs.some_batches());
        writes::rows(calls, &inputs.events);
        batches::listings(calls, inputs.some_batches());
        strings::long_names(calls, &inputs.long_names);
        strings::all(calls, &inputs.many_strings);
        others::card(calls, &inputs.batches[0].log);
        others::windows_1252(calls, &inputs.text);
        growth::rows(&mut self.growth, &inputs.growing);
        strings::single(&mut self.strings, &inputs.many_strings);
        inputs.searched.rows(&mut self.searches);
    }

    /// One table below the other.
    pub fn markdown(&self) -> String {
        [
            self.calls.markdown(),
            self.growth.markdown(),
            self.strings.markdown(),
            self.searches.markdown(),
        ]
        .concat()
    }

    /// The worst ratio of each call and search to that of `plain`.
    pub fn bars(&self) -> Vec<Bar<'_>> {
        let calls = self.calls.bars("plain");
        calls.chain(self.searches.bars("plain")).collect()
    }
}

/// A row of calls that write to an output of so many bytes, each version to its
/// own. What they write is compared before; it is not cleared between rounds.
fn output_row(
    calls: &mut Calls,
    (kind, on): (&'static str, &str),
    parts: usize,
    size: usize,
    works: [Output; 3],
) {
    if !calls.wants(kind, on) {
        return;
    }
    let mut outs = [(); 3].map(|()| vec![0; size]);
    for (work, out) in works.iter().zip(&mut outs) {
        work(out);
    }
    let same = outs.iter().all(|out| *out == outs[0]);
    assert!(same, "{kind}, {on}: the outputs differ");
    let mut outs = outs.into_iter();
    let works = works.map(|work| {
        let mut out = outs.next().unwrap_or_default();
        move || work(&mut out)
    });
    calls.row(kind, on, parts, works);
}
