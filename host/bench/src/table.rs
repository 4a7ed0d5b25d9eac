//! Rows of what was measured, and their table in Markdown.

use std::array;

use crate::chart::Bar;
use crate::measure::minima;

/// What one row holds: the times of every run.
struct Row<const N: usize> {
    /// The kind of call,
    kind: &'static str,
    /// and on what.
    on: String,
    runs: Vec<[f64; N]>,
}

impl<const N: usize> Row<N> {
    /// The first version's time as a part of another one's, of every run.
    fn ratios(&self, other: usize) -> impl Iterator<Item = f64> + Clone + '_ {
        self.runs.iter().map(move |times| times[0] / times[other])
    }
}

/// The rows, in the order in which they were measured first.
pub struct Table<const N: usize> {
    caption: &'static str,
    /// The unit of the times, in seconds.
    unit: f64,
    versions: [&'static str; N],
    only: Vec<String>,
    /// How many runs there were, with this one.
    run: usize,
    rows: Vec<Row<N>>,
}

impl<const N: usize> Table<N> {
    /// The first version is compared with the others. Only rows are measured whose
    /// name has one of these words, or all where there is none.
    pub fn new(
        caption: &'static str,
        unit: f64,
        versions: [&'static str; N],
        only: &[String],
    ) -> Self {
        Table {
            caption,
            unit,
            versions,
            only: only.to_vec(),
            run: 0,
            rows: Vec::new(),
        }
    }

    /// Whether such a row is to be measured.
    pub fn wants(&self, kind: &str, on: &str) -> bool {
        let name = name(kind, on);
        self.only.is_empty() || self.only.iter().any(|word| name.contains(word))
    }

    /// What is measured from now on belongs to another run.
    pub fn next_run(&mut self) {
        self.run += 1;
    }

    /// Measures a row. A row that was measured in this run before keeps the least
    /// times. Each work does `parts` of what is shown.
    pub fn row<F: FnMut() -> usize>(
        &mut self,
        kind: &'static str,
        on: &str,
        parts: usize,
        mut works: [F; N],
    ) {
        if !self.wants(kind, on) {
            return;
        }
        let times = minima(&name(kind, on), &mut works).map(|time| time / parts as f64);
        let mut rows = self.rows.iter_mut();
        match rows.find(|row| (row.kind, &row.on[..]) == (kind, on)) {
            Some(row) if row.runs.len() == self.run => {
                if let Some(least) = row.runs.last_mut() {
                    *least = array::from_fn(|i| times[i].min(least[i]));
                }
            }
            Some(row) => row.runs.push(times),
            None => self.rows.push(Row {
                kind,
                on: on.into(),
                runs: vec![times],
            }),
        }
    }

    /// The highest ratio of each row to the version of this name.
    pub fn bars(&self, other: &str) -> impl Iterator<Item = Bar<'_>> {
        let other = self.versions.iter().position(|v| *v == other);
        let other = other.expect("the table has this version");
        self.rows.iter().map(move |row| Bar {
            kind: row.kind,
            on: &row.on,
            ratio: row.ratios(other).fold(0.0, f64::max),
        })
    }

    /// The lowest and the highest of all runs: the times, and the first version's
    /// as parts of the others'. Nothing where no row was measured.
    pub fn markdown(&self) -> String {
        if self.rows.is_empty() {
            return String::new();
        }
        let first = self.versions[0];
        let ratios = self.versions[1..].iter().map(|v| format!("{first} / {v}"));
        let versions = self.versions.into_iter().map(String::from);
        let head: Vec<_> = versions.chain(ratios).collect();
        let mut text = format!("{}\n\n| | {} |\n", self.caption, head.join(" | "));
        text += &format!("|---{}|\n", "|---".repeat(head.len()));
        for row in &self.rows {
            let times = (0..N).map(|i| range(row.runs.iter().map(|run| run[i] / self.unit)));
            let ratios = (1..N).map(|i| range(row.ratios(i)));
            let cells: Vec<_> = times.chain(ratios).collect();
            text += &format!("| {} | {} |\n", name(row.kind, &row.on), cells.join(" | "));
        }
        text + "\n"
    }
}

fn name(kind: &str, on: &str) -> String {
    format!("{kind}, {on}")
}

/// From the lowest to the highest, or one number where they are shown alike.
fn range(numbers: impl Iterator<Item = f64> + Clone) -> String {
    let low = shown(numbers.clone().fold(f64::INFINITY, f64::min));
    let high = shown(numbers.fold(0.0, f64::max));
    match low == high {
        true => low,
        false => format!("{low} to {high}"),
    }
}

/// About three digits.
fn shown(number: f64) -> String {
    match number {
        100.0.. => format!("{number:.0}"),
        10.0.. => format!("{number:.1}"),
        0.1.. => format!("{number:.2}"),
        0.01.. => format!("{number:.3}"),
        _ => format!("{number:.4}"),
    }
}
