//! How long the proved library takes, and two ordinary ones; run on request:
//! `bash library.sh`, `rt lib` in crates/searches_c, and then
//! `cargo run --release --offline -p bench`. It prints tables in Markdown. Words
//! after `--` choose the rows whose names have one of them. With `--write FOLDER`
//! it writes the tables to `benchmark.md` in that folder as well, and a picture of
//! the ratios to `benchmark.svg`.

mod calls;
mod chart;
mod clock;
mod inputs;
mod measure;
mod placement;
mod rows;
mod table;

use std::path::Path;
use std::{env, fs, io};

use inputs::Inputs;
use measure::{BUDGET, LEAST, MOST};
use rows::Tables;

/// All is measured so many times, one table after the other,
const RUNS: usize = 3;
/// and a run goes over all rows so many times.
const PASSES: usize = 5;

/// What the tables say of themselves.
fn preface() -> String {
    let seconds = BUDGET.as_secs_f64();
    format!(
        "Ranges over {RUNS} runs. A run goes over all rows {PASSES} times, and has the minima of all rounds. A row has {LEAST} to {MOST}
rounds each time, as many as take about {seconds} seconds of the processor's time. In a round all versions are measured in turn, on the
same input. Rows without an edition are in Unicode.

- **Batches** have 16 MiB, in records of about the size that the row says, of the six types in turn.
- **Reads** ask for 64 KiB; those of records of 256 KiB for 524,287 bytes, the most that a read may; those of one record
  at a time for the bytes of the longest record, and the seek for those of the last one.
- **Steps** go over the whole batch, and so do **listings**, in pieces of 64 KiB.
- **Writes and appends** make 16 MiB of records, the former each at the start of one output, the latter in one log.
- **Outputs** are not cleared before: they hold what the round before has left there.

"
    )
}

fn write(folder: &Path, tables: &Tables) -> io::Result<()> {
    fs::create_dir_all(folder)?;
    let text = format!("# Benchmark\n\n{}{}", preface(), tables.markdown());
    // The last table ends the file.
    fs::write(
        folder.join("benchmark.md"),
        text.trim_end().to_owned() + "\n",
    )?;
    let title = format!("proved / plain, the worst of {RUNS} runs");
    let picture = chart::svg(&title, &tables.bars());
    fs::write(folder.join("benchmark.svg"), picture)
}

/// Takes `--write FOLDER` out of the arguments.
fn take_folder(words: &mut Vec<String>) -> Option<String> {
    let at = words.iter().position(|word| word == "--write")?;
    assert!(at + 1 < words.len(), "--write needs a folder");
    words.drain(at..=at + 1).nth(1)
}

fn main() -> io::Result<()> {
    let mut words: Vec<String> = env::args().skip(1).collect();
    let folder = take_folder(&mut words);
    let inputs = Inputs::new();
    let mut tables = Tables::new(&words);
    for run in 1..=RUNS {
        eprintln!("run {run} of {RUNS}");
        tables.run(&inputs, PASSES);
    }
    print!("{}{}", preface(), tables.markdown());
    match folder {
        Some(folder) => write(Path::new(&folder), &tables),
        None => Ok(()),
    }
}
