//! Prints the records of a log, appends an entry to it in memory, and reads the
//! log back: all of it from the rear, and then its errors and warnings.

use std::error::Error;
use std::io::{self, Write};
use std::{env, fs};

use eventlog::{
    Direction, Edition, Event, Handle, MAX_LENGTH, MAX_READ, ReadKind, Record, Status, Types,
    append, event_type, records, utf16,
};

/// The log's texts are UTF-16.
const EDITION: Edition = Edition::Unicode;

fn print(record: &Record, out: &mut dyn Write) -> io::Result<()> {
    let Event {
        event_id,
        event_type,
        source_name,
        computer_name,
        ..
    } = record.event;
    let number = record.record_number;
    write!(out, "{number}: event {event_id}, type {event_type}")?;
    writeln!(out, ", from {source_name} on {computer_name}")?;
    for string in record.strings() {
        writeln!(out, "    \"{string}\"")?;
    }
    Ok(())
}

/// # Errors
///
/// Whatever is refused, or cannot be printed.
pub fn run(mut log: Vec<u8>, out: &mut dyn Write) -> Result<(), Box<dyn Error>> {
    for record in records(EDITION, &log) {
        print(&record?, out)?;
    }
    let repair = Event {
        event_id: 300,
        event_type: event_type::INFORMATION,
        num_strings: 2,
        source_name: utf16!("Scale"),
        computer_name: utf16!("T1"),
        strings: utf16!("load cell replaced\0zero point set\0").as_bytes(),
        ..Event::default()
    };
    let used = log.len();
    log.resize(used + MAX_LENGTH, 0);
    let used = append(EDITION, &mut log, used, &repair)?;

    let log = &log[..used];
    writeln!(out, "from the rear:")?;
    print_types(log, Direction::Backwards, Types::ALL, out)?;
    writeln!(out, "errors and warnings:")?;
    print_types(log, Direction::Forwards, Types::ERROR | Types::WARNING, out)
}

/// Reads the records of these types, all of them one way, and prints them.
fn print_types(
    log: &[u8],
    direction: Direction,
    types: Types,
    out: &mut dyn Write,
) -> Result<(), Box<dyn Error>> {
    let mut batch = vec![0; MAX_READ];
    let mut handle = Handle::fresh(types);
    loop {
        let (kind, size) = (ReadKind::Sequential, batch.len());
        match handle.read(EDITION, log, kind, direction, size, &mut batch) {
            Ok(read) => {
                for record in read.records() {
                    print(&record?, out)?;
                }
                handle = read.handle;
            }
            Err(error) if error.status == Status::EndOfFile => return Ok(()),
            Err(error) => return Err(error.into()),
        }
    }
}

fn main() -> Result<(), Box<dyn Error>> {
    let path = env::args_os().nth(1).ok_or("usage: records LOG")?;
    run(fs::read(path)?, &mut io::stdout().lock())
}
