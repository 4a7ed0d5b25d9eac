//! Records of the proved writer, as the proved reader shows them and as other
//! programs do; run by `bash host/readers.sh`.
//!
//! Compared are only records that these programs read rightly: those whose names
//! end on a multiple of 4 and that have data (without it evtexport takes padding
//! for a string, or stops at a SID), and for ndrdump those with padding before
//! Length2. Of these, every line that they print is compared, but for [`LEFT_OUT`].
//! The same records with gaps before the first part are only counted.

use std::env;
use std::fs;
use std::path::Path;
use std::process::{Command, ExitCode};

use compare::make::Made;
use compare::random::Random;
use eventlog::Edition;

const RECORDS: u32 = 500;
/// Bytes between the names and the first part (Rule 2.12); the names end on a
/// multiple of 4, so that the writer leaves none.
const GAPS: [usize; 5] = [0, 1, 2, 4, 8];
const EVENT_TYPES: [u16; 6] = [0, 1, 2, 4, 8, 16];

/// Lines of ndrdump's that are not compared: what surrounds the record, what the
/// proved reader does not show, and the times, which are compared with evtexport's.
const LEFT_OUT: [&str; 8] = [
    "pull returned Success",
    "EVENTLOGRECORD: struct EVENTLOGRECORD",
    "Reserved",
    "TimeGenerated",
    "TimeWritten",
    "ClosingRecordNumber",
    "Pad",
    "dump OK",
];

/// What a reader shows, in its order: a field's name, and its value as text.
type Shown = Vec<(String, String)>;

/// Letters and digits, which every program prints as they are.
fn letters(rng: &mut Random, units: usize) -> Vec<u8> {
    let letter = |rng: &mut Random| {
        rng.pick(b"ABCDEFGHIJKLMNOPQRSTUVWXYZabcdefghijklmnopqrstuvwxyz0123456789")
    };
    (0..units).flat_map(|_| [letter(rng), 0]).collect()
}

fn sid(rng: &mut Random) -> Vec<u8> {
    let n = rng.range(1, 15);
    let mut sid = vec![1, n as u8, 0, 0];
    sid.extend(rng.bytes(4 + 4 * n));
    sid
}

/// A time up to 2038, but none on the last day of 1999, which evtexport shows as
/// its number.
fn time(rng: &mut Random) -> u32 {
    let time = rng.range(1, i32::MAX as usize) as u32;
    match time {
        946_598_400..946_684_800 => time - 86_400,
        _ => time,
    }
}

fn event(rng: &mut Random, record_number: u32) -> Made {
    let mut made = Made::new(plain::Edition::Unicode);
    let f = &mut made.fields;
    f.record_number = record_number;
    f.time_generated = time(rng);
    f.time_written = time(rng);
    f.event_id = rng.bits() as u32;
    f.event_type = rng.pick(&EVENT_TYPES);
    f.event_category = rng.bits() as u16;
    f.num_strings = rng.below(6) as u16;
    if f.num_strings > 0 {
        f.reserved_flags = rng.pick(&[0, 0x8000]);
    }
    let (source, computer) = (rng.range(1, 20), rng.range(1, 20));
    made.source = letters(rng, source);
    // An even number of units in both, so that the names end on a multiple of 4.
    made.computer = letters(rng, computer + (source + computer) % 2);
    if rng.once_in(2) {
        made.sid = sid(rng);
    }
    for _ in 0..made.fields.num_strings {
        let units = rng.range(1, 30);
        made.strings.extend(letters(rng, units));
        made.strings.extend([0, 0]);
    }
    // Longer data is shown by ndrdump in another way.
    let len = rng.range(1, 32);
    made.data = rng.bytes(len);
    made
}

fn written(made: &Made) -> Vec<u8> {
    let mut record = vec![0; made.length()];
    let number = made.fields.record_number;
    let written = eventlog::write(Edition::Unicode, number, &made.proved(), &mut record);
    let length = written.expect("the event is accepted");
    assert_eq!(length, record.len());
    record
}

/// A SID whose authority has its first two bytes zero, as its usual text.
fn sid_text(sid: &[u8]) -> String {
    let authority = u32::from_be_bytes(sid[4..8].try_into().expect("four bytes"));
    let parts = sid[8..]
        .as_chunks()
        .0
        .iter()
        .map(|part| u32::from_le_bytes(*part).to_string());
    let parts: Vec<String> = parts.collect();
    format!("S-1-{authority}-{}", parts.join("-"))
}

/// Seconds since 1970 as evtexport shows them.
fn time_text(seconds: u32) -> String {
    const MONTHS: [&str; 12] = [
        "Jan", "Feb", "Mar", "Apr", "May", "Jun", "Jul", "Aug", "Sep", "Oct", "Nov", "Dec",
    ];
    let (mut day, second) = (seconds / 86_400, seconds % 86_400);
    // Up to 2038 that is the whole rule.
    let leap = |year: u32| year.is_multiple_of(4);
    let mut year = 1970;
    while day >= 365 + u32::from(leap(year)) {
        day -= 365 + u32::from(leap(year));
        year += 1;
    }
    let mut month = 0;
    let days = |month: usize| match month {
        1 => 28 + u32::from(leap(year)),
        3 | 5 | 8 | 10 => 30,
        _ => 31,
    };
    while day >= days(month) {
        day -= days(month);
        month += 1;
    }
    let (hour, minute, second) = (second / 3600, second / 60 % 60, second % 60);
    format!(
        "{} {:02}, {year} {hour:02}:{minute:02}:{second:02} UTC",
        MONTHS[month],
        day + 1
    )
}

/// ndrdump's lines but for those left out, from the proved reader.
fn as_ndrdump(record: &[u8]) -> Shown {
    let r = eventlog::step(Edition::Unicode, record, 0).expect("the record is accepted");
    let e = r.event;
    let long = |n: usize| format!("0x{n:08x} ({n})");
    let short = |n: u16| format!("0x{n:04x} ({n})");
    let quoted = |text: String| format!("'{text}'");
    // The writer puts 0 for the offset of an absent part.
    let offset = |part: &[u8], at: usize| long(if part.is_empty() { 0 } else { at });
    let sid = match e.sid {
        [] => "S-0-0".to_string(),
        sid => sid_text(sid),
    };
    let mut shown = named([
        ("Length", long(r.length)),
        ("RecordNumber", long(r.record_number as usize)),
        ("EventID", long(e.event_id as usize)),
        ("EventType", format!("({})", e.event_type)),
        ("NumStrings", short(e.num_strings)),
        ("EventCategory", short(e.event_category)),
        ("ReservedFlags", short(e.reserved_flags)),
        ("StringOffset", offset(e.strings, r.places.strings)),
        ("UserSidLength", long(e.sid.len())),
        ("UserSidOffset", offset(e.sid, r.places.sid)),
        ("DataLength", long(e.event_data.len())),
        ("DataOffset", offset(e.event_data, r.places.event_data)),
        ("SourceName", quoted(e.source_name.to_string())),
        ("Computername", quoted(e.computer_name.to_string())),
        ("UserSid", sid),
    ]);
    shown.push((format!("Strings: ARRAY({})", e.num_strings), String::new()));
    for string in r.strings() {
        shown.push(("Strings".to_string(), quoted(string.to_string())));
    }
    shown.extend(named([
        ("Data", hex(e.event_data)),
        ("Length2", long(r.length)),
    ]));
    shown
}

/// evtexport's lines, from the proved reader.
fn as_evtexport(record: &[u8]) -> Shown {
    let r = eventlog::step(Edition::Unicode, record, 0).expect("the record is accepted");
    let e = r.event;
    let mut shown = named([
        ("Event number", r.record_number.to_string()),
        ("Creation time", time_text(e.time_generated)),
        ("Written time", time_text(e.time_written)),
        ("Event type", format!("({})", e.event_type)),
    ]);
    if !e.sid.is_empty() {
        shown.extend(named([("User security identifier", sid_text(e.sid))]));
    }
    shown.extend(named([
        ("Computer name", e.computer_name.to_string()),
        ("Source name", e.source_name.to_string()),
        ("Event category", e.event_category.to_string()),
        ("Event identifier", format!("0x{0:08x} ({0})", e.event_id)),
        ("Number of strings", e.num_strings.to_string()),
    ]));
    for (k, string) in r.strings().enumerate() {
        shown.push((format!("String: {}", k + 1), string.to_string()));
    }
    shown
}

fn named<const N: usize>(lines: [(&str, String); N]) -> Shown {
    lines.map(|(name, value)| (name.to_string(), value)).into()
}

fn hex(bytes: &[u8]) -> String {
    bytes.iter().map(|byte| format!("{byte:02x}")).collect()
}

/// What a program prints: lines of a name and a value, or of a name alone; of an
/// enum only its number.
fn shown(output: &str, separator: &str) -> Shown {
    let line = |line: &str| {
        let (name, value) = line.split_once(separator).unwrap_or((line, ""));
        let (name, mut value) = (name.trim(), value.trim());
        if name == "EventType" || name == "Event type" {
            value = &value[value.rfind('(').unwrap_or(0)..];
        }
        (name.to_string(), value.to_string())
    };
    output.lines().map(line).collect()
}

fn run(program: &str, words: &[&str]) -> String {
    let output = Command::new(program).args(words).output();
    let output = output.unwrap_or_else(|e| panic!("{program}: {e}"));
    String::from_utf8_lossy(&output.stdout).into_owned()
}

/// An EVT file: its header, the records, its end.
fn evt_file(records: &[Vec<u8>]) -> Vec<u8> {
    let end = 48 + records.iter().map(Vec::len).sum::<usize>() as u32;
    let next = records.len() as u32 + 1;
    let header = [48, 0x654C_664C, 1, 1, 48, end, next, 1, end + 40, 0, 0, 48];
    let ending = [
        40,
        0x1111_1111,
        0x2222_2222,
        0x3333_3333,
        0x4444_4444,
        48,
        end,
        next,
        1,
        40,
    ];
    let bytes = |numbers: &[u32]| numbers.iter().flat_map(|n| n.to_le_bytes()).collect();
    [bytes(&header), records.concat(), bytes(&ending)].concat()
}

/// A record as ndrdump shows it, but for the lines left out.
fn ndrdump(folder: &Path, record: &[u8]) -> Shown {
    let file = folder.join("record");
    fs::write(&file, record).expect("the record is stored");
    let path = file.to_str().expect("a path of letters");
    let output = run("ndrdump", &["eventlog", "EVENTLOGRECORD", "struct", path]);
    let mut theirs = shown(&output, " : ");
    theirs.retain(|(name, _)| !LEFT_OUT.contains(&name.as_str()));
    theirs
}

/// Records as evtexport shows them; it may stop before the last.
fn evtexport(folder: &Path, records: &[Vec<u8>]) -> Vec<Shown> {
    let file = folder.join("log.evt");
    fs::write(&file, evt_file(records)).expect("the log is stored");
    let output = run("evtexport", &[file.to_str().expect("a path of letters")]);
    let mut events = output.trim_end().split("\n\n");
    let program = events.next().unwrap_or_default();
    assert!(program.starts_with("evtexport "), "{program}");
    events.map(|event| shown(event, "\t: ")).collect()
}

/// Prints a difference and answers whether there was one.
fn differ(program: &str, record: &[u8], ours: &Shown, theirs: &Shown) -> bool {
    if ours == theirs {
        return false;
    }
    let record = hex(record);
    println!("{program} differs on {record}\n  ours   {ours:?}\n  theirs {theirs:?}");
    true
}

/// The records that ndrdump reads rightly: how many, and how many differ.
fn by_ndrdump(folder: &Path, made: &[Made], records: &[Vec<u8>]) -> (usize, usize) {
    let (mut read, mut differences) = (0, 0);
    for (made, record) in made.iter().zip(records) {
        if (made.strings.len() + made.data.len()).is_multiple_of(4) {
            continue;
        }
        let theirs = ndrdump(folder, record);
        read += 1;
        differences += usize::from(differ("ndrdump", record, &as_ndrdump(record), &theirs));
    }
    (read, differences)
}

/// How many of the records evtexport shows differently.
fn by_evtexport(folder: &Path, records: &[Vec<u8>]) -> usize {
    let events = evtexport(folder, records);
    assert_eq!(events.len(), records.len(), "evtexport shows each record");
    let differs = |(record, theirs): &(&Vec<u8>, &Shown)| {
        differ("evtexport", record, &as_evtexport(record), theirs)
    };
    records.iter().zip(&events).filter(differs).count()
}

/// Records with a gap before the first part: how many ndrdump shows as the proved
/// reader does, and how many evtexport.
fn with_gap(folder: &Path, records: &[Vec<u8>]) -> (usize, usize) {
    let (mut ndr, mut evt) = (0, 0);
    for record in records {
        ndr += usize::from(ndrdump(folder, record) == as_ndrdump(record));
        let one = std::slice::from_ref(record);
        evt += usize::from(evtexport(folder, one) == [as_evtexport(record)]);
    }
    (ndr, evt)
}

fn main() -> ExitCode {
    let folder = env::args().nth(1).expect("a folder to write to");
    let folder = Path::new(&folder);
    let mut rng = Random::new(1);
    let made: Vec<Made> = (1..=RECORDS)
        .map(|number| event(&mut rng, number))
        .collect();
    let records: Vec<Vec<u8>> = made.iter().map(written).collect();
    let (read, differences) = by_ndrdump(folder, &made, &records);
    let differences = differences + by_evtexport(folder, &records);
    println!("{read} records by ndrdump, {RECORDS} by evtexport, {differences} differences");
    for gap in GAPS {
        let records: Vec<Vec<u8>> = made.iter().map(|made| made.gapped(gap, None)).collect();
        let (ndr, evt) = with_gap(folder, &records);
        println!("a gap of {gap}: ndrdump shows {ndr} of {RECORDS} as we do, evtexport {evt}");
    }
    match differences {
        0 => ExitCode::SUCCESS,
        _ => ExitCode::FAILURE,
    }
}
