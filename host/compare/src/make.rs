//! Events, records, logs and their damage, in either edition.

use plain::Edition;

use crate::random::Random;

/// How many bytes a unit has.
pub fn width(edition: Edition) -> usize {
    match edition {
        Edition::Unicode => 2,
        Edition::Ansi => 1,
    }
}

/// A zero unit.
pub fn zero(edition: Edition) -> &'static [u8] {
    &[0, 0][..width(edition)]
}

/// The edition that this one is not.
pub fn other(edition: Edition) -> Edition {
    match edition {
        Edition::Unicode => Edition::Ansi,
        Edition::Ansi => Edition::Unicode,
    }
}

/// Whether the first unit of a Length2 is zero.
pub fn begins_with_zero(edition: Edition, length: usize) -> bool {
    (length as u32).to_le_bytes().starts_with(zero(edition))
}

/// The longest record.
pub const MAX_LENGTH: usize = 262_140;
/// The shortest Length that is too long.
pub const TOO_LONG: usize = MAX_LENGTH + 4;
/// The most data.
pub const MAX_DATA: usize = 61_440;

/// Lengths at which something changes: the most data and nothing else, what 16
/// bits count, a Length2 whose first unit is zero, the limit.
pub const EDGES: [usize; 10] = [
    64 + MAX_DATA,
    68 + MAX_DATA,
    65_528,
    65_532,
    65_536,
    131_072,
    196_608,
    MAX_LENGTH - 8,
    MAX_LENGTH - 4,
    MAX_LENGTH,
];

/// How long an event's parts are.
#[derive(Clone, Copy, Debug, PartialEq, Eq)]
pub enum Size {
    Small,
    Medium,
    Large,
}

/// An event that owns its parts.
#[derive(Clone)]
pub struct Made {
    pub edition: Edition,
    pub fields: plain::Fields,
    pub source: Vec<u8>,
    pub computer: Vec<u8>,
    pub sid: Vec<u8>,
    pub strings: Vec<u8>,
    pub data: Vec<u8>,
}

/// The fixed fields: place and size. Length2 has no fixed place.
pub const FIELDS: [(usize, usize); 16] = [
    (0, 4),
    (4, 4),
    (8, 4),
    (12, 4),
    (16, 4),
    (20, 4),
    (24, 2),
    (26, 2),
    (28, 2),
    (30, 2),
    (32, 4),
    (36, 4),
    (40, 4),
    (44, 4),
    (48, 4),
    (52, 4),
];

pub const TYPES: [u16; 6] = [0, 1, 2, 4, 8, 16];

fn aligned(place: usize) -> usize {
    place.next_multiple_of(4)
}

/// Units, none of them zero.
pub fn text(edition: Edition, rng: &mut Random, units: usize) -> Vec<u8> {
    let kind = rng.below(3);
    if edition == Edition::Ansi {
        let mut out = rng.bytes(units);
        for byte in &mut out {
            *byte = match kind {
                0 => 0x41 + *byte % 26,
                // Next to zero, and those that a sum of bits takes for it.
                1 => [1, 0x80, 0x7F, 0x81, 0xFF, 0xFE, 0x10, 0x01][usize::from(*byte % 8)],
                _ => (*byte).max(1),
            };
        }
        return out;
    }
    let mut out = Vec::with_capacity(units * 2);
    let mut bits = 0;
    for i in 0..units {
        if i % 4 == 0 {
            bits = rng.bits();
        }
        let random = bits as u16;
        bits >>= 16;
        let unit = match kind {
            0 => 0x41 + random % 26,
            // Zero bytes next to each other that are no zero unit.
            1 => [1, 0x100, 0x80, 0x8000, 0xFF, 0xFF00, 0x7FFF, 0x8001][usize::from(random % 8)],
            _ => random.max(1),
        };
        out.extend_from_slice(&unit.to_le_bytes());
    }
    out
}

fn sid(rng: &mut Random) -> Vec<u8> {
    let n = rng.range(0, 15);
    let mut sid = rng.bytes(8 + 4 * n);
    sid[0] = 1;
    sid[1] = n as u8;
    sid
}

fn corrupt_sid(rng: &mut Random) -> Vec<u8> {
    let mut corrupt = sid(rng);
    match rng.below(4) {
        0 => {
            let len = rng.range(0, 80);
            corrupt = rng.bytes(len);
        }
        1 => {
            let at = rng.below(2);
            corrupt[at] = rng.pick(&[0, 1, 2, 14, 15, 16, 255]);
        }
        2 => {
            let len = corrupt.len() + rng.range(0, 8);
            corrupt.resize(len - rng.below(len.min(9)), 0);
        }
        _ => {
            // Sixteen sub-authorities: one too many.
            corrupt = rng.bytes(72);
            corrupt[..2].copy_from_slice(&[1, 16]);
        }
    }
    corrupt
}

fn number(rng: &mut Random) -> u32 {
    match rng.below(4) {
        0 => rng.pick(&[0, 1, 2, 0x7FFF_FFFF, 0x8000_0000, 0xFFFF_FFFE, 0xFFFF_FFFF]),
        1 => rng.below(10) as u32,
        _ => rng.bits() as u32,
    }
}

impl Made {
    /// An event of no part and no number.
    pub fn new(edition: Edition) -> Made {
        Made {
            edition,
            fields: plain::Fields::default(),
            source: Vec::new(),
            computer: Vec::new(),
            sid: Vec::new(),
            strings: Vec::new(),
            data: Vec::new(),
        }
    }

    /// An event that the writer accepts.
    pub fn good(edition: Edition, rng: &mut Random, size: Size) -> Made {
        let fields = plain::Fields {
            record_number: number(rng),
            time_generated: number(rng),
            time_written: number(rng),
            event_id: number(rng),
            event_type: rng.pick(&TYPES),
            num_strings: 0,
            event_category: rng.bits() as u16,
            reserved_flags: 0,
        };
        let mut made = Made {
            fields,
            ..Made::new(edition)
        };
        if rng.once_in(2) {
            made.sid = sid(rng);
        }
        match size {
            Size::Small => made.fill(rng, 6, 4, 5, 20),
            Size::Medium => made.fill(rng, 150, 256, 9, 1500),
            Size::Large => made.fill_large(rng),
        }
        if made.fields.num_strings > 0 {
            made.fields.reserved_flags = rng.pick(&[0, 0x8000]);
        }
        made
    }

    fn fill(&mut self, rng: &mut Random, name: usize, count: usize, units: usize, data: usize) {
        let units_of = |rng: &mut Random, most: usize| {
            if rng.once_in(4) {
                0
            } else {
                rng.range(0, most)
            }
        };
        let n = units_of(rng, name);
        self.source = text(self.edition, rng, n);
        let n = units_of(rng, name);
        self.computer = text(self.edition, rng, n);
        let count = match rng.below(6) {
            0 | 1 => 0,
            2 => count,
            _ => rng.range(0, count),
        };
        for _ in 0..count {
            let n = units_of(rng, units);
            self.push_string(rng, n);
        }
        let n = units_of(rng, data);
        self.data = rng.bytes(n);
    }

    /// One string more.
    pub fn push_string(&mut self, rng: &mut Random, units: usize) {
        self.strings.extend(text(self.edition, rng, units));
        self.strings.extend(zero(self.edition));
        self.fields.num_strings += 1;
    }

    /// One part takes most of the room; often the Length is an edge exactly.
    /// Shorter ones are made more often, as they take less time to judge.
    fn fill_large(&mut self, rng: &mut Random) {
        self.fill(rng, 30, 3, 10, 50);
        let room = MAX_LENGTH - 1000;
        let most = rng.pick(&[room / 4, room / 4, room / 2, room]);
        let n = rng.range(2000, most);
        let units = n / width(self.edition);
        match rng.below(5) {
            0 => self.source = text(self.edition, rng, units),
            1 => self.computer = text(self.edition, rng, units),
            2 => self.push_string(rng, units),
            3 => {
                self.strings.clear();
                self.fields.num_strings = 0;
                let count = rng.pick(&[255, 256, 256]);
                for _ in 0..count {
                    let units = rng.range(0, units / count);
                    self.push_string(rng, units);
                }
            }
            _ => {
                let n = rng.pick(&[MAX_DATA, MAX_DATA - 1, n.min(MAX_DATA)]);
                self.data = rng.bytes(n);
            }
        }
        if rng.once_in(3) {
            let length = rng.pick(&EDGES);
            self.fit(rng, length);
        }
    }

    /// Lengthens a name or the last string so that the Length is this one, where
    /// it is shorter.
    pub fn fit(&mut self, rng: &mut Random, length: usize) {
        let more = length.saturating_sub(self.length());
        let zero = zero(self.edition);
        let longer = text(self.edition, rng, more / zero.len());
        match rng.below(3) {
            0 => self.source.extend(longer),
            2 if self.strings.ends_with(zero) => {
                self.strings.truncate(self.strings.len() - zero.len());
                self.strings.extend(longer);
                self.strings.extend(zero);
            }
            _ => self.computer.extend(longer),
        }
    }

    /// An event with one to three things changed, mostly for the worse.
    pub fn bad(edition: Edition, rng: &mut Random, size: Size) -> Made {
        let mut made = Made::good(edition, rng, size);
        for _ in 0..rng.range(1, 3) {
            made.corrupt(rng);
        }
        made
    }

    fn corrupt(&mut self, rng: &mut Random) {
        let edition = self.edition;
        let f = &mut self.fields;
        match rng.below(17) {
            0 => {
                f.event_type = match rng.below(3) {
                    0 => 1 << rng.below(16),
                    1 => rng.below(40) as u16,
                    _ => rng.bits() as u16,
                }
            }
            1 => f.reserved_flags = 1 << rng.below(16) | rng.pick(&[0, 0x8000]),
            16 => f.reserved_flags = 0x8000,
            2 => f.num_strings = rng.pick(&[0, 1, 255, 256, 257, 258, 0x8000, 0xFFFF]),
            3 => f.num_strings = f.num_strings.wrapping_add(rng.pick(&[1, 0xFFFF])),
            4 => corrupt_text(edition, rng, &mut self.source),
            5 => corrupt_text(edition, rng, &mut self.computer),
            6 => corrupt_text(edition, rng, &mut self.strings),
            7 => self.strings.extend(zero(edition)),
            8..=11 => self.sid = corrupt_sid(rng),
            12 => {
                let len = rng.pick(&[MAX_DATA, MAX_DATA + 1, MAX_DATA + 2, 65_536, 70_000]);
                self.data.resize(len, 7);
            }
            13 => {
                let length = match rng.below(12) {
                    0 => rng.pick(&[MAX_LENGTH - 4, MAX_LENGTH, TOO_LONG]),
                    1 => rng.pick(&EDGES),
                    _ => 4 * rng.range(16, 2000),
                };
                self.fit(rng, length);
            }
            14 => {
                // About what 16 bits count, in bytes; seldom about the limit.
                let most = rng.pick(&[66_000, 66_000, 66_000, 66_000, 66_000, 262_400]);
                let units = rng.range(most - 600, most) / width(edition);
                self.computer = text(edition, rng, units);
            }
            _ => f.record_number = u32::MAX,
        }
    }

    pub fn plain(&self) -> plain::Event<'_> {
        plain::Event {
            fields: self.fields,
            source_name: &self.source,
            computer_name: &self.computer,
            sid: &self.sid,
            strings: &self.strings,
            event_data: &self.data,
        }
    }

    /// The event for the proved library, which takes the number by itself.
    pub fn proved(&self) -> eventlog::Event<'_> {
        let f = self.fields;
        eventlog::Event {
            time_generated: f.time_generated,
            time_written: f.time_written,
            event_id: f.event_id,
            event_type: f.event_type,
            num_strings: f.num_strings,
            event_category: f.event_category,
            reserved_flags: f.reserved_flags,
            source_name: eventlog::Text::new(&self.source),
            computer_name: eventlog::Text::new(&self.computer),
            sid: &self.sid,
            strings: &self.strings,
            event_data: &self.data,
        }
    }

    fn names_end(&self) -> usize {
        let width = width(self.edition);
        56 + self.source.len() + width + self.computer.len() + width
    }

    /// The gap after the names, as the writer pads.
    fn padding(&self) -> usize {
        aligned(self.names_end()) - self.names_end()
    }

    /// The laid-out size with a gap after the names.
    fn length_with(&self, gap: usize) -> usize {
        let parts = self.sid.len() + self.strings.len() + self.data.len();
        aligned(self.names_end() + gap + parts) + 4
    }

    /// The size as the writer lays it out.
    pub fn length(&self) -> usize {
        self.length_with(self.padding())
    }

    /// The record as the writer lays it out; the ignored bytes are zero, or any.
    pub fn encode(&self, any: Option<&mut Random>) -> Vec<u8> {
        self.gapped(self.padding(), any)
    }

    /// A gap after the names with which the record is not too long: the padding,
    /// none, a few bytes, or any number (Rule 2.12). A small record stays short: it
    /// may be data of another one, and some families go over each of its bytes.
    fn some_gap(&self, rng: &mut Random, size: Size) -> usize {
        let most = match size {
            Size::Small => 2000,
            _ => MAX_LENGTH,
        };
        let gap = match rng.below(8) {
            0..4 => self.padding(),
            4 => 0,
            _ if rng.once_in(100) => rng.below(most),
            _ => rng.range(0, 40),
        };
        if self.length_with(gap) <= MAX_LENGTH {
            gap
        } else {
            self.padding()
        }
    }

    /// The record, laid out as Rule 2.2 has it with this gap after the names; the
    /// ignored bytes are zero, or any.
    pub fn gapped(&self, gap: usize, mut any: Option<&mut Random>) -> Vec<u8> {
        let mut ignored = |len: usize| match &mut any {
            Some(rng) => rng.bytes(len),
            None => vec![0; len],
        };
        let sid_at = self.names_end() + gap;
        let strings_at = sid_at + self.sid.len();
        let data_at = strings_at + self.strings.len();
        let whole = self.length_with(gap);
        let length = (whole as u32).to_le_bytes();
        let mut offset = |present: bool, at: usize| match present {
            true => (at as u32).to_le_bytes().to_vec(),
            false => ignored(4),
        };
        let string_offset = offset(self.fields.num_strings != 0, strings_at);
        let sid_offset = offset(!self.sid.is_empty(), sid_at);
        let data_offset = offset(!self.data.is_empty(), data_at);

        let mut out = Vec::with_capacity(whole);
        out.extend(length);
        out.extend(0x654C_664Cu32.to_le_bytes());
        self.put_fields(&mut out);
        out.extend(ignored(4));
        out.extend(string_offset);
        out.extend((self.sid.len() as u32).to_le_bytes());
        out.extend(sid_offset);
        out.extend((self.data.len() as u32).to_le_bytes());
        out.extend(data_offset);
        out.extend(&self.source);
        out.extend(zero(self.edition));
        out.extend(&self.computer);
        out.extend(zero(self.edition));
        out.extend(ignored(sid_at - out.len()));
        out.extend(&self.sid);
        out.extend(&self.strings);
        out.extend(&self.data);
        out.extend(ignored(whole - 4 - out.len()));
        out.extend(length);
        out
    }

    /// The fields from RecordNumber to ReservedFlags.
    fn put_fields(&self, out: &mut Vec<u8>) {
        let f = self.fields;
        for field in [
            f.record_number,
            f.time_generated,
            f.time_written,
            f.event_id,
        ] {
            out.extend(field.to_le_bytes());
        }
        for field in [
            f.event_type,
            f.num_strings,
            f.event_category,
            f.reserved_flags,
        ] {
            out.extend(field.to_le_bytes());
        }
    }
}

fn corrupt_text(edition: Edition, rng: &mut Random, bytes: &mut Vec<u8>) {
    let zero = zero(edition);
    match rng.below(4) {
        0 => bytes.push(rng.bits() as u8),
        1 => {
            bytes.pop();
        }
        2 => {
            let at = rng.below(bytes.len() / zero.len() + 1) * zero.len();
            let tail = bytes.split_off(at.min(bytes.len()));
            bytes.extend(zero);
            bytes.extend(tail);
        }
        _ => {
            let at = rng.below(bytes.len() + 1);
            let len = rng.range(0, 3);
            let more = rng.bytes(len);
            let tail = bytes.split_off(at);
            bytes.extend(more);
            bytes.extend(tail);
        }
    }
}

/// A good record with any bytes where they are ignored.
pub fn record(edition: Edition, rng: &mut Random, size: Size) -> Vec<u8> {
    let made = Made::good(edition, rng, size);
    let gap = made.some_gap(rng, size);
    made.gapped(gap, Some(rng))
}

/// A record of the largest Length with no gap after the names. Padded, it would be
/// too long.
pub fn longest_without_gap(edition: Edition, rng: &mut Random) -> Vec<u8> {
    // The names end two bytes behind a multiple of 4.
    let width = width(edition);
    let units = (200_698 - 56 - 2 * width) / width;
    let made = Made {
        source: text(edition, rng, units),
        data: rng.bytes(MAX_DATA - 2),
        ..Made::new(edition)
    };
    let record = made.gapped(0, Some(rng));
    assert_eq!((record.len(), made.length()), (MAX_LENGTH, TOO_LONG));
    record
}

/// A record of this Length in which a text runs up to Length2, and all else is
/// right; and its refusal.
pub fn unended(edition: Edition, rng: &mut Random, length: usize) -> (Vec<u8>, u32) {
    let width = width(edition);
    let mut made = Made::good(edition, rng, Size::Small);
    made.data.clear();
    made.push_string(rng, 0);
    let strings_at = aligned(made.names_end()) + made.sid.len();
    let (from, refusal) = rng.pick(&[
        (56, 9),
        (56 + made.source.len() + width, 9),
        (strings_at + made.strings.len() - width, 11),
    ]);
    let mut bytes = made.encode(Some(rng));
    bytes.truncate(from);
    bytes.extend(text(edition, rng, (length - 4 - from) / width));
    bytes.extend((length as u32).to_le_bytes());
    put(&mut bytes, 0, 4, length as u32);
    (bytes, refusal)
}

/// A good record whose data is records and pieces of records.
pub fn nested(edition: Edition, rng: &mut Random) -> Vec<u8> {
    let mut outer = Made::good(edition, rng, Size::Small);
    let lead = rng.below(4);
    outer.data = rng.bytes(lead);
    for _ in 0..rng.range(1, 3) {
        let inner = record(edition, rng, Size::Small);
        let len = if rng.once_in(3) {
            rng.below(inner.len())
        } else {
            inner.len()
        };
        outer.data.extend(&inner[..len]);
    }
    outer.encode(Some(rng))
}

/// Small numbers, and those next to a limit.
const NUMBERS: [u32; 67] = [
    0, 1, 2, 3, 4, 5, 7, 8, 9, 11, 12, 15, 16, 17, 20, 24, 31, 32, 33, 56, 57, 58, 60, 61, 62, 63,
    64, 65, 66, 68, 69, 72, 76, 127, 128, 255, 256, 257, 0x4000, 0x7FFF, 0x8000, 0x8001, 0xC000,
    0xFFFE, 0xFFFF, 61_436, 61_439, 61_440, 61_441, 61_444, 65_528, 65_531, 65_532, 65_533, 65_536,
    65_540, 131_068, 131_072, 196_604, 196_608, 262_136, 262_139, 262_140, 262_141, 262_143,
    262_144, 262_148,
];

/// Signatures, and numbers with which a 32-bit sum wraps.
const WIDE_NUMBERS: [u32; 9] = [
    0x654C_664C,
    0x664C_654C,
    0x7FFF_FFFF,
    0x8000_0000,
    0xFFFF_0000,
    0xFFFF_FFF0,
    0xFFFF_FFFC,
    0xFFFF_FFFE,
    0xFFFF_FFFF,
];

/// Values for a field with value `old` in a record of this Length.
pub fn boundary_values(old: u32, length: u32) -> Vec<u32> {
    let mut values = [&NUMBERS[..], &WIDE_NUMBERS].concat();
    for near in [old, length, length.wrapping_sub(4), old.wrapping_neg()] {
        for by in [0, 1, 2, 3, 4, 8, 0x100, 0x1_0000, 0x8000_0000] {
            values.push(near.wrapping_add(by));
            values.push(near.wrapping_sub(by));
        }
    }
    values.push(length.wrapping_sub(4).wrapping_sub(old));
    values.extend((0..32).map(|bit| old ^ 1 << bit));
    values.sort_unstable();
    values.dedup();
    values
}

/// Puts the low bytes of a number.
pub fn put(bytes: &mut [u8], at: usize, size: usize, value: u32) {
    if let Some(field) = bytes.get_mut(at..).and_then(|from| from.get_mut(..size)) {
        field.copy_from_slice(&value.to_le_bytes()[..size]);
    }
}

/// The number in some bytes.
pub fn get(bytes: &[u8], at: usize, size: usize) -> u32 {
    let mut value = [0; 4];
    value[..size].copy_from_slice(&bytes[at..at + size]);
    u32::from_le_bytes(value)
}

/// Changes some bytes, sometimes the length.
pub fn damage(rng: &mut Random, bytes: &mut Vec<u8>) {
    for _ in 0..rng.range(1, 3) {
        if bytes.is_empty() {
            return;
        }
        let at = match rng.below(3) {
            0 => rng.below(bytes.len().min(64)),
            1 => bytes.len() - 1 - rng.below(bytes.len().min(8)),
            _ => rng.below(bytes.len()),
        };
        match rng.below(8) {
            0 => bytes[at] = 0,
            1 => bytes[at] = 0xFF,
            2 => bytes[at] = rng.bits() as u8,
            3 => bytes[at] = bytes[at].wrapping_add(rng.pick(&[1, 2, 4, 252, 254, 255])),
            4 => {
                bytes.remove(at);
            }
            5 => bytes.insert(at, rng.bits() as u8),
            6 => {
                // Two bytes, as a unit may lie.
                let value = rng.pick(&[0, 1, 0x100, 0xFFFF]);
                put(bytes, at & !1, 2, value);
            }
            _ => bytes[at] ^= 1 << rng.below(8),
        }
    }
}

/// A log and the places between its records. Broken logs have garbage between
/// or in them; then the places are only likely ones.
pub fn log(
    edition: Edition,
    rng: &mut Random,
    count: usize,
    size: Size,
    broken: bool,
) -> (Vec<u8>, Vec<usize>) {
    let mut bytes = Vec::new();
    let mut places = vec![0];
    let first = number(rng);
    let numbered = rng.once_in(2);
    let bad = if broken { rng.below(count + 1) } else { count };
    for i in 0..count {
        let mut made = Made::good(edition, rng, size);
        made.fields.record_number = match numbered {
            true => first.wrapping_add(i as u32),
            false => rng.below(5) as u32,
        };
        let mut record = match rng.once_in(8) && size == Size::Small {
            true => nested(edition, rng),
            false => made.encode(Some(rng)),
        };
        if i == bad {
            match rng.below(3) {
                0 => {
                    let len = rng.range(1, 80);
                    bytes.extend(rng.bytes(len));
                }
                1 => {
                    let len = rng.below(record.len());
                    record.truncate(len);
                }
                _ => damage(rng, &mut record),
            }
        }
        bytes.extend(record);
        places.push(bytes.len());
    }
    if bad == count && broken {
        let len = rng.range(1, 80);
        bytes.extend(rng.bytes(len));
        places.push(bytes.len());
    }
    (bytes, places)
}

/// Good records that have exactly so many bytes together, a multiple of 4 and at
/// least 1,024.
pub fn records_of(edition: Edition, rng: &mut Random, len: usize) -> Vec<u8> {
    let mut bytes = Vec::with_capacity(len);
    // The last two share the rest, so that neither is too short or too long.
    while len - bytes.len() > 2 * MAX_LENGTH {
        bytes.extend(record(edition, rng, Size::Large));
    }
    while len - bytes.len() > 4096 {
        let size = rng.pick(&[Size::Small, Size::Medium]);
        let next = record(edition, rng, size);
        if len - bytes.len() < next.len() + 1024 || rng.once_in(40) {
            break;
        }
        bytes.extend(next);
    }
    let half = (len - bytes.len()) / 8 * 4;
    for length in [half, len - bytes.len() - half] {
        let mut made = Made::good(edition, rng, Size::Small);
        made.fit(rng, length);
        bytes.extend(made.encode(Some(rng)));
    }
    assert_eq!(bytes.len(), len);
    bytes
}

/// Where the good records of a batch start, from the front.
pub fn starts(edition: Edition, batch: &[u8]) -> Vec<usize> {
    let mut starts = Vec::new();
    let mut at = 0;
    while let Ok(length) = plain::judge(edition, batch, at) {
        starts.push(at);
        at += length;
    }
    starts
}

/// A buffer with a plausible head over a body with many zero units.
pub fn noise(edition: Edition, rng: &mut Random) -> Vec<u8> {
    let length = 64 + 4 * rng.below(30);
    let few = rng.range(2, 5) as u64;
    let mut out: Vec<u8> = (0..length)
        .map(|_| (rng.bits() % few).saturating_sub(1) as u8)
        .collect();
    let mut put_some = |at, size, value: u32| {
        if !rng.once_in(24) {
            put(&mut out, at, size, value);
        }
    };
    put_some(0, 4, length as u32);
    put_some(4, 4, 0x654C_664C);
    put_some(length - 4, 4, length as u32);
    put_some(24, 2, 2);
    put_some(30, 2, 0);
    put_some(26, 2, 0);
    put_some(40, 4, 0);
    put_some(48, 4, 0);
    place_parts(edition, rng, &mut out);
    out
}

/// Puts the parts where they belong, as far as the names and strings end.
fn place_parts(edition: Edition, rng: &mut Random, out: &mut [u8]) {
    let length = out.len();
    let zero = zero(edition);
    let after_zero = |from: usize, out: &[u8]| {
        (from..length - 3 - zero.len())
            .step_by(zero.len())
            .find(|at| out[*at..].starts_with(zero))
            .map(|at| at + zero.len())
    };
    let names_end = after_zero(56, out).and_then(|at| after_zero(at, out));
    let Some(names_end) = names_end else {
        return;
    };
    let mut at = match rng.below(3) {
        0 => aligned(names_end),
        1 => names_end,
        _ => names_end + rng.below(12),
    };
    if at + 80 > length {
        return;
    }
    if rng.once_in(2) {
        let n = rng.below(4);
        put(out, 40, 4, 8 + 4 * n as u32);
        put(out, 44, 4, at as u32);
        put(out, at, 2, 1 + 256 * n as u32);
        at += 8 + 4 * n;
        put(out, length - 4, 4, length as u32);
    }
    let count = rng.below(6);
    put(out, 26, 2, count as u32);
    put(out, 36, 4, at as u32);
    for _ in 0..count {
        match after_zero(at, out) {
            Some(after) => at = after,
            None => return,
        }
    }
    let left = (length - 4).saturating_sub(at);
    let data = (left + 1).saturating_sub(rng.below(6));
    put(out, 48, 4, data as u32);
    put(out, 52, 4, at as u32);
}
