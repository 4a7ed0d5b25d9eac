//! Records and their strings.

use core::error::Error;
use core::fmt;

use crate::edition::Edition;
use crate::ffi::{self, Part, Stepped};
use crate::refusal::{Refusal, Refused};
use crate::text::{Strings, Text};
use crate::write::Event;

/// A good record: where it starts in the buffer, its number, its event and
/// where its parts lie. The parts are the buffer's own bytes.
///
/// ```
/// use eventlog::{step, utf16, write, Edition::Unicode, Event};
///
/// let event = Event { source_name: utf16!("Scale"), event_data: &[1, 2, 3], ..Event::default() };
/// let mut buffer = [0; 100];
/// let length = write(Unicode, 7, &event, &mut buffer)?;
///
/// let record = step(Unicode, &buffer, 0)?;
/// assert_eq!((record.start, record.length, record.record_number), (0, length, 7));
/// assert_eq!(record.event, event);
/// # Ok::<(), Box<dyn std::error::Error>>(())
/// ```
#[non_exhaustive]
#[derive(Clone, Copy, Debug, PartialEq, Eq)]
pub struct Record<'a> {
    /// What it was read as.
    pub edition: Edition,
    /// Where the record starts in the buffer.
    pub start: usize,
    /// Length, the whole record in bytes.
    pub length: usize,
    /// The record's number.
    pub record_number: u32,
    /// All the rest that the record holds, as writing takes it. An absent part
    /// is empty.
    pub event: Event<'a>,
    /// Where the parts lie in the buffer.
    pub places: Places,
}

/// Where a record's parts lie in the buffer. An absent part has a place too:
/// where the order would put it.
///
/// ```
/// use eventlog::{step, write, Edition::Unicode, Event};
///
/// let mut buffer = [0; 64];
/// write(Unicode, 7, &Event::default(), &mut buffer)?;
/// let places = step(Unicode, &buffer, 0)?.places;
/// assert_eq!((places.source_name, places.computer_name, places.sid), (56, 58, 60));
/// # Ok::<(), Box<dyn std::error::Error>>(())
/// ```
#[non_exhaustive]
#[derive(Clone, Copy, Debug, PartialEq, Eq)]
pub struct Places {
    /// The first byte of the source name.
    pub source_name: usize,
    /// The first byte of the computer name.
    pub computer_name: usize,
    /// The first byte of the security identifier.
    pub sid: usize,
    /// The first byte of the strings.
    pub strings: usize,
    /// The first byte of the data.
    pub event_data: usize,
}

/// Why no record was read, the field that failed, and the place that was asked
/// for: the start in [`step`], the end in [`step_back`].
///
/// ```
/// use eventlog::{step, Edition::Unicode, Refusal};
///
/// let refused = step(Unicode, &[0; 64], 1).unwrap_err();
/// assert_eq!((refused.refusal, refused.at), (Refusal::Place, 1));
/// let text = "refused 1 at 1, field 0: the place is past the end, or too few bytes stand there";
/// assert_eq!(refused.to_string(), text);
/// ```
#[non_exhaustive]
#[derive(Clone, Copy, Debug, PartialEq, Eq)]
pub struct BadRecord {
    /// One of the reader's, numbers 1 to 13.
    pub refusal: Refusal,
    /// The place of the field that failed, counted from the record's start; 0
    /// where no field did.
    pub field: usize,
    /// The place asked for.
    pub at: usize,
}

impl fmt::Display for BadRecord {
    fn fmt(&self, f: &mut fmt::Formatter<'_>) -> fmt::Result {
        let BadRecord { refusal, field, at } = self;
        let number = refusal.number();
        write!(f, "refused {number} at {at}, field {field}: {refusal}")
    }
}

impl Error for BadRecord {}

impl<'a> Record<'a> {
    /// The strings, each without its zero unit.
    ///
    /// ```
    /// use eventlog::{step, utf16, write, Edition::Unicode, Event};
    ///
    /// let strings = utf16!("first\0second\0").as_bytes();
    /// let event = Event { num_strings: 2, strings, ..Event::default() };
    /// let mut buffer = [0; 100];
    /// write(Unicode, 1, &event, &mut buffer)?;
    /// assert!(step(Unicode, &buffer, 0)?.strings().eq(["first", "second"]));
    /// # Ok::<(), Box<dyn std::error::Error>>(())
    /// ```
    pub fn strings(&self) -> Strings<'a> {
        Strings::new(self.edition, self.event.strings)
    }

    /// String `k`, counted from 0, without its zero unit. The step that read the
    /// record has judged it; here it is not judged again, as [`string`] does.
    ///
    /// # Errors
    ///
    /// [`Refusal::NoString`], where the record has no such string.
    ///
    /// ```
    /// use eventlog::{step, utf16, write, Edition::Unicode, Event, Refusal};
    ///
    /// let strings = utf16!("first\0second\0").as_bytes();
    /// let event = Event { num_strings: 2, strings, ..Event::default() };
    /// let mut buffer = [0; 100];
    /// write(Unicode, 1, &event, &mut buffer)?;
    /// let record = step(Unicode, &buffer, 0)?;
    /// assert_eq!(record.string(1)?, "second");
    /// assert_eq!(record.string(2), Err(Refusal::NoString));
    /// # Ok::<(), Box<dyn std::error::Error>>(())
    /// ```
    #[inline]
    pub fn string(&self, k: u32) -> Result<Text<'a>, Refusal> {
        self.strings().nth(k as usize).ok_or(Refusal::NoString)
    }
}

/// Reads the record that starts at `at`.
///
/// # Errors
///
/// [`BadRecord`] with the first refusal that applies, and `at`.
///
/// ```
/// use eventlog::{step, write, Edition::Unicode, Event, Refusal};
///
/// let mut buffer = [0; 100];
/// let length = write(Unicode, 7, &Event::default(), &mut buffer[8..])?;
/// assert_eq!(step(Unicode, &buffer, 8)?.length, length);
/// assert_eq!(step(Unicode, &buffer, 9).unwrap_err().refusal, Refusal::Length);
/// # Ok::<(), Box<dyn std::error::Error>>(())
/// ```
#[inline]
pub fn step(edition: Edition, buffer: &[u8], at: usize) -> Result<Record<'_>, BadRecord> {
    record(edition, buffer, &ffi::step(edition, buffer, at))
}

/// Reads the record that ends at `end`.
///
/// # Errors
///
/// [`BadRecord`] with the first refusal that applies, and `end`.
///
/// ```
/// use eventlog::{step, step_back, write, Edition::Unicode, Event};
///
/// let mut buffer = [0; 100];
/// let length = write(Unicode, 7, &Event::default(), &mut buffer)?;
/// assert_eq!(step_back(Unicode, &buffer, length), step(Unicode, &buffer, 0));
/// # Ok::<(), eventlog::Refusal>(())
/// ```
#[inline]
pub fn step_back(edition: Edition, buffer: &[u8], end: usize) -> Result<Record<'_>, BadRecord> {
    record(edition, buffer, &ffi::step_back(edition, buffer, end))
}

/// Why the record that starts at `at` is refused, if it is. This costs a little
/// less than a [`step`], which shows the record too.
///
/// ```
/// use eventlog::{refusal, write, Edition::Unicode, Event, Refusal};
///
/// let mut buffer = [0; 64];
/// write(Unicode, 7, &Event::default(), &mut buffer)?;
/// assert_eq!(refusal(Unicode, &buffer, 0), None);
/// assert_eq!(refusal(Unicode, &buffer[..63], 0).unwrap().refusal, Refusal::Place);
/// # Ok::<(), eventlog::Refusal>(())
/// ```
#[must_use]
#[inline]
pub fn refusal(edition: Edition, buffer: &[u8], at: usize) -> Option<Refused> {
    let refused = ffi::refusal(edition, buffer, at);
    Refused::from_numbers(refused.refusal, refused.field)
}

/// String `k`, counted from 0, of the record that starts at `at`, without its
/// zero unit. It judges the record each time; for more than one string take
/// [`Record::strings`].
///
/// # Errors
///
/// The record's refusal, or [`Refusal::NoString`].
///
/// ```
/// use eventlog::{string, utf16, write, Edition::Unicode, Event, Refusal};
///
/// let event = Event { num_strings: 1, strings: utf16!("OK\0").as_bytes(), ..Event::default() };
/// let mut buffer = [0; 100];
/// write(Unicode, 7, &event, &mut buffer)?;
/// assert_eq!(string(Unicode, &buffer, 0, 0)?, "OK");
/// assert_eq!(string(Unicode, &buffer, 0, 1).unwrap_err().refusal, Refusal::NoString);
/// assert_eq!(string(Unicode, &buffer, 1, 0).unwrap_err().refusal, Refusal::Length);
/// # Ok::<(), Box<dyn std::error::Error>>(())
/// ```
#[inline]
pub fn string(edition: Edition, buffer: &[u8], at: usize, k: u32) -> Result<Text<'_>, Refused> {
    let part = ffi::string(edition, buffer, at, k);
    // No string lies at place 0, where a record's fixed part stands: so the refusal is asked for only where
    // there is one.
    if part.at == 0 {
        string_refusal(edition, buffer, at, k).map_or(Ok(()), Err)?;
    }
    Ok(Text::new(slice(buffer, part)))
}

/// Why string `k` of the record that starts at `at` is refused, if it is.
///
/// ```
/// use eventlog::{string_refusal, Edition::Unicode, Refusal};
/// assert_eq!(string_refusal(Unicode, &[], 0, 0).unwrap().refusal, Refusal::Place);
/// ```
#[must_use]
#[inline]
pub fn string_refusal(edition: Edition, buffer: &[u8], at: usize, k: u32) -> Option<Refused> {
    let refused = ffi::string_refusal(edition, buffer, at, k);
    Refused::from_numbers(refused.refusal, refused.field)
}

/// What a step answered, as Rust has it.
#[expect(
    clippy::inline_always,
    reason = "the record is then made where it is kept; else it is copied right after it was stored"
)]
#[inline(always)]
fn record<'a>(
    edition: Edition,
    buffer: &'a [u8],
    stepped: &Stepped,
) -> Result<Record<'a>, BadRecord> {
    let Stepped {
        refusal,
        field,
        at,
        ref found,
    } = *stepped;
    Refused::unless(refusal, field, ()).map_err(|Refused { refusal, field }| BadRecord {
        refusal,
        field,
        at,
    })?;
    let fields = found.fields;
    Ok(Record {
        edition,
        start: found.start,
        length: found.length,
        record_number: fields.record_number,
        event: Event {
            time_generated: fields.time_generated,
            time_written: fields.time_written,
            event_id: fields.event_id,
            event_type: fields.event_type,
            num_strings: fields.num_strings,
            event_category: fields.event_category,
            reserved_flags: fields.reserved_flags,
            source_name: Text::new(slice(buffer, found.source_name)),
            computer_name: Text::new(slice(buffer, found.computer_name)),
            sid: slice(buffer, found.sid),
            strings: slice(buffer, found.strings),
            event_data: slice(buffer, found.event_data),
        },
        places: Places {
            source_name: found.source_name.at,
            computer_name: found.computer_name.at,
            sid: found.sid.at,
            strings: found.strings.at,
            event_data: found.event_data.at,
        },
    })
}

/// The part's bytes. It is proved to lie in the buffer; a panic tells that the
/// structs here and in the library are laid out differently.
#[inline]
pub(crate) fn slice(buffer: &[u8], part: Part) -> &[u8] {
    &buffer[part.at..][..part.len]
}
