//! Writing a record, appending one to a log, and the listing's text.

use crate::edition::Edition;
use crate::ffi;
use crate::refusal::{Refusal, Refused};
use crate::text::Text;

/// All that a record holds but its number, and all that appending takes but the
/// log. Names are given without their zero unit, the strings with theirs; an
/// empty part is absent.
///
/// ```
/// use eventlog::{event_type, utf16, Event};
///
/// let event = Event {
///     event_id: 300,
///     event_type: event_type::WARNING,
///     num_strings: 2,
///     source_name: utf16!("Scale"),
///     computer_name: utf16!("T1"),
///     strings: utf16!("overload\x0054320 g\0").as_bytes(),
///     ..Event::default()
/// };
/// assert!(event.sid.is_empty());
/// ```
#[derive(Clone, Copy, Debug, Default, PartialEq, Eq, Hash)]
pub struct Event<'a> {
    /// When the event was generated, in seconds since 1970.
    pub time_generated: u32,
    /// When the event was written, in seconds since 1970.
    pub time_written: u32,
    /// The event's identifier, of the source's own choice.
    pub event_id: u32,
    /// One of [`event_type`](crate::event_type).
    pub event_type: u16,
    /// How many strings there are.
    pub num_strings: u16,
    /// The event's category, of the source's own choice.
    pub event_category: u16,
    /// 0, or [`XML_FLAG`](crate::XML_FLAG).
    pub reserved_flags: u16,
    /// Who reported the event.
    pub source_name: Text<'a>,
    /// Where it was reported.
    pub computer_name: Text<'a>,
    /// The security identifier.
    pub sid: &'a [u8],
    /// The strings as one run, each with its zero unit.
    pub strings: &'a [u8],
    /// The event's data.
    pub event_data: &'a [u8],
}

/// Writes an event with a number as a record at the start of `out`, and returns
/// its Length.
///
/// # Errors
///
/// The first that applies of [`Refusal::EventType`], [`Refusal::Flags`],
/// [`Refusal::StringCount`], [`Refusal::Name`], [`Refusal::Sid`],
/// [`Refusal::Strings`], [`Refusal::Data`], [`Refusal::Length`] and
/// [`Refusal::Output`]. Then `out` is left as it was.
///
/// ```
/// use eventlog::{step, write, Edition::Unicode, Event, Refusal};
///
/// let event = Event { event_id: 300, ..Event::default() };
/// let mut out = [0; 100];
/// let length = write(Unicode, 7, &event, &mut out)?;
/// assert_eq!(step(Unicode, &out, 0)?.event, event);
/// assert_eq!(write(Unicode, 7, &event, &mut out[..length - 1]), Err(Refusal::Output));
/// # Ok::<(), Box<dyn std::error::Error>>(())
/// ```
#[inline]
pub fn write(
    edition: Edition,
    record_number: u32,
    event: &Event<'_>,
    out: &mut [u8],
) -> Result<usize, Refusal> {
    let written = ffi::write(edition, record_number, event, out);
    Refusal::unless(written.refusal, written.length)
}

/// Appends an event to the first `used` bytes of `log`, numbered one above the
/// last record there, or 1 where there is none, and returns the new used
/// length. After 4,294,967,295 comes 0. The edition is that of the last record
/// and of the new one.
///
/// # Errors
///
/// [`Refusal::Place`] where `used` is more than the buffer,
/// [`Refusal::LogEnd`] where no good record ends there, with the field of that
/// record that failed; then as [`write()`], into the rest of the buffer. Then
/// `log` is left as it was.
///
/// ```
/// use eventlog::{append, step_back, Edition::Unicode, Event, Refusal};
///
/// let mut log = [0; 150];
/// let used = append(Unicode, &mut log, 0, &Event::default())?;
/// let used = append(Unicode, &mut log, used, &Event::default())?;
/// assert_eq!(step_back(Unicode, &log, used)?.record_number, 2);
/// let full = append(Unicode, &mut log, used, &Event::default()).unwrap_err();
/// assert_eq!(full.refusal, Refusal::Output);
/// # Ok::<(), Box<dyn std::error::Error>>(())
/// ```
#[inline]
pub fn append(
    edition: Edition,
    log: &mut [u8],
    used: usize,
    event: &Event<'_>,
) -> Result<usize, Refused> {
    let appended = ffi::append(edition, log, used, event);
    Refused::unless(appended.refusal, appended.field, appended.used)
}

/// Writes the listing of a batch at the start of `out` and returns its text: a
/// line for the number of records and one for each of them, with its start,
/// Length and number; or only a line that tells the refusal, its place and the
/// field that failed. The listing program lists [`Edition::Unicode`].
///
/// # Errors
///
/// [`Refusal::Output`], where `out` is shorter than the text. Then it is left as
/// it was. [`LISTING_ROOM`](crate::LISTING_ROOM) bytes more than the batch are
/// always enough.
///
/// ```
/// use eventlog::{listing, write, Edition::Unicode, Event, Refusal};
///
/// let (mut batch, mut out) = ([0; 64], [0; 128]);
/// write(Unicode, 7, &Event::default(), &mut batch)?;
/// assert_eq!(listing(Unicode, &batch, &mut out)?, "records 1\n0 64 7\n");
/// assert_eq!(listing(Unicode, &batch[..63], &mut out)?, "refused 1 at 0 field 0\n");
/// assert_eq!(listing(Unicode, &batch, &mut out[..17])?, "records 1\n0 64 7\n");
/// assert_eq!(listing(Unicode, &batch, &mut out[..16]), Err(Refusal::Output));
/// # Ok::<(), Refusal>(())
/// ```
#[inline]
pub fn listing<'o>(edition: Edition, buffer: &[u8], out: &'o mut [u8]) -> Result<&'o str, Refusal> {
    let written = ffi::listing(edition, buffer, out);
    let length = Refusal::unless(written.refusal, written.length)?;
    Ok(ascii(&out[..length]))
}

/// The listing is proved to be letters, digits, blanks and newlines.
fn ascii(bytes: &[u8]) -> &str {
    core::str::from_utf8(bytes).expect("a listing is ASCII")
}
