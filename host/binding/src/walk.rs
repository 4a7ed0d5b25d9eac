//! Walks over a batch of records, as a count and as iterators.

use core::error::Error;
use core::fmt;
use core::iter::FusedIterator;

use crate::constants::MIN_LENGTH;
use crate::edition::Edition;
use crate::ffi::{self, Walked};
use crate::record::{BadRecord, Record, step, step_back};
use crate::refusal::{Refusal, Refused};

/// Why a walk stopped before the batch was used up.
///
/// ```
/// use eventlog::{walk, Edition::Unicode, Refusal};
///
/// let stopped = walk(Unicode, &[0; 64]).unwrap_err();
/// assert_eq!((stopped.count, stopped.refusal, stopped.at), (0, Refusal::Length, 0));
/// let text = "refused 2 at 0, field 0, after 0 records: Length is out of range or not a multiple of 4";
/// assert_eq!(stopped.to_string(), text);
/// ```
#[non_exhaustive]
#[derive(Clone, Copy, Debug, PartialEq, Eq)]
pub struct StoppedWalk {
    /// Records found before.
    pub count: usize,
    /// The refusal of the record that stopped it.
    pub refusal: Refusal,
    /// The place of the field that failed, counted from that record's start.
    pub field: usize,
    /// Where that record starts; in a walk from the rear, where it ends.
    pub at: usize,
}

impl fmt::Display for StoppedWalk {
    fn fmt(&self, f: &mut fmt::Formatter<'_>) -> fmt::Result {
        let StoppedWalk {
            count,
            refusal,
            field,
            at,
        } = self;
        let number = refusal.number();
        write!(
            f,
            "refused {number} at {at}, field {field}, after {count} records: {refusal}"
        )
    }
}

impl Error for StoppedWalk {}

/// Counts the records of a batch, from the front.
///
/// # Errors
///
/// [`StoppedWalk`], where a record is refused.
///
/// ```
/// use eventlog::{append, walk, Edition::Unicode, Event};
///
/// let mut log = [0; 200];
/// let used = append(Unicode, &mut log, 0, &Event::default())?;
/// let used = append(Unicode, &mut log, used, &Event::default())?;
/// assert_eq!(walk(Unicode, &log[..used])?, 2);
/// let stopped = walk(Unicode, &log).unwrap_err();
/// assert_eq!((stopped.count, stopped.at), (2, used));
/// # Ok::<(), Box<dyn std::error::Error>>(())
/// ```
#[inline]
pub fn walk(edition: Edition, buffer: &[u8]) -> Result<usize, StoppedWalk> {
    counted(&ffi::walk(edition, buffer))
}

/// Counts the records of a batch, from the rear. Where [`walk`] refuses, so
/// does this, and the other way round; their errors may differ.
///
/// # Errors
///
/// [`StoppedWalk`], where a record is refused.
///
/// ```
/// use eventlog::{append, walk_back, Edition::Unicode, Event};
///
/// let mut log = [0; 200];
/// let used = append(Unicode, &mut log, 0, &Event::default())?;
/// assert_eq!(walk_back(Unicode, &log[..used])?, 1);
/// let stopped = walk_back(Unicode, &log).unwrap_err();
/// assert_eq!((stopped.count, stopped.at), (0, log.len()));
/// # Ok::<(), Box<dyn std::error::Error>>(())
/// ```
#[inline]
pub fn walk_back(edition: Edition, buffer: &[u8]) -> Result<usize, StoppedWalk> {
    counted(&ffi::walk_back(edition, buffer))
}

fn counted(walked: &Walked) -> Result<usize, StoppedWalk> {
    let Walked {
        count,
        refusal,
        field,
        at,
    } = *walked;
    Refused::unless(refusal, field, count).map_err(|Refused { refusal, field }| StoppedWalk {
        count,
        refusal,
        field,
        at,
    })
}

/// The records of a batch, from the front.
///
/// ```
/// use eventlog::{append, records, Edition::Unicode, Event};
///
/// let mut log = [0; 200];
/// let used = append(Unicode, &mut log, 0, &Event::default())?;
/// let used = append(Unicode, &mut log, used, &Event::default())?;
/// let mut numbers = vec![];
/// for record in records(Unicode, &log[..used]) {
///     numbers.push(record?.record_number);
/// }
/// assert_eq!(numbers, [1, 2]);
/// # Ok::<(), Box<dyn std::error::Error>>(())
/// ```
pub fn records(edition: Edition, buffer: &[u8]) -> Records<'_> {
    Records {
        edition,
        buffer,
        place: 0,
        stopped: false,
    }
}

/// The records of a batch, from the rear.
///
/// ```
/// use eventlog::{append, records_back, Edition::Unicode, Event};
///
/// let mut log = [0; 200];
/// let used = append(Unicode, &mut log, 0, &Event::default())?;
/// let used = append(Unicode, &mut log, used, &Event::default())?;
/// let mut numbers = vec![];
/// for record in records_back(Unicode, &log[..used]) {
///     numbers.push(record?.record_number);
/// }
/// assert_eq!(numbers, [2, 1]);
/// # Ok::<(), Box<dyn std::error::Error>>(())
/// ```
pub fn records_back(edition: Edition, buffer: &[u8]) -> RecordsBack<'_> {
    RecordsBack {
        edition,
        buffer,
        place: buffer.len(),
        stopped: false,
    }
}

/// Steps over a batch from the front until it is used up or a record is
/// refused; the refusal is the last item. Made by [`records`].
///
/// It has one end only, and [`RecordsBack`] is another iterator. Where the bytes
/// are good records one after another, both find the same ones. Where they are
/// not, a good record from the front can overlap a good one from the rear: an
/// iterator with two ends would answer both and end as if nothing was refused.
///
/// ```
/// use eventlog::{append, records, Edition::Unicode, Event};
///
/// let mut log = [0; 200];
/// let used = append(Unicode, &mut log, 0, &Event::default())?;
/// let mut records = records(Unicode, &log);
/// assert!(records.next().is_some_and(|record| record.is_ok()));
/// assert!(records.next().is_some_and(|record| record.is_err()));
/// assert_eq!(records.next(), None);
/// # Ok::<(), eventlog::Refused>(())
/// ```
#[derive(Clone, Debug)]
#[must_use = "an iterator does nothing until it is asked for items"]
pub struct Records<'a> {
    edition: Edition,
    buffer: &'a [u8],
    place: usize,
    stopped: bool,
}

impl Records<'_> {
    /// Where the next record starts: after a refusal the place of the record
    /// that was refused, at the end the buffer's length.
    ///
    /// ```
    /// use eventlog::{append, records, Edition::Unicode, Event};
    ///
    /// let mut log = [0; 200];
    /// let used = append(Unicode, &mut log, 0, &Event::default())?;
    /// let mut records = records(Unicode, &log);
    /// records.by_ref().for_each(drop);
    /// assert_eq!(records.place(), used);
    /// # Ok::<(), eventlog::Refused>(())
    /// ```
    #[must_use]
    pub fn place(&self) -> usize {
        self.place
    }
}

impl<'a> Iterator for Records<'a> {
    type Item = Result<Record<'a>, BadRecord>;

    #[inline]
    fn next(&mut self) -> Option<Self::Item> {
        if self.stopped || self.place >= self.buffer.len() {
            return None;
        }
        let answer = step(self.edition, self.buffer, self.place);
        match &answer {
            Ok(record) => self.place += record.length,
            Err(_) => self.stopped = true,
        }
        Some(answer)
    }

    fn size_hint(&self) -> (usize, Option<usize>) {
        size_hint(self.stopped, self.buffer.len() - self.place)
    }
}

impl FusedIterator for Records<'_> {}

/// Steps over a batch from the rear until the front is reached or a record is
/// refused; the refusal is the last item. Made by [`records_back`].
///
/// ```
/// use eventlog::{append, records_back, Edition::Unicode, Event};
///
/// let mut log = [0; 200];
/// let used = append(Unicode, &mut log, 0, &Event::default())?;
/// let mut records = records_back(Unicode, &log[..used]);
/// assert!(records.next().is_some_and(|record| record.is_ok()));
/// assert_eq!(records.next(), None);
/// # Ok::<(), eventlog::Refused>(())
/// ```
#[derive(Clone, Debug)]
#[must_use = "an iterator does nothing until it is asked for items"]
pub struct RecordsBack<'a> {
    edition: Edition,
    buffer: &'a [u8],
    place: usize,
    stopped: bool,
}

impl RecordsBack<'_> {
    /// Where the next record ends: after a refusal the end that was refused, at
    /// the front 0.
    ///
    /// ```
    /// use eventlog::{append, records_back, Edition::Unicode, Event};
    ///
    /// let mut log = [0; 200];
    /// let used = append(Unicode, &mut log, 0, &Event::default())?;
    /// let mut records = records_back(Unicode, &log[..used]);
    /// assert_eq!(records.place(), used);
    /// records.by_ref().for_each(drop);
    /// assert_eq!(records.place(), 0);
    /// # Ok::<(), eventlog::Refused>(())
    /// ```
    #[must_use]
    pub fn place(&self) -> usize {
        self.place
    }
}

impl<'a> Iterator for RecordsBack<'a> {
    type Item = Result<Record<'a>, BadRecord>;

    #[inline]
    fn next(&mut self) -> Option<Self::Item> {
        if self.stopped || self.place == 0 {
            return None;
        }
        let answer = step_back(self.edition, self.buffer, self.place);
        match &answer {
            Ok(record) => self.place = record.start,
            Err(_) => self.stopped = true,
        }
        Some(answer)
    }

    fn size_hint(&self) -> (usize, Option<usize>) {
        size_hint(self.stopped, self.place)
    }
}

impl FusedIterator for RecordsBack<'_> {}

/// From the bytes that are left: at least one item, and a record has 64 bytes
/// or more.
fn size_hint(stopped: bool, left: usize) -> (usize, Option<usize>) {
    if stopped || left == 0 {
        (0, Some(0))
    } else {
        (1, Some(left.div_ceil(MIN_LENGTH)))
    }
}
