//! Serving read requests over a log (`ElfrReadELW`, MS-EVEN 3.1.4.7).

use core::error::Error;
use core::fmt;

use crate::constants::flags;
use crate::edition::Edition;
use crate::ffi;
use crate::types::Types;
use crate::walk::{Records, records};

/// Why a read is refused (NTSTATUS, under its name in MS-ERREF). Its text says
/// it in plain words.
///
/// ```
/// use eventlog::Status;
/// assert_eq!(Status::EndOfFile.to_string(), "no wanted record is left in that direction");
/// ```
#[non_exhaustive]
#[derive(Clone, Copy, Debug, PartialEq, Eq, Hash)]
pub enum Status {
    /// `STATUS_INVALID_HANDLE`: the handle's boundary is past the log's end.
    InvalidHandle,
    /// `STATUS_INVALID_PARAMETER`: flags, size or types are wrong, or no record
    /// has the number sought.
    InvalidParameter,
    /// `STATUS_END_OF_FILE`: no wanted record is left in that direction.
    EndOfFile,
    /// `STATUS_BUFFER_TOO_SMALL`: the next wanted record is longer than the size
    /// asked.
    BufferTooSmall {
        /// The next wanted record's Length.
        needed: usize,
    },
    /// `STATUS_EVENTLOG_FILE_CORRUPT`: a record is met that is not good, before a
    /// wanted one or before the number sought.
    EventlogFileCorrupt,
}

impl Status {
    /// The NTSTATUS.
    ///
    /// ```
    /// assert_eq!(eventlog::Status::EndOfFile.code(), 0xC000_0011);
    /// ```
    #[must_use]
    pub const fn code(self) -> u32 {
        match self {
            Status::InvalidHandle => 0xC000_0008,
            Status::InvalidParameter => 0xC000_000D,
            Status::EndOfFile => 0xC000_0011,
            Status::BufferTooSmall { .. } => 0xC000_0023,
            Status::EventlogFileCorrupt => 0xC000_018E,
        }
    }

    /// The status with the library's code, `None` for success.
    #[inline]
    fn from_code(code: u32, needed: usize) -> Option<Self> {
        Some(match code {
            0 => return None,
            0xC000_0008 => Status::InvalidHandle,
            0xC000_000D => Status::InvalidParameter,
            0xC000_0011 => Status::EndOfFile,
            0xC000_0023 => Status::BufferTooSmall { needed },
            0xC000_018E => Status::EventlogFileCorrupt,
            _ => panic!("status {code:#x}, which the library is proved never to answer"),
        })
    }
}

impl fmt::Display for Status {
    fn fmt(&self, f: &mut fmt::Formatter<'_>) -> fmt::Result {
        f.write_str(match self {
            Status::InvalidHandle => "the handle's boundary is past the log's end",
            Status::InvalidParameter => {
                "flags, size or types are wrong, or no record has the number sought"
            }
            Status::EndOfFile => "no wanted record is left in that direction",
            Status::BufferTooSmall { .. } => "the next wanted record is longer than the size asked",
            Status::EventlogFileCorrupt => "a record that is not good is met",
        })
    }
}

impl Error for Status {}

/// Where a handle stands in its log.
///
/// ```
/// use eventlog::Place;
/// assert_eq!(Place::default(), Place::Fresh);
/// ```
#[derive(Clone, Copy, Debug, Default, PartialEq, Eq, Hash)]
pub enum Place {
    /// Nothing was read yet.
    #[default]
    Fresh,
    /// The byte position between the records read last and next.
    Boundary(usize),
}

/// A read handle. Each read takes it and hands back the next one, a refused
/// read the same one; so it is handed over and cannot be copied.
///
/// ```
/// use eventlog::{Handle, Place, Types};
///
/// let handle = Handle { place: Place::Fresh, types: Types::ALL };
/// assert_eq!(Handle::fresh(Types::ALL), handle);
/// ```
///
/// ```compile_fail
/// let handle = eventlog::Handle::fresh(eventlog::Types::ALL);
/// let kept = handle;
/// let again = handle;
/// ```
#[derive(Debug, PartialEq, Eq, Hash)]
pub struct Handle {
    /// Where the next sequential read goes on. Any one may be given.
    pub place: Place,
    /// The types that its reads copy; each read hands them on. Any set may be
    /// given; one with other bits is refused.
    pub types: Types,
}

/// What a read starts from.
///
/// ```
/// use eventlog::{Direction, Edition::Unicode, Handle, ReadKind, Status, Types};
///
/// let sought = Handle::fresh(Types::ALL).read(Unicode, &[], ReadKind::Seek(7), Direction::Forwards, 0, &mut []);
/// assert_eq!(sought.unwrap_err().status, Status::InvalidParameter);
/// ```
#[derive(Clone, Copy, Debug, PartialEq, Eq, Hash)]
pub enum ReadKind {
    /// From the handle's place on.
    Sequential,
    /// From the first record on, from the front, that has this number, whatever
    /// its type.
    Seek(u32),
}

/// Which way a read goes.
///
/// ```
/// use eventlog::{append, Direction, Edition::Unicode, Event, Handle, ReadKind, Types};
///
/// let (mut log, mut out) = ([0; 128], [0; 64]);
/// let used = append(Unicode, &mut log, 0, &Event::default())?;
/// append(Unicode, &mut log, used, &Event::default())?;
/// for (direction, number) in [(Direction::Forwards, 1), (Direction::Backwards, 2)] {
///     let batch = Handle::fresh(Types::ALL).read(Unicode, &log, ReadKind::Sequential, direction, 64, &mut out)?;
///     assert_eq!(batch.records().next().unwrap()?.record_number, number);
/// }
/// # Ok::<(), Box<dyn std::error::Error>>(())
/// ```
#[derive(Clone, Copy, Debug, PartialEq, Eq, Hash)]
pub enum Direction {
    /// Oldest first.
    Forwards,
    /// Newest first; the bytes of a record are not turned round.
    Backwards,
}

/// What a read hands back.
///
/// ```
/// use eventlog::{append, Batch, Direction, Edition::Unicode, Event, Handle, Place, ReadKind, Types};
///
/// let (mut log, mut out) = ([0; 64], [0; 100]);
/// append(Unicode, &mut log, 0, &Event::default())?;
/// let Batch { bytes, handle, .. } =
///     Handle::fresh(Types::ALL).read(Unicode, &log, ReadKind::Sequential, Direction::Forwards, 100, &mut out)?;
/// assert_eq!(bytes, log);
/// assert_eq!(handle.place, Place::Boundary(64));
/// # Ok::<(), Box<dyn std::error::Error>>(())
/// ```
#[non_exhaustive]
#[derive(Debug, PartialEq, Eq)]
pub struct Batch<'o> {
    /// What the records were read as.
    pub edition: Edition,
    /// The records that were copied, one after another: the start of the output.
    pub bytes: &'o [u8],
    /// The handle for the next read.
    pub handle: Handle,
}

impl<'o> Batch<'o> {
    /// The records that were copied, in the order of reading.
    ///
    /// ```
    /// use eventlog::{append, Direction, Edition::Unicode, Event, Handle, ReadKind, Types};
    ///
    /// let (mut log, mut out) = ([0; 64], [0; 64]);
    /// append(Unicode, &mut log, 0, &Event::default())?;
    /// let kind = ReadKind::Sequential;
    /// let batch = Handle::fresh(Types::ALL).read(Unicode, &log, kind, Direction::Forwards, 64, &mut out)?;
    /// assert_eq!(batch.records().count(), 1);
    /// # Ok::<(), Box<dyn std::error::Error>>(())
    /// ```
    pub fn records(&self) -> Records<'o> {
        records(self.edition, self.bytes)
    }
}

/// What a refused read hands back; it leaves the output as it was.
///
/// ```
/// use eventlog::{append, Direction, Edition::Unicode, Event, Handle, ReadKind, Status, Types};
///
/// let mut log = [0; 64];
/// append(Unicode, &mut log, 0, &Event::default())?;
/// let refused = Handle::fresh(Types::ALL).read(Unicode, &log, ReadKind::Sequential, Direction::Forwards, 0, &mut []);
/// let error = refused.unwrap_err();
/// assert_eq!(error.status, Status::BufferTooSmall { needed: 64 });
/// assert_eq!(error.handle, Handle::fresh(Types::ALL));
/// let text = "status 0xC0000023: the next wanted record is longer than the size asked";
/// assert_eq!(error.to_string(), text);
/// # Ok::<(), eventlog::Refused>(())
/// ```
#[non_exhaustive]
#[derive(Debug, PartialEq, Eq)]
pub struct ReadError {
    /// Why nothing was read.
    pub status: Status,
    /// The handle that was given.
    pub handle: Handle,
}

impl fmt::Display for ReadError {
    fn fmt(&self, f: &mut fmt::Formatter<'_>) -> fmt::Result {
        write!(f, "status {:#010X}: {}", self.status.code(), self.status)
    }
}

impl Error for ReadError {}

impl Handle {
    /// A handle for these types with which nothing was read yet.
    ///
    /// ```
    /// use eventlog::{Handle, Place, Types};
    /// let handle = Handle::fresh(Types::ERROR);
    /// assert_eq!((handle.place, handle.types), (Place::Fresh, Types::ERROR));
    /// ```
    #[must_use]
    #[inline]
    pub fn fresh(types: Types) -> Self {
        ffi::fresh(types.bits()).into()
    }

    /// Copies to `out` as many records of the handle's types as fit in `size`
    /// bytes; the others are judged and skipped. The size is what a client asks
    /// for; `out` may be longer, and nothing past the size is written.
    ///
    /// # Errors
    ///
    /// [`ReadError`] with the first status that applies, and this handle.
    ///
    /// ```
    /// use eventlog::{append, Direction, Edition::Unicode, Event, Handle, ReadKind, Status, Types};
    ///
    /// let (mut log, mut out) = ([0; 128], [0; 100]);
    /// let used = append(Unicode, &mut log, 0, &Event::default())?;
    /// append(Unicode, &mut log, used, &Event::default())?;
    /// let mut handle = Handle::fresh(Types::ALL);
    /// let mut numbers = vec![];
    /// loop {
    ///     match handle.read(Unicode, &log, ReadKind::Sequential, Direction::Backwards, 100, &mut out) {
    ///         Ok(batch) => {
    ///             for record in batch.records() {
    ///                 numbers.push(record?.record_number);
    ///             }
    ///             handle = batch.handle;
    ///         }
    ///         Err(error) if error.status == Status::EndOfFile => break,
    ///         Err(error) => return Err(error.into()),
    ///     }
    /// }
    /// assert_eq!(numbers, [2, 1]);
    /// # Ok::<(), Box<dyn std::error::Error>>(())
    /// ```
    #[inline]
    pub fn read<'o>(
        self,
        edition: Edition,
        log: &[u8],
        kind: ReadKind,
        direction: Direction,
        size: usize,
        out: &'o mut [u8],
    ) -> Result<Batch<'o>, ReadError> {
        let direction = match direction {
            Direction::Forwards => flags::FORWARDS,
            Direction::Backwards => flags::BACKWARDS,
        };
        let (kind, number) = match kind {
            ReadKind::Sequential => (flags::SEQUENTIAL, 0),
            ReadKind::Seek(number) => (flags::SEEK, number),
        };
        self.read_with_flags(edition, log, kind | direction, number, size, out)
    }

    /// The same with the [`flags`] and the number of a request as they came, for
    /// a server: wrong flags are refused. The number is used for a seek only.
    ///
    /// # Errors
    ///
    /// As [`read`](Handle::read).
    ///
    /// ```
    /// use eventlog::{append, flags, Edition::Unicode, Event, Handle, Status, Types};
    ///
    /// let (mut log, mut out) = ([0; 64], [0; 64]);
    /// append(Unicode, &mut log, 0, &Event::default())?;
    /// let seek = flags::SEEK | flags::FORWARDS;
    /// let batch = Handle::fresh(Types::ALL).read_with_flags(Unicode, &log, seek, 1, 64, &mut out)?;
    /// assert_eq!(batch.bytes.len(), 64);
    /// let error = batch.handle.read_with_flags(Unicode, &log, 0, 1, 64, &mut out).unwrap_err();
    /// assert_eq!(error.status, Status::InvalidParameter);
    /// # Ok::<(), Box<dyn std::error::Error>>(())
    /// ```
    #[inline]
    pub fn read_with_flags<'o>(
        self,
        edition: Edition,
        log: &[u8],
        flags: u32,
        number: u32,
        size: usize,
        out: &'o mut [u8],
    ) -> Result<Batch<'o>, ReadError> {
        let answer = ffi::read(edition, self.into(), log, flags, number, size, out);
        let handle = answer.handle.into();
        match Status::from_code(answer.status, answer.needed) {
            None => Ok(Batch {
                edition,
                bytes: &out[..answer.read],
                handle,
            }),
            Some(status) => Err(ReadError { status, handle }),
        }
    }
}

impl From<ffi::Handle> for Handle {
    #[inline]
    fn from(handle: ffi::Handle) -> Self {
        let place = match handle.kind {
            0 => Place::Fresh,
            _ => Place::Boundary(handle.boundary),
        };
        let types = Types::from_bits(handle.types);
        Handle { place, types }
    }
}

impl From<Handle> for ffi::Handle {
    #[inline]
    fn from(handle: Handle) -> Self {
        let (kind, boundary) = match handle.place {
            Place::Fresh => (0, 0),
            Place::Boundary(boundary) => (1, boundary),
        };
        ffi::Handle {
            kind,
            types: handle.types.bits(),
            boundary,
        }
    }
}

#[cfg(test)]
mod tests {
    use super::*;

    #[test]
    fn codes() {
        assert_eq!(Status::from_code(0, 0), None);
        for code in [
            0xC000_0008,
            0xC000_000D,
            0xC000_0011,
            0xC000_0023,
            0xC000_018E,
        ] {
            assert_eq!(Status::from_code(code, 0).map(Status::code), Some(code));
        }
    }

    #[test]
    #[should_panic(expected = "status 0x1")]
    fn no_other_code() {
        Status::from_code(1, 0);
    }
}
