//! The numbers that the rules name.

/// The shortest record, in bytes.
///
/// ```
/// use eventlog::{write, Edition::Unicode, Event, MIN_LENGTH};
/// assert_eq!(write(Unicode, 1, &Event::default(), &mut [0; 100]), Ok(MIN_LENGTH));
/// ```
pub const MIN_LENGTH: usize = 64;

/// The longest record, in bytes. An output of this length has room for any one.
///
/// ```
/// use eventlog::{write, Edition::Unicode, Event, Refusal, Text, MAX_LENGTH, MIN_LENGTH};
/// let (name, mut out) = (vec![1; MAX_LENGTH], vec![0; MAX_LENGTH]);
/// let mut of = |len| {
///     let source_name = Text::new(&name[..len]);
///     write(Unicode, 1, &Event { source_name, ..Event::default() }, &mut out)
/// };
/// assert_eq!(of(MAX_LENGTH - MIN_LENGTH), Ok(MAX_LENGTH));
/// assert_eq!(of(MAX_LENGTH), Err(Refusal::Length));
/// ```
pub const MAX_LENGTH: usize = 262_140;

/// The most strings in a record.
///
/// ```
/// use eventlog::{write, Edition::Unicode, Event, Refusal, MAX_STRINGS};
/// let zeros = [0; 1000];
/// let of = |n: u16| {
///     let strings = &zeros[..2 * usize::from(n)];
///     write(Unicode, 1, &Event { num_strings: n, strings, ..Event::default() }, &mut [0; 1000])
/// };
/// assert!(of(MAX_STRINGS).is_ok());
/// assert_eq!(of(MAX_STRINGS + 1), Err(Refusal::StringCount));
/// ```
pub const MAX_STRINGS: u16 = 256;

/// The longest security identifier, in bytes.
///
/// ```
/// use eventlog::{write, Edition::Unicode, Event, Refusal, MAX_SID};
/// let mut sid = [0; MAX_SID + 4];
/// sid[..2].copy_from_slice(&[1, 15]);
/// let of = |sid| write(Unicode, 1, &Event { sid, ..Event::default() }, &mut [0; 200]);
/// assert!(of(&sid[..MAX_SID]).is_ok());
/// assert_eq!(of(&sid), Err(Refusal::Sid));
/// ```
pub const MAX_SID: usize = 68;

/// The most data in a record, in bytes.
///
/// ```
/// use eventlog::{write, Edition::Unicode, Event, Refusal, MAX_DATA, MAX_LENGTH};
/// let (data, mut out) = ([0; MAX_DATA + 1], vec![0; MAX_LENGTH]);
/// let mut of = |event_data| write(Unicode, 1, &Event { event_data, ..Event::default() }, &mut out);
/// assert!(of(&data[1..]).is_ok());
/// assert_eq!(of(&data), Err(Refusal::Data));
/// ```
pub const MAX_DATA: usize = 61_440;

/// The most that one read may ask for, in bytes.
///
/// ```
/// use eventlog::{Direction, Edition::Unicode, Handle, ReadKind, Status, Types, MAX_READ};
/// let mut out = vec![0; MAX_READ + 1];
/// let mut status = |size| {
///     let kind = ReadKind::Sequential;
///     let empty = Handle::fresh(Types::ALL).read(Unicode, &[], kind, Direction::Forwards, size, &mut out);
///     empty.unwrap_err().status
/// };
/// assert_eq!(status(MAX_READ), Status::EndOfFile);
/// assert_eq!(status(MAX_READ + 1), Status::InvalidParameter);
/// ```
pub const MAX_READ: usize = 524_287;

/// So many bytes more than the batch are always enough for a listing's output.
///
/// ```
/// use eventlog::{listing, Edition::Unicode, Refusal, LISTING_ROOM};
/// assert_eq!(listing(Unicode, &[], &mut [0; LISTING_ROOM]), Ok("records 0\n"));
/// assert_eq!(listing(Unicode, &[], &mut [0; 9]), Err(Refusal::Output));
/// ```
pub const LISTING_ROOM: usize = 64;

/// Reserved, which every record has in its second four bytes.
///
/// ```
/// use eventlog::{write, Edition::Unicode, Event, SIGNATURE};
/// let mut record = [0; 64];
/// write(Unicode, 1, &Event::default(), &mut record)?;
/// assert_eq!(record[4..8], SIGNATURE.to_le_bytes());
/// # Ok::<(), eventlog::Refusal>(())
/// ```
pub const SIGNATURE: u32 = 0x654C_664C;

/// The one value of [`Event::reserved_flags`](crate::Event::reserved_flags)
/// other than 0: the last string is XML, so there is one at least.
///
/// ```
/// use eventlog::{write, Edition::Unicode, Event, Refusal, XML_FLAG};
/// let none = Event { reserved_flags: XML_FLAG, ..Event::default() };
/// assert_eq!(write(Unicode, 1, &none, &mut [0; 68]), Err(Refusal::Flags));
/// let one = Event { num_strings: 1, strings: &[0, 0], ..none };
/// assert!(write(Unicode, 1, &one, &mut [0; 68]).is_ok());
/// ```
pub const XML_FLAG: u16 = 0x8000;

/// The event types (MS-EVEN 2.2.2). No other number is one.
///
/// ```
/// use eventlog::{event_type::*, write, Edition::Unicode, Event, Refusal};
/// let of = |event_type| write(Unicode, 1, &Event { event_type, ..Event::default() }, &mut [0; 64]);
/// for event_type in [SUCCESS, ERROR, WARNING, INFORMATION, AUDIT_SUCCESS, AUDIT_FAILURE] {
///     assert!(of(event_type).is_ok());
/// }
/// assert_eq!(of(ERROR | WARNING), Err(Refusal::EventType));
/// ```
pub mod event_type {
    /// `EVENTLOG_SUCCESS`: it means the same as [`INFORMATION`].
    ///
    /// ```
    /// assert_eq!(eventlog::event_type::SUCCESS, 0);
    /// ```
    pub const SUCCESS: u16 = 0;
    /// `EVENTLOG_ERROR_TYPE`: a problem, such as a loss of data.
    ///
    /// ```
    /// assert_eq!(eventlog::event_type::ERROR, 1);
    /// ```
    pub const ERROR: u16 = 1;
    /// `EVENTLOG_WARNING_TYPE`: a possible problem later on.
    ///
    /// ```
    /// assert_eq!(eventlog::event_type::WARNING, 2);
    /// ```
    pub const WARNING: u16 = 2;
    /// `EVENTLOG_INFORMATION_TYPE`: something went as it should.
    ///
    /// ```
    /// assert_eq!(eventlog::event_type::INFORMATION, 4);
    /// ```
    pub const INFORMATION: u16 = 4;
    /// `EVENTLOG_AUDIT_SUCCESS`: an audited access that succeeded.
    ///
    /// ```
    /// assert_eq!(eventlog::event_type::AUDIT_SUCCESS, 8);
    /// ```
    pub const AUDIT_SUCCESS: u16 = 8;
    /// `EVENTLOG_AUDIT_FAILURE`: an audited access that failed.
    ///
    /// ```
    /// assert_eq!(eventlog::event_type::AUDIT_FAILURE, 16);
    /// ```
    pub const AUDIT_FAILURE: u16 = 16;
}

/// The bits of a read's flags, for
/// [`Handle::read_with_flags`](crate::Handle::read_with_flags): one of the
/// first two with one of the last two.
///
/// ```
/// use eventlog::{flags, Edition::Unicode, Handle, Status, Types};
/// let wrong = flags::SEQUENTIAL | flags::SEEK | flags::FORWARDS;
/// let refused = Handle::fresh(Types::ALL).read_with_flags(Unicode, &[], wrong, 0, 0, &mut []);
/// assert_eq!(refused.unwrap_err().status, Status::InvalidParameter);
/// ```
pub mod flags {
    /// Go on from the handle's place: [`ReadKind::Sequential`](crate::ReadKind::Sequential).
    ///
    /// ```
    /// assert_eq!(eventlog::flags::SEQUENTIAL, 1);
    /// ```
    pub const SEQUENTIAL: u32 = 1;
    /// Go to a record by its number: [`ReadKind::Seek`](crate::ReadKind::Seek).
    ///
    /// ```
    /// assert_eq!(eventlog::flags::SEEK, 2);
    /// ```
    pub const SEEK: u32 = 2;
    /// Oldest first: [`Direction::Forwards`](crate::Direction::Forwards).
    ///
    /// ```
    /// assert_eq!(eventlog::flags::FORWARDS, 4);
    /// ```
    pub const FORWARDS: u32 = 4;
    /// Newest first: [`Direction::Backwards`](crate::Direction::Backwards).
    ///
    /// ```
    /// assert_eq!(eventlog::flags::BACKWARDS, 8);
    /// ```
    pub const BACKWARDS: u32 = 8;
}
