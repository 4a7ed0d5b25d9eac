//! The editions of records.

/// How wide the units of names and strings are. All else of a record is the same
/// in both editions. A record does not tell which one it has, so the caller says
/// it, one for all records of a buffer.
///
/// ```
/// use eventlog::{step, write, Edition, Event, Refusal, Text};
///
/// let event = Event { source_name: Text::new(b"Scale"), ..Event::default() };
/// let mut record = [0; 68];
/// // Five bytes are no whole number of UTF-16 units.
/// assert_eq!(write(Edition::Unicode, 1, &event, &mut record), Err(Refusal::Name));
/// write(Edition::Ansi, 1, &event, &mut record)?;
/// let name = step(Edition::Ansi, &record, 0)?.event.source_name;
/// assert_eq!(name.as_bytes(), b"Scale");
/// # Ok::<(), Box<dyn std::error::Error>>(())
/// ```
#[repr(u32)]
#[derive(Clone, Copy, Debug, PartialEq, Eq, Hash)]
pub enum Edition {
    /// Units of two bytes, UTF-16, little-endian.
    Unicode = 0,
    /// Units of one byte; which character a byte is, the library does not say.
    Ansi = 1,
}

impl Edition {
    /// The edition's number in C.
    ///
    /// ```
    /// assert_eq!(eventlog::Edition::Ansi.number(), 1);
    /// ```
    #[must_use]
    #[inline]
    pub const fn number(self) -> u32 {
        self as u32
    }

    /// How many bytes a unit has.
    ///
    /// ```
    /// use eventlog::Edition;
    /// assert_eq!((Edition::Unicode.width(), Edition::Ansi.width()), (2, 1));
    /// ```
    #[must_use]
    #[inline]
    pub const fn width(self) -> usize {
        match self {
            Edition::Unicode => 2,
            Edition::Ansi => 1,
        }
    }
}
