//! Why a call refuses.

use core::error::Error;
use core::fmt;

/// Why a call refuses, by the number that the library answers. Its text says it
/// in plain words.
///
/// ```
/// use eventlog::{refusal, Edition::Unicode, Refusal};
///
/// let refused = refusal(Unicode, &[], 0).unwrap();
/// assert_eq!(refused.refusal, Refusal::Place);
/// assert_eq!(Refusal::Length2.to_string(), "Length and Length2 differ");
/// ```
#[non_exhaustive]
#[repr(u32)]
#[derive(Clone, Copy, Debug, PartialEq, Eq, Hash)]
pub enum Refusal {
    /// The place is past the end, or too few bytes stand there.
    Place = 1,
    /// Length is out of range or not a multiple of 4.
    Length = 2,
    /// Length is more than the bytes left.
    CutShort = 3,
    /// Reserved is not the [signature](crate::SIGNATURE).
    Signature = 4,
    /// Length and Length2 differ.
    Length2 = 5,
    /// The event type is none of the [six](crate::event_type).
    EventType = 6,
    /// The flags are neither 0 nor, with at least one string, 0x8000.
    Flags = 7,
    /// There are more than 256 strings.
    StringCount = 8,
    /// A name is not ended (reading) or cannot be a name (writing).
    Name = 9,
    /// The SID is wrong or misplaced.
    Sid = 10,
    /// The strings are misplaced, not ended, or not as many as said.
    Strings = 11,
    /// The data is too long or misplaced.
    Data = 12,
    /// Length is not the laid-out size.
    Size = 13,
    /// The log does not end with a good record.
    LogEnd = 14,
    /// The output is too short.
    Output = 15,
    /// There is no such string: the record has not so many, or none starts at
    /// the place of a run.
    NoString = 17,
    /// A unit is none of [windows-1252](crate::windows_1252), or half a unit is
    /// left.
    Unit = 18,
    /// The log is longer than a [card](crate::card) carries.
    CardLog = 19,
    /// A card's image is not whole blocks, or too few or too many, or it has no
    /// block at the place.
    CardLength = 20,
    /// A block's check is wrong.
    BlockCheck = 21,
    /// A block's number is not its place.
    BlockNumber = 22,
    /// A block's used count is wrong, or its rest is not zero.
    BlockUsed = 23,
    /// A block's last mark is wrong.
    BlockMark = 24,
}

impl Refusal {
    /// The refusal's number.
    ///
    /// ```
    /// assert_eq!(eventlog::Refusal::NoString.number(), 17);
    /// ```
    #[must_use]
    #[inline]
    pub const fn number(self) -> u32 {
        self as u32
    }

    /// The refusal with the library's number, `None` for 0.
    pub(crate) fn from_number(number: u32) -> Option<Self> {
        Some(match number {
            0 => return None,
            1 => Refusal::Place,
            2 => Refusal::Length,
            3 => Refusal::CutShort,
            4 => Refusal::Signature,
            5 => Refusal::Length2,
            6 => Refusal::EventType,
            7 => Refusal::Flags,
            8 => Refusal::StringCount,
            9 => Refusal::Name,
            10 => Refusal::Sid,
            11 => Refusal::Strings,
            12 => Refusal::Data,
            13 => Refusal::Size,
            14 => Refusal::LogEnd,
            15 => Refusal::Output,
            17 => Refusal::NoString,
            18 => Refusal::Unit,
            19 => Refusal::CardLog,
            20 => Refusal::CardLength,
            21 => Refusal::BlockCheck,
            22 => Refusal::BlockNumber,
            23 => Refusal::BlockUsed,
            24 => Refusal::BlockMark,
            _ => panic!("refusal {number}, which the library is proved never to answer"),
        })
    }

    /// The answer, unless the library's number is a refusal's.
    #[inline]
    pub(crate) fn unless<T>(number: u32, answer: T) -> Result<T, Self> {
        Refusal::from_number(number).map_or(Ok(answer), Err)
    }
}

impl fmt::Display for Refusal {
    fn fmt(&self, f: &mut fmt::Formatter<'_>) -> fmt::Result {
        f.write_str(match self {
            Refusal::Place => "the place is past the end, or too few bytes stand there",
            Refusal::Length => "Length is out of range or not a multiple of 4",
            Refusal::CutShort => "Length is more than the bytes left",
            Refusal::Signature => "Reserved is not the signature",
            Refusal::Length2 => "Length and Length2 differ",
            Refusal::EventType => "the event type is none of the six",
            Refusal::Flags => "the flags are neither 0 nor, with a string, 0x8000",
            Refusal::StringCount => "there are more than 256 strings",
            Refusal::Name => "a name is not ended, or cannot be a name",
            Refusal::Sid => "the SID is wrong or misplaced",
            Refusal::Strings => "the strings are misplaced, not ended, or not as many as said",
            Refusal::Data => "the data is too long or misplaced",
            Refusal::Size => "Length is not the laid-out size",
            Refusal::LogEnd => "the log does not end with a good record",
            Refusal::Output => "the output is too short",
            Refusal::NoString => "there is no such string",
            Refusal::Unit => "windows-1252 does not have a unit, or half a unit is left",
            Refusal::CardLog => "the log is longer than a card carries",
            Refusal::CardLength => "the image's length is wrong, or it has no such block",
            Refusal::BlockCheck => "a block's check is wrong",
            Refusal::BlockNumber => "a block's number is not its place",
            Refusal::BlockUsed => "a block's used count is wrong, or its rest is not zero",
            Refusal::BlockMark => "a block's last mark is wrong",
        })
    }
}

impl Error for Refusal {}

/// A refusal of a record, and the field that failed.
///
/// ```
/// use eventlog::{refusal, write, Edition::Unicode, Event};
///
/// let mut record = [0; 64];
/// write(Unicode, 7, &Event::default(), &mut record)?;
/// record[24] = 3;
/// let refused = refusal(Unicode, &record, 0).unwrap();
/// assert_eq!(refused.field, 24);
/// assert_eq!(refused.to_string(), "refused 6, field 24: the event type is none of the six");
/// # Ok::<(), eventlog::Refusal>(())
/// ```
#[non_exhaustive]
#[derive(Clone, Copy, Debug, PartialEq, Eq, Hash)]
pub struct Refused {
    /// Why.
    pub refusal: Refusal,
    /// The place of the field that failed, counted from the record's start; 0
    /// where no field did.
    pub field: usize,
}

impl Refused {
    /// The refusal with the library's number and field, `None` for number 0.
    #[inline]
    pub(crate) fn from_numbers(number: u32, field: usize) -> Option<Self> {
        Refusal::from_number(number).map(|refusal| Refused { refusal, field })
    }

    /// The answer, unless the library's number is a refusal's.
    #[inline]
    pub(crate) fn unless<T>(number: u32, field: usize, answer: T) -> Result<T, Self> {
        Refused::from_numbers(number, field).map_or(Ok(answer), Err)
    }
}

impl fmt::Display for Refused {
    fn fmt(&self, f: &mut fmt::Formatter<'_>) -> fmt::Result {
        let Refused { refusal, field } = self;
        write!(f, "refused {}, field {field}: {refusal}", refusal.number())
    }
}

impl Error for Refused {}

#[cfg(test)]
mod tests {
    use super::*;

    #[test]
    fn numbers() {
        assert_eq!(Refusal::from_number(0), None);
        for number in (1..=15).chain([17]).chain(19..=24) {
            let refusal = Refusal::from_number(number);
            assert_eq!(refusal.map(Refusal::number), Some(number));
        }
    }

    #[test]
    #[should_panic(expected = "refusal 16")]
    fn sixteen_is_the_listing_programs() {
        Refusal::from_number(16);
    }
}
