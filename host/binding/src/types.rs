//! Sets of event types.

use core::ops::BitOr;

use crate::constants::event_type;
use crate::ffi;

/// A set of event types, which a [`Handle`](crate::Handle) asks for: its reads
/// copy the records of these types and skip the others.
///
/// ```
/// use eventlog::{append, event_type, Direction, Edition::Unicode, Event, Handle, ReadKind, Types};
///
/// let (mut log, mut out) = ([0; 192], [0; 192]);
/// let mut used = 0;
/// for event_type in [event_type::ERROR, event_type::INFORMATION, event_type::WARNING] {
///     used = append(Unicode, &mut log, used, &Event { event_type, ..Event::default() })?;
/// }
/// let handle = Handle::fresh(Types::ERROR | Types::WARNING);
/// let batch = handle.read(Unicode, &log, ReadKind::Sequential, Direction::Forwards, 192, &mut out)?;
/// let numbers: Vec<_> = batch.records().map(|record| record.unwrap().record_number).collect();
/// assert_eq!(numbers, [1, 3]);
/// # Ok::<(), Box<dyn std::error::Error>>(())
/// ```
#[derive(Clone, Copy, Debug, Default, PartialEq, Eq, Hash)]
pub struct Types(u32);

impl Types {
    /// No type.
    ///
    /// ```
    /// use eventlog::Types;
    /// assert_eq!((Types::NONE, Types::NONE.count()), (Types::default(), 0));
    /// ```
    pub const NONE: Types = Types(0);
    /// [`event_type::ERROR`].
    ///
    /// ```
    /// use eventlog::{event_type, Types};
    /// assert!(Types::ERROR.contains(event_type::ERROR));
    /// ```
    pub const ERROR: Types = Types(1);
    /// [`event_type::WARNING`].
    ///
    /// ```
    /// use eventlog::{event_type, Types};
    /// assert!(Types::WARNING.contains(event_type::WARNING));
    /// ```
    pub const WARNING: Types = Types(2);
    /// [`event_type::INFORMATION`].
    ///
    /// ```
    /// use eventlog::{event_type, Types};
    /// assert!(Types::INFORMATION.contains(event_type::INFORMATION));
    /// ```
    pub const INFORMATION: Types = Types(4);
    /// [`event_type::AUDIT_SUCCESS`].
    ///
    /// ```
    /// use eventlog::{event_type, Types};
    /// assert!(Types::AUDIT_SUCCESS.contains(event_type::AUDIT_SUCCESS));
    /// ```
    pub const AUDIT_SUCCESS: Types = Types(8);
    /// [`event_type::AUDIT_FAILURE`].
    ///
    /// ```
    /// use eventlog::{event_type, Types};
    /// assert!(Types::AUDIT_FAILURE.contains(event_type::AUDIT_FAILURE));
    /// ```
    pub const AUDIT_FAILURE: Types = Types(16);
    /// [`event_type::SUCCESS`], type 0, which has a bit of its own.
    ///
    /// ```
    /// use eventlog::{event_type, Types};
    /// assert!(Types::SUCCESS.contains(event_type::SUCCESS));
    /// assert_eq!(Types::SUCCESS.bits(), 32);
    /// ```
    pub const SUCCESS: Types = Types(32);
    /// All six types: nothing is skipped.
    ///
    /// ```
    /// use eventlog::Types;
    /// assert_eq!((Types::ALL.bits(), Types::ALL.count()), (63, 6));
    /// ```
    pub const ALL: Types = Types(63);

    /// The set of some [`event_type`]s, `None` where a number is none of them.
    ///
    /// ```
    /// use eventlog::{event_type::{ERROR, SUCCESS, WARNING}, Types};
    /// assert_eq!(Types::of(&[SUCCESS, WARNING]), Some(Types::SUCCESS | Types::WARNING));
    /// assert_eq!(Types::of(&[]), Some(Types::NONE));
    /// assert_eq!(Types::of(&[ERROR | WARNING]), None);
    /// ```
    #[must_use]
    #[inline]
    pub fn of(event_types: &[u16]) -> Option<Types> {
        let mut sets = event_types.iter().map(|event_type| Types::one(*event_type));
        sets.try_fold(Types::NONE, |all, one| Some(all | one?))
    }

    /// The set of one type, `None` for a number that is no type.
    const fn one(event_type: u16) -> Option<Types> {
        Some(match event_type {
            event_type::SUCCESS => Types::SUCCESS,
            event_type::ERROR => Types::ERROR,
            event_type::WARNING => Types::WARNING,
            event_type::INFORMATION => Types::INFORMATION,
            event_type::AUDIT_SUCCESS => Types::AUDIT_SUCCESS,
            event_type::AUDIT_FAILURE => Types::AUDIT_FAILURE,
            _ => return None,
        })
    }

    /// The set with these bits, as a client sent them. They may be any: a read
    /// refuses a set that has other bits than [`Types::ALL`].
    ///
    /// ```
    /// use eventlog::{Direction, Edition::Unicode, Handle, ReadKind, Status, Types};
    /// let status = |bits| {
    ///     let handle = Handle::fresh(Types::from_bits(bits));
    ///     let empty = handle.read(Unicode, &[], ReadKind::Sequential, Direction::Forwards, 0, &mut []);
    ///     empty.unwrap_err().status
    /// };
    /// assert_eq!(status(63), Status::EndOfFile);
    /// assert_eq!(status(64), Status::InvalidParameter);
    /// ```
    #[must_use]
    #[inline]
    pub const fn from_bits(bits: u32) -> Types {
        Types(bits)
    }

    /// The set's bits.
    ///
    /// ```
    /// use eventlog::Types;
    /// assert_eq!((Types::ERROR | Types::SUCCESS).bits(), 33);
    /// ```
    #[must_use]
    #[inline]
    pub const fn bits(self) -> u32 {
        self.0
    }

    /// The types of both sets; `|` does the same.
    ///
    /// ```
    /// use eventlog::Types;
    /// const TROUBLE: Types = Types::ERROR.union(Types::WARNING);
    /// assert_eq!(TROUBLE, Types::ERROR | Types::WARNING);
    /// ```
    #[must_use]
    pub const fn union(self, other: Types) -> Types {
        Types(self.0 | other.0)
    }

    /// Whether an [`event_type`] is in the set; a number that is none of them is
    /// in no set.
    ///
    /// ```
    /// use eventlog::{event_type, Types};
    /// assert!(!Types::ERROR.contains(event_type::WARNING));
    /// assert!(!Types::ALL.contains(3));
    /// ```
    #[must_use]
    pub const fn contains(self, event_type: u16) -> bool {
        match Types::one(event_type) {
            Some(Types(bit)) => self.0 & bit != 0,
            None => false,
        }
    }

    /// How many types the set holds; other bits are not counted.
    ///
    /// ```
    /// use eventlog::Types;
    /// assert_eq!((Types::ERROR | Types::SUCCESS).count(), 2);
    /// assert_eq!(Types::from_bits(u32::MAX).count(), 6);
    /// ```
    #[must_use]
    pub fn count(self) -> u32 {
        ffi::types_count(self.0)
    }
}

impl BitOr for Types {
    type Output = Types;

    fn bitor(self, other: Types) -> Types {
        self.union(other)
    }
}
