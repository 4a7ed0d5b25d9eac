//! Windows event records (EVENTLOGRECORD of MS-EVEN 2.2.3), Unicode and ANSI: a
//! safe binding of the proved library `libeventlog.a`.
//!
//! The caller says which [`Edition`] the records have, or are to have. Any bytes,
//! places, numbers and handles may be given to any call. Every part
//! handed back borrows the caller's bytes; nothing is copied but to an output
//! that the caller lends, and nothing is allocated. What can be refused answers
//! an error that says why: [`Refusal`] (or [`BadRecord`] and [`StoppedWalk`],
//! which say where as well), and for a read [`ReadError`] with its [`Status`].
//! A refusal leaves every output as it was.
//!
//! ```
//! use eventlog::{append, event_type, records, utf16, Edition::Unicode, Event};
//!
//! let event = Event {
//!     event_id: 300,
//!     event_type: event_type::INFORMATION,
//!     num_strings: 1,
//!     source_name: utf16!("Scale"),
//!     strings: utf16!("repaired\0").as_bytes(),
//!     ..Event::default()
//! };
//! let mut log = [0; 1000];
//! let used = append(Unicode, &mut log, 0, &event)?;
//! let used = append(Unicode, &mut log, used, &event)?;
//! for (record, number) in records(Unicode, &log[..used]).zip([1, 2]) {
//!     let record = record?;
//!     assert_eq!(record.record_number, number);
//!     assert_eq!(record.event.source_name, "Scale");
//!     assert_eq!(record.string(0)?, "repaired");
//! }
//! # Ok::<(), Box<dyn std::error::Error>>(())
//! ```

#![no_std]
#![deny(unsafe_code)]
#![warn(missing_docs, clippy::pedantic)]

#[cfg(test)]
extern crate std;

pub mod card;
mod constants;
mod edition;
#[allow(unsafe_code)]
mod ffi;
mod read;
mod record;
mod refusal;
mod text;
mod types;
mod walk;
pub mod windows_1252;
mod write;

pub use constants::{
    LISTING_ROOM, MAX_DATA, MAX_LENGTH, MAX_READ, MAX_SID, MAX_STRINGS, MIN_LENGTH, SIGNATURE,
    XML_FLAG, event_type, flags,
};
pub use edition::Edition;
pub use read::{Batch, Direction, Handle, Place, ReadError, ReadKind, Status};
pub use record::{BadRecord, Places, Record, refusal, step, step_back, string, string_refusal};
pub use refusal::{Refusal, Refused};
pub use text::{Run, Strings, Text, Units, next_string};
#[doc(hidden)]
pub use text::{utf16_bytes, utf16_len};
pub use types::Types;
pub use walk::{Records, RecordsBack, StoppedWalk, records, records_back, walk, walk_back};
pub use write::{Event, append, listing, write};
