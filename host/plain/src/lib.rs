//! Windows event records (EVENTLOGRECORD of MS-EVEN 2.2.3), Unicode and ANSI.
//!
//! The calls of Rule 1.4 of `docs/SPECIFICATION.md`: steps and walks in both
//! directions, writing, appending, reads of a log, the listing, the card, and
//! windows-1252. The caller says which [`Edition`] the records have. Every part
//! handed back borrows the caller's bytes; only [`listing`] allocates.
//!
//! The crate `simple` is this library with the feature `simple-search`: all the
//! same, over a search for zero units that is not tuned.

#![forbid(unsafe_code)]
#![warn(missing_docs)]

pub mod card;
mod edition;
mod judge;
mod layout;
mod listing;
mod record;
#[cfg_attr(feature = "simple-search", path = "simple_search.rs")]
mod search;
#[cfg(test)]
mod search_tests;
mod serve;
mod types;
mod walk;
pub mod windows_1252;
mod write;

pub use edition::Edition;
pub use judge::{judge, judge_back};
pub use layout::{
    refused, Fields, Refused, MAX_DATA, MAX_LENGTH, MAX_STRINGS, MIN_LENGTH, SIGNATURE, XML_FLAG,
};
pub use listing::{listing, MAX_LISTED};
pub use record::{
    computer_name, event_data, next_string, refusal, sid, source_name, step, step_back, string,
    string_refusal, NextString, Record, Refusal,
};
pub use search::after_zero_units;
pub use serve::{flags, status, Answer, Handle, Place, MAX_READ};
pub use types::Types;
pub use walk::{walk, walk_back, Walked};
pub use write::{append, write, Event};
