//! Writing records, and appending them to a log.

use super::{output_row, Calls};
use crate::calls::versions;
use crate::inputs::{Events, BATCH};

/// 16 MiB of records: each written to the start of one output, or appended to one
/// log, as a user does it.
pub fn rows(calls: &mut Calls, events: &[Events]) {
    for some in events {
        let lengths = some.made.iter().map(|made| made.length());
        let longest = lengths.max().unwrap_or(0);
        let works = versions!(writes(some.edition, &some.made, BATCH));
        output_row(calls, ("write", &some.name), 1, longest, works);
    }
    for some in events {
        let works = versions!(appends(some.edition, &some.made));
        output_row(calls, ("append", &some.name), 1, BATCH, works);
    }
}
