//! How the time grows with the bytes.

use plain::Types;

use super::batches::{over_log, reads, FORWARDS, READ};
use super::Calls;
use crate::calls::{versions, Reads};
use crate::inputs::Batch;

/// Walks and reads of each size; the times are those of a byte.
pub fn rows(calls: &mut Calls, inputs: &[Batch]) {
    for batch in inputs {
        over_log(calls, "walk", batch, batch.log.len(), versions!(walk));
    }
    for batch in inputs {
        over_log(
            calls,
            "walk back",
            batch,
            batch.log.len(),
            versions!(walk_back),
        );
    }
    let all = Reads {
        flags: FORWARDS,
        types: Types::ALL.0,
        size: READ,
    };
    for batch in inputs {
        reads(calls, "read forwards", batch, batch.log.len(), all);
    }
}
