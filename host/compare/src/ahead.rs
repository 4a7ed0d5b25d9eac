//! What a read comes to, record by record, and the read call as it was without
//! sets of types (Rule 8.31): both from judgements alone.

use plain::{status, Answer, Edition, Handle, Place, Types, MAX_READ};

use crate::check::{Request, FLAGS};
use crate::make::get;

/// A record that a read comes to.
#[derive(Clone, Copy, Debug)]
pub struct Met {
    pub start: usize,
    pub length: usize,
    pub event_type: u16,
}

/// The records from a read's starting place on, in the direction of reading.
pub struct Ahead {
    pub records: Vec<Met>,
    /// One that is refused comes after them.
    pub refused: bool,
}

/// What comes first from a place on, `None` where it is refused.
fn met(edition: Edition, log: &[u8], at: usize, forwards: bool) -> Option<Met> {
    let (start, length) = match forwards {
        true => (at, plain::judge(edition, log, at).ok()?),
        false => {
            let length = plain::judge_back(edition, log, at).ok()?;
            (at - length, length)
        }
    };
    Some(Met {
        start,
        length,
        event_type: get(log, start + 24, 2) as u16,
    })
}

/// What is ahead of a read whose flags are right and whose boundary lies in the
/// log; the status where a seek does not find its number.
pub fn ahead(
    edition: Edition,
    place: Place,
    log: &[u8],
    flags: u32,
    number: u32,
) -> Result<Ahead, u32> {
    let forwards = flags & 4 != 0;
    let edge = |met: Met, forwards| match forwards {
        true => met.start + met.length,
        false => met.start,
    };
    let mut at = match place {
        Place::Boundary(at) => at,
        Place::Fresh if forwards => 0,
        Place::Fresh => log.len(),
    };
    if flags & 2 != 0 {
        let mut from = 0;
        at = loop {
            if from == log.len() {
                return Err(status::INVALID_PARAMETER);
            }
            let met = met(edition, log, from, true).ok_or(status::EVENTLOG_FILE_CORRUPT)?;
            if get(log, from + 8, 4) == number {
                // The other edge of it: it is the first to be met.
                break edge(met, !forwards);
            }
            from = edge(met, true);
        };
    }
    let mut records = Vec::new();
    let end = if forwards { log.len() } else { 0 };
    while at != end {
        let Some(met) = met(edition, log, at, forwards) else {
            break;
        };
        records.push(met);
        at = edge(met, forwards);
    }
    Ok(Ahead {
        records,
        refused: at != end,
    })
}

/// A read that wants every record.
pub fn read_all(
    edition: Edition,
    place: Place,
    log: &[u8],
    request: Request,
    out: &mut [u8],
) -> Answer {
    let Request {
        flags,
        number,
        size,
        ..
    } = request;
    let answer = |status, read, needed, place| Answer {
        status,
        read,
        needed,
        handle: Handle {
            place,
            types: Types::ALL,
        },
    };
    let refuse = |status, needed| answer(status, 0, needed, place);
    if !FLAGS.contains(&flags) || size > MAX_READ || size > out.len() {
        return refuse(status::INVALID_PARAMETER, 0);
    }
    if matches!(place, Place::Boundary(at) if at > log.len()) {
        return refuse(status::INVALID_HANDLE, 0);
    }
    let ahead = match ahead(edition, place, log, flags, number) {
        Ok(ahead) => ahead,
        Err(status) => return refuse(status, 0),
    };
    let mut read = 0;
    let mut boundary = None;
    for met in &ahead.records {
        if read + met.length > size {
            break;
        }
        let end = met.start + met.length;
        out[read..read + met.length].copy_from_slice(&log[met.start..end]);
        read += met.length;
        boundary = Some(if flags & 4 != 0 { end } else { met.start });
    }
    match (boundary, ahead.records.first()) {
        (Some(at), _) => answer(status::SUCCESS, read, 0, Place::Boundary(at)),
        (None, Some(first)) => refuse(status::BUFFER_TOO_SMALL, first.length),
        (None, None) if ahead.refused => refuse(status::EVENTLOG_FILE_CORRUPT, 0),
        (None, None) => refuse(status::END_OF_FILE, 0),
    }
}
