//! A memory card that carries a log in blocks of 512 bytes.
//!
//! The image of a log is its blocks, one after another; each has a number, a
//! part of the log and a check. The log is any bytes: no record is judged.
//!
//! ```
//! use eventlog::{card, Refusal};
//!
//! let log = [7; 501];
//! let mut image = vec![0; card::blocks(log.len()) * card::BLOCK];
//! assert_eq!(card::write(&log, &mut image)?, 1024);
//! let mut out = [0; 600];
//! let length = card::read(&image, &mut out)?;
//! assert_eq!(out[..length], log);
//!
//! image[700] ^= 1;
//! assert_eq!(card::read(&image, &mut out), Err(Refusal::BlockCheck));
//! assert_eq!(card::judge(&image, 0), None);
//! assert_eq!(card::judge(&image, 1), Some(Refusal::BlockCheck));
//! # Ok::<(), Refusal>(())
//! ```

use crate::ffi;
use crate::refusal::Refusal;

/// The bytes of a block.
pub const BLOCK: usize = 512;
/// How many of them carry the log.
pub const PAYLOAD: usize = 500;
/// The most blocks of a card.
pub const MAX_BLOCKS: usize = 33_555;
/// The longest log that a card carries.
pub const MAX_LOG: usize = 16_777_500;

/// How many blocks a log of so many bytes takes, also where it is too long for
/// a card.
///
/// ```
/// use eventlog::card::blocks;
///
/// assert_eq!([0, 1, 500, 501].map(blocks), [1, 1, 1, 2]);
/// ```
#[must_use]
pub fn blocks(bytes: usize) -> usize {
    ffi::card_blocks(bytes)
}

/// Writes the image of a log to the start of `out`, and returns its bytes.
///
/// # Errors
///
/// [`Refusal::CardLog`] where the log is longer than [`MAX_LOG`], and then
/// [`Refusal::Output`]. A refusal leaves `out` as it was.
#[inline]
pub fn write(log: &[u8], out: &mut [u8]) -> Result<usize, Refusal> {
    let written = ffi::card_write(log, out);
    Refusal::unless(written.refusal, written.length)
}

/// Reads the log of an image to the start of `out`, and returns its bytes.
///
/// # Errors
///
/// [`Refusal::CardLength`]; then what [`judge`] says of the first block that it
/// refuses; then [`Refusal::Output`]. A refusal leaves `out` as it was.
#[inline]
pub fn read(image: &[u8], out: &mut [u8]) -> Result<usize, Refusal> {
    let written = ffi::card_read(image, out);
    Refusal::unless(written.refusal, written.length)
}

/// The refusal of the block at a place of an image, counted from 0, judged for
/// this place: [`Refusal::CardLength`] where there is no such block, else the
/// first that applies of [`Refusal::BlockCheck`], [`Refusal::BlockNumber`],
/// [`Refusal::BlockUsed`] and [`Refusal::BlockMark`].
#[must_use]
pub fn judge(image: &[u8], place: usize) -> Option<Refusal> {
    Refusal::from_number(ffi::card_judge(image, place))
}
