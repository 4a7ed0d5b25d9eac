//! Text in windows-1252 to UTF-16 and back, for a screen.
//!
//! Each byte is one unit, by the Unicode Consortium's table; the five bytes that
//! it leaves undefined, 81, 8D, 8F, 90 and 9D, are units of the same number. A
//! unit is two bytes, the low one first.
//!
//! ```
//! use eventlog::{windows_1252, Refusal};
//!
//! let mut units = [0; 6];
//! assert_eq!(windows_1252::to_utf16(b"5 \x80", &mut units)?, 6);
//! assert_eq!(units, [0x35, 0, 0x20, 0, 0xAC, 0x20]);
//!
//! let mut bytes = [0; 3];
//! assert_eq!(windows_1252::from_utf16(&units, &mut bytes)?, 3);
//! assert_eq!(&bytes, b"5 \x80");
//!
//! let refused = windows_1252::from_utf16(&units[..5], &mut bytes);
//! assert_eq!(refused, Err(Refusal::Unit));
//! # Ok::<(), Refusal>(())
//! ```

use crate::ffi;
use crate::refusal::Refusal;

/// Writes bytes of windows-1252 as UTF-16 to the start of `out`, and returns how
/// many bytes that took, two for each.
///
/// # Errors
///
/// [`Refusal::Output`], which leaves `out` as it was.
pub fn to_utf16(bytes: &[u8], out: &mut [u8]) -> Result<usize, Refusal> {
    let written = ffi::windows_1252_to_utf16(bytes, out);
    Refusal::unless(written.refusal, written.length)
}

/// Writes UTF-16 as bytes of windows-1252 to the start of `out`, and returns how
/// many, one for each unit.
///
/// # Errors
///
/// [`Refusal::Unit`] where windows-1252 does not have a unit or half a unit is
/// left, and then [`Refusal::Output`]. A refusal leaves `out` as it was.
pub fn from_utf16(units: &[u8], out: &mut [u8]) -> Result<usize, Refusal> {
    let written = ffi::windows_1252_from_utf16(units, out);
    Refusal::unless(written.refusal, written.length)
}
