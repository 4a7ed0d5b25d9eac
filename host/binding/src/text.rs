//! Texts as they lie in a record: their bytes, and what they show as UTF-16.

use core::char::{DecodeUtf16, REPLACEMENT_CHARACTER, decode_utf16};
use core::fmt::{self, Write};
use core::iter::FusedIterator;
use core::slice::Iter;

use crate::edition::Edition;
use crate::ffi::{self, Part};
use crate::record::slice;
use crate::refusal::Refusal;

/// A name or a string, as its bytes. Those of [`Edition::Unicode`] are UTF-16
/// units, little-endian. The library does not judge units: a text may hold half
/// of a surrogate pair. As text it is shown with U+FFFD in the place of such a
/// unit.
///
/// A text of [`Edition::Ansi`] is for [`as_bytes`](Text::as_bytes) alone: all that
/// shows units or characters takes the bytes for UTF-16.
///
/// ```
/// use eventlog::Text;
///
/// let text = Text::new(b"O\0K\0");
/// assert_eq!(text, "OK");
/// assert_eq!(text.to_string(), "OK");
/// ```
#[derive(Clone, Copy, Default, PartialEq, Eq, Hash)]
pub struct Text<'a>(&'a [u8]);

impl<'a> Text<'a> {
    /// The text with these bytes. In UTF-16 the last one of an odd number of bytes
    /// is no unit; writing refuses such a name in [`Edition::Unicode`].
    ///
    /// ```
    /// use eventlog::Text;
    /// assert!(Text::new(&[0x41, 0, 0xAC, 0x20]).units().eq([0x41, 0x20AC]));
    /// ```
    #[must_use]
    #[inline]
    pub const fn new(bytes: &'a [u8]) -> Self {
        Text(bytes)
    }

    /// The bytes, of either edition.
    ///
    /// ```
    /// assert_eq!(eventlog::utf16!("OK").as_bytes(), b"O\0K\0");
    /// assert_eq!(eventlog::Text::new(b"OK").as_bytes(), b"OK");
    /// ```
    #[must_use]
    #[inline]
    pub const fn as_bytes(self) -> &'a [u8] {
        self.0
    }

    /// Whether there is no byte.
    ///
    /// ```
    /// assert!(eventlog::Text::default().is_empty());
    /// ```
    #[must_use]
    pub const fn is_empty(self) -> bool {
        self.0.is_empty()
    }

    /// The units.
    ///
    /// ```
    /// assert!(eventlog::utf16!("A€").units().eq([0x41, 0x20AC]));
    /// ```
    pub fn units(self) -> Units<'a> {
        Units(self.0.as_chunks().0.iter())
    }

    /// The characters, and an error for each unit that is none.
    ///
    /// ```
    /// use eventlog::{utf16, Text};
    /// assert!(utf16!("A🙂").chars().flatten().eq("A🙂".chars()));
    /// assert!(Text::new(&[0x00, 0xD8]).chars().all(|c| c.is_err()));
    /// ```
    #[must_use]
    pub fn chars(self) -> DecodeUtf16<Units<'a>> {
        decode_utf16(self.units())
    }
}

impl fmt::Display for Text<'_> {
    fn fmt(&self, f: &mut fmt::Formatter<'_>) -> fmt::Result {
        let mut chars = self.chars();
        chars.try_for_each(|c| f.write_char(c.unwrap_or(REPLACEMENT_CHARACTER)))
    }
}

impl fmt::Debug for Text<'_> {
    fn fmt(&self, f: &mut fmt::Formatter<'_>) -> fmt::Result {
        f.write_char('"')?;
        for c in self.chars() {
            match c {
                Ok(c) => write!(f, "{}", c.escape_debug())?,
                Err(e) => write!(f, "\\u{{{:x}}}", e.unpaired_surrogate())?,
            }
        }
        f.write_char('"')
    }
}

impl PartialEq<str> for Text<'_> {
    fn eq(&self, other: &str) -> bool {
        self.0.len().is_multiple_of(2) && self.units().eq(other.encode_utf16())
    }
}

impl PartialEq<&str> for Text<'_> {
    fn eq(&self, other: &&str) -> bool {
        *self == **other
    }
}

/// The units of a [`Text`]. Made by [`Text::units`].
///
/// ```
/// let units = eventlog::utf16!("abc").units();
/// assert_eq!(units.len(), 3);
/// assert!(units.rev().eq([0x63, 0x62, 0x61]));
/// ```
#[derive(Clone, Debug)]
#[must_use = "an iterator does nothing until it is asked for items"]
pub struct Units<'a>(Iter<'a, [u8; 2]>);

impl Iterator for Units<'_> {
    type Item = u16;

    #[inline]
    fn next(&mut self) -> Option<u16> {
        self.0.next().copied().map(u16::from_le_bytes)
    }

    fn size_hint(&self) -> (usize, Option<usize>) {
        self.0.size_hint()
    }
}

impl DoubleEndedIterator for Units<'_> {
    fn next_back(&mut self) -> Option<u16> {
        self.0.next_back().copied().map(u16::from_le_bytes)
    }
}

impl ExactSizeIterator for Units<'_> {}
impl FusedIterator for Units<'_> {}

/// The strings of a run, each without its zero unit. It ends where no ended
/// string starts; the run of a record that was read has nothing else. Made by
/// [`Record::strings`](crate::Record::strings).
///
/// ```
/// use eventlog::{utf16, Edition::Unicode, Strings};
///
/// let mut strings = Strings::new(Unicode, utf16!("first\0\0not ended").as_bytes());
/// assert_eq!(strings.next().unwrap(), "first");
/// assert_eq!(strings.next().unwrap(), "");
/// assert_eq!(strings.next(), None);
/// ```
#[derive(Clone, Debug)]
#[must_use = "an iterator does nothing until it is asked for items"]
pub struct Strings<'a> {
    edition: Edition,
    run: &'a [u8],
    place: usize,
}

impl<'a> Strings<'a> {
    /// The strings of a run.
    ///
    /// ```
    /// use eventlog::{Edition, Strings};
    /// assert_eq!(Strings::new(Edition::Unicode, b"O\0K\0\0\0").count(), 1);
    /// assert_eq!(Strings::new(Edition::Ansi, b"O\0K\0\0\0").count(), 4);
    /// ```
    #[inline]
    pub const fn new(edition: Edition, run: &'a [u8]) -> Self {
        Strings {
            edition,
            run,
            place: 0,
        }
    }
}

impl<'a> Iterator for Strings<'a> {
    type Item = Text<'a>;

    #[inline]
    fn next(&mut self) -> Option<Text<'a>> {
        let run = Run {
            at: 0,
            len: self.run.len(),
        };
        let (string, next) = next_string(self.edition, self.run, run, self.place).ok()?;
        self.place = next;
        Some(string)
    }

    fn size_hint(&self) -> (usize, Option<usize>) {
        let left = self.run.len() - self.place;
        (0, Some(left / self.edition.width()))
    }
}

impl FusedIterator for Strings<'_> {}

/// Where a run of strings lies in a buffer: its first byte, and how many bytes.
/// That of a record starts at [`Places::strings`](crate::Places::strings).
///
/// ```
/// let run = eventlog::Run { at: 60, len: 6 };
/// assert_eq!(run.at + run.len, 66);
/// ```
#[derive(Clone, Copy, Debug, Default, PartialEq, Eq)]
pub struct Run {
    /// The place of the first byte.
    pub at: usize,
    /// How many bytes.
    pub len: usize,
}

/// The string that starts at `place` of a run of strings, without its zero unit,
/// and the place after its zero unit. No record is judged. Units are counted from
/// `place`; a run of one's own bytes is asked with less ado by [`Strings`].
///
/// # Errors
///
/// [`Refusal::NoString`], where no ended string starts there: `place` does not
/// lie in the run, no zero unit follows in it, or the run does not lie in the
/// buffer.
///
/// ```
/// use eventlog::{next_string, Edition::Unicode, Refusal, Run};
///
/// let (buffer, run) = (b"..A\0\0\0\0\0..", Run { at: 2, len: 6 });
/// let (first, next) = next_string(Unicode, buffer, run, run.at)?;
/// assert_eq!((first.as_bytes(), next), (&b"A\0"[..], 6));
/// let (second, next) = next_string(Unicode, buffer, run, next)?;
/// assert_eq!((second.as_bytes(), next), (&b""[..], 8));
/// assert_eq!(next_string(Unicode, buffer, run, next), Err(Refusal::NoString));
/// # Ok::<(), Refusal>(())
/// ```
#[inline]
pub fn next_string(
    edition: Edition,
    buffer: &[u8],
    run: Run,
    place: usize,
) -> Result<(Text<'_>, usize), Refusal> {
    let Run { at, len } = run;
    let found = ffi::next_string(edition, buffer, Part { at, len }, place);
    Refusal::unless(found.refusal, ())?;
    Ok((Text(slice(buffer, found.string)), found.next))
}

/// A [`Text`] from a literal, at compile time.
///
/// ```
/// use eventlog::{utf16, Text};
///
/// const NAME: Text = utf16!("Scale");
/// assert_eq!(NAME.as_bytes(), b"S\0c\0a\0l\0e\0");
/// assert_eq!(utf16!("Grüße, 🙂").to_string(), "Grüße, 🙂");
/// ```
#[macro_export]
macro_rules! utf16 {
    ($text:expr) => {{
        const BYTES: [u8; $crate::utf16_len($text)] = $crate::utf16_bytes($text);
        $crate::Text::new(&BYTES)
    }};
}

/// How many bytes a text has as UTF-16.
#[doc(hidden)]
#[must_use]
pub const fn utf16_len(text: &str) -> usize {
    let (mut at, mut len) = (0, 0);
    while at < text.len() {
        let (c, width) = decode_utf8(text.as_bytes(), at);
        at += width;
        len += if c < 0x1_0000 { 2 } else { 4 };
    }
    len
}

/// A text as UTF-16, little-endian. `N` has to be its [`utf16_len`].
#[doc(hidden)]
#[must_use]
pub const fn utf16_bytes<const N: usize>(text: &str) -> [u8; N] {
    let mut bytes = [0; N];
    let (mut at, mut end) = (0, 0);
    while at < text.len() {
        let (c, width) = decode_utf8(text.as_bytes(), at);
        at += width;
        let [low, high, ..] = if c < 0x1_0000 {
            c.to_le_bytes()
        } else {
            let [low, high, ..] = (0xD800 + ((c - 0x1_0000) >> 10)).to_le_bytes();
            bytes[end] = low;
            bytes[end + 1] = high;
            end += 2;
            (0xDC00 + (c & 0x3FF)).to_le_bytes()
        };
        bytes[end] = low;
        bytes[end + 1] = high;
        end += 2;
    }
    assert!(end == N);
    bytes
}

/// The character of UTF-8 at a place, and how many bytes it has there.
const fn decode_utf8(bytes: &[u8], at: usize) -> (u32, usize) {
    let first = bytes[at];
    let (mut c, width) = match first {
        0..0x80 => (first, 1),
        0x80..0xE0 => (first & 0x1F, 2),
        0xE0..0xF0 => (first & 0x0F, 3),
        _ => (first & 0x07, 4),
    };
    let mut wide = c as u32;
    let mut i = 1;
    while i < width {
        c = bytes[at + i] & 0x3F;
        wide = wide << 6 | c as u32;
        i += 1;
    }
    (wide, width)
}

#[cfg(test)]
mod tests {
    use super::*;
    use crate::Edition::{Ansi, Unicode};
    use std::format;
    use std::vec::Vec;

    fn encoded(text: &str) -> Vec<u8> {
        text.encode_utf16().flat_map(u16::to_le_bytes).collect()
    }

    /// The first and the last character of each width, and around surrogates.
    #[test]
    fn literals_are_utf16() {
        macro_rules! same {
            ($($text:expr),*) => { $(assert_eq!(utf16!($text).as_bytes(), encoded($text));)* };
        }
        same!(
            "",
            "A",
            "\0",
            "\u{7f}",
            "\u{80}",
            "\u{7ff}",
            "\u{800}",
            "\u{d7ff}",
            "\u{e000}",
            "\u{ffff}",
            "\u{10000}",
            "\u{103ff}",
            "\u{10400}",
            "\u{10ffff}",
            "aé€🙂z"
        );
    }

    #[test]
    fn texts_are_shown() {
        let half = Text::new(&[0x41, 0, 0, 0xD8, 0x42, 0]);
        assert_eq!(format!("{half}"), "A\u{FFFD}B");
        assert_eq!(format!("{half:?}"), "\"A\\u{d800}B\"");
        assert_eq!(format!("{:?}", utf16!("a\n\"é")), "\"a\\n\\\"é\"");
    }

    #[test]
    fn texts_are_compared() {
        assert_eq!(utf16!("aé€🙂"), "aé€🙂");
        for other in ["", "a", "aé€", "aé€🙂b", "aé€🙃"] {
            assert_ne!(utf16!("aé€🙂"), other);
        }
        // Half a unit is in no text.
        assert_ne!(Text::new(b"A\0B"), "A");
        assert_ne!(Text::new(b"A\0B"), "AB");
    }

    #[test]
    fn strings_end_where_none_is_ended() {
        let strings = |run| {
            Strings::new(Unicode, run)
                .map(Text::as_bytes)
                .collect::<Vec<_>>()
        };
        assert_eq!(strings(b""), [b""; 0]);
        assert_eq!(strings(b"A\0"), [b""; 0]);
        assert_eq!(strings(b"A\0\0"), [b""; 0]);
        assert_eq!(strings(b"\0\0"), [b""]);
        assert_eq!(strings(b"A\0\0\0B\0\0"), [b"A\0"]);
        // Zero bytes of two units are no zero unit.
        assert_eq!(strings(b"A\0\0B\0\0\0\0"), [&b"A\0\0B"[..], b""]);
        let mut run = Strings::new(Unicode, b"A\0\0\0");
        assert_eq!(run.size_hint(), (0, Some(2)));
        assert!(run.next().is_some() && run.next().is_none() && run.next().is_none());
    }

    #[test]
    fn strings_of_bytes_end_at_a_zero_byte() {
        let strings = |run| {
            let strings = Strings::new(Ansi, run).map(Text::as_bytes);
            strings.collect::<Vec<_>>()
        };
        assert_eq!(strings(b""), [b""; 0]);
        assert_eq!(strings(b"A"), [b""; 0]);
        assert_eq!(strings(b"\0"), [b""]);
        assert_eq!(strings(b"A\0"), [b"A"]);
        assert_eq!(strings(b"ABC\0\0D"), [&b"ABC"[..], b""]);
        assert_eq!(strings(b"A\0\0BC\0"), [&b"A"[..], b"", b"BC"]);
        let mut run = Strings::new(Ansi, b"A\0\0");
        assert_eq!(run.size_hint(), (0, Some(3)));
        assert_eq!(run.next().map(Text::as_bytes), Some(&b"A"[..]));
        assert_eq!(run.size_hint(), (0, Some(1)));
        assert!(run.next().is_some() && run.next().is_none() && run.next().is_none());
    }
}
