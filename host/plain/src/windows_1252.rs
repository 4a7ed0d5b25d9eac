//! Text in windows-1252 to UTF-16 and back (section 14), low byte first.

use crate::layout::refused;

/// The units of bytes 80 to 9F; the five that the published table leaves
/// undefined are their own number.
const MARKS: [u16; 32] = [
    0x20AC, 0x0081, 0x201A, 0x0192, 0x201E, 0x2026, 0x2020, 0x2021, //
    0x02C6, 0x2030, 0x0160, 0x2039, 0x0152, 0x008D, 0x017D, 0x008F, //
    0x0090, 0x2018, 0x2019, 0x201C, 0x201D, 0x2022, 0x2013, 0x2014, //
    0x02DC, 0x2122, 0x0161, 0x203A, 0x0153, 0x009D, 0x017E, 0x0178,
];

/// The units of all bytes.
static UNITS: [u16; 256] = {
    let mut units = [0; 256];
    let mut byte = 0;
    while byte < 256 {
        units[byte] = match byte {
            0x80..=0x9F => MARKS[byte - 0x80],
            _ => byte as u16,
        };
        byte += 1;
    }
    units
};

/// The byte of a unit, if there is one; most text is below 0x80.
fn byte_of(unit: u16) -> Option<u8> {
    match unit {
        0..0x80 => Some(unit as u8),
        _ => high_byte_of(unit),
    }
}

/// Apart, so that the loops stay small.
#[inline(never)]
fn high_byte_of(unit: u16) -> Option<u8> {
    Some(match unit {
        0x81 | 0x8D | 0x8F | 0x90 | 0x9D | 0xA0..=0xFF => unit as u8,
        0x0152 => 0x8C,
        0x0153 => 0x9C,
        0x0160 => 0x8A,
        0x0161 => 0x9A,
        0x0178 => 0x9F,
        0x017D => 0x8E,
        0x017E => 0x9E,
        0x0192 => 0x83,
        0x02C6 => 0x88,
        0x02DC => 0x98,
        0x2013 => 0x96,
        0x2014 => 0x97,
        0x2018 => 0x91,
        0x2019 => 0x92,
        0x201A => 0x82,
        0x201C => 0x93,
        0x201D => 0x94,
        0x201E => 0x84,
        0x2020 => 0x86,
        0x2021 => 0x87,
        0x2022 => 0x95,
        0x2026 => 0x85,
        0x2030 => 0x89,
        0x2039 => 0x8B,
        0x203A => 0x9B,
        0x20AC => 0x80,
        0x2122 => 0x99,
        _ => return None,
    })
}

/// Writes bytes as UTF-16 to the start of `out`; returns how many bytes that
/// took, or the refusal's number.
pub fn to_utf16(bytes: &[u8], out: &mut [u8]) -> Result<usize, u32> {
    let out = out.get_mut(..2 * bytes.len()).ok_or(refused::OUTPUT)?;
    for (unit, &byte) in out.chunks_exact_mut(2).zip(bytes) {
        unit.copy_from_slice(&UNITS[usize::from(byte)].to_le_bytes());
    }
    Ok(out.len())
}

/// Writes UTF-16 as bytes to the start of `out`; returns how many, or the
/// refusal's number.
pub fn from_utf16(units: &[u8], out: &mut [u8]) -> Result<usize, u32> {
    let pairs = units.chunks_exact(2);
    let whole = pairs.remainder().is_empty();
    let units = pairs.map(|pair| u16::from_le_bytes([pair[0], pair[1]]));
    if !whole || units.clone().any(|unit| byte_of(unit).is_none()) {
        return Err(refused::UNIT);
    }
    let out = out.get_mut(..units.len()).ok_or(refused::OUTPUT)?;
    for (byte, unit) in out.iter_mut().zip(units) {
        *byte = byte_of(unit).unwrap_or(0);
    }
    Ok(out.len())
}
