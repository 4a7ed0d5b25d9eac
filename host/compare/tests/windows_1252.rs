//! Both libraries on windows-1252 and UTF-16, and both on the table of the C
//! library.

use std::ffi::{c_char, c_int, c_void, CStr};
use std::ptr;

use compare::random::Random;
use compare::windows_1252::{from_utf16, to_utf16, units};

/// The bytes that the published table leaves undefined.
const UNDEFINED: [u8; 5] = [0x81, 0x8D, 0x8F, 0x90, 0x9D];

fn all_bytes() -> Vec<u8> {
    (0..=255).collect()
}

/// All bytes, each by itself and all at once, there and back.
#[test]
fn every_byte() {
    for byte in all_bytes() {
        let unit = units(&[byte]);
        assert!(byte >= 0x80 || unit == [byte, 0]);
        assert!(byte < 0xA0 || unit == [byte, 0]);
        assert!(!UNDEFINED.contains(&byte) || unit == [byte, 0]);
    }
    let mut seen: Vec<_> = units(&all_bytes())
        .chunks_exact(2)
        .map(<[u8]>::to_vec)
        .collect();
    seen.sort();
    seen.dedup();
    assert_eq!(seen.len(), 256);
}

/// All units, each by itself and between others: accepted exactly if a byte has
/// it.
#[test]
fn every_unit() {
    let table = units(&all_bytes());
    let mut accepted = 0;
    for unit in (0..=0xFFFF).map(u16::to_le_bytes) {
        let byte = table.chunks_exact(2).position(|entry| entry == unit);
        let between = [&b"A\0"[..], &unit, b"B\0"].concat();
        match byte {
            Some(byte) => {
                accepted += 1;
                assert_eq!(from_utf16(&unit, 1), (Ok(1), vec![byte as u8]));
                assert_eq!(
                    from_utf16(&between, 3),
                    (Ok(3), vec![b'A', byte as u8, b'B'])
                );
                assert_eq!(from_utf16(&unit, 0).0, Err(15));
            }
            None => {
                for room in [0, 1, 2, 3] {
                    assert_eq!(from_utf16(&unit, room).0, Err(18));
                    assert_eq!(from_utf16(&between, room).0, Err(18));
                }
            }
        }
        // Half of it is refused, whichever it is.
        assert_eq!(from_utf16(&between[..5], 3).0, Err(18));
    }
    assert_eq!(accepted, 256);
}

/// Random bytes of every length up to 300, and some longer ones.
#[test]
fn random_bytes() {
    let mut rng = Random::new(1);
    for length in (0..300).chain([1000, 4095, 4096, 65_537, 1 << 20]) {
        let bytes = rng.bytes(length);
        let whole = units(&bytes);
        if length > 0 {
            // Half a unit, before and after.
            for part in [&whole[1..], &whole[..whole.len() - 1]] {
                for room in [0, length - 1, length] {
                    assert_eq!(from_utf16(part, room).0, Err(18));
                }
            }
        }
    }
}

/// Units of the table with one that may be none of it, at every output length
/// around the limit.
#[test]
fn random_units() {
    let mut rng = Random::new(2);
    let (mut good, mut bad) = (0, 0);
    for _ in 0..100_000 {
        let length = rng.below(40);
        let mut text = units(&rng.bytes(length));
        if length > 0 {
            let at = rng.below(length);
            let unit = match rng.below(4) {
                0 => rng.bits() as u16,
                1 => rng.pick(&[0x80, 0x9F, 0x100, 0x151, 0x2012, 0x2017, 0x20AD, 0x2121]),
                2 => rng.range(0x80, 0x9F) as u16,
                _ => rng.below(0x100) as u16,
            };
            text[2 * at..2 * at + 2].copy_from_slice(&unit.to_le_bytes());
        }
        for room in length.saturating_sub(2)..length + 3 {
            match from_utf16(&text, room).0 {
                Err(18) => bad += 1,
                answer if room < length => assert_eq!(answer, Err(15)),
                answer => {
                    assert_eq!(answer, Ok(length));
                    good += 1;
                }
            }
        }
    }
    assert!(good > 10_000 && bad > 10_000, "{good} {bad}");
}

/// Random bytes taken for units.
#[test]
fn any_bytes_as_units() {
    let mut rng = Random::new(3);
    for _ in 0..100_000 {
        let (length, room) = (rng.below(7), rng.below(5));
        let bytes: Vec<u8> = (0..length)
            .map(|_| rng.pick(&[0, 0, 1, 0x20, 0x21, 0x41, 0x80, 0xAC, 0xFF]))
            .collect();
        let back = from_utf16(&bytes, room).0;
        assert!(matches!(back, Ok(_) | Err(15 | 18)));
        let there = to_utf16(&bytes, room + rng.below(10)).0;
        assert!(matches!(there, Ok(_) | Err(15)));
    }
}

extern "C" {
    fn iconv_open(to: *const c_char, from: *const c_char) -> *mut c_void;
    fn iconv(
        conversion: *mut c_void,
        input: *mut *const c_char,
        input_left: *mut usize,
        output: *mut *mut c_char,
        output_left: *mut usize,
    ) -> usize;
    fn iconv_close(conversion: *mut c_void) -> c_int;
}

/// What the C library converts some bytes to, if it does.
fn by_c_library(to: &CStr, from: &CStr, bytes: &[u8]) -> Option<Vec<u8>> {
    let mut out = vec![0; 2 * bytes.len()];
    let (mut input, mut input_left) = (bytes.as_ptr().cast(), bytes.len());
    let (mut output, mut output_left) = (out.as_mut_ptr().cast(), out.len());
    // SAFETY: the names end with a zero byte; what `iconv` reads and writes lies
    // in `bytes` and `out`, whose lengths it is given; the conversion is closed
    // once, and not used after that.
    let result = unsafe {
        let conversion = iconv_open(to.as_ptr(), from.as_ptr());
        assert!(
            conversion != ptr::without_provenance_mut(usize::MAX),
            "the C library has no {from:?}"
        );
        let result = iconv(
            conversion,
            &mut input,
            &mut input_left,
            &mut output,
            &mut output_left,
        );
        iconv_close(conversion);
        result
    };
    out.truncate(out.len() - output_left);
    (result == 0 && input_left == 0).then_some(out)
}

/// The table is that of the C library, both ways; the five undefined bytes
/// aside, which it refuses.
#[test]
fn table_of_the_c_library() {
    for byte in all_bytes() {
        let unit = by_c_library(c"UTF-16LE", c"CP1252", &[byte]);
        match UNDEFINED.contains(&byte) {
            true => assert_eq!(unit, None, "{byte:#x}"),
            false => assert_eq!(unit, Some(units(&[byte])), "{byte:#x}"),
        }
    }
    for unit in 0..=0xFFFFu16 {
        let ours = from_utf16(&unit.to_le_bytes(), 1);
        let its = by_c_library(c"CP1252", c"UTF-16LE", &unit.to_le_bytes());
        match u8::try_from(unit).is_ok_and(|unit| UNDEFINED.contains(&unit)) {
            true => assert_eq!((its, ours), (None, (Ok(1), vec![unit as u8]))),
            false => assert_eq!(its, ours.0.is_ok().then_some(ours.1), "{unit:#x}"),
        }
    }
}
