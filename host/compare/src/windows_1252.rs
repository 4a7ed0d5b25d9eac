//! windows-1252 and UTF-16: the same bytes given to both libraries. A difference
//! panics.

use eventlog::windows_1252;
use eventlog::Refusal;

/// A byte that an output holds before a call.
const LENT: u8 = 0xEE;

/// What a call answers, and its output.
type Answer = (Result<usize, u32>, Vec<u8>);

type Call<E> = fn(&[u8], &mut [u8]) -> Result<usize, E>;

/// Both are given an output of this length. A refusal leaves it, and a success
/// leaves what it does not write.
fn both(input: &[u8], room: usize, proved: Call<Refusal>, plain: Call<u32>) -> Answer {
    let (mut out, mut other) = (vec![LENT; room], vec![LENT; room]);
    let answer = proved(input, &mut out).map_err(Refusal::number);
    assert_eq!(answer, plain(input, &mut other));
    assert!(out == other, "the outputs differ");
    let written = answer.unwrap_or(0);
    assert!(out[written..].iter().all(|&byte| byte == LENT));
    (answer, out)
}

/// Both write bytes as UTF-16.
pub fn to_utf16(bytes: &[u8], room: usize) -> Answer {
    both(
        bytes,
        room,
        windows_1252::to_utf16,
        plain::windows_1252::to_utf16,
    )
}

/// Both write UTF-16 as bytes.
pub fn from_utf16(units: &[u8], room: usize) -> Answer {
    both(
        units,
        room,
        windows_1252::from_utf16,
        plain::windows_1252::from_utf16,
    )
}

/// The units of bytes, there and back, at every room around what they take.
pub fn units(bytes: &[u8]) -> Vec<u8> {
    let size = 2 * bytes.len();
    for room in size.saturating_sub(3)..size {
        assert_eq!(to_utf16(bytes, room).0, Err(15));
    }
    for room in size + 1..size + 4 {
        assert_eq!(to_utf16(bytes, room).0, Ok(size));
    }
    let (written, units) = to_utf16(bytes, size);
    assert_eq!(written, Ok(size));
    for room in bytes.len().saturating_sub(3)..bytes.len() {
        assert_eq!(from_utf16(&units, room).0, Err(15));
    }
    for room in bytes.len()..bytes.len() + 3 {
        let (read, back) = from_utf16(&units, room);
        assert_eq!((read, &back[..bytes.len()]), (Ok(bytes.len()), bytes));
    }
    units
}
