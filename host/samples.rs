//! The samples S and T byte by byte, for the tests of both libraries.

/// S (Rule 11.1): number 7, and no part but two empty names. It has these bytes
/// in both editions; in ANSI Computername is at 57.
#[rustfmt::skip]
pub const S: [u8; 64] = [
    0x40, 0, 0, 0, // Length 64
    0x4C, 0x66, 0x4C, 0x65, // Reserved
    7, 0, 0, 0, // RecordNumber
    0, 0, 0, 0, // TimeGenerated
    0, 0, 0, 0, // TimeWritten
    0, 0, 0, 0, // EventID
    0, 0, // EventType
    0, 0, // NumStrings
    0, 0, // EventCategory
    0, 0, // ReservedFlags
    0, 0, 0, 0, // ClosingRecordNumber
    0, 0, 0, 0, // StringOffset
    0, 0, 0, 0, // UserSidLength
    0, 0, 0, 0, // UserSidOffset
    0, 0, 0, 0, // DataLength
    0, 0, 0, 0, // DataOffset
    0, 0, // 56 SourceName
    0, 0, // 58 Computername
    0x40, 0, 0, 0, // 60 Length2
];

/// T (Rule 11.2): number 8, and every part.
#[rustfmt::skip]
pub const T: [u8; 104] = [
    0x68, 0, 0, 0, // Length 104
    0x4C, 0x66, 0x4C, 0x65, // Reserved
    8, 0, 0, 0, // RecordNumber
    0, 0, 0, 0, // TimeGenerated
    0, 0, 0, 0, // TimeWritten
    0, 0, 0, 0, // EventID
    0, 0, // EventType
    1, 0, // NumStrings
    0, 0, // EventCategory
    0, 0, // ReservedFlags
    0, 0, 0, 0, // ClosingRecordNumber
    0x58, 0, 0, 0, // StringOffset 88
    0x0C, 0, 0, 0, // UserSidLength 12
    0x4C, 0, 0, 0, // UserSidOffset 76
    3, 0, 0, 0, // DataLength
    0x5E, 0, 0, 0, // DataOffset 94
    b'S', 0, b'c', 0, b'a', 0, b'l', 0, b'e', 0, 0, 0, // 56 SourceName
    b'T', 0, b'1', 0, 0, 0, // 68 Computername
    0, 0, // 74 gap
    1, 1, 0, 0, 0, 0, 0, 0, 0, 0, 0, 0, // 76 SID, one sub-authority
    b'O', 0, b'K', 0, 0, 0, // 88 strings
    0, 0, 0, // 94 data
    0, 0, 0, // 97 gap
    0x68, 0, 0, 0, // 100 Length2
];

/// T in ANSI.
#[rustfmt::skip]
pub const ANSI_T: [u8; 92] = [
    0x5C, 0, 0, 0, // Length 92
    0x4C, 0x66, 0x4C, 0x65, // Reserved
    8, 0, 0, 0, // RecordNumber
    0, 0, 0, 0, // TimeGenerated
    0, 0, 0, 0, // TimeWritten
    0, 0, 0, 0, // EventID
    0, 0, // EventType
    1, 0, // NumStrings
    0, 0, // EventCategory
    0, 0, // ReservedFlags
    0, 0, 0, 0, // ClosingRecordNumber
    0x50, 0, 0, 0, // StringOffset 80
    0x0C, 0, 0, 0, // UserSidLength 12
    0x44, 0, 0, 0, // UserSidOffset 68
    3, 0, 0, 0, // DataLength
    0x53, 0, 0, 0, // DataOffset 83
    b'S', b'c', b'a', b'l', b'e', 0, // 56 SourceName
    b'T', b'1', 0, // 62 Computername
    0, 0, 0, // 65 gap
    1, 1, 0, 0, 0, 0, 0, 0, 0, 0, 0, 0, // 68 SID, one sub-authority
    b'O', b'K', 0, // 80 strings
    0, 0, 0, // 83 data
    0, 0, // 86 gap
    0x5C, 0, 0, 0, // 88 Length2
];

pub const SCALE: &[u8] = b"S\0c\0a\0l\0e\0";
pub const T1: &[u8] = b"T\x001\0";
pub const OK: &[u8] = b"O\0K\0";
pub const OK_RUN: &[u8] = b"O\0K\0\0\0";
pub const SID: &[u8] = &[1, 1, 0, 0, 0, 0, 0, 0, 0, 0, 0, 0];

/// The log S, T.
pub fn s_t() -> Vec<u8> {
    [&S[..], &T[..]].concat()
}

/// The log S, T in ANSI.
pub fn ansi_s_t() -> Vec<u8> {
    [&S[..], &ANSI_T[..]].concat()
}
