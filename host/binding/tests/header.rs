//! The numbers and the words are those of `include/eventlog.h`.

use std::fs;

use eventlog::*;

fn header() -> String {
    let path = concat!(env!("CARGO_MANIFEST_DIR"), "/../../include/eventlog.h");
    fs::read_to_string(path).expect("the header is there")
}

/// The number that the header defines under a name.
fn defined(header: &str, name: &str) -> u32 {
    let line = format!("#define EVENTLOG_{name} ");
    let value = header.lines().find_map(|text| text.strip_prefix(&line));
    let value = value.unwrap_or_else(|| panic!("the header has no {name}"));
    let digits = value.strip_suffix('u').expect("the number is unsigned");
    match digits.strip_prefix("0x") {
        Some(digits) => u32::from_str_radix(digits, 16),
        None => digits.parse(),
    }
    .expect("a number")
}

#[test]
fn numbers() {
    let header = header();
    let limit = |limit: usize| u32::try_from(limit).unwrap();
    for (name, number) in [
        ("MIN_LENGTH", limit(MIN_LENGTH)),
        ("MAX_LENGTH", limit(MAX_LENGTH)),
        ("MAX_STRINGS", u32::from(MAX_STRINGS)),
        ("MAX_SID", limit(MAX_SID)),
        ("MAX_DATA", limit(MAX_DATA)),
        ("MAX_READ", limit(MAX_READ)),
        ("LISTING_ROOM", limit(LISTING_ROOM)),
        ("CARD_BLOCK", limit(card::BLOCK)),
        ("CARD_PAYLOAD", limit(card::PAYLOAD)),
        ("MAX_CARD_BLOCKS", limit(card::MAX_BLOCKS)),
        ("MAX_CARD_LOG", limit(card::MAX_LOG)),
        ("UNICODE", Edition::Unicode.number()),
        ("ANSI", Edition::Ansi.number()),
        ("SIGNATURE", SIGNATURE),
        ("FLAGS_XML", u32::from(XML_FLAG)),
        ("SEQUENTIAL", flags::SEQUENTIAL),
        ("SEEK", flags::SEEK),
        ("FORWARDS", flags::FORWARDS),
        ("BACKWARDS", flags::BACKWARDS),
        ("SUCCESS", u32::from(event_type::SUCCESS)),
        ("ERROR_TYPE", u32::from(event_type::ERROR)),
        ("WARNING_TYPE", u32::from(event_type::WARNING)),
        ("INFORMATION_TYPE", u32::from(event_type::INFORMATION)),
        ("AUDIT_SUCCESS", u32::from(event_type::AUDIT_SUCCESS)),
        ("AUDIT_FAILURE", u32::from(event_type::AUDIT_FAILURE)),
        ("WANT_ERROR", Types::ERROR.bits()),
        ("WANT_WARNING", Types::WARNING.bits()),
        ("WANT_INFORMATION", Types::INFORMATION.bits()),
        ("WANT_AUDIT_SUCCESS", Types::AUDIT_SUCCESS.bits()),
        ("WANT_AUDIT_FAILURE", Types::AUDIT_FAILURE.bits()),
        ("WANT_SUCCESS", Types::SUCCESS.bits()),
        ("WANT_ALL", Types::ALL.bits()),
    ] {
        assert_eq!(defined(&header, name), number, "{name}");
    }
}

/// The header has this message for the number with this name.
fn says(header: &str, name: &str, words: &str) {
    let line = format!("    case EVENTLOG_{name}: return \"{words}\";");
    assert!(header.lines().any(|text| text == line), "{line}");
}

#[test]
fn words() {
    let header = header();
    for (name, refusal) in [
        ("PLACE", Refusal::Place),
        ("LENGTH", Refusal::Length),
        ("CUT_SHORT", Refusal::CutShort),
        ("SIGNATURE", Refusal::Signature),
        ("LENGTH2", Refusal::Length2),
        ("EVENT_TYPE", Refusal::EventType),
        ("FLAGS", Refusal::Flags),
        ("STRING_COUNT", Refusal::StringCount),
        ("NAME", Refusal::Name),
        ("SID", Refusal::Sid),
        ("STRINGS", Refusal::Strings),
        ("DATA", Refusal::Data),
        ("SIZE", Refusal::Size),
        ("LOG_END", Refusal::LogEnd),
        ("OUTPUT", Refusal::Output),
        ("NO_STRING", Refusal::NoString),
        ("UNIT", Refusal::Unit),
        ("CARD_LOG", Refusal::CardLog),
        ("CARD_LENGTH", Refusal::CardLength),
        ("BLOCK_CHECK", Refusal::BlockCheck),
        ("BLOCK_NUMBER", Refusal::BlockNumber),
        ("BLOCK_USED", Refusal::BlockUsed),
        ("BLOCK_MARK", Refusal::BlockMark),
    ] {
        let name = format!("REFUSED_{name}");
        assert_eq!(defined(&header, &name), refusal.number(), "{name}");
        says(&header, &name, &refusal.to_string());
    }
    for (name, status) in [
        ("INVALID_HANDLE", Status::InvalidHandle),
        ("INVALID_PARAMETER", Status::InvalidParameter),
        ("END_OF_FILE", Status::EndOfFile),
        ("BUFFER_TOO_SMALL", Status::BufferTooSmall { needed: 64 }),
        ("EVENTLOG_FILE_CORRUPT", Status::EventlogFileCorrupt),
    ] {
        let name = format!("STATUS_{name}");
        assert_eq!(defined(&header, &name), status.code(), "{name}");
        says(&header, &name, &status.to_string());
    }
}

#[test]
fn version() {
    let line = format!("#define EVENTLOG_VERSION \"{}\"", env!("CARGO_PKG_VERSION"));
    assert!(header().lines().any(|text| text == line), "{line}");
}
