//! The example, on the log of the C example and with its output.

use std::fs;
use std::path::Path;

#[allow(dead_code)]
#[path = "../examples/records.rs"]
mod records;

fn read(name: &str) -> Vec<u8> {
    let folder = Path::new(env!("CARGO_MANIFEST_DIR")).join("../../examples");
    fs::read(folder.join(name)).expect("the file is there")
}

#[test]
fn prints_the_records() {
    let mut out = Vec::new();
    records::run(read("scale.log"), &mut out).unwrap();
    // The example in C prints what is not ASCII by its number.
    let expected = String::from_utf8(read("records.expected")).unwrap();
    assert_eq!(
        String::from_utf8(out).unwrap(),
        expected.replace("\\u20ac", "€")
    );
}

#[test]
fn tells_what_is_refused() {
    let mut log = read("scale.log");
    log.pop();
    let error = records::run(log, &mut Vec::new()).unwrap_err();
    let text = "refused 3 at 212, field 0: Length is more than the bytes left";
    assert_eq!(error.to_string(), text);
}
