//! The memory card, and text in windows-1252.

use std::hint::black_box;

use plain::card::{blocks, BLOCK};

use super::{output_row, Calls};
use crate::calls::{versions, Output};

type Convert = fn(&[u8], &mut [u8]) -> usize;

/// A log of 16 MiB to a card's image and back.
pub fn card(calls: &mut Calls, log: &[u8]) {
    let mut image = vec![0; blocks(log.len()) * BLOCK];
    plain::card::write(log, &mut image).expect("the log is short enough");
    convert(
        calls,
        ("card", "a log of 16 MiB to its image"),
        log,
        image.len(),
        versions!(card_write),
    );
    convert(
        calls,
        ("card", "the image to its log"),
        &image,
        log.len(),
        versions!(card_read),
    );
}

/// A text of 1 MiB in windows-1252 to UTF-16 and back.
pub fn windows_1252(calls: &mut Calls, text: &[u8]) {
    let mut units = vec![0; 2 * text.len()];
    plain::windows_1252::to_utf16(text, &mut units).expect("every byte has a unit");
    convert(
        calls,
        ("windows-1252", "1 MiB of text to UTF-16"),
        text,
        units.len(),
        versions!(to_utf16),
    );
    convert(
        calls,
        ("windows-1252", "the text from UTF-16"),
        &units,
        text.len(),
        versions!(from_utf16),
    );
}

fn convert(
    calls: &mut Calls,
    name: (&'static str, &str),
    from: &[u8],
    size: usize,
    works: [Convert; 3],
) {
    let works = works.map(|work| -> Output { Box::new(move |out| work(black_box(from), out)) });
    output_row(calls, name, 1, size, works);
}
