//! The memory card: one image or log given to both libraries. A difference
//! panics; what is answered is the refusal, so that a test can say which.

use eventlog::card::{self, BLOCK, PAYLOAD};
use eventlog::Refusal;

use crate::random::Random;

/// A byte that an output holds before a call.
const LENT: u8 = 0xEE;

fn number(answer: Result<usize, Refusal>) -> Result<usize, u32> {
    answer.map_err(Refusal::number)
}

/// Both write the log to an output of this length; the answer and the output.
pub fn write(log: &[u8], room: usize) -> (Result<usize, u32>, Vec<u8>) {
    let (mut proved, mut plain) = (vec![LENT; room], vec![LENT; room]);
    let answer = number(card::write(log, &mut proved));
    assert_eq!(answer, plain::card::write(log, &mut plain));
    assert!(proved == plain, "the outputs differ");
    let written = answer.unwrap_or(0);
    assert!(proved[written..].iter().all(|&byte| byte == LENT));
    (answer, proved)
}

/// Both read the image to an output of this length; the answer and the output.
pub fn read(image: &[u8], room: usize) -> (Result<usize, u32>, Vec<u8>) {
    let (mut proved, mut plain) = (vec![LENT; room], vec![LENT; room]);
    let answer = number(card::read(image, &mut proved));
    assert_eq!(answer, plain::card::read(image, &mut plain));
    assert!(proved == plain, "the outputs differ");
    let read = answer.unwrap_or(0);
    assert!(proved[read..].iter().all(|&byte| byte == LENT));
    (answer, proved)
}

/// Both judge the block at a place.
pub fn judge(image: &[u8], place: usize) -> u32 {
    let refusal = card::judge(image, place).map_or(0, Refusal::number);
    assert_eq!(refusal, plain::card::judge(image, place));
    refusal
}

/// The image of a log, written and read back by both.
pub fn image(log: &[u8]) -> Vec<u8> {
    let blocks = card::blocks(log.len());
    assert_eq!(blocks, plain::card::blocks(log.len()));
    let whole = blocks * BLOCK;
    assert_eq!(write(log, whole - 1).0, Err(15));
    let (written, image) = write(log, whole + 3);
    assert_eq!(written, Ok(whole));
    let image = image[..whole].to_vec();
    let (length, back) = read(&image, log.len() + 3);
    assert_eq!((length, &back[..log.len()]), (Ok(log.len()), log));
    if !log.is_empty() {
        assert_eq!(read(&image, log.len() - 1).0, Err(15));
    }
    image
}

/// The refusal of an image, and that of each of its blocks.
pub fn refusal(image: &[u8]) -> u32 {
    let refusal = read(image, image.len()).0.err().unwrap_or(0);
    let blocks = image.len().div_ceil(BLOCK);
    let first = (0..blocks).map(|k| judge(image, k)).find(|&r| r != 0);
    assert_eq!(judge(image, blocks), 20);
    assert_eq!(refusal, first.unwrap_or(if blocks == 0 { 20 } else { 0 }));
    refusal
}

/// The check of a block written anew, so that later tests are come to.
pub fn check_again(block: &mut [u8]) {
    let sum = |weight: fn(usize) -> u64| {
        let sum: u64 = (0..508).map(|i| u64::from(block[i]) * weight(i)).sum();
        (sum % 65_521) as u16
    };
    let (low, high) = (sum(|_| 1), sum(|i| 508 - i as u64));
    block[508..510].copy_from_slice(&low.to_le_bytes());
    block[510..512].copy_from_slice(&high.to_le_bytes());
}

/// Some damage of an image; half of it has right checks afterwards.
pub fn damage(rng: &mut Random, image: &mut Vec<u8>) {
    for _ in 0..rng.range(1, 3) {
        if image.is_empty() {
            return;
        }
        let k = rng.below(image.len().div_ceil(BLOCK)) * BLOCK;
        let field = rng.pick(&[0, 3, 4, 5, 6, 6 + PAYLOAD - 1, 506, 507, 508, 511]);
        let at = match rng.once_in(3) {
            true => k + rng.below(BLOCK),
            false => k + field,
        };
        match rng.below(8) {
            0 => image.truncate(at),
            1 => image.extend(rng.bytes(BLOCK)),
            2 => image.truncate(at / BLOCK * BLOCK),
            3 => {
                let other = rng.below(image.len().div_ceil(BLOCK)) * BLOCK;
                for i in 0..BLOCK {
                    if k.max(other) + i < image.len() {
                        image.swap(k + i, other + i);
                    }
                }
            }
            _ if at < image.len() => image[at] = rng.pick(&[0, 1, 2, 243, 244, 245, 255]),
            _ => (),
        }
        if rng.once_in(2) {
            image.chunks_exact_mut(BLOCK).for_each(check_again);
        }
    }
}
