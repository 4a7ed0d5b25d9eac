//! Both libraries on the memory card.

use compare::card::{check_again, damage, image, judge, read, refusal, write};
use compare::random::Random;
use eventlog::card::{blocks, BLOCK, MAX_BLOCKS, MAX_LOG};

fn log(seed: u64, length: usize) -> Vec<u8> {
    Random::new(seed).bytes(length)
}

/// Lengths around a block, each log written and read back, from zeros, from
/// bytes of 255 and from random ones.
#[test]
fn logs_come_back() {
    let some = [
        0, 1, 2, 499, 500, 501, 999, 1000, 1001, 1500, 32_767, 65_520, 65_521,
    ];
    for length in some.into_iter().chain(0..1003) {
        for bytes in [
            log(length as u64, length),
            vec![0; length],
            vec![255; length],
        ] {
            assert_eq!(refusal(&image(&bytes)), 0);
        }
    }
}

/// Every byte of small images, set to every other value.
#[test]
fn every_changed_byte_is_21() {
    for length in [0, 1, 499, 500, 501] {
        let mut image = image(&log(1, length));
        let count = image.len() / BLOCK;
        for at in 0..image.len() {
            let old = image[at];
            let values = 0..=255u8;
            // All values in the first image, some in the longer ones.
            for value in values.filter(|v| length < 2 || v % 16 == old % 16 || *v == old ^ 1) {
                image[at] = value;
                let expected = if value == old { 0 } else { 21 };
                assert_eq!(read(&image, length).0.err().unwrap_or(0), expected);
                for k in 0..count {
                    let here = if k == at / BLOCK { expected } else { 0 };
                    assert_eq!(judge(&image, k), here);
                }
            }
            image[at] = old;
        }
    }
}

/// Any two blocks exchanged.
#[test]
fn exchanged_blocks_are_22() {
    for length in [501, 1000, 2999, 5001] {
        let whole = image(&log(2, length));
        let count = whole.len() / BLOCK;
        for j in 0..count {
            for k in 0..j {
                let mut changed = whole.clone();
                let (front, back) = changed.split_at_mut(j * BLOCK);
                front[k * BLOCK..][..BLOCK].swap_with_slice(&mut back[..BLOCK]);
                assert_eq!(refusal(&changed), 22);
                assert_eq!((judge(&changed, k), judge(&changed, j)), (22, 22));
            }
        }
    }
}

/// An image of three blocks, cut after every byte.
#[test]
fn every_cut_is_20_or_24() {
    let whole = image(&log(3, 1001));
    for length in 0..whole.len() {
        let expected = if length > 0 && length % BLOCK == 0 {
            24
        } else {
            20
        };
        assert_eq!(refusal(&whole[..length]), expected);
    }
}

/// Every byte of a small image changed and its check made right again: what
/// the other tests refuse.
#[test]
fn fields_with_right_checks() {
    let mut seen = [0; 25];
    for length in [0, 3, 500, 501] {
        let whole = image(&log(4, length));
        for at in 0..whole.len() {
            if at % BLOCK >= 508 {
                continue;
            }
            for value in [0, 1, 2, 3, 244, 245, 255] {
                let mut changed = whole.clone();
                changed[at] = value;
                check_again(&mut changed[at / BLOCK * BLOCK..][..BLOCK]);
                seen[refusal(&changed) as usize] += 1;
            }
        }
    }
    assert!([0, 22, 23, 24].iter().all(|&r| seen[r] > 0), "{seen:?}");
}

/// Random damage of random images.
#[test]
fn random_damage() {
    let mut rng = Random::new(5);
    let mut seen = [0; 25];
    for _ in 0..60_000 {
        let length = match rng.below(3) {
            0 => rng.below(4),
            1 => rng.pick(&[499, 500, 501, 1000, 1500]),
            _ => rng.below(2600),
        };
        let mut changed = image(&rng.bytes(length));
        damage(&mut rng, &mut changed);
        seen[refusal(&changed) as usize] += 1;
    }
    assert!(
        [0, 20, 21, 22, 23, 24].iter().all(|&r| seen[r] > 100),
        "{seen:?}"
    );
}

/// The largest log, one byte more, and one block more.
#[test]
fn limits() {
    let mut log = log(6, MAX_LOG + 1);
    assert_eq!(blocks(MAX_LOG), MAX_BLOCKS);
    assert_eq!(blocks(MAX_LOG + 1), MAX_BLOCKS + 1);
    assert_eq!(blocks(usize::MAX), usize::MAX / 500 + 1);
    for room in [0, (MAX_BLOCKS + 1) * BLOCK] {
        assert_eq!(write(&log, room).0, Err(19));
    }
    log.truncate(MAX_LOG);
    let mut image = image(&log);
    assert_eq!(
        (image.len(), judge(&image, MAX_BLOCKS - 1)),
        (MAX_BLOCKS * BLOCK, 0)
    );
    let last = image[image.len() - BLOCK..].to_vec();
    image.extend(last);
    assert_eq!(read(&image, 0).0, Err(20));
    assert_eq!((judge(&image, 0), judge(&image, MAX_BLOCKS)), (20, 20));
}
