//! Both searches answer this.

use crate::search::after_zero_units;

/// More than a block of the tuned search behind its first words.
const LENGTH: usize = 96;

#[test]
fn the_place_after_zero_units() {
    // Zero units end at 2, 8, 10 and 20; the last byte is half a unit.
    let run = [
        0, 0, 1, 0, 0, 1, 0, 0, 0, 0, 1, 1, 1, 1, 1, 1, 1, 1, 0, 0, 0,
    ];
    let search = after_zero_units::<2>;
    for (count, after) in [(0, 0), (1, 2), (2, 8), (3, 10), (4, 20)] {
        assert_eq!(search(&run, 0, count), Some(after));
    }
    assert_eq!(search(&run, 0, 5), None);
    assert_eq!(search(&run, 2, 1), Some(8));
    assert_eq!(search(&run, 3, 1), Some(5));
    assert_eq!(search(&run, 21, 0), Some(21));
    assert_eq!(search(&run, 21, 1), None);
    assert_eq!(search(&run, 22, 0), None);

    // In the other edition every zero byte is one.
    let search = after_zero_units::<1>;
    let ends = [1, 2, 4, 5, 7, 8, 9, 10, 19, 20, 21];
    for (count, after) in (1..).zip(ends) {
        assert_eq!(search(&run, 0, count), Some(after));
    }
    assert_eq!(search(&run, 0, 0), Some(0));
    assert_eq!(search(&run, 0, ends.len() + 1), None);
    assert_eq!(search(&run, 10, 1), Some(19));
    assert_eq!(search(&run, 20, 1), Some(21));
    assert_eq!(search(&run, 21, 0), Some(21));
    assert_eq!(search(&run, 21, 1), None);
    assert_eq!(search(&run, 22, 0), None);
}

/// A run of every length up to some blocks, a zero unit at every place of it and
/// one more at the end of it.
fn zero_units_everywhere<const W: usize>() {
    let search = after_zero_units::<W>;
    for length in 0..=LENGTH {
        for zero in (0..(length + 1).saturating_sub(W)).step_by(W) {
            for from in 0..2 {
                let mut run = vec![0xFF; from + length];
                assert_eq!(search(&run, from, 1), None);
                run[from + zero..][..W].fill(0);
                let after = from + zero + W;
                assert_eq!(search(&run, from, 1), Some(after));
                assert_eq!(search(&run, from, 2), None);
                let last = (length - W) / W * W;
                run[from + last..][..W].fill(0);
                let second = (last > zero).then_some(from + last + W);
                assert_eq!(search(&run, from, 1), Some(after));
                assert_eq!(search(&run, from, 2), second);
            }
        }
    }
}

#[test]
fn zero_units_at_every_place() {
    zero_units_everywhere::<2>();
    zero_units_everywhere::<1>();
}
