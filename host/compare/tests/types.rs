//! Sets of event types: how many types they hold, and which.

use compare::random::Random;

/// Sets with every low bit, each bit by itself and all others, and random ones.
fn sets() -> impl Iterator<Item = u32> {
    let mut rng = Random::new(8);
    let each = (0..32).flat_map(|bit| [1 << bit, !(1 << bit)]);
    let random = (0..10_000).map(move |_| rng.bits() as u32);
    (0..1024).chain(each).chain(random)
}

#[test]
fn counts_are_the_same() {
    for bits in sets() {
        let proved = eventlog::Types::from_bits(bits);
        let plain = plain::Types(bits);
        assert_eq!(proved.count(), plain.count(), "{bits:#x}");
        let held = [0, 1, 2, 4, 8, 16].into_iter();
        let held = held
            .filter(|event_type| plain.contains(*event_type))
            .count();
        assert_eq!(plain.count() as usize, held, "{bits:#x}");
        assert_eq!(eventlog::Handle::fresh(proved).types, proved);
    }
}

/// A set is refused by its bits alone, whatever the read.
#[test]
fn the_same_sets_are_refused() {
    for bits in sets() {
        for flags in [5, 6, 9, 10] {
            let handle = eventlog::Handle::fresh(eventlog::Types::from_bits(bits));
            let read =
                handle.read_with_flags(eventlog::Edition::Unicode, &[], flags, 0, 0, &mut []);
            let error = read.expect_err("an empty log has no record");
            let plain = plain::Handle::fresh(plain::Types(bits));
            let answer = plain.read(plain::Edition::Unicode, &[], flags, 0, 0, &mut []);
            assert_eq!(error.status.code(), answer.status, "{bits:#x} {flags}");
            let wrong = error.status == eventlog::Status::InvalidParameter;
            // A seek in an empty log has this status anyway.
            assert_eq!(wrong, bits > 63 || flags & 2 != 0, "{bits:#x} {flags}");
            assert_eq!(error.handle.types.bits(), bits);
        }
    }
}

#[test]
fn the_same_types_are_held() {
    for bits in 0..64 {
        for event_type in (0..200).chain([256, 0x1000, 0x8000, u16::MAX]) {
            let proved = eventlog::Types::from_bits(bits).contains(event_type);
            assert_eq!(proved, plain::Types(bits).contains(event_type));
        }
    }
}
