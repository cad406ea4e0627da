//! Random types of every size up to 520 nodes, good and damaged, and random bytes.

use std::ops::RangeInclusive;
use trials::compare::Comparison;
use trials::damage;
use trials::flat::Flat;
use trials::grow::{grow, LEAST_ROOM};
use trials::random::Random;

/// Sizes on both sides of 512, the most nodes of a type.
const SIZES: RangeInclusive<usize> = 1..=520;

/// A valid type, but for its size where that is over 512.
fn sound(random: &mut Random, size: usize) -> Flat {
    let room = random.pick(&[LEAST_ROOM, 8, 16, 32, 32]);
    let flat = grow(random, size, room).flat;
    assert_eq!(flat.kinds.len(), size);
    flat
}

#[test]
fn valid_types() {
    let (mut comparison, mut random) = (Comparison::default(), Random::new(1));
    for size in SIZES {
        for _ in 0..100 {
            let number = comparison.both(&sound(&mut random, size));
            assert_eq!(number, if size <= 512 { 0 } else { 1 });
        }
    }
    let (cases, of_number) = comparison.report("valid types");
    assert_eq!(cases, 2 * 100 * 520);
    assert_eq!(of_number, [2 * 100 * 512, 2 * 100 * 8, 0, 0, 0, 0]);
}

#[test]
fn types_around_the_depth_limit() {
    let (mut comparison, mut random) = (Comparison::default(), Random::new(2));
    for size in 1..=512 {
        for _ in 0..100 {
            let room = random.between(30, 60);
            let grown = grow(&mut random, size, room);
            let number = comparison.both(&grown.flat);
            assert_eq!(number, if grown.depth <= 32 { 0 } else { 5 });
        }
    }
    let (cases, of_number) = comparison.report("types around the depth limit");
    assert_eq!(cases, 2 * 100 * 512);
    assert!(of_number[0] > 10_000 && of_number[5] > 10_000);
}

#[test]
fn damaged_nodes() {
    let (mut comparison, mut random) = (Comparison::default(), Random::new(3));
    for size in SIZES {
        for damage in damage::NODES {
            for _ in 0..20 {
                let room = random.between(LEAST_ROOM, 64);
                let mut flat = grow(&mut random, size, room).flat;
                damage(&mut flat, &mut random);
                comparison.both(&flat);
            }
        }
    }
    let (cases, of_number) = comparison.report("damaged nodes");
    assert_eq!(cases, 2 * 20 * 8 * 520);
    assert!(of_number.iter().all(|&count| count > 1000));
}

#[test]
fn unequal_lengths() {
    let (mut comparison, mut random) = (Comparison::default(), Random::new(4));
    for size in SIZES {
        for damage in damage::LENGTHS {
            for _ in 0..10 {
                let mut flat = sound(&mut random, size);
                damage(&mut flat, &mut random);
                assert_eq!(comparison.both(&flat), 1);
            }
        }
    }
    let (cases, of_number) = comparison.report("unequal lengths");
    assert_eq!(cases, 2 * 10 * 4 * 520);
    assert_eq!(of_number, [0, cases, 0, 0, 0, 0]);
}

#[test]
fn damaged_bytes() {
    let (mut comparison, mut random) = (Comparison::default(), Random::new(5));
    for size in SIZES {
        for damage in damage::BYTES {
            for _ in 0..20 {
                let mut bytes = sound(&mut random, size).laid_out();
                damage(&mut bytes, &mut random);
                comparison.encoded(&bytes);
            }
        }
    }
    let (cases, of_number) = comparison.report("damaged bytes");
    assert_eq!(cases, 20 * 8 * 520);
    assert!(of_number[..5].iter().all(|&count| count > 50));
}

#[test]
fn random_nodes() {
    let (mut comparison, mut random) = (Comparison::default(), Random::new(6));
    for size in 0..=520 {
        for _ in 0..100 {
            comparison.both(&damage::random_nodes(&mut random, size));
        }
    }
    let (cases, of_number) = comparison.report("random nodes");
    assert_eq!(cases, 2 * 100 * 521);
    assert!(of_number[..5].iter().all(|&count| count > 10));
}

#[test]
fn random_bytes() {
    let (mut comparison, mut random) = (Comparison::default(), Random::new(7));
    for len in 0..=lomzegash::encoded_len(520) {
        for _ in 0..20 {
            let bytes: Vec<u8> = (0..len).map(|_| random.number() as u8).collect();
            comparison.encoded(&bytes);
        }
    }
    let (cases, of_number) = comparison.report("random bytes");
    assert_eq!(cases, 20 * (2 + 9 * 520 + 1));
    assert!(of_number[1] > 90_000);
}
