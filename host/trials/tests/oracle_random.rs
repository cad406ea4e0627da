//! Beside the crate's own text: random types of every size and depth to the limits, near misses and damaged ones.

use oracle::Type;
use trials::damage;
use trials::differential::Differential;
use trials::draw;
use trials::flat::Flat;
use trials::grow::grow;
use trials::input::Input;
use trials::random::Random;
use trials::relatives::{castable, part, CHANGES};

/// The oracle reads a type in either form and writes the same one.
#[test]
#[cfg_attr(not(polars_src), ignore = "no text of polars-core 0.55.2")]
fn the_oracle_keeps_types_of_every_size() {
    let mut random = Random::new(10);
    for size in 1..=512 {
        for _ in 0..40 {
            let flat = draw::flat_of(&mut random, size);
            let (bytes, parts) = (flat.laid_out(), (flat.kinds, flat.args));
            for dtype in [Type::from_flat(&parts.0, &parts.1), Type::decode(&bytes)] {
                assert_eq!((dtype.to_flat(), dtype.encode()), (parts.clone(), bytes.clone()));
            }
        }
    }
}

#[test]
#[cfg_attr(not(polars_src), ignore = "no text of polars-core 0.55.2")]
fn types_of_every_size() {
    let (mut differential, mut random) = (Differential::default(), Random::new(11));
    for size in 1..=512 {
        for _ in 0..40 {
            differential.one(&Input::from(&draw::flat_of(&mut random, size)));
        }
    }
    let of_number = differential.report("types of every size");
    assert_eq!(of_number[1..7], [0; 6]);
    assert!(of_number[7] > 1000 && of_number[8] > 1000);
}

#[test]
#[cfg_attr(not(polars_src), ignore = "no text of polars-core 0.55.2")]
fn types_around_the_depth_limit() {
    let (mut differential, mut random) = (Differential::default(), Random::new(12));
    for size in 20..=512 {
        for _ in 0..20 {
            let room = random.between(31, 34);
            let flat = grow(&mut random, size, room).flat;
            differential.one(&Input::from(&flat));
            both_ways(&mut differential, &flat, &castable(&flat, &mut random));
        }
    }
    let of_number = differential.report("types around the depth limit");
    assert!(of_number[0] > 10_000 && of_number[5] > 10_000);
}

/// Every change at every size, both ways round.
#[test]
#[cfg_attr(not(polars_src), ignore = "no text of polars-core 0.55.2")]
fn near_misses_of_every_size() {
    let (mut differential, mut random) = (Differential::default(), Random::new(13));
    for size in 1..=512 {
        for change in CHANGES {
            for _ in 0..8 {
                let flat = draw::flat_of(&mut random, size);
                let mut other = flat.clone();
                change(&mut other, &mut random);
                both_ways(&mut differential, &flat, &other);
            }
        }
    }
    let of_number = differential.report("near misses of every size");
    assert_eq!(of_number[2..5], [0; 3]);
}

/// Casts that come to an end only at the end of both types, and those that one change ends sooner; parts of types.
#[test]
#[cfg_attr(not(polars_src), ignore = "no text of polars-core 0.55.2")]
fn casts_and_parts_of_every_size() {
    let (mut differential, mut random) = (Differential::default(), Random::new(14));
    for size in 1..=512 {
        for _ in 0..40 {
            let flat = draw::flat_of(&mut random, size);
            let mut to = castable(&flat, &mut random);
            both_ways(&mut differential, &flat, &to);
            random.pick(&CHANGES)(&mut to, &mut random);
            both_ways(&mut differential, &flat, &to);
            both_ways(&mut differential, &flat, &part(&flat, &mut random));
        }
    }
    let of_number = differential.report("casts and parts of every size");
    assert_eq!(of_number[2..5], [0; 3]);
    assert!(differential.verdicts().iter().all(|&count| count > 1000));
}

/// The lowest number of the left type, then of the right: either is damaged, or both are.
#[test]
#[cfg_attr(not(polars_src), ignore = "no text of polars-core 0.55.2")]
fn damaged_types() {
    let (mut differential, mut random) = (Differential::default(), Random::new(15));
    for size in 1..=512 {
        let sound = Input::from(&draw::flat_of(&mut random, size));
        let mut before = Input::from(&Flat::lists(33));
        for damage in damage::NODES {
            let mut flat = draw::flat_of(&mut random, size);
            damage(&mut flat, &mut random);
            before = damaged(&mut differential, &sound, before, Input::from(&flat));
        }
        for damage in damage::BYTES {
            let mut bytes = draw::flat_of(&mut random, size).laid_out();
            damage(&mut bytes, &mut random);
            before = damaged(&mut differential, &sound, before, Input::new(bytes));
        }
    }
    let of_number = differential.report("damaged types");
    assert!(of_number[..6].iter().all(|&count| count > 1000));
}

#[test]
#[cfg_attr(not(polars_src), ignore = "no text of polars-core 0.55.2")]
fn types_as_the_long_run_draws_them() {
    let (mut differential, mut random) = (Differential::default(), Random::new(16));
    for _ in 0..600_000 {
        draw::round(&mut differential, &mut random);
    }
    let of_number = differential.report("types as the long run draws them");
    assert!([0, 1, 2, 3, 4, 6, 7, 8].iter().all(|&number| of_number[number] > 1000) && of_number[13] == 0);
    assert!(differential.decimals().iter().all(|&count| count > 1000));
}

fn both_ways(differential: &mut Differential, flat: &Flat, other: &Flat) {
    let (left, right) = (Input::from(flat), Input::from(other));
    differential.two(&left, &right);
    differential.two(&right, &left);
}

/// Compares a damaged input alone, and with a sound one and another damaged one on either side; gives it back.
fn damaged(differential: &mut Differential, sound: &Input, before: Input, input: Input) -> Input {
    differential.one(&input);
    for other in [sound, &before, &input] {
        differential.two(&input, other);
        differential.two(other, &input);
    }
    input
}
