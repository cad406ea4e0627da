//! Change request Two: Decimals joined with integer types, in either order, beside the crate's own text and beside the
//! request's own words.

use lomzegash::kind::*;
use plain::decimals::{beside_integer, is_kept};
use trials::damage;
use trials::differential::Differential;
use trials::flat::Flat;
use trials::input::Input;
use trials::join_calls::{ENOUGH, EVERY_LENGTH};
use trials::joins::{Join, JOINS};
use trials::leaves;
use trials::random::Random;

/// How many Decimals there are: p + 1 scales to each precision p from 1 to 38.
const DECIMALS: u64 = 779;

/// How many pairs of a Decimal and an integer type there are, in either order.
const PAIRS: u64 = 2 * 10 * DECIMALS;

/// The supertype, with the flags in every state.
const SUPERTYPES: &[Join] = JOINS.split_at(1).1;

/// By the request's digit counts d, how many Decimals keep their precision beside each integer type, which are
/// (39 − d)(40 − d) / 2, and how many of the others get another one: all but those that have 38, which are d. Beside a
/// 128-bit type none is kept, and 39 have 38.
const KEPT_AND_OTHERS: [(u8, [u64; 2]); 10] = [
    (UINT8, [666, 110]),
    (UINT16, [595, 179]),
    (UINT32, [435, 334]),
    (UINT64, [190, 569]),
    (UINT128, [0, 740]),
    (INT8, [666, 110]),
    (INT16, [595, 179]),
    (INT32, [435, 334]),
    (INT64, [210, 550]),
    (INT128, [0, 740]),
];

fn one_node(leaf: (u8, u64)) -> Input {
    Input::from(&Flat::new(&[leaf]))
}

/// The integer types.
fn integers() -> Vec<Input> {
    (UINT8..=INT128).map(|kind| one_node((kind, 0))).collect()
}

fn in_either_order(differential: &mut Differential, one: &Input, other: &Input, joins: &[Join]) {
    differential.joins(one, other, joins, ENOUGH);
    differential.joins(other, one, joins, ENOUGH);
}

/// Outputs exactly long enough, longer, none and one too short: of five lengths two are too short in bytes, and three
/// in nodes. And each report.
#[test]
#[cfg_attr(not(polars_src), ignore = "no text of polars-core 0.55.2")]
fn every_decimal_with_every_integer_type() {
    let mut differential = Differential::default();
    let integers = integers();
    for decimal in leaves::decimals().into_iter().map(one_node) {
        for integer in &integers {
            differential.joins(&decimal, integer, SUPERTYPES, EVERY_LENGTH);
            differential.joins(integer, &decimal, SUPERTYPES, EVERY_LENGTH);
        }
    }
    let of_number = differential.report("every Decimal with every integer type");
    assert_eq!(differential.count(), PAIRS * (4 * (5 + 5) + 1));
    assert_eq!((of_number[0], of_number[8]), (PAIRS * (4 * (3 + 2) + 1), PAIRS * 4 * (2 + 3)));
    let others: u64 = KEPT_AND_OTHERS.iter().map(|(_, [_, others])| others).sum();
    assert_eq!(differential.decimals(), [4 * (PAIRS - 2 * others), 4 * 2 * others]);
}

/// What the port writes, the same in bytes and in nodes.
fn joined(join: Join, left: &Flat, right: &Flat) -> (u8, u64) {
    let (mut out, mut kinds, mut args) = ([9; 11], [9; 1], [9; 1]);
    assert_eq!(join.on_bytes(&left.laid_out(), &right.laid_out(), &mut out), Ok(Some(11)), "{left:?} and {right:?}");
    assert_eq!(
        join.on_nodes(left.parts(), right.parts(), (&mut kinds, &mut args)),
        Ok(Some(1)),
        "{left:?} and {right:?}"
    );
    assert_eq!(Flat::read(&out).parts(), (&kinds[..], &args[..]), "{left:?} and {right:?}");
    (kinds[0], args[0])
}

#[test]
fn every_answer_is_the_requests() {
    let decimals = leaves::decimals();
    assert_eq!(decimals.len() as u64, DECIMALS);
    for (integer, expected) in KEPT_AND_OTHERS {
        let mut counts = [0; 2];
        for &(kind, arg) in &decimals {
            let (precision, scale) = (arg % 256, arg / 256);
            let becomes = beside_integer(precision, scale, integer);
            counts[0] += u64::from(is_kept(precision, scale, integer));
            counts[1] += u64::from(becomes != (precision, scale));
            let (decimal, integer) = (Flat::new(&[(kind, arg)]), Flat::new(&[(integer, 0)]));
            for (left, right) in [(&decimal, &integer), (&integer, &decimal)] {
                for join in SUPERTYPES {
                    assert_eq!(joined(*join, left, right), (DECIMAL, 256 * becomes.1 + becomes.0));
                }
            }
        }
        assert_eq!(counts, expected, "{integer}");
    }
}

/// Every precision of one byte with every scale to 39, of which few are a Decimal's: the others are refused by 3.
#[test]
#[cfg_attr(not(polars_src), ignore = "no text of polars-core 0.55.2")]
fn arguments_around_those_of_decimals() {
    let mut differential = Differential::default();
    let integers = integers();
    for arg in 0..40 * 256 {
        let decimal = one_node((DECIMAL, arg));
        for (integer, join) in integers.iter().zip(SUPERTYPES.iter().cycle()) {
            in_either_order(&mut differential, &decimal, integer, &[*join]);
        }
    }
    let of_number = differential.report("arguments around those of Decimals");
    assert_eq!((of_number[0], of_number[3]), (3 * PAIRS, 3 * (2 * 10 * 40 * 256 - PAIRS)));
}

/// The Decimal damaged, the integer type, and both.
#[test]
#[cfg_attr(not(polars_src), ignore = "no text of polars-core 0.55.2")]
fn damaged_decimals_and_integer_types() {
    let (mut differential, mut random) = (Differential::default(), Random::new(24));
    for decimal in leaves::decimals() {
        let sound = [decimal, (random.between(UINT8.into(), INT128.into()) as u8, 0)].map(|leaf| Flat::new(&[leaf]));
        let [decimal, integer] = sound.each_ref().map(Input::from);
        for damaged in damaged(&sound, &mut random) {
            let joins = [random.pick(SUPERTYPES)];
            in_either_order(&mut differential, &damaged[0], &integer, &joins);
            in_either_order(&mut differential, &decimal, &damaged[1], &joins);
            in_either_order(&mut differential, &damaged[0], &damaged[1], &joins);
        }
    }
    let of_number = differential.report("damaged Decimals and integer types");
    assert!(of_number[..5].iter().all(|&count| count > 1000) && of_number[13] == 0);
    assert!(differential.decimals().iter().all(|&count| count > 1000));
}

/// Both types with each damage of nodes and of bytes.
fn damaged(sound: &[Flat; 2], random: &mut Random) -> Vec<[Input; 2]> {
    let mut all = vec![];
    for damage in damage::NODES {
        all.push(sound.clone().map(|mut flat| {
            damage(&mut flat, random);
            Input::from(&flat)
        }));
    }
    for damage in damage::BYTES {
        all.push(sound.each_ref().map(|flat| {
            let mut bytes = flat.laid_out();
            damage(&mut bytes, random);
            Input::new(bytes)
        }));
    }
    all
}
