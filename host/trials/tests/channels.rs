//! Merges of columns into channels, in each form of the call: lists of them beside the plain Rust, from empty channels and
//! from any bytes.

use lomzegash::kind::*;
use lomzegash::{ChannelTypes, Error};
use oracle::Type;
use plain::channels::Model;
use plain::Refusal;
use std::array;
use std::collections::BTreeSet;
use std::ops::RangeInclusive;
use trials::channels::{Answer, Codes, Form, Judged, Merging, FORMS};
use trials::differential::Numbers;
use trials::flat::Flat;
use trials::merges::{self, Column, Merge};
use trials::random::Random;

/// The most merges of a random list, by turns.
const LENGTHS: [usize; 5] = [1, 10, 100, 1_000, 10_000];

/// The kinds of the integer types.
const INTEGERS: RangeInclusive<u8> = UINT8..=INT128;

fn total(of_number: &Numbers) -> u64 {
    of_number.iter().sum()
}

/// So many rounds of random lists, one of each length.
fn lists(random: &mut Random, rounds: usize, mut each: impl FnMut(&mut Random, &[Merge])) {
    for _ in 0..rounds {
        for most in LENGTHS {
            let len = if random.chance(20) { most } else { random.between(0, most) };
            let merges = merges::list(random, len);
            each(random, &merges);
        }
    }
}

#[test]
fn lists_from_empty_channels() {
    let (mut merging, mut random) = (Merging::default(), Random::new(31));
    lists(&mut random, 500, |_, merges| {
        for form in FORMS {
            merging.list(form, &mut Judged::empty(), merges);
        }
    });
    let of_number = merging.report("lists of up to 10,000 merges from empty channels");
    assert!([0, 1, 2, 3, 4, 5, 9, 11, 12].iter().all(|&number| of_number[number] > 10_000));
    assert_eq!(of_number[10], 0);
    assert!(merging.nulls().iter().all(|&count| count > 10_000));
}

#[test]
fn lists_from_any_bytes() {
    let (mut merging, mut random) = (Merging::default(), Random::new(32));
    lists(&mut random, 500, |random, merges| {
        let codes = merges::codes(random);
        for form in FORMS {
            merging.list(form, &mut Judged::from_codes(codes), merges);
        }
    });
    let of_number = merging.report("lists of up to 10,000 merges from any bytes");
    assert!([0, 1, 2, 3, 4, 5, 9, 10, 11, 12].iter().all(|&number| of_number[number] > 10_000));
    assert!(merging.nulls().iter().all(|&count| count > 1_000));
}

/// What is merged into other channels changes nothing in one, from empty channels and from any bytes.
#[test]
fn each_channel_alone() {
    let (mut merging, mut random) = (Merging::default(), Random::new(33));
    lists(&mut random, 200, |random, merges| {
        let codes = merges::codes(random);
        for form in FORMS {
            merging.alone(form, [0; ChannelTypes::CHANNELS], merges);
            merging.alone(form, codes, merges);
        }
    });
    let of_number = merging.report("lists of up to 10,000 merges, whole and each channel alone");
    assert!([0, 1, 2, 3, 4, 5, 9, 10, 11, 12].iter().all(|&number| of_number[number] > 10_000));
}

/// Nulls change nothing, neither in the channels nor in what the other merges come to, from empty channels and from any
/// bytes.
#[test]
fn lists_without_their_nulls() {
    let (mut merging, mut random) = (Merging::default(), Random::new(36));
    lists(&mut random, 100, |random, merges| {
        let codes = merges::codes(random);
        for form in FORMS {
            merging.without_nulls(form, &mut Judged::empty(), merges);
            merging.without_nulls(form, &mut Judged::from_codes(codes), merges);
        }
    });
    let of_number = merging.report("lists of up to 10,000 merges, whole and without their Nulls");
    assert!([0, 1, 2, 3, 4, 5, 9, 10, 11, 12].iter().all(|&number| of_number[number] > 10_000));
    assert!(merging.nulls().iter().all(|&count| count > 10_000));
}

/// One node of every kind and of two that are none: with argument 0, and with one that nearly every kind refuses.
fn one_node() -> Vec<Column> {
    let kinds = (NULL..=FIELD).chain([FIELD + 1, u8::MAX]);
    kinds.flat_map(|kind| [Column::leaf(kind, 0), Column::leaf(kind, u64::MAX)]).collect()
}

/// Compares every list of up to `most` of these merges after those that are `judged`, and gives how many lists there are.
fn every_list(merging: &mut Merging, form: &Form, judged: &Judged<Model>, merges: &[Merge], most: u32) -> u64 {
    let mut lists = 1;
    for merge in merges.iter().filter(|_| most > 0) {
        let mut next = judged.clone();
        merging.list(form, &mut next, [merge]);
        lists += every_list(merging, form, &next, merges, most - 1);
    }
    lists
}

/// 68 types of one node with the last two channels and with the one behind them, which there isn't: 204 merges, and
/// 8,531,485 lists of up to three. Of the 68 one is Null, ten are the integer types, 19 are other types, and the rest
/// are none.
#[test]
fn every_list_of_up_to_three_merges() {
    let channels = ChannelTypes::CHANNELS - 2..=ChannelTypes::CHANNELS;
    let merges: Vec<Merge> =
        channels.flat_map(|channel| one_node().into_iter().map(move |column| Merge { channel, column })).collect();
    for kind in [NULL, BOOLEAN, FLOAT64].into_iter().chain(INTEGERS) {
        let is_of_kind = |merge: &&Merge| merge.column.flat.parts() == (&[kind], &[0]);
        assert_eq!(merges.iter().filter(is_of_kind).count(), 3, "{kind} into each channel");
    }
    let (mut merging, forms) = (Merging::default(), FORMS.len() as u64);
    let lists: u64 = FORMS.iter().map(|form| every_list(&mut merging, form, &Judged::empty(), &merges, 3)).sum();
    let of_number = merging.report("every list of up to three merges");
    let of_up_to = |most| forms * (0..=most).map(|len| 204_u64.pow(len)).sum::<u64>();
    assert_eq!(lists, of_up_to(3));
    // The last merge of each list but the empty one is compared in it.
    assert_eq!(total(&of_number), lists - forms);
    assert!([0, 2, 3, 4, 9, 12].iter().all(|&number| of_number[number] > 10_000));
    // The other types and Null, after each list of up to two, into either channel.
    assert_eq!(of_number[11], 2 * 19 * of_up_to(2));
    assert_eq!(merging.nulls().iter().sum::<u64>(), 2 * of_up_to(2));
    assert!(merging.nulls().iter().all(|&count| count > 10_000));
}

/// The sets of integer types that a list of merges can have accepted in one channel: the empty one, and each that the
/// model accepts with one type more than another.
fn accepted_sets() -> BTreeSet<BTreeSet<u8>> {
    let mut found = BTreeSet::from([BTreeSet::new()]);
    let mut open = vec![(BTreeSet::new(), Model::new())];
    while let Some((set, model)) = open.pop() {
        for kind in INTEGERS {
            let (mut set, mut model) = (set.clone(), model.clone());
            set.insert(kind);
            if model.merge(0, &[kind], &[0]).is_ok() && found.insert(set.clone()) {
                open.push((set, model));
            }
        }
    }
    found
}

/// The types of a set by their codes, from either end, and shuffled three times.
fn orders(set: &BTreeSet<u8>, random: &mut Random) -> Vec<Vec<u8>> {
    let mut kinds: Vec<u8> = set.iter().copied().collect();
    let mut orders = vec![kinds.clone()];
    kinds.reverse();
    orders.push(kinds.clone());
    for _ in 0..3 {
        (1..kinds.len()).rev().for_each(|last| kinds.swap(last, random.below(last + 1)));
        orders.push(kinds.clone());
    }
    orders
}

/// These types with so many Nulls before each of them and behind the last.
fn strewn(kinds: &[u8], mut nulls: impl FnMut() -> usize) -> Vec<u8> {
    let mut strewn = vec![NULL; nulls()];
    for &kind in kinds {
        strewn.push(kind);
        strewn.extend(vec![NULL; nulls()]);
    }
    strewn
}

/// Merges types into a channel, none of which is refused, and the same without their Nulls; then each integer type and
/// Null. Gives how many merges it compared.
fn each_type_after(merging: &mut Merging, channel: usize, kinds: &[u8]) -> usize {
    let merges = |kinds: &[u8]| kinds.iter().map(|&kind| Merge { channel, column: Column::leaf(kind, 0) }).collect();
    let next: Vec<u8> = INTEGERS.chain([NULL]).collect();
    let (before, after): (Vec<Merge>, Vec<Merge>) = (merges(kinds), merges(&next));
    for form in FORMS {
        let mut judged = Judged::empty();
        let answers = merging.without_nulls(form, &mut judged, &before);
        assert!(answers.iter().all(Answer::is_ok), "{kinds:?}");
        for merge in &after {
            merging.list(form, &mut judged.clone(), [merge]);
        }
    }
    let integers = kinds.iter().filter(|&&kind| kind != NULL).count();
    FORMS.len() * (before.len() + integers + after.len())
}

/// There are 528 sets, the empty one counted: without UInt128 every set of the nine other types, and with it every set of
/// the four other unsigned ones. Each is merged as it is, with a Null in every place and with some at random.
#[test]
fn every_integer_type_after_every_accepted_set() {
    let (mut merging, mut random, mut compared) = (Merging::default(), Random::new(34), 0);
    let sets = accepted_sets();
    assert_eq!(sets.len(), 528);
    assert_eq!(sets.iter().filter(|set| set.contains(&UINT128)).count(), 1 << 4);
    for set in &sets {
        for kinds in orders(set, &mut random) {
            let (in_every_place, in_some) = (strewn(&kinds, || 1), strewn(&kinds, || random.below(3)));
            for kinds in [kinds, in_every_place, in_some] {
                let channels = 0..ChannelTypes::CHANNELS;
                compared += channels.map(|channel| each_type_after(&mut merging, channel, &kinds)).sum::<usize>();
            }
        }
    }
    let of_number = merging.report("every integer type and Null after every accepted set");
    assert_eq!(of_number[0] + of_number[12], compared as u64);
}

/// Every byte in every channel, with every type of one node; the other channels hold any bytes.
#[test]
fn every_byte_with_every_type_of_one_node() {
    let (mut merging, mut random) = (Merging::default(), Random::new(35));
    let columns = one_node();
    for channel in 0..ChannelTypes::CHANNELS {
        for column in &columns {
            let merge = Merge { channel, column: column.clone() };
            for byte in 0..=u8::MAX {
                let mut codes = merges::codes(&mut random);
                codes[channel] = byte;
                for form in FORMS {
                    merging.list(form, &mut Judged::from_codes(codes), [&merge]);
                }
            }
        }
    }
    let of_number = merging.report("every byte with every type of one node");
    let of_all = |count: usize| (ChannelTypes::CHANNELS * FORMS.len() * count) as u64;
    assert_eq!(total(&of_number), of_all(256 * columns.len()));
    // Of the 256 bytes 11 are 0 or a code; UInt128 with a signed type has no upcast, and neither has it the other way round.
    assert_eq!((of_number[0], of_number[12]), (of_all(11 * 11 - 10), of_all(10)));
    assert_eq!(merging.nulls(), [of_all(1), of_all(10)]);
    // Besides Null and the integer types there are 19.
    assert_eq!((of_number[10], of_number[11]), (of_all((256 - 11) * (11 + 19)), of_all(11 * 19)));
}

/// What is no Null, each with the number that it is refused by wherever it is merged: with an argument, more nodes,
/// fewer or more arguments than kinds, a kind that is none, 33 Lists over it.
fn damaged_nulls() -> Vec<(Flat, u64)> {
    let with_argument = [1, 2, 255, 256, 1 << 32, 1 << 63, u64::MAX].map(|arg| (Flat::new(&[(NULL, arg)]), 3));
    let more_nodes = [2, 3, 512].map(|nodes| (Flat::new(&vec![(NULL, 0); nodes]), 4));
    let lengths = [(1, 0), (0, 1), (1, 2), (2, 1)];
    let lengths = lengths.map(|(kinds, args)| (Flat { kinds: vec![NULL; kinds], args: vec![0; args] }, 1));
    let others = [
        (Flat::new(&[(NULL, 0), (FIELD + 1, 0)]), 2),
        (Flat::new(&[(NULL, 1), (NULL, 0)]), 3),
        (Flat::repeated(&[(LIST, 0)], 33, &Flat::new(&[(NULL, 0)])), 5),
    ];
    with_argument.into_iter().chain(more_nodes).chain(lengths).chain(others).collect()
}

/// In every channel with every byte, and in channels that there are not: a damaged Null is refused by its number, a
/// sound one by 9 or 10, or it answers the byte. A List over Null isn't one. No byte changes.
#[test]
fn nulls_leave_every_byte() {
    let null = Column::leaf(NULL, 0);
    let nested = Column::from(Flat::repeated(&[(LIST, 0)], 1, &null.flat));
    let damaged: Vec<(Column, u64)> = damaged_nulls().into_iter().map(|(flat, number)| (flat.into(), number)).collect();
    for byte in 0..=u8::MAX {
        for channel in (0..ChannelTypes::CHANNELS).chain(merges::NO_CHANNELS) {
            let codes = array::from_fn(|other| if other == channel { byte } else { other as u8 });
            damaged.iter().for_each(|(column, number)| answers(codes, channel, column, Err(*number)));
            let answer = match codes.get(channel) {
                None => Err(9),
                Some(0 | UINT8..=INT128) => Ok(byte),
                Some(_) => Err(10),
            };
            answers(codes, channel, &null, answer);
            answers(codes, channel, &nested, answer.and(Err(11)));
        }
    }
}

/// A merge has this answer in every form, and no byte changes.
fn answers(codes: Codes, channel: usize, column: &Column, expected: Answer) {
    let types = ChannelTypes::from_codes(codes);
    for form in FORMS {
        let mut lent = types;
        let answer = (form.merge)(&mut lent, channel, column).map_err(Error::number);
        assert_eq!((answer, lent), (expected, types), "{}: {column:?} into {channel} of {types:?}", form.name);
    }
}

/// Where document 01 names the lossless upcast the plain Rust searches the ranges, and finds what the crate's text says.
#[test]
#[cfg_attr(not(polars_src), ignore = "no text of polars-core 0.55.2")]
fn the_search_finds_the_lossless_upcast() {
    for held in INTEGERS {
        for kind in INTEGERS.filter(|&kind| kind != held) {
            let [left, right] = [held, kind].map(|kind| Type::from_flat(&[kind], &[0]));
            let upcast = left.get_numeric_upcast_supertype_lossless(&right).map(|upcast| upcast.to_flat().0[0]);
            assert_eq!(plain::channels::merged(held, kind), upcast.ok_or(Refusal::NoUpcast), "{held} and {kind}");
        }
    }
}
