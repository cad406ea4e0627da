//! Which answers are recorded. [`crate::answers`] has the format.

mod damaged;
mod joins;
mod merges;

use crate::answers::{Answers, Line, Room, MATERIALIZERS, ONE_TYPE_CALLS};
use lomzegash::kind::*;
use trials::damage;
use trials::draw;
use trials::entries::{RELATIONS, WRITERS};
use trials::flat::Flat;
use trials::random::Random;

/// None, one node short of enough, just enough and more.
const ROOMS: [Room; 4] = [|_| 0, |nodes| nodes - 1, |nodes| nodes, |nodes| nodes + 2];

/// Sizes of the types that are drawn: lines stay short.
const SIZES: [usize; 9] = [1, 1, 2, 3, 4, 5, 6, 8, 12];

/// At least so many lines, the same ones every time: first each limit, refusal, kind of leaf and join of two kinds, then
/// random calls of each entry point in turn; and after them the merges and the damaged lines.
fn lines(count: usize) -> Vec<Line> {
    let mut answers = Answers::default();
    limits(&mut answers);
    refusals(&mut answers);
    unknown(&mut answers);
    leaves(&mut answers);
    joins::chosen(&mut answers);
    let mut random = Random::new(552);
    while answers.lines.len() < count {
        one_of_each(&mut answers, &mut random);
    }
    merges::all(&mut answers);
    damaged::all(&mut answers);
    answers.lines
}

/// What is recorded for the replay: the lines, and the last one.
pub fn recorded(count: usize) -> Vec<String> {
    lines(count).iter().map(Line::to_string).chain(["0".into()]).collect()
}

/// What the replay must say of it: each damaged line by its number, and how many there are.
pub fn expected(count: usize) -> Vec<String> {
    let lines = lines(count);
    let differ = lines.iter().zip(1..).filter(|(line, _)| line.is_damaged);
    let mut said: Vec<String> = differ.map(|(_, number)| format!("line {number} differs")).collect();
    said.push(format!("{} answers replayed, {} differ", lines.len(), said.len()));
    said
}

/// The largest type, and one of a node more.
fn limits(answers: &mut Answers) {
    for lists in [1, 2] {
        let mut flat = Flat::new(&vec![(LIST, 0); lists]);
        flat.extend(&Flat::wide_struct(255));
        answers.check(&flat);
    }
}

/// Each entry point on what is no type; of two types on the left, on the right and on both sides.
fn refusals(answers: &mut Answers) {
    let (good, bad) = (Flat::lists(1), no_types());
    for (flat, other) in bad.iter().zip(bad.iter().rev()) {
        for call in 0..ONE_TYPE_CALLS {
            answers.of_one_type(call, flat, |nodes| nodes);
        }
        for at in 0..RELATIONS.len() {
            answers.relation(at, flat, &good);
            answers.relation(at, &good, flat);
            answers.relation(at, flat, other);
        }
    }
}

/// Materialising where it changes its answer: `any`, and each bound of an unknown integer.
fn unknown(answers: &mut Answers) {
    let any = [&[(UNKNOWN_ANY, 0)][..], &[(LIST, 0), (UNKNOWN_ANY, 0)]].map(Flat::new);
    let bounds = [(1 << 31) - 1, 1 << 31, (1 << 63) - 1, 1 << 63, u64::MAX];
    let signs = [UNKNOWN_INT_POS, UNKNOWN_INT_NEG];
    let ints = signs.into_iter().flat_map(|kind| bounds.map(|arg| Flat::new(&[(kind, arg)])));
    for flat in any.into_iter().chain(ints) {
        for at in MATERIALIZERS..WRITERS.len() {
            ROOMS.into_iter().for_each(|room| answers.writer(at, &flat, room));
        }
    }
}

/// Each kind that has no child: every call on a type of its own, and the cast of every two.
fn leaves(answers: &mut Answers) {
    let leaves: Vec<Flat> = (NULL..=UNKNOWN_INT_NEG).map(leaf).collect();
    for leaf in &leaves {
        for call in 0..ONE_TYPE_CALLS {
            answers.of_one_type(call, leaf, |nodes| nodes);
        }
        for to in &leaves {
            answers.relation(RELATIONS.len() - 1, leaf, to);
        }
    }
}

/// Each entry point on a type or two of its own.
fn one_of_each(answers: &mut Answers, random: &mut Random) {
    for call in 0..ONE_TYPE_CALLS {
        let room = random.pick(&ROOMS);
        let flat = small_type(random);
        answers.of_one_type(call, &damaged_at_times(flat, random), room);
    }
    for at in 0..RELATIONS.len() {
        let left = small_type(random);
        let right = draw::relative(&left, random);
        answers.relation(at, &damaged_at_times(left, random), &damaged_at_times(right, random));
    }
    answers.time_units(random.below(4) as u8, random.below(4) as u8);
    joins::drawn(answers, random);
}

/// One node of a kind, with an argument that the kind may have.
fn leaf(kind: u8) -> Flat {
    Flat::new(&[(kind, if kind == DECIMAL { 256 * 2 + 10 } else { 0 })])
}

/// Nodes that are no type, by each of the numbers from 1 to 5.
fn no_types() -> Vec<Flat> {
    let mut more_kinds = Flat::int8();
    more_kinds.kinds.push(INT8);
    let mut more_args = Flat::int8();
    more_args.args.push(0);
    vec![
        Flat::default(),
        more_kinds,
        more_args,
        Flat::new(&[(FIELD + 1, 0)]),
        Flat::new(&[(LIST, 1), (u8::MAX, 0)]),
        Flat::new(&[(INT8, 1)]),
        Flat::new(&[(LIST, 0), (DECIMAL, 39)]),
        Flat::new(&[(DURATION, 3), (INT8, 0)]),
        Flat::new(&[(ARRAY, 7)]),
        Flat::new(&[(INT8, 0), (INT8, 0)]),
        Flat::new(&[(STRUCT, 1), (FIELD, 0), (FIELD, 0), (INT8, 0)]),
        Flat::lists(33),
    ]
}

fn small_type(random: &mut Random) -> Flat {
    let size = random.pick(&SIZES);
    draw::flat_of(random, size)
}

fn damaged_at_times(mut flat: Flat, random: &mut Random) -> Flat {
    if random.chance(6) {
        random.pick(&damage::NODES)(&mut flat, random);
    }
    flat
}

#[cfg(test)]
mod tests {
    use super::*;
    use crate::answers::{CHECK, MERGE, SUPERTYPE};

    /// How many lines crates/replay was asked for.
    const LINES: usize = 7500;

    #[test]
    #[cfg_attr(not(polars_src), ignore = "no text of polars-core 0.55.2")]
    fn the_replayed_lines_are_the_recorded_ones() {
        let [stdin, stdout] =
            [include_str!("../../../crates/replay/stdin"), include_str!("../../../crates/replay/stdout")];
        assert!(recorded(LINES).iter().eq(stdin.lines()), "record again: --record {LINES} > crates/replay/stdin");
        assert!(expected(LINES).iter().eq(stdout.lines()), "expect again: --expect {LINES} > crates/replay/stdout");
    }

    #[test]
    #[cfg_attr(not(polars_src), ignore = "no text of polars-core 0.55.2")]
    fn the_recorded_lines_are_short_and_reach_everything() {
        let lines = lines(LINES);
        assert!(lines.len() > LINES && lines == super::lines(LINES));
        assert!(lines.iter().filter(|line| line.to_string().len() > 400).count() <= 2);
        for entry in CHECK..=MERGE {
            assert!(lines.iter().filter(|line| line.entry() == entry).count() >= 50, "entry {entry}");
            let is_damaged = |line: &&Line| line.entry() == entry && line.is_damaged;
            assert!(lines.iter().filter(is_damaged).count() >= 5, "damaged lines of entry {entry}");
        }
        let sound = lines.into_iter().filter(|line| !line.is_damaged);
        let (merges, others): (Vec<_>, Vec<_>) = sound.partition(|line| line.entry() == MERGE);
        for number in [1, 2, 3, 4, 5, 6, 7, 8] {
            assert!(refused(&others, number) >= 9, "refusal {number}");
        }
        assert!(refused(&others, 13) == 0, "13 is retired");
        assert!(decimals(&others).iter().flatten().all(|&count| count >= 9), "{:?}", decimals(&others));
        for number in [1, 2, 3, 4, 5, 9, 10, 11, 12] {
            assert!(refused(&merges, number) >= 3, "refusal {number} of a merge");
        }
        let of_null = merges.iter().filter(|line| line.call.starts_with(&[MERGE, 1, NULL.into(), 1, 0]));
        let of_null: Vec<&[u64]> = of_null.map(|line| &line.answer[..2]).collect();
        for answer in [[0, 0], [0, INT8.into()], [9, 0], [10, 0]] {
            assert!(of_null.iter().filter(|&&other| other == answer).count() >= 3, "{answer:?} to Null");
        }
    }

    /// How many Decimals on the left of an integer type stay and become others in the supertype, and how many on the
    /// right.
    fn decimals(lines: &[Line]) -> [[usize; 2]; 2] {
        let (decimal, is_integer) = (u64::from(DECIMAL), |kind| (UINT8.into()..=INT128.into()).contains(&kind));
        let mut counts = [[0; 2]; 2];
        for line in lines {
            let &[SUPERTYPE, 1, left, 1, x, 1, right, 1, y, ..] = &line.call[..] else { continue };
            let &[0, 1, _, result] = &line.answer[..] else { continue };
            if left == decimal && is_integer(right) {
                counts[0][usize::from(result != x)] += 1;
            } else if is_integer(left) && right == decimal {
                counts[1][usize::from(result != y)] += 1;
            }
        }
        counts
    }

    /// How many lines have this refusal.
    fn refused(lines: &[Line], number: u64) -> usize {
        lines.iter().filter(|line| line.number() == number).count()
    }
}
