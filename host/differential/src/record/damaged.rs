//! Lines with damaged answers, which the replay must tell: one that agrees with everything fails.

use crate::answers::{Answers, Line, CHECK, MERGE};
use std::collections::BTreeSet;

/// Of each entry, every damage of its longest answer and another number for a refused one, of several such lines the last.
/// Behind its damages each line is repeated as it is.
pub fn all(answers: &mut Answers) {
    for entry in CHECK..=MERGE {
        let lines = || answers.lines.iter().filter(|line| line.entry() == entry && !line.is_damaged);
        let longest = lines().max_by_key(|line| line.answer.len()).expect("each entry is recorded").clone();
        let refused = lines().rfind(|line| line.number() > 0).expect("each entry is refused").clone();
        answers.lines.extend(damages(&longest.answer).into_iter().map(|answer| damaged(&longest, answer)));
        answers.lines.push(longest);
        answers.lines.push(damaged(&refused, other_at(&refused.answer, 0)));
        answers.lines.push(refused);
    }
}

fn damaged(line: &Line, answer: Vec<u64>) -> Line {
    Line { call: line.call.clone(), answer, is_damaged: true }
}

/// Another number, another value, another result at either end, and answers that are longer and shorter by one.
fn damages(answer: &[u64]) -> Vec<Vec<u64>> {
    let (last, shorter) = answer.split_last().expect("an answer has a number");
    let places: BTreeSet<usize> = [0, 1, 2.min(shorter.len()), shorter.len()].into();
    let others = places.into_iter().map(|at| other_at(answer, at));
    others.chain([[answer, &[*last]].concat(), shorter.to_vec()]).collect()
}

/// The answer with another number at this place.
fn other_at(answer: &[u64], at: usize) -> Vec<u64> {
    let mut other = answer.to_vec();
    other[at] = other[at].wrapping_add(1);
    other
}

#[cfg(test)]
mod tests {
    use super::*;

    #[test]
    fn an_answer_is_damaged_at_each_part() {
        assert_eq!(damages(&[0, 1]), [vec![1, 1], vec![0, 2], vec![0, 1, 1], vec![0]]);
        let built = [vec![1, 2, 28, 8, 3], vec![0, 3, 28, 8, 3], vec![0, 2, 29, 8, 3], vec![0, 2, 28, 8, 4]];
        let lengths = [vec![0, 2, 28, 8, 3, 3], vec![0, 2, 28, 8]];
        assert_eq!(damages(&[0, 2, 28, 8, 3]), [&built[..], &lengths].concat());
        assert_eq!(other_at(&[u64::MAX], 0), [0]);
    }
}
