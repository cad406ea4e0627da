//! Document 01's season record in plain Rust, with change request One's Null, twice: its book, the [`Model`], and
//! [`merge`], which reads the section for one offer at a time.
//!
//! Either looks for a type among all ten listed ones, by the least and the greatest number of each.

use crate::{check, Refusal};

/// The number of channels.
pub const CHANNELS: usize = 32;

/// The code of Null, a silent probe's type.
const NULL: u8 = 0;

/// The code of a channel with no number to hold.
const EMPTY: u8 = 0;

/// A whole number, so far from 0; 0 itself isn't negative.
#[derive(Clone, Copy)]
struct Whole {
    is_negative: bool,
    distance: u128,
}

impl Whole {
    fn at_most(self, other: Whole) -> bool {
        match (self.is_negative, other.is_negative) {
            (true, true) => self.distance >= other.distance,
            (false, false) => self.distance <= other.distance,
            (is_negative, _) => is_negative,
        }
    }
}

/// A type that a channel takes: its code, and its range by the least and the greatest number, None without numbers.
struct Type {
    code: u8,
    range: Option<(Whole, Whole)>,
}

impl Type {
    /// From 0 to 2^bits − 1.
    const fn unsigned(code: u8, bits: u32) -> Type {
        let greatest = Whole { is_negative: false, distance: u128::MAX >> (u128::BITS - bits) };
        Type { code, range: Some((Whole { is_negative: false, distance: 0 }, greatest)) }
    }

    /// From −2^(bits − 1) to 2^(bits − 1) − 1.
    const fn signed(code: u8, bits: u32) -> Type {
        let half = 1 << (bits - 1);
        let greatest = Whole { is_negative: false, distance: half - 1 };
        Type { code, range: Some((Whole { is_negative: true, distance: half }, greatest)) }
    }

    fn has_a_number(&self) -> bool {
        self.range.is_some()
    }

    /// Whether this range has all numbers of the other.
    fn includes(&self, other: &Type) -> bool {
        match (self.range, other.range) {
            (_, None) => true,
            (None, _) => false,
            (Some((least, greatest)), Some((other_least, other_greatest))) => {
                least.at_most(other_least) && other_greatest.at_most(greatest)
            }
        }
    }
}

/// Null, whose range has no numbers in it, and the listed integer types, which have some.
const TAKEN: [Type; 11] = [
    Type { code: NULL, range: None },
    Type::unsigned(2, 8),
    Type::unsigned(3, 16),
    Type::unsigned(4, 32),
    Type::unsigned(5, 64),
    Type::unsigned(6, 128),
    Type::signed(7, 8),
    Type::signed(8, 16),
    Type::signed(9, 32),
    Type::signed(10, 64),
    Type::signed(11, 128),
];

/// Which of the types above are meant, by their places.
type Types = [bool; TAKEN.len()];

/// The place of a code among the types above.
fn place(code: u8) -> Option<usize> {
    TAKEN.iter().position(|taken| taken.code == code)
}

/// The place of a code that is a listed type's.
fn listed(code: u8) -> Option<usize> {
    place(code).filter(|&at| TAKEN[at].has_a_number())
}

/// The code of the one listed type whose range includes those of all these types, of which one at least has a number,
/// and lies inside every listed type that does so. None where no listed type includes them all.
fn innermost(types: Types) -> Option<u8> {
    let includes_all = |wide: &Type| TAKEN.iter().zip(types).all(|(one, is_meant)| !is_meant || wide.includes(one));
    let wide = TAKEN.each_ref().map(|one| one.has_a_number() && includes_all(one));
    let lies_inside = |one: &Type| TAKEN.iter().zip(wide).all(|(other, is_wide)| !is_wide || other.includes(one));
    let mut innermost = TAKEN.iter().zip(wide).filter(|(one, is_wide)| *is_wide && lies_inside(one));
    let found = innermost.next().map(|(one, _)| one.code);
    assert!(innermost.next().is_none(), "two types lie inside every other over {types:?}");
    assert!(found.is_some() || wide == [false; TAKEN.len()], "no type lies inside every other over {types:?}");
    found
}

/// Where a channel with these types on its page stands: at the least listed type over those that have a number at all,
/// and at 0 where there is none. None where no listed type includes them all.
fn standing(page: Types) -> Option<u8> {
    let any_number = TAKEN.iter().zip(page).any(|(one, is_on_page)| is_on_page && one.has_a_number());
    if any_number {
        innermost(page)
    } else {
        Some(EMPTY)
    }
}

/// The book: for each channel a page of the types accepted there, Null among them. It is fed each offer's channel and
/// type, nothing of the record or the answers.
#[derive(Clone, Default)]
pub struct Model {
    accepted: [Types; CHANNELS],
}

impl Model {
    /// All pages empty.
    pub fn new() -> Model {
        Model::default()
    }

    /// An offer: where its channel then stands, or the refusal, which changes no page.
    pub fn merge(&mut self, channel: usize, kinds: &[u8], args: &[u64]) -> Result<u8, Refusal> {
        check(kinds, args)?;
        let accepted = self.accepted.get_mut(channel).ok_or(Refusal::Channel)?;
        let column = place(kinds[0]).ok_or(Refusal::NotInteger)?;
        let mut with_column = *accepted;
        with_column[column] = true;
        let code = standing(with_column).ok_or(Refusal::NoUpcast)?;
        *accepted = with_column;
        Ok(code)
    }

    /// Where a channel, below 32, stands.
    pub fn code(&self, channel: usize) -> u8 {
        standing(self.accepted[channel]).expect("what was accepted is included in a listed type")
    }
}

/// An offer to the record of these codes, which may be any bytes: the code that its channel then holds, or the refusal,
/// which changes no byte.
pub fn merge(codes: &mut [u8; CHANNELS], channel: usize, kinds: &[u8], args: &[u64]) -> Result<u8, Refusal> {
    check(kinds, args)?;
    let held = codes.get_mut(channel).ok_or(Refusal::Channel)?;
    *held = merged(*held, kinds[0])?;
    Ok(*held)
}

/// The code that a channel which holds this byte holds after an offer of a type of this kind, or refusal 10, 11 or 12.
/// An offer of Null leaves the channel as it is.
pub fn merged(held: u8, kind: u8) -> Result<u8, Refusal> {
    let before = listed(held);
    if held != EMPTY && before.is_none() {
        return Err(Refusal::ChannelCode);
    }
    if kind == NULL {
        return Ok(held);
    }
    let column = listed(kind).ok_or(Refusal::NotInteger)?;
    match before {
        None => Ok(kind),
        Some(before) if before == column => Ok(held),
        Some(before) => upcast(before, column).ok_or(Refusal::NoUpcast),
    }
}

/// The code of the lossless upcast of the listed types at two places.
fn upcast(left: usize, right: usize) -> Option<u8> {
    let mut both = Types::default();
    both[left] = true;
    both[right] = true;
    innermost(both)
}

#[cfg(test)]
mod tests {
    use super::*;

    #[test]
    fn ranges_have_their_ends() {
        let codes: Vec<u8> = TAKEN.iter().map(|taken| taken.code).collect();
        assert_eq!(codes, [0, 2, 3, 4, 5, 6, 7, 8, 9, 10, 11]);
        assert!(!TAKEN[0].has_a_number());
        let ends = |code| {
            let (least, greatest) = TAKEN[place(code).expect("a type")].range.expect("a listed type");
            assert!(!greatest.is_negative && least.is_negative == (least.distance > 0));
            (least.distance, greatest.distance)
        };
        let unsigned = [u8::MAX.into(), u16::MAX.into(), u32::MAX.into(), u64::MAX.into(), u128::MAX];
        assert_eq!([2, 3, 4, 5, 6].map(ends), unsigned.map(|greatest| (0, greatest)));
        let signed = [i8::MIN.into(), i16::MIN.into(), i32::MIN.into(), i64::MIN.into(), i128::MIN];
        assert_eq!([7, 8, 9, 10, 11].map(ends), signed.map(|least| (least.unsigned_abs(), least.unsigned_abs() - 1)));
    }

    /// A range without numbers lies inside every range, and no other lies inside it.
    #[test]
    fn every_range_includes_that_of_null() {
        let [null, listed @ ..] = &TAKEN;
        assert!(null.includes(null));
        assert!(listed.iter().all(|one| one.includes(null) && !null.includes(one)));
    }

    #[test]
    fn whole_numbers_are_in_order() {
        let negative = [u128::MAX, 2, 1].map(|distance| Whole { is_negative: true, distance });
        let others = [0, 1, u128::MAX].map(|distance| Whole { is_negative: false, distance });
        let numbers = [negative, others].concat();
        for (at, one) in numbers.iter().enumerate() {
            let not_above: Vec<bool> = numbers.iter().map(|other| other.at_most(*one)).collect();
            assert_eq!(not_above, (0..numbers.len()).map(|other| other <= at).collect::<Vec<_>>());
        }
    }

    /// Every list of four offers of Null and the listed types to one channel: the book and the section come to the
    /// same, and what was accepted is on the page.
    #[test]
    fn the_model_and_the_merge_agree() {
        for list in 0..TAKEN.len().pow(4) {
            let (mut model, mut codes, mut page) = (Model::new(), [EMPTY; CHANNELS], Types::default());
            for at in 0..4 {
                let place = list / TAKEN.len().pow(at) % TAKEN.len();
                let kinds = [TAKEN[place].code];
                let answer = model.merge(7, &kinds, &[0]);
                assert_eq!((answer, model.code(7)), (merge(&mut codes, 7, &kinds, &[0]), codes[7]), "{list}");
                page[place] |= answer.is_ok();
                assert_eq!(model.accepted[7], page, "{list}");
            }
        }
    }

    /// Null on an empty page, and beside types that have a number.
    #[test]
    fn null_joins_its_page_and_moves_nothing() {
        let mut model = Model::new();
        for (kind, stands_at) in [(NULL, EMPTY), (NULL, EMPTY), (7, 7), (NULL, 7), (2, 8), (NULL, 8)] {
            assert_eq!((model.merge(31, &[kind], &[0]), model.code(31)), (Ok(stands_at), stands_at), "{kind}");
        }
        assert_eq!(model.merge(31, &[6], &[0]), Err(Refusal::NoUpcast));
        let on_page: Vec<u8> =
            TAKEN.iter().zip(model.accepted[31]).filter(|(_, is)| *is).map(|(one, _)| one.code).collect();
        assert_eq!(on_page, [NULL, 2, 7]);
    }
}
