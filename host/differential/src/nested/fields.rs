//! Random fields of Structs, and fields that are nearly others.

use super::leaves;
use super::tree::{Field, Tree};
use trials::random::Random;

/// How many names there are: few, so that they meet and repeat.
pub const NAMES: usize = 3;

/// A way to change fields, of which there is one at least.
pub type Change = fn(&mut Vec<Field>, &mut Random);

/// Every way to change fields.
pub const CHANGES: [Change; 4] =
    [|fields, random| rename(fields, random), |fields, random| swap(fields, random), repeat, leave_out];

/// Some fields, of which those of one name have one of its two types in most cases.
pub fn fields(random: &mut Random, count: usize, types: &[(Tree, Tree); NAMES]) -> Vec<Field> {
    let field = |_| {
        let name = random.below(NAMES);
        let (one, other) = &types[name];
        let dtype = match random.below(9) {
            0 => leaves::leaf(random),
            1..=4 => one.clone(),
            _ => other.clone(),
        };
        (name as u64, dtype)
    };
    (0..count).map(field).collect()
}

/// Fields with these types and any names.
pub fn named(random: &mut Random, types: impl IntoIterator<Item = Tree>) -> Vec<Field> {
    types.into_iter().map(|dtype| (name(random), dtype)).collect()
}

fn name(random: &mut Random) -> u64 {
    random.below(NAMES) as u64
}

/// Gives a field another name.
pub fn rename(fields: &mut [Field], random: &mut Random) {
    let at = random.below(fields.len());
    fields[at].0 = (fields[at].0 + random.between(1, NAMES - 1) as u64) % NAMES as u64;
}

/// Adds a field of a name that is there.
fn repeat(fields: &mut Vec<Field>, random: &mut Random) {
    let (name, dtype) = fields[random.below(fields.len())].clone();
    let dtype = if random.chance(50) { dtype } else { leaves::leaf(random) };
    fields.insert(random.below(fields.len() + 1), (name, dtype));
}

fn leave_out(fields: &mut Vec<Field>, random: &mut Random) {
    fields.remove(random.below(fields.len()));
}

/// Exchanges the first field with some other.
pub fn swap(fields: &mut [Field], random: &mut Random) {
    let other = random.below(fields.len());
    fields.swap(0, other);
}
