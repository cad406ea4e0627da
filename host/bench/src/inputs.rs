//! The types that are timed.

use lomzegash::kind::*;
use trials::flat::Flat;

/// A type by its name.
pub type Input = (&'static str, Flat);

/// Types of fields as they come in a logged schema, in turn: mostly leaves, some Lists, an Array, a Struct.
const FIELD_TYPES: [&[(u8, u64)]; 12] = [
    &[(INT64, 0)],
    &[(STRING, 0)],
    &[(DATETIME, 4 * 3 + 1)],
    &[(LIST, 0), (FLOAT64, 0)],
    &[(FLOAT64, 0)],
    &[(UINT32, 0)],
    &[(ARRAY, 3), (FLOAT32, 0)],
    &[(BOOLEAN, 0)],
    &[(STRUCT, 2), (FIELD, 1), (INT32, 0), (FIELD, 2), (DATE, 0)],
    &[(DECIMAL, 256 * 2 + 10)],
    &[(DURATION, 2)],
    &[(LIST, 0), (STRING, 0)],
];

/// Schemas of 20 and 500 nodes, a leaf, and the commonest nested types.
pub fn common() -> Vec<Input> {
    vec![
        ("Int64", Flat::new(&[(INT64, 0)])),
        ("List(Int8)", Flat::lists(1)),
        ("a schema", schema(20)),
        ("a Struct of 20 leaves", struct_of_leaves(20)),
        ("a schema", schema(500)),
    ]
}

/// Types of other shapes.
pub fn shapes() -> Vec<Input> {
    vec![
        ("a Struct of one Int8 field", Flat::structs(1, &Flat::int8())),
        ("32 Lists over Int8", Flat::lists(32)),
        ("16 Structs over Int8", Flat::structs(16, &Flat::int8())),
        ("a Struct of 255 Int8 fields", Flat::wide_struct(255)),
    ]
}

/// A Struct of exactly `size` nodes, at least 3.
fn schema(size: usize) -> Flat {
    let mut flat = Flat::new(&[(STRUCT, 0)]);
    for field_type in FIELD_TYPES.into_iter().cycle() {
        let left = size - flat.kinds.len();
        if left == 0 {
            break;
        }
        // A field has two nodes at least, so one may not be left over.
        let taken = 1 + field_type.len();
        if taken == left || taken + 2 <= left {
            flat.push(FIELD, flat.args[0]);
            flat.extend(&Flat::new(field_type));
            flat.args[0] += 1;
        }
    }
    flat
}

/// A Struct of so many fields, the leaves of a schema in turn.
fn struct_of_leaves(fields: usize) -> Flat {
    let leaves = FIELD_TYPES.into_iter().filter(|field_type| field_type.len() == 1);
    Flat::fields(leaves.map(Flat::new).collect::<Vec<Flat>>().iter().cycle().take(fields))
}
