//! Flat types as readable text.

use lomzegash::kind::{
    self, ARRAY, DATETIME, DECIMAL, DURATION, FIELD, LIST, STRUCT, UNKNOWN_INT_NEG, UNKNOWN_INT_POS,
};

/// The text of a checked flat type, as `Struct{7: Boolean, 9: Array(3, Date)}`.
pub fn text(kinds: &[u8], args: &[u64]) -> String {
    let mut nodes = kinds.iter().copied().zip(args.iter().copied());
    whole_type(&mut nodes)
}

/// The text of the type that starts at the next node.
fn whole_type(nodes: &mut impl Iterator<Item = (u8, u64)>) -> String {
    let (kind, arg) = nodes.next().expect("a checked type is whole");
    let name = kind::name(kind).expect("a checked type has known kinds");
    match kind {
        DECIMAL => format!("{name}({}, {})", arg % 256, arg / 256),
        DATETIME if arg < 4 => format!("{name}({})", unit(arg)),
        DATETIME => format!("{name}({}, zone {})", unit(arg % 4), arg / 4),
        DURATION => format!("{name}({})", unit(arg)),
        UNKNOWN_INT_POS => format!("Unknown(Int({arg}))"),
        UNKNOWN_INT_NEG => format!("Unknown(Int({}))", -1 - i128::from(arg)),
        LIST => format!("{name}({})", whole_type(nodes)),
        ARRAY => format!("{name}({arg}, {})", whole_type(nodes)),
        STRUCT => {
            let fields: Vec<String> = (0..arg).map(|_| whole_type(nodes)).collect();
            format!("{name}{{{}}}", fields.join(", "))
        }
        FIELD => format!("{arg}: {}", whole_type(nodes)),
        _ => name.to_string(),
    }
}

/// The name of a time unit.
fn unit(code: u64) -> &'static str {
    ["ns", "µs", "ms"][code as usize]
}

#[cfg(test)]
mod tests {
    use super::*;

    #[test]
    fn every_form_has_its_text() {
        let cases: [(&[u8], &[u64], &str); 9] = [
            (&[28, 8], &[0, 0], "List(Int16)"),
            (&[15], &[256 * 2 + 10], "Decimal(10, 2)"),
            (&[20], &[1], "Datetime(µs)"),
            (&[20], &[4 * 5 + 2], "Datetime(ms, zone 5)"),
            (&[21], &[0], "Duration(ns)"),
            (&[26], &[u64::MAX], "Unknown(Int(18446744073709551615))"),
            (&[27], &[u64::MAX], "Unknown(Int(-18446744073709551616))"),
            (&[30], &[0], "Struct{}"),
            (&[30, 31, 1, 31, 29, 19], &[2, 7, 0, 9, 3, 0], "Struct{7: Boolean, 9: Array(3, Date)}"),
        ];
        for (kinds, args, expected) in cases {
            assert_eq!(text(kinds, args), expected);
        }
    }
}
