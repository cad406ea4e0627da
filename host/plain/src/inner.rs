//! Inner and leaf types of a flat type: how many nodes each has. They are the last ones of the type.

use crate::{check, Refusal, ARRAY, LIST};

/// Of the type inside a List or an Array; None of any other type.
pub fn inner_dtype(kinds: &[u8], args: &[u64]) -> Result<Option<usize>, Refusal> {
    check(kinds, args)?;
    Ok([LIST, ARRAY].contains(&kinds[0]).then(|| kinds.len() - 1))
}

/// Of the type under all Lists and Arrays at the front.
pub fn leaf_dtype(kinds: &[u8], args: &[u64]) -> Result<usize, Refusal> {
    check(kinds, args)?;
    Ok(under(&[LIST, ARRAY], kinds))
}

/// Of the type under all Arrays at the front; None where there are none.
pub fn array_leaf_dtype(kinds: &[u8], args: &[u64]) -> Result<Option<usize>, Refusal> {
    check(kinds, args)?;
    Ok((kinds[0] == ARRAY).then(|| under(&[ARRAY], kinds)))
}

/// How many nodes stand under those of these kinds at the front.
fn under(front: &[u8], kinds: &[u8]) -> usize {
    kinds.iter().skip_while(|kind| front.contains(kind)).count()
}
