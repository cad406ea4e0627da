//! The layout of document 01's stored sheets: the number of nodes, then the kinds, then the arguments.
//!
//! Nothing here looks at what the nodes say; a sheet may be of no type.

/// The sheet of these kinds and arguments, of which there may be unequally many. The first says the number of nodes.
pub fn lay_out(kinds: &[u8], args: &[u64]) -> Vec<u8> {
    let mut sheet = vec![0; len(kinds, args)];
    write(kinds, args, &mut sheet);
    sheet
}

/// The number of bytes of the sheet: two, one for each kind and eight for each argument.
pub(crate) fn len(kinds: &[u8], args: &[u64]) -> usize {
    2 + kinds.len() + 8 * args.len()
}

/// Writes the sheet to as many bytes as it has.
pub(crate) fn write(kinds: &[u8], args: &[u64], sheet: &mut [u8]) {
    let (count, nodes) = sheet.split_at_mut(2);
    let (sheet_kinds, sheet_args) = nodes.split_at_mut(kinds.len());
    count.copy_from_slice(&(kinds.len() as u16).to_le_bytes());
    sheet_kinds.copy_from_slice(kinds);
    for (bytes, arg) in sheet_args.as_chunks_mut().0.iter_mut().zip(args) {
        *bytes = arg.to_le_bytes();
    }
}

/// The kinds and the arguments of a sheet; None where its length isn't that of its number of nodes.
pub fn split(sheet: &[u8]) -> Option<(&[u8], &[StoredArgument])> {
    let (count, nodes) = sheet.split_first_chunk()?;
    let count = usize::from(u16::from_le_bytes(*count));
    if nodes.len() != 9 * count {
        return None;
    }
    let (kinds, args) = nodes.split_at(count);
    Some((kinds, args.as_chunks().0))
}

/// An argument in a sheet, low byte first.
pub type StoredArgument = [u8; 8];

/// An argument, as a number or as it is stored.
pub trait Argument: Copy {
    /// The number.
    fn value(self) -> u64;
}

impl Argument for u64 {
    fn value(self) -> u64 {
        self
    }
}

impl Argument for StoredArgument {
    fn value(self) -> u64 {
        u64::from_le_bytes(self)
    }
}

#[cfg(test)]
mod tests {
    use super::*;

    /// Document 01's example, List(Int16), and a sheet whose bytes all differ.
    #[test]
    fn sheets_are_these_bytes() {
        let list = [&[0x02, 0x00, 0x1C, 0x08][..], &[0; 16]].concat();
        assert_eq!(lay_out(&[28, 8], &[0, 0]), list);
        let one = [1, 0, 26, 8, 7, 6, 5, 4, 3, 2, 9];
        assert_eq!(lay_out(&[26], &[0x0902_0304_0506_0708]), one);
        assert_eq!(lay_out(&vec![1; 258], &[])[..3], [2, 1, 1]);
    }

    #[test]
    fn a_sheet_is_split_where_its_length_is_right() {
        let sheet = lay_out(&[28, 8], &[3, 5]);
        let (kinds, args) = split(&sheet).expect("a sheet");
        assert_eq!((kinds, args.iter().map(|arg| arg.value()).collect()), (&[28, 8][..], vec![3, 5]));
        assert_eq!(split(&[0, 0]), Some((&[][..], &[][..])));
        assert!([&[][..], &[0], &[0, 0, 0], &sheet[1..], &sheet[..19]].into_iter().all(|bytes| split(bytes).is_none()));
    }
}
