use crate::{ffi, Error};

/// For each channel the integer type that holds every number of the columns merged into it (the season record, in the
/// rules): the type's code, which is its kind, [`kind::UINT8`](crate::kind::UINT8) to
/// [`kind::INT128`](crate::kind::INT128), or 0 while the channel is empty. It is empty until a column comes that has
/// numbers: [`kind::NULL`](crate::kind::NULL), a silent probe's type, has none.
///
/// ```
/// use lomzegash::kind::{INT128, INT8, UINT128, UINT64};
/// use lomzegash::{ChannelTypes, Error};
///
/// let [new, small, longest] = [UINT64, INT8, UINT128].map(|kind| lomzegash::encode_to_vec(&[kind], &[0]).unwrap());
/// let mut types = ChannelTypes::new();
/// assert_eq!(types.merge(3, &new), Ok(UINT64));
/// assert_eq!(types.merge(3, &small), Ok(INT128));
/// assert_eq!(types.merge(3, &longest), Err(Error::NoUpcast));
/// assert_eq!(types.get(3), Some(INT128));
/// ```
#[repr(C)]
#[derive(Debug, Clone, Copy, PartialEq, Eq, Hash)]
pub struct ChannelTypes {
    /// In the C interface's layout, and of any content.
    pub(crate) codes: [u8; ChannelTypes::CHANNELS],
}

impl ChannelTypes {
    /// The number of channels.
    pub const CHANNELS: usize = 32;

    /// All channels empty.
    #[inline]
    pub const fn new() -> ChannelTypes {
        ChannelTypes::from_codes([0; ChannelTypes::CHANNELS])
    }

    /// The types with these codes, as [`ChannelTypes::codes`] gave them out. Any bytes are taken: a merge into a channel
    /// whose byte is no code is refused by [`Error::ChannelCode`], and the other channels are as good as ever.
    #[inline]
    pub const fn from_codes(codes: [u8; ChannelTypes::CHANNELS]) -> ChannelTypes {
        ChannelTypes { codes }
    }

    /// The byte of each channel.
    #[inline]
    pub const fn codes(&self) -> &[u8; ChannelTypes::CHANNELS] {
        &self.codes
    }

    /// The code that a channel holds; None where it is empty, and where there is no such channel. A byte that is no code
    /// is given as it is: the channel isn't empty.
    ///
    /// ```
    /// use lomzegash::kind::INT8;
    /// use lomzegash::ChannelTypes;
    ///
    /// let mut codes = [0; ChannelTypes::CHANNELS];
    /// codes[..2].copy_from_slice(&[INT8, 255]);
    /// let types = ChannelTypes::from_codes(codes);
    /// assert_eq!([0, 1, 2, 32].map(|channel| types.get(channel)), [Some(INT8), Some(255), None, None]);
    /// ```
    #[inline]
    pub fn get(&self, channel: usize) -> Option<u8> {
        self.codes.get(channel).copied().filter(|&code| code != 0)
    }

    /// Merges the encoded type of a column into a channel, and gives the code that the channel now holds: on an empty
    /// channel the column's own, else that of the smallest integer type that holds all numbers of both. A column of
    /// [`kind::NULL`](crate::kind::NULL) changes nothing: the code is the one held, and 0 where the channel is empty.
    ///
    /// Refused by numbers 1 to 5, by [`Error::Channel`], by [`Error::ChannelCode`], by [`Error::NotAnInteger`], then by
    /// [`Error::NoUpcast`]; of these two Null meets neither. A refused call changes nothing, and any other changes this
    /// channel's byte alone.
    ///
    /// ```
    /// use lomzegash::kind::{INT16, INT8, LIST, NULL, UINT8};
    /// use lomzegash::{ChannelTypes, Error};
    ///
    /// let [null, small, byte] = [NULL, INT8, UINT8].map(|kind| lomzegash::encode_to_vec(&[kind], &[0]).unwrap());
    /// let list = lomzegash::encode_to_vec(&[LIST, INT8], &[0, 0])?;
    /// let mut types = ChannelTypes::new();
    /// assert_eq!((types.merge(31, &null), types.get(31)), (Ok(0), None));
    /// assert_eq!(types.merge(31, &small), Ok(INT8));
    /// assert_eq!(types.merge(31, &null), Ok(INT8));
    /// assert_eq!(types.merge(31, &byte), Ok(INT16));
    /// assert_eq!(types.merge(31, &list), Err(Error::NotAnInteger));
    /// assert_eq!(types.merge(32, &list), Err(Error::Channel));
    /// assert_eq!(types.merge(32, &list[1..]), Err(Error::Length));
    /// assert_eq!((types.get(31), types.get(30)), (Some(INT16), None));
    /// # Ok::<(), Error>(())
    /// ```
    #[inline]
    pub fn merge(&mut self, channel: usize, column: &[u8]) -> Result<u8, Error> {
        ffi::channels::merge(&mut self.codes, channel, column)
    }
}

impl Default for ChannelTypes {
    /// All channels empty.
    fn default() -> ChannelTypes {
        ChannelTypes::new()
    }
}
