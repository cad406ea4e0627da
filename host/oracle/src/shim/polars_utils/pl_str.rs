//! Short texts.

use std::borrow::Borrow;
use std::fmt;
use std::hash::{Hash, Hasher};
use std::ops::Deref;

const CAPACITY: usize = 23;

/// A text kept in place, as the crate's is where it is as short, so that a clone costs about what it costs there.
///
/// The bytes past the length are 0, so that the derived order is that of texts.
#[derive(Clone, PartialEq, Eq, PartialOrd, Ord)]
pub struct PlSmallStr {
    bytes: [u8; CAPACITY],
    len: u8,
}

impl PlSmallStr {
    pub const EMPTY: PlSmallStr = PlSmallStr::from_static("");

    /// The text, which must be short.
    pub const fn from_static(text: &'static str) -> PlSmallStr {
        let mut bytes = [0; CAPACITY];
        bytes.split_at_mut(text.len()).0.copy_from_slice(text.as_bytes());
        PlSmallStr { bytes, len: text.len() as u8 }
    }

    pub fn as_str(&self) -> &str {
        str::from_utf8(&self.bytes[..usize::from(self.len)]).expect("it was made of text")
    }
}

/// Adds to the text, as long as it stays short.
impl fmt::Write for PlSmallStr {
    fn write_str(&mut self, more: &str) -> fmt::Result {
        let len = usize::from(self.len);
        let room = self.bytes.get_mut(len..len + more.len()).ok_or(fmt::Error)?;
        room.copy_from_slice(more.as_bytes());
        self.len += more.len() as u8;
        Ok(())
    }
}

impl Deref for PlSmallStr {
    type Target = str;

    fn deref(&self) -> &str {
        self.as_str()
    }
}

impl Borrow<str> for PlSmallStr {
    fn borrow(&self) -> &str {
        self
    }
}

impl Hash for PlSmallStr {
    fn hash<H: Hasher>(&self, state: &mut H) {
        self.as_str().hash(state);
    }
}

impl fmt::Debug for PlSmallStr {
    fn fmt(&self, f: &mut fmt::Formatter<'_>) -> fmt::Result {
        fmt::Debug::fmt(self.as_str(), f)
    }
}

impl fmt::Display for PlSmallStr {
    fn fmt(&self, f: &mut fmt::Formatter<'_>) -> fmt::Result {
        fmt::Display::fmt(self.as_str(), f)
    }
}
