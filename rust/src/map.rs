//! A map between two models.
use crate::{ALIAS, ELEMENTS};
use std::fmt;
use std::ops::Deref;

/// A map: a byte for each element of the model it starts from, at a representative the image's representative, at an alias [`ALIAS`].
#[derive(Clone, Copy, PartialEq, Eq)]
pub struct Map {
    entries: [u8; ELEMENTS],
    length: usize,
}

impl Map {
    /// The first `length` of `entries`.
    pub(crate) fn new(entries: [u8; ELEMENTS], length: usize) -> Map {
        Map { entries, length }
    }

    /// The bytes, as the calls take them.
    pub fn as_bytes(&self) -> &[u8] {
        &self.entries[..self.length]
    }

    /// The image's representative of a representative; nothing at an alias, or past the last element.
    pub fn image(&self, element: u8) -> Option<u8> {
        self.as_bytes().get(usize::from(element)).copied().filter(|&image| image != ALIAS)
    }
}

impl Deref for Map {
    type Target = [u8];

    fn deref(&self) -> &[u8] {
        self.as_bytes()
    }
}

impl fmt::Debug for Map {
    fn fmt(&self, f: &mut fmt::Formatter<'_>) -> fmt::Result {
        write!(f, "Map({:?})", self.as_bytes())
    }
}

/// The entries with blanks between them, `-` at an alias.
impl fmt::Display for Map {
    fn fmt(&self, f: &mut fmt::Formatter<'_>) -> fmt::Result {
        for (i, &entry) in self.as_bytes().iter().enumerate() {
            let blank = if i == 0 { "" } else { " " };
            if entry == ALIAS {
                write!(f, "{blank}-")?;
            } else {
                write!(f, "{blank}{entry}")?;
            }
        }
        Ok(())
    }
}
