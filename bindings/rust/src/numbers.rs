//! The numbers of banks and of waves, each a type of its own.

use std::fmt;

/// The number of a bank (a vertex id).
#[derive(Clone, Copy, Debug, PartialEq, Eq, PartialOrd, Ord, Hash)]
pub struct Bank(pub u16);

/// The number of a wave (a colour).
#[derive(Clone, Copy, Debug, PartialEq, Eq, PartialOrd, Ord, Hash)]
pub struct Wave(pub u16);

/// The letters of the waves: A to Z without I and O.
const LETTERS: &[u8; 24] = b"ABCDEFGHJKLMNPQRSTUVWXYZ";

impl Wave {
    /// The letter of the wave: A to Z without I and O.
    ///
    /// # Panics
    ///
    /// For a number above 23. The waves of a plan are below 24.
    pub fn letter(self) -> char {
        char::from(LETTERS[usize::from(self.0)])
    }
}

/// The number.
impl fmt::Display for Bank {
    fn fmt(&self, f: &mut fmt::Formatter<'_>) -> fmt::Result {
        self.0.fmt(f)
    }
}
