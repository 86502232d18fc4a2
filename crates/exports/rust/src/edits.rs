//! Sheets: another program's edits of a read.
use crate::raw;

/// An edit: at a position of the read so many bases are taken, and so many letters given for them, the next of the sheet's letters.
#[derive(Clone, Copy, Debug, Default, PartialEq, Eq, Hash)]
#[repr(C)]
pub struct Edit {
    /// Of the first base that is taken, or before which letters are put in; counted from 0.
    pub position: u64,
    /// How many bases are taken.
    pub taken: u64,
    /// How many letters are given.
    pub given: u64,
}

/// The edits of a sheet. Nothing is copied for it.
#[derive(Clone, Copy, Debug, PartialEq, Eq)]
pub struct Edits<'a>(&'a [u64]);

impl<'a> Edits<'a> {
    /// These edits.
    pub fn new(edits: &'a [Edit]) -> Self {
        Edits(raw::numbers_of(edits))
    }

    /// The edits of a list of numbers: position, taken and given of each. One that lacks numbers is refused.
    pub const fn from_numbers(numbers: &'a [u64]) -> Self {
        Edits(numbers)
    }

    /// The list of numbers.
    pub const fn as_numbers(self) -> &'a [u64] {
        self.0
    }
}
