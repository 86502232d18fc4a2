//! Jobs: entries of a method and its confirm.
use crate::raw;
use std::num::NonZeroU8;

/// A method of correction.
#[derive(Clone, Copy, Debug, PartialEq, Eq, Hash)]
#[repr(u8)]
pub enum Method {
    /// Mends errors of one base.
    One = 1,
    /// Mends errors of two bases, with at most one right base between.
    Two = 2,
    /// Follows the only solid successors up to the next solid k-mer of the read.
    Graph = 3,
    /// Graph, One, or a walk along the only solid successors, by the distance to the next solid k-mer of the read.
    GapSize = 4,
}

/// An entry of a job: a method, and its own confirm, the number of bases behind a correction that must agree. Graph asks for none.
#[derive(Clone, Copy, Debug, PartialEq, Eq, Hash)]
#[repr(C)]
pub struct Entry {
    /// The method.
    pub method: Method,
    /// How many bases must agree.
    pub confirm: NonZeroU8,
}

impl Entry {
    /// The entry, unless confirm is 0.
    pub const fn new(method: Method, confirm: u8) -> Option<Self> {
        match NonZeroU8::new(confirm) {
            Some(confirm) => Some(Entry { method, confirm }),
            None => None,
        }
    }
}

/// A job: entries, each of which reads the result of the one before. Nothing is copied for it.
#[derive(Clone, Copy, Debug, PartialEq, Eq)]
pub struct Job<'a>(&'a [u8]);

impl<'a> Job<'a> {
    /// The job of these entries. Such a job can only be refused for having more than [`MAX_ENTRIES`](crate::MAX_ENTRIES).
    pub fn new(entries: &'a [Entry]) -> Self {
        Job(raw::bytes_of(entries))
    }

    /// The job of a `job` file's bytes: pairs, method first. They are checked at each call, where an entry without its second byte is
    /// refused as one with confirm 0.
    pub const fn from_bytes(bytes: &'a [u8]) -> Self {
        Job(bytes)
    }

    /// The bytes of its `job` file.
    pub const fn as_bytes(self) -> &'a [u8] {
        self.0
    }
}
