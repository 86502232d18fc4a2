//! Document 01 in plain Rust, with document 02's requests, written from the documents alone: what a call answers, every byte, every count. It is written to be read beside document 01, in its order and its words, and not to be fast.
//!
//! One thing stands here that is in neither: `Pass::again`, the lookups that natir/br makes beyond the documents', so that its own count
//! can be held against this one. The places where it asks again carry a comment that begins "The Rust".

pub mod bridge;
pub mod calls;
pub mod ceilings;
pub mod correctors;
pub mod driver;
pub mod fasta;
pub mod edits;
pub mod index;
pub mod letters;
pub mod make;
pub mod needs;
pub mod set;
