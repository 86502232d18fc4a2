//! natir/br and the corrector side by side.
//!
//! Three sides see the same sets and reads:
//! - `oracle`: natir/br's unchanged source, over a set of the same keys that counts what it is asked;
//! - `referee`: documents 01 and 02 written down once more in plain Rust, from the documents alone, with their counts;
//! - `library`: the corrector itself, linked through `boundary`, or the referee in its place.
//!
//! Bytes are compared on all three; turns, attempts and corrections too; lookups of the corrector with the referee's, and the Rust's
//! with the referee's plus what the referee says the Rust asks again. Reads with other bytes than A, C, G, T, U and their lower case, which
//! natir/br reads in a way of its own, are compared between the library and the referee alone.

// But for bench/system.rs and bench/against.rs.
#![deny(unsafe_code)]

pub mod bench;
#[cfg(feature = "linked")]
pub mod boundary;
pub mod bridge;
pub mod cases;
pub mod check;
pub mod edits;
pub mod library;
pub mod list;
pub mod make;
pub mod oracle;
pub mod referee;
pub mod rng;
pub mod samples;
pub mod set_file;
pub mod shrink;
pub mod split;
pub mod support;
