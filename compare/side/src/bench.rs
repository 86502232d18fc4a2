//! The benchmark: both sides in one process, on the same inputs.

pub mod against;
pub mod aligned;
pub mod chart;
pub mod index;
pub mod inputs;
pub mod make;
pub mod measure;
pub mod memory;
pub mod page;
pub mod rounds;
pub mod split;
pub mod summary;
pub mod symbols;
pub mod system;
