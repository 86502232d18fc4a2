//! The parts of natir/br that are compared. Its own src/lib.rs also names the command line and FASTA.
pub mod correct;
pub mod set;
