//! The corrector as the comparison sees it: the linked library, or the referee in its place.
use crate::referee::bridge::{bridge, Bridge};
use crate::referee::calls::{call, count_solid, Answer, Call, Job};
use crate::referee::edits::{check_edits, Sheet};
use crate::referee::index::make_index;
use crate::referee::make::{make_set, Room};
use crate::referee::needs::{needs, Needs};
use crate::referee::set::{open, Refusal};

pub trait Library: Sync {
    fn name(&self) -> &'static str;

    /// k and n, or refusal 7 to 10.
    fn open(&self, set: &[u8]) -> Result<(u64, u64), Refusal>;

    /// The call that the job names, with the index and the counts that it offers, over lent buffers of the lengths that it gives.
    fn correct(&self, set: &[u8], job: &Job, output: &mut [u8], work: &mut [u8]) -> Answer;

    /// What the job's lines need, over a lent work buffer of the length that it gives.
    fn needs(&self, set: &[u8], job: &Job, work: &mut [u8]) -> Result<Needs, Refusal>;

    /// The set file made from k-mer counts as text, and the counts of its keys: the length of the blocks in bytes, or a refusal.
    fn make_set(&self, text: &[u8], k: u64, least: u64, blocks: &mut [u8], counts: &mut [u32]) -> Result<u64, Refusal>;

    /// The index of a set: the length of its blocks in bytes, or refusal 7 to 10 or 14.
    fn make_index(&self, set: &[u8], blocks: &mut [u8]) -> Result<u64, Refusal>;

    /// The k-mers of a read and the solid ones among them, or refusal 1 or 7 to 10: the plain loop of the benchmark.
    fn count_solid(&self, set: &[u8], read: &[u8]) -> Result<(u64, u64), Refusal>;

    /// Whether a sheet is accepted, or refusal 1, 7 to 10 or 19.
    fn check_edits(&self, set: &[u8], sheet: &Sheet) -> Result<(), Refusal>;
    /// The shortest bridge between two k-mers that a budget of lookups lets find, or refusal 7 to 10 or 20.
    fn bridge(&self, set: &[u8], from: u64, to: u64, budget: u64) -> Result<Bridge, Refusal>;
}

/// The referee in the library's place.
pub struct StandIn;

impl Library for StandIn {
    fn name(&self) -> &'static str {
        "the referee, in the corrector's place"
    }

    fn open(&self, set: &[u8]) -> Result<(u64, u64), Refusal> {
        open(set).map(|set| (set.k as u64, set.keys.len() as u64))
    }

    fn correct(&self, set: &[u8], job: &Job, output: &mut [u8], work: &mut [u8]) -> Answer {
        let outcome = call(&open(set), job);
        match outcome.answer {
            Err(refusal) if refusal.number != 11 => {}
            _ => {
                output.fill(0);
                output[..outcome.bytes.len()].copy_from_slice(&outcome.bytes);
                work.fill(0);
            }
        }
        outcome.answer
    }

    fn needs(&self, set: &[u8], job: &Job, work: &mut [u8]) -> Result<Needs, Refusal> {
        let answer = needs(&open(set), job).answer;
        if answer.is_ok() {
            work.fill(0);
        }
        answer
    }

    fn make_set(&self, text: &[u8], k: u64, least: u64, blocks: &mut [u8], counts: &mut [u32]) -> Result<u64, Refusal> {
        let made = make_set(text, k, least, Room { blocks: blocks.len(), counts: counts.len() })?;
        lay(&made.counts, counts);
        Ok(lay(&made.blocks, blocks))
    }

    fn make_index(&self, set: &[u8], blocks: &mut [u8]) -> Result<u64, Refusal> {
        Ok(lay(make_index(&open(set), blocks.len())?, blocks))
    }

    fn count_solid(&self, set: &[u8], read: &[u8]) -> Result<(u64, u64), Refusal> {
        count_solid(&open(set), read)
    }

    fn check_edits(&self, set: &[u8], sheet: &Sheet) -> Result<(), Refusal> {
        check_edits(&open(set), sheet).map_or(Ok(()), Err)
    }

    fn bridge(&self, set: &[u8], from: u64, to: u64, budget: u64) -> Result<Bridge, Refusal> {
        bridge(&open(set), from, to, budget)
    }
}

/// What was made, and zeros behind it.
fn lay<T: Copy + Default>(made: &[T], buffer: &mut [T]) -> u64 {
    buffer.fill(T::default());
    buffer[..made.len()].copy_from_slice(made);
    made.len() as u64
}

/// The library that this build was made with.
pub fn library() -> &'static dyn Library {
    #[cfg(feature = "linked")]
    return &crate::boundary::Linked;
    #[cfg(not(feature = "linked"))]
    return &StandIn;
}

/// A name for a call in what is printed.
pub fn call_name(call: Call) -> &'static str {
    match call {
        Call::Read => "read",
        Call::Batch => "batch",
        Call::Fasta => "FASTA",
        Call::Needs => "needs",
    }
}
