//! The calls of corrector.h, and the only unsafe code: each slice passes as pointer and length, and entries as the bytes that they are.
#![allow(unsafe_code)]

use crate::edits::Edit;
use crate::job::Entry;

#[rustfmt::skip]
extern "C" {
    fn corrector_open(set: *const u8, set_length: usize, answer: *mut u64, answer_length: usize) -> u64;
    fn corrector_read(
        set: *const u8, set_length: usize, index: *const u8, index_length: usize, counts: *const u32, counts_length: usize,
        job: *const u8, job_length: usize, read: *const u8, read_length: usize,
        output: *mut u8, output_length: usize, work: *mut u8, work_length: usize, answer: *mut u64, answer_length: usize,
    ) -> u64;
    fn corrector_batch(
        set: *const u8, set_length: usize, index: *const u8, index_length: usize, counts: *const u32, counts_length: usize,
        job: *const u8, job_length: usize, batch: *const u8, batch_length: usize,
        output: *mut u8, output_length: usize, work: *mut u8, work_length: usize, answer: *mut u64, answer_length: usize,
    ) -> u64;
    fn corrector_fasta(
        set: *const u8, set_length: usize, index: *const u8, index_length: usize, counts: *const u32, counts_length: usize,
        job: *const u8, job_length: usize, file: *const u8, file_length: usize,
        output: *mut u8, output_length: usize, work: *mut u8, work_length: usize, answer: *mut u64, answer_length: usize,
    ) -> u64;
    fn corrector_needs(
        set: *const u8, set_length: usize, index: *const u8, index_length: usize, counts: *const u32, counts_length: usize,
        job: *const u8, job_length: usize, batch: *const u8, batch_length: usize, work: *mut u8, work_length: usize,
        answer: *mut u64, answer_length: usize,
    ) -> u64;
    fn corrector_count_solid(
        set: *const u8, set_length: usize, read: *const u8, read_length: usize, answer: *mut u64, answer_length: usize,
    ) -> u64;
    fn corrector_make_set(
        text: *const u8, text_length: usize, k: u64, least: u64, blocks: *mut u8, blocks_length: usize, counts: *mut u32, counts_length: usize,
        answer: *mut u64, answer_length: usize,
    ) -> u64;
    fn corrector_make_index(
        set: *const u8, set_length: usize, blocks: *mut u8, blocks_length: usize, answer: *mut u64, answer_length: usize,
    ) -> u64;
    fn corrector_check_edits(
        set: *const u8, set_length: usize, read: *const u8, read_length: usize, mended: *const u8, mended_length: usize,
        edits: *const u64, edits_length: usize, letters: *const u8, letters_length: usize, answer: *mut u64, answer_length: usize,
    ) -> u64;
    fn corrector_bridge(
        set: *const u8, set_length: usize, from: u64, to: u64, budget: u64, answer: *mut u64, answer_length: usize,
    ) -> u64;
}

/// What a read, a batch or a FASTA call is lent, but for its answer. Needs is lent no output.
pub struct Lent<'a> {
    pub set: &'a [u8],
    /// Empty: not offered.
    pub index: &'a [u8],
    /// Empty: not offered.
    pub counts: &'a [u32],
    pub job: &'a [u8],
    pub input: &'a [u8],
    pub output: &'a mut [u8],
    pub work: &'a mut [u8],
}

// Method and confirm, a byte each.
const _: () = assert!(std::mem::size_of::<Entry>() == 2 && std::mem::align_of::<Entry>() == 1);

/// Entries as bytes, method first.
pub fn bytes_of(entries: &[Entry]) -> &[u8] {
    // SAFETY: an entry is laid out as in C, as two fields of a byte; so it is two bytes without any between or behind them, each initialised.
    // They live as long as the entries, which nobody can write to meanwhile.
    unsafe { std::slice::from_raw_parts(entries.as_ptr().cast(), std::mem::size_of_val(entries)) }
}

// Position, taken and given, a number each.
const _: () = assert!(std::mem::size_of::<Edit>() == 24 && std::mem::align_of::<Edit>() == 8);

/// Edits as numbers, three to each.
pub fn numbers_of(edits: &[Edit]) -> &[u64] {
    // SAFETY: an edit is laid out as in C, as three fields of a number each, without anything between or behind them, each initialised. They live
    // as long as the edits, which nobody can write to meanwhile.
    unsafe { std::slice::from_raw_parts(edits.as_ptr().cast(), 3 * edits.len()) }
}

pub enum Call {
    Read,
    Batch,
    Fasta,
}

/// Number, place, k, n.
pub fn open(set: &[u8]) -> [u64; 4] {
    let mut answer = [0; 4];
    // SAFETY: each pointer and length are a live slice's, and `answer` is lent to this call alone.
    unsafe { corrector_open(set.as_ptr(), set.len(), answer.as_mut_ptr(), answer.len()) };
    answer
}

/// Number, place, written, turns, lookups, attempts, accepted, yield, supported, support, quotient, remainder, bases.
pub fn correct(call: Call, lent: Lent<'_>) -> [u64; 13] {
    let entry = match call {
        Call::Read => corrector_read,
        Call::Batch => corrector_batch,
        Call::Fasta => corrector_fasta,
    };
    let mut answer = [0; 13];
    // SAFETY: each pointer and length are a live slice's; `output`, `work` and `answer` are lent to this call alone, so that they overlap
    // nothing; and the call keeps no pointer.
    unsafe {
        entry(
            lent.set.as_ptr(),
            lent.set.len(),
            lent.index.as_ptr(),
            lent.index.len(),
            lent.counts.as_ptr(),
            lent.counts.len(),
            lent.job.as_ptr(),
            lent.job.len(),
            lent.input.as_ptr(),
            lent.input.len(),
            lent.output.as_mut_ptr(),
            lent.output.len(),
            lent.work.as_mut_ptr(),
            lent.work.len(),
            answer.as_mut_ptr(),
            answer.len(),
        )
    };
    answer
}

/// Number, place, bytes, turns, lookups. The output stays as it is.
pub fn needs(lent: Lent<'_>) -> [u64; 5] {
    let mut answer = [0; 5];
    // SAFETY: each pointer and length are a live slice's; `work` and `answer` are lent to this call alone, so that they overlap nothing.
    unsafe {
        corrector_needs(
            lent.set.as_ptr(),
            lent.set.len(),
            lent.index.as_ptr(),
            lent.index.len(),
            lent.counts.as_ptr(),
            lent.counts.len(),
            lent.job.as_ptr(),
            lent.job.len(),
            lent.input.as_ptr(),
            lent.input.len(),
            lent.work.as_mut_ptr(),
            lent.work.len(),
            answer.as_mut_ptr(),
            answer.len(),
        )
    };
    answer
}

/// Number, place, k-mers, solid ones among them.
pub fn count_solid(set: &[u8], read: &[u8]) -> [u64; 4] {
    let mut answer = [0; 4];
    // SAFETY: each pointer and length are a live slice's, and `answer` is lent to this call alone.
    unsafe { corrector_count_solid(set.as_ptr(), set.len(), read.as_ptr(), read.len(), answer.as_mut_ptr(), answer.len()) };
    answer
}

/// Number, place, length of the blocks.
pub fn make_set(text: &[u8], k: u64, least: u64, blocks: &mut [u8], counts: &mut [u32]) -> [u64; 3] {
    let mut answer = [0; 3];
    // SAFETY: each pointer and length are a live slice's; `blocks`, `counts` and `answer` are lent to this call alone.
    unsafe {
        corrector_make_set(
            text.as_ptr(),
            text.len(),
            k,
            least,
            blocks.as_mut_ptr(),
            blocks.len(),
            counts.as_mut_ptr(),
            counts.len(),
            answer.as_mut_ptr(),
            answer.len(),
        );
    }
    answer
}

/// Number, place, length of the blocks.
pub fn make_index(set: &[u8], blocks: &mut [u8]) -> [u64; 3] {
    let mut answer = [0; 3];
    // SAFETY: each pointer and length are a live slice's; `blocks` and `answer` are lent to this call alone.
    unsafe { corrector_make_index(set.as_ptr(), set.len(), blocks.as_mut_ptr(), blocks.len(), answer.as_mut_ptr(), answer.len()) };
    answer
}

/// Number, place.
pub fn check_edits(set: &[u8], read: &[u8], mended: &[u8], edits: &[u64], letters: &[u8]) -> [u64; 2] {
    let mut answer = [0; 2];
    // SAFETY: each pointer and length are a live slice's, and `answer` is lent to this call alone.
    unsafe {
        corrector_check_edits(
            set.as_ptr(),
            set.len(),
            read.as_ptr(),
            read.len(),
            mended.as_ptr(),
            mended.len(),
            edits.as_ptr(),
            edits.len(),
            letters.as_ptr(),
            letters.len(),
            answer.as_mut_ptr(),
            answer.len(),
        )
    };
    answer
}

/// Number, place, moves, lookups, floor, and 16 letters.
pub fn bridge(set: &[u8], from: u64, to: u64, budget: u64) -> [u64; 21] {
    let mut answer = [0; 21];
    // SAFETY: each pointer and length are a live slice's, and `answer` is lent to this call alone.
    unsafe { corrector_bridge(set.as_ptr(), set.len(), from, to, budget, answer.as_mut_ptr(), answer.len()) };
    answer
}
