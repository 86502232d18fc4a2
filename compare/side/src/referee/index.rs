//! Document 02, "Index by first letters", written from the documents alone.
use super::set::{Refusal, Set};
use crate::set_file::{seal, WORDS};

const MOST_LETTERS: usize = 6;

/// Entry v, from 0 to 4^m, is the number of keys whose first m letters have a code below v; m is the smaller of 6 and k. The keys rise, so those
/// stand in front.
pub fn entries(k: usize, keys: &[u64]) -> Vec<u64> {
    let m = k.min(MOST_LETTERS);
    let first_letters = |key: u64| key >> (2 * (k - m));
    (0..=1 << (2 * m)).map(|v| keys.partition_point(|key| first_letters(*key) < v) as u64).collect()
}

/// Words in blocks from block 0 on, with document 01's check words, spare words zero.
pub fn blocks_of(mut words: Vec<u64>) -> Vec<u8> {
    words.resize(words.len().div_ceil(WORDS) * WORDS, 0);
    seal(&words)
}

/// Refusal 15: an index that is offered isn't byte for byte the blocks built from the set. An empty one counts as not offered.
pub fn refusal(set: &Set, index: &[u8]) -> Option<Refusal> {
    (!index.is_empty() && index != set.index()).then_some(Refusal::new(15, 0))
}

/// The blocks, in a buffer of so many bytes, or 7 to 10 of the set; 14 when the buffer is too short for them, checked last.
pub fn make_index(opened: &Result<Set, Refusal>, room: usize) -> Result<&[u8], Refusal> {
    let blocks = opened.as_ref().map_err(|refusal| *refusal)?.index();
    if room < blocks.len() {
        return Err(Refusal::new(14, 0));
    }
    Ok(blocks)
}
