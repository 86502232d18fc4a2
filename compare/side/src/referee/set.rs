//! "Set", and refusals 7 to 10.
use super::index;
use super::letters::{canonical, mask};
use std::cell::OnceCell;

const BLOCK_BYTES: usize = 512;
const BLOCK_WORDS: usize = 63;
pub const MOST_KEYS: u64 = 16_777_216;

/// A refusal's number and place.
#[derive(Clone, Copy, Debug, PartialEq, Eq)]
pub struct Refusal {
    pub number: u64,
    pub place: u64,
}

impl Refusal {
    pub fn new(number: u64, place: usize) -> Self {
        Refusal { number, place: place as u64 }
    }
}

pub struct Set {
    pub k: usize,
    pub keys: Vec<u64>,
    index: OnceCell<Vec<u8>>,
}

impl Set {
    /// The index of a k-mer's canonical code among the keys, or none (document 02, W8).
    pub fn find(&self, code: u64) -> Option<usize> {
        self.keys.binary_search(&canonical(self.k, code)).ok()
    }

    /// A k-mer is solid when its canonical code is a key.
    pub fn solid(&self, code: u64) -> bool {
        self.find(code).is_some()
    }

    /// The blocks of its index, made once.
    pub fn index(&self) -> &[u8] {
        self.index.get_or_init(|| index::blocks_of(index::entries(self.k, &self.keys)))
    }
}

/// Refusals 7 to 10, checked upward, or the set.
pub fn open(bytes: &[u8]) -> Result<Set, Refusal> {
    if bytes.is_empty() || bytes.len() % BLOCK_BYTES != 0 {
        return Err(Refusal::new(7, 0));
    }
    let blocks: Vec<Vec<u64>> = bytes.chunks(BLOCK_BYTES).map(words).collect();
    if let Some(block) = blocks.iter().enumerate().position(|(number, block)| !check_is_right(number, block)) {
        return Err(Refusal::new(8, block));
    }
    let header = &blocks[0][..BLOCK_WORDS];
    let (k, n) = (header[0], header[1]);
    let key_blocks = blocks.len() - 1;
    if k % 2 == 0 || k > 31 || n > MOST_KEYS || header[2..].iter().any(|word| *word != 0) || (n as usize).div_ceil(BLOCK_WORDS) != key_blocks {
        return Err(Refusal::new(9, 0));
    }
    let mut keys: Vec<u64> = blocks[1..].iter().flat_map(|block| &block[..BLOCK_WORDS]).copied().collect();
    if let Some(place) = (0..keys.len()).find(|place| !word_is_right(k as usize, n as usize, &keys, *place)) {
        return Err(Refusal::new(10, place));
    }
    keys.truncate(n as usize);
    Ok(Set { k: k as usize, keys, index: OnceCell::new() })
}

/// Little-endian 64-bit words.
fn words(block: &[u8]) -> Vec<u64> {
    block.chunks(8).map(|word| word.iter().rev().fold(0, |sum, byte| sum << 8 | *byte as u64)).collect()
}

/// The check word is the 63 words plus the block's number plus 1, the sum wrapping.
fn check_is_right(number: usize, block: &[u64]) -> bool {
    block[..BLOCK_WORDS].iter().fold(number as u64 + 1, |sum, word| sum.wrapping_add(*word)) == block[BLOCK_WORDS]
}

/// A key is below 4^k, canonical, and more than the key before; a spare word is zero.
fn word_is_right(k: usize, n: usize, words: &[u64], place: usize) -> bool {
    let word = words[place];
    if place >= n {
        return word == 0;
    }
    word <= mask(k) && canonical(k, word) == word && (place == 0 || words[place - 1] < word)
}
