//! Makes set files: document 01, "Set".

pub const WORDS: usize = 63;
pub const BLOCK: usize = 512;

/// The words of a set file without check words, which `seal` puts in: so a damaged set may still have right checks.
pub fn words(k: u64, n: u64, keys: &[u64]) -> Vec<u64> {
    let mut words = vec![0; WORDS];
    words[0] = k;
    words[1] = n;
    words.extend_from_slice(keys);
    words.resize(words.len().div_ceil(WORDS) * WORDS, 0);
    words
}

/// Blocks of 63 words, each followed by its check word: the words plus the block's number plus 1.
pub fn seal(words: &[u64]) -> Vec<u8> {
    let mut bytes = Vec::with_capacity(words.len().div_ceil(WORDS) * BLOCK);
    for (number, block) in words.chunks(WORDS).enumerate() {
        let check = block.iter().fold(number as u64 + 1, |sum, word| sum.wrapping_add(*word));
        for word in block {
            bytes.extend_from_slice(&word.to_le_bytes());
        }
        bytes.extend_from_slice(&check.to_le_bytes());
    }
    bytes
}

/// The set file of canonical, strictly rising keys.
pub fn make(k: u64, keys: &[u64]) -> Vec<u8> {
    seal(&words(k, keys.len() as u64, keys))
}

/// The canonical codes of k-mers, sorted, each once.
pub fn keys_of(k: u8, kmers: impl IntoIterator<Item = u64>) -> Vec<u64> {
    let mut keys: Vec<u64> = kmers.into_iter().map(|kmer| cocktail::kmer::canonical(kmer, k)).collect();
    keys.sort_unstable();
    keys.dedup();
    keys
}
