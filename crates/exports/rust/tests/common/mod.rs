//! Sets and reads for the tests.
#![allow(dead_code)]

const WORDS: usize = 63;

/// A block: 63 words and their check.
fn block(number: usize, words: &[u64]) -> Vec<u8> {
    let sum = words.iter().fold(number as u64 + 1, |sum, word| sum.wrapping_add(*word));
    let words = words.iter().copied().chain(std::iter::repeat(0)).take(WORDS);
    words.chain([sum]).flat_map(u64::to_le_bytes).collect()
}

/// A set file, whatever its k and keys are.
pub fn set_of(k: u64, keys: &[u64]) -> Vec<u8> {
    [block(0, &[k, keys.len() as u64]), blocks_of(1, keys)].concat()
}

/// Words as blocks, the first of them with this number.
pub fn blocks_of(first: usize, words: &[u64]) -> Vec<u8> {
    words.chunks(WORDS).enumerate().flat_map(|(i, words)| block(first + i, words)).collect()
}

/// Document 01's set.
pub fn sample_set() -> Vec<u8> {
    set_of(3, &[6, 23, 51, 58, 60])
}

fn code(base: u8) -> u64 {
    base as u64 / 2 % 4
}

/// The canonical code of a k-mer.
pub fn canonical(kmer: &[u8]) -> u64 {
    let forward = kmer.iter().fold(0, |sum, base| 4 * sum + code(*base));
    let reverse = kmer.iter().rev().fold(0, |sum, base| 4 * sum + (code(*base) ^ 2));
    if u64::count_ones(forward) % 2 == 0 {
        forward
    } else {
        reverse
    }
}

/// The keys of a genome's k-mers.
pub fn keys_of(k: usize, genome: &[u8]) -> Vec<u64> {
    let mut keys: Vec<u64> = genome.windows(k).map(canonical).collect();
    keys.sort_unstable();
    keys.dedup();
    keys
}

/// xorshift.
pub struct Rng(pub u64);

impl Rng {
    pub fn below(&mut self, end: usize) -> usize {
        self.0 ^= self.0 << 13;
        self.0 ^= self.0 >> 7;
        self.0 ^= self.0 << 17;
        (self.0 >> 11) as usize % end
    }

    pub fn letter(&mut self) -> u8 {
        b"ACGT"[self.below(4)]
    }

    pub fn genome(&mut self, length: usize) -> Vec<u8> {
        (0..length).map(|_| self.letter()).collect()
    }

    /// A part of the genome with an error in about twenty bases.
    pub fn read(&mut self, genome: &[u8], length: usize) -> Vec<u8> {
        let start = self.below(genome.len() - length);
        let mut read = Vec::new();
        for base in &genome[start..start + length] {
            match self.below(60) {
                0 => read.push(self.letter()),
                1 => read.extend([*base, self.letter()]),
                2 => {}
                _ => read.push(*base),
            }
        }
        read
    }
}
