//! Genomes, their sets and reads.
use super::system::on_huge_pages;
use crate::oracle::Keys;
use crate::rng::Rng;
use crate::set_file::{self, BLOCK, WORDS};
use cocktail::kmer::nuc2bit;

pub const READ: usize = 10_000;

/// A random genome of about n k-mers and its set, as each side has it.
pub struct World {
    pub k: u8,
    pub keys: usize,
    pub genome: Vec<u8>,
    pub set: Vec<u8>,
    pub rust: Keys,
    /// Whether set and table were asked for on huge pages.
    pub huge: bool,
    circle: bool,
}

impl World {
    /// A genome that is shorter than two reads is a circle, so that reads of full length can be had from it.
    pub fn new(rng: &mut Rng, k: u8, n: usize) -> Self {
        let circle = n < 2 * READ;
        let length = if circle { n } else { n + k as usize - 1 };
        let genome: Vec<u8> = (0..length).map(|_| rng.letter()).collect();
        let closing = if circle { &genome[..k as usize - 1] } else { &[] };
        let mask = (1 << (2 * k)) - 1;
        let mut kmer = 0;
        let kmers = genome.iter().chain(closing).map(|byte| {
            kmer = (kmer << 2) & mask | nuc2bit(*byte);
            kmer
        });
        let keys = set_file::keys_of(k, kmers.skip(k as usize - 1));
        World { k, keys: keys.len(), set: set_file::make(k as u64, &keys), rust: Keys::new(k, &keys), huge: false, genome, circle }
    }

    /// The same once more, with the set and the Rust's table on huge pages.
    pub fn on_huge_pages(&self) -> Self {
        on_huge_pages(|| self.again())
    }

    fn again(&self) -> Self {
        let word = |word: &[u8]| word.iter().rev().fold(0_u64, |sum, byte| sum << 8 | *byte as u64);
        let keys = self.set.chunks_exact(BLOCK).skip(1).flat_map(|block| block.chunks_exact(8).take(WORDS).map(word)).take(self.keys);
        let rust = Keys::from_iter(self.k, keys);
        World { k: self.k, keys: self.keys, set: self.set.clone(), rust, huge: true, genome: self.genome.clone(), circle: self.circle }
    }

    /// The genome from a place, round and round if it is a circle.
    fn from(&self, start: usize) -> impl Iterator<Item = u8> + '_ {
        let rounds = if self.circle { usize::MAX } else { 1 };
        let rest = self.genome[start..].iter();
        rest.chain(std::iter::repeat_n(&self.genome, rounds - 1).flatten()).copied()
    }

    /// A read with that many errors in a hundred bases, a third each insertions, substitutions and deletions.
    pub fn read(&self, rng: &mut Rng, errors: usize) -> Vec<u8> {
        let latest = if self.circle { self.genome.len() } else { self.genome.len() - 3 * READ / 2 };
        let mut bases = self.from(rng.below(latest));
        let mut read = Vec::with_capacity(READ);
        while read.len() < READ {
            let error = if rng.percent(errors) { rng.below(3) } else { 3 };
            if error == 0 {
                read.push(rng.letter());
                continue;
            }
            let base = bases.next().expect("a genome longer than its reads");
            match error {
                1 => read.push(other_than(rng, base)),
                2 => {}
                _ => read.push(base),
            }
        }
        read
    }

    /// A read whose one attempt under GapSize makes that many moves: so many letters and one of no use in the middle of the genome.
    pub fn gap_read(&self, rng: &mut Rng, moves: usize) -> Vec<u8> {
        let before = 2 * self.k as usize;
        let start = rng.below(self.genome.len() - 2 * moves - 4 * before);
        let mut read = self.genome[start..start + before].to_vec();
        for base in &self.genome[start + before..start + before + moves + 1] {
            read.push(other_than(rng, *base));
        }
        read.extend_from_slice(&self.genome[start + before + moves + 1..][..before]);
        read
    }

    /// The k-mers of a read.
    pub fn kmers(&self, read: &[u8]) -> Vec<u64> {
        read.windows(self.k as usize).map(|window| window.iter().fold(0, |kmer, byte| kmer << 2 | nuc2bit(*byte))).collect()
    }
}

fn other_than(rng: &mut Rng, base: u8) -> u8 {
    let others: Vec<u8> = b"ACGT".iter().filter(|letter| **letter != base).copied().collect();
    *rng.pick(&others)
}
