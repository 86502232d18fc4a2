//! "Letters", with document 02's "N isn't G".

/// Only A, C, G, T, U and their lower case have a code: (b/2) mod 4.
pub fn code(byte: u8) -> Option<u64> {
    match byte {
        b'A' | b'a' => Some(0),
        b'C' | b'c' => Some(1),
        b'T' | b't' | b'U' | b'u' => Some(2),
        b'G' | b'g' => Some(3),
        _ => None,
    }
}

pub fn letter(code: u64) -> u8 {
    b"ACTG"[code as usize]
}

/// 4^k − 1.
pub fn mask(k: usize) -> u64 {
    (1 << (2 * k)) - 1
}

/// A k-mer: its code, in which an unknown letter stands as A, and which of its letters are unknown, a bit for each, the first one highest. So one
/// that holds an unknown letter equals none that holds known ones alone.
#[derive(Clone, Copy, Debug, PartialEq, Eq, Hash)]
pub struct Kmer {
    code: u64,
    unknown: u32,
}

impl Kmer {
    /// The k-mer of k bytes.
    pub fn of(k: usize, bytes: &[u8]) -> Self {
        Kmer { code: 0, unknown: 0 }.add_all(k, bytes)
    }

    /// y+b, b given by its code, if it has one: y with its first letter dropped and b last.
    pub fn add(self, k: usize, code: Option<u64>) -> Self {
        let unknown = (self.unknown << 1) & ((1 << k) - 1);
        Kmer { code: ((self.code << 2) & mask(k)) + code.unwrap_or(0), unknown: unknown + code.is_none() as u32 }
    }

    pub fn add_all(self, k: usize, bytes: &[u8]) -> Self {
        bytes.iter().fold(self, |y, byte| y.add(k, code(*byte)))
    }

    /// Moved right one letter, an A in front.
    pub fn moved_right(self) -> Self {
        Kmer { code: self.code >> 2, unknown: self.unknown >> 1 }
    }

    /// None if one of its letters is unknown.
    pub fn code(self) -> Option<u64> {
        (self.unknown == 0).then_some(self.code)
    }

    /// The last `count` letters, none of which is unknown; places beyond k give A.
    pub fn last(self, count: usize) -> Vec<u8> {
        (0..count).rev().map(|place| letter(self.code >> (2 * place) & 3)).collect()
    }

    pub fn last_letter(self) -> u8 {
        letter(self.code & 3)
    }
}

/// Complement exchanges A/T and C/G; reverse complement also turns the order.
pub fn reverse_complement(k: usize, code: u64) -> u64 {
    (0..k).fold(0, |turned, place| turned << 2 | (code >> (2 * place) & 3) ^ 2)
}

/// Of a k-mer and its reverse complement, the one that has an even count of one bits.
pub fn canonical(k: usize, code: u64) -> u64 {
    if code.count_ones() % 2 == 0 {
        code
    } else {
        reverse_complement(k, code)
    }
}
