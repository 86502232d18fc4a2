//! Document 01's readings ("Letters") of the functions of `cocktail` that natir/br calls.

pub mod kmer {
    /// A byte b has code (b/2) mod 4.
    #[inline(always)]
    pub fn nuc2bit(nuc: u8) -> u64 {
        (nuc as u64 >> 1) & 0b11
    }

    /// Codes become letters A, C, T, G.
    #[inline(always)]
    pub fn bit2nuc(bit: u64) -> u8 {
        b"ACTG"[(bit & 0b11) as usize]
    }

    /// A k-mer's code is base four, first letter highest.
    #[inline(always)]
    pub fn seq2bit(seq: &[u8]) -> u64 {
        seq.iter().fold(0, |kmer, nuc| (kmer << 2) | nuc2bit(*nuc))
    }

    /// The letters of a k-mer, first letter first.
    pub fn kmer2seq(kmer: u64, k: u8) -> String {
        (0..k).rev().map(|i| bit2nuc(kmer >> (2 * i)) as char).collect()
    }

    /// Of a k-mer and its reverse complement, the one with an even count of one bits.
    #[inline(always)]
    pub fn canonical(kmer: u64, k: u8) -> u64 {
        if kmer.count_ones() % 2 == 0 {
            kmer
        } else {
            revcomp(kmer, k)
        }
    }

    /// Complement exchanges A/T and C/G, which is the high bit of each code; then the order is turned, all 32 places at once.
    #[inline(always)]
    pub fn revcomp(kmer: u64, k: u8) -> u64 {
        const PAIRS: u64 = 0x3333_3333_3333_3333;
        const NIBBLES: u64 = 0x0f0f_0f0f_0f0f_0f0f;

        let mut turned = kmer ^ 0xaaaa_aaaa_aaaa_aaaa;
        turned = ((turned >> 2) & PAIRS) | ((turned & PAIRS) << 2);
        turned = ((turned >> 4) & NIBBLES) | ((turned & NIBBLES) << 4);
        turned.swap_bytes() >> (64 - 2 * k as u32)
    }
}
