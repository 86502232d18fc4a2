//! Genomes and reads.
use crate::check::Site;
use crate::referee::letters::code;
use crate::rng::Rng;

pub fn letters(rng: &mut Rng, length: usize) -> Vec<u8> {
    (0..length).map(|_| rng.letter()).collect()
}

/// Every read of that length over some letters.
pub fn all(letters: &[u8], length: u32) -> impl Iterator<Item = Vec<u8>> + '_ {
    let count = letters.len();
    (0..count.pow(length)).map(move |number| (0..length).rev().map(|place| letters[number / count.pow(place) % count]).collect())
}

pub fn reverse_complement(genome: &[u8]) -> Vec<u8> {
    let complement = |byte: &u8| match byte {
        b'A' => b'T',
        b'C' => b'G',
        b'G' => b'C',
        _ => b'A',
    };
    genome.iter().rev().map(complement).collect()
}

/// A part of the genome, of either strand.
fn part(rng: &mut Rng, genome: &[u8], longest: usize) -> Vec<u8> {
    let length = rng.below(longest.min(genome.len()) + 1);
    let start = rng.below(genome.len() - length + 1);
    let part = &genome[start..start + length];
    if rng.percent(30) {
        reverse_complement(part)
    } else {
        part.to_vec()
    }
}

/// A part of the genome with 1 to 15 % errors.
pub fn noisy(rng: &mut Rng, genome: &[u8], longest: usize) -> Vec<u8> {
    let part = part(rng, genome, longest);
    let rate = rng.within(1, 15);
    let mut read = Vec::with_capacity(part.len() + 16);
    let mut at = 0;
    while at < part.len() {
        if rng.percent(rate) {
            at += error(rng, &part[at..], &mut read);
        } else {
            read.push(part[at]);
            at += 1;
        }
    }
    read
}

/// The same, cut or filled up to a length.
pub fn noisy_of_length(rng: &mut Rng, genome: &[u8], length: usize) -> Vec<u8> {
    let mut read = noisy(rng, genome, 2 * length + 4);
    while read.len() < length {
        read.push(rng.letter());
    }
    read.truncate(length);
    read
}

/// A part of the genome with errors at least `apart` bases from each other.
pub fn spaced(rng: &mut Rng, genome: &[u8], apart: usize) -> Vec<u8> {
    let part = part(rng, genome, 1200);
    let (mut read, mut at) = (Vec::with_capacity(part.len() + 16), 0);
    while at < part.len() {
        let clean = (at + rng.within(apart, 2 * apart)).min(part.len());
        read.extend_from_slice(&part[at..clean]);
        at = clean + error(rng, &part[clean..], &mut read);
    }
    read
}

/// An error at the front of `rest`, or two, side by side or with one right base between, or a long one. Returns the bases it takes.
fn error(rng: &mut Rng, rest: &[u8], read: &mut Vec<u8>) -> usize {
    let kind = rng.below(100);
    let mut taken = single(rng, rest, read);
    if (60..90).contains(&kind) {
        if kind < 75 && taken < rest.len() {
            read.push(rest[taken]);
            taken += 1;
        }
        taken += single(rng, &rest[taken.min(rest.len())..], read);
    } else if kind >= 90 {
        let length = rng.within(2, 40);
        if rng.percent(50) {
            read.extend((0..length).map(|_| rng.letter()));
        } else {
            taken += length;
        }
    }
    taken.min(rest.len())
}

/// An insertion, a substitution or a deletion.
fn single(rng: &mut Rng, rest: &[u8], read: &mut Vec<u8>) -> usize {
    match rng.below(3) {
        0 => {
            read.push(rng.letter());
            0
        }
        1 => {
            read.push(rng.letter());
            1
        }
        _ => rest.len().min(1),
    }
}

/// Substitutions, one base in `apart` or so.
pub fn substitute(rng: &mut Rng, read: &mut [u8], apart: usize) {
    for byte in read {
        if rng.below(apart) == 0 {
            *byte = rng.letter();
        }
    }
}

/// A walk over the set's solid k-mers that takes a wrong letter now and then, or random letters.
pub fn in_set(rng: &mut Rng, site: &Site) -> Vec<u8> {
    let length = rng.below(60);
    let Ok(set) = &site.opened else { return Vec::new() };
    if set.keys.is_empty() || rng.percent(30) {
        return letters(rng, length);
    }
    let k = set.k as u8;
    let start = *rng.pick(&set.keys);
    let mut read = cocktail::kmer::kmer2seq(start, k).into_bytes();
    let mut kmer = start;
    while read.len() < length {
        let next = |code: u64| ((kmer << 2) & ((1 << (2 * k)) - 1)) | code;
        let solid: Vec<u64> = (0..4).filter(|code| set.solid(next(*code))).collect();
        let code = if solid.is_empty() || rng.percent(10) { rng.below(4) as u64 } else { *rng.pick(&solid) };
        kmer = next(code);
        read.push(cocktail::kmer::bit2nuc(code));
    }
    read
}

/// A read in all ten letters that have a code: in lower case here and there, and with U for T.
pub fn in_ten_letters(rng: &mut Rng, mut read: Vec<u8>) -> Vec<u8> {
    for byte in &mut read {
        if *byte == b'T' && rng.percent(40) {
            *byte = b'U';
        }
        if rng.percent(40) {
            *byte |= 32;
        }
    }
    read
}

/// A byte that has no code: N, any other, or one of which document 01 would read the letter that it stands for.
fn unknown(rng: &mut Rng, letter: u8) -> u8 {
    loop {
        let byte = match rng.below(3) {
            0 => *rng.pick(b"NNn"),
            1 => rng.byte(),
            _ => rng.byte() & !0b110 | letter & 0b110,
        };
        if code(byte).is_none() {
            return byte;
        }
    }
}

/// A read with bytes that have no code, now and then several in a row; or arbitrary bytes.
pub fn with_unknown(rng: &mut Rng, mut read: Vec<u8>) -> Vec<u8> {
    if rng.percent(5) {
        return read.iter().map(|_| rng.byte()).collect();
    }
    let apart = rng.within(4, 60);
    let mut at = rng.below(apart);
    while at < read.len() {
        let row = if rng.percent(70) { 1 } else { rng.within(2, 12) };
        for byte in read.iter_mut().skip(at).take(row) {
            *byte = unknown(rng, *byte);
        }
        at += row + rng.within(1, 2 * apart);
    }
    read
}
