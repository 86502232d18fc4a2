//! Damaged sets and inputs that are refused.
use super::{any_entries, batch_of, job, reads};
use crate::referee::calls::{Call, Job};
use crate::referee::correctors::METHODS;
use crate::rng::Rng;
use crate::set_file::{keys_of, seal, words, BLOCK, WORDS};

/// A small set with one or two damages, or none. Words are damaged before the check words are put in, bytes afterwards.
pub fn set(rng: &mut Rng) -> Vec<u8> {
    let k = super::sets::any_k(rng);
    let wanted = *rng.pick(&[0, 1, 2, 62, 63, 64, 126, 127, 200]);
    let keys = keys_of(k, (0..wanted).map(|_| rng.word() & ((1 << (2 * k)) - 1)));
    let mut words = words(k as u64, keys.len() as u64, &keys);
    let damages = *rng.pick(&[0, 1, 1, 1, 1, 2]);
    for _ in 0..damages {
        if rng.percent(70) {
            damage_words(rng, k, &mut words);
        }
    }
    let mut bytes = seal(&words);
    if rng.percent(30) {
        damage_bytes(rng, &mut bytes);
    }
    bytes
}

fn damage_words(rng: &mut Rng, k: u8, words: &mut Vec<u64>) {
    let place = rng.within(WORDS, words.len().max(WORDS + 1) - 1);
    match rng.below(12) {
        0 => words[0] = *rng.pick(&[0, 2, 30, 32, 33, 35, 1 << 32 | 21, u64::MAX]),
        1 => words[0] ^= 1 << rng.below(64),
        2 => words[1] = *rng.pick(&[0, 1, 62, 63, 64, 16_777_216, 16_777_217, 1 << 32, u64::MAX, u64::MAX - 61]),
        3 => words[1] = words[1].wrapping_add(*rng.pick(&[1, 63, u64::MAX])),
        4 => words[rng.within(2, WORDS - 1)] = rng.word() >> rng.below(64),
        5 => words.extend([0; WORDS]),
        6 if words.len() > WORDS => words.truncate(words.len() - WORDS),
        7 if place + 1 < words.len() => words.swap(place, place + 1),
        8 if place + 1 < words.len() => words[place + 1] = words[place],
        9 if place < words.len() => words[place] ^= 1 << rng.below(64),
        // Too large, with an even count of one bits.
        10 if place < words.len() => words[place] = 1 << (2 * k) | 1,
        11 if place < words.len() => words[place] = rng.word() & ((1 << (2 * k)) - 1),
        _ => *words.last_mut().expect("a block") ^= 1 << rng.below(64),
    }
}

fn damage_bytes(rng: &mut Rng, bytes: &mut Vec<u8>) {
    let place = rng.below(bytes.len());
    match rng.below(5) {
        0 => bytes.truncate(place),
        1 => bytes.extend((0..rng.within(1, BLOCK)).map(|_| 0)),
        2 => bytes[place] = bytes[place].wrapping_add(rng.within(1, 255) as u8),
        3 => {
            for _ in 0..3 {
                let place = rng.below(bytes.len());
                bytes[place] ^= 1 << rng.below(8);
            }
        }
        // Two blocks exchanged: each has another block's check word.
        _ => {
            let blocks = bytes.len() / BLOCK;
            let (one, other) = (rng.below(blocks), rng.below(blocks));
            for at in 0..BLOCK {
                bytes.swap(one * BLOCK + at, other * BLOCK + at);
            }
        }
    }
}

/// A set of 40 keys or fewer with each bit turned, of the bytes and of the words before the check words are put in.
pub fn every_bit(rng: &mut Rng, k: u8, visit: &mut dyn FnMut(Vec<u8>)) {
    let keys = keys_of(k, (0..40).map(|_| rng.word() & ((1 << (2 * k)) - 1)));
    let words = words(k as u64, keys.len() as u64, &keys);
    let bytes = seal(&words);
    for bit in 0..8 * bytes.len() {
        let mut turned = bytes.clone();
        turned[bit / 8] ^= 1 << (bit % 8);
        visit(turned);
    }
    for bit in 0..64 * words.len() {
        let mut turned = words.clone();
        turned[bit / 64] ^= 1 << (bit % 64);
        visit(seal(&turned));
    }
}

/// Bytes that name no method.
const UNKNOWN: [u8; 5] = [0, 5, 6, 10, 255];

/// Jobs at their limits: no, 8 and 9 entries, and 9 without the last byte. For each place of 8 entries: the last one there and without its
/// second byte; with confirm 0 there; and with an unknown method anywhere besides.
pub fn jobs(rng: &mut Rng, visit: &mut dyn FnMut(&[u8])) {
    visit(&[]);
    let nine = any_entries(rng, 9, 6);
    visit(&nine);
    visit(&nine[..17]);
    let eight = &nine[..16];
    visit(eight);
    for place in 0..8 {
        visit(&eight[..2 * place + 1]);
        let mut zero = eight.to_vec();
        zero[2 * place + 1] = 0;
        visit(&zero);
        zero[2 * rng.below(8)] = *rng.pick(&UNKNOWN);
        visit(&zero);
    }
}

/// Entries of which one has a byte in its first or second place.
fn entries_with(rng: &mut Rng, half: usize, byte: u8) -> Vec<u8> {
    let count = rng.within(1, 9);
    let mut entries = any_entries(rng, count, 5);
    entries[2 * rng.below(count) + half] = byte;
    entries
}

/// A call with one or two faults of refusals 1 to 6, or at those limits; `long` allows inputs of a million bytes.
pub fn input(rng: &mut Rng, genome: &[u8], long: bool, visit: &mut dyn FnMut(&Job)) {
    let call = *rng.pick(&[Call::Read, Call::Batch]);
    let read = reads::noisy(rng, genome, 60);
    let input = match call {
        Call::Read => read,
        Call::Batch | Call::Needs | Call::Fasta => batch_of([&read]),
    };
    let mut job = job(call, &[rng.pick(&METHODS).byte(), rng.within(1, 5) as u8], &input);
    for _ in 0..rng.within(1, 2) {
        match rng.below(if long { 11 } else { 9 }) {
            0 => {
                let count = rng.within(7, 10);
                job.entries = any_entries(rng, count, 5);
            }
            1 => {
                let unknown = *rng.pick(&UNKNOWN);
                job.entries = entries_with(rng, 0, unknown);
            }
            2 => job.entries = entries_with(rng, 1, 0),
            3 => drop(job.entries.pop()),
            4 => job.work = (2 * job.output.max(job.input.len()) + 1).saturating_sub(rng.below(4)),
            5 => (job.output, job.work) = (rng.below(8), rng.below(4 * input.len() + 8)),
            6 => job.input = (0..rng.within(1022, 1026)).map(|_| 10).collect(),
            7 => drop(job.input.pop()),
            8 => job.input.clear(),
            9 => {
                job.input = vec![*rng.pick(b"ACGT\n"); rng.within(1_048_575, 1_048_578)];
                (job.output, job.work) = (1_048_576, 2_097_152);
            }
            _ => {
                (job.output, job.work) = (rng.within(1_048_574, 1_048_578), rng.within(2_097_150, 2_097_154));
            }
        }
    }
    visit(&job);
}
