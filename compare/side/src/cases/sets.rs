//! Sets of keys.
use super::reads;
use crate::check::Site;
use crate::rng::Rng;
use crate::set_file;
use cocktail::kmer::{canonical, nuc2bit};

/// Any odd k from 1 to 31.
pub fn any_k(rng: &mut Rng) -> u8 {
    2 * rng.below(16) as u8 + 1
}

fn site(k: u8, keys: &[u64]) -> Site {
    Site::new(set_file::make(k as u64, keys))
}

/// All canonical k-mers of a small k.
fn canonical_kmers(k: u8) -> Vec<u64> {
    (0..1_u64 << (2 * k)).filter(|kmer| canonical(*kmer, k) == *kmer).collect()
}

/// The keys whose bits are set in a number.
pub fn subset(k: u8, number: u64) -> Site {
    let all = canonical_kmers(k);
    let keys: Vec<u64> = all.into_iter().enumerate().filter(|(bit, _)| number >> bit & 1 == 1).map(|(_, key)| key).collect();
    site(k, &keys)
}

/// The sets of none, one and two keys, in an order of their own.
pub fn up_to_two(k: u8, number: usize) -> Site {
    let all = canonical_kmers(k);
    let pairs = (0..all.len()).flat_map(|low| (low..all.len()).map(move |high| (low, high)));
    match number.checked_sub(1).and_then(|pair| pairs.into_iter().nth(pair)) {
        None => site(k, &[]),
        Some((low, high)) if low == high => site(k, &[all[low]]),
        Some((low, high)) => site(k, &[all[low], all[high]]),
    }
}

/// Each canonical k-mer a key by one chance.
pub fn dense(rng: &mut Rng, k: u8) -> Site {
    let chance = rng.within(3, 97);
    let keys: Vec<u64> = canonical_kmers(k).into_iter().filter(|_| rng.percent(chance)).collect();
    site(k, &keys)
}

fn kmers(k: u8, genome: &[u8]) -> impl Iterator<Item = u64> + '_ {
    genome.windows(k as usize).map(|window| window.iter().fold(0, |kmer, byte| kmer << 2 | nuc2bit(*byte)))
}

pub fn of_genomes<'a>(k: u8, genomes: impl IntoIterator<Item = &'a [u8]>) -> Site {
    site(k, &set_file::keys_of(k, genomes.into_iter().flat_map(|genome| kmers(k, genome))))
}

/// A random genome, now and then with a second one that differs in places, with k-mers of noisy reads, or with keys missing.
pub fn genome(rng: &mut Rng, k: u8) -> (Site, Vec<u8>) {
    let length = if rng.percent(5) { rng.within(2000, 5000) } else { rng.within(k as usize + 10, 700) };
    let genome = reads::letters(rng, length);
    let mut seen: Vec<u64> = kmers(k, &genome).collect();
    if rng.percent(25) {
        let mut other = genome.clone();
        reads::substitute(rng, &mut other, 40);
        seen.extend(kmers(k, &other));
    }
    if rng.percent(20) {
        let read = reads::noisy(rng, &genome, 200);
        seen.extend(kmers(k, &read));
    }
    if rng.percent(20) {
        let missing = rng.within(1, 8);
        seen.retain(|_| !rng.percent(missing));
    }
    (site(k, &set_file::keys_of(k, seen)), genome)
}

/// A short unit again and again, a tail that leads into a circle, or few letters.
pub fn periodic(rng: &mut Rng, k: u8) -> (Site, Vec<u8>) {
    let k_long = k as usize;
    let mut genome = match rng.below(4) {
        0 => {
            let period = rng.within(1, 2 * k_long + 3);
            let unit = reads::letters(rng, period);
            unit.iter().cycle().take(rng.within(k_long + 2, 6 * k_long + 40)).copied().collect()
        }
        1 => {
            let (tail, circle) = (rng.within(k_long, 4 * k_long + 20), rng.within(1, 4 * k_long + 20));
            let mut genome = reads::letters(rng, tail);
            let circle = reads::letters(rng, circle);
            genome.extend(circle.iter().cycle().take(2 * circle.len() + k_long));
            genome
        }
        2 => {
            let pair = [rng.letter(), rng.letter()];
            (0..rng.within(k_long + 2, 5 * k_long + 60)).map(|_| *rng.pick(&pair)).collect()
        }
        _ => {
            let mut genome: Vec<u8> = Vec::new();
            while genome.len() < 3 * k_long + 30 {
                let run = rng.within(1, 2 * k_long);
                let letter = rng.letter();
                genome.extend(std::iter::repeat_n(letter, run));
            }
            genome
        }
    };
    let solid = genome.clone();
    if rng.percent(50) {
        // Reads leave the solid path for letters of their own.
        let own = rng.within(1, k_long + 10);
        let own = reads::letters(rng, own);
        genome.extend(own);
    }
    if rng.percent(30) {
        let again = rng.below(solid.len());
        genome.extend_from_slice(&solid[again..]);
    }
    (of_genomes(k, [solid.as_slice()]), genome)
}
