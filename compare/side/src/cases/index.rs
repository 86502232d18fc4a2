//! Indexes that are offered with a set: its own, that one damaged, and others.
use super::make::codes;
use super::{any_entries, any_entry, batch_of, damage, job, reads, room, sets, Visit};
use crate::check::Site;
use crate::referee::calls::{Call, Job};
use crate::referee::index::{blocks_of, entries};
use crate::referee::set::MOST_KEYS;
use crate::rng::Rng;
use crate::set_file::{self, BLOCK, WORDS};

/// Bits of an index that are turned at most.
const MOST_BITS: usize = 8192;

/// A unit number that no other kind has.
const UNIT: u64 = 1 << 41;
/// Keys of the sets of which indexes are made, and how many sets there are.
const NUMBERS: [usize; 8] = [0, 1, 2, 62, 63, 64, 127, 5000];
const SETS: u64 = 16 * 8 * 12;

/// A word of a block, its check word being the last.
fn turn_word(rng: &mut Rng, index: &mut [u8], block: usize, word: usize) {
    let at = block * BLOCK + 8 * word + rng.below(8);
    index[at] ^= 1 << rng.below(8);
}

/// The entries as words of whole blocks.
fn words_of(site: &Site) -> Vec<u64> {
    let mut words = site.opened.as_ref().map_or(Vec::new(), |set| entries(set.k, &set.keys));
    words.resize(words.len().div_ceil(WORDS) * WORDS, 0);
    words
}

/// The set's own index with one byte off: in an entry, in a spare word, in a check word.
fn byte_off(rng: &mut Rng, site: &Site) -> Vec<Vec<u8>> {
    let blocks = site.index().len() / BLOCK;
    let (any, last) = (rng.below(blocks), blocks - 1);
    // The last block has entries in front and spare words behind.
    let entry = if any == last { 0 } else { rng.below(WORDS) };
    let places = [(any, entry), (last, WORDS - 1), (any, WORDS), (last, WORDS)];
    places
        .map(|(block, word)| {
            let mut index = site.index().to_vec();
            turn_word(rng, &mut index, block, word);
            index
        })
        .to_vec()
}

/// The words of an index that are not the set's, with check words that are right: an entry off, those of other rules, a spare word not zero.
pub fn words_off(rng: &mut Rng, site: &Site) -> Vec<Vec<u8>> {
    let words = words_of(site);
    let Ok(set) = &site.opened else { return Vec::new() };
    let (n, last) = (set.keys.len() as u64, entries(set.k, &set.keys).len() - 1);
    let mut all = Vec::new();
    let mut with = |place: usize, word: u64| {
        let mut off = words.clone();
        off[place] = word;
        all.push(blocks_of(off));
    };
    for place in [0, rng.within(1, last), last] {
        for word in [words[place] + 1, words[place].wrapping_sub(1), n + 1, words[place] | 1 << 32, words[place] | 1 << 63, rng.word()] {
            with(place, word);
        }
    }
    with(last + 1, 1);
    with(words.len() - 1, n);
    // Keys up to v and v itself; all entries one more.
    all.push(blocks_of(words[1..=last].iter().chain([&n]).copied().collect()));
    all.push(blocks_of(words[..=last].iter().map(|entry| entry + 1).collect()));
    // A block of zeros more, with its check word.
    all.push(blocks_of([&words[..], &[0; WORDS]].concat()));
    all
}

/// The bytes of the set's own index in another length, order or numbering.
fn bytes_off(rng: &mut Rng, site: &Site) -> Vec<Vec<u8>> {
    let index = site.index();
    let one = rng.below(index.len() / BLOCK);
    let mut exchanged = index.to_vec();
    let (first, rest) = exchanged.split_at_mut(BLOCK);
    if let Some(other) = rest.chunks_mut(BLOCK).nth(one) {
        first.swap_with_slice(other);
    }
    // As if blocks were numbered from 1.
    let numbered: Vec<u8> = set_file::seal(&[&[0; WORDS], &words_of(site)[..]].concat()).split_off(BLOCK);
    vec![
        index[..index.len() - 1].to_vec(),
        index[..index.len() - BLOCK].to_vec(),
        index[..1].to_vec(),
        [index, &[0]].concat(),
        [index, &[0; BLOCK]].concat(),
        vec![0; index.len()],
        exchanged,
        numbered,
    ]
}

/// Indexes of other sets: a key less, another set of the same k, sets of other k; and bytes that are no index at all.
fn of_others(rng: &mut Rng, site: &Site) -> Vec<Vec<u8>> {
    let Ok(set) = &site.opened else { return Vec::new() };
    let mut others = vec![sets::genome(rng, set.k as u8).0];
    others.extend([1, 3, 5].map(|k| sets::dense(rng, k)));
    let k = sets::any_k(rng);
    others.push(sets::genome(rng, k).0);
    if !set.keys.is_empty() {
        others.extend(super::without(site, rng.below(set.keys.len()), 1));
    }
    let mut all: Vec<Vec<u8>> = others.iter().map(|other| other.index().to_vec()).collect();
    // By one letter fewer.
    all.push(blocks_of(entries(set.k, &set.keys).into_iter().step_by(4).collect()));
    all.push(site.bytes.clone());
    all.push((0..site.index().len()).map(|_| rng.byte()).collect());
    all
}

/// Every index that is offered with a set: first its own and none.
pub fn all(rng: &mut Rng, site: &Site) -> Vec<Vec<u8>> {
    let mut all = vec![site.index().to_vec(), Vec::new()];
    all.extend(byte_off(rng, site));
    all.extend(words_off(rng, site));
    all.extend(bytes_off(rng, site));
    all.extend(of_others(rng, site));
    all
}

/// A set of any kind, and its genome if it has one.
pub fn any_site(rng: &mut Rng) -> (Site, Vec<u8>) {
    let k = if rng.percent(30) { *rng.pick(&[1, 3, 5]) } else { sets::any_k(rng) };
    match rng.below(4) {
        0 => (sets::dense(rng, k.min(5)), reads::letters(rng, 60)),
        1 => sets::periodic(rng, k),
        2 => {
            let few = rng.below(3);
            let keys: Vec<u64> = (0..few).map(|_| rng.word() & ((1 << (2 * k)) - 1)).collect();
            (Site::new(set_file::make(k as u64, &set_file::keys_of(k, keys))), reads::letters(rng, 60))
        }
        _ => sets::genome(rng, k),
    }
}

pub fn any_job(rng: &mut Rng, genome: &[u8]) -> Job {
    let count = *rng.pick(&[0, 1, 1, 2]);
    let entries = any_entries(rng, count, 4);
    let lines: Vec<_> = (0..rng.below(3)).map(|_| reads::noisy(rng, genome, 80)).collect();
    match rng.below(2) {
        0 => job(Call::Read, &entries, &reads::noisy(rng, genome, 80)),
        _ => job(Call::Batch, &entries, &batch_of(&lines)),
    }
}

/// Each index with a call that is accepted, one whose output may be too short (15 comes before 11), and one whose input may be refused; then
/// with the set damaged, which is told first.
pub fn offered(rng: &mut Rng, visit: &mut Visit) {
    let (site, genome) = any_site(rng);
    let all = all(rng, &site);
    for index in &all {
        let offered = |job: &Job| Job { index: index.clone(), ..job.clone() };
        let accepted = any_job(rng, &genome);
        visit(&site, Some(&offered(&accepted)));
        room(&site, &accepted, rng, &mut |site, job| visit(site, job.map(offered).as_ref()));
        damage::input(rng, &genome, false, &mut |job| visit(&site, Some(&offered(job))));
    }
    let other = Site::new(damage::set(rng));
    let mut turned = site.bytes.clone();
    turned[rng.below(site.bytes.len())] ^= 1 << rng.below(8);
    for site in [other, Site::new(turned), Site::new(Vec::new())] {
        for index in [&all[0], rng.pick(&all)] {
            let any = any_job(rng, &genome);
            visit(&site, Some(&Job { index: index.clone(), ..any }));
        }
    }
}

/// The sets of which indexes are made, each with the lengths of a buffer: exactly right, a byte short, longer, none.
pub fn made(seed: u64, rounds: u64, visit: &mut dyn FnMut(&Site, usize)) {
    for number in 0..SETS * rounds {
        let rng = &mut Rng::of_unit(seed, UNIT | number);
        let (k, n) = (2 * (number % 16) as usize + 1, NUMBERS[number as usize / 16 % NUMBERS.len()]);
        let site = match number / 16 / NUMBERS.len() as u64 % 3 {
            0 => Site::new(set_file::make(k as u64, &codes(rng, k, n))),
            1 => any_site(rng).0,
            _ => Site::new(damage::set(rng)),
        };
        rooms(&site, visit);
    }
    let most = (0..).filter(|code: &u64| code.count_ones() % 2 == 0).take(MOST_KEYS as usize).collect::<Vec<_>>();
    rooms(&Site::new(set_file::make(13, &most)), visit);
}

fn rooms(site: &Site, visit: &mut dyn FnMut(&Site, usize)) {
    let length = site.index().len();
    for room in [length, length - 1, length + 77, length + BLOCK, 0] {
        visit(site, room);
    }
}

/// Bits of the index of a small set turned, of the bytes and of the words before the check words are put in: all of them where k is 1 or 3.
pub fn bits(rng: &mut Rng, k: u8, visit: &mut Visit) {
    let keys = set_file::keys_of(k, (0..40).map(|_| rng.word() & ((1 << (2 * k)) - 1)));
    let site = Site::new(set_file::make(k as u64, &keys));
    let (words, job) = (words_of(&site), job(Call::Read, &any_entry(rng), b"ACGTACGT"));
    let bits = 8 * site.index().len();
    let apart = bits.div_ceil(MOST_BITS);
    for bit in (rng.below(apart)..bits).step_by(apart) {
        let mut index = site.index().to_vec();
        index[bit / 8] ^= 1 << (bit % 8);
        visit(&site, Some(&Job { index, ..job.clone() }));
    }
    for bit in (rng.below(apart)..64 * words.len()).step_by(apart) {
        let mut turned = words.clone();
        turned[bit / 64] ^= 1 << (bit % 64);
        visit(&site, Some(&Job { index: blocks_of(turned), ..job.clone() }));
    }
}
