//! Texts of k-mer counts: right ones of every number of keys about a block's 63, damaged at the first, a middle and the last line, random ones,
//! all short ones, and those at the limit of keys.
use crate::referee::letters::{canonical, letter, mask, reverse_complement};
use crate::referee::make::{make_set, Room};
use crate::referee::set::MOST_KEYS;
use crate::rng::Rng;
use crate::set_file;

pub struct Case {
    pub text: Vec<u8>,
    pub k: u64,
    pub least: u64,
    pub room: Room,
}

/// A unit number that no other kind has.
const UNIT: u64 = 1 << 40;
const NUMBERS: [usize; 9] = [0, 1, 2, 62, 63, 64, 125, 126, 127];
const TEXTS: u64 = 20_000;

pub fn each(seed: u64, rounds: u64, visit: &mut dyn FnMut(Case)) {
    for number in 0..TEXTS * rounds {
        let rng = &mut Rng::of_unit(seed, UNIT | number);
        match number % 4 {
            0 | 1 => rooms(right(rng, NUMBERS[number as usize / 4 % NUMBERS.len()]), visit),
            2 => damaged(rng, visit),
            _ => rooms(random(rng), visit),
        }
    }
    all_short(visit);
    limits(visit);
}

const ANY_ROOM: Room = Room { blocks: usize::MAX, counts: usize::MAX };

/// A text in blocks that fit exactly, one byte shorter, longer, and none at all, with counts that fit exactly; and in blocks that fit or are
/// longer, with counts one shorter, longer, and none.
fn rooms((text, k, least): (Vec<u8>, u64, u64), visit: &mut dyn FnMut(Case)) {
    let made = make_set(&text, k, least, ANY_ROOM);
    let (blocks, counts) = made.map_or((512, 1), |made| (made.blocks.len(), made.counts.len()));
    let short = counts.saturating_sub(1);
    for (blocks, counts) in [
        (blocks, counts),
        (blocks - 1, counts),
        (blocks + 77, counts),
        (0, counts),
        (blocks, short),
        (blocks, counts + 1),
        (blocks, counts + 77),
        (blocks, 0),
        (blocks + 77, short),
        (blocks - 1, short),
    ] {
        visit(Case { text: text.clone(), k, least, room: Room { blocks, counts } });
    }
}

fn any_k(rng: &mut Rng) -> u64 {
    1 + 2 * rng.below(16) as u64
}

fn letters(k: usize, code: u64) -> Vec<u8> {
    (0..k).rev().map(|place| letter(code >> (2 * place) & 3)).collect()
}

/// So many canonical codes, rising; fewer where k has not so many.
pub fn codes(rng: &mut Rng, k: usize, number: usize) -> Vec<u64> {
    let most = ((mask(k) as u128 + 1) / 2).min(number as u128) as usize;
    let mut codes = std::collections::BTreeSet::new();
    while codes.len() < most {
        codes.insert(canonical(k, rng.word() & mask(k)));
    }
    codes.into_iter().collect()
}

/// A count of 1 to 10 digits, leading zeros among them, some about the largest that a list holds.
fn count(rng: &mut Rng, from: u64) -> String {
    let value = match rng.below(4) {
        0 => from,
        1 => from + rng.below(9) as u64,
        2 => *rng.pick(&[4_294_967_294, 4_294_967_295, 4_294_967_296, 8_589_934_591, 9_999_999_999]),
        _ => from + rng.below(9_000_000_000) as u64,
    };
    let width = rng.within(1, 10);
    format!("{value:0width$}")
}

fn line(rng: &mut Rng, k: usize, code: u64, count: &str) -> Vec<u8> {
    let code = if rng.percent(50) { code } else { reverse_complement(k, code) };
    [&letters(k, code)[..], b",", count.as_bytes(), b"\n"].concat()
}

/// Lines of rising codes, and between them lines that are passed over, in any order.
fn right_lines(rng: &mut Rng, k: usize, number: usize) -> (Vec<Vec<u8>>, u64) {
    let least = *rng.pick(&[0, 1, 2, 10, 1_000]);
    let mut lines = Vec::new();
    for code in codes(rng, k, number) {
        while least > 0 && rng.percent(20) {
            let (code, below) = (rng.word() & mask(k), rng.below(least as usize).to_string());
            lines.push(line(rng, k, code, &below));
        }
        let count = count(rng, least);
        lines.push(line(rng, k, code, &count));
    }
    (lines, least)
}

fn right(rng: &mut Rng, number: usize) -> (Vec<u8>, u64, u64) {
    let k = any_k(rng);
    let (lines, least) = right_lines(rng, k as usize, number);
    let least = if rng.percent(5) { u64::MAX } else { least };
    (lines.concat(), k, least)
}

/// A text with one or two lines changed, at the first, a middle or the last line.
fn damaged(rng: &mut Rng, visit: &mut dyn FnMut(Case)) {
    let k = any_k(rng);
    let number = rng.within(1, 80);
    let (mut lines, least) = right_lines(rng, k as usize, number);
    for _ in 0..rng.within(1, 2) {
        let place = *rng.pick(&[0, lines.len() / 2, lines.len() - 1]);
        damage(rng, &mut lines, place, k as usize);
    }
    let mut text = lines.concat();
    if rng.percent(10) {
        text.pop();
    }
    let k = if rng.percent(5) { *rng.pick(&[0, 2, 32, 33, 1 << 32 | k, u64::MAX]) } else { k };
    rooms((text, k, least), visit);
}

fn damage(rng: &mut Rng, lines: &mut Vec<Vec<u8>>, place: usize, k: usize) {
    let last = lines.len() - 1;
    let line = &mut lines[place];
    if line.len() < k + 3 {
        return;
    }
    match rng.below(14) {
        0 => line[rng.below(k)] |= 32,
        1 => line[rng.below(k)] = *rng.pick(b"NUBZ,\r0"),
        2 => drop(line.remove(rng.below(k))),
        3 => line.insert(rng.below(k), rng.letter()),
        4 => line[k] = *rng.pick(b".;\t "),
        5 => drop(line.drain(k + 1..line.len() - 1)),
        6 => drop(line.splice(k + 1..k + 1, *b"00000000000")),
        7 => line.clear(),
        8 => *line = b"\n".to_vec(),
        9 => line.insert(line.len() - 1, b'\r'),
        10 => drop(line.pop()),
        // Equal codes, by the reverse complement too.
        11 => {
            let turned = reverse_complement(k, cocktail::kmer::seq2bit(&line[..k]));
            let again = [&letters(k, turned)[..], &line[k..]].concat();
            lines.insert(place + 1, again);
        }
        12 => lines.swap(place, last - place),
        _ => {
            let at = rng.below(line.len());
            line[at] = rng.byte();
        }
    }
}

/// Bytes of a line's alphabet, for small k.
fn random(rng: &mut Rng) -> (Vec<u8>, u64, u64) {
    let k = *rng.pick(&[1, 1, 1, 3]);
    let mut text = Vec::new();
    for _ in 0..rng.below(6) {
        let code = rng.word() & mask(k as usize);
        let count = count(rng, 0);
        text.extend(line(rng, k as usize, code, &count));
    }
    for _ in 0..rng.below(4) {
        let at = rng.below(text.len() + 1);
        text.insert(at, *rng.pick(b"ACGT,,0123456789\n\n"));
    }
    (text, k, rng.below(20) as u64)
}

/// Every text of up to eight bytes over a small alphabet, at k = 1.
fn all_short(visit: &mut dyn FnMut(Case)) {
    const BYTES: &[u8] = b"AC,1\n";
    for length in 0..=8u32 {
        for number in 0..BYTES.len().pow(length) {
            let text = (0..length).map(|place| BYTES[number / BYTES.len().pow(place) % BYTES.len()]).collect();
            visit(Case { text, k: 1, least: 1, room: Room { blocks: 1024, counts: 2 } });
        }
    }
}

/// A million lines that are passed over; as many keys as a set may have, and one more.
fn limits(visit: &mut dyn FnMut(Case)) {
    let none = Room { blocks: 512, counts: 0 };
    visit(Case { text: b"A,1\n".repeat(1_000_000), k: 1, least: 2, room: none });
    visit(Case { text: [&b"A,1\n".repeat(1_000_000)[..], b"A,2"].concat(), k: 1, least: 2, room: none });
    const K: usize = 13;
    let mut text = Vec::with_capacity((MOST_KEYS as usize + 1) * (K + 3));
    let mut codes = (0..=mask(K)).filter(|code| code.count_ones() % 2 == 0);
    for code in codes.by_ref().take(MOST_KEYS as usize) {
        text.extend(letters(K, code));
        text.extend(b",1\n");
    }
    let most = MOST_KEYS as usize;
    let room = Room { blocks: set_file::BLOCK * (1 + most.div_ceil(set_file::WORDS)), counts: most };
    visit(Case { text: text.clone(), k: K as u64, least: 1, room });
    visit(Case { text: text.clone(), k: K as u64, least: 1, room: Room { counts: most - 1, ..room } });
    text.extend([&letters(K, codes.next().expect("half of the codes are canonical"))[..], b",1\n"].concat());
    visit(Case { text, k: K as u64, least: 1, room });
}
