//! Makes a set file from k-mer counts in any order: `make_set K LEAST [COUNTS] < counts > solid.set`, lines of k letters, a comma and a count.
//!
//! The library wants the lines in the order of their canonical codes and each code once. So they are sorted by that code here, and the counts of a
//! k-mer and its reverse complement are added. With a third word the list of the keys' counts is written to that file, 32 bits each, little-endian.
use std::collections::BTreeMap;
use std::error::Error;
use std::io::{Read, Write};

/// A count has ten digits at most.
const MOST: u64 = 9_999_999_999;

/// Of a k-mer's code and that of its reverse complement, the one that has an even count of one bits.
fn canonical(kmer: &str) -> u64 {
    let code = |base: u8| base as u64 / 2 % 4;
    let forward = kmer.bytes().fold(0, |sum: u64, base| sum << 2 | code(base));
    let reverse = kmer.bytes().rev().fold(0, |sum: u64, base| sum << 2 | code(base) ^ 2);
    if forward.count_ones() % 2 == 0 {
        forward
    } else {
        reverse
    }
}

fn main() -> Result<(), Box<dyn Error>> {
    let arguments: Vec<String> = std::env::args().skip(1).collect();
    let (k, least, counts_file) = match &arguments[..] {
        [k, least] => (k, least, None),
        [k, least, file] => (k, least, Some(file)),
        _ => return Err("usage: make_set K LEAST [COUNTS] < counts > solid.set".into()),
    };
    let mut lines = String::new();
    std::io::stdin().read_to_string(&mut lines)?;
    let mut sorted: BTreeMap<u64, (&str, u64)> = BTreeMap::new();
    for line in lines.lines() {
        let (kmer, count) = line.split_once(',').ok_or("a line without a comma")?;
        let entry = sorted.entry(canonical(kmer)).or_insert((kmer, 0));
        entry.1 = entry.1.saturating_add(count.parse()?).min(MOST);
    }
    let text: String = sorted.values().map(|(kmer, count)| format!("{kmer},{count}\n")).collect();
    let (mut blocks, mut counts) = (vec![0; corrector::set_length(sorted.len())], vec![0; sorted.len()]);
    let length = corrector::make_set(text.as_bytes(), k.parse()?, least.parse()?, &mut blocks, &mut counts)?;
    std::io::stdout().write_all(&blocks[..length])?;
    if let Some(file) = counts_file {
        let n = corrector::open(&blocks[..length])?.n;
        std::fs::write(file, counts[..n].iter().flat_map(|count| count.to_le_bytes()).collect::<Vec<u8>>())?;
    }
    Ok(())
}
