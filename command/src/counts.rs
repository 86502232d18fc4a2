//! K-mer counts as other programs print them, and as the library's maker of sets wants them.
use crate::error::{failed, Result};
use crate::input::Source;
use rayon::slice::ParallelSliceMut;

/// The maker takes ten digits.
pub const MOST: u64 = 9_999_999_999;

/// A k-mer's canonical code and its count.
pub type Counted = (u64, u64);

/// The code of a k-mer, first letter highest: A, C, T, G are 0, 1, 2, 3. None where a byte is another letter.
fn code(kmer: &[u8]) -> Option<u64> {
    kmer.iter().try_fold(0, |code, letter| match letter {
        b'A' | b'C' | b'G' | b'T' | b'a' | b'c' | b'g' | b't' => Some(code << 2 | u64::from(letter / 2 % 4)),
        _ => None,
    })
}

/// Of a code and that of the reverse complement, the one with an even count of one bits. k is odd, so that just one has.
fn canonical(code: u64, k: usize) -> u64 {
    if code.count_ones() % 2 == 0 {
        return code;
    }
    let (mut left, mut reverse) = (code, 0);
    for _ in 0..k {
        reverse = reverse << 2 | left & 3 ^ 2;
        left >>= 2;
    }
    reverse
}

/// A count, held at the most that the maker takes.
fn count(digits: &[u8]) -> Option<u64> {
    match digits {
        [] => None,
        _ => digits.iter().try_fold(0_u64, |sum, digit| digit.is_ascii_digit().then(|| (sum * 10 + u64::from(digit - b'0')).min(MOST))),
    }
}

/// A line of a k-mer, then a space, a tab or a comma, then its count.
fn pair(line: &[u8]) -> Option<(&[u8], &[u8])> {
    let end = line.iter().position(|byte| matches!(byte, b' ' | b'\t' | b','))?;
    Some((&line[..end], &line[end + 1..]))
}

/// Reads all counts: `>count` and the k-mer on the next line (jellyfish dump), or a line of both (jellyfish dump -c, KMC, or with a comma).
pub fn read(source: &mut Source, k: usize) -> Result<Vec<Counted>> {
    let (mut all, mut line, mut kmer) = (Vec::new(), Vec::new(), Vec::new());
    loop {
        line.clear();
        if !source.line(&mut line)? {
            return Ok(all);
        }
        let (letters, digits) = match line.first() {
            None => continue,
            Some(b'>') => {
                kmer.clear();
                if !source.line(&mut kmer)? {
                    return bad(source, "the file ends behind a count, without its k-mer: it is cut");
                }
                (kmer.as_slice(), &line[1..])
            }
            Some(_) => match pair(&line) {
                Some(pair) => pair,
                None => return bad(source, "neither a k-mer and its count (KMER COUNT, KMER<tab>COUNT, KMER,COUNT) nor '>COUNT'"),
            },
        };
        let Some(code) = code(letters) else { return bad(source, "the k-mer has other letters than A, C, G, T") };
        if letters.len() != k {
            return bad(source, &format!("the k-mer has {} letters, --k says {k}", letters.len()));
        }
        let Some(count) = count(digits) else { return bad(source, "the count is no whole number") };
        all.push((canonical(code, k), count));
    }
}

fn bad<T>(source: &Source, what: &str) -> Result<T> {
    failed(format!("{}: line {}: {what}", source.name, source.lines))
}

/// Sorts by code and adds the counts of equal ones.
pub fn sorted(mut all: Vec<Counted>) -> Vec<Counted> {
    all.par_sort_unstable_by_key(|(code, _)| *code);
    all.dedup_by(|next, before| {
        let same = next.0 == before.0;
        if same {
            before.1 = (before.1 + next.1).min(MOST);
        }
        same
    });
    all
}

/// The text that the maker takes: a line of letters, comma and count for each.
pub fn text(counted: &[Counted], k: usize) -> Vec<u8> {
    let mut text = Vec::with_capacity(counted.len() * (k + 6));
    for (code, count) in counted {
        text.extend((0..k).rev().map(|place| b"ACTG"[(code >> (2 * place) & 3) as usize]));
        text.push(b',');
        text.extend_from_slice(count.to_string().as_bytes());
        text.push(b'\n');
    }
    text
}

#[cfg(test)]
mod tests {
    use super::*;

    #[test]
    fn canonical_codes() {
        for (kmer, key) in [("ACT", 6), ("CCG", 23), ("CTC", 51), ("AAC", 58), ("TCC", 60), ("GGA", 60), ("GTT", 58)] {
            assert_eq!(canonical(code(kmer.as_bytes()).unwrap(), 3), key, "{kmer}");
        }
        assert_eq!(text(&[(6, 9), (58, 12)], 3), b"ACT,9\nGTT,12\n");
    }

    #[test]
    fn counts_are_held() {
        assert_eq!(count(b"0099"), Some(99));
        assert_eq!(count(b"99999999999999999999999999"), Some(MOST));
        assert_eq!(count(b""), None);
        assert_eq!(count(b"1x"), None);
        assert_eq!(sorted(vec![(7, 9_999_999_998), (3, 1), (7, 5), (3, 2)]), [(3, 3), (7, MOST)]);
    }
}
