//! Document 02, "Make the set file", written from the documents alone.
use super::letters::{canonical, Kmer};
use super::set::{Refusal, MOST_KEYS};
use crate::set_file;

/// The k-mer, as its letters, and the count of a line with the form: k letters from A, C, G, T, a comma, and a count of 1 to 10 digits, ended
/// by byte 10.
fn parse(line: &[u8], k: u64) -> Option<(&[u8], u64)> {
    let line = line.strip_suffix(b"\n")?;
    let comma = line.iter().position(|byte| *byte == b',')?;
    let (letters, digits) = (&line[..comma], &line[comma + 1..]);
    let right = letters.len() as u64 == k && letters.iter().all(|byte| b"ACGT".contains(byte));
    let counted = (1..=10).contains(&digits.len()) && digits.iter().all(u8::is_ascii_digit);
    let count = std::str::from_utf8(digits).ok()?.parse().ok()?;
    (right && counted).then_some((letters, count))
}

/// A line that is not passed over: its canonical code and its count.
pub struct Kept {
    pub key: u64,
    pub count: u64,
}

/// The lines of a text that are not passed over. 9 for k before any line; then, line by line, 12 and after it 13; 9 for too many keys after the
/// last line.
pub fn kept(text: &[u8], k: u64, least: u64) -> Result<Vec<Kept>, Refusal> {
    if k % 2 == 0 || k > 31 {
        return Err(Refusal::new(9, 0));
    }
    let mut kept: Vec<Kept> = Vec::new();
    for (place, line) in text.split_inclusive(|byte| *byte == b'\n').enumerate() {
        let (letters, count) = parse(line, k).ok_or(Refusal::new(12, place))?;
        if count < least {
            continue;
        }
        let code = Kmer::of(k as usize, letters).code().expect("letters from A, C, G, T");
        let key = canonical(k as usize, code);
        if kept.last().is_some_and(|last| key <= last.key) {
            return Err(Refusal::new(13, place));
        }
        kept.push(Kept { key, count });
    }
    if kept.len() as u64 > MOST_KEYS {
        return Err(Refusal::new(9, 0));
    }
    Ok(kept)
}

/// The lengths of a maker's two buffers, in bytes and in counts.
#[derive(Clone, Copy, Debug, PartialEq, Eq)]
pub struct Room {
    pub blocks: usize,
    pub counts: usize,
}

/// What a maker writes into them.
#[derive(Debug, PartialEq, Eq)]
pub struct Made {
    pub keys: Vec<u64>,
    pub blocks: Vec<u8>,
    pub counts: Vec<u32>,
}

/// The blocks and one count for each kept key, larger counts held at 4,294,967,295 (document 02, W8); 14 when a buffer is too short for its
/// part, checked last.
pub fn make_set(text: &[u8], k: u64, least: u64, room: Room) -> Result<Made, Refusal> {
    let kept = kept(text, k, least)?;
    let keys: Vec<u64> = kept.iter().map(|line| line.key).collect();
    let counts: Vec<u32> = kept.iter().map(|line| line.count.min(4_294_967_295) as u32).collect();
    let blocks = set_file::make(k, &keys);
    if room.blocks < blocks.len() || room.counts < counts.len() {
        return Err(Refusal::new(14, 0));
    }
    Ok(Made { keys, blocks, counts })
}
