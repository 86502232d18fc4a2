//! Sets and lists of counts made from k-mer counts as text: document 02, W3 and W8.
mod common;

use common::{canonical, sample_set, set_of, Rng};
use corrector::{make_set, open, set_length, Refusal, Set};

const FILL: u8 = 170;
const COUNT: u32 = 0xaaaa_aaaa;
const SAMPLE: &[u8] = b"ACT,9\nCCG,4\nCTC,7\nAAC,5\nTCC,8\n";

/// A call on buffers that were filled before it.
fn made(text: &[u8], k: u64, least: u64, room: usize, count_room: usize) -> (Result<usize, Refusal>, Vec<u8>, Vec<u32>) {
    let (mut blocks, mut counts) = (vec![FILL; room], vec![COUNT; count_room]);
    (make_set(text, k, least, &mut blocks, &mut counts), blocks, counts)
}

/// Into buffers that just fit, and into longer ones; not into either one too short.
#[track_caller]
fn makes(text: &[u8], k: u64, least: u64, set: &[u8], counts: &[u32]) {
    let (room, n) = (set.len(), counts.len());
    assert_eq!(made(text, k, least, room, n), (Ok(room), set.to_vec(), counts.to_vec()));
    assert_eq!(made(text, k, least, room + 700, n + 70), (Ok(room), [set, &[0; 700]].concat(), [counts, &[0; 70]].concat()));
    assert_eq!(made(text, k, least, room - 1, n + 1), (Err(Refusal::TooShort), vec![FILL; room - 1], vec![COUNT; n + 1]));
    if n > 0 {
        assert_eq!(made(text, k, least, room + 1, n - 1), (Err(Refusal::TooShort), vec![FILL; room + 1], vec![COUNT; n - 1]));
        assert_eq!(made(text, k, least, room, 0), (Err(Refusal::TooShort), vec![FILL; room], vec![]));
    }
}

/// Refused, whatever room there is, with the buffers as they were.
#[track_caller]
fn refused(text: &[u8], k: u64, least: u64, refusal: Refusal, number: u8, place: usize) {
    assert_eq!((refusal.number(), refusal.place()), (number, place));
    for (room, count_room) in [(0, 0), (511, 9), (2048, 0), (2048, 9)] {
        assert_eq!(made(text, k, least, room, count_room), (Err(refusal), vec![FILL; room], vec![COUNT; count_room]));
    }
}

#[test]
fn the_sample_set() {
    makes(SAMPLE, 3, 1, &sample_set(), &[9, 4, 7, 5, 8]);
    makes(SAMPLE, 3, 5, &set_of(3, &[6, 51, 58, 60]), &[9, 7, 5, 8]);
    makes(SAMPLE, 3, 10, &set_of(3, &[]), &[]);
    makes(SAMPLE, 3, u64::MAX, &set_of(3, &[]), &[]);
    makes(b"", 31, 0, &set_of(31, &[]), &[]);
    makes(b"AGT,0000000017\nCCG,0\n", 3, 0, &set_of(3, &[6, 23]), &[17, 0]);
    makes(b"CCG,9\nACT,4\nAAC,9\n", 3, 5, &set_of(3, &[23, 58]), &[9, 9]);
}

#[test]
fn counts_are_held_at_the_largest() {
    let text = b"ACT,4294967294\nCCG,4294967295\nCTC,4294967296\nAAC,9999999999\n";
    makes(text, 3, 0, &set_of(3, &[6, 23, 51, 58]), &[u32::MAX - 1, u32::MAX, u32::MAX, u32::MAX]);
    makes(text, 3, 1 << 32, &set_of(3, &[51, 58]), &[u32::MAX, u32::MAX]);
    makes(text, 3, 9_999_999_999, &set_of(3, &[58]), &[u32::MAX]);
}

#[test]
fn refusals() {
    for k in [0, 2, 33, 1 << 32 | 3, u64::MAX] {
        refused(b"A", k, 1, Refusal::SetHeader, 9, 0);
    }
    let broken = ["A", "\n", "ACT9\n", "ACT,\n", "ACT,00000000009\n", "act,9\n", "ACN,9\n", "ACU,9\n", "ACTG,9\n", "AC,9\n", "ACT,9\r\n", "ACT,99"];
    for line in broken {
        refused(line.as_bytes(), 3, 1, Refusal::Line { line: 0 }, 12, 0);
        refused(format!("AAA,1\n{line}").as_bytes(), 3, 1, Refusal::Line { line: 1 }, 12, 1);
    }
    refused(b"ACT,9\nCCg,1\n", 3, 5, Refusal::Line { line: 1 }, 12, 1);
    refused(b"CCG,9\nACT,9\nA\n", 3, 1, Refusal::NotRising { line: 1 }, 13, 1);
    refused(b"ACT,9\nAGT,9\n", 3, 1, Refusal::NotRising { line: 1 }, 13, 1);
    assert_eq!(Refusal::Line { line: 7 }.to_string(), "line 7 of the counts breaks the form");
}

/// As README.md says it: counts in any order, sorted by the canonical code.
#[test]
fn counts_are_sorted_by_canonical_code() {
    let genome = Rng(11).genome(3_000);
    let mut counts = std::collections::BTreeMap::new();
    for kmer in genome.windows(21) {
        counts.entry(canonical(kmer)).or_insert((kmer, 0)).1 += 1;
    }
    let text: Vec<u8> = counts.values().flat_map(|(kmer, count)| [kmer, format!(",{count}\n").as_bytes()].concat()).collect();
    let set = set_of(21, &counts.keys().copied().collect::<Vec<_>>());
    assert_eq!(set_length(counts.len()), set.len());
    makes(&text, 21, 1, &set, &counts.values().map(|(_, count)| *count).collect::<Vec<_>>());
    assert_eq!(open(&set), Ok(Set { k: 21, n: counts.len() }));
}
