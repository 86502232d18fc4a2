//! Indexes made from sets, and offered with them: document 02, W7.
mod common;

use common::{blocks_of, keys_of, sample_set, set_of, Rng};
use corrector::{correct_batch, correct_read, index_length, make_index, work_length, Job, Refusal, Report};

const FILL: u8 = 170;

/// A call on a buffer that was filled before it.
fn made(set: &[u8], room: usize) -> (Result<usize, Refusal>, Vec<u8>) {
    let mut blocks = vec![FILL; room];
    (make_index(set, &mut blocks), blocks)
}

/// The key's first m letters as a code, letter by letter.
fn first_code(k: usize, key: u64) -> u64 {
    (0..k.min(6)).fold(0, |code, letter| 4 * code + (key >> (2 * (k - 1 - letter))) % 4)
}

/// Entry v, by counting.
fn index_of(k: usize, keys: &[u64]) -> Vec<u8> {
    let codes: Vec<u64> = keys.iter().map(|key| first_code(k, *key)).collect();
    let entries: Vec<u64> = (0..=4_u64.pow(k.min(6) as u32)).map(|v| codes.iter().filter(|code| **code < v).count() as u64).collect();
    blocks_of(0, &entries)
}

#[track_caller]
fn makes(set: &[u8], index: &[u8]) {
    assert_eq!(made(set, index.len()), (Ok(index.len()), index.to_vec()));
    assert_eq!(made(set, index.len() + 700), (Ok(index.len()), [index, &[0; 700]].concat()));
    for room in [0, 511, index.len() - 1] {
        assert_eq!(made(set, room), (Err(Refusal::TooShort), vec![FILL; room]));
    }
}

/// Refused, whatever room there is, with the buffer as it was.
#[track_caller]
fn refused(set: &[u8], refusal: Refusal, number: u8, place: usize) {
    assert_eq!((refusal.number(), refusal.place()), (number, place));
    for room in [0, 512, 4096] {
        assert_eq!(made(set, room), (Err(refusal), vec![FILL; room]));
    }
}

#[test]
fn small_sets() {
    makes(&sample_set(), &index_of(3, &[6, 23, 51, 58, 60]));
    makes(&set_of(1, &[0, 3]), &index_of(1, &[0, 3]));
    makes(&set_of(5, &[3, 5, 6, 1023]), &index_of(5, &[3, 5, 6, 1023]));
    makes(&set_of(7, &[3, 5, 6, 9, 16383]), &index_of(7, &[3, 5, 6, 9, 16383]));
    for k in (1..=31).step_by(2) {
        let index = index_of(k, &[]);
        assert_eq!(index_length(k), index.len());
        makes(&set_of(k as u64, &[]), &index);
    }
}

/// Sets whose keys fill blocks exactly, one less, one more, and several, all with one prefix or with many.
#[test]
fn genomes() {
    for k in [3, 5, 7, 21, 31] {
        for length in [62, 63, 64, 126, 127, 3_000] {
            let genome = Rng(k as u64).genome(length + k - 1);
            let keys = keys_of(k, &genome);
            makes(&set_of(k as u64, &keys), &index_of(k, &keys));
        }
    }
    let keys: Vec<u64> = (0..200_u64).filter(|key| key.count_ones() % 2 == 0).collect();
    makes(&set_of(21, &keys), &index_of(21, &keys));
}

#[test]
fn refusals() {
    let set = sample_set();
    refused(&[], Refusal::SetLength, 7, 0);
    refused(&set[..1023], Refusal::SetLength, 7, 0);
    let damaged = [&set[..520], &[7], &set[521..]].concat();
    refused(&damaged, Refusal::SetCheck { block: 1 }, 8, 1);
    refused(&set_of(2, &[]), Refusal::SetHeader, 9, 0);
    refused(&set_of(3, &[6, 6]), Refusal::SetKey { word: 1 }, 10, 1);
}

type Done = (Result<Report, Refusal>, Vec<u8>, Vec<u8>);

/// A read and a batch of one line, each in buffers that were filled before it.
fn corrected(set: &[u8], index: Option<&[u8]>, job: &[u8], read: &[u8], room: usize) -> [Done; 2] {
    let line = [read, b"\n"].concat();
    let (mut output, mut work) = (vec![FILL; room], vec![FILL; work_length(room, line.len())]);
    let alone = correct_read(set, index, None, Job::from_bytes(job), read, &mut output, &mut work);
    let (mut lines, mut more) = (vec![FILL; room], vec![FILL; work_length(room, line.len())]);
    let batch = correct_batch(set, index, None, Job::from_bytes(job), &line, &mut lines, &mut more);
    [(alone, output, work), (batch, lines, more)]
}

/// Refused with 15 and no lent byte changed.
#[track_caller]
fn wrong(set: &[u8], index: &[u8]) {
    for (answer, output, work) in corrected(set, Some(index), &[3, 1], b"AACGCCG", 16) {
        assert_eq!(answer, Err(Refusal::Index));
        assert!(output.iter().chain(&work).all(|byte| *byte == FILL));
    }
    assert_eq!((Refusal::Index.number(), Refusal::Index.place()), (15, 0));
}

/// With the set's index a call answers, reports and leaves what it does without; an empty one is none.
#[test]
fn offered() {
    let genome = Rng(7).genome(3_000);
    let read: Vec<u8> = genome[100..400].iter().enumerate().map(|(i, base)| if i % 40 == 30 { b'A' } else { *base }).collect();
    for k in [1, 3, 5, 7, 21, 31] {
        let keys = keys_of(k, &genome);
        let (set, index) = (set_of(k as u64, &keys), index_of(k, &keys));
        for job in [&[1_u8, 3][..], &[2, 2], &[3, 1], &[4, 2], &[2, 7, 1, 3], &[]] {
            let plain = corrected(&set, None, job, &read, 600);
            assert!(plain[0].0.is_ok());
            assert_eq!(corrected(&set, Some(&index), job, &read, 600), plain);
            assert_eq!(corrected(&set, Some(&[]), job, &read, 600), plain);
        }
        assert_eq!(corrected(&set, Some(&index), &[1, 3], &read, 200), corrected(&set, None, &[1, 3], &read, 200));
    }
}

#[test]
fn not_the_index() {
    let set = sample_set();
    let index = index_of(3, &[6, 23, 51, 58, 60]);
    wrong(&set, &index[..index.len() - 1]);
    wrong(&set, &[&index[..], &[0]].concat());
    wrong(&set, &[&index[..], &blocks_of(index.len() / 512, &[0])].concat());
    wrong(&set, &index_of(3, &[6, 23, 51, 58]));
    wrong(&set, &index_of(5, &[6, 23, 51, 58, 60]));
    for at in 0..index.len() {
        let damaged = [&index[..at], &[index[at] ^ 1], &index[at + 1..]].concat();
        wrong(&set, &damaged);
    }
}

/// 15 behind 10 and before 11.
#[test]
fn order() {
    let index = index_of(3, &[6, 23, 51, 58, 60]);
    let refused = |set: &[u8], room: usize| corrected(set, Some(&index[1..]), &[1, 1], b"AACC", room).map(|done| done.0);
    assert_eq!(refused(&set_of(3, &[6, 6]), 16), [Err(Refusal::SetKey { word: 1 }); 2]);
    assert_eq!(refused(&sample_set(), 4), [Err(Refusal::Index); 2]);
    assert_eq!(corrected(&sample_set(), Some(&index), &[1, 1], b"AACC", 4).map(|done| done.0), [Err(Refusal::NoRoom { line: 0 }); 2]);
}
