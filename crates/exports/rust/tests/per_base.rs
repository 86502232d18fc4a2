//! Lookups for each base: quotient, remainder, and the sum of W by which they are divided.
mod common;

use common::{keys_of, sample_set, set_of, Rng};
use corrector::{correct_batch, correct_read, work_length, Job, Report};

fn read(set: &[u8], job: &[u8], read: &[u8]) -> (Report, Vec<u8>) {
    let mut output = vec![0; 2 * read.len() + 64];
    let mut work = vec![0; work_length(output.len(), read.len())];
    let report = correct_read(set, None, None, Job::from_bytes(job), read, &mut output, &mut work).expect("accepted");
    output.truncate(report.written);
    (report, output)
}

fn batch(set: &[u8], job: &[u8], lines: &[Vec<u8>]) -> Report {
    let batch: Vec<u8> = lines.iter().flat_map(|line| line.iter().copied().chain([10])).collect();
    let mut output = vec![0; 2 * batch.len() + 64];
    let mut work = vec![0; work_length(output.len(), batch.len())];
    correct_batch(set, None, None, Job::from_bytes(job), &batch, &mut output, &mut work).expect("accepted")
}

fn numbers(report: Report) -> (u64, u64, u64, u64) {
    (report.lookups, report.bases, report.quotient, report.remainder)
}

/// Lookups, bases, quotient, remainder.
#[test]
fn samples() {
    let set = sample_set();
    assert_eq!(numbers(read(&set, &[3, 1], b"AACGCCG").0), (21, 4, 5, 1));
    assert_eq!(numbers(read(&set, &[1, 1], b"AAC").0), (1, 0, 0, 0));
    assert_eq!(numbers(read(&set, &[1, 1], b"AA").0), (0, 0, 0, 0));
    assert_eq!(numbers(read(&set, &[], b"AACGCCG").0), (0, 0, 0, 0));
    assert_eq!(numbers(read(&set, &[1, 1, 1, 1], b"AACC").0), (14, 3, 4, 2));
    assert_eq!(numbers(read(&set, &[1, 1], b"NNNNAAC").0), (1, 4, 0, 1));
    let lines = [b"AACGC".to_vec(), b"AA".to_vec(), b"AACGCCG".to_vec(), b"AAC".to_vec()];
    assert_eq!(numbers(batch(&set, &[1, 1], &lines)), (29, 6, 4, 5));
}

/// The rules of document 02: both numbers give the lookups back, or are 0.
#[track_caller]
fn holds(report: Report) {
    if report.bases == 0 {
        assert_eq!((report.quotient, report.remainder), (0, 0));
    } else {
        assert_eq!(report.quotient * report.bases + report.remainder, report.lookups);
        assert!(report.remainder < report.bases);
    }
}

/// Of every method, of two in turn, and of lines added: what each pass is fed, less k, is counted once.
#[test]
fn bases_of_passes_add() {
    let mut rng = Rng(0x5deece66d);
    let genome = rng.genome(3_000);
    let (k, set) = (11, set_of(11, &keys_of(11, &genome)));
    for round in 0..200 {
        let (first, second) = ([1 + round as u8 % 4, 1 + round as u8 % 7], [1 + round as u8 / 4 % 4, 2]);
        let lines = [(); 4].map(|()| {
            let length = rng.below(60);
            rng.read(&genome, length)
        });
        let (mut lookups, mut bases) = (0, 0);
        for line in &lines {
            let (one, result) = read(&set, &first, line);
            let (other, _) = read(&set, &second, &result);
            let (both, _) = read(&set, &[first, second].concat(), line);
            [one, other, both].into_iter().for_each(holds);
            assert_eq!(one.bases, line.len().saturating_sub(k) as u64);
            assert_eq!(other.bases, result.len().saturating_sub(k) as u64);
            assert_eq!((both.lookups, both.bases), (one.lookups + other.lookups, one.bases + other.bases));
            (lookups, bases) = (lookups + both.lookups, bases + both.bases);
        }
        let all = batch(&set, &[first, second].concat(), &lines);
        holds(all);
        assert_eq!((all.lookups, all.bases), (lookups, bases));
    }
}
