//! Counts offered with a set: document 02, W8.
mod common;

use common::{canonical, keys_of, sample_set, set_of, Rng};
use corrector::{correct_batch, correct_read, make_index, make_set, work_length, Job, Refusal, Report};

const FILL: u8 = 170;
const RISING: [u32; 5] = [10, 20, 30, 40, 50];
const FALLING: [u32; 5] = [50, 40, 30, 20, 10];

type Done = (Result<Report, Refusal>, Vec<u8>, Vec<u8>);

/// What is lent with a set.
#[derive(Clone, Copy, Default)]
struct Offered<'a> {
    index: Option<&'a [u8]>,
    counts: Option<&'a [u32]>,
}

fn counted(counts: &[u32]) -> Offered<'_> {
    Offered { index: None, counts: Some(counts) }
}

/// A read and a batch of one line, each in buffers that were filled before it.
fn corrected(set: &[u8], offered: Offered<'_>, job: &[u8], read: &[u8], room: usize) -> [Done; 2] {
    let (line, Offered { index, counts }) = ([read, b"\n"].concat(), offered);
    let (mut output, mut work) = (vec![FILL; room], vec![FILL; work_length(room, line.len())]);
    let alone = correct_read(set, index, counts, Job::from_bytes(job), read, &mut output, &mut work);
    let (mut lines, mut more) = (vec![FILL; room], vec![FILL; work_length(room, line.len())]);
    let batch = correct_batch(set, index, counts, Job::from_bytes(job), &line, &mut lines, &mut more);
    [(alone, output, work), (batch, lines, more)]
}

/// A call tells this support, and but for that answers, reports and leaves what it does without counts.
#[track_caller]
fn supports(set: &[u8], counts: &[u32], job: &[u8], read: &[u8], support: Option<u32>) {
    let plain = corrected(set, Offered::default(), job, read, 64);
    let told = plain.map(|(answer, output, work)| {
        assert_eq!(answer.map(|report| report.support), Ok(None));
        (answer.map(|report| Report { support, ..report }), output, work)
    });
    assert_eq!(corrected(set, counted(counts), job, read, 64), told);
    let mut index = vec![0; corrector::index_length(corrector::open(set).expect("a set").k)];
    make_index(set, &mut index).expect("an index");
    assert_eq!(corrected(set, Offered { index: Some(&index), counts: Some(counts) }, job, read, 64), told);
}

#[test]
fn the_sample_set() {
    for (job, read, rising, falling) in [
        ([1, 1], "AACGC", 10, 50),
        ([1, 1], "AACC", 10, 50),
        ([1, 1], "AACGTC", 10, 50),
        ([1, 1], "AACGCCG", 10, 50),
        ([2, 2], "AACCG", 30, 30),
        ([3, 1], "AACGCCG", 10, 10),
        ([4, 1], "AACGCCG", 10, 50),
    ] {
        supports(&sample_set(), &RISING, &job, read.as_bytes(), Some(rising));
        supports(&sample_set(), &FALLING, &job, read.as_bytes(), Some(falling));
    }
}

#[test]
fn none_and_the_limits() {
    supports(&sample_set(), &RISING, &[1, 1], b"AACG", None);
    supports(&sample_set(), &RISING, &[1, 1], b"AA", None);
    supports(&sample_set(), &RISING, &[], b"AACGC", None);
    supports(&sample_set(), &[], &[3, 1], b"AACGCCG", None);
    supports(&sample_set(), &[0; 5], &[1, 1], b"AACGC", Some(0));
    supports(&sample_set(), &[u32::MAX; 5], &[3, 1], b"AACGCCG", Some(u32::MAX));
}

/// Keys that support nothing have the smaller counts.
#[test]
fn each_way_of_correcting() {
    // ICI and DCI: what is tried is behind x.
    supports(&set_of(3, &[23, 53]), &[10, 20], &[2, 1], b"CCGAGTCCG", Some(20));
    supports(&set_of(3, &[0, 45]), &[10, 20], &[2, 1], b"TTTCGCCA", Some(20));
    // A walk whose weakest k-mer is the first, one between, the last.
    supports(&set_of(3, &[6, 17, 24]), &[20, 30, 10], &[3, 1], b"TAGGTG", Some(20));
    supports(&set_of(3, &[3, 5, 15, 17]), &[40, 30, 20, 10], &[3, 1], b"CACTT", Some(20));
    supports(&set_of(3, &[6, 17, 24]), &[30, 20, 10], &[3, 1], b"TAGGTG", Some(20));
    // GapSize by Graph, by One, by its own moves.
    supports(&set_of(3, &[6, 24, 33]), &[30, 20, 10], &[4, 1], b"TACCTA", Some(20));
    supports(&set_of(3, &[12, 24]), &[10, 20], &[4, 1], b"TCTCGA", Some(20));
    supports(&set_of(3, &[18, 20, 53]), &[30, 20, 10], &[4, 1], b"GCCTCGG", Some(20));
    supports(&set_of(3, &[18, 20, 53]), &[20, 30, 10], &[4, 1], b"GCCTCGG", Some(20));
    // The smaller one in either pass.
    supports(&set_of(3, &[6, 33]), &[10, 20], &[2, 1, 1, 1], b"AGTGA", Some(10));
    supports(&set_of(3, &[6, 33]), &[20, 10], &[2, 1, 1, 1], b"AGTGA", Some(10));
}

/// The smallest of all lines.
#[test]
fn batches() {
    for (counts, support) in [([20, 30, 5, 5, 5], 20), ([30, 20, 5, 5, 5], 20), ([30, 40, 5, 5, 5], 30)] {
        let (mut output, mut work) = ([FILL; 32], [FILL; 64]);
        let report = correct_batch(&sample_set(), None, Some(&counts), Job::from_bytes(&[1, 1]), b"AACGC\nAA\nCCGA\n", &mut output, &mut work);
        assert_eq!(report.map(|report| (report.accepted, report.support)), Ok((2, Some(support))));
    }
}

/// Refused, with no lent byte changed but by 11.
#[track_caller]
fn refused(set: &[u8], offered: Offered<'_>, room: usize, refusal: Refusal) {
    let stays = if refusal.number() == 11 { 0 } else { FILL };
    for (answer, output, work) in corrected(set, offered, &[1, 1], b"AACC", room) {
        assert_eq!(answer, Err(refusal));
        assert!(output.iter().chain(&work).all(|byte| *byte == stays));
    }
}

#[test]
fn not_one_for_each_key() {
    assert_eq!((Refusal::Counts.number(), Refusal::Counts.place()), (16, 0));
    assert_eq!(Refusal::Counts.to_string(), "the counts are not as many as the set has keys");
    for length in [1, 2, 4, 6, 68, 1000] {
        refused(&sample_set(), counted(&vec![7; length]), 16, Refusal::Counts);
    }
    refused(&set_of(3, &[]), counted(&[7]), 16, Refusal::Counts);
    supports(&set_of(3, &[]), &[], &[1, 1], b"AACC", None);
}

/// 16 behind 15 and before 11.
#[test]
fn order() {
    let mut index = vec![0; corrector::index_length(3)];
    make_index(&sample_set(), &mut index).expect("an index");
    let with = |index, counts| Offered { index: Some(index), counts: Some(counts) };
    refused(&set_of(3, &[6, 6]), counted(&[7; 3]), 16, Refusal::SetKey { word: 1 });
    refused(&sample_set(), with(&index[1..], &[7; 4]), 16, Refusal::Index);
    refused(&sample_set(), with(&index, &[7; 4]), 16, Refusal::Counts);
    refused(&sample_set(), with(&index, &[7; 4]), 4, Refusal::Counts);
    refused(&sample_set(), with(&index, &[7; 5]), 4, Refusal::NoRoom { line: 0 });
}

/// A genome's k-mers counted, made a set with its counts, and offered: the support is a count of a key that is one of the result's k-mers.
#[test]
fn counts_that_were_made() {
    let mut rng = Rng(23);
    let genome = rng.genome(2_000);
    let keys = keys_of(15, &genome);
    let mut kmers: Vec<(u64, &[u8])> = genome.windows(15).map(|kmer| (canonical(kmer), kmer)).collect();
    kmers.sort_unstable();
    kmers.dedup_by_key(|(key, _)| *key);
    let lines = kmers.iter().enumerate().map(|(at, (_, kmer))| [kmer, format!(",{}\n", at + 100).as_bytes()].concat());
    let text: Vec<u8> = lines.flatten().collect();
    let (mut set, mut counts) = (vec![0; corrector::set_length(keys.len())], vec![0; keys.len()]);
    let length = make_set(&text, 15, 1, &mut set, &mut counts).expect("a set");
    assert_eq!(set[..length], set_of(15, &keys));
    let mut told = 0;
    for _ in 0..50 {
        let read = rng.read(&genome, 120);
        let [(answer, output, _), _] = corrected(&set[..length], counted(&counts), &[1, 3], &read, 200);
        let report = answer.expect("accepted");
        let result = &output[..report.written];
        let within = |support: u32| result.windows(15).any(|kmer| keys.binary_search(&canonical(kmer)) == Ok(support as usize - 100));
        assert!(report.support.is_some() == (report.accepted > 0) && report.support.is_none_or(within));
        told += report.support.is_some() as usize;
    }
    assert!(told > 10);
}
