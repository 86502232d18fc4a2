//! What a batch will need: document 02, W9.
mod common;

use common::{keys_of, sample_set, set_of, Rng};
use corrector::{correct_batch, make_index, needs, work_length, Job, Needs, Refusal};
use corrector::{MAX_INPUT, MAX_LINES, MAX_OUTPUT, MAX_WORK};

const FILL: u8 = 170;
const ONE: &[u8] = &[1, 1];
const GRAPH: &[u8] = &[3, 1];

/// What is lent with a set.
#[derive(Clone, Copy, Default)]
struct Offered<'a> {
    index: Option<&'a [u8]>,
    counts: Option<&'a [u32]>,
}

/// A call on a work buffer that was filled before it: accepted, it is all zero, and refused, it stays.
fn asked(set: &[u8], Offered { index, counts }: Offered<'_>, job: &[u8], batch: &[u8], work: usize) -> Result<Needs, Refusal> {
    let mut work = vec![FILL; work];
    let answer = needs(set, index, counts, Job::from_bytes(job), batch, &mut work);
    let left = if answer.is_ok() { 0 } else { FILL };
    assert!(work.iter().all(|byte| *byte == left));
    answer
}

/// With the least work buffer and nothing offered.
fn least(set: &[u8], job: &[u8], batch: &[u8]) -> Result<Needs, Refusal> {
    asked(set, Offered::default(), job, batch, batch.len())
}

/// The numbers of a batch; and the batch call with an output of just so many bytes reports them, while one byte less is 11 at the last line.
#[track_caller]
fn booked(set: &[u8], offered: Offered<'_>, job: &[u8], batch: &[u8]) -> Needs {
    let told = asked(set, offered, job, batch, batch.len()).expect("accepted");
    let real = |room: usize| {
        let (mut output, mut work) = (vec![FILL; room], vec![FILL; work_length(room, batch.len())]);
        correct_batch(set, offered.index, offered.counts, Job::from_bytes(job), batch, &mut output, &mut work)
    };
    let report = real(told.bytes).expect("accepted");
    assert_eq!((report.written, report.turns, report.lookups), (told.bytes, told.turns, told.lookups));
    let lines = batch.iter().filter(|byte| **byte == 10).count();
    if lines > 0 {
        assert_eq!(real(told.bytes - 1), Err(Refusal::NoRoom { line: lines - 1 }));
    }
    told
}

#[track_caller]
fn sample_needs(job: &[u8], batch: &[u8], bytes: usize, turns: u64, lookups: u64) {
    assert_eq!(booked(&sample_set(), Offered::default(), job, batch), Needs { bytes, turns, lookups });
}

#[test]
fn samples() {
    sample_needs(GRAPH, b"AACGCCG\nAA\n", 11, 1, 21);
    sample_needs(ONE, b"AACGCCG\nAACC\nAACG\n", 19, 7, 37);
    sample_needs(&[2, 2], b"AACCG\n", 8, 3, 37);
    sample_needs(&[4, 1], b"AACGCCG\nAACGC\n", 14, 6, 63);
    sample_needs(GRAPH, b"AACGCCG\nAACGC\n", 14, 3, 65);
    sample_needs(ONE, b"", 0, 0, 0);
    sample_needs(ONE, b"\n", 1, 0, 0);
    sample_needs(ONE, b"\nAAC\n\n", 6, 0, 1);
}

/// The numbers are those without, whatever is offered and taken.
#[test]
fn noisy_reads() {
    let mut rng = Rng(31);
    let genome = rng.genome(2_000);
    for k in [5, 13, 21, 31] {
        let keys = keys_of(k, &genome);
        let set = set_of(k as u64, &keys);
        let mut index = vec![0; corrector::index_length(k)];
        make_index(&set, &mut index).expect("an index");
        let counts = vec![7; keys.len()];
        for job in [[1, 3], [2, 2], [3, 1], [4, 2]] {
            let batch: Vec<u8> = (0..8).flat_map(|_| [rng.read(&genome, 300), vec![10]].concat()).collect();
            let plain = booked(&set, Offered::default(), &job, &batch);
            assert_eq!(booked(&set, Offered { index: Some(&index), counts: None }, &job, &batch), plain);
            assert_eq!(booked(&set, Offered { index: None, counts: Some(&counts) }, &job, &batch), plain);
            assert_eq!(booked(&set, Offered { index: Some(&index), counts: Some(&counts) }, &job, &batch), plain);
        }
    }
}

/// ACA, CAA, AAC and no other successor: of ACA, whose next base is C, Graph makes ACAACA, and so once more for each CA.
fn round_line(times: usize) -> Vec<u8> {
    [b"ACA".to_vec(), b"CA".repeat(times), vec![10]].concat()
}

/// What such lines need.
fn round_needs(times: &[usize]) -> Needs {
    let sum = |of: fn(usize) -> usize| times.iter().map(|times| of(*times)).sum::<usize>();
    Needs { bytes: sum(|times| 4 + 3 * times), turns: sum(|times| times) as u64, lookups: sum(|times| 1 + 14 * times) as u64 }
}

#[test]
fn as_long_as_an_output_and_longer() {
    let set = set_of(3, &keys_of(3, b"ACAACA"));
    let just = round_line(349_524);
    assert_eq!(booked(&set, Offered::default(), GRAPH, &just), round_needs(&[349_524]));
    assert_eq!(round_needs(&[349_524]).bytes, MAX_OUTPUT);
    for times in [&[0, 349_524][..], &[349_524, 0], &[262_142, 262_142], &[524_286], &[3, 524_279, 0]] {
        let batch: Vec<u8> = times.iter().flat_map(|times| round_line(*times)).collect();
        assert!(batch.len() <= MAX_INPUT);
        let told = least(&set, GRAPH, &batch).expect("accepted");
        assert_eq!(told, round_needs(times));
        assert!(told.bytes > MAX_OUTPUT);
        let (mut output, mut work) = (vec![FILL; MAX_OUTPUT], vec![FILL; MAX_WORK]);
        let line = (0..times.len()).find(|line| round_needs(&times[..line + 1]).bytes > MAX_OUTPUT).expect("a line that does not fit");
        assert_eq!(correct_batch(&set, None, None, Job::from_bytes(GRAPH), &batch, &mut output, &mut work), Err(Refusal::NoRoom { line }));
    }
}

#[test]
fn work_from_the_batch_on() {
    let set = sample_set();
    let batch = b"AACGCCG\nAA\n";
    let told = Ok(Needs { bytes: 11, turns: 1, lookups: 21 });
    for work in [0, 1, 10] {
        assert_eq!(asked(&set, Offered::default(), GRAPH, batch, work), Err(Refusal::Buffers));
    }
    for work in [11, 12, 22, 100, MAX_WORK, MAX_WORK + 1, 3 * MAX_WORK] {
        assert_eq!(asked(&set, Offered::default(), GRAPH, batch, work), told);
    }
}

#[test]
fn other_than_one_entry() {
    assert_eq!((Refusal::NotOneEntry.number(), Refusal::NotOneEntry.place()), (17, 0));
    assert_eq!(Refusal::NotOneEntry.to_string(), "the job has other than one entry");
    let set = sample_set();
    for job in [&[][..], &[1, 1, 1, 1], &[3, 1, 1, 1, 4, 9], &[1; 16]] {
        assert_eq!(least(&set, job, b"AACGC\n"), Err(Refusal::NotOneEntry));
        // Before 5, 6, 7, 15 and 16.
        assert_eq!(asked(&set, Offered::default(), job, b"AACGC\n", 5), Err(Refusal::NotOneEntry));
        assert_eq!(least(&set, job, b"AACGC"), Err(Refusal::NotOneEntry));
        assert_eq!(least(&[], job, b"AACGC\n"), Err(Refusal::NotOneEntry));
        let wrong = Offered { index: Some(&[0]), counts: Some(&[0]) };
        assert_eq!(asked(&set, wrong, job, b"AACGC\n", 6), Err(Refusal::NotOneEntry));
    }
    // Behind 1 to 4.
    assert_eq!(least(&set, &[], &vec![10; MAX_INPUT + 1]), Err(Refusal::InputLength));
    assert_eq!(least(&set, &[1; 18], b"\n"), Err(Refusal::EntryCount));
    assert_eq!(least(&set, &[1, 1, 5, 1], b"\n"), Err(Refusal::MethodUnknown { index: 1 }));
    assert_eq!(least(&set, &[1, 1, 2, 0], b"\n"), Err(Refusal::ConfirmZero { index: 1 }));
    assert_eq!(least(&set, &[1, 1, 2], b"\n"), Err(Refusal::ConfirmZero { index: 1 }));
}

/// As the batch call refuses them.
#[test]
fn other_refusals() {
    let set = sample_set();
    assert_eq!(least(&set, ONE, &vec![10; MAX_INPUT + 1]), Err(Refusal::InputLength));
    assert_eq!(least(&set, &[1], b"\n"), Err(Refusal::ConfirmZero { index: 0 }));
    assert_eq!(least(&set, &[9, 1], b"\n"), Err(Refusal::MethodUnknown { index: 0 }));
    assert_eq!(asked(&set, Offered::default(), ONE, b"AAC", 2), Err(Refusal::Buffers));
    assert_eq!(least(&set, ONE, b"AAC"), Err(Refusal::Batch));
    assert_eq!(least(&[], ONE, b"AAC"), Err(Refusal::Batch));
    assert_eq!(least(&set, ONE, &[10; MAX_LINES + 1]), Err(Refusal::Batch));
    assert_eq!(least(&set, ONE, &[10; MAX_LINES]), Ok(Needs { bytes: MAX_LINES, turns: 0, lookups: 0 }));
    assert_eq!(least(&set[..1023], ONE, b"\n"), Err(Refusal::SetLength));
    assert_eq!(least(&[&set[..520], &[7], &set[521..]].concat(), ONE, b"\n"), Err(Refusal::SetCheck { block: 1 }));
    assert_eq!(least(&set_of(4, &[]), ONE, b"\n"), Err(Refusal::SetHeader));
    let mut index = vec![0; corrector::index_length(3)];
    make_index(&set, &mut index).expect("an index");
    let with = |set: &[u8], index, counts| asked(set, Offered { index: Some(index), counts: Some(counts) }, ONE, b"\n", 1);
    assert_eq!(with(&set_of(3, &[6, 6]), &index[1..], &[7; 4]), Err(Refusal::SetKey { word: 1 }));
    assert_eq!(with(&set, &index[1..], &[7; 4]), Err(Refusal::Index));
    assert_eq!(with(&set, &index, &[7; 4]), Err(Refusal::Counts));
    assert_eq!(with(&set, &index, &[7; 5]), Ok(Needs { bytes: 1, turns: 0, lookups: 0 }));
}
