//! Other programs' edits: document 02, W12.
mod common;

use common::{keys_of, sample_set, set_of, Rng};
use corrector::{check_edits, correct_read, work_length, Edit, Edits, Entry, Job, Method, Refusal, MAX_INPUT};

const LAST: u64 = u64::MAX;

/// The place of 19, or none where the sheet is accepted.
fn judged(set: &[u8], read: &[u8], mended: &[u8], numbers: &[u64], letters: &[u8]) -> Option<usize> {
    match check_edits(set, read, mended, Edits::from_numbers(numbers), letters) {
        Ok(()) => None,
        Err(Refusal::Edit { edit }) => Some(edit),
        Err(other) => panic!("refused with {other}"),
    }
}

/// Sheets over the sample's set: read, mended, numbers, letters, place.
type Sheet = (&'static [u8], &'static [u8], &'static [u64], &'static [u8], Option<usize>);

#[track_caller]
fn all(sheets: &[Sheet]) {
    for (read, mended, numbers, letters, place) in sheets {
        assert_eq!(judged(&sample_set(), read, mended, numbers, letters), *place, "{numbers:?} on {}", String::from_utf8_lossy(read));
    }
}

#[test]
fn accepted() {
    all(&[
        (b"AACGCCG", b"AACTCCG", &[3, 1, 1], b"T", None),
        (b"AACNCCG", b"AACTCCG", &[3, 1, 1], b"T", None),
        (b"AACGCCG", b"AACGCCG", &[], b"", None),
        (b"", b"", &[], b"", None),
        (b"N", b"N", &[], b"", None),
        (b"AACGGCG", b"AACTCCG", &[3, 1, 1, 4, 1, 1], b"TC", None),
        (b"AACCG", b"AACTCCG", &[3, 0, 2], b"TC", None),
        (b"AACGGCCG", b"AACTCCG", &[3, 2, 1], b"T", None),
        (b"AACTCCG", b"AACTCCG", &[4, 0, 0], b"", None),
        (b"AACGGTCCG", b"AACTCCG", &[3, 1, 0, 4, 1, 0], b"", None),
        (b"AACTCGG", b"AACTCCG", &[5, 1, 1], b"C", None),
        (b"AACGCCG", b"AACtCCG", &[3, 1, 1], b"t", None),
        (b"AACGCNG", b"AACTCNG", &[3, 1, 1], b"T", None),
    ]);
}

#[test]
fn form() {
    all(&[
        (b"AACTCCG", b"AACTCCG", &[4], b"", Some(0)),
        (b"AACTCCG", b"AACTCCG", &[4, 0], b"", Some(0)),
        (b"AACGCCG", b"AACTCCG", &[3, 1, 1, 5], b"T", Some(1)),
        (b"AACGCCG", b"AACTCCG", &[3, 1, 1, 5, 0], b"T", Some(1)),
        (b"AACGCCG", b"AACTCCG", &[2, 2, 2], b"CT", Some(0)),
        (b"AACGCCG", b"AACTCC", &[3, 1, 1, 6, 1, 0], b"T", Some(1)),
        (b"AACGCCG", b"AACGCCG", &[7, 0, 0], b"", Some(0)),
        (b"", b"", &[3, 0, 0], b"", Some(0)),
        (b"AACGCCG", b"AACTCCG", &[3, 1, 2], b"T", Some(0)),
        (b"AACGGCG", b"AACTCCG", &[3, 1, 1, 4, 1, 2], b"TC", Some(1)),
        (b"AACTCCG", b"AACTCCG", &[4, 0, 0, 4, 0, 0], b"", Some(1)),
        (b"AACGGCG", b"AACTCCG", &[4, 1, 1, 3, 1, 1], b"CT", Some(1)),
        (b"AACGGCG", b"AACTCCG", &[3, 2, 1, 4, 1, 1], b"TC", Some(1)),
    ]);
}

/// Numbers near 2^64: no sum wraps.
#[test]
fn sums() {
    all(&[
        (b"AACGCCG", b"AACTCCG", &[3, LAST, 1], b"T", Some(0)),
        (b"AACGCCG", b"AACTCCG", &[3, LAST - 2, 1], b"T", Some(0)),
        (b"AACGCCG", b"AACTCCG", &[LAST, 4, 1], b"T", Some(0)),
        (b"AACGCCG", b"AACTCCG", &[LAST, LAST, LAST], b"T", Some(0)),
        (b"AACGCCG", b"AACTCCG", &[3, 1, LAST], b"T", Some(0)),
        (b"AACGGCG", b"AACTCCG", &[3, 1, 1, 4, 1, LAST], b"A", Some(1)),
        (b"AACGGCG", b"AACTCCG", &[3, 1, 1, LAST, 1, 1], b"AC", Some(1)),
        (b"AACGGCG", b"AACTCCG", &[3, 1, 1, 4, LAST, 1], b"AC", Some(1)),
    ]);
}

#[test]
fn kmers() {
    all(&[
        (b"AACGCCG", b"AACGCCG", &[4, 1, 1], b"C", Some(0)),
        (b"AACGCCG", b"AACACCG", &[3, 1, 1], b"A", Some(0)),
        (b"AACGGCG", b"AACTGCG", &[3, 1, 1], b"T", Some(0)),
        (b"AACGCCG", b"AACNCCG", &[3, 1, 1], b"N", Some(0)),
        (b"AACGNCG", b"AACTNCG", &[3, 1, 1], b"T", Some(0)),
        (b"TAAGTCCG", b"TAACTCCG", &[3, 1, 1], b"C", Some(0)),
        (b"AACTCGCCG", b"AACTCTCCG", &[5, 1, 1], b"T", Some(0)),
        (b"NACGCCG", b"NACTCCG", &[3, 1, 1], b"T", Some(0)),
        // Shared by two edits: the earlier offends.
        (b"AACGGCG", b"AACTACG", &[3, 1, 1, 4, 1, 1], b"TA", Some(0)),
        (b"AACGGCG", b"AACTGCG", &[3, 1, 1, 5, 0, 0], b"T", Some(0)),
        (b"AACGGACCG", b"AACACCG", &[3, 1, 0, 4, 1, 0], b"", Some(0)),
        (b"AACGCGG", b"AACTCAG", &[3, 1, 1, 5, 1, 1], b"TA", Some(1)),
        // The form of all edits comes first.
        (b"AACGCCG", b"AACTCCG", &[4, 1, 1, 5, 0], b"C", Some(1)),
        (b"AACGCCG", b"AACGCC", &[4, 1, 1, 6, 1, 0], b"C", Some(1)),
    ]);
}

#[test]
fn joining() {
    all(&[
        (b"AACGCCG", b"AACGCCG", &[3, 1, 1], b"T", Some(1)),
        (b"AACGCCG", b"AACTCC", &[3, 1, 1], b"T", Some(1)),
        (b"AACGCCG", b"AACTCCGG", &[3, 1, 1], b"T", Some(1)),
        (b"AACGCCG", b"AACTCCG", &[3, 1, 1], b"t", Some(1)),
        (b"AACGCCG", b"AACTCCG", &[3, 1, 1], b"TC", Some(1)),
        (b"AACTCCG", b"AACGCCG", &[], b"", Some(0)),
        (b"AACTCCG", b"AACTCCG", &[], b"T", Some(0)),
        // The k-mers of all edits come first.
        (b"AACGGCG", b"AACTCCG", &[3, 1, 1], b"TA", Some(0)),
    ]);
}

/// A correction of ours by Two: it resumes on the A, and CTA isn't solid.
#[test]
fn ours() {
    let (set, read) = (sample_set(), b"AACGAACC");
    let entries = [Entry::new(Method::Two, 2).unwrap()];
    let (mut output, mut work) = ([0; 16], [0; 32]);
    let report = correct_read(&set, None, None, Job::new(&entries), read, &mut output, &mut work).unwrap();
    assert_eq!(output[..report.written], *b"AACTACC");
    assert_eq!(work_length(output.len(), read.len()), work.len());
    assert_eq!(judged(&set, read, b"AACTACC", &[3, 2, 1], b"T"), Some(0));
}

/// 1 for either read, before the set's refusals; these before 19.
#[test]
fn refused() {
    let set = sample_set();
    let check = |set: &[u8], read: &[u8], mended: &[u8], numbers: &[u64]| check_edits(set, read, mended, Edits::from_numbers(numbers), b"");
    let (full, long) = (vec![b'A'; MAX_INPUT], vec![b'A'; MAX_INPUT + 1]);
    assert_eq!(check(&set, &full, &full, &[]), Ok(()));
    assert_eq!(check(&[], &long, b"", &[1]), Err(Refusal::InputLength));
    assert_eq!(check(&[], b"", &long, &[1]), Err(Refusal::InputLength));
    assert_eq!(check(&[], &full, &full, &[1]), Err(Refusal::SetLength));
    let mut damaged = set.clone();
    damaged[520] ^= 1;
    assert_eq!(check(&damaged, b"", b"", &[1]), Err(Refusal::SetCheck { block: 1 }));
    assert_eq!(check(&set_of(2, &[0]), b"", b"", &[1]), Err(Refusal::SetHeader));
    assert_eq!(check(&set_of(3, &[6, 6]), b"", b"", &[1]), Err(Refusal::SetKey { word: 1 }));
    assert_eq!(check(&set, b"", b"", &[1]), Err(Refusal::Edit { edit: 0 }));
    let refusal = Refusal::Edit { edit: 7 };
    assert_eq!((refusal.number(), refusal.place()), (19, 7));
    assert_eq!(refusal.to_string(), "the sheet is not accepted: edit 7 offends, or 7 edits give another read");
}

/// Edits are their numbers.
#[test]
fn numbers() {
    let edits = [Edit { position: 3, taken: 1, given: 1 }, Edit { position: 4, taken: 1, given: 1 }];
    assert_eq!(Edits::new(&edits).as_numbers(), [3, 1, 1, 4, 1, 1]);
    assert_eq!(Edits::new(&edits), Edits::from_numbers(&[3, 1, 1, 4, 1, 1]));
    assert_eq!(Edits::new(&[]).as_numbers(), []);
    assert_eq!(check_edits(&sample_set(), b"AACGGCG", b"AACTCCG", Edits::new(&edits), b"TC"), Ok(()));
}

/// Reads of a genome, wrong here and there, with the edits that mend them. Accepted; and not, with one base of a letter's other.
#[test]
fn genomes() {
    let mut rng = Rng(12);
    for k in [5, 21, 31] {
        let genome = rng.genome(3000);
        let set = set_of(k as u64, &keys_of(k, &genome));
        for _ in 0..50 {
            let (mut read, mut numbers, mut letters) = (genome[..k].to_vec(), Vec::new(), Vec::new());
            for base in &genome[k..2000] {
                match rng.below(40) {
                    0 => {
                        numbers.extend([read.len() as u64, 1, 1]);
                        read.push(b'N');
                        letters.push(*base);
                    }
                    1 => {
                        numbers.extend([read.len() as u64, 2, 1]);
                        read.extend(*b"GG");
                        letters.push(*base);
                    }
                    _ => read.push(*base),
                }
            }
            read.extend(&genome[2000..2100]);
            let mended = &genome[..2100];
            let count = numbers.len() / 3;
            assert_eq!(judged(&set, &read, mended, &numbers, &letters), None);
            assert_eq!(judged(&set, &read, &mended[1..], &numbers, &letters), Some(count));
            let i = rng.below(count);
            letters[i] = b'N';
            // Every letter asks for its own k-mer, so the first that holds the N is that of edit i, or of one whose base after it is.
            let place = judged(&set, &read, mended, &numbers, &letters).unwrap();
            assert!(place == i || place + 1 == i && numbers[3 * place] + numbers[3 * place + 1] == numbers[3 * i]);
        }
    }
}
