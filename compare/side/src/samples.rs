//! Document 01, "Sample reads", and reads for document 02: what it prints, held against a library.
use crate::cases::{job, job_with_room};
use crate::library::Library;
use crate::oracle::{self, Keys};
use crate::referee::calls::{Call, Job};
use crate::referee::correctors::Method::{self, GapSize, Graph, One, Two};
use crate::set_file;

/// Method, confirm, read, result; turns and lookups where the document gives them.
type Sample = (Method, u8, &'static str, &'static str, Option<u64>, Option<u64>);

pub const SAMPLES: [Sample; 31] = [
    (One, 1, "AACGC", "AACTC", Some(2), Some(12)),
    (One, 1, "AACC", "AACTC", Some(2), Some(11)),
    (One, 1, "AACGTC", "AACTC", None, None),
    (One, 1, "AACG", "AACG", None, None),
    (One, 1, "AACGCCG", "AACTCCG", None, Some(16)),
    (Two, 1, "AACCG", "AACCG", None, None),
    (Two, 2, "AACCG", "AACTCCG", None, None),
    // 24 in document 01; document 02, W6.
    (Graph, 1, "AACGCCG", "AACTCCG", Some(1), Some(21)),
    (Graph, 1, "AACGC", "AACGC", None, None),
    (GapSize, 1, "AACGCCG", "AACTCCG", None, Some(19)),
    (One, 1, "AA", "AA", None, None),
    (One, 1, "", "", None, None),
    (One, 1, "AAC", "AAC", Some(0), Some(1)),
    // Document 02, W5: an unknown letter as the bad base, behind a mend, in the first k-mer.
    (One, 1, "AACNC", "AACTC", Some(2), Some(10)),
    (One, 1, "AACGN", "AACGN", Some(2), Some(10)),
    (One, 1, "NAACGC", "NAACTC", Some(3), Some(12)),
    (One, 1, "AAN", "AAN", Some(0), Some(0)),
    (Two, 2, "AACNCCG", "AACNCCG", Some(4), Some(40)),
    (Two, 1, "AACCN", "AACTCCN", Some(3), Some(46)),
    (Graph, 1, "AACNCCG", "AACTCCG", Some(1), Some(18)),
    (GapSize, 1, "AACNCCG", "AACTCCG", Some(4), Some(15)),
    (GapSize, 1, "AACNNNNN", "AACTCCNN", Some(3), Some(41)),
    // In T, which then equals no k-mer: the walk moves and pays. In the last two T would be x if the letter stood for A, as I does in 01.
    (Graph, 1, "CGGN", "CGGN", Some(1), Some(21)),
    (Graph, 1, "CCGTGGN", "CCGTGGN", None, Some(30)),
    (Graph, 1, "AACGNCT", "AACGNCT", None, Some(42)),
    (Graph, 1, "AACGICT", "AACGICT", None, Some(42)),
    // What natir/br reads otherwise.
    (One, 1, "CTCN", "CTCN", Some(1), Some(8)),
    (One, 1, "CCGNA", "CCGGA", Some(2), Some(10)),
    // Lower case and U have codes; kept bases keep their byte.
    (One, 1, "aacgc", "aacTc", Some(2), Some(12)),
    (One, 1, "AACGUC", "AACTC", Some(2), Some(13)),
    (Graph, 1, "aacguccg", "aacTCCg", Some(2), Some(18)),
];

/// Document 02, W10: a job, a batch; its lookups, their quotient by the sum of W, the remainder, and that sum.
pub type PerBase = (&'static [u8], &'static str, [u64; 4]);

pub const PER_BASE: [PerBase; 9] = [
    (&[3, 1], "AACGCCG\nAA\n", [21, 5, 1, 4]),
    (&[1, 1], "AACGC\nAACGCCG\n", [28, 4, 4, 6]),
    // A read of k letters has a lookup and no base; a shorter one has neither.
    (&[1, 1], "AAC\n", [1, 0, 0, 0]),
    (&[1, 1], "AA\n\n", [0, 0, 0, 0]),
    (&[1, 1], "AACGC\nAA\nAACGCCG\nAAC\n", [29, 4, 5, 6]),
    (&[], "AACGCCG\n", [0, 0, 0, 0]),
    // The second pass is fed a base more than the first.
    (&[1, 1, 1, 1], "AACC\n", [14, 4, 2, 3]),
    (&[2, 1, 2, 2], "AACCG\n", [74, 18, 2, 4]),
    // One k-mer is asked for.
    (&[1, 1], "NNNNAAC\n", [1, 0, 1, 4]),
];

/// A read through a job, over keys with counts: the result and the support that is told.
pub struct Supported {
    pub k: u64,
    pub keys: &'static [u64],
    pub counts: &'static [u32],
    pub job: &'static [u8],
    pub read: &'static str,
    pub result: &'static str,
    pub support: Option<u32>,
}

#[rustfmt::skip]
const fn supported(
    k: u64, keys: &'static [u64], counts: &'static [u32], job: &'static [u8], read: &'static str, result: &'static str, support: Option<u32>,
) -> Supported {
    Supported { k, keys, counts, job, read, result, support }
}

const RISING: &[u32] = &[10, 20, 30, 40, 50];
const FALLING: &[u32] = &[50, 40, 30, 20, 10];

/// Document 02, W8. Where a set is not the samples', keys that support nothing have the smaller counts.
pub const SUPPORTED: [Supported; 45] = [
    supported(3, &KEYS, RISING, &[1, 1], "AACGC", "AACTC", Some(10)),
    supported(3, &KEYS, FALLING, &[1, 1], "AACGC", "AACTC", Some(50)),
    supported(3, &KEYS, RISING, &[1, 1], "AACC", "AACTC", Some(10)),
    supported(3, &KEYS, FALLING, &[1, 1], "AACGTC", "AACTC", Some(50)),
    supported(3, &KEYS, FALLING, &[2, 2], "AACCG", "AACTCCG", Some(30)),
    supported(3, &KEYS, RISING, &[3, 1], "AACGCCG", "AACTCCG", Some(10)),
    supported(3, &KEYS, FALLING, &[3, 1], "AACGCCG", "AACTCCG", Some(10)),
    supported(3, &KEYS, FALLING, &[4, 1], "AACGCCG", "AACTCCG", Some(50)),
    // None: nothing is accepted, or no counts are offered. 0 is a count.
    supported(3, &KEYS, RISING, &[1, 1], "AACG", "AACG", None),
    supported(3, &KEYS, RISING, &[1, 1], "AA", "AA", None),
    supported(3, &KEYS, RISING, &[], "AACGC", "AACGC", None),
    supported(3, &KEYS, &[], &[3, 1], "AACGCCG", "AACTCCG", None),
    supported(3, &KEYS, &[0, 1, 1, 1, 1], &[1, 1], "AACGC", "AACTC", Some(0)),
    supported(3, &KEYS, &[u32::MAX; 5], &[3, 1], "AACGCCG", "AACTCCG", Some(u32::MAX)),
    // One by I, S, D; Two by each of its scenarios.
    supported(3, &[33, 46], &[20, 10], &[1, 1], "TGTGAC", "TGTAC", Some(20)),
    supported(3, &[24, 54], &[10, 20], &[1, 1], "TAGGT", "TAGCT", Some(20)),
    supported(3, &[12, 24], &[10, 20], &[1, 1], "TCTG", "TCTAG", Some(20)),
    supported(3, &[10, 43], &[20, 10], &[2, 1], "CAAATCT", "CAATCT", Some(20)),
    supported(3, &[9, 36], &[20, 10], &[2, 1], "GATTCA", "GATCA", Some(20)),
    supported(5, &[759, 989], &[10, 20], &[2, 1], "TGGCGTGA", "TGGCGCCA", Some(20)),
    supported(3, &[43, 45], &[10, 20], &[2, 1], "TTGTA", "TTGCAA", Some(20)),
    supported(3, &[24, 54], &[10, 20], &[2, 1], "TAGA", "TAGCTA", Some(20)),
    supported(3, &[23, 53], &[10, 20], &[2, 1], "CCGAGTCCG", "CCGGCCG", Some(20)),
    supported(5, &[142, 225, 568], &[10, 30, 20], &[2, 1], "ATAGTAGCGA", "ATAGTACT", Some(30)),
    supported(5, &[383, 510, 1017], &[30, 10, 20], &[2, 2], "GACCCTGGTC", "GACCCGGGTC", Some(30)),
    supported(3, &[10, 39, 48], &[30, 10, 20], &[2, 1], "TCGGACTTCG", "TCGAATTCG", Some(30)),
    supported(5, &[5, 23, 479, 894], &[10, 20, 40, 30], &[2, 1], "AAACCCCTG", "AAACCGCGG", Some(40)),
    supported(3, &[5, 20], &[20, 10], &[2, 1], "ACCCCA", "ACCACCA", Some(20)),
    supported(3, &[0, 45], &[10, 20], &[2, 1], "TTTCGCCA", "TTTGCCA", Some(20)),
    supported(3, &[15, 60], &[10, 20], &[2, 1], "TCCCT", "TCCTCCT", Some(20)),
    // Several are kept and one remains.
    supported(5, &[178, 585, 715], &[10, 30, 20], &[2, 1], "CATCAATC", "CATCATCATC", Some(30)),
    // Graph: the weakest k-mer is x, one between, T.
    supported(3, &[6, 17, 24], &[20, 30, 10], &[3, 1], "TAGGTG", "TAGTG", Some(20)),
    supported(3, &[3, 5, 15, 17], &[40, 30, 20, 10], &[3, 1], "CACTT", "CACCTT", Some(20)),
    supported(3, &[6, 17, 24], &[30, 20, 10], &[3, 1], "TAGGTG", "TAGTG", Some(20)),
    // GapSize by Graph, by One, and by its own moves.
    supported(3, &[6, 24, 33], &[20, 30, 10], &[4, 1], "TACCTA", "TACTA", Some(20)),
    supported(3, &[6, 24, 33], &[30, 20, 10], &[4, 1], "TACCTA", "TACTA", Some(20)),
    supported(3, &[12, 24], &[10, 20], &[4, 1], "TCTCGA", "TCTAGA", Some(20)),
    supported(3, &[18, 20, 53], &[30, 20, 10], &[4, 1], "GCCTCGG", "GCCATGG", Some(20)),
    supported(3, &[5, 36, 57, 63], &[20, 10, 30, 40], &[4, 1], "TGAACGCC", "TGACCCCC", Some(20)),
    supported(3, &[18, 20, 53], &[20, 30, 10], &[4, 1], "GCCTCGG", "GCCATGG", Some(20)),
    // The smaller one in the first pass, in the second; a refused attempt before an accepted one, and behind it.
    supported(3, &[6, 33], &[10, 20], &[2, 1, 1, 1], "AGTGA", "AGTACTA", Some(10)),
    supported(3, &[6, 33], &[20, 10], &[2, 1, 1, 1], "AGTGA", "AGTACTA", Some(10)),
    supported(3, &[43, 46, 58], &[30, 20, 10], &[3, 2], "CAAACCAA", "CAAACAA", Some(20)),
    supported(5, &[195, 780, 922], &[10, 30, 20], &[1, 1], "AGAAGAAGC", "AGAAGAAGAC", Some(30)),
    supported(3, &[24, 54], &[20, 10], &[1, 1], "GCTGA", "GCTAGA", Some(20)),
];

impl Supported {
    pub fn set(&self) -> Vec<u8> {
        set_file::make(self.k, self.keys)
    }

    pub fn call(&self) -> Job {
        Job { counts: self.counts.to_vec(), ..job(Call::Read, self.job, self.read.as_bytes()) }
    }

    fn is_right(&self, library: &dyn Library) -> bool {
        let job = self.call();
        let (mut output, mut work) = (vec![0; job.output], vec![0; job.work]);
        let answer = library.correct(&self.set(), &job, &mut output, &mut work);
        answer.is_ok_and(|report| output[..report.written as usize] == *self.result.as_bytes() && report.support == self.support)
    }
}

/// Document 02, W11: a job, a file, and its output or the refusal's number and place, with an output of so many bytes. By One with confirm 255 AACAAAAAATCC stays, and Graph then makes AACTCC of it: the pass result is longer than the text, and its record is 11 where only
/// the text would fit.
pub const FASTA: [(&[u8], &str, usize, Result<&str, (u64, usize)>); 16] = [
    (&[3, 1], ">first\nAACG\nCCG\n>second\n\n>third\nAA\n", 64, Ok(">first\nAACTCCG\n>second\n>third\nAA\n")),
    (&[1, 1], ">a\nAACC\n", 9, Ok(">a\nAACTC\n")),
    (&[1, 1], ">a\nAACC\n", 8, Err((11, 0))),
    (&[], "\n\n>a > b\n\nA\n\nC\n\n", 32, Ok(">a > b\nAC\n")),
    (&[], "", 0, Ok("")),
    (&[], "\n\n", 0, Ok("")),
    (&[], ">\n", 2, Ok(">\n")),
    (&[], ">\n", 1, Err((11, 0))),
    (&[], ">a\r\nAC\r\n", 32, Ok(">a\r\nAC\r\n")),
    (&[], "\r\n>a\n", 32, Err((18, 0))),
    (&[], "\n\nAC\n>a\n", 32, Err((18, 2))),
    (&[], ">a\n\nAC\nA>C\n", 32, Err((18, 3))),
    (&[], "AC\n>a", 32, Err((6, 0))),
    (&[], ">a\nAC", 32, Err((6, 0))),
    (&[1, 255, 3, 1], ">\n>\nAACAAAAAATCC\n", 14, Ok(">\n>\nAACTCC\n")),
    (&[1, 255, 3, 1], ">\n>\nAACAAAAAATCC\n", 13, Err((11, 1))),
];

/// Two of those reads, and what natir/br makes of them, which reads N as G (docs/DIFFERENCES.md).
const N_AS_G: [(&str, &str); 2] = [("CTCN", "CTCCN"), ("CCGNA", "CCGNA")];

/// The set of the samples.
const K: u8 = 3;
const KEYS: [u64; 5] = [6, 23, 51, 58, 60];

pub fn set() -> Vec<u8> {
    set_file::make(K as u64, &KEYS)
}

/// The samples that a library gives otherwise than the document prints. Document 02 has the printed job as bytes 3, 1.
pub fn wrong(library: &dyn Library) -> Vec<String> {
    let mut wrong = Vec::new();
    for (method, confirm, read, result, turns, lookups) in SAMPLES {
        let job = job(Call::Read, &[method.byte(), confirm], read.as_bytes());
        if !gives(library, &job, result.as_bytes(), turns, lookups) {
            wrong.push(format!("{method:?}, confirm {confirm}, {read:?} does not give {result:?}, turns {turns:?}, lookups {lookups:?}"));
        }
    }
    for sample in SUPPORTED.iter().filter(|sample| !sample.is_right(library)) {
        let Supported { k, keys, counts, job, read, result, support } = sample;
        wrong.push(format!("k {k}, keys {keys:?}, counts {counts:?}, job {job:?}, {read:?} does not give {result:?}, support {support:?}"));
    }
    let batch = job(Call::Batch, &[3, 1], b"AACGCCG\nAA\n");
    if !gives(library, &batch, b"AACTCCG\nAA\n", Some(1), Some(21)) {
        wrong.push("the printed batch differs".to_string());
    }
    for (entries, batch, expected) in PER_BASE {
        let told = per_base(library, &job(Call::Batch, entries, batch.as_bytes()));
        if told != Some(expected) {
            wrong.push(format!("job {entries:?}, {batch:?} has not lookups, quotient, remainder, sum of W {expected:?}: {told:?}"));
        }
    }
    for (entries, file, output, expected) in FASTA {
        let told = fasta(library, entries, file, output);
        if told != expected.map(|text| text.as_bytes().to_vec()) {
            wrong.push(format!("job {entries:?}, {file:?} with an output of {output} does not give {expected:?}: {told:?}"));
        }
    }
    if !index_is_right(library) {
        wrong.push("the index of the samples' set differs".to_string());
    }
    let keys = Keys::new(K, &KEYS);
    for (read, result) in N_AS_G {
        if oracle::pass(&keys, One, 1, read.as_bytes()).bytes != result.as_bytes() {
            wrong.push(format!("natir/br, One, confirm 1, {read:?} does not give {result:?}"));
        }
    }
    wrong
}

/// Document 02, W7, at k = 3: entry v is the number of keys below v, up to 64, in two blocks with checks 113 and 12.
fn index_is_right(library: &dyn Library) -> bool {
    let mut blocks = [1; 1024];
    let words: Vec<u64> = (0..63).map(below).chain([113, 5, 5]).chain([0; 61]).chain([12]).collect();
    library.make_index(&set(), &mut blocks) == Ok(1024) && blocks[..] == words.iter().flat_map(|word| word.to_le_bytes()).collect::<Vec<_>>()
}

/// The number of keys below v.
fn below(v: u64) -> u64 {
    match v {
        0..=6 => 0,
        7..=23 => 1,
        24..=51 => 2,
        52..=58 => 3,
        59..=60 => 4,
        _ => 5,
    }
}

fn fasta(library: &dyn Library, entries: &[u8], file: &str, room: usize) -> Result<Vec<u8>, (u64, usize)> {
    let job = job_with_room(Call::Fasta, entries, file.as_bytes(), room);
    let (mut output, mut work) = (vec![0; job.output], vec![0; job.work]);
    let report = library.correct(&set(), &job, &mut output, &mut work).map_err(|refusal| (refusal.number, refusal.place as usize))?;
    output.truncate(report.written as usize);
    Ok(output)
}

fn per_base(library: &dyn Library, job: &Job) -> Option<[u64; 4]> {
    let (mut output, mut work) = (vec![0; job.output], vec![0; job.work]);
    let report = library.correct(&set(), job, &mut output, &mut work).ok()?;
    Some([report.lookups, report.quotient, report.remainder, report.bases])
}

fn gives(library: &dyn Library, job: &Job, result: &[u8], turns: Option<u64>, lookups: Option<u64>) -> bool {
    let (mut output, mut work) = (vec![0; job.output], vec![0; job.work]);
    let Ok(report) = library.correct(&set(), job, &mut output, &mut work) else { return false };
    output[..report.written as usize] == *result
        && turns.is_none_or(|turns| turns == report.turns)
        && lookups.is_none_or(|lookups| lookups == report.lookups)
}
