//! Corrects DNA reads against a set of k-mers that are known to be good: safe calls of the corrector's static library, whose every answer
//! and every lent byte is proved to be what its rules say. The project's README.md has the formats of a set, a job, a batch and FASTA.
//!
//! A call keeps no state and allocates nothing, so any number of threads may call at once with buffers of their own. It keeps its tables
//! on the stack: `CORRECTOR_STACK` of corrector.h says how much a thread needs, which is less than a thread of `std` has.
//!
//! Each call opens the set and fills a table of where its keys start, 10 ms at 4 million keys and 44 at 16 million, so send batches as long as may
//! be. Lend a large set from memory that starts at a multiple of 2 MB, with `madvise(.., MADV_HUGEPAGE)` before the set is read into it: a batch
//! took 17 and 9 % less time with 4 and 16 million keys. Where calls are short, offer the set's index, which saves filling the table.
//!
//! ```
//! # fn set_of(k: u64, keys: &[u64]) -> Vec<u8> {
//! #     let block = |number: u64, words: &[u64]| {
//! #         let sum = words.iter().sum::<u64>() + number + 1;
//! #         let words = words.iter().copied().chain(std::iter::repeat(0)).take(63).chain([sum]);
//! #         words.flat_map(u64::to_le_bytes).collect::<Vec<u8>>()
//! #     };
//! #     [block(0, &[k, keys.len() as u64]), block(1, keys)].concat()
//! # }
//! # let set = set_of(3, &[6, 23, 51, 58, 60]);
//! use corrector::{Entry, Job, Method};
//! let entries = [Entry::new(Method::Graph, 1).expect("confirm is not 0")];
//! let read = b"AACGCCG";
//! let mut output = [0; 16];
//! let mut work = vec![0; corrector::work_length(output.len(), read.len())];
//! let report = corrector::correct_read(&set, None, None, Job::new(&entries), read, &mut output, &mut work)?;
//! assert_eq!(output[..report.written], *b"AACTCCG");
//! // With counts of the keys the report says how well the correction is supported.
//! let counts = [9, 4, 7, 5, 8];
//! let report = corrector::correct_read(&set, None, Some(&counts), Job::new(&entries), read, &mut output, &mut work)?;
//! assert_eq!(report.support, Some(4));
//! # Ok::<(), corrector::Refusal>(())
//! ```
#![deny(missing_docs)]
#![deny(unsafe_code)]

mod bridge;
mod edits;
mod job;
mod raw;
mod refusal;

pub use edits::{Edit, Edits};
pub use bridge::{bridge, code, Bridge, MAX_MOVES};
pub use job::{Entry, Job, Method};
pub use refusal::Refusal;

/// The longest read, batch or FASTA file, in bytes.
pub const MAX_INPUT: usize = 1_048_576;
/// The most entries of a job.
pub const MAX_ENTRIES: usize = 8;
/// The longest output, in bytes.
pub const MAX_OUTPUT: usize = 1_048_576;
/// The longest work buffer, in bytes.
pub const MAX_WORK: usize = 2_097_152;
/// The most lines of a batch.
pub const MAX_LINES: usize = 1_024;
/// The most records of a FASTA file.
pub const MAX_RECORDS: usize = 1_024;

/// The most keys of a set.
pub const MAX_KEYS: usize = 16_777_216;

/// What the header of a set says.
#[derive(Clone, Copy, Debug, PartialEq, Eq)]
pub struct Set {
    /// The length of its k-mers.
    pub k: usize,
    /// The number of its keys.
    pub n: usize,
}

/// The k-mers of a read.
#[derive(Clone, Copy, Debug, PartialEq, Eq)]
pub struct Count {
    /// All of them.
    pub kmers: u64,
    /// Those that are solid.
    pub solid: u64,
}

/// What an accepted call counts. The numbers of a batch are sums over its lines, with the yield, quotient and remainder of the sums; its support is
/// the smallest of theirs.
///
/// To add many calls, add their lookups and their bases and divide once: quotients, as averages, do not add.
///
/// ```
/// # let mut set = vec![0; corrector::set_length(5)];
/// # corrector::make_set(b"ACT,9\nCCG,4\nCTC,7\nAAC,5\nTCC,8\n", 3, 1, &mut set, &mut [0; 5])?;
/// # use corrector::{Entry, Job, Method};
/// # let mut work = [0; 64];
/// # let mut call = |method, batch: &[u8]| {
/// #     let entries = [Entry::new(method, 1).expect("confirm is not 0")];
/// #     corrector::correct_batch(&set, None, None, Job::new(&entries), batch, &mut [0; 16], &mut work)
/// # };
/// let first = call(Method::Graph, b"AACGCCG\n")?;
/// let second = call(Method::One, b"AACGC\nAACGCCG\n")?;
/// assert_eq!((first.lookups, first.bases, first.quotient, first.remainder), (21, 4, 5, 1));
/// assert_eq!((second.lookups, second.bases, second.quotient, second.remainder), (28, 6, 4, 4));
/// let (lookups, bases) = (first.lookups + second.lookups, first.bases + second.bases);
/// assert_eq!((lookups / bases, lookups % bases), (4, 9));
/// # Ok::<(), corrector::Refusal>(())
/// ```
#[derive(Clone, Copy, Debug, PartialEq, Eq)]
pub struct Report {
    /// Bytes of the output.
    pub written: usize,
    /// Bases looked at.
    pub turns: u64,
    /// How often the set was asked for a k-mer.
    pub lookups: u64,
    /// Attempts at a correction.
    pub attempts: u64,
    /// Attempts that were accepted.
    pub accepted: u64,
    /// Accepted × 1000 / attempts to the nearest whole, an exact half to the even neighbour; 0 without attempts.
    pub yield_: u64,
    /// The smallest count behind the accepted corrections, which may be 0; none if nothing was accepted or no counts were offered.
    pub support: Option<u32>,
    /// Lookups for each base: the whole quotient of [`lookups`](Report::lookups) by [`bases`](Report::bases), 0 without bases.
    pub quotient: u64,
    /// What is left: quotient × bases + remainder are the lookups, and the remainder is smaller than the bases. 0 without bases.
    pub remainder: u64,
    /// The sum over all passes of W, the bases beyond the first k.
    pub bases: u64,
}

/// What a batch will need, exactly. All three are sums over its lines.
#[derive(Clone, Copy, Debug, PartialEq, Eq)]
pub struct Needs {
    /// Bytes of the output, which may be more than [`MAX_OUTPUT`].
    pub bytes: usize,
    /// Bases looked at.
    pub turns: u64,
    /// How often the set will be asked for a k-mer.
    pub lookups: u64,
}

/// The least work buffer for an output and a read, batch or FASTA file of these lengths.
pub fn work_length(output: usize, input: usize) -> usize {
    2 * output.max(input)
}

/// Checks a set. The other calls check it too.
pub fn open(set: &[u8]) -> Result<Set, Refusal> {
    match raw::open(set) {
        [0, _, k, n] => Ok(Set { k: k as usize, n: n as usize }),
        [number, place, ..] => Err(Refusal::from_numbers(number, place)),
    }
}

/// Corrects a read by the job's entries, each of which reads the result of the one before and has its own confirm.
///
/// Accepted, `output` has the result in its first [`written`](Report::written) bytes and zeros behind it, and `work` is all zero. Refused
/// with [`Refusal::NoRoom`], both are all zero; refused otherwise, neither has changed. The set is checked at each call, so many reads are
/// better sent as a batch.
///
/// An index of the set, from [`make_index`], saves a call the walk over all keys by which it would fill its own table. It changes no result and
/// no number; an index of another set is refused. An empty one counts as none.
///
/// Counts, one for each key in the order of the keys, make a call tell the [`support`](Report::support): the smallest count, over all
/// accepted corrections, of the k-mer that the used scenario tried (One, Two) or of every k-mer that the walk went through, its last one too (Graph,
/// GapSize). They change no other number and no byte; as many as there are keys are taken, and others refused. An empty list counts as none.
pub fn correct_read(
    set: &[u8],
    index: Option<&[u8]>,
    counts: Option<&[u32]>,
    job: Job<'_>,
    read: &[u8],
    output: &mut [u8],
    work: &mut [u8],
) -> Result<Report, Refusal> {
    answer(raw::correct(raw::Call::Read, lent(set, index, counts, job, read, output, work)))
}

/// Corrects a batch, lines each ended by byte 10, as [`correct_read`] does a read. The output is lines too.
pub fn correct_batch(
    set: &[u8],
    index: Option<&[u8]>,
    counts: Option<&[u32]>,
    job: Job<'_>,
    batch: &[u8],
    output: &mut [u8],
    work: &mut [u8],
) -> Result<Report, Refusal> {
    answer(raw::correct(raw::Call::Batch, lent(set, index, counts, job, batch, output, work)))
}

/// Corrects the reads of a FASTA file, each as [`correct_read`] does. A record is a name line, which starts with `>`, and its sequence lines, if any,
/// joined without their ends; lines of no bytes are skipped. The output has each name line unchanged and the corrected read in lines of 80 letters, the
/// last possibly shorter, none for an empty read. Read again, it has the same names and reads.
///
/// The file is empty or ends with byte 10. Bytes are taken as they are: byte 13 is a base of its line, so convert a file with CRLF ends first. A
/// sequence line before the first name line, or one that holds `>`, is [`Refusal::Sequence`]. [`Refusal::NoRoom`] tells the first record whose text, or
/// one of whose pass results, is longer than what is left of the output before its name line.
///
/// ```
/// # let mut set = vec![0; corrector::set_length(5)];
/// # corrector::make_set(b"ACT,9\nCCG,4\nCTC,7\nAAC,5\nTCC,8\n", 3, 1, &mut set, &mut [0; 5])?;
/// use corrector::{Entry, Job, Method};
/// let entries = [Entry::new(Method::Graph, 1).expect("confirm is not 0")];
/// let file = b">first\nAACG\nCCG\n>second\n\n>third\nAA\n";
/// let mut output = [0; 64];
/// let mut work = vec![0; corrector::work_length(output.len(), file.len())];
/// let report = corrector::correct_fasta(&set, None, None, Job::new(&entries), file, &mut output, &mut work)?;
/// assert_eq!(output[..report.written], *b">first\nAACTCCG\n>second\n>third\nAA\n");
/// # Ok::<(), corrector::Refusal>(())
/// ```
pub fn correct_fasta(
    set: &[u8],
    index: Option<&[u8]>,
    counts: Option<&[u32]>,
    job: Job<'_>,
    file: &[u8],
    output: &mut [u8],
    work: &mut [u8],
) -> Result<Report, Refusal> {
    answer(raw::correct(raw::Call::Fasta, lent(set, index, counts, job, file, output, work)))
}

/// What a batch will need by a job of one entry: the exact bytes of its output, its turns and its lookups. No output is lent.
///
/// With the same set, job and batch, and with buffers within the limits, [`correct_batch`] is accepted exactly when its output has at least
/// [`bytes`](Needs::bytes), and then reports these numbers; a shorter output is [`Refusal::NoRoom`]. So it is whatever index and counts either call
/// offers, if they are taken. More bytes than [`MAX_OUTPUT`] say that no output is long enough: split the batch.
///
/// Another job than one of one entry is [`Refusal::NotOneEntry`], told behind 4 and before 5, and [`Refusal::Buffers`] says that `work` is shorter
/// than the batch, and nothing else: it may be of any length from there on. Otherwise it is refused as [`correct_batch`] is. Accepted, `work` is all
/// zero; refused, it has not changed.
///
/// ```
/// # let mut set = vec![0; corrector::set_length(5)];
/// # corrector::make_set(b"ACT,9\nCCG,4\nCTC,7\nAAC,5\nTCC,8\n", 3, 1, &mut set, &mut [0; 5])?;
/// use corrector::{Entry, Job, Method};
/// let entries = [Entry::new(Method::One, 1).expect("confirm is not 0")];
/// let (job, batch) = (Job::new(&entries), b"AACGCCG\nAACC\n");
/// let needs = corrector::needs(&set, None, None, job, batch, &mut vec![0; batch.len()])?;
/// assert_eq!((needs.bytes, needs.turns, needs.lookups), (14, 6, 27));
/// let mut output = vec![0; needs.bytes];
/// let mut work = vec![0; corrector::work_length(output.len(), batch.len())];
/// let report = corrector::correct_batch(&set, None, None, job, batch, &mut output, &mut work)?;
/// assert_eq!((report.written, report.turns, report.lookups), (needs.bytes, needs.turns, needs.lookups));
/// assert_eq!(output, *b"AACTCCG\nAACTC\n");
/// # Ok::<(), corrector::Refusal>(())
/// ```
pub fn needs(set: &[u8], index: Option<&[u8]>, counts: Option<&[u32]>, job: Job<'_>, batch: &[u8], work: &mut [u8]) -> Result<Needs, Refusal> {
    match raw::needs(lent(set, index, counts, job, batch, &mut [], work)) {
        [0, _, bytes, turns, lookups] => Ok(Needs { bytes: bytes as usize, turns, lookups }),
        [number, place, ..] => Err(Refusal::from_numbers(number, place)),
    }
}

fn lent<'a>(
    set: &'a [u8],
    index: Option<&'a [u8]>,
    counts: Option<&'a [u32]>,
    job: Job<'a>,
    input: &'a [u8],
    output: &'a mut [u8],
    work: &'a mut [u8],
) -> raw::Lent<'a> {
    raw::Lent { set, index: index.unwrap_or_default(), counts: counts.unwrap_or_default(), job: job.as_bytes(), input, output, work }
}

/// The k-mers of a read, and the solid ones among them. A read that is shorter than k has none.
pub fn count_solid(set: &[u8], read: &[u8]) -> Result<Count, Refusal> {
    match raw::count_solid(set, read) {
        [0, _, kmers, solid] => Ok(Count { kmers, solid }),
        [number, place, ..] => Err(Refusal::from_numbers(number, place)),
    }
}

/// The length of a set of n keys, in bytes.
pub fn set_length(n: usize) -> usize {
    512 * (1 + n.div_ceil(63))
}

/// Makes a set, and the list of its keys' counts, from k-mer counts as text: lines of k letters A, C, G, T, a comma, a count of 1 to 10 digits, and
/// byte 10. Lines whose count is below `least` are passed over. The canonical codes of the others must rise strictly, in the order of the lines;
/// README.md says how a text is brought into that order.
///
/// Accepted, `blocks` has the set in its first bytes, as many as the call answers, `counts` the counts of its n keys in its first n numbers, larger
/// ones held at [`u32::MAX`], and both have zeros behind them; [`set_length`] of the lines' number is always enough, and so is a list as long as that
/// number. Refused, neither has changed: with [`Refusal::SetHeader`] k is not odd from 1 to 31 or over [`MAX_KEYS`] lines are kept, and with
/// [`Refusal::TooShort`] `blocks` or `counts` is too short.
///
/// ```
/// let text = b"ACT,9\nCCG,4\nCTC,7\nAAC,5\nTCC,8\n";
/// let (mut blocks, mut counts) = (vec![0; corrector::set_length(5)], vec![0; 5]);
/// let length = corrector::make_set(text, 3, 5, &mut blocks, &mut counts)?;
/// let set = corrector::open(&blocks[..length])?;
/// assert_eq!(set, corrector::Set { k: 3, n: 4 });
/// assert_eq!(counts[..set.n], [9, 7, 5, 8]);
/// # Ok::<(), corrector::Refusal>(())
/// ```
pub fn make_set(text: &[u8], k: u64, least: u64, blocks: &mut [u8], counts: &mut [u32]) -> Result<usize, Refusal> {
    made(raw::make_set(text, k, least, blocks, counts))
}

/// The length of an index of a set with this k, in bytes.
pub fn index_length(k: usize) -> usize {
    512 * (4_usize.pow(k.min(6) as u32) + 1).div_ceil(63)
}

/// Makes the index of a set by first letters: entry v, from 0 to 4^m, is the number of keys whose first m letters have a code below v, m being
/// the smaller of 6 and k. It is blocks as a set's are, numbered from 0, with the entries from block 0 on.
///
/// Accepted, `blocks` has the index in its first bytes, as many as the call answers, and zeros behind them; [`index_length`] says how many. A set
/// is refused as by [`open`], then a buffer that is too short; refused, `blocks` has not changed.
///
/// ```
/// # let mut set = vec![0; corrector::set_length(5)];
/// # corrector::make_set(b"ACT,9\nCCG,4\nCTC,7\nAAC,5\nTCC,8\n", 3, 1, &mut set, &mut [0; 5])?;
/// let k = corrector::open(&set)?.k;
/// let mut index = vec![0; corrector::index_length(k)];
/// assert_eq!(corrector::make_index(&set, &mut index)?, index.len());
/// # Ok::<(), corrector::Refusal>(())
/// ```
pub fn make_index(set: &[u8], blocks: &mut [u8]) -> Result<usize, Refusal> {
    made(raw::make_index(set, blocks))
}

/// Whether another program's edits turn `read` into `mended`, with solid k-mers around them. `letters` are those of all edits, one after the other.
///
/// Three judgements are made, each over all edits before the next. *Form*: an edit has three numbers, a position of at least k, and position + taken at
/// most the read's length less 1; the letters given so far are no more than there are; it begins behind the position of the edit before it, and not
/// before that one's end. *K-mers*: in the read with all edits made, each k-mer is solid whose last base is the one before the edit's letters, one of
/// them, or the one after. *Joining*: the read with all edits made is `mended`, byte for byte, and no letter is left over.
///
/// A sheet is accepted exactly when it has these properties, whoever made it; else [`Refusal::Edit`] tells the first edit that offends in the first
/// judgement that fails, or the number of edits where only the joining differs. Before that either read may be [`Refusal::InputLength`], and the set
/// be refused as by [`open`].
///
/// ```
/// # let mut set = vec![0; corrector::set_length(5)];
/// # corrector::make_set(b"ACT,9\nCCG,4\nCTC,7\nAAC,5\nTCC,8\n", 3, 1, &mut set, &mut [0; 5])?;
/// use corrector::{Edit, Edits, Refusal};
/// let edits = [Edit { position: 3, taken: 1, given: 1 }];
/// assert_eq!(corrector::check_edits(&set, b"AACGCCG", b"AACTCCG", Edits::new(&edits), b"T"), Ok(()));
/// // ACA is not solid.
/// assert_eq!(corrector::check_edits(&set, b"AACGCCG", b"AACACCG", Edits::new(&edits), b"A"), Err(Refusal::Edit { edit: 0 }));
/// // Only the joining differs.
/// assert_eq!(corrector::check_edits(&set, b"AACGCCG", b"AACTCC", Edits::new(&edits), b"T"), Err(Refusal::Edit { edit: 1 }));
/// # Ok::<(), Refusal>(())
/// ```
pub fn check_edits(set: &[u8], read: &[u8], mended: &[u8], edits: Edits<'_>, letters: &[u8]) -> Result<(), Refusal> {
    match raw::check_edits(set, read, mended, edits.as_numbers(), letters) {
        [0, _] => Ok(()),
        [number, place] => Err(Refusal::from_numbers(number, place)),
    }
}

// The length of the blocks that a maker answers.
fn made(numbers: [u64; 3]) -> Result<usize, Refusal> {
    match numbers {
        [0, _, length] => Ok(length as usize),
        [number, place, _] => Err(Refusal::from_numbers(number, place)),
    }
}

fn answer(numbers: [u64; 13]) -> Result<Report, Refusal> {
    match numbers {
        [0, _, written, turns, lookups, attempts, accepted, yield_, supported, support, quotient, remainder, bases] => {
            let support = (supported == 1).then_some(support as u32);
            Ok(Report { written: written as usize, turns, lookups, attempts, accepted, yield_, support, quotient, remainder, bases })
        }
        [number, place, ..] => Err(Refusal::from_numbers(number, place)),
    }
}
