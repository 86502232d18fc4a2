//! "Job" as document 02 has it, "Report" and the refusals: the single-read and the batch call.
use super::correctors::Method;
use super::driver::{pass, Pass};
use super::fasta;
use super::index;
use super::letters::Kmer;
use super::set::{Refusal, Set};
use std::borrow::Cow;

pub const MOST_INPUT: usize = 1_048_576;
const MOST_ENTRIES: usize = 8;
pub const MOST_OUTPUT: usize = 1_048_576;
pub const MOST_WORK: usize = 2_097_152;
const MOST_LINES: usize = 1_024;

#[derive(Clone, Copy, Debug, PartialEq, Eq)]
pub enum Call {
    Read,
    Batch,
    /// Document 02, W11: see `fasta`.
    Fasta,
    /// Document 02, W9: see `needs`.
    Needs,
}

/// What a call is given beside the set: the lent buffers by their lengths. Needs is lent no output.
#[derive(Clone, Debug)]
pub struct Job {
    pub call: Call,
    /// The index that is offered with the set; none if it is empty.
    pub index: Vec<u8>,
    /// The counts of the set's keys; not offered if there are none.
    pub counts: Vec<u32>,
    /// The bytes of a job file: pairs, method first.
    pub entries: Vec<u8>,
    pub input: Vec<u8>,
    pub output: usize,
    pub work: usize,
}

/// An entry of a job: a method byte and its own confirm.
#[derive(Clone, Copy, Debug, PartialEq, Eq)]
pub struct Entry {
    pub method: u8,
    pub confirm: u8,
}

#[derive(Clone, Copy, Debug, PartialEq, Eq)]
pub struct Report {
    pub written: u64,
    pub turns: u64,
    pub lookups: u64,
    pub attempts: u64,
    pub accepted: u64,
    pub yields: u64,
    /// None if nothing was accepted or no counts are offered.
    pub support: Option<u32>,
    /// Document 02, W10: of the lookups by the sum of W, both 0 where that is 0.
    pub quotient: u64,
    pub remainder: u64,
    /// The sum of W.
    pub bases: u64,
}

pub type Answer = Result<Report, Refusal>;

/// What a call answers and writes, and the passes that it made: for each read one for each entry.
pub struct Outcome {
    pub answer: Answer,
    pub bytes: Vec<u8>,
    pub passes: Vec<Vec<Pass>>,
}

impl Outcome {
    pub fn refused(refusal: Refusal) -> Self {
        Outcome { answer: Err(refusal), bytes: Vec::new(), passes: Vec::new() }
    }
}

/// The reads of a call: a single read is a list of one read, a batch is lines each ended by byte 10, a FASTA file has a read in each record.
pub fn reads(job: &Job) -> Vec<Cow<'_, [u8]>> {
    match job.call {
        Call::Read => vec![Cow::from(&job.input)],
        Call::Batch | Call::Needs => job.input.split_inclusive(|byte| *byte == 10).map(|line| Cow::from(&line[..line.len() - 1])).collect(),
        Call::Fasta => fasta::records(&job.input).into_iter().map(|record| Cow::from(record.read)).collect(),
    }
}

/// The entries of a job. One without its second byte has confirm 0.
pub fn entries(job: &Job) -> Vec<Entry> {
    job.entries.chunks(2).map(|pair| Entry { method: pair[0], confirm: pair.get(1).copied().unwrap_or(0) }).collect()
}

/// The k-mers of a read and the solid ones among them, or refusal 1 or 7 to 10. One that holds an unknown letter isn't solid.
pub fn count_solid(opened: &Result<Set, Refusal>, read: &[u8]) -> Result<(u64, u64), Refusal> {
    if read.len() > MOST_INPUT {
        return Err(Refusal::new(1, 0));
    }
    let set = opened.as_ref().map_err(|refusal| *refusal)?;
    let kmers = read.windows(set.k).map(|window| Kmer::of(set.k, window).code());
    Ok((kmers.len() as u64, kmers.flatten().filter(|code| set.solid(*code)).count() as u64))
}

/// The single-read, the batch or the FASTA call.
pub fn call(opened: &Result<Set, Refusal>, job: &Job) -> Outcome {
    let refused = job_refusal(job).or_else(|| buffers_refusal(job)).or_else(|| lines_refusal(job));
    match refused.map_or_else(|| offered(opened, job), Err) {
        Err(refusal) => Outcome::refused(refusal),
        Ok(set) if job.call == Call::Fasta => fasta::correct(set, job),
        Ok(set) => correct(set, job),
    }
}

/// The set, or refusals 7 to 10, then 15 and 16.
pub fn offered<'a>(opened: &'a Result<Set, Refusal>, job: &Job) -> Result<&'a Set, Refusal> {
    let set = opened.as_ref().map_err(|refusal| *refusal)?;
    match index::refusal(set, &job.index).or(counts_refusal(set, &job.counts)) {
        Some(refusal) => Err(refusal),
        None => Ok(set),
    }
}

/// Refusal 16, checked after 15: the length of an offered count list isn't n. An empty one counts as not offered.
fn counts_refusal(set: &Set, counts: &[u32]) -> Option<Refusal> {
    (!counts.is_empty() && counts.len() != set.keys.len()).then_some(Refusal::new(16, 0))
}

/// Refusals 1 to 4, checked upward.
pub fn job_refusal(job: &Job) -> Option<Refusal> {
    let refuse = |number, place| Some(Refusal::new(number, place));
    if job.input.len() > MOST_INPUT {
        return refuse(1, 0);
    }
    let entries = entries(job);
    if entries.len() > MOST_ENTRIES {
        return refuse(2, 0);
    }
    if let Some(place) = entries.iter().position(|entry| Method::of(entry.method).is_none()) {
        return refuse(3, place);
    }
    entries.iter().position(|entry| entry.confirm == 0).map(|place| Refusal::new(4, place))
}

/// Refusal 5.
fn buffers_refusal(job: &Job) -> Option<Refusal> {
    let wrong = job.output > MOST_OUTPUT || job.work > MOST_WORK || job.work < 2 * job.output.max(job.input.len());
    wrong.then_some(Refusal::new(5, 0))
}

/// Refusal 6, of lines; of a FASTA file 6 and then 18.
pub fn lines_refusal(job: &Job) -> Option<Refusal> {
    if job.call == Call::Fasta {
        return fasta::file_refusal(&job.input).or_else(|| fasta::sequence_refusal(&job.input));
    }
    let ended = job.input.last().is_none_or(|byte| *byte == 10);
    let lines = job.input.iter().filter(|byte| **byte == 10).count();
    (job.call != Call::Read && (!ended || lines > MOST_LINES)).then_some(Refusal::new(6, 0))
}

/// The reads in turn, each through all entries; 11 at the first of which a pass result has no room.
fn correct(set: &Set, job: &Job) -> Outcome {
    let ending: &[u8] = match job.call {
        Call::Read => &[],
        Call::Batch | Call::Needs | Call::Fasta => &[10],
    };
    let entries = entries(job);
    let (mut bytes, mut passes) = (Vec::new(), Vec::new());
    for (line, read) in reads(job).into_iter().enumerate() {
        let made = passes_of(set, &entries, &read);
        let longest = made.iter().map(|pass| pass.bytes.len()).max().unwrap_or(read.len());
        if longest + ending.len() > job.output - bytes.len() {
            return Outcome::refused(Refusal::new(11, line));
        }
        bytes.extend_from_slice(made.last().map_or(&read, |pass| &pass.bytes));
        bytes.extend_from_slice(ending);
        passes.push(made);
    }
    Outcome { answer: Ok(report(bytes.len(), &passes, &job.counts)), bytes, passes }
}

/// A read's first pass is fed the read, each later one the bytes of the pass before; each has its own entry's confirm.
pub fn passes_of(set: &Set, entries: &[Entry], read: &[u8]) -> Vec<Pass> {
    let mut made: Vec<Pass> = Vec::with_capacity(entries.len());
    for entry in entries {
        let fed = made.last().map_or(read, |pass| &pass.bytes);
        let method = Method::of(entry.method).expect("refused otherwise");
        made.push(pass(set, method, entry.confirm, fed));
    }
    made
}

/// Rounded to the nearest whole, an exact half to the even neighbour; 0 without attempts (document 02, W4).
pub fn nearest(parts: u64, whole: u64) -> u64 {
    if whole == 0 {
        return 0;
    }
    let (quotient, rest) = (parts / whole, parts % whole);
    match (2 * rest).cmp(&whole) {
        std::cmp::Ordering::Less => quotient,
        std::cmp::Ordering::Greater => quotient + 1,
        std::cmp::Ordering::Equal if quotient % 2 == 0 => quotient,
        std::cmp::Ordering::Equal => quotient + 1,
    }
}

/// The smallest count behind any accepted correction of any pass (document 02, W8).
pub fn support(passes: &[Vec<Pass>], counts: &[u32]) -> Option<u32> {
    if counts.is_empty() {
        return None;
    }
    let evidence = passes.iter().flatten().flat_map(|pass| &pass.evidence).flatten();
    evidence.map(|key| counts[*key]).min()
}

/// Numbers are sums over all passes, yield, quotient and remainder from the sums, support the smallest of all.
pub fn report(written: usize, passes: &[Vec<Pass>], counts: &[u32]) -> Report {
    let sum = |of: fn(&Pass) -> u64| passes.iter().flatten().map(of).sum();
    let (attempts, accepted): (u64, u64) = (sum(|pass| pass.attempts), sum(|pass| pass.accepted));
    let (lookups, bases): (u64, u64) = (sum(|pass| pass.lookups), sum(|pass| pass.w));
    Report {
        written: written as u64,
        turns: sum(|pass| pass.turns),
        lookups,
        attempts,
        accepted,
        yields: nearest(accepted * 1000, attempts),
        support: support(passes, counts),
        quotient: lookups.checked_div(bases).unwrap_or(0),
        remainder: lookups.checked_rem(bases).unwrap_or(0),
        bases,
    }
}
