//! Document 02, "What will this job need?", written from the documents alone.
use super::calls::{entries, job_refusal, lines_refusal, offered, passes_of, reads, Job};
use super::driver::Pass;
use super::set::{Refusal, Set};

/// The exact bytes that the batch will be, its turns and its lookups.
#[derive(Clone, Copy, Debug, PartialEq, Eq)]
pub struct Needs {
    pub bytes: u64,
    pub turns: u64,
    pub lookups: u64,
}

/// What the call answers, and the one pass of each line.
pub struct Needed {
    pub answer: Result<Needs, Refusal>,
    pub passes: Vec<Vec<Pass>>,
}

/// The call. It has no output, so nothing can be too long for it.
pub fn needs(opened: &Result<Set, Refusal>, job: &Job) -> Needed {
    match checked(opened, job) {
        Err(refusal) => Needed { answer: Err(refusal), passes: Vec::new() },
        Ok(set) => {
            let passes: Vec<Vec<Pass>> = reads(job).into_iter().map(|read| passes_of(set, &entries(job), &read)).collect();
            Needed { answer: Ok(sum(&passes)), passes }
        }
    }
}

/// Checks 1 to 10, 15 and 16 as they apply to the real call, with 17 after 4; 5 means only a work buffer shorter than the batch.
pub fn checked<'a>(opened: &'a Result<Set, Refusal>, job: &Job) -> Result<&'a Set, Refusal> {
    let own = || entries_refusal(job).or_else(|| work_refusal(job));
    let refused = job_refusal(job).or_else(own).or_else(|| lines_refusal(job));
    refused.map_or_else(|| offered(opened, job), Err)
}

/// Refusal 17: the job has other than one method.
fn entries_refusal(job: &Job) -> Option<Refusal> {
    (entries(job).len() != 1).then_some(Refusal::new(17, 0))
}

/// Refusal 5 of this call.
fn work_refusal(job: &Job) -> Option<Refusal> {
    (job.work < job.input.len()).then_some(Refusal::new(5, 0))
}

/// Each line's result with its byte 10, and the counts of its one pass.
pub fn sum(passes: &[Vec<Pass>]) -> Needs {
    let sum = |of: fn(&Pass) -> u64| passes.iter().flatten().map(of).sum();
    Needs { bytes: sum(|pass| pass.bytes.len() as u64 + 1), turns: sum(|pass| pass.turns), lookups: sum(|pass| pass.lookups) }
}
