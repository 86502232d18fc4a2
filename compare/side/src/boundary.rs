//! The corrector, through the wrapper of crates/exports.
use crate::library::Library;
use crate::referee::bridge::Bridge;
use crate::referee::calls::{Answer, Call, Job, Report};
use crate::referee::edits::Sheet;
use crate::referee::needs::Needs;
use crate::referee::set::Refusal;

pub struct Linked;

impl Library for Linked {
    fn name(&self) -> &'static str {
        "the corrector"
    }

    fn open(&self, set: &[u8]) -> Result<(u64, u64), Refusal> {
        corrector::open(set).map(|set| (set.k as u64, set.n as u64)).map_err(refusal)
    }

    fn correct(&self, set: &[u8], job: &Job, output: &mut [u8], work: &mut [u8]) -> Answer {
        let call = match job.call {
            Call::Read => corrector::correct_read,
            Call::Batch | Call::Needs => corrector::correct_batch,
            Call::Fasta => corrector::correct_fasta,
        };
        let (index, counts) = offered(job);
        call(set, index, counts, corrector::Job::from_bytes(&job.entries), &job.input, output, work).map(report).map_err(refusal)
    }

    fn needs(&self, set: &[u8], job: &Job, work: &mut [u8]) -> Result<Needs, Refusal> {
        let (index, counts) = offered(job);
        let needs = corrector::needs(set, index, counts, corrector::Job::from_bytes(&job.entries), &job.input, work).map_err(refusal)?;
        Ok(Needs { bytes: needs.bytes as u64, turns: needs.turns, lookups: needs.lookups })
    }

    fn make_set(&self, text: &[u8], k: u64, least: u64, blocks: &mut [u8], counts: &mut [u32]) -> Result<u64, Refusal> {
        corrector::make_set(text, k, least, blocks, counts).map(|length| length as u64).map_err(refusal)
    }

    fn make_index(&self, set: &[u8], blocks: &mut [u8]) -> Result<u64, Refusal> {
        corrector::make_index(set, blocks).map(|length| length as u64).map_err(refusal)
    }

    fn count_solid(&self, set: &[u8], read: &[u8]) -> Result<(u64, u64), Refusal> {
        corrector::count_solid(set, read).map(|count| (count.kmers, count.solid)).map_err(refusal)
    }

    fn check_edits(&self, set: &[u8], sheet: &Sheet) -> Result<(), Refusal> {
        corrector::check_edits(set, &sheet.read, &sheet.mended, corrector::Edits::from_numbers(&sheet.numbers), &sheet.letters).map_err(refusal)
    }

    fn bridge(&self, set: &[u8], from: u64, to: u64, budget: u64) -> Result<Bridge, Refusal> {
        let bridge = corrector::bridge(set, from, to, budget).map_err(refusal)?;
        Ok(Bridge { chain: bridge.chain().map(<[u8]>::to_vec), lookups: bridge.lookups, floor: bridge.floor })
    }
}

/// The index and the counts that a job offers.
fn offered(job: &Job) -> (Option<&[u8]>, Option<&[u32]>) {
    ((!job.index.is_empty()).then_some(&job.index), (!job.counts.is_empty()).then_some(&job.counts))
}

fn report(report: corrector::Report) -> Report {
    let corrector::Report { written, turns, lookups, attempts, accepted, yield_, support, quotient, remainder, bases } = report;
    Report { written: written as u64, turns, lookups, attempts, accepted, yields: yield_, support, quotient, remainder, bases }
}

fn refusal(refusal: corrector::Refusal) -> Refusal {
    Refusal::new(refusal.number().into(), refusal.place())
}
