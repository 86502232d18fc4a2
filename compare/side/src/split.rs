//! Document 02, W14: a batch or a FASTA file in one call, and cut into parts that are corrected one by one.
use crate::cases::fasta::any_file;
use crate::cases::index::any_site;
use crate::cases::{any_entries, batch_of, job, reads};
use crate::check::{show, Site, LENT};
use crate::library::Library;
use crate::referee::calls::{nearest, Answer, Call, Job, Report};
use crate::rng::Rng;

/// A unit number that no other kind has.
const SPLIT: u64 = 1 << 46;

/// What was compared.
#[derive(Default)]
pub struct Splits {
    pub agreed: u64,
    pub failed: u64,
    /// Parts that were corrected, by kind of call, and those without a line.
    batches: u64,
    files: u64,
    empty: u64,
    /// The shortest input on which parts and whole differ: its length, what it is, and how they differ.
    failure: Option<(usize, String)>,
}

impl Splits {
    pub fn print(&self) {
        println!("parts: {} of batches, {} of FASTA files, {} of them empty", self.batches, self.files, self.empty);
        if let Some((_, failure)) = &self.failure {
            println!("parts differ from the whole: {failure}");
        }
    }
}

/// Where an input may be cut: at line ends, in a FASTA file before name lines.
fn cuts(job: &Job) -> Vec<usize> {
    let ends = (1..=job.input.len()).filter(|end| job.input[end - 1] == 10);
    let behind = |end: &usize| job.call != Call::Fasta || job.input.get(*end) == Some(&b'>');
    ends.filter(behind).collect()
}

/// Parts, one behind the other: some of any length, or one for each line.
fn parts(rng: &mut Rng, job: &Job) -> Vec<Vec<u8>> {
    let all = cuts(job);
    let mut at = match (rng.below(4), all.is_empty()) {
        (_, true) => Vec::new(),
        (0, _) => all,
        _ => (0..rng.within(1, 7)).map(|_| *rng.pick(&all)).collect(),
    };
    at.sort_unstable();
    at.push(job.input.len());
    let mut from = 0;
    at.into_iter().map(|end| job.input[std::mem::replace(&mut from, end)..end].to_vec()).collect()
}

fn correct(library: &dyn Library, site: &Site, job: &Job) -> (Answer, Vec<u8>) {
    let (mut output, mut work) = (vec![LENT; job.output], vec![LENT; job.work]);
    let answer = library.correct(&site.bytes, job, &mut output, &mut work);
    output.truncate(answer.as_ref().map_or(0, |report| report.written as usize));
    (answer, output)
}

/// What the reports of parts make together.
fn added(parts: &[Report]) -> Report {
    let sum = |of: fn(&Report) -> u64| parts.iter().map(of).sum::<u64>();
    let (lookups, bases) = (sum(|part| part.lookups), sum(|part| part.bases));
    let (attempts, accepted) = (sum(|part| part.attempts), sum(|part| part.accepted));
    Report {
        written: sum(|part| part.written),
        turns: sum(|part| part.turns),
        lookups,
        attempts,
        accepted,
        yields: nearest(accepted * 1000, attempts),
        support: parts.iter().filter_map(|part| part.support).min(),
        quotient: lookups.checked_div(bases).unwrap_or(0),
        remainder: lookups.checked_rem(bases).unwrap_or(0),
        bases,
    }
}

/// A whole that was accepted, and its parts, each with or without an index.
fn compare(library: &dyn Library, site: &Site, rng: &mut Rng, whole: &Job, told: (Report, Vec<u8>), splits: &mut Splits) -> Result<(), String> {
    let (expected, text) = told;
    let (mut reports, mut joined) = (Vec::new(), Vec::new());
    for input in parts(rng, whole) {
        splits.empty += input.is_empty() as u64;
        *if whole.call == Call::Fasta { &mut splits.files } else { &mut splits.batches } += 1;
        let index = if rng.percent(50) { site.index().to_vec() } else { Vec::new() };
        // An output no shorter than the whole's is enough.
        match correct(library, site, &Job { index, input, ..whole.clone() }) {
            (Ok(report), bytes) => {
                reports.push(report);
                joined.extend(bytes);
            }
            (Err(refusal), _) => return Err(format!("a part is refused: {refusal:?}")),
        }
    }
    let found = added(&reports);
    match (joined == text, found == expected) {
        (true, true) => Ok(()),
        (false, _) => Err(format!("expected {}, joined {}", show(&text), show(&joined))),
        (_, false) => Err(format!("expected {expected:?}, added {found:?}")),
    }
}

fn any_whole(rng: &mut Rng) -> (Site, Job) {
    let (site, genome) = any_site(rng);
    let count = *rng.pick(&[0, 1, 1, 2, 3]);
    let entries = any_entries(rng, count, 5);
    let (call, input) = match rng.below(2) {
        0 => (Call::Fasta, any_file(rng, &site, &genome, 12)),
        _ => {
            let lines: Vec<Vec<u8>> = (0..rng.below(16)).map(|_| reads::noisy(rng, &genome, 200)).collect();
            (Call::Batch, batch_of(&lines))
        }
    };
    let mut job = job(call, &entries, &input);
    if rng.percent(50) {
        job.counts = site.counts().to_vec();
    }
    (site, job)
}

/// Every whole of a seed.
pub fn run(library: &dyn Library, seed: u64, rounds: u64, splits: &mut Splits) {
    for number in 0..4000 * rounds {
        let rng = &mut Rng::of_unit(seed, SPLIT | number);
        let (site, whole) = any_whole(rng);
        let (Ok(report), text) = correct(library, &site, &whole) else { continue };
        let Err(how) = compare(library, &site, rng, &whole, (report, text), splits) else {
            splits.agreed += 1;
            continue;
        };
        splits.failed += 1;
        let length = whole.input.len() + site.bytes.len();
        if splits.failure.as_ref().is_none_or(|(known, _)| length < *known) {
            splits.failure = Some((length, format!("job {:?}, input {}: {how}", whole.entries, show(&whole.input))));
        }
    }
}
