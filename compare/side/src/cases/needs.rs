//! What batches need: work buffers of every length, jobs of other than one entry, what else is refused, and results longer than any output.
use super::index::any_site;
use super::{any_entries, any_entry, batch_of, counts, damage, reads, Visit};
use crate::check::Site;
use crate::referee::calls::{Call, Job, MOST_OUTPUT, MOST_WORK};
use crate::rng::Rng;
use crate::set_file;
use cocktail::kmer::{canonical, nuc2bit};
use std::collections::HashSet;

const MOST_INPUT: usize = 1_048_576;

/// Units of `long` that have no batch of a million bytes, before one that has.
const SHORT: u64 = 7;

/// A call with the least work buffer that is accepted.
pub fn job(entries: &[u8], batch: &[u8]) -> Job {
    let (index, counts) = (Vec::new(), Vec::new());
    Job { call: Call::Needs, index, counts, entries: entries.to_vec(), input: batch.to_vec(), output: 0, work: batch.len() }
}

/// A few lines with errors.
pub fn any_batch(rng: &mut Rng, site: &Site, genome: &[u8]) -> Vec<u8> {
    let mut next = || match rng.below(8) {
        0 => reads::in_set(rng, site),
        1 => {
            let read = reads::noisy(rng, genome, 80);
            reads::with_unknown(rng, read)
        }
        _ => reads::noisy(rng, genome, 120),
    };
    let mut lines: Vec<_> = (0..4).map(|_| next()).filter(|line| !line.contains(&10)).collect();
    lines.truncate(rng.below(5));
    batch_of(&lines)
}

/// Lengths of a work buffer for a batch: as long, shorter and longer.
pub fn works(rng: &mut Rng, batch: usize) -> Vec<usize> {
    let mut works = vec![batch, batch + 1, 2 * batch, batch + rng.below(200)];
    if batch > 0 {
        works.extend([batch - 1, rng.below(batch), 0]);
    }
    works
}

/// The same call with one or more of what is checked behind 17: work a byte short (5), no final byte 10 (6).
pub fn with_later_faults(rng: &mut Rng, job: &Job) -> Job {
    let mut job = job.clone();
    if rng.percent(50) {
        job.input.push(b'A');
        job.work = job.input.len();
    }
    if rng.percent(50) || job.input.last().is_none_or(|byte| *byte == 10) {
        job.work = job.input.len().saturating_sub(1);
    }
    job
}

/// Every length of the work buffer; every kind of job, alone and with later faults; whatever is offered; inputs and sets that are refused.
pub fn asked(rng: &mut Rng, number: u64, visit: &mut Visit) {
    let (site, genome) = any_site(rng);
    for _ in 0..6 {
        let job = job(&any_entry(rng), &any_batch(rng, &site, &genome));
        for work in works(rng, job.input.len()) {
            visit(&site, Some(&Job { work, ..job.clone() }));
        }
        if rng.percent(5) {
            let work = rng.within(MOST_WORK - 1, MOST_WORK + 1_000_000);
            visit(&site, Some(&Job { work, ..job }));
        }
    }
    let other = Site::new(damage::set(rng));
    let batch = any_batch(rng, &site, &genome);
    let mut jobs = vec![Vec::new(), any_entries(rng, 2, 4), any_entries(rng, 8, 4)];
    damage::jobs(rng, &mut |entries| jobs.push(entries.to_vec()));
    for entries in jobs {
        let job = job(&entries, &batch);
        for site in [&site, &other] {
            visit(site, Some(&job));
            visit(site, Some(&with_later_faults(rng, &job)));
        }
    }
    offered(rng, &site, &genome, visit);
    for _ in 0..10 {
        let mut real = None;
        damage::input(rng, &genome, number % 40 == 0, &mut |job| real = Some(job.clone()));
        let Some(real) = real else { continue };
        let works = works(rng, real.input.len());
        let job = Job { call: Call::Needs, output: 0, work: *rng.pick(&works), ..real };
        visit(&site, Some(&job));
        visit(&other, Some(&job));
    }
}

/// An index and counts of the set, or not of it.
fn offered(rng: &mut Rng, site: &Site, genome: &[u8], visit: &mut Visit) {
    let mut off = site.index().to_vec();
    off[rng.below(site.index().len())] ^= 1 << rng.below(8);
    let n = site.opened.as_ref().map_or(1, |set| set.keys.len());
    let mut lists = counts::wrong(rng, n);
    lists.extend([Vec::new(), site.counts().to_vec()]);
    for index in [Vec::new(), site.index().to_vec(), off] {
        for counts in &lists {
            let job = job(&any_entry(rng), &any_batch(rng, site, genome));
            visit(site, Some(&Job { index: index.clone(), counts: counts.clone(), ..job }));
        }
    }
}

/// A set on which Graph goes round: ACAC..A is solid and CACA..C is not, for A and C any two letters that aren't paired; and from the one there is but one way, of `letters` letters,
/// which comes back to it.
pub struct Round {
    pub site: Site,
    pub k: usize,
    pair: [u8; 2],
}

impl Round {
    /// A circle of random letters and their reverse complement, so that it has half as many keys as letters.
    pub fn new(rng: &mut Rng, k: usize, letters: usize) -> Self {
        loop {
            let pair = *rng.pick(&[*b"AC", *b"CA", *b"AG", *b"GA", *b"CT", *b"TC", *b"GT", *b"TG"]);
            let mut half: Vec<u8> = pair.iter().copied().cycle().take(k).collect();
            half.extend(reads::letters(rng, letters / 2 - k));
            let circle = [half.clone(), reads::reverse_complement(&half)].concat();
            if let Some(round) = Self::of_circle(k, pair, &circle) {
                return round;
            }
        }
    }

    /// ACA, CAA, AAC: three letters for each CA.
    pub fn smallest() -> Self {
        Self::of_circle(3, *b"AC", b"ACA").expect("one way")
    }

    /// None where there is more than one way, or a read of the two letters needs no correction.
    fn of_circle(k: usize, pair: [u8; 2], circle: &[u8]) -> Option<Self> {
        let turned: Vec<u8> = circle.iter().cycle().take(circle.len() + k - 1).copied().collect();
        let code = |kmer: &[u8]| kmer.iter().fold(0, |code, letter| code << 2 | nuc2bit(*letter));
        let keys = set_file::keys_of(k as u8, turned.windows(k).map(code));
        let key = |kmer: u64| keys.binary_search(&canonical(kmer, k as u8)).is_ok();
        let sole = |kmer: u64| (0..4).filter(|next| key((kmer << 2) & ((1 << (2 * k)) - 1) | next)).count() == 1;
        let kmers: HashSet<u64> = turned.windows(k).map(code).collect();
        let bad: Vec<u8> = [pair[1], pair[0]].into_iter().cycle().take(k).collect();
        let right = kmers.len() == circle.len() && kmers.iter().all(|kmer| sole(*kmer)) && !key(code(&bad));
        right.then(|| Round { site: Site::new(set_file::make(k as u64, &keys)), k, pair })
    }

    /// A line that goes round so many times.
    pub fn line(&self, times: usize) -> Vec<u8> {
        self.pair.iter().copied().cycle().take(self.k + 2 * times).chain([10]).collect()
    }
}

/// Reads of a genome of which letters are missing, as many as a batch takes.
fn with_deletions(rng: &mut Rng, genome: &[u8], apart: usize) -> Vec<u8> {
    let mut batch = Vec::new();
    loop {
        let start = rng.below(genome.len());
        let whole = genome.iter().cycle().skip(start).take(4_000);
        let mut line: Vec<u8> = whole.copied().filter(|_| rng.below(apart) > 0).collect();
        line.push(10);
        if batch.len() + line.len() > MOST_INPUT {
            return batch;
        }
        batch.append(&mut line);
    }
}

/// Results that are longer than any output, as long as one may be, and a byte longer.
pub fn long(rng: &mut Rng, number: u64, visit: &mut Visit) {
    let (k, letters) = (2 * rng.within(4, 15) + 1, 2 * rng.within(100, 600));
    let round = Round::new(rng, k, letters);
    for method in [3, 4] {
        let lines: Vec<u8> = (0..rng.within(1, 4)).flat_map(|_| round.line(rng.below(1_000))).collect();
        visit(&round.site, Some(&job(&[method, 1], &lines)));
    }
    if number % (SHORT + 1) != SHORT {
        return;
    }
    let round = Round::smallest();
    let just = round.line((MOST_OUTPUT - 4) / 3);
    let longest = round.line((MOST_INPUT - 4) / 2);
    for batch in [just.clone(), [b"\n", &just[..]].concat(), [&just[..], b"\n"].concat(), longest] {
        visit(&round.site, Some(&job(&[*rng.pick(&[3, 4]), 1], &batch)));
    }
    let genome = reads::letters(rng, 6_000);
    let site = super::sets::of_genomes(2 * rng.within(5, 15) as u8 + 1, [genome.as_slice()]);
    for method in [1, 2, 3, 4] {
        let batch = with_deletions(rng, &genome, 60);
        visit(&site, Some(&job(&[method, rng.within(1, 6) as u8], &batch)));
    }
}
