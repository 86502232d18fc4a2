//! Makes a disagreeing case smaller while it still disagrees.
use crate::cases::{job, without};
use crate::check::{check_call, check_open, show, Buffers, Disagreement, Site, Tally};
use crate::library::{call_name, Library};
use crate::referee::calls::{reads, Call, Job};
use std::panic::{catch_unwind, AssertUnwindSafe};
use std::time::{Duration, Instant};

const PATIENCE: Duration = Duration::from_secs(60);

pub struct Failure {
    pub site: Site,
    pub job: Option<Job>,
    pub disagreement: Disagreement,
}

/// A case on all sides, with what agreed in it; a panic of a side is a disagreement too.
pub fn check(library: &dyn Library, site: &Site, job: Option<&Job>, buffers: &mut Buffers) -> Result<Tally, Disagreement> {
    let mut tally = Tally::default();
    let checked = catch_unwind(AssertUnwindSafe(|| match job {
        None => check_open(library, site, &mut tally),
        Some(job) => check_call(library, site, job, buffers, &mut tally),
    }));
    let of_panic = |payload: Box<dyn std::any::Any + Send>| Disagreement {
        of: "a side panicked".to_string(),
        expected: "an answer".to_string(),
        found: payload.downcast_ref::<String>().cloned().or(payload.downcast_ref::<&str>().map(|text| text.to_string())).unwrap_or_default(),
    };
    checked.unwrap_or_else(|payload| Err(of_panic(payload))).map(|()| tally)
}

impl Failure {
    pub fn size(&self) -> usize {
        self.site.bytes.len() + self.job.as_ref().map_or(0, |job| job.input.len() + job.entries.len())
    }

    /// The smallest that is found by leaving out keys, blocks, entries and bytes in turn, until none can go.
    pub fn shrink(mut self, library: &dyn Library) -> Self {
        let begun = Instant::now();
        let mut size = usize::MAX;
        while self.size() < size && begun.elapsed() < PATIENCE {
            size = self.size();
            self.smaller_set(library, begun);
            if self.job.is_some() {
                self.smaller_call(library, begun);
            }
        }
        self
    }

    /// Takes the changed case if it still disagrees.
    fn try_with(&mut self, library: &dyn Library, site: Option<Site>, job: Option<Job>) -> bool {
        let tried = site.as_ref().unwrap_or(&self.site);
        let Err(disagreement) = check(library, tried, job.as_ref(), &mut Buffers::default()) else { return false };
        self.disagreement = disagreement;
        self.job = job;
        if let Some(site) = site {
            self.site = site;
        }
        true
    }

    fn smaller_set(&mut self, library: &dyn Library, begun: Instant) {
        let parts = |failure: &Failure| failure.site.opened.as_ref().map_or(failure.site.bytes.len() / 512, |set| set.keys.len());
        let mut count = parts(self).div_ceil(2);
        while count > 0 && begun.elapsed() < PATIENCE {
            let mut from = 0;
            while from < parts(self) && begun.elapsed() < PATIENCE {
                let site = without(&self.site, from, count).unwrap_or_else(|| {
                    let bytes = &self.site.bytes;
                    Site::new([&bytes[..from * 512], &bytes[((from + count) * 512).min(bytes.len())..]].concat())
                });
                let job = self.job.clone().map(|job| self.with_counts_of(job, from, count));
                if !self.try_with(library, Some(site), job) {
                    from += count;
                }
            }
            count /= 2;
        }
    }

    /// A job without the counts of the keys that are left out; one with another number of counts than keys stays as it is.
    fn with_counts_of(&self, mut job: Job, from: usize, count: usize) -> Job {
        if self.site.opened.as_ref().is_ok_and(|set| set.keys.len() == job.counts.len()) {
            let end = (from + count).min(job.counts.len());
            job.counts.drain(from..end);
        }
        job
    }

    fn smaller_call(&mut self, library: &dyn Library, begun: Instant) {
        let job_now = |failure: &Failure| failure.job.clone().expect("a call");
        let first = job_now(self);
        if first.call != Call::Read {
            for read in reads(&first) {
                let single = Job { index: first.index.clone(), counts: first.counts.clone(), ..job(Call::Read, &first.entries, &read) };
                if self.try_with(library, None, Some(single)) {
                    break;
                }
            }
        }
        for place in (0..job_now(self).entries.len()).step_by(2).rev() {
            let mut job = job_now(self);
            let end = (place + 2).min(job.entries.len());
            job.entries.drain(place..end);
            self.try_with(library, None, Some(job));
        }
        for place in (1..job_now(self).entries.len()).step_by(2) {
            for confirm in 1..job_now(self).entries[place] {
                let mut job = job_now(self);
                job.entries[place] = confirm;
                if self.try_with(library, None, Some(job)) {
                    break;
                }
            }
        }
        let mut count = job_now(self).input.len().div_ceil(2);
        while count > 0 && begun.elapsed() < PATIENCE {
            let mut from = 0;
            while from < job_now(self).input.len() && begun.elapsed() < PATIENCE {
                let mut job = job_now(self);
                let end = (from + count).min(job.input.len());
                job.input.drain(from..end);
                if !self.try_with(library, None, Some(job)) {
                    from += count;
                }
            }
            count /= 2;
        }
    }

    pub fn print(&self) {
        println!("  differs: {}", self.disagreement.of);
        println!("  expected: {}", self.disagreement.expected);
        println!("  found:    {}", self.disagreement.found);
        match &self.site.opened {
            Ok(set) => {
                let keys: Vec<String> =
                    set.keys.iter().take(64).map(|key| format!("{key} {}", cocktail::kmer::kmer2seq(*key, set.k as u8))).collect();
                println!("  k {}, {} keys: {}{}", set.k, set.keys.len(), keys.join(", "), if set.keys.len() > 64 { ", .." } else { "" });
            }
            Err(refusal) => {
                println!("  a set of {} bytes, refused {} at {}: {}", self.site.bytes.len(), refusal.number, refusal.place, hex(&self.site.bytes))
            }
        }
        if let Some(job) = &self.job {
            println!("  {} call, job {:?}, output {}, work {}", call_name(job.call), job.entries, job.output, job.work);
            if !job.index.is_empty() {
                let place = job.index.iter().zip(self.site.index()).position(|(offered, own)| offered != own);
                println!(
                    "  an index of {} bytes; the set's has {}; the first byte that is another: {place:?}",
                    job.index.len(),
                    self.site.index().len()
                );
            }
            if !job.counts.is_empty() {
                println!("  {} counts: {:?}", job.counts.len(), &job.counts[..job.counts.len().min(64)]);
            }
            println!("  input of {} bytes: {}", job.input.len(), show(&job.input[..job.input.len().min(4096)]));
        }
    }
}

/// Bytes as hexadecimal words, zero words left out.
fn hex(bytes: &[u8]) -> String {
    let words = bytes.chunks(8).enumerate().filter(|(_, word)| word.iter().any(|byte| *byte != 0)).take(64);
    let shown = words.map(|(at, word)| format!("{}:{}", 8 * at, word.iter().map(|byte| format!("{byte:02x}")).collect::<String>()));
    shown.collect::<Vec<_>>().join(" ")
}
