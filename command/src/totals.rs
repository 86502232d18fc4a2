//! The numbers of a run: what its calls report, added.
use corrector::{Report, Set};

#[derive(Clone, Debug, Default, PartialEq, Eq)]
pub struct Totals {
    /// Corrected reads, and their bases.
    pub reads: u64,
    pub bases: u64,
    /// Reads that came out as they went in (--keep-long).
    pub kept: u64,
    pub written: u64,
    pub turns: u64,
    pub lookups: u64,
    pub attempts: u64,
    pub accepted: u64,
    pub support: Option<u32>,
    /// The sum of W over all passes.
    pub sum_of_w: u64,
    /// Passes at most: reads of k bases and more, times the job's entries.
    pub passes: u64,
    pub calls: u64,
    /// Turns and lookups that were told beforehand, if they were asked for.
    pub need: Option<(u64, u64)>,
}

impl Totals {
    /// Adds a call's report.
    pub fn call(&mut self, report: &Report) {
        self.written += report.written as u64;
        self.turns += report.turns;
        self.lookups += report.lookups;
        self.attempts += report.attempts;
        self.accepted += report.accepted;
        self.sum_of_w += report.bases;
        self.support = least(self.support, report.support);
        self.calls += 1;
    }

    pub fn add(&mut self, other: &Totals) {
        self.reads = self.reads.saturating_add(other.reads);
        self.bases = self.bases.saturating_add(other.bases);
        self.kept = self.kept.saturating_add(other.kept);
        self.written = self.written.saturating_add(other.written);
        self.turns = self.turns.saturating_add(other.turns);
        self.lookups = self.lookups.saturating_add(other.lookups);
        self.attempts = self.attempts.saturating_add(other.attempts);
        self.accepted = self.accepted.saturating_add(other.accepted);
        self.sum_of_w = self.sum_of_w.saturating_add(other.sum_of_w);
        self.passes = self.passes.saturating_add(other.passes);
        self.calls = self.calls.saturating_add(other.calls);
        self.support = least(self.support, other.support);
        self.need = match (self.need, other.need) {
            (Some(a), Some(b)) => Some((a.0.saturating_add(b.0), a.1.saturating_add(b.1))),
            _ => None,
        };
    }

    /// Accepted × 1000 / attempts to the nearest whole, an exact half to the even neighbour.
    pub fn yield_(&self) -> u64 {
        if self.attempts == 0 {
            return 0;
        }
        let (thousand, attempts) = (u128::from(self.accepted) * 1000, u128::from(self.attempts));
        let (whole, left) = (thousand / attempts, thousand % attempts);
        let up = 2 * left > attempts || 2 * left == attempts && whole % 2 == 1;
        (whole + u128::from(up)) as u64
    }

    /// Lookups a base, and those that are left.
    pub fn lookups_a_base(&self) -> (u64, u64) {
        match self.sum_of_w {
            0 => (0, 0),
            bases => (self.lookups / bases, self.lookups % bases),
        }
    }

    /// The most turns and lookups, of any set with so many keys: README, "For planners". Of several entries, the one that may take most stands for all.
    pub fn ceiling(&self, most_a_base: u64) -> (u128, u128) {
        let w = u128::from(self.sum_of_w);
        (2 * w, u128::from(self.passes) + w * u128::from(most_a_base))
    }
}

fn least(a: Option<u32>, b: Option<u32>) -> Option<u32> {
    match (a, b) {
        (Some(a), Some(b)) => Some(a.min(b)),
        (a, b) => a.or(b),
    }
}

/// K-mers of a read of so many bases.
pub fn kmers(bases: usize, set: Set) -> u64 {
    (bases + 1).saturating_sub(set.k) as u64
}

#[cfg(test)]
mod tests {
    use super::*;

    #[test]
    fn halves_go_to_the_even_neighbour() {
        let of = |accepted, attempts| Totals { accepted, attempts, ..Totals::default() }.yield_();
        assert_eq!((of(0, 0), of(1, 16), of(3, 16), of(2, 3), of(5, 5)), (0, 62, 188, 667, 1000));
    }
}
