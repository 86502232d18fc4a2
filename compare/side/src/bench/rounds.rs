//! All sides in turn, several times: a ratio is taken within a round, so that what slows the machine for a while slows every side.
use super::system::now;
use std::fmt::{Display, Formatter, Result};
use std::hint::black_box;
use std::sync::atomic::{AtomicUsize, Ordering::Relaxed};

/// Seconds that the rounds of a cell may take together.
const BUDGET: f64 = 3.0;
/// What takes longer than this is long: then the fewest rounds are enough.
const LONG: f64 = 2.0;
const FEWEST: usize = 3;
const FEW: usize = 5;
const MOST: usize = 9;

/// Rounds of each cell if they were asked for, else 0.
static ASKED: AtomicUsize = AtomicUsize::new(0);

/// So many rounds in each cell, whatever they take: for a machine whose speed comes and goes.
pub fn ask_rounds(count: usize) {
    ASKED.store(count.max(1), Relaxed);
}

/// What a round times.
#[derive(Clone, Copy, PartialEq, Eq)]
pub enum Part {
    Rust,
    Ours,
    /// Opening the set alone, which a call of ours does first.
    Opening,
    /// Another build of ours.
    Before,
    /// Ours over a set that does not start on a line of memory.
    Off,
    /// Ours with an index of the set.
    Indexed,
    /// Ours with counts of the set's keys.
    Counted,
    /// What ours tells beforehand of the same batch.
    Needs,
    /// Ours on the same reads as a FASTA file.
    Fasta,
}

const PARTS: usize = 9;

/// The Rust, ours and the opening.
const PLAIN: usize = 3;

/// Every other round goes the other way. With more than the plain parts the order rotates too, a part further each two rounds: ours and the other
/// build, one on either side of the Rust, then come behind it about as often.
fn order(parts: &[Part], number: usize) -> Vec<Part> {
    let mut order = parts.to_vec();
    if number % 2 == 1 {
        order.reverse();
    }
    if parts.len() > PLAIN {
        order.rotate_left(number / 2 % parts.len());
    }
    order
}

/// Seconds of each part; 0 for one that is not run.
struct Round([f64; PARTS]);

impl Round {
    fn taken(order: &[Part], run: &mut impl FnMut(Part) -> f64) -> Self {
        let mut round = Round([0.0; PARTS]);
        for part in order {
            round.0[*part as usize] = run(*part);
        }
        round
    }

    fn of(&self, part: Part) -> f64 {
        self.0[part as usize]
    }

    fn less_opening(&self) -> f64 {
        (self.of(Part::Ours) - self.of(Part::Opening)).max(1e-9)
    }
}

/// The lowest, the median and the highest of the rounds.
#[derive(Clone, Copy)]
pub struct Spread {
    pub lowest: f64,
    pub median: f64,
    pub highest: f64,
}

impl Display for Spread {
    fn fmt(&self, to: &mut Formatter<'_>) -> Result {
        write!(to, "{:.2} ({:.2} to {:.2})", self.median, self.lowest, self.highest)
    }
}

pub struct Rounds(Vec<Round>);

impl Rounds {
    /// `run` runs a part and answers its seconds.
    pub fn run(parts: &[Part], mut run: impl FnMut(Part) -> f64) -> Self {
        let mut next = |number: usize| Round::taken(&order(parts, number), &mut run);
        let mut rounds = vec![next(0)];
        let count = how_many(rounds[0].0.iter().sum());
        rounds.extend((1..count).map(next));
        Rounds(rounds)
    }

    pub fn count(&self) -> usize {
        self.0.len()
    }

    pub fn rust(&self) -> f64 {
        self.median(Part::Rust)
    }

    pub fn ours(&self) -> f64 {
        self.median(Part::Ours)
    }

    pub fn less_opening(&self) -> f64 {
        self.of(Round::less_opening).median
    }

    /// Rust's time by ours.
    pub fn ratio(&self) -> Spread {
        self.of_parts(Part::Rust, Part::Ours)
    }

    /// A part's time by another's, within each round.
    pub fn of_parts(&self, part: Part, by: Part) -> Spread {
        self.of(|round| round.of(part) / round.of(by))
    }

    pub fn ratio_less_opening(&self) -> Spread {
        self.of(|round| round.of(Part::Rust) / round.less_opening())
    }

    pub fn median(&self, part: Part) -> f64 {
        self.of(|round| round.of(part)).median
    }

    /// A part's median by ours, with the lowest and the highest of the rounds; none where it is not run.
    pub fn by_ours(&self, part: Part) -> Option<Spread> {
        self.by_median(part, Part::Ours)
    }

    /// The same by another part's; none where either is not run.
    pub fn by_median(&self, part: Part, by: Part) -> Option<Spread> {
        let (rounds, medians) = (self.of_parts(part, by), [part, by].map(|part| self.median(part)));
        medians.iter().all(|median| *median > 0.0).then(|| Spread { median: medians[0] / medians[1], ..rounds })
    }

    /// The fastest time of a part by the fastest of another, which what else the machine does moves least; none where either is not run.
    pub fn by_fastest(&self, part: Part, by: Part) -> Option<f64> {
        let fastest = [part, by].map(|part| self.of(|round| round.of(part)).lowest);
        fastest.iter().all(|seconds| *seconds > 0.0).then(|| fastest[0] / fastest[1])
    }

    fn of(&self, value: impl Fn(&Round) -> f64) -> Spread {
        spread(self.0.iter().map(value).collect())
    }
}

/// As many as the budget has room for, an odd number.
fn how_many(first: f64) -> usize {
    let asked = ASKED.load(Relaxed);
    if asked > 0 {
        return asked / 2 * 2 + 1;
    }
    let fewest = if first > LONG { FEWEST } else { FEW };
    let count = (BUDGET / first) as usize;
    count.clamp(fewest, MOST) / 2 * 2 + 1
}

fn spread(mut values: Vec<f64>) -> Spread {
    values.sort_by(f64::total_cmp);
    let (last, half) = (values.len() - 1, values.len() / 2);
    Spread { lowest: values[0], median: (values[half] + values[last - half]) / 2.0, highest: values[last] }
}

pub fn median(values: Vec<f64>) -> f64 {
    spread(values).median
}

/// A run's answer and its seconds.
pub fn timed<T>(run: impl FnOnce() -> T) -> (T, f64) {
    let begun = now();
    let answer = black_box(run());
    (answer, now() - begun)
}
