//! natir/br's unchanged `correct`, over a `KmerSet` of the same keys that counts what it is asked.
use crate::referee::correctors::Method;
use br::correct::{Corrector, GapSize, Graph, One, Two};
use br::set::{BoxKmerSet, KmerSet};
use rustc_hash::FxHashSet;
use std::cell::Cell;
use std::sync::atomic::{AtomicU64, Ordering::Relaxed};

/// The Rust's own `Hash` set: an `FxHashSet` of canonical codes.
pub struct Keys {
    keys: FxHashSet<u64>,
    k: u8,
}

impl Keys {
    pub fn new(k: u8, keys: &[u64]) -> Self {
        Keys::from_iter(k, keys.iter().copied())
    }

    /// Inserted one by one, as the Rust fills its set.
    pub fn from_iter(k: u8, keys: impl Iterator<Item = u64>) -> Self {
        let mut set = FxHashSet::default();
        keys.for_each(|key| {
            set.insert(key);
        });
        Keys { keys: set, k }
    }

    pub fn k(&self) -> usize {
        self.k as usize
    }

    /// An address in the table.
    pub fn address(&self) -> Option<usize> {
        self.keys.iter().next().map(|key| std::ptr::from_ref(key) as usize)
    }
}

impl KmerSet for &Keys {
    fn get(&self, kmer: u64) -> bool {
        self.keys.contains(&cocktail::kmer::canonical(kmer, self.k))
    }

    fn k(&self) -> u8 {
        self.k
    }
}

/// The same, counting each question. Only one thread asks at a time.
struct Counting<'a> {
    keys: &'a Keys,
    asked: &'a AtomicU64,
}

impl KmerSet for Counting<'_> {
    fn get(&self, kmer: u64) -> bool {
        self.asked.store(self.asked.load(Relaxed) + 1, Relaxed);
        self.keys.get(kmer)
    }

    fn k(&self) -> u8 {
        self.keys.k
    }
}

/// What natir/br makes of a read, and what can be counted from outside.
pub struct Pass {
    pub bytes: Vec<u8>,
    pub turns: u64,
    pub lookups: u64,
    pub attempts: u64,
    pub accepted: u64,
}

/// A corrector of the Rust, watched at its one entry; `correct` is the trait's own.
struct Watched<'a, C> {
    corrector: C,
    asked: &'a AtomicU64,
    within: Cell<u64>,
    attempts: Cell<u64>,
    accepted: Cell<u64>,
}

impl<C: Corrector> Corrector for Watched<'_, C> {
    fn valid_kmer(&'_ self) -> &BoxKmerSet<'_> {
        self.corrector.valid_kmer()
    }

    fn correct_error(&self, kmer: u64, seq: &[u8]) -> Option<(Vec<u8>, usize)> {
        let before = self.asked.load(Relaxed);
        let answer = self.corrector.correct_error(kmer, seq);
        self.within.set(self.within.get() + self.asked.load(Relaxed) - before);
        self.attempts.set(self.attempts.get() + 1);
        self.accepted.set(self.accepted.get() + answer.is_some() as u64);
        answer
    }
}

/// One read through one method, counted.
pub fn pass(keys: &Keys, method: Method, confirm: u8, read: &[u8]) -> Pass {
    let asked = AtomicU64::new(0);
    let set: BoxKmerSet = Box::new(Counting { keys, asked: &asked });
    match method {
        Method::One => watch(One::new(&set, confirm), &asked, read),
        Method::Two => watch(Two::new(&set, confirm), &asked, read),
        Method::Graph => watch(Graph::new(&set), &asked, read),
        Method::GapSize => watch(GapSize::new(&set, confirm), &asked, read),
    }
}

fn watch<C: Corrector>(corrector: C, asked: &AtomicU64, read: &[u8]) -> Pass {
    let watched = Watched { corrector, asked, within: Cell::new(0), attempts: Cell::new(0), accepted: Cell::new(0) };
    let bytes = watched.correct(read);
    let (lookups, attempts) = (asked.load(Relaxed), watched.attempts.get());
    // Outside attempts it asks once for the first k-mer, once for a turn with an attempt, twice for one without.
    let outside = lookups - watched.within.get();
    let turns = match outside {
        0 => 0,
        _ => attempts + (outside - 1 - attempts) / 2,
    };
    Pass { bytes, turns, lookups, attempts, accepted: watched.accepted.get() }
}

/// One read through one method, as a user of the Rust would run it.
pub fn correct(set: &BoxKmerSet, method: Method, confirm: u8, read: &[u8]) -> Vec<u8> {
    match method {
        Method::One => One::new(set, confirm).correct(read),
        Method::Two => Two::new(set, confirm).correct(read),
        Method::Graph => Graph::new(set).correct(read),
        Method::GapSize => GapSize::new(set, confirm).correct(read),
    }
}
