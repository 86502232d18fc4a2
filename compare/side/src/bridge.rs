//! Bridges: one case by the library, the referee and a plain breadth-first search, and the run over all of them.
use crate::cases::bridge::{each, Case};
use crate::library::Library;
use crate::referee::bridge::{bridge, Bridge, MOST_MOVES};
use crate::referee::letters::{code, mask};
use crate::referee::set::{Refusal, Set};
use std::collections::HashSet;

/// What was compared.
#[derive(Default)]
pub struct Bridges {
    pub agreed: u64,
    shortest: u64,
    none: u64,
    stopped: u64,
    found_and_stopped: u64,
    refused: [u64; 21],
    pub failed: u64,
    /// The shortest set on which they differ: its length, the case, and how they differ.
    failure: Option<(usize, String)>,
}

impl Bridges {
    pub fn print(&self) {
        let refused = (0..).zip(self.refused).filter(|(_, count)| *count > 0).map(|(number, count)| format!("{number} {count}"));
        println!(
            "bridges: {} shortest, {} none, {} stopped with a chain, {} stopped without; refused: {}",
            self.shortest,
            self.none,
            self.found_and_stopped,
            self.stopped,
            refused.collect::<Vec<_>>().join(", ")
        );
        if let Some((_, failure)) = &self.failure {
            println!("bridged differently: {failure}");
        }
    }
}

/// The fewest moves of any chain of up to 16, by levels, with no thought of budget or order.
fn fewest(set: &Set, from: u64, to: u64) -> Option<usize> {
    let (mut level, mut seen) = (vec![from], HashSet::new());
    for moves in 1..=MOST_MOVES {
        let next = level.iter().flat_map(|kmer| (0..4).map(move |nuc| (kmer << 2 | nuc) & mask(set.k)));
        level = next.filter(|kmer| set.solid(*kmer) && seen.insert(*kmer)).collect();
        if seen.contains(&to) {
            return Some(moves);
        }
    }
    None
}

/// Whether letters lead from one k-mer to the other by solid ones.
fn leads(set: &Set, from: u64, to: u64, letters: &[u8]) -> bool {
    let mut at = from;
    for letter in letters {
        let Some(nuc) = code(*letter) else { return false };
        at = (at << 2 | nuc) & mask(set.k);
        if !set.solid(at) {
            return false;
        }
    }
    at == to
}

/// What document 02 promises of an answer, whatever search gave it.
fn promised(set: &Set, case: &Case, found: &Bridge) -> Result<(), String> {
    let best = fewest(set, case.from, case.to);
    let moves = found.chain.as_ref().map(Vec::len);
    let stopped = match moves {
        Some(moves) => found.floor < moves,
        None => found.floor == 1,
    };
    let right = |holds: bool, what: &str| if holds { Ok(()) } else { Err(format!("{what}: {found:?}, fewest moves {best:?}")) };
    right(found.lookups <= case.budget && found.lookups % 4 == 0, "lookups")?;
    right(found.chain.as_ref().is_none_or(|chain| leads(set, case.from, case.to, chain)), "no chain")?;
    right(moves.is_none_or(|moves| (1..=MOST_MOVES).contains(&moves) && found.floor <= moves), "moves")?;
    right(found.floor <= best.unwrap_or(MOST_MOVES + 1), "the floor")?;
    right(stopped || moves == best && found.floor == best.unwrap_or(MOST_MOVES + 1), "not the best")?;
    right(!stopped || case.budget - found.lookups < 4, "stopped too early")
}

fn check(library: &dyn Library, case: &Case) -> Result<Result<Bridge, Refusal>, String> {
    let expected = bridge(&case.site.opened, case.from, case.to, case.budget);
    let found = library.bridge(&case.site.bytes, case.from, case.to, case.budget);
    if found != expected {
        return Err(format!("expected {expected:?}, found {found:?}"));
    }
    if let (Ok(set), Ok(found)) = (&case.site.opened, &found) {
        promised(set, case, found)?;
    }
    Ok(found)
}

fn what(case: &Case) -> String {
    let opened = case.site.opened.as_ref().map(|set| (set.k, if set.keys.len() > 40 { vec![] } else { set.keys.clone() }));
    format!("k and keys {opened:?}, from {} to {} with {} lookups", case.from, case.to, case.budget)
}

/// Every case of a seed.
pub fn run(library: &dyn Library, seed: u64, rounds: u64, bridges: &mut Bridges) {
    each(seed, rounds, &mut |case: &Case| match check(library, case) {
        Ok(answer) => {
            bridges.agreed += 1;
            match answer {
                Err(refusal) => bridges.refused[refusal.number as usize] += 1,
                Ok(Bridge { chain: None, floor: 1, .. }) => bridges.stopped += 1,
                Ok(Bridge { chain: None, .. }) => bridges.none += 1,
                Ok(Bridge { chain: Some(chain), floor, .. }) if floor < chain.len() => bridges.found_and_stopped += 1,
                Ok(_) => bridges.shortest += 1,
            }
        }
        Err(differs) => {
            bridges.failed += 1;
            let length = case.site.bytes.len();
            if bridges.failure.as_ref().is_none_or(|(known, _)| length < *known) {
                bridges.failure = Some((length, format!("{}: {differs}", what(case))));
            }
        }
    });
}
