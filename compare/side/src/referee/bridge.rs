//! Document 02, "Shortest bridge, as far as lookups last", written from the document alone.
use super::letters::{letter, mask};
use super::set::{Refusal, Set};

pub const MOST_MOVES: usize = 16;

/// The shortest chain found, by its letters, or none; the lookups made; the floor.
#[derive(Clone, Debug, PartialEq, Eq)]
pub struct Bridge {
    pub chain: Option<Vec<u8>>,
    pub lookups: u64,
    pub floor: usize,
}

/// Fewer than 4 lookups remained before a k-mer's.
struct Stop;

struct Search<'a> {
    set: &'a Set,
    to: u64,
    budget: u64,
    lookups: u64,
}

impl Search<'_> {
    /// A k-mer looks at its letters, in the order A, C, T, G: the first chain that leads on from it to the end, if any.
    fn from_kmer(&mut self, code: u64, moves: usize) -> Result<Option<Vec<u8>>, Stop> {
        if moves == 0 {
            return Ok(None);
        }
        if self.budget - self.lookups < 4 {
            return Err(Stop);
        }
        self.lookups += 4;
        for nuc in 0..4 {
            if let Some(chain) = self.from_letter(code, nuc, moves)? {
                return Ok(Some(chain));
            }
        }
        Ok(None)
    }

    /// A letter looks at the k-mer behind it, with one move fewer left; it is compared with the end on arrival.
    fn from_letter(&mut self, code: u64, nuc: u64, moves: usize) -> Result<Option<Vec<u8>>, Stop> {
        let next = (code << 2 | nuc) & mask(self.set.k);
        if !self.set.solid(next) {
            return Ok(None);
        }
        if next == self.to {
            return Ok(Some(vec![letter(nuc)]));
        }
        let behind = self.from_kmer(next, moves - 1)?;
        Ok(behind.map(|chain| [vec![letter(nuc)], chain].concat()))
    }
}

/// A code of 4^k or more never is solid.
fn solid(set: &Set, code: u64) -> bool {
    code <= mask(set.k) && set.solid(code)
}

/// 20 after 7 to 10, then the search: deep, and after a find in rounds of 1 move, 2 moves and so on, while shorter than that chain.
pub fn bridge(set: &Result<Set, Refusal>, from: u64, to: u64, budget: u64) -> Result<Bridge, Refusal> {
    let set = set.as_ref().map_err(|refusal| *refusal)?;
    if let Some(end) = [from, to].iter().position(|code| !solid(set, *code)) {
        return Err(Refusal::new(20, end));
    }
    let mut search = Search { set, to, budget, lookups: 0 };
    let deep = match search.from_kmer(from, MOST_MOVES) {
        Err(Stop) => return Ok(Bridge { chain: None, lookups: search.lookups, floor: 1 }),
        Ok(None) => return Ok(Bridge { chain: None, lookups: search.lookups, floor: 17 }),
        Ok(Some(chain)) => chain,
    };
    let mut floor = 1;
    for moves in 1..deep.len() {
        match search.from_kmer(from, moves) {
            Err(Stop) => break,
            Ok(Some(chain)) => return Ok(Bridge { chain: Some(chain), lookups: search.lookups, floor }),
            Ok(None) => floor = moves + 1,
        }
    }
    Ok(Bridge { chain: Some(deep), lookups: search.lookups, floor })
}
