//! Bridges between two k-mers.
use crate::{raw, Refusal};

/// The most moves of a bridge.
pub const MAX_MOVES: usize = 16;

/// The shortest chain that was found, if any, and what it says of those that were not.
#[derive(Clone, Copy, Debug, PartialEq, Eq)]
pub struct Bridge {
    letters: [u8; MAX_MOVES],
    moves: usize,
    /// The lookups made, at most the budget. Those of the two ends are not counted.
    pub lookups: u64,
    /// No chain has fewer moves than this, 1 to 17. At 17 there is none of up to [`MAX_MOVES`].
    pub floor: usize,
}

impl Bridge {
    /// The letter of each move; none where no chain was found.
    pub fn chain(&self) -> Option<&[u8]> {
        (self.moves > 0).then(|| &self.letters[..self.moves])
    }

    /// Whether the search was stopped because the budget ran out. If not, a found chain is the shortest that there is, and where none was found
    /// there is none of up to [`MAX_MOVES`] moves; a larger budget would tell the same.
    pub fn stopped(&self) -> bool {
        match self.moves {
            0 => self.floor <= MAX_MOVES,
            moves => self.floor < moves,
        }
    }
}

/// The code of a k-mer by its letters: A, C, T, G are 0, 1, 2, 3, and the first letter counts most. None where it has over 31 letters or one that is
/// not A, C, G, T, U or their lower case.
pub fn code(kmer: &[u8]) -> Option<u64> {
    if kmer.len() > 31 {
        return None;
    }
    kmer.iter().try_fold(0, |code, letter| match letter {
        b'A' | b'C' | b'G' | b'T' | b'U' | b'a' | b'c' | b'g' | b't' | b'u' => Some(4 * code + u64::from(letter / 2 % 4)),
        _ => None,
    })
}

/// The shortest bridge from one solid k-mer to another, as far as a budget of lookups lasts: a chain of 1 to [`MAX_MOVES`] moves, each of which drops
/// the k-mer's first letter and adds one at its end, to any solid k-mer; k-mers may repeat. The ends are codes ([`code`]).
///
/// A found chain is at most its moves less [`Bridge::floor`] from the shortest that there is. Refused as by [`open`](crate::open), then with
/// [`Refusal::NotSolid`].
///
/// ```
/// # let mut set = vec![0; corrector::set_length(5)];
/// # corrector::make_set(b"ACT,9\nCCG,4\nCTC,7\nAAC,5\nTCC,8\n", 3, 1, &mut set, &mut [0; 5])?;
/// let (from, to) = (corrector::code(b"AAC").unwrap(), corrector::code(b"CCG").unwrap());
/// let bridge = corrector::bridge(&set, from, to, 1000)?;
/// assert_eq!(bridge.chain(), Some(&b"TCCG"[..])); // AAC, ACT, CTC, TCC, CCG
/// assert_eq!((bridge.lookups, bridge.floor, bridge.stopped()), (40, 4, false));
/// // With 20 lookups it is found, and known only that there is none of 1 move.
/// let bridge = corrector::bridge(&set, from, to, 20)?;
/// assert_eq!((bridge.chain(), bridge.floor, bridge.stopped()), (Some(&b"TCCG"[..]), 2, true));
/// # Ok::<(), corrector::Refusal>(())
/// ```
pub fn bridge(set: &[u8], from: u64, to: u64, budget: u64) -> Result<Bridge, Refusal> {
    let [number, place, moves, lookups, floor, letters @ ..] = raw::bridge(set, from, to, budget);
    if number != 0 {
        return Err(Refusal::from_numbers(number, place));
    }
    Ok(Bridge { letters: letters.map(|letter| letter as u8), moves: moves as usize, lookups, floor: floor as usize })
}
