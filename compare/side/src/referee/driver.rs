//! "Driver": a pass, one read through one method.
use super::correctors::{Asking, Event, Method, ALL_EVENTS, BY};
use super::letters::{code, Kmer};
use super::set::Set;

#[derive(Clone, Default)]
pub struct Pass {
    pub bytes: Vec<u8>,
    /// The length of what it is fed less k, 0 if that is shorter than k.
    pub w: u64,
    pub turns: u64,
    pub lookups: u64,
    pub attempts: u64,
    pub accepted: u64,
    /// The lookups that the Rust makes in this pass, less these.
    pub again: i64,
    /// Corrections by scenario, in the order of `ALL_BY`.
    pub by: [u32; BY],
    /// For each correction, the indexes of the keys that support it, in the order of its k-mers.
    pub evidence: Vec<Vec<usize>>,
    /// What else was met, in the order of `ALL_EVENTS`.
    pub events: [u32; ALL_EVENTS.len()],
}

fn key_of(set: &Set, kmer: Kmer) -> usize {
    kmer.code().and_then(|code| set.find(code)).expect("a correction is made by solid k-mers")
}

pub fn pass(set: &Set, method: Method, c: u8, read: &[u8]) -> Pass {
    let k = set.k;
    if read.len() < k {
        return Pass { bytes: read.to_vec(), ..Pass::default() };
    }
    let mut pass = Pass { bytes: read[..k].to_vec(), w: (read.len() - k) as u64, ..Pass::default() };
    let mut asking = Asking::new(set);
    let mut kmer = Kmer::of(k, &read[..k]);
    if kmer.code().is_none() {
        asking.note(Event::UnknownFirst);
    }
    let mut previous = asking.solid(kmer);
    let mut at = k;
    while at < read.len() {
        pass.turns += 1;
        kmer = kmer.add(k, code(read[at]));
        let solid = asking.solid(kmer);
        if !solid && previous {
            pass.attempts += 1;
            if let Some(mend) = asking.attempt(method, c as usize, kmer, &read[at..]) {
                pass.accepted += 1;
                pass.by[mend.by as usize] += 1;
                pass.evidence.push(mend.evidence.iter().map(|kmer| key_of(set, *kmer)).collect());
                // The bad k-mer moves right one letter, an A in front, and takes the letters by +.
                kmer = kmer.moved_right().add_all(k, &mend.letters);
                pass.bytes.extend_from_slice(&mend.letters);
                at += mend.resume;
                continue;
            }
        } else {
            // The Rust asks twice for a base without an attempt.
            asking.again += 1;
        }
        pass.bytes.push(read[at]);
        previous = solid;
        at += 1;
    }
    pass.lookups = asking.lookups;
    pass.again = asking.again;
    pass.events = asking.events;
    pass
}
