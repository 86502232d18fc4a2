//! Document 02, "Other programs' mends", written from the documents alone.
use super::calls::MOST_INPUT;
use super::letters::Kmer;
use super::set::{Refusal, Set};

/// A read, the partner's corrected read, the edits as numbers, and all letters in one list.
#[derive(Clone, Debug, Default)]
pub struct Sheet {
    pub read: Vec<u8>,
    pub mended: Vec<u8>,
    pub numbers: Vec<u64>,
    pub letters: Vec<u8>,
}

/// What is judged over all edits, in this order.
#[derive(Clone, Copy, Debug, PartialEq, Eq)]
pub enum Judgement {
    Form,
    Kmers,
    Joining,
}

/// Position, bases taken, letters given.
struct Edit {
    position: u128,
    taken: u128,
    given: u128,
}

impl Edit {
    /// None of fewer numbers than three.
    fn of(numbers: &[u64]) -> Option<Self> {
        let &[position, taken, given] = numbers else { return None };
        Some(Edit { position: position.into(), taken: taken.into(), given: given.into() })
    }

    fn end(&self) -> u128 {
        self.position + self.taken
    }
}

/// Refusals 1 for either read, 7 to 10, and 19; none if the sheet is accepted.
pub fn check_edits(opened: &Result<Set, Refusal>, sheet: &Sheet) -> Option<Refusal> {
    if sheet.read.len() > MOST_INPUT || sheet.mended.len() > MOST_INPUT {
        return Some(Refusal::new(1, 0));
    }
    match opened {
        Err(refusal) => Some(*refusal),
        Ok(set) => judge(set, sheet).map(|(_, place)| Refusal::new(19, place)),
    }
}

/// The first judgement that fails, and its first offending edit, or the number of edits if only the joining differs.
pub fn judge(set: &Set, sheet: &Sheet) -> Option<(Judgement, usize)> {
    let mut edits: Vec<Edit> = Vec::new();
    // Letters given by all edits so far.
    let mut given = 0;
    for (place, numbers) in sheet.numbers.chunks(3).enumerate() {
        match Edit::of(numbers).filter(|edit| formed(set.k, sheet, edits.last(), given, edit)) {
            Some(edit) => {
                given += edit.given;
                edits.push(edit);
            }
            None => return Some((Judgement::Form, place)),
        }
    }
    let (made, starts) = make(sheet, &edits);
    // The base before an edit's letters, its letters, and the base after.
    let asked = |place: usize| starts[place] - 1..=starts[place] + edits[place].given as usize;
    if let Some(place) = (0..edits.len()).find(|place| !asked(*place).all(|last| solid(set, &made[..=last]))) {
        return Some((Judgement::Kmers, place));
    }
    let joined = made == sheet.mended && given == sheet.letters.len() as u128;
    (!joined).then_some((Judgement::Joining, edits.len()))
}

/// Not accepted: position below k, position plus bases taken above the read's length less 1, letters past the list's end, not strictly rising, or
/// begun before the end of the edit before.
fn formed(k: usize, sheet: &Sheet, before: Option<&Edit>, given: u128, edit: &Edit) -> bool {
    edit.position >= k as u128
        && edit.end() + 1 <= sheet.read.len() as u128
        && given + edit.given <= sheet.letters.len() as u128
        && before.is_none_or(|last| last.position < edit.position && last.end() <= edit.position)
}

/// The read with all edits made, and where in it each edit's letters begin.
fn make(sheet: &Sheet, edits: &[Edit]) -> (Vec<u8>, Vec<usize>) {
    let (mut made, mut starts) = (Vec::new(), Vec::new());
    let (mut from, mut given) = (0, 0);
    for edit in edits {
        made.extend_from_slice(&sheet.read[from..edit.position as usize]);
        starts.push(made.len());
        made.extend_from_slice(&sheet.letters[given..][..edit.given as usize]);
        (from, given) = (edit.end() as usize, given + edit.given as usize);
    }
    made.extend_from_slice(&sheet.read[from..]);
    (made, starts)
}

/// Whether the last k-mer of some bases is.
fn solid(set: &Set, bases: &[u8]) -> bool {
    Kmer::of(set.k, &bases[bases.len() - set.k..]).code().is_some_and(|code| set.solid(code))
}
