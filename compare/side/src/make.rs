//! Makers of blocks: one case on both sides, and the run over all of them.
use crate::cases::index::made as each_index;
use crate::cases::job;
use crate::cases::make::{each, Case};
use crate::check::{show, Site, LENT};
use crate::library::Library;
use crate::referee::calls::{Call, Job};
use crate::referee::make::Room;
use crate::referee::set::Refusal;
use crate::referee::{index, make, set};

/// What every lent count is before a call.
const LENT_COUNT: u32 = 0xaaaa_aaaa;

/// What was compared.
#[derive(Default)]
pub struct Made {
    pub agreed: u64,
    pub sets: u64,
    pub indexes: u64,
    pub refusals: [u64; 15],
    pub failed: u64,
    /// The shortest text or set on which the sides differ: its length, what it is, and how they differ.
    failure: Option<(usize, String)>,
}

impl Made {
    pub fn print(&self) {
        let refused = (0..).zip(self.refusals).filter(|(_, count)| *count > 0).map(|(number, count)| format!("{number} {count}"));
        println!("{} sets made from text, {} indexes made; refused: {}", self.sets, self.indexes, refused.collect::<Vec<_>>().join(", "));
        if let Some((_, failure)) = &self.failure {
            println!("made differently: {failure}");
        }
    }

    /// A case that agrees, with the refusal that it gives, or that differs.
    fn add(&mut self, checked: Result<Option<Refusal>, String>, length: usize, what: impl FnOnce() -> String) {
        match checked {
            Ok(refusal) => {
                self.agreed += 1;
                refusal.iter().for_each(|refusal| self.refusals[refusal.number as usize] += 1);
            }
            Err(differs) => {
                self.failed += 1;
                if self.failure.as_ref().is_none_or(|(known, _)| length < *known) {
                    self.failure = Some((length, format!("{}: {differs}", what())));
                }
            }
        }
    }
}

/// A maker's answer and its lent blocks against what is expected.
fn check_blocks(expected: Result<&[u8], Refusal>, found: Result<u64, Refusal>, blocks: &[u8]) -> Result<(), String> {
    let told = expected.map(|made| made.len() as u64);
    if found != told {
        return Err(format!("expected {told:?}, found {found:?}"));
    }
    check_lent("the blocks", expected.ok(), blocks, LENT)
}

/// Every element of a lent buffer: what was made, zeros behind it; or, refused, as it was.
fn check_lent<T: Copy + Default + PartialEq>(of: &str, made: Option<&[T]>, lent: &[T], before: T) -> Result<(), String> {
    let Some(made) = made else {
        return lent.iter().all(|element| *element == before).then_some(()).ok_or(format!("a refusal changed {of}"));
    };
    let (written, rest) = lent.split_at(made.len());
    if let Some(place) = written.iter().zip(made).position(|(found, expected)| found != expected) {
        return Err(format!("element {place} of {of} differs"));
    }
    if rest.iter().any(|element| *element != T::default()) {
        return Err(format!("the rest of {of} is not zero"));
    }
    Ok(())
}

/// The library against the referee: the answer, every lent byte and count, the blocks opened again, and a call that takes both.
fn check_set(library: &dyn Library, case: &Case) -> Result<Option<Refusal>, String> {
    let Room { blocks, counts } = case.room;
    let expected = make::make_set(&case.text, case.k, case.least, case.room);
    let (mut blocks, mut counts) = (vec![LENT; blocks], vec![LENT_COUNT; counts]);
    let found = library.make_set(&case.text, case.k, case.least, &mut blocks, &mut counts);
    let made = expected.as_ref().map_err(|refusal| *refusal);
    check_blocks(made.map(|made| &made.blocks[..]), found, &blocks)?;
    check_lent("the counts", made.ok().map(|made| &made.counts[..]), &counts, LENT_COUNT)?;
    let Ok(made) = expected else { return Ok(expected.err()) };
    let n = made.keys.len();
    if library.open(&made.blocks) != Ok((case.k, n as u64)) || !set::open(&made.blocks).is_ok_and(|set| set.keys == made.keys) {
        return Err("the blocks do not open with the kept keys".to_string());
    }
    taken(library, &made.blocks, Job { counts: made.counts, ..job(Call::Read, &[], &[]) })
}

/// A call without a read, that takes what it is offered.
fn taken(library: &dyn Library, set: &[u8], offering: Job) -> Result<Option<Refusal>, String> {
    let (mut output, mut work) = (vec![0; offering.output], vec![0; offering.work]);
    let answer = library.correct(set, &offering, &mut output, &mut work);
    answer.map(|_| None).map_err(|refusal| format!("offered to a call, it is refused {}", refusal.number))
}

/// The same of an index, which a call then takes.
fn check_index(library: &dyn Library, site: &Site, room: usize) -> Result<Option<Refusal>, String> {
    let expected = index::make_index(&site.opened, room);
    let mut blocks = vec![LENT; room];
    let found = library.make_index(&site.bytes, &mut blocks);
    check_blocks(expected, found, &blocks)?;
    let Ok(made) = expected else { return Ok(expected.err()) };
    taken(library, &site.bytes, Job { index: made.to_vec(), ..job(Call::Read, &[], &[]) })
}

fn what_text(case: &Case) -> String {
    let text = if case.text.len() > 2000 { format!("{} bytes", case.text.len()) } else { show(&case.text) };
    format!("k {}, least {}, {:?}, text {text}", case.k, case.least, case.room)
}

fn what_set(site: &Site, room: usize) -> String {
    let opened = site.opened.as_ref().map(|set| (set.k, set.keys.len()));
    format!("the index of a set of {} bytes, k and keys {opened:?}, room {room}", site.bytes.len())
}

/// Every text of a seed.
pub fn run_sets(library: &dyn Library, seed: u64, rounds: u64, made: &mut Made) {
    each(seed, rounds, &mut |case: Case| {
        let checked = check_set(library, &case);
        made.sets += (checked == Ok(None)) as u64;
        made.add(checked, case.text.len(), || what_text(&case));
    });
}

/// Every set of a seed that an index is made of.
pub fn run_indexes(library: &dyn Library, seed: u64, rounds: u64, made: &mut Made) {
    each_index(seed, rounds, &mut |site: &Site, room: usize| {
        let checked = check_index(library, site, room);
        made.indexes += (checked == Ok(None)) as u64;
        made.add(checked, site.bytes.len(), || what_set(site, room));
    });
}
