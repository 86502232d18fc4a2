//! One case on all sides.
use crate::library::Library;
use crate::oracle::{self, Keys};
use crate::referee::calls::{self, Answer, Call, Entry, Job, Outcome, Report, MOST_OUTPUT, MOST_WORK};
use crate::referee::ceilings::ceilings;
use crate::referee::correctors::{Method, ALL_BY, ALL_EVENTS, BY, METHODS};
use crate::referee::driver::Pass;
use crate::referee::fasta;
use crate::referee::letters::code;
use crate::referee::needs::{self, Needs};
use crate::referee::set::{open, Refusal, Set};
use crate::rng::Rng;
use crate::set_file::BLOCK;
use crate::support::{parts_that_tell, PARTS};
use std::cell::OnceCell;
use std::fmt::Debug;

/// What every lent byte holds before a call.
pub const LENT: u8 = 0xaa;

/// A set file, as each side reads it.
pub struct Site {
    pub bytes: Vec<u8>,
    pub opened: Result<Set, Refusal>,
    keys: Option<Keys>,
    counts: OnceCell<Vec<u32>>,
}

impl Site {
    pub fn new(bytes: Vec<u8>) -> Self {
        let opened = open(&bytes);
        let keys = opened.as_ref().ok().map(|set| Keys::new(set.k as u8, &set.keys));
        Site { bytes, opened, keys, counts: OnceCell::new() }
    }

    /// Its index; of a set that is refused, which is told before 15, a block that is none.
    pub fn index(&self) -> &[u8] {
        self.opened.as_ref().map_or(&[LENT; BLOCK], |set| set.index())
    }

    /// Counts of its keys, the same each time; of a set that is refused, which is told before 16, one count.
    pub fn counts(&self) -> &[u32] {
        self.counts.get_or_init(|| {
            let n = self.opened.as_ref().map_or(1, |set| set.keys.len());
            any_counts(&mut Rng::of_unit(n as u64, COUNTS), n)
        })
    }
}

/// A unit number that no other kind has.
const COUNTS: u64 = 1 << 42;

/// So many counts: any, which mostly differ from each other; small ones; large ones; 0 and 4,294,967,295 alone; or all of them equal.
pub fn any_counts(rng: &mut Rng, n: usize) -> Vec<u32> {
    let (style, equal) = (rng.below(10), rng.word() as u32);
    let mut next = || match style {
        0 => equal,
        1 => *rng.pick(&[0, u32::MAX]),
        2 => rng.below(100) as u32,
        3 => u32::MAX - rng.below(100) as u32,
        _ => rng.word() as u32,
    };
    (0..n).map(|_| next()).collect()
}

/// Numbers of refusals, and 0.
const REFUSALS: usize = 19;

/// What calls tell of lookups for each base, by name.
type EachBase = (&'static str, fn(&Report, &[Vec<Pass>]) -> bool);

const EACH_BASE: [EachBase; 5] = [
    ("lookups and no base", |report, _| report.bases == 0 && report.lookups > 0),
    ("fewer lookups than bases", |report, _| report.lookups < report.bases),
    ("nothing left", |report, _| report.bases > 0 && report.remainder == 0),
    ("a remainder", |report, _| report.remainder > 0),
    ("another sum by the first passes alone", |report, passes| passes.iter().filter_map(|made| made.first()).map(|pass| pass.w).sum::<u64>() != report.bases),
];

/// What agreed.
#[derive(Clone)]
pub struct Tally {
    /// Passes of reads of the ten letters that have a code: on all sides.
    pub passes: u64,
    /// Passes of other reads, and the corrections in them: the library and the referee alone.
    pub other: u64,
    pub other_accepted: u64,
    pub calls: u64,
    /// Calls that were made once more with an index.
    pub indexed: u64,
    /// Calls that were made once more with counts.
    pub counted: u64,
    /// Calls with counts that told a support, and how many would tell another if a part of the evidence were left out, in the order of `PARTS`.
    pub supported: u64,
    pub parts: [u64; PARTS.len()],
    pub refusals: [u64; REFUSALS],
    /// Accepted calls, in the order of `EACH_BASE`.
    pub each_base: [u64; EACH_BASE.len()],
    /// FASTA calls that were accepted, and those of them whose pass results alone need more room than the texts.
    pub fasta: u64,
    pub only_pass: u64,
    /// Calls that told what a batch needs, those of them that told more bytes than any output has, and their refusals.
    pub needs: u64,
    pub long: u64,
    pub needs_refusals: [u64; REFUSALS],
    pub attempts: u64,
    pub accepted: u64,
    pub lookups: u64,
    /// Accepted calls with several confirms in the job, and those of them that tell the confirms apart.
    pub several: u64,
    pub apart: u64,
    /// Corrections by method and scenario, by k, and by confirm.
    pub by: [[u64; BY]; 4],
    pub by_k: [u64; 32],
    pub by_confirm: [u64; 256],
    pub events: [u64; ALL_EVENTS.len()],
}

impl Default for Tally {
    fn default() -> Self {
        Tally {
            passes: 0,
            other: 0,
            other_accepted: 0,
            calls: 0,
            indexed: 0,
            counted: 0,
            supported: 0,
            parts: [0; PARTS.len()],
            refusals: [0; REFUSALS],
            each_base: [0; EACH_BASE.len()],
            fasta: 0,
            only_pass: 0,
            needs: 0,
            long: 0,
            needs_refusals: [0; REFUSALS],
            attempts: 0,
            accepted: 0,
            lookups: 0,
            several: 0,
            apart: 0,
            by: [[0; BY]; 4],
            by_k: [0; 32],
            by_confirm: [0; 256],
            events: [0; ALL_EVENTS.len()],
        }
    }
}

fn add_each<'a>(mine: &mut [u64], others: impl IntoIterator<Item = &'a u64>) {
    for (mine, others) in mine.iter_mut().zip(others) {
        *mine += others;
    }
}

impl Tally {
    pub fn add(&mut self, other: &Tally) {
        self.passes += other.passes;
        self.other += other.other;
        self.other_accepted += other.other_accepted;
        self.calls += other.calls;
        self.indexed += other.indexed;
        self.counted += other.counted;
        self.supported += other.supported;
        add_each(&mut self.parts, &other.parts);
        self.attempts += other.attempts;
        self.accepted += other.accepted;
        self.lookups += other.lookups;
        self.several += other.several;
        self.apart += other.apart;
        self.fasta += other.fasta;
        self.only_pass += other.only_pass;
        self.needs += other.needs;
        self.long += other.long;
        add_each(&mut self.needs_refusals, &other.needs_refusals);
        add_each(&mut self.refusals, &other.refusals);
        add_each(&mut self.each_base, &other.each_base);
        add_each(self.by.as_flattened_mut(), other.by.as_flattened());
        add_each(&mut self.by_k, &other.by_k);
        add_each(&mut self.by_confirm, &other.by_confirm);
        add_each(&mut self.events, &other.events);
    }

    /// What a run met, a line for each kind.
    pub fn print(&self) {
        println!(
            "{} passes in {} calls: {} attempts, {} corrections, {} lookups",
            self.passes, self.calls, self.attempts, self.accepted, self.lookups
        );
        println!("{} of the calls made once more with an index, alike; {} with counts, alike but for the support", self.indexed, self.counted);
        println!(
            "calls that told a support: {}, which would be another without {}",
            self.supported,
            counts(PARTS.iter().map(|part| format!("{part:?}")), &self.parts)
        );
        println!("besides, of reads with other bytes and without natir/br: {} passes, {} corrections", self.other, self.other_accepted);
        for (method, by) in METHODS.iter().zip(self.by) {
            println!("corrections by {method:?}: {}", counts(ALL_BY.iter().map(|by| format!("{by:?}")), &by));
        }
        println!("corrections by k: {}", counts((0..).map(|k: u32| k.to_string()), &self.by_k));
        println!("corrections at {} of 255 confirms", self.by_confirm.iter().filter(|count| **count > 0).count());
        println!("calls with several confirms: {}, of which {} would give other bytes with any one of them alone", self.several, self.apart);
        println!("lookups for each base, calls with: {}", counts(EACH_BASE.iter().map(|(name, _)| name.to_string()), &self.each_base));
        println!("met: {}", counts(ALL_EVENTS.iter().map(|event| format!("{event:?}")), &self.events));
        let numbers = || (0..).map(|number: u32| number.to_string());
        println!("refusals: {}", counts(numbers(), &self.refusals));
        println!("FASTA calls accepted: {}, of which {} need more room for a pass result than for all texts", self.fasta, self.only_pass);
        println!(
            "needs told: {}, of which {} more bytes than any output has; refused: {}",
            self.needs,
            self.long,
            counts(numbers(), &self.needs_refusals)
        );
    }

    fn add_pass(&mut self, k: usize, confirm: u8, method: Method, pass: &Pass) {
        self.passes += 1;
        self.attempts += pass.attempts;
        self.accepted += pass.accepted;
        self.lookups += pass.lookups;
        self.by_k[k] += pass.accepted;
        if method != Method::Graph {
            self.by_confirm[confirm as usize] += pass.accepted;
        }
        add_each(&mut self.by[method as usize], &pass.by.map(u64::from));
        add_each(&mut self.events, &pass.events.map(u64::from));
    }

    fn add_other(&mut self, passes: &[Pass]) {
        for pass in passes {
            self.other += 1;
            self.other_accepted += pass.accepted;
            add_each(&mut self.events, &pass.events.map(u64::from));
        }
    }

    /// The support that a call tells with these counts, if it tells one.
    fn add_support(&mut self, outcome: &Outcome, counts: &[u32]) {
        if outcome.answer.is_err() || calls::support(&outcome.passes, counts).is_none() {
            return;
        }
        self.supported += 1;
        add_each(&mut self.parts, &parts_that_tell(&outcome.passes, counts).map(u64::from));
    }

    /// What agreed, as the last line counts it.
    pub fn agreed(&self) -> u64 {
        self.passes + self.other + self.needs + self.refusals.iter().chain(&self.needs_refusals).sum::<u64>()
    }
}

/// Whether natir/br reads a read as document 02 does: whether each byte has a code there.
pub fn has_codes(read: &[u8]) -> bool {
    read.iter().all(|byte| code(*byte).is_some())
}

/// Whether entries have more than one confirm. Graph has no use for its own.
fn several_confirms(entries: &[Entry]) -> bool {
    let mut used = entries.iter().filter(|entry| Method::of(entry.method) != Some(Method::Graph)).map(|entry| entry.confirm);
    used.next().is_some_and(|first| used.any(|other| other != first))
}

/// Whether a call's bytes show that each pass had its own entry's confirm: any one confirm of the job, taken for all, gives others.
pub fn tells_confirms_apart(site: &Site, job: &Job, outcome: &Outcome) -> bool {
    let entries = calls::entries(job);
    several_confirms(&entries)
        && entries.iter().all(|one| {
            let alike = entries.iter().flat_map(|entry| [entry.method, one.confirm]).collect();
            calls::call(&site.opened, &Job { entries: alike, ..job.clone() }).bytes != outcome.bytes
        })
}

fn counts(names: impl Iterator<Item = String>, counts: &[u64]) -> String {
    names.zip(counts).filter(|(_, count)| **count > 0).map(|(name, count)| format!("{name} {count}")).collect::<Vec<_>>().join(", ")
}

/// What two sides say differently.
#[derive(Debug)]
pub struct Disagreement {
    pub of: String,
    pub expected: String,
    pub found: String,
}

impl Disagreement {
    fn with(self, offered: &str) -> Self {
        Disagreement { of: format!("{}, with {offered}", self.of), ..self }
    }
}

fn same<T: PartialEq + Debug>(of: &str, expected: T, found: T) -> Result<(), Disagreement> {
    if expected == found {
        return Ok(());
    }
    Err(Disagreement { of: of.to_string(), expected: format!("{expected:?}"), found: format!("{found:?}") })
}

fn same_bytes(of: &str, expected: &[u8], found: &[u8]) -> Result<(), Disagreement> {
    if expected == found {
        return Ok(());
    }
    Err(Disagreement { of: of.to_string(), expected: show(expected), found: show(found) })
}

fn same_everywhere(of: &str, expected: u8, found: &[u8]) -> Result<(), Disagreement> {
    match found.iter().position(|byte| *byte != expected) {
        None => Ok(()),
        Some(place) => Err(Disagreement { of: format!("{of}, byte {place}"), expected: expected.to_string(), found: found[place].to_string() }),
    }
}

/// Bytes as they are printed: letters, and others as \xNN.
pub fn show(bytes: &[u8]) -> String {
    bytes.escape_ascii().to_string()
}

/// The buffers that calls are lent, kept from case to case.
#[derive(Default)]
pub struct Buffers {
    output: Vec<u8>,
    work: Vec<u8>,
}

/// Opening a set: the library against the referee.
pub fn check_open(library: &dyn Library, site: &Site, tally: &mut Tally) -> Result<(), Disagreement> {
    let expected = site.opened.as_ref().map(|set| (set.k as u64, set.keys.len() as u64)).map_err(|refusal| *refusal);
    same("opening the set", expected, library.open(&site.bytes))?;
    tally.calls += 1;
    if let Err(refusal) = expected {
        tally.refusals[refusal.number as usize] += 1;
    }
    Ok(())
}

/// A call on all sides: every byte and count of every pass, its ceilings, the answer, and every lent byte afterwards; without an index and with
/// the set's, unless the job offers one. natir/br has no part where a read holds other bytes than the ten letters.
pub fn check_call(library: &dyn Library, site: &Site, job: &Job, buffers: &mut Buffers, tally: &mut Tally) -> Result<(), Disagreement> {
    if job.call == Call::Needs {
        return check_needs(library, site, job, buffers, tally);
    }
    let outcome = calls::call(&site.opened, job);
    check_reads(site, job, &outcome.passes, tally)?;
    // Nothing in the job counts here, and most reads are corrected by One, too.
    if job.call == Call::Read && job.entries.first() == Some(&Method::One.byte()) {
        same("the count of solid k-mers", calls::count_solid(&site.opened, &job.input), library.count_solid(&site.bytes, &job.input))?;
    }
    check_answer(library, site, job, outcome.answer, &outcome.bytes, buffers)?;
    tally.add_support(&outcome, &job.counts);
    if job.index.is_empty() {
        let indexed = Job { index: site.index().to_vec(), ..job.clone() };
        check_answer(library, site, &indexed, outcome.answer, &outcome.bytes, buffers).map_err(|found| found.with("an index"))?;
        tally.indexed += 1;
    }
    if job.counts.is_empty() {
        let counted = Job { counts: site.counts().to_vec(), ..job.clone() };
        let support = calls::support(&outcome.passes, site.counts());
        let answer = outcome.answer.map(|report| Report { support, ..report });
        check_answer(library, site, &counted, answer, &outcome.bytes, buffers).map_err(|found| found.with("counts"))?;
        tally.counted += 1;
        tally.add_support(&outcome, site.counts());
    }
    if job.call == Call::Fasta && outcome.answer.is_ok() {
        check_again(job, &outcome)?;
        tally.fasta += 1;
        tally.only_pass += only_pass(job, &outcome) as u64;
    }
    if job.call == Call::Batch {
        let asked = Job { call: Call::Needs, work: job.input.len(), ..job.clone() };
        // The passes of an accepted call need not be made again.
        let answer = match outcome.answer {
            Ok(_) => needs::checked(&site.opened, &asked).map(|_| needs::sum(&outcome.passes)),
            Err(_) => needs::needs(&site.opened, &asked).answer,
        };
        check_booking(library, site, &asked, answer, Some(&outcome), buffers, tally)?;
    }
    tally.calls += 1;
    match outcome.answer {
        Err(refusal) => tally.refusals[refusal.number as usize] += 1,
        Ok(report) => {
            add_each(&mut tally.each_base, &EACH_BASE.map(|(_, holds)| holds(&report, &outcome.passes) as u64));
            tally.several += several_confirms(&calls::entries(job)) as u64;
            tally.apart += tells_confirms_apart(site, job, &outcome) as u64;
        }
    }
    Ok(())
}

/// The FASTA that was written, read again: the same names, the corrected reads, and no refusal of 6 or 18.
fn check_again(job: &Job, outcome: &Outcome) -> Result<(), Disagreement> {
    let given = fasta::records(&job.input);
    let mended = given.iter().zip(&outcome.passes).map(|(record, made)| {
        let read = made.last().map_or(&record.read, |pass| &pass.bytes).clone();
        fasta::Record { name: record.name.clone(), read }
    });
    same("the output read again", mended.collect(), fasta::records(&outcome.bytes))?;
    same("refusals of the output", None, fasta::file_refusal(&outcome.bytes).or_else(|| fasta::sequence_refusal(&outcome.bytes)))
}

/// Whether the output of an accepted FASTA call must be longer than its bytes: a pass result is longer than what the texts would leave.
fn only_pass(job: &Job, outcome: &Outcome) -> bool {
    let mut before = 0;
    fasta::records(&job.input).iter().zip(&outcome.passes).any(|(record, made)| {
        let longest = made.iter().map(|pass| pass.bytes.len()).max().unwrap_or(record.read.len());
        let needed = before + longest;
        before += fasta::text(&record.name, made.last().map_or(&record.read, |pass| &pass.bytes)).len();
        needed > outcome.bytes.len()
    })
}

/// What lines need, on all sides.
fn check_needs(library: &dyn Library, site: &Site, job: &Job, buffers: &mut Buffers, tally: &mut Tally) -> Result<(), Disagreement> {
    let needed = needs::needs(&site.opened, job);
    check_reads(site, job, &needed.passes, tally)?;
    tally.calls += 1;
    check_booking(library, site, job, needed.answer, None, buffers, tally)
}

/// What the library tells of the needs, with the set's index and counts too unless the job offers some; and the batch call: with an output of just
/// so many bytes, and one byte less. `outcome` is a call of the same batch, if one was made.
fn check_booking(
    library: &dyn Library,
    site: &Site,
    job: &Job,
    expected: Result<Needs, Refusal>,
    outcome: Option<&Outcome>,
    buffers: &mut Buffers,
    tally: &mut Tally,
) -> Result<(), Disagreement> {
    check_told(library, site, job, expected, buffers)?;
    if job.index.is_empty() && job.counts.is_empty() {
        let offering = Job { index: site.index().to_vec(), counts: site.counts().to_vec(), ..job.clone() };
        check_told(library, site, &offering, expected, buffers).map_err(|found| found.with("an index and counts"))?;
    }
    match expected {
        Err(refusal) => tally.needs_refusals[refusal.number as usize] += 1,
        Ok(needs) => {
            check_real(library, site, job, needs, outcome, buffers).map_err(|found| found.with("an output by what it needs"))?;
            tally.needs += 1;
            tally.long += (needs.bytes > MOST_OUTPUT as u64) as u64;
        }
    }
    Ok(())
}

/// The library's answer, and every byte of the work buffer afterwards.
fn check_told(library: &dyn Library, site: &Site, job: &Job, expected: Result<Needs, Refusal>, buffers: &mut Buffers) -> Result<(), Disagreement> {
    buffers.work.clear();
    buffers.work.resize(job.work, LENT);
    let answer = library.needs(&site.bytes, job, &mut buffers.work);
    same("what a batch needs", expected, answer)?;
    same_everywhere("the work buffer of needs", if answer.is_ok() { 0 } else { LENT }, &buffers.work)
}

/// The batch call: with an output of just so many bytes it reports these numbers, with one byte less it is 11 at the last line. Where no output has so
/// many, the longest is 11, too.
fn check_real(
    library: &dyn Library,
    site: &Site,
    job: &Job,
    needs: Needs,
    outcome: Option<&Outcome>,
    buffers: &mut Buffers,
) -> Result<(), Disagreement> {
    let real = |output: usize| Job { call: Call::Batch, output, work: 2 * output.max(job.input.len()), ..job.clone() };
    if needs.bytes > MOST_OUTPUT as u64 {
        let longest = Job { work: MOST_WORK, ..real(MOST_OUTPUT) };
        let refused = calls::call(&site.opened, &longest).answer;
        same("the referee's refusal of the longest output", Some(11), refused.err().map(|refusal| refusal.number))?;
        return check_answer(library, site, &longest, refused, &[], buffers);
    }
    let exact = real(needs.bytes as usize);
    let made;
    let fits = match outcome.filter(|outcome| outcome.answer.is_ok()) {
        Some(outcome) => outcome,
        None => {
            made = calls::call(&site.opened, &exact);
            &made
        }
    };
    let told = fits.answer.map(|report| Needs { bytes: report.written, turns: report.turns, lookups: report.lookups });
    same("the referee's batch call, by its needs", Ok(needs), told)?;
    check_answer(library, site, &exact, fits.answer, &fits.bytes, buffers)?;
    match job.input.iter().filter(|byte| **byte == 10).count().checked_sub(1) {
        Some(line) => check_answer(library, site, &real(exact.output - 1), Err(Refusal::new(11, line)), &[], buffers),
        None => Ok(()),
    }
}

/// The passes of reads: their ceilings, and natir/br's.
fn check_reads(site: &Site, job: &Job, passes: &[Vec<Pass>], tally: &mut Tally) -> Result<(), Disagreement> {
    let (Some(keys), Ok(set)) = (&site.keys, &site.opened) else { return Ok(()) };
    for (read, passes) in calls::reads(job).into_iter().zip(passes) {
        check_ceilings(set, job, &read, passes)?;
        if has_codes(&read) {
            check_passes(keys, job, &read, passes, tally)?;
        } else {
            tally.add_other(passes);
        }
    }
    Ok(())
}

/// The library's call: its answer, and every lent byte afterwards.
fn check_answer(library: &dyn Library, site: &Site, job: &Job, expected: Answer, bytes: &[u8], buffers: &mut Buffers) -> Result<(), Disagreement> {
    buffers.output.clear();
    buffers.output.resize(job.output, LENT);
    buffers.work.clear();
    buffers.work.resize(job.work, LENT);
    let answer = library.correct(&site.bytes, job, &mut buffers.output, &mut buffers.work);
    same("the answer", expected, answer)?;
    let rest = match answer {
        Err(refusal) if refusal.number != 11 => LENT,
        _ => 0,
    };
    let (written, spare) = buffers.output.split_at(bytes.len());
    same_bytes("the output", bytes, written)?;
    same_everywhere("the rest of the output", rest, spare)?;
    same_everywhere("the work buffer", rest, &buffers.work)
}

/// Demand 3, pass by pass.
fn check_ceilings(set: &Set, job: &Job, read: &[u8], passes: &[Pass]) -> Result<(), Disagreement> {
    let mut fed = read;
    for (entry, pass) in calls::entries(job).into_iter().zip(passes) {
        let Some(method) = Method::of(entry.method) else { break };
        let (turns, lookups) = ceilings(set, method, entry.confirm, fed.len());
        same("turns within their ceiling", pass.turns.min(turns), pass.turns)?;
        same("lookups within their ceiling", pass.lookups.min(lookups), pass.lookups)?;
        fed = &pass.bytes;
    }
    Ok(())
}

/// A read through the job's entries: natir/br with each one's confirm, fed its own results, against the referee.
fn check_passes(keys: &Keys, job: &Job, read: &[u8], passes: &[Pass], tally: &mut Tally) -> Result<(), Disagreement> {
    let mut fed = read.to_vec();
    for (entry, expected) in calls::entries(job).into_iter().zip(passes) {
        let Some(method) = Method::of(entry.method) else { break };
        let found = oracle::pass(keys, method, entry.confirm, &fed);
        same_bytes("a pass of natir/br (expected: the referee)", &expected.bytes, &found.bytes)?;
        same(
            "natir/br's turns, attempts, corrections, lookups (expected: the referee, with what the Rust asks again)",
            (expected.turns, expected.attempts, expected.accepted, expected.lookups as i64 + expected.again),
            (found.turns, found.attempts, found.accepted, found.lookups as i64),
        )?;
        tally.add_pass(keys.k(), entry.confirm, method, expected);
        fed = found.bytes;
    }
    Ok(())
}
