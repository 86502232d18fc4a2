//! What is compared: units of work, each made from its own random numbers, so that a seed repeats a run on any number of threads.
use crate::check::Site;
use crate::referee::calls::{call, Call, Job};
use crate::referee::correctors::METHODS;
use crate::rng::Rng;
use crate::set_file;

pub mod bridge;
pub mod counts;
pub mod damage;
pub mod fasta;
pub mod edits;
pub mod index;
pub mod make;
pub mod needs;
pub mod reads;
pub mod sets;

/// Takes the cases of a unit: a call, or opening the set where there is none.
pub type Visit<'a> = dyn FnMut(&Site, Option<&Job>) + 'a;

#[derive(Clone, Copy, Debug, PartialEq, Eq)]
pub enum Kind {
    /// k = 1: every set, every read of up to 6 letters.
    AllOfOne,
    /// k = 3: every set of up to two keys, every read of up to 6 letters.
    AllOfThree,
    /// k = 3: a random set, every read of up to 7 letters.
    AllReads,
    /// Small k, each canonical k-mer a key by chance.
    Dense,
    /// The k-mers of a random genome, its reads at 1 to 15 % errors.
    Genome,
    /// Periodic and low-complexity genomes, which make cycles.
    Periodic,
    /// Reads in all ten letters that have a code.
    Letters,
    /// Reads with other bytes, which natir/br has no part in.
    Unknown,
    /// k = 1: every set, and k = 3: a random set; every read of up to 6 bytes over A, C, T, G and N.
    AllWithN,
    /// Confirm up to 255, with errors far enough apart.
    Confirm,
    /// Lists of no to eight entries, each with its own confirm.
    Lists,
    /// Lengths around every limit, and refusals 1 to 6 and 11.
    Limits,
    /// Damaged sets: refusals 7 to 10.
    Damaged,
    /// Every bit of a small set turned, with the check words as they were and with right ones; a unit for each odd k.
    EveryBit,
    /// Indexes that are offered: the set's own, that one damaged, others; refusal 15 among the others.
    Index,
    /// Bits of an index turned, with the check words as they were and with right ones; a unit for each odd k.
    IndexBits,
    /// Counts that are offered: of each kind, and other numbers of them than there are keys; refusal 16 among the others.
    Counts,
    /// What batches need: work buffers of every length, jobs of other than one entry, whatever else is refused.
    Needs,
    /// The same where the result is longer than any output.
    NeedsLong,
    /// FASTA files: as they are taken, with every room, and as they are refused; refusal 18 among the others.
    Fasta,
    /// A set of a few hundred thousand keys.
    Large,
}

/// The kinds and how many units of each a run has. The exhaustive ones have as many as there are sets; the others are repeated by --rounds.
const SCHEDULE: [(Kind, u64, bool); 21] = [
    (Kind::AllOfOne, 4, false),
    (Kind::AllOfThree, 529, false),
    (Kind::AllReads, 400, true),
    (Kind::Dense, 5000, true),
    (Kind::Genome, 6400, true),
    (Kind::Periodic, 5000, true),
    (Kind::Letters, 2000, true),
    (Kind::Unknown, 4000, true),
    (Kind::AllWithN, 104, true),
    (Kind::Confirm, 1600, true),
    (Kind::Lists, 2000, true),
    (Kind::Limits, 1600, true),
    (Kind::Damaged, 10000, true),
    (Kind::EveryBit, 16, false),
    (Kind::Index, 1600, true),
    (Kind::IndexBits, 16, false),
    (Kind::Counts, 2400, true),
    (Kind::Needs, 1600, true),
    (Kind::NeedsLong, 16, true),
    (Kind::Fasta, 320, true),
    (Kind::Large, 2, true),
];

pub struct Unit {
    pub kind: Kind,
    pub number: u64,
}

/// All units of a run. They are mixed by their numbers, so that progress means the same throughout.
pub fn units(rounds: u64) -> Vec<Unit> {
    let mut units: Vec<(u64, Unit)> = Vec::new();
    for (kind, count, random) in SCHEDULE {
        let count = if random { count * rounds } else { count };
        units.extend((0..count).map(|number| (number * 1_000_000 / count, Unit { kind, number })));
    }
    units.sort_by_key(|(place, unit)| (*place, unit.kind as u64, unit.number));
    units.into_iter().map(|(_, unit)| unit).collect()
}

pub fn run(unit: &Unit, seed: u64, visit: &mut Visit) {
    let rng = &mut Rng::of_unit(seed, (unit.kind as u64) << 32 | unit.number);
    match unit.kind {
        Kind::AllOfOne => all_reads(&sets::subset(1, unit.number), b"ACTG", 6, &mut every_job, visit),
        Kind::AllOfThree => all_reads(&sets::up_to_two(3, unit.number as usize), b"ACTG", 6, &mut every_job, visit),
        Kind::AllReads => {
            let (site, entry) = (sets::dense(rng, 3), any_entry(rng));
            all_reads(&site, b"ACTG", 7, &mut |batch| vec![job(Call::Batch, &entry, batch)], visit);
        }
        Kind::AllWithN if unit.number < 4 => all_reads(&sets::subset(1, unit.number), b"ACTGN", 6, &mut every_job, visit),
        Kind::AllWithN => {
            let (site, entry) = (sets::dense(rng, 3), any_entry(rng));
            all_reads(&site, b"ACTGN", 6, &mut |batch| vec![job(Call::Batch, &entry, batch)], visit);
        }
        Kind::Dense => {
            let k = *rng.pick(&[1, 3, 3, 5, 5, 5, 7, 7]);
            let site = sets::dense(rng, k);
            let reads: Vec<_> = (0..60).map(|_| reads::in_set(rng, &site)).collect();
            each_method(rng, &site, &reads, 6, visit);
        }
        Kind::Genome => {
            let k = sets::any_k(rng);
            let (site, genome) = sets::genome(rng, k);
            let reads: Vec<_> = (0..60).map(|_| reads::noisy(rng, &genome, 240)).collect();
            each_method(rng, &site, &reads, 10, visit);
        }
        Kind::Periodic => {
            let k = sets::any_k(rng);
            let (site, genome) = sets::periodic(rng, k);
            let reads = noisy_reads(rng, &genome, |_, read| read);
            each_method(rng, &site, &reads, 8, visit);
        }
        Kind::Letters => {
            let k = sets::any_k(rng);
            let (site, genome) = sets::genome(rng, k);
            let reads = noisy_reads(rng, &genome, reads::in_ten_letters);
            each_method(rng, &site, &reads, 6, visit);
        }
        Kind::Unknown => {
            let k = sets::any_k(rng);
            let (site, genome) = if rng.percent(70) { sets::genome(rng, k) } else { sets::periodic(rng, k) };
            let reads = noisy_reads(rng, &genome, reads::with_unknown);
            each_method(rng, &site, &reads, 6, visit);
        }
        Kind::Confirm => confirm(rng, visit),
        Kind::Lists => lists(rng, visit),
        Kind::Limits => limits(rng, unit.number, visit),
        Kind::Damaged => damaged(rng, visit),
        Kind::EveryBit => damage::every_bit(rng, 2 * unit.number as u8 + 1, &mut |set| visit(&Site::new(set), None)),
        Kind::Index => index::offered(rng, visit),
        Kind::IndexBits => index::bits(rng, 2 * unit.number as u8 + 1, visit),
        Kind::Counts => counts::offered(rng, visit),
        Kind::Needs => needs::asked(rng, unit.number, visit),
        Kind::NeedsLong => needs::long(rng, unit.number, visit),
        Kind::Fasta => fasta::taken(rng, unit.number, visit),
        Kind::Large => large(rng, visit),
    }
}

/// A call with room enough for what the methods usually give, and the least work buffer that is accepted.
pub fn job(call: Call, entries: &[u8], input: &[u8]) -> Job {
    let output = (2 * input.len() + 256).min(1_048_576);
    job_with_room(call, entries, input, output)
}

pub fn job_with_room(call: Call, entries: &[u8], input: &[u8], output: usize) -> Job {
    let (index, counts) = (Vec::new(), Vec::new());
    Job { call, index, counts, entries: entries.to_vec(), input: input.to_vec(), output, work: 2 * output.max(input.len()) }
}

/// As many entries, each with a method and a confirm of its own, mostly up to `confirm`.
pub fn any_entries(rng: &mut Rng, count: usize, confirm: usize) -> Vec<u8> {
    (0..count).flat_map(|_| [rng.pick(&METHODS).byte(), any_confirm(rng, confirm)]).collect()
}

/// Lines, each ended by byte 10.
pub fn batch_of<'a>(reads: impl IntoIterator<Item = &'a Vec<u8>>) -> Vec<u8> {
    let mut batch = Vec::new();
    for read in reads {
        batch.extend_from_slice(read);
        batch.push(10);
    }
    batch
}

fn any_entry(rng: &mut Rng) -> [u8; 2] {
    [rng.pick(&METHODS).byte(), rng.within(1, 4) as u8]
}

/// Noisy parts of a genome, written in a way of their own.
fn noisy_reads(rng: &mut Rng, genome: &[u8], written: fn(&mut Rng, Vec<u8>) -> Vec<u8>) -> Vec<Vec<u8>> {
    let mut next = || {
        let read = reads::noisy(rng, genome, 160);
        written(rng, read)
    };
    (0..60).map(|_| next()).collect()
}

/// Every read of up to `longest` letters: the shortest by read calls, the others by batches of 1,024.
fn all_reads(site: &Site, letters: &[u8], longest: u32, jobs: &mut dyn FnMut(&[u8]) -> Vec<Job>, visit: &mut Visit) {
    visit(site, None);
    for length in 0..=longest {
        let reads: Vec<Vec<u8>> = reads::all(letters, length).collect();
        for lines in reads.chunks(1024) {
            for job in jobs(&batch_of(lines)) {
                if length > 4 {
                    visit(site, Some(&job));
                    continue;
                }
                for line in lines {
                    let single = job_with_room(Call::Read, &job.entries, line, 64);
                    visit(site, Some(&single));
                }
            }
        }
    }
}

/// All methods, with confirm 1 to 3 where it counts.
fn every_job(batch: &[u8]) -> Vec<Job> {
    let counting = [1, 2, 4].into_iter().flat_map(|method| (1..=3).map(move |confirm| [method, confirm]));
    counting.chain([[3, 1]]).map(|entry| job(Call::Batch, &entry, batch)).collect()
}

/// Each read by each method alone, some by read calls and the rest as one batch, with a confirm of mostly up to `confirm`.
fn each_method(rng: &mut Rng, site: &Site, reads: &[Vec<u8>], confirm: usize, visit: &mut Visit) {
    visit(site, None);
    let singles = 20.min(reads.len());
    for method in METHODS {
        for read in &reads[..singles] {
            visit(site, Some(&job(Call::Read, &[method.byte(), any_confirm(rng, confirm)], read)));
        }
        let lines = reads[singles..].iter().filter(|read| !read.contains(&10));
        visit(site, Some(&job(Call::Batch, &[method.byte(), any_confirm(rng, confirm)], &batch_of(lines))));
    }
}

fn any_confirm(rng: &mut Rng, usual: usize) -> u8 {
    let most = if rng.percent(8) { 255 } else { usual };
    rng.within(1, most) as u8
}

fn confirm(rng: &mut Rng, visit: &mut Visit) {
    let k = sets::any_k(rng);
    let length = rng.within(500, 1500);
    let genome = reads::letters(rng, length);
    let site = sets::of_genomes(k, [genome.as_slice()]);
    for _ in 0..24 {
        let c = if rng.percent(10) { *rng.pick(&[1, 2, 127, 128, 254, 255]) } else { rng.within(1, 255) };
        let read = reads::spaced(rng, &genome, c + k as usize + 4);
        for method in [1, 2, 4] {
            visit(&site, Some(&job(Call::Read, &[method, c as u8], &read)));
        }
    }
}

fn lists(rng: &mut Rng, visit: &mut Visit) {
    let k = sets::any_k(rng);
    let (site, genome) = if rng.percent(70) { sets::genome(rng, k) } else { sets::periodic(rng, k) };
    for _ in 0..12 {
        let count = rng.below(9);
        let entries = any_entries(rng, count, 8);
        let read = reads::noisy(rng, &genome, 240);
        visit(&site, Some(&job(Call::Read, &entries, &read)));
        let lines: Vec<_> = (0..rng.below(8)).map(|_| reads::noisy(rng, &genome, 160)).collect();
        visit(&site, Some(&job(Call::Batch, &entries, &batch_of(&lines))));
    }
}

/// Lengths about k and the end of a read, output just long enough and one short, jobs, buffers and inputs at and over their limits.
fn limits(rng: &mut Rng, number: u64, visit: &mut Visit) {
    let k = sets::any_k(rng);
    let (site, genome) = sets::genome(rng, k);
    for length in [0, 1, k as usize - 1, k as usize, k as usize + 1, k as usize + 2, k as usize + 5] {
        let read = reads::noisy_of_length(rng, &genome, length);
        for method in METHODS {
            room(&site, &job(Call::Read, &[method.byte(), any_confirm(rng, 4)], &read), rng, visit);
        }
    }
    for _ in 0..6 {
        let count = rng.below(4);
        let entries = any_entries(rng, count, 6);
        let lines: Vec<_> = (0..rng.below(6)).map(|_| reads::noisy(rng, &genome, 120)).collect();
        room(&site, &job(Call::Read, &entries, &reads::noisy(rng, &genome, 120)), rng, visit);
        room(&site, &job(Call::Batch, &entries, &batch_of(&lines)), rng, visit);
    }
    let read = reads::noisy(rng, &genome, 120);
    damage::jobs(rng, &mut |entries| {
        visit(&site, Some(&job(Call::Read, entries, &read)));
        visit(&site, Some(&job(Call::Batch, entries, &batch_of([&read]))));
    });
    for _ in 0..20 {
        damage::input(rng, &genome, number % 40 == 0, &mut |job| visit(&site, Some(job)));
    }
}

/// A call whose output is just long enough for every pass, one short, and shorter.
fn room(site: &Site, ample: &Job, rng: &mut Rng, visit: &mut Visit) {
    let mut least = 0;
    let mut before = 0;
    let ending = (ample.call == Call::Batch) as usize;
    for passes in &call(&site.opened, ample).passes {
        let longest = passes.iter().map(|pass| pass.bytes.len()).max().unwrap_or(ample.input.len());
        least = least.max(before + longest + ending);
        before += passes.last().map_or(ample.input.len(), |pass| pass.bytes.len()) + ending;
    }
    for output in [least, least.saturating_sub(1), rng.below(least + 1)] {
        visit(site, Some(&job_with_room(ample.call, &ample.entries, &ample.input, output)));
    }
}

fn damaged(rng: &mut Rng, visit: &mut Visit) {
    let site = Site::new(damage::set(rng));
    visit(&site, None);
    let length = rng.below(40);
    let read = reads::letters(rng, length);
    let entry = [rng.pick(&METHODS).byte(), 1];
    visit(&site, Some(&job(Call::Read, &entry, &read)));
    visit(&site, Some(&job(Call::Batch, &entry, &batch_of([&read]))));
    // The input is refused before the set is.
    damage::input(rng, b"ACGT", false, &mut |job| visit(&site, Some(job)));
}

fn large(rng: &mut Rng, visit: &mut Visit) {
    let k = *rng.pick(&[13, 15, 21, 31]);
    let length = rng.within(100_000, 300_000);
    let genome = reads::letters(rng, length);
    let site = sets::of_genomes(k, [genome.as_slice()]);
    visit(&site, None);
    for method in METHODS {
        let lines: Vec<_> = (0..200).map(|_| reads::noisy(rng, &genome, 800)).collect();
        visit(&site, Some(&job(Call::Batch, &[method.byte(), any_confirm(rng, 10)], &batch_of(&lines))));
    }
    // The longest read that is taken.
    let mut longest: Vec<u8> = genome.iter().cycle().take(1_048_576 - 4).copied().collect();
    reads::substitute(rng, &mut longest, 200);
    visit(&site, Some(&Job { output: 1_048_576, work: 2_097_152, ..job(Call::Read, &[rng.pick(&METHODS).byte(), 5], &longest) }));
}

/// The set file of a site's keys without some: for shrinking.
pub fn without(site: &Site, from: usize, count: usize) -> Option<Site> {
    let set = site.opened.as_ref().ok()?;
    let keys: Vec<u64> = set.keys.iter().enumerate().filter(|(at, _)| !(from..from + count).contains(at)).map(|(_, key)| *key).collect();
    Some(Site::new(set_file::make(set.k as u64, &keys)))
}
