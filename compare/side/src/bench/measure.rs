//! What is measured.
use super::against::Against;
use super::inputs::{World, READ};
use super::rounds::{median, timed, Part, Rounds};
use super::symbols::on_huge_pages;
use super::system::sampled;
use crate::cases::{batch_of, job};
use crate::library::Library;
use crate::oracle;
use crate::referee::calls::{Answer, Call, Job, Report};
use crate::referee::correctors::Method;
use crate::referee::fasta::text;
use crate::referee::needs::Needs;
use crate::rng::Rng;
use br::set::BoxKmerSet;
use std::hint::black_box;

pub const CONFIRM: u8 = 5;
const MOST_READS: usize = 100;
const MOST_BYTES: usize = 1_048_576;
/// Reads are added to a batch while the Rust has asked less than this: so a cell has the same reads on every machine.
pub const MOST_ASKED: u64 = 6_000_000;
/// Lookups of the plain loops; as many letters are still a read that a call takes.
pub const LOOP: usize = 1_000_000;
/// Rounds of what is measured beside the cells.
const ROUNDS: usize = 5;
/// A unit number that no reads have.
const COUNTS: u64 = u64::MAX;

/// One method on a set at a rate of errors.
pub struct Cell {
    pub method: Method,
    pub keys: usize,
    pub k: u8,
    pub huge: bool,
    pub errors: usize,
    pub reads: usize,
    pub bases: usize,
    pub lookups: u64,
    pub rounds: Rounds,
    pub a_lookup: Loops,
}

impl Cell {
    pub fn nanoseconds(&self, seconds: f64) -> f64 {
        seconds * 1e9 / self.bases as f64
    }

    pub fn lookups_a_base(&self) -> f64 {
        self.lookups as f64 / self.bases as f64
    }
}

/// Seconds of a lookup in a plain loop over the k-mers of reads, on either side.
#[derive(Clone, Copy)]
pub struct Loops {
    pub ours: f64,
    pub rust: f64,
}

pub struct Opening {
    pub keys: usize,
    pub k: u8,
    pub bytes: usize,
    pub open: f64,
    pub reading: f64,
}

pub struct Gap {
    pub moves: usize,
    pub lines: usize,
    pub rounds: Rounds,
}

/// Where the set and the Rust's table lie: the set's address modulo a line of memory, and of each mapping all bytes and those on huge pages.
pub struct Placing {
    pub keys: usize,
    pub huge: bool,
    pub offset: usize,
    pub ours: Option<(u64, u64)>,
    pub rust: Option<(u64, u64)>,
}

/// A batch of reads with what both sides make of it.
pub struct Batch<'a> {
    pub reads: Vec<Vec<u8>>,
    pub report: Option<Report>,
    library: &'a dyn Library,
    against: Option<&'a Against>,
    /// Counts of the set's keys, while no call offers them; none where they are not measured.
    counts: Vec<u32>,
    /// Whether needs are measured, too.
    needs: bool,
    /// The same reads as a FASTA file, and what comes of it; none where it is not measured.
    fasta: Option<(Job, Vec<u8>)>,
    world: &'a World,
    set: BoxKmerSet<'a>,
    method: Method,
    job: Job,
    expected: Vec<u8>,
    output: Vec<u8>,
    work: Vec<u8>,
}

impl<'a> Batch<'a> {
    /// Reads as they come, up to the most.
    fn new(library: &'a dyn Library, world: &'a World, method: Method, most: usize, mut next: impl FnMut() -> Vec<u8>) -> Self {
        let (mut reads, mut results, mut asked) = (Vec::new(), Vec::new(), 0);
        while reads.len() < most && asked < MOST_ASKED {
            let read = next();
            let pass = oracle::pass(&world.rust, method, CONFIRM, &read);
            asked += pass.lookups;
            results.push(pass.bytes);
            reads.push(read);
        }
        let (input, expected) = (batch_of(&reads), batch_of(&results));
        Batch::of_call(library, world, method, reads, (Call::Batch, input, expected))
    }

    /// A call with its input and what it gives.
    fn of_call(
        library: &'a dyn Library,
        world: &'a World,
        method: Method,
        reads: Vec<Vec<u8>>,
        (call, input, expected): (Call, Vec<u8>, Vec<u8>),
    ) -> Self {
        let output = MOST_BYTES.min(input.len().max(expected.len()) * 5 / 4);
        let job = Job { input, output, work: 2 * output, ..job(call, &[method.byte(), CONFIRM], &[]) };
        let (output, work) = (vec![0; job.output], vec![0; job.work]);
        let (set, counts) = (Box::new(&world.rust), Vec::new());
        Batch { reads, report: None, library, against: None, counts, needs: false, fasta: None, world, set, method, job, expected, output, work }
    }

    /// A read with errors by a read call, cut to so many bases.
    pub fn of_read(library: &'a dyn Library, world: &'a World, method: Method, errors: usize, bases: usize) -> Self {
        let mut read = world.read(&mut reads_of(world, method.byte(), errors), errors);
        read.truncate(bases);
        let expected = oracle::pass(&world.rust, method, CONFIRM, &read).bytes;
        Batch::of_call(library, world, method, vec![read.clone()], (Call::Read, read, expected))
    }

    /// Reads with errors: the same ones for the same cell, whatever else is measured.
    pub fn of_cell(library: &'a dyn Library, world: &'a World, method: Method, errors: usize) -> Self {
        let mut rng = reads_of(world, method.byte(), errors);
        Self::new(library, world, method, MOST_READS, || world.read(&mut rng, errors))
    }

    /// The same, beside another build of ours where there is one.
    pub fn against(self, against: Option<&'a Against>) -> Self {
        Batch { against, ..self }
    }

    /// The same, with counts beside it where they are asked for.
    pub fn counted(self, asked: bool) -> Self {
        let mut rng = Rng::of_unit(self.world.keys as u64, COUNTS);
        let counts = if asked { (0..self.world.keys).map(|_| rng.word() as u32).collect() } else { Vec::new() };
        Batch { counts, ..self }
    }

    /// The same, with its needs beside it where they are asked for.
    pub fn booked(self, needs: bool) -> Self {
        Batch { needs, ..self }
    }

    /// The same, with its reads as records beside it where they are asked for. Their names are short, their lines have 80 letters.
    pub fn as_fasta(self, asked: bool) -> Self {
        let file = |lines: &[u8]| {
            let reads = lines.split_inclusive(|byte| *byte == 10).enumerate();
            reads.flat_map(|(number, read)| text(format!(">{number}").as_bytes(), &read[..read.len() - 1])).collect::<Vec<u8>>()
        };
        let job = |input: Vec<u8>| {
            let output = MOST_BYTES.min(input.len() * 5 / 4);
            Job { call: Call::Fasta, work: 2 * output.max(input.len()), output, input, ..self.job.clone() }
        };
        Batch { fasta: asked.then(|| (job(file(&self.job.input)), file(&self.expected))), ..self }
    }

    /// One FASTA call of ours: natir/br's bytes, and the numbers that the batch call reports.
    pub fn ours_as_fasta(&mut self) -> f64 {
        let Some((job, expected)) = &self.fasta else { return 0.0 };
        self.output.resize(self.output.len().max(job.output), 0);
        self.work.resize(self.work.len().max(job.work), 0);
        let (library, set) = (self.library, &self.world.set);
        let (answer, seconds) = timed(|| library.correct(set, job, &mut self.output[..job.output], &mut self.work[..job.work]));
        let report = answer.unwrap_or_else(|refusal| panic!("FASTA: refused {} at {}", refusal.number, refusal.place));
        assert!(self.output[..report.written as usize] == *expected, "FASTA: {:?} gives other bytes than natir/br", self.method);
        assert!(self.report.is_none_or(|batch| Report { written: batch.written, ..report } == batch), "FASTA reports others than the batch");
        seconds
    }

    pub fn bases(&self) -> usize {
        self.reads.iter().map(Vec::len).sum()
    }

    /// natir/br, read by read.
    pub fn rust(&self) -> f64 {
        timed(|| self.reads.iter().map(|read| oracle::correct(&self.set, self.method, CONFIRM, read)).collect::<Vec<_>>()).1
    }

    fn call(&mut self) -> Answer {
        self.library.correct(&self.world.set, &self.job, &mut self.output, &mut self.work)
    }

    /// Where a timer finds a call of ours.
    pub fn places(&mut self) -> Option<Vec<usize>> {
        sampled(|| {
            black_box(self.call()).ok();
        })
    }

    /// One call of ours.
    pub fn ours(&mut self) -> f64 {
        self.ours_over(&self.world.set)
    }

    /// The same over a copy of the set.
    pub fn ours_over(&mut self, set: &[u8]) -> f64 {
        let library = self.library;
        let (report, seconds) = self.checked("ours", |job, output, work| library.correct(set, job, output, work));
        self.report = Some(report);
        seconds
    }

    /// One call of ours that offers an index.
    pub fn ours_with(&mut self, index: &[u8]) -> f64 {
        self.job.index.extend_from_slice(index);
        let seconds = self.ours();
        self.job.index.clear();
        seconds
    }

    /// One call of ours that offers counts, which are not copied. It tells a support exactly where something was accepted.
    pub fn ours_counted(&mut self) -> f64 {
        std::mem::swap(&mut self.job.counts, &mut self.counts);
        let seconds = self.ours();
        std::mem::swap(&mut self.job.counts, &mut self.counts);
        assert!(self.report.is_some_and(|report| report.support.is_some() == (report.accepted > 0)), "a support where there is none, or none");
        seconds
    }

    /// What ours tells beforehand, by a work buffer as long as the batch: the numbers that the batch call reports.
    pub fn needs(&mut self) -> f64 {
        let (library, set, job, length) = (self.library, &self.world.set, &self.job, self.job.input.len());
        let (answer, seconds) = timed(|| library.needs(set, job, &mut self.work[..length]));
        let told = answer.unwrap_or_else(|refusal| panic!("needs: refused {} at {}", refusal.number, refusal.place));
        let reported = |report: &Report| Needs { bytes: report.written, turns: report.turns, lookups: report.lookups };
        assert!(self.report.as_ref().is_none_or(|report| reported(report) == told), "{:?} reports others than it needs", self.method);
        assert_eq!(told.bytes as usize, self.expected.len());
        seconds
    }

    /// One batch call of the other build over a copy of the set; no time without one.
    pub fn before_over(&mut self, set: &[u8]) -> f64 {
        let Some(against) = self.against else { return 0.0 };
        self.checked("before", |job, output, work| against.correct_batch(set, job, output, work)).1
    }

    /// A call and its seconds; every byte must be the Rust's.
    fn checked(&mut self, name: &str, call: impl FnOnce(&Job, &mut [u8], &mut [u8]) -> Answer) -> (Report, f64) {
        let (job, output, work) = (&self.job, &mut self.output[..self.job.output], &mut self.work[..self.job.work]);
        let (answer, seconds) = timed(|| call(job, output, work));
        let report = answer.unwrap_or_else(|refusal| panic!("{name}: refused {} at {}", refusal.number, refusal.place));
        assert!(self.output[..report.written as usize] == self.expected, "{name}: {:?} gives other bytes than natir/br", self.method);
        (report, seconds)
    }

    fn rounds(&mut self) -> Rounds {
        let beside = [(self.against.is_some(), Part::Before), (!self.counts.is_empty(), Part::Counted), (self.needs, Part::Needs), (self.fasta.is_some(), Part::Fasta)];
        let mut parts: Vec<Part> = beside.into_iter().filter(|(asked, _)| *asked).map(|(_, part)| part).collect();
        let plain = if parts.is_empty() { [Part::Rust, Part::Ours] } else { [Part::Ours, Part::Rust] };
        parts.splice(0..0, plain);
        parts.push(Part::Opening);
        let world = self.world;
        Rounds::run(&parts, |part| match part {
            Part::Rust => self.rust(),
            Part::Opening => open(self.library, world),
            Part::Before => self.before_over(&world.set),
            Part::Counted => self.ours_counted(),
            Part::Needs => self.needs(),
            Part::Fasta => self.ours_as_fasta(),
            _ => self.ours(),
        })
    }
}

fn reads_of(world: &World, what: u8, errors: usize) -> Rng {
    Rng::of_unit(world.keys as u64, [what as u64, world.k as u64, errors as u64].iter().fold(0, |unit, part| unit << 8 | part))
}

/// Seconds of opening the set alone.
pub fn open(library: &dyn Library, world: &World) -> f64 {
    let (opened, seconds) = timed(|| library.open(&world.set));
    assert_eq!(opened, Ok((world.k as u64, world.keys as u64)));
    seconds
}

/// Seconds of a batch call without a line: opening the set and filling the table of starts.
pub fn empty_batch(library: &dyn Library, world: &World, method: Method) -> f64 {
    let job = Job { output: 0, work: 0, ..job(Call::Batch, &[method.byte(), CONFIRM], &[]) };
    let (answer, seconds) = timed(|| library.correct(&world.set, &job, &mut [], &mut []));
    assert!(answer.is_ok(), "an empty batch is accepted");
    seconds
}

/// What a cell is measured beside: another build, calls with counts, what is told beforehand, and the same reads as FASTA.
#[derive(Clone, Copy)]
pub struct Beside<'a> {
    pub against: Option<&'a Against>,
    pub counts: bool,
    pub needs: bool,
    pub fasta: bool,
}

pub fn cell(library: &dyn Library, beside: Beside, world: &World, method: Method, errors: usize, a_lookup: Loops) -> Cell {
    let mut batch = Batch::of_cell(library, world, method, errors).against(beside.against).counted(beside.counts).booked(beside.needs).as_fasta(beside.fasta);
    let rounds = batch.rounds();
    let lookups = batch.report.as_ref().map_or(0, |report| report.lookups);
    Cell { method, keys: world.keys, k: world.k, huge: world.huge, errors, reads: batch.reads.len(), bases: batch.bases(), lookups, rounds, a_lookup }
}

/// Plain loops over the k-mers of reads, joined to one; opening and preparing the set are taken off. Both sides count the same solid ones.
pub fn loops(library: &dyn Library, world: &World, errors: usize) -> Loops {
    let mut rng = reads_of(world, 0, errors);
    let length = LOOP + world.k as usize - 1;
    let joined: Vec<u8> = (0..length.div_ceil(READ)).flat_map(|_| world.read(&mut rng, errors)).take(length).collect();
    let (kmers, set): (_, BoxKmerSet) = (world.kmers(&joined), Box::new(&world.rust));
    let (mut rust, mut ours) = (Vec::new(), Vec::new());
    for _ in 0..ROUNDS {
        let (solid, seconds) = timed(|| kmers.iter().filter(|kmer| set.get(**kmer)).count() as u64);
        rust.push(seconds / LOOP as f64);
        let (counted, seconds) = timed(|| library.count_solid(&world.set, &joined));
        let (_, first) = timed(|| library.count_solid(&world.set, &joined[..world.k as usize]));
        assert_eq!(counted, Ok((LOOP as u64, solid)), "another count of solid k-mers than natir/br's");
        ours.push((seconds - first).max(0.0) / LOOP as f64);
    }
    Loops { ours: median(ours), rust: median(rust) }
}

pub fn placing(world: &World) -> Placing {
    let address = world.set.as_ptr() as usize;
    Placing {
        keys: world.keys,
        huge: world.huge,
        offset: address % 64,
        ours: on_huge_pages(address),
        rust: world.rust.address().and_then(on_huge_pages),
    }
}

/// Opening the set, and reading the same bytes as words.
pub fn opening(library: &dyn Library, world: &World) -> Opening {
    let sum = |word: &[u8]| word.iter().rev().fold(0_u64, |sum, byte| sum << 8 | *byte as u64);
    let reading = || timed(|| world.set.chunks_exact(8).map(sum).fold(0, u64::wrapping_add)).1;
    let (opens, readings) = (0..ROUNDS).map(|_| (open(library, world), reading())).unzip();
    Opening { keys: world.keys, k: world.k, bytes: world.set.len(), open: median(opens), reading: median(readings) }
}

/// GapSize attempts of that many moves each, as many as a batch takes up to a hundred.
pub fn gap(library: &dyn Library, world: &World, moves: usize) -> Gap {
    let mut rng = reads_of(world, Method::GapSize.byte(), 0);
    let lines = (MOST_BYTES / 2 / (moves + 5 * world.k as usize)).clamp(1, 100);
    let mut batch = Batch::new(library, world, Method::GapSize, lines, || world.gap_read(&mut rng, moves));
    let (rounds, lines) = (batch.rounds(), batch.reads.len());
    let lookups = batch.report.as_ref().map_or(0, |report| report.lookups);
    assert!(lookups as usize > 5 * moves * lines, "each line walks");
    Gap { moves, lines, rounds }
}
