//! The fixed list of cases, for a replay with no Rust at hand. Its format is in compare/README.md.
use crate::cases::needs::{self, Round};
use crate::cases::{any_entries, batch_of, counts, damage, fasta, index, job, job_with_room, reads, sets};
use crate::check::{any_counts, check_call, tells_confirms_apart, Buffers, Site, Tally, LENT};
use crate::library::{Library, StandIn};
use crate::referee::calls::{call, entries, Answer, Call, Job, Report};
use crate::referee::correctors::{Event, Method, BY, METHODS};
use crate::referee::driver::Pass;
use crate::referee::needs::Needs;
use crate::referee::set::Refusal;
use crate::rng::Rng;
use crate::samples::{PER_BASE, SAMPLES, SUPPORTED};
use crate::set_file::{self, BLOCK};
use crate::support::{parts_that_tell, PARTS};

/// The seed of the list that is kept.
pub const SEED: u64 = 1;

const END: u32 = 0;
const SET: u32 = 1;
const OPEN: u32 = 2;
const READ: u32 = 3;
const BATCH: u32 = 4;
const INDEX: u32 = 5;
const COUNTS: u32 = 6;
const NEEDS: u32 = 7;
const FASTA: u32 = 8;

/// Words of a record, and of the list's head.
const RECORD: usize = 19;
const HEAD: usize = 9;

/// What a replay has room for.
const MOST_SET: usize = 8192;
/// The blocks of 4^6 + 1 entries, and one more.
const MOST_INDEX: usize = 67 * BLOCK;
/// As many as the longest set has keys, and one block more.
const MOST_COUNTS: usize = 1024;
const MOST_ENTRIES: usize = 20;
const MOST_INPUT: usize = 2048;
const MOST_OUTPUT: usize = 4096;
const MOST_WORK: usize = 8192;

/// Each of these is seen so often, and then only by chance.
const QUOTA: u64 = 24;

/// So many calls give other bytes if one confirm of the job is taken for all.
const APART: u64 = 300;

/// For each of these k, so many calls meet an unknown letter in each of these places, with a mend and as many without one.
const UNKNOWN_K: [u8; 4] = [1, 3, 21, 31];
const UNKNOWN_AT: [Event; 4] = [Event::UnknownFirst, Event::UnknownBase, Event::UnknownConfirm, Event::UnknownEnd];
const UNKNOWN: u32 = 10;

/// Each part of what supports a call, and each scenario, is seen so often by each method in a call whose support it tells.
const SUPPORTS: u32 = 8;

#[derive(Default)]
struct List {
    bytes: Vec<u8>,
    set: Vec<u8>,
    index: Vec<u8>,
    counts: Vec<u32>,
    cases: u32,
    tally: Tally,
    buffers: Buffers,
}

fn push(bytes: &mut Vec<u8>, words: &[u32]) {
    for word in words {
        bytes.extend_from_slice(&word.to_le_bytes());
    }
}

fn small(number: u64) -> u32 {
    u32::try_from(number).expect("a small number")
}

impl List {
    fn record(&mut self, words: [u32; RECORD]) {
        push(&mut self.bytes, &words);
    }

    /// The set of the cases that follow.
    fn use_set(&mut self, site: &Site) {
        if self.set == site.bytes {
            return;
        }
        self.lend(SET, &site.bytes);
        self.set = site.bytes.clone();
        self.index.clear();
        self.counts.clear();
    }

    /// The index that the cases that follow offer, until the next set.
    fn use_index(&mut self, index: &[u8]) {
        if self.index != index {
            self.lend(INDEX, index);
            self.index = index.to_vec();
        }
    }

    /// The counts that they offer, until the next set.
    fn use_counts(&mut self, counts: &[u32]) {
        if self.counts != counts {
            let bytes: Vec<u8> = counts.iter().flat_map(|count| count.to_le_bytes()).collect();
            self.lend(COUNTS, &bytes);
            self.counts = counts.to_vec();
        }
    }

    /// A record of bytes for the cases that follow.
    fn lend(&mut self, kind: u32, bytes: &[u8]) {
        let mut words = [0; RECORD];
        (words[0], words[1]) = (kind, bytes.len() as u32);
        self.record(words);
        self.bytes.extend_from_slice(bytes);
    }

    fn open(&mut self, site: &Site) {
        self.use_set(site);
        let mut words = [0; RECORD];
        words[0] = OPEN;
        match &site.opened {
            Ok(set) => (words[10], words[11]) = (set.k as u32, set.keys.len() as u32),
            Err(refusal) => (words[8], words[9]) = (small(refusal.number), small(refusal.place)),
        }
        self.record(words);
        self.cases += 1;
    }

    /// What a call is lent, after natir/br and the referee have agreed on it; on reads with other bytes than the ten letters it is the referee's alone.
    fn begin(&mut self, site: &Site, job: &Job) {
        assert!(site.bytes.len() <= MOST_SET && job.index.len() <= MOST_INDEX && job.entries.len() <= MOST_ENTRIES);
        assert!(job.counts.len() <= MOST_COUNTS && job.input.len() <= MOST_INPUT && job.output <= MOST_OUTPUT && job.work <= MOST_WORK);
        check_call(&StandIn, site, job, &mut self.buffers, &mut self.tally).expect("all sides agree");
        self.use_set(site);
        self.use_index(&job.index);
        self.use_counts(&job.counts);
        self.cases += 1;
    }

    /// What a batch needs.
    fn needs(&mut self, site: &Site, job: &Job) {
        self.begin(site, job);
        let mut words = [0; RECORD];
        words[0] = NEEDS;
        (words[2], words[3], words[5]) = (job.entries.len() as u32, job.input.len() as u32, job.work as u32);
        match crate::referee::needs::needs(&site.opened, job).answer {
            Ok(needs) => (words[10], words[11], words[12]) = (small(needs.bytes), small(needs.turns), small(needs.lookups)),
            Err(refusal) => (words[8], words[9]) = (small(refusal.number), small(refusal.place)),
        }
        self.record(words);
        self.bytes.extend_from_slice(&job.entries);
        self.bytes.extend_from_slice(&job.input);
    }

    /// A read, a batch or a FASTA call.
    fn call(&mut self, site: &Site, job: &Job) {
        self.begin(site, job);
        let outcome = call(&site.opened, job);
        let kind = match job.call {
            Call::Read => READ,
            Call::Fasta => FASTA,
            Call::Batch | Call::Needs => BATCH,
        };
        let lengths = [job.entries.len(), job.input.len(), job.output, job.work, outcome.bytes.len()].map(|length| length as u32);
        let [entries, input, output, work, result] = lengths;
        let answer = match outcome.answer {
            Ok(report) => {
                let Report { written, turns, lookups, attempts, accepted, yields, quotient, remainder, bases, .. } = report;
                [0, 0, written, turns, lookups, attempts, accepted, yields, quotient, remainder, bases]
            }
            Err(refusal) => [refusal.number, refusal.place, 0, 0, 0, 0, 0, 0, 0, 0, 0],
        };
        let [number, place, written, turns, lookups, attempts, accepted, yields, quotient, remainder, bases] = answer.map(small);
        let support = outcome.answer.ok().and_then(|report| report.support);
        let (supported, support) = (support.is_some() as u32, support.unwrap_or(0));
        self.record([
            kind, support, entries, input, output, work, result, supported, number, place, written, turns, lookups, attempts, accepted, yields, quotient,
            remainder, bases,
        ]);
        for part in [&job.entries, &job.input, &outcome.bytes] {
            self.bytes.extend_from_slice(part);
        }
    }

    /// A call that shows a scenario or a confirm not seen often, or that its passes have each their own confirm; or any by chance.
    fn call_if_wanted(&mut self, rng: &mut Rng, site: &Site, job: &Job, chance: usize) {
        let outcome = call(&site.opened, job);
        let rare = outcome.passes.iter().flatten().zip(entries(job).iter().cycle()).any(|(pass, entry)| {
            let seen = self.tally.by[entry.method as usize - 1];
            let new_confirm = entry.method != Method::Graph.byte() && self.tally.by_confirm[entry.confirm as usize] == 0;
            pass.by.iter().zip(seen).any(|(now, seen)| *now > 0 && (new_confirm || seen < QUOTA))
        });
        let apart = self.tally.apart < APART && tells_confirms_apart(site, job, &outcome);
        if rare || apart || rng.percent(chance) {
            self.call(site, job);
        }
    }

    fn finish(mut self) -> Vec<u8> {
        self.record([END; RECORD]);
        let mut list = Vec::with_capacity(self.bytes.len() + 4 * HEAD);
        let most = [MOST_SET, MOST_INPUT, MOST_OUTPUT, MOST_WORK, MOST_INDEX, MOST_COUNTS];
        let [set, input, output, work, index, counts] = most.map(|length| length as u32);
        push(&mut list, &[1, self.cases, set, input, output, work, LENT as u32, index, counts]);
        list.extend_from_slice(&self.bytes);
        list
    }
}

/// The sample reads, at their set.
fn samples(list: &mut List) {
    let site = Site::new(crate::samples::set());
    list.open(&site);
    let mut reads = SAMPLES.map(|sample| sample.2).to_vec();
    reads.sort();
    reads.dedup();
    for method in METHODS {
        for confirm in [1, 2] {
            for read in &reads {
                list.call(&site, &job(Call::Read, &[method.byte(), confirm], read.as_bytes()));
            }
        }
    }
    list.call(&site, &job(Call::Batch, &[3, 1], b"AACGCCG\nAA\n"));
    list.call(&site, &job(Call::Batch, &[], b""));
    // Two corrects AACCG with confirm 2 only, whichever entry has it.
    for entries in [[2, 1, 2, 2], [2, 2, 2, 1]] {
        list.call(&site, &job(Call::Read, &entries, b"AACCG"));
        list.call(&site, &job(Call::Batch, &entries, b"AACCG\nAACGC\n"));
    }
    // 11 compares pass results: One's fits into 5 bytes, the read that Graph leaves does not.
    for entries in [&[1, 1][..], &[3, 1, 1, 1], &[]] {
        list.call(&site, &Job { output: 5, work: 12, ..job(Call::Read, entries, b"AACGTC") });
    }
    list.call(&site, &Job { output: 0, work: 2, ..job(Call::Batch, &[], b"\n") });
    for sample in &SUPPORTED {
        let site = Site::new(sample.set());
        list.call(&site, &sample.call());
        let batch = job(Call::Batch, sample.job, &batch_of([&sample.read.as_bytes().to_vec()]));
        list.call(&site, &Job { counts: sample.counts.to_vec(), ..batch });
    }
}

/// For every k: sets of genomes, of cycles, dense ones; reads with errors, in all ten letters, with other bytes, at every limit.
fn correct(list: &mut List, rng: &mut Rng) {
    for round in 0..6 {
        for k in (1..=31).step_by(2) {
            let (site, genome) = match round {
                0..=2 => small_genome(rng, k),
                3 | 4 => sets::periodic(rng, k),
                _ => (sets::dense(rng, k.min(5)), reads::letters(rng, 60)),
            };
            if site.bytes.len() > MOST_SET {
                continue;
            }
            list.open(&site);
            for _ in 0..40 {
                let read = match (round, rng.below(6)) {
                    (5, _) => reads::in_set(rng, &site),
                    (_, 0) => {
                        let read = reads::noisy(rng, &genome, 160);
                        let written = *rng.pick(&[reads::in_ten_letters, reads::with_unknown]);
                        written(rng, read)
                    }
                    (_, 1) => {
                        let length = (k as usize + rng.below(8)).saturating_sub(2);
                        reads::noisy_of_length(rng, &genome, length)
                    }
                    (_, 2) => reads::noisy(rng, &genome, 90),
                    _ => reads::spaced(rng, &genome, k as usize + 6),
                };
                let count = *rng.pick(&[1, 1, 2, 3]);
                let entries = any_entries(rng, count, 6);
                list.call_if_wanted(rng, &site, &job(Call::Read, &entries, &read), 42);
            }
            for _ in 0..4 {
                let count = rng.below(9);
                let entries = any_entries(rng, count, 6);
                let mut lines: Vec<_> = (0..rng.below(5)).map(|_| reads::noisy(rng, &genome, 60)).collect();
                if let Some(last) = lines.pop() {
                    lines.push(if rng.percent(20) { reads::with_unknown(rng, last) } else { last });
                }
                let mut batch = job(Call::Batch, &entries, &batch_of(&lines));
                if rng.percent(40) {
                    batch.output = rng.within(batch.input.len().saturating_sub(6), batch.input.len() + 4);
                }
                list.call(&site, &batch);
            }
        }
    }
}

/// Reads with bytes that have no code: in the first k-mer, as the bad base, among the bases that confirm a mend, in T.
fn unknown(list: &mut List, rng: &mut Rng) {
    for k in UNKNOWN_K {
        let mut met = [[0; 2]; UNKNOWN_AT.len()];
        for _ in 0..100 {
            let (site, genome) = if k < 5 { (sets::dense(rng, k), Vec::new()) } else { small_genome(rng, k) };
            for _ in 0..40 {
                let read = if genome.is_empty() { reads::in_set(rng, &site) } else { reads::noisy(rng, &genome, 100) };
                let read = reads::with_unknown(rng, read);
                let job = job(Call::Read, &[rng.pick(&METHODS).byte(), rng.within(1, 4) as u8], &read);
                if meets_unknown(&call(&site.opened, &job).passes[0][0], &mut met) {
                    list.call(&site, &job);
                }
            }
        }
        println!("k = {k}: calls with {UNKNOWN_AT:?}, without and with a mend: {met:?}");
    }
}

/// Whether a pass meets an unknown letter in a place where not enough have, counting passes with a mend and without one apart.
fn meets_unknown(pass: &Pass, met: &mut [[u32; 2]; UNKNOWN_AT.len()]) -> bool {
    let mut wanted = false;
    for (met, event) in met.iter_mut().zip(UNKNOWN_AT) {
        let met = &mut met[(pass.accepted > 0) as usize];
        if pass.events[event as usize] > 0 && *met < UNKNOWN {
            *met += 1;
            wanted = true;
        }
    }
    wanted
}

fn small_genome(rng: &mut Rng, k: u8) -> (Site, Vec<u8>) {
    let length = k as usize + rng.within(20, 120);
    let genome = reads::letters(rng, length);
    (sets::of_genomes(k, [genome.as_slice()]), genome)
}

/// Reads that are corrected at every confirm from 1 to 255.
fn confirms(list: &mut List, rng: &mut Rng) {
    for (part, k) in [9, 15, 21, 31].into_iter().enumerate() {
        let genome = reads::letters(rng, 560);
        let site = sets::of_genomes(k, [genome.as_slice()]);
        for confirm in (1..=255).filter(|confirm| confirm % 4 == part) {
            for method in [1, 2, 4] {
                let start = rng.below(200);
                let mut read = genome[start..start + k as usize + 3 + confirm + 8].to_vec();
                let place = k as usize + 1 + rng.below(2);
                let others: Vec<u8> = b"ACGT".iter().filter(|letter| **letter != read[place]).copied().collect();
                read[place] = *rng.pick(&others);
                list.call_if_wanted(rng, &site, &job(Call::Read, &[method, confirm as u8], &read), if confirm % 16 == 0 { 100 } else { 0 });
            }
        }
    }
}

/// Scenarios that are rare, sought in small sets until each is met often enough.
fn rare(list: &mut List, rng: &mut Rng) {
    for _ in 0..80_000 {
        let k = *rng.pick(&[3, 5, 7, 9, 11]);
        let (site, genome) = match rng.below(3) {
            0 if k < 7 => (sets::dense(rng, k), Vec::new()),
            1 => sets::periodic(rng, k),
            _ => small_genome(rng, k),
        };
        if site.bytes.len() > 1536 {
            continue;
        }
        let read = if genome.is_empty() { reads::in_set(rng, &site) } else { reads::spaced(rng, &genome, k as usize + 5) };
        let entry = [*rng.pick(&[2, 2, 4]), rng.within(1, 5) as u8];
        list.call_if_wanted(rng, &site, &job(Call::Read, &entry, &read), 0);
    }
}

/// Jobs that show that each pass has its own confirm, sought among reads whose errors are close together.
fn own_confirms(list: &mut List, rng: &mut Rng) {
    while list.tally.apart < APART {
        let k = 2 * rng.within(2, 15) as u8 + 1;
        let (site, genome) = small_genome(rng, k);
        for _ in 0..80 {
            let apart = rng.within(1, k as usize);
            let read = reads::spaced(rng, &genome, apart);
            let entries: Vec<u8> = (0..rng.within(2, 4)).flat_map(|_| [*rng.pick(&[1, 2, 2, 4]), rng.within(1, 9) as u8]).collect();
            list.call_if_wanted(rng, &site, &job(Call::Read, &entries, &read), 0);
        }
    }
}

/// Damaged sets, opened and offered to a call; and inputs that are refused.
fn refused(list: &mut List, rng: &mut Rng) {
    for _ in 0..400 {
        let site = Site::new(damage::set(rng));
        if site.bytes.len() > 2048 {
            continue;
        }
        list.open(&site);
        if rng.percent(40) {
            let read = reads::letters(rng, 20);
            list.call(&site, &job(Call::Read, &[rng.pick(&METHODS).byte(), 1], &read));
        }
    }
    let (site, genome) = small_genome(rng, 11);
    let read = reads::noisy(rng, &genome, 60);
    damage::jobs(rng, &mut |entries| {
        list.call(&site, &job(Call::Read, entries, &read));
        list.call(&site, &job(Call::Batch, entries, &batch_of([&read])));
    });
    for _ in 0..300 {
        damage::input(rng, &genome, false, &mut |job| {
            if job.input.len() <= MOST_INPUT && job.output <= MOST_OUTPUT && job.work <= MOST_WORK {
                list.call(&site, job);
            }
        });
    }
}

/// A read or a batch of one.
fn any_call(rng: &mut Rng, site: &Site, genome: &[u8]) -> Job {
    let read = if genome.is_empty() { reads::in_set(rng, site) } else { reads::spaced(rng, genome, 20) };
    let count = *rng.pick(&[1, 1, 2]);
    let entries = any_entries(rng, count, 4);
    if rng.percent(40) {
        job(Call::Batch, &entries, &batch_of([&read]))
    } else {
        job(Call::Read, &entries, &read)
    }
}

/// A call that corrects something, if one of a hundred does; now and then with an output that is too short for it.
fn mending_call(rng: &mut Rng, site: &Site, genome: &[u8]) -> Job {
    let mut job = any_call(rng, site, genome);
    for _ in 0..100 {
        if call(&site.opened, &job).answer.is_ok_and(|report| report.accepted > 0) {
            break;
        }
        job = any_call(rng, site, genome);
    }
    if rng.percent(20) {
        job.output = job.input.len() / 2;
    }
    job
}

/// Calls that offer the set's own index, and one for each of the others.
fn offer(list: &mut List, rng: &mut Rng, site: &Site, genome: &[u8], own: usize, others: &[Vec<u8>]) {
    let own = std::iter::repeat_n(site.index(), own);
    for index in own.chain(others.iter().map(Vec::as_slice)) {
        let job = mending_call(rng, site, genome);
        list.call(site, &Job { index: index.to_vec(), ..job });
    }
}

/// Indexes offered at m of 1, 3 and 5: the set's own, that one damaged, and others.
fn short_indexes(list: &mut List, rng: &mut Rng) {
    for (k, most) in [(1, 50), (3, 30), (5, 3)] {
        let site = sets::dense(rng, k);
        let mut others = index::all(rng, &site).split_off(1);
        others.retain(|index| index.len() <= site.index().len() + BLOCK);
        while others.len() > most {
            others.remove(rng.below(others.len()));
        }
        offer(list, rng, &site, &[], 8, &others);
    }
}

/// The same at m = 6.
fn long_indexes(list: &mut List, rng: &mut Rng) {
    for (k, most) in [(7, 0), (21, 1), (31, 0)] {
        let (site, genome) = small_genome(rng, k);
        let others = index::words_off(rng, &site);
        offer(list, rng, &site, &genome, 16, &others[..most]);
    }
}

/// An index that is not the set's, with inputs and sets that are refused before it.
fn late_indexes(list: &mut List, rng: &mut Rng) {
    let site = sets::dense(rng, 3);
    let other = sets::dense(rng, 3);
    for _ in 0..40 {
        damage::input(rng, b"ACGTTGCA", false, &mut |job| {
            if job.input.len() <= MOST_INPUT && job.output <= MOST_OUTPUT && job.work <= MOST_WORK {
                list.call(&site, &Job { index: other.index().to_vec(), ..job.clone() });
            }
        });
    }
    let index = other.index().to_vec();
    list.call(&site, &Job { index: index.clone(), ..job(Call::Batch, &[1, 1], b"ACGT") });
    let mut turned = site.bytes.clone();
    turned[8] ^= 1;
    list.call(&Site::new(turned), &Job { index, ..job(Call::Read, &[1, 1], b"ACGT") });
    for _ in 0..16 {
        let damaged = Site::new(damage::set(rng));
        if damaged.bytes.len() <= 1024 {
            let call = any_call(rng, &damaged, b"ACGTTGCA");
            list.call(&damaged, &Job { index: other.index().to_vec(), ..call });
        }
    }
}

/// Whether a call with counts tells a part of its evidence, or a scenario, by a method by which that is not often enough told. Lists of several
/// entries count as one method more.
fn tells_support(site: &Site, job: &Job, told: &mut [[u32; PARTS.len() + BY]; METHODS.len() + 1]) -> bool {
    let outcome = call(&site.opened, job);
    if outcome.answer.is_ok_and(|report| report.support.is_none()) || outcome.answer.is_err() {
        return false;
    }
    let told = match entries(job)[..] {
        [entry] => &mut told[entry.method as usize - 1],
        _ => &mut told[METHODS.len()],
    };
    let parts = parts_that_tell(&outcome.passes, &job.counts);
    // A scenario is told where no other made a correction.
    let passes: Vec<&Pass> = outcome.passes.iter().flatten().collect();
    let alone = passes.iter().map(|pass| pass.accepted).sum::<u64>() == 1;
    let by = (0..BY).map(|by| alone && passes.iter().any(|pass| pass.by[by] > 0));
    let mut wanted = false;
    for (told, now) in told.iter_mut().zip(parts.into_iter().chain(by)) {
        if now && *told < SUPPORTS {
            *told += 1;
            wanted = true;
        }
    }
    wanted
}

/// A batch of several reads by one entry.
fn several_lines(rng: &mut Rng, site: &Site, genome: &[u8]) -> Job {
    let mut next = || if genome.is_empty() { reads::in_set(rng, site) } else { reads::noisy(rng, genome, 60) };
    let lines = [next(), next(), next()];
    let entry = any_entries(rng, 1, 3);
    job(Call::Batch, &entry, &batch_of(&lines))
}

/// Counts of as many kinds as there are, with calls that tell which part of the evidence has the smallest.
fn supports(list: &mut List, rng: &mut Rng) {
    let mut told = [[0; PARTS.len() + BY]; METHODS.len() + 1];
    for _ in 0..20_000 {
        let k = *rng.pick(&[3, 3, 5, 5, 7, 9, 15, 21, 31]);
        let (site, genome) = match rng.below(3) {
            0 if k < 7 => (sets::dense(rng, k), Vec::new()),
            1 => sets::periodic(rng, k),
            _ => small_genome(rng, k),
        };
        if site.bytes.len() > 1024 {
            continue;
        }
        let counts = any_counts(rng, site.opened.as_ref().map_or(0, |set| set.keys.len()));
        for _ in 0..4 {
            let any = if rng.percent(25) { several_lines(rng, &site, &genome) } else { any_call(rng, &site, &genome) };
            let job = Job { counts: counts.clone(), ..any };
            if tells_support(&site, &job, &mut told) {
                list.call(&site, &job);
            }
        }
    }
    for (method, told) in METHODS.iter().map(|method| format!("{method:?}")).chain(["lists".to_string()]).zip(told) {
        println!(
            "{method}: calls told by each part of the evidence {:?}, by one correction of each scenario {:?}",
            &told[..PARTS.len()],
            &told[PARTS.len()..]
        );
    }
}

/// Counts of every kind and of other lengths, with calls that are accepted, whose output is too short, or whose index is not the set's.
fn offer_counts(list: &mut List, rng: &mut Rng) {
    let none = Site::new(set_file::make(3, &[]));
    for counts in [vec![0], vec![7; 2], Vec::new()] {
        list.call(&none, &Job { counts, ..job(Call::Read, &[1, 1], b"ACGT") });
    }
    for k in [1, 3, 5, 21] {
        let (site, genome) = if k < 5 { (sets::dense(rng, k), Vec::new()) } else { small_genome(rng, k) };
        let n = site.opened.as_ref().map_or(0, |set| set.keys.len());
        let (right, wrong) = (counts::right(rng, n), counts::wrong(rng, n));
        for counts in right.iter().chain(&wrong) {
            let job = Job { counts: counts.clone(), ..mending_call(rng, &site, &genome) };
            list.call(&site, &job);
            list.call(&site, &Job { output: job.input.len() / 2, ..job });
        }
        for counts in wrong.iter().chain(&right[..1]).filter(|_| k < 5) {
            let job = Job { counts: counts.clone(), ..mending_call(rng, &site, &genome) };
            list.call(&site, &Job { index: site.index().to_vec(), ..job.clone() });
            list.call(&site, &Job { index: vec![0; BLOCK], ..job });
        }
    }
}

/// Counts of another number than there are keys, with inputs and sets that are refused before them.
fn late_counts(list: &mut List, rng: &mut Rng) {
    let site = sets::dense(rng, 3);
    let counts = counts::wrong(rng, site.opened.as_ref().map_or(0, |set| set.keys.len())).swap_remove(0);
    for _ in 0..40 {
        damage::input(rng, b"ACGTTGCA", false, &mut |job| {
            if job.input.len() <= MOST_INPUT && job.output <= MOST_OUTPUT && job.work <= MOST_WORK {
                list.call(&site, &Job { counts: counts.clone(), ..job.clone() });
            }
        });
    }
    for _ in 0..16 {
        let damaged = Site::new(damage::set(rng));
        if damaged.bytes.len() <= 1024 {
            let call = any_call(rng, &damaged, b"ACGTTGCA");
            list.call(&damaged, &Job { counts: counts.clone(), ..call });
        }
    }
}

/// A job that the list has room for.
fn fits(job: &Job) -> bool {
    job.input.len() <= MOST_INPUT && job.entries.len() <= MOST_ENTRIES && job.work <= MOST_WORK
}

/// What the samples need, by work buffers of every length; the printed batch with jobs of no, two and more entries, and with whatever comes before and behind 17.
fn needs_of_samples(list: &mut List, rng: &mut Rng) {
    let site = Site::new(crate::samples::set());
    let reads: Vec<Vec<u8>> = SAMPLES.map(|sample| sample.2.as_bytes().to_vec()).to_vec();
    for method in METHODS {
        for confirm in [1, 2] {
            list.needs(&site, &needs::job(&[method.byte(), confirm], &batch_of(&reads)));
            list.needs(&site, &needs::job(&[method.byte(), confirm], b"AACGCCG\nAACGC\n"));
        }
    }
    let printed = needs::job(&[3, 1], b"AACGCCG\nAA\n");
    for work in (0..=printed.input.len() + 1).chain([22, 23, MOST_WORK]) {
        list.needs(&site, &Job { work, ..printed.clone() });
    }
    list.needs(&site, &needs::job(&[1, 1], b""));
    list.needs(&site, &needs::job(&[1, 1], b"\n"));
    for entries in
        [&[][..], &[3, 1, 3, 1], &[1, 1, 2, 1, 3, 1], &[1; 16], &[1; 18], &[1, 1, 1], &[3], &[5, 1], &[3, 0], &[3, 1, 5, 1], &[3, 1, 3, 0], &[0; 18]]
    {
        let job = Job { entries: entries.to_vec(), ..printed.clone() };
        list.needs(&site, &job);
        for _ in 0..3 {
            list.needs(&site, &needs::with_later_faults(rng, &job));
        }
        list.needs(&Site::new(site.bytes[..BLOCK].to_vec()), &job);
        list.needs(&site, &Job { index: vec![0; BLOCK], counts: vec![7], ..job });
    }
}

/// What batches need, by each method: for every odd k, with an index and counts that are the set's or aren't; with jobs and inputs that are refused, and with damaged sets.
fn needs_of_batches(list: &mut List, rng: &mut Rng) {
    for k in (1..=31).step_by(2) {
        let (site, genome) = match k {
            1 | 3 => (sets::dense(rng, k), reads::letters(rng, 60)),
            _ if rng.percent(30) => sets::periodic(rng, k),
            _ => small_genome(rng, k),
        };
        if site.bytes.len() > MOST_SET {
            continue;
        }
        for method in METHODS {
            let job = needs::job(&[method.byte(), rng.within(1, 5) as u8], &needs::any_batch(rng, &site, &genome));
            list.needs(&site, &job);
            let offered = Job { index: if k < 5 { site.index().to_vec() } else { Vec::new() }, counts: site.counts().to_vec(), ..job.clone() };
            list.needs(&site, &offered);
            list.needs(&site, &Job { work: rng.below(2 * job.input.len() + 1), ..offered.clone() });
            list.needs(&site, &Job { counts: vec![1; site.counts().len() + 1], ..offered.clone() });
            list.needs(&site, &Job { index: vec![0; BLOCK], ..offered });
        }
    }
}

/// Inputs, jobs and sets that are refused.
fn needs_refused(list: &mut List, rng: &mut Rng) {
    let (site, genome) = small_genome(rng, 9);
    for _ in 0..150 {
        let mut asked = None;
        damage::input(rng, &genome, false, &mut |job| asked = Some(Job { call: Call::Needs, output: 0, ..job.clone() }));
        let Some(job) = asked else { continue };
        let works = needs::works(rng, job.input.len());
        let job = Job { work: *rng.pick(&works), ..job };
        if fits(&job) {
            list.needs(&site, &job);
        }
    }
    for _ in 0..120 {
        let damaged = Site::new(damage::set(rng));
        if damaged.bytes.len() <= 1024 {
            let entry = any_entries(rng, 1, 4);
            list.needs(&damaged, &needs::job(&entry, &needs::any_batch(rng, &damaged, b"ACGTTGCA")));
        }
    }
}

/// Results that are longer than any output.
fn needs_long(list: &mut List, rng: &mut Rng) {
    let round = Round::new(rng, 15, 1200);
    for (method, times) in [(3, vec![1_000]), (4, vec![500, 0, 480]), (3, vec![2])] {
        let lines: Vec<u8> = times.into_iter().flat_map(|times| round.line(times)).collect();
        list.needs(&round.site, &needs::job(&[method, 1], &lines));
    }
}

/// Lookups for each base: the samples; batches of lines about k by lists of entries; lines of which few k-mers are asked for.
fn per_base(list: &mut List, rng: &mut Rng) {
    let site = Site::new(crate::samples::set());
    for (entries, batch, _) in PER_BASE {
        list.call(&site, &job(Call::Batch, entries, batch.as_bytes()));
    }
    for k in (1..=31).step_by(2) {
        let (site, genome) = if k < 5 { (sets::dense(rng, k), reads::letters(rng, 60)) } else { small_genome(rng, k) };
        for count in [0, 1, 1, 2, 3, 8] {
            let entries = any_entries(rng, count, 4);
            let lengths: Vec<usize> = (0..rng.within(1, 5)).map(|_| (k as usize + rng.below(4)).saturating_sub(rng.below(3))).collect();
            let mut lines: Vec<_> = lengths.into_iter().map(|length| reads::noisy_of_length(rng, &genome, length)).collect();
            if rng.percent(30) {
                lines.push([vec![b'N'; rng.within(1, 40)], genome[..k as usize].to_vec()].concat());
            }
            list.call(&site, &job(Call::Batch, &entries, &batch_of(&lines)));
            list.call(&site, &job(Call::Read, &entries, &genome[..k as usize]));
        }
    }
}

/// FASTA: the samples; for every odd k about one in eight of a run's calls on a set.
fn fasta_files(list: &mut List, rng: &mut Rng) {
    let site = Site::new(crate::samples::set());
    for (entries, file, output, _) in crate::samples::FASTA {
        list.call(&site, &job_with_room(Call::Fasta, entries, file.as_bytes(), output));
    }
    for k in (1..=31).step_by(2) {
        let (site, genome) = if k < 5 { (sets::dense(rng, k), reads::letters(rng, 60)) } else { small_genome(rng, k) };
        fasta::all_of(rng, &site, &genome, false, &mut |site, job| {
            let kept = |job: &&Job| fits(job) && job.output <= MOST_OUTPUT && job.index.len() <= MOST_INDEX && job.counts.len() <= MOST_COUNTS && one_in_eight(job);
            if let Some(job) = job.filter(kept).filter(|_| site.bytes.len() <= MOST_SET) {
                list.call(site, job);
            }
        });
    }
}

/// By what a call is given.
fn one_in_eight(job: &Job) -> bool {
    let bytes = job.input.iter().chain(&job.entries).chain(&job.index);
    bytes.fold(job.output + job.counts.len(), |sum, byte| sum.wrapping_mul(31).wrapping_add(*byte as usize)) % 8 == 0
}

pub fn write(file: &str, seed: u64) -> Result<(), String> {
    let mut list = List::default();
    let rng = &mut Rng::of_unit(seed, u64::MAX);
    samples(&mut list);
    correct(&mut list, rng);
    unknown(&mut list, rng);
    confirms(&mut list, rng);
    rare(&mut list, rng);
    own_confirms(&mut list, rng);
    refused(&mut list, rng);
    short_indexes(&mut list, rng);
    long_indexes(&mut list, rng);
    late_indexes(&mut list, rng);
    supports(&mut list, rng);
    offer_counts(&mut list, rng);
    late_counts(&mut list, rng);
    needs_of_samples(&mut list, rng);
    needs_of_batches(&mut list, rng);
    needs_refused(&mut list, rng);
    needs_long(&mut list, rng);
    per_base(&mut list, rng);
    fasta_files(&mut list, rng);
    list.tally.print();
    println!("{} cases, seed {seed}", list.cases);
    let bytes = list.finish();
    println!("{} bytes", bytes.len());
    std::fs::write(file, bytes).map_err(|error| format!("{file}: {error}"))
}

// ---- replay

struct Reader<'a>(&'a [u8]);

impl<'a> Reader<'a> {
    fn take(&mut self, length: usize) -> Result<&'a [u8], String> {
        let (taken, rest) = self.0.split_at_checked(length).ok_or("the list ends early")?;
        self.0 = rest;
        Ok(taken)
    }

    fn words<const N: usize>(&mut self) -> Result<[u32; N], String> {
        let bytes = self.take(4 * N)?;
        Ok(std::array::from_fn(|at| u32::from_le_bytes(bytes[4 * at..4 * at + 4].try_into().expect("4 bytes"))))
    }
}

/// Replays a list: true if every case is as written.
pub fn replay(file: &str, library: &dyn Library) -> Result<bool, String> {
    let bytes = std::fs::read(file).map_err(|error| format!("{file}: {error}"))?;
    let mut reader = Reader(&bytes);
    let head: [u32; HEAD] = reader.words()?;
    let (mut set, mut index, mut counts): (&[u8], &[u8], Vec<u32>) = (&[], &[], Vec::new());
    let (mut passed, mut failed) = (0, 0);
    loop {
        let record: [u32; RECORD] = reader.words()?;
        let right = match record[0] {
            END => break,
            SET => {
                (set, index, counts) = (reader.take(record[1] as usize)?, &[], Vec::new());
                continue;
            }
            INDEX => {
                index = reader.take(record[1] as usize)?;
                continue;
            }
            COUNTS => {
                counts = (0..record[1] / 4).map(|_| reader.words::<1>().map(|[count]| count)).collect::<Result<_, _>>()?;
                continue;
            }
            OPEN => library.open(set) == expected_open(&record),
            NEEDS => replay_needs(&mut reader, &record, (set, index, &counts), head[6] as u8, library)?,
            READ | BATCH | FASTA => replay_call(&mut reader, &record, (set, index, &counts), head[6] as u8, library)?,
            kind => return Err(format!("no record of kind {kind}")),
        };
        passed += right as u32;
        failed += !right as u32;
    }
    if passed + failed != head[1] {
        return Err(format!("{} cases, not {}", passed + failed, head[1]));
    }
    println!("{passed} passed, {failed} failed");
    Ok(failed == 0)
}

fn expected_open(record: &[u32; RECORD]) -> Result<(u64, u64), Refusal> {
    match record[8] {
        0 => Ok((record[10] as u64, record[11] as u64)),
        number => Err(Refusal { number: number as u64, place: record[9] as u64 }),
    }
}

/// What stands for a case from the records before it: the set, the index and the counts.
type Offered<'a> = (&'a [u8], &'a [u8], &'a [u32]);

/// The call of a record, with the bytes behind it.
fn read_job(reader: &mut Reader, record: &[u32; RECORD], (_, index, counts): Offered) -> Result<Job, String> {
    let [entries, input, output, work] = [2, 3, 4, 5].map(|at| record[at] as usize);
    let call = match record[0] {
        READ => Call::Read,
        BATCH => Call::Batch,
        FASTA => Call::Fasta,
        _ => Call::Needs,
    };
    let (entries, input) = (reader.take(entries)?.to_vec(), reader.take(input)?.to_vec());
    Ok(Job { call, index: index.to_vec(), counts: counts.to_vec(), entries, input, output, work })
}

/// What lent bytes hold behind a result: as they were lent by any refusal but 11, else 0.
fn rest(record: &[u32; RECORD], lent: u8) -> u8 {
    if matches!(record[8], 0 | 11) {
        0
    } else {
        lent
    }
}

fn replay_needs(reader: &mut Reader, record: &[u32; RECORD], offered: Offered, lent: u8, library: &dyn Library) -> Result<bool, String> {
    let job = read_job(reader, record, offered)?;
    let mut work = vec![lent; job.work];
    let answer = library.needs(offered.0, &job, &mut work);
    let expected = match record[8] {
        0 => Ok(Needs { bytes: record[10] as u64, turns: record[11] as u64, lookups: record[12] as u64 }),
        number => Err(Refusal { number: number as u64, place: record[9] as u64 }),
    };
    Ok(answer == expected && work.iter().all(|byte| *byte == rest(record, lent)))
}

fn replay_call(reader: &mut Reader, record: &[u32; RECORD], offered: Offered, lent: u8, library: &dyn Library) -> Result<bool, String> {
    let (job, result) = (read_job(reader, record, offered)?, record[6] as usize);
    let bytes = reader.take(result)?;
    let (mut output, mut work) = (vec![lent; job.output], vec![lent; job.work]);
    let answer = library.correct(offered.0, &job, &mut output, &mut work);
    let rest = rest(record, lent);
    let (written, spare) = output.split_at(result);
    Ok(answer == expected_answer(record) && written == bytes && spare.iter().chain(&work).all(|byte| *byte == rest))
}

fn expected_answer(record: &[u32; RECORD]) -> Answer {
    let word = |at: usize| record[at] as u64;
    match word(8) {
        0 => Ok(Report {
            written: word(10),
            turns: word(11),
            lookups: word(12),
            attempts: word(13),
            accepted: word(14),
            yields: word(15),
            support: (word(7) == 1).then_some(record[1]),
            quotient: word(16),
            remainder: word(17),
            bases: word(18),
        }),
        number => Err(Refusal { number, place: word(9) }),
    }
}
