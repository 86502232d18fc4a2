//! FASTA files: reads of every length about the width of a line, names of every kind, empty lines everywhere, what is refused, and outputs that are just long enough, for the text and for
//! a pass result alone.
use super::index::any_site;
use super::{any_entries, any_entry, counts, damage, job, job_with_room, reads, Visit};
use crate::check::Site;
use crate::referee::calls::{call, Call, Job};
use crate::referee::fasta::{records, text};
use crate::rng::Rng;

const MOST_INPUT: usize = 1_048_576;
const MOST_RECORDS: usize = 1_024;

/// Lengths about the width of a line.
const LENGTHS: [usize; 12] = [0, 1, 2, 79, 80, 81, 82, 159, 160, 161, 240, 400];

/// A name line without its end: `>` alone, with more of them, blanks, any bytes but 10.
fn any_name(rng: &mut Rng) -> Vec<u8> {
    let rest = match rng.below(6) {
        0 => Vec::new(),
        1 => b">".repeat(rng.within(1, 3)),
        2 => b"read 7 >8 len=100\r".to_vec(),
        3 => (0..rng.below(200)).map(|_| b"ACGT> "[rng.below(6)]).collect(),
        _ => (0..rng.below(30)).map(|_| rng.byte()).filter(|byte| *byte != 10).collect(),
    };
    [b">", &rest[..]].concat()
}

/// A read without byte 10 and `>`.
fn any_read(rng: &mut Rng, site: &Site, genome: &[u8]) -> Vec<u8> {
    let read = match rng.below(10) {
        0 => reads::in_set(rng, site),
        1 => {
            let read = reads::noisy(rng, genome, 120);
            reads::with_unknown(rng, read)
        }
        2 => reads::noisy(rng, genome, 300),
        3 => (0..rng.below(40)).map(|_| rng.byte()).collect(),
        _ => {
            let length = *rng.pick(&LENGTHS);
            reads::noisy_of_length(rng, genome, length)
        }
    };
    read.into_iter().filter(|byte| *byte != 10 && *byte != b'>').collect()
}

/// Lines of no bytes.
fn skipped(rng: &mut Rng) -> Vec<u8> {
    vec![10; if rng.percent(70) { 0 } else { rng.within(1, 3) }]
}

/// A record as files have it: its read in lines of one or of many widths, empty lines between them.
fn record(rng: &mut Rng, name: &[u8], read: &[u8]) -> Vec<u8> {
    let mut lines = [name, b"\n"].concat();
    let width = *rng.pick(&[1, 7, 60, 70, 80, 81, 1_000]);
    let mut rest = read;
    while !rest.is_empty() {
        lines.extend(skipped(rng));
        let most = if rng.percent(20) { rng.within(1, width) } else { width };
        let (line, behind) = rest.split_at(most.min(rest.len()));
        lines.extend_from_slice(line);
        lines.push(10);
        rest = behind;
    }
    lines.extend(skipped(rng));
    lines
}

/// A file of a few records.
pub fn any_file(rng: &mut Rng, site: &Site, genome: &[u8], most: usize) -> Vec<u8> {
    let mut file = skipped(rng);
    for _ in 0..rng.below(most + 1) {
        let (name, read) = (any_name(rng), any_read(rng, site, genome));
        file.extend(record(rng, &name, &read));
    }
    file
}

/// Files as they are taken, by no, one and several entries; by rooms that just suffice; as they are refused; and with whatever is offered.
pub fn taken(rng: &mut Rng, number: u64, visit: &mut Visit) {
    let (site, genome) = any_site(rng);
    all_of(rng, &site, &genome, number % 20 == 0, visit);
}

/// The same of a set; `long` allows files of a million bytes.
pub fn all_of(rng: &mut Rng, site: &Site, genome: &[u8], long: bool, visit: &mut Visit) {
    for _ in 0..8 {
        let count = *rng.pick(&[0, 1, 1, 1, 2, 2, 3, 8]);
        let entries = any_entries(rng, count, 5);
        let file = any_file(rng, site, genome, 5);
        room(site, &job(Call::Fasta, &entries, &file), rng, visit);
    }
    for file in [&b""[..], b"\n", b"\n\n\n", b">\n", b">\n>\n", b"\n>\n\n", b">>>\n", b">a\r\nACGT\r\n", b"\r\n>a\nACGT\n"] {
        room(site, &job(Call::Fasta, &any_entry(rng), file), rng, visit);
    }
    shrinking(rng, site, genome, visit);
    refused(rng, site, genome, long, visit);
    offered(rng, site, genome, visit);
}

/// A read that a later pass makes shorter than an earlier one, by more than its record's text has besides.
fn shrinking(rng: &mut Rng, site: &Site, genome: &[u8], visit: &mut Visit) {
    for _ in 0..4 {
        let (before, behind) = (reads::noisy_of_length(rng, genome, 60), rng.within(4, 40));
        let at = rng.below(before.len().max(1));
        let run = reads::letters(rng, behind);
        let read = [&before[..at.min(before.len())], &run, &before[at.min(before.len())..]].concat();
        let first = [*rng.pick(&[1, 2]), 255];
        let entries = [&first[..], &[*rng.pick(&[3, 4]), rng.within(1, 3) as u8]].concat();
        let name = if rng.percent(50) { b">".to_vec() } else { any_name(rng) };
        let mut file = any_file(rng, site, genome, 1);
        file.extend(record(rng, &name, &read));
        room(site, &job(Call::Fasta, &entries, &file), rng, visit);
    }
}

/// A call whose output is just long enough for every text and every pass result, for every text alone, one short of each, and shorter.
fn room(site: &Site, ample: &Job, rng: &mut Rng, visit: &mut Visit) {
    visit(site, Some(ample));
    let outcome = call(&site.opened, ample);
    let (mut before, mut texts, mut passes) = (0, 0, 0);
    for (record, made) in records(&ample.input).iter().zip(&outcome.passes) {
        let longest = made.iter().map(|pass| pass.bytes.len()).max().unwrap_or(record.read.len());
        passes = passes.max(before + longest);
        before += text(&record.name, made.last().map_or(&record.read, |pass| &pass.bytes)).len();
        texts = before;
    }
    let least = texts.max(passes);
    for output in [least, texts, passes, rng.below(least + 1)].into_iter().flat_map(|output| [output, output.saturating_sub(1)]) {
        visit(site, Some(&job_with_room(Call::Fasta, &ample.entries, &ample.input, output)));
    }
}

/// Faults of a file: 6 and 18, alone, together and with what is refused before and behind them; inputs at other limits.
fn refused(rng: &mut Rng, site: &Site, genome: &[u8], long: bool, visit: &mut Visit) {
    let other = Site::new(damage::set(rng));
    for _ in 0..10 {
        let mut file = any_file(rng, site, genome, 3);
        for _ in 0..rng.within(1, 2) {
            match rng.below(5) {
                0 => file.splice(0..0, [&skipped(rng), &b"AC\n"[..]].concat()).for_each(drop),
                1 => file.splice(0..0, b"\r\n".iter().copied()).for_each(drop),
                2 => {
                    let line = if rng.percent(50) { &b"AC>GT\n"[..] } else { b"A>\n" };
                    file.extend_from_slice(line);
                }
                3 => drop(file.pop()),
                _ => file.push(b'A'),
            }
        }
        let mut job = job(Call::Fasta, &any_entry(rng), &file);
        match rng.below(8) {
            0 => job.entries = vec![5, 1],
            1 => job.entries = vec![1, 0],
            2 => job.work = job.work.saturating_sub(1),
            _ => (),
        }
        visit(site, Some(&job));
        visit(&other, Some(&job));
    }
    for count in [MOST_RECORDS, MOST_RECORDS + 1] {
        let many: Vec<u8> = (0..count).flat_map(|_| [&b">\n"[..], &skipped(rng)].concat()).collect();
        visit(site, Some(&job(Call::Fasta, &any_entry(rng), &many)));
        visit(site, Some(&job(Call::Fasta, &any_entry(rng), &[b"A\n", &many[..]].concat())));
        visit(site, Some(&job(Call::Fasta, &any_entry(rng), &[b"\n".repeat(1_500), many].concat())));
    }
    for _ in 0..4 {
        damage::input(rng, genome, long, &mut |job| visit(site, Some(&Job { call: Call::Fasta, ..job.clone() })));
    }
    if long {
        let longest = [&b">long\n"[..], &reads::letters(rng, MOST_INPUT - 7), b"\n"].concat();
        visit(site, Some(&Job { output: MOST_INPUT, work: 2 * MOST_INPUT, ..job(Call::Fasta, &any_entry(rng), &longest) }));
        visit(site, Some(&Job { output: MOST_INPUT, work: 2 * MOST_INPUT, ..job(Call::Fasta, &[], &longest) }));
    }
}

/// An index and counts of the set, or not of it: behind 18, before 11.
fn offered(rng: &mut Rng, site: &Site, genome: &[u8], visit: &mut Visit) {
    let mut off = site.index().to_vec();
    off[rng.below(site.index().len())] ^= 1 << rng.below(8);
    let n = site.opened.as_ref().map_or(1, |set| set.keys.len());
    let mut lists = counts::wrong(rng, n);
    lists.extend([Vec::new(), site.counts().to_vec()]);
    for index in [Vec::new(), site.index().to_vec(), off] {
        for counts in &lists {
            let file = any_file(rng, site, genome, 3);
            let job = Job { index: index.clone(), counts: counts.clone(), ..job(Call::Fasta, &any_entry(rng), &file) };
            visit(site, Some(&job));
            visit(site, Some(&Job { output: 0, ..job.clone() }));
            visit(site, Some(&Job { input: [b"A\n", &file[..]].concat(), work: job.work + 4, ..job }));
        }
    }
}
