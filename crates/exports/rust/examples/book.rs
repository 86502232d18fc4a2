//! Books a batch before it is corrected: `book SET JOB < batch`, with a job of one entry.
//!
//! Prints three lines: the ceiling that holds for every set with so many keys, what this batch needs, and, with just the output that it needs lent, what the call reports. Nothing
//! is written of the result.
use corrector::{Job, Set};
use std::error::Error;
use std::io::Read;

/// The most turns and lookups of lines by one entry: 2 × W turns and 1 + W × F lookups a line, W being its bases beyond the first k.
fn ceilings(set: Set, method: u8, confirm: u8, batch: &[u8]) -> (u64, u64) {
    let [k, n, c] = [set.k as u64, set.n as u64, confirm as u64];
    let f = match method {
        1 => 12 + 3 * c,
        2 => 69 + 13 * c,
        3 => 6 + 24 * n,
        _ => 17 + k + 3 * c + 24 * n,
    };
    let lines = batch.split(|byte| *byte == 10).map(|line| line.len() as u64);
    lines.filter(|length| *length >= k).map(|length| length - k).fold((0, 0), |(turns, lookups), w| (turns + 2 * w, lookups + 1 + w * f))
}

fn main() -> Result<(), Box<dyn Error>> {
    let arguments: Vec<String> = std::env::args().skip(1).collect();
    let [set, job] = &arguments[..] else { return Err("usage: book SET JOB < batch".into()) };
    let (set, job, mut batch) = (std::fs::read(set)?, std::fs::read(job)?, Vec::new());
    std::io::stdin().read_to_end(&mut batch)?;
    let needs = corrector::needs(&set, None, None, Job::from_bytes(&job), &batch, &mut vec![0; batch.len()])?;
    let (turns, lookups) = ceilings(corrector::open(&set)?, job[0], job[1], &batch);
    println!("ceiling: {turns} turns, {lookups} lookups");
    println!("need:    {} turns, {} lookups, {} bytes", needs.turns, needs.lookups, needs.bytes);
    if needs.bytes > corrector::MAX_OUTPUT {
        println!("no output is long enough: split the batch");
        return Ok(());
    }
    let (mut output, mut work) = (vec![0; needs.bytes], vec![0; corrector::work_length(needs.bytes, batch.len())]);
    let report = corrector::correct_batch(&set, None, None, Job::from_bytes(&job), &batch, &mut output, &mut work)?;
    println!("report:  {} turns, {} lookups, {} bytes", report.turns, report.lookups, report.written);
    Ok(())
}
