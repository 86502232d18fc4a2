//! Calls from many threads at once, each with buffers of its own and all with one set and its counts, give what they give alone.
mod common;

use common::{keys_of, set_of, Rng};
use corrector::{correct_batch, correct_read, work_length, Job, Refusal, Report};

const THREADS: usize = 8;
const ROUNDS: usize = 4;
const ROOM: usize = 4096;
const JOBS: [&[u8]; 5] = [&[1, 2], &[2, 3], &[3, 1], &[4, 2], &[1, 4, 2, 3, 3, 1, 4, 2]];

type Call = fn(&[u8], Option<&[u8]>, Option<&[u32]>, Job<'_>, &[u8], &mut [u8], &mut [u8]) -> Result<Report, Refusal>;
type Done = (Result<Report, Refusal>, Vec<u8>, Vec<u8>);

/// The set and counts of its keys, which all threads share.
struct Counted {
    set: Vec<u8>,
    counts: Vec<u32>,
}

fn correct(shared: &Counted, job: &[u8], read: &[u8], output: &mut [u8], work: &mut [u8]) -> [Done; 2] {
    let line = [read, b"\n"].concat();
    let mut done = |call: Call, input: &[u8]| {
        let answer = call(&shared.set, None, Some(&shared.counts), Job::from_bytes(job), input, output, work);
        (answer, output.to_vec(), work.to_vec())
    };
    [done(correct_read, read), done(correct_batch, &line)]
}

/// Every read by every job, from a read on, in buffers that are used again and again.
fn all(shared: &Counted, reads: &[Vec<u8>], from: usize) -> Vec<[Done; 2]> {
    let (mut output, mut work) = (vec![0; ROOM], vec![0; work_length(ROOM, ROOM)]);
    let order = (0..reads.len()).map(|i| (from + i) % reads.len());
    let mut done: Vec<(usize, [Done; 2])> = order
        .flat_map(|i| JOBS.iter().enumerate().map(move |(j, job)| (i * JOBS.len() + j, i, job)))
        .map(|(at, i, job)| (at, correct(shared, job, &reads[i], &mut output, &mut work)))
        .collect();
    done.sort_by_key(|(at, _)| *at);
    done.into_iter().map(|(_, done)| done).collect()
}

#[test]
fn threads_do_not_disturb_each_other() {
    let mut rng = Rng(7);
    let genome = rng.genome(5_000);
    let keys = keys_of(13, &genome);
    let shared = Counted { set: set_of(13, &keys), counts: (0..keys.len()).map(|_| rng.below(1000) as u32).collect() };
    let reads: Vec<Vec<u8>> = (0..3 * THREADS).map(|_| rng.read(&genome, 600)).collect();
    let alone = all(&shared, &reads, 0);
    let corrected = alone.iter().filter(|[(answer, ..), _]| answer.is_ok_and(|report| report.accepted > 0)).count();
    assert!(corrected > alone.len() / 2, "most reads are corrected");
    std::thread::scope(|scope| {
        for thread in 0..THREADS {
            let (shared, reads, alone) = (&shared, &reads, &alone);
            scope.spawn(move || {
                for round in 0..ROUNDS {
                    assert!(all(shared, reads, 3 * thread + round) == *alone, "thread {thread}");
                }
            });
        }
    });
}
