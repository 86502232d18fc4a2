//! Document 01's samples, jobs of several confirms, and every refusal.
mod common;

use common::{sample_set, set_of};
use corrector::Method::{self, GapSize, Graph, One, Two};
use corrector::{correct_batch, correct_read, count_solid, open, work_length, Count, Entry, Job, Refusal, Report, Set};
use corrector::{MAX_ENTRIES, MAX_INPUT, MAX_LINES, MAX_OUTPUT, MAX_WORK};

const FILL: u8 = 170;

const fn entry(method: Method, confirm: u8) -> Entry {
    Entry::new(method, confirm).expect("confirm is not 0")
}

/// One with confirm 1, as its file has it.
const ONE: Job = Job::from_bytes(&[1, 1]);

/// A call on buffers that were filled before it.
struct Done {
    answer: Result<Report, Refusal>,
    output: Vec<u8>,
    work: Vec<u8>,
}

impl Done {
    fn of(call: impl FnOnce(&mut [u8], &mut [u8]) -> Result<Report, Refusal>, output: usize, work: usize) -> Self {
        let (mut output, mut work) = (vec![FILL; output], vec![FILL; work]);
        let answer = call(&mut output, &mut work);
        Done { answer, output, work }
    }

    fn read(set: &[u8], job: Job, read: &[u8]) -> Self {
        Self::of(|output, work| correct_read(set, None, None, job, read, output, work), 32, 64)
    }

    fn batch(set: &[u8], job: Job, batch: &[u8]) -> Self {
        Self::of(|output, work| correct_batch(set, None, None, job, batch, output, work), 32, 64)
    }

    fn all(&self, byte: u8) -> bool {
        self.output.iter().chain(&self.work).all(|found| *found == byte)
    }

    #[track_caller]
    fn gives(&self, result: &[u8]) -> Report {
        let report = self.answer.expect("accepted");
        assert_eq!(report.written, result.len());
        assert_eq!(&self.output[..report.written], result);
        assert!(self.output[report.written..].iter().chain(&self.work).all(|byte| *byte == 0));
        report
    }

    /// Refused, with the buffers as they were.
    #[track_caller]
    fn refused(&self, refusal: Refusal, number: u8, place: usize) {
        assert_eq!(self.answer, Err(refusal));
        assert_eq!((refusal.number(), refusal.place()), (number, place));
        assert!(self.all(FILL));
    }
}

/// By both calls.
#[track_caller]
fn gives_by(entries: &[Entry], read: &[u8], result: &[u8]) -> Report {
    let job = Job::new(entries);
    let report = Done::read(&sample_set(), job, read).gives(result);
    let line = |bytes: &[u8]| [bytes, b"\n"].concat();
    let batch = Done::batch(&sample_set(), job, &line(read)).gives(&line(result));
    assert_eq!(batch, Report { written: report.written + 1, ..report });
    report
}

#[track_caller]
fn gives(method: Method, confirm: u8, read: &[u8], result: &[u8]) -> Report {
    gives_by(&[entry(method, confirm)], read, result)
}

#[test]
fn samples_of_one() {
    let report = gives(One, 1, b"AACGC", b"AACTC");
    assert_eq!((report.turns, report.lookups, report.attempts, report.accepted, report.yield_), (2, 12, 1, 1, 1000));
    let report = gives(One, 1, b"AACC", b"AACTC");
    assert_eq!((report.turns, report.lookups), (2, 11));
    gives(One, 1, b"AACGTC", b"AACTC");
    let report = gives(One, 1, b"AACG", b"AACG");
    assert_eq!((report.attempts, report.accepted, report.yield_), (1, 0, 0));
    assert_eq!(gives(One, 1, b"AACGCCG", b"AACTCCG").lookups, 16);
}

#[test]
fn samples_of_two() {
    gives(Two, 1, b"AACCG", b"AACCG");
    gives(Two, 2, b"AACCG", b"AACTCCG");
}

#[test]
fn samples_of_graph_and_gap_size() {
    let report = gives(Graph, 1, b"AACGCCG", b"AACTCCG");
    assert_eq!((report.turns, report.lookups), (1, 21));
    gives(Graph, 1, b"AACGC", b"AACGC");
    assert_eq!(gives(GapSize, 1, b"AACGCCG", b"AACTCCG").lookups, 19);
}

#[test]
fn short_reads() {
    let none = Report { written: 0, turns: 0, lookups: 0, attempts: 0, accepted: 0, yield_: 0, support: None, quotient: 0, remainder: 0, bases: 0 };
    assert_eq!(gives(One, 1, b"AA", b"AA"), Report { written: 2, ..none });
    assert_eq!(gives(One, 1, b"", b""), none);
    assert_eq!(gives(One, 1, b"AAC", b"AAC"), Report { written: 3, lookups: 1, ..none });
}

#[test]
fn jobs_are_the_bytes_of_their_file() {
    assert_eq!(Job::new(&[entry(Two, 7), entry(One, 3)]).as_bytes(), [2, 7, 1, 3]);
    assert_eq!(Job::new(&[entry(Graph, 1), entry(GapSize, 255)]), Job::from_bytes(&[3, 1, 4, 255]));
    assert_eq!(Job::new(&[]), Job::from_bytes(b""));
    assert_eq!(Entry::new(One, 0), None);
}

#[test]
fn a_job_without_entries_copies() {
    let report = gives_by(&[], b"AACGC", b"AACGC");
    let none = Report { written: 0, turns: 0, lookups: 0, attempts: 0, accepted: 0, yield_: 0, support: None, quotient: 0, remainder: 0, bases: 0 };
    assert_eq!(report, Report { written: 5, ..none });
    Done::batch(&sample_set(), Job::from_bytes(b""), b"AACGC\n\nAA\n").gives(b"AACGC\n\nAA\n");
}

#[test]
fn lists_of_methods_and_of_lines() {
    let set = sample_set();
    gives_by(&[entry(Graph, 1), entry(One, 1)], b"AACGC", b"AACTC");
    let job = Job::from_bytes(&[3, 1]);
    let report = Done::batch(&set, job, b"AACGCCG\nAA\n").gives(b"AACTCCG\nAA\n");
    assert_eq!((report.turns, report.lookups), (1, 21));
    Done::batch(&set, job, b"").gives(b"");
}

/// One mends AACGC, and attempts AACG in vain.
#[test]
fn yields_to_the_nearest() {
    for (mended, attempts, yields) in [(1, 16, 62), (3, 16, 188), (2, 3, 667), (1, 3, 333), (7, 7, 1000), (0, 7, 0), (0, 0, 0)] {
        let batch = [b"AACGC\n".repeat(mended), b"AACG\n".repeat(attempts - mended)].concat();
        let (mut output, mut work) = (vec![0; batch.len()], vec![0; 2 * batch.len()]);
        let report = correct_batch(&sample_set(), None, None, ONE, &batch, &mut output, &mut work).expect("accepted");
        assert_eq!((report.attempts, report.accepted, report.yield_), (attempts as u64, mended as u64, yields));
    }
}

/// Two mends AACCG with confirm 2 and not with 1, whichever pass has it: the counts of both passes are those that they have alone.
#[test]
fn each_pass_has_its_own_confirm() {
    let add = |one: Report, other: Report| Report {
        turns: one.turns + other.turns,
        lookups: one.lookups + other.lookups,
        attempts: one.attempts + other.attempts,
        accepted: one.accepted + other.accepted,
        quotient: (one.lookups + other.lookups) / (one.bases + other.bases),
        remainder: (one.lookups + other.lookups) % (one.bases + other.bases),
        bases: one.bases + other.bases,
        ..other
    };
    let (refused, mended) = (gives(Two, 1, b"AACCG", b"AACCG"), gives(Two, 2, b"AACCG", b"AACTCCG"));
    let rises = gives_by(&[entry(Two, 1), entry(Two, 2)], b"AACCG", b"AACTCCG");
    assert_eq!(rises, Report { yield_: 500, ..add(refused, mended) });
    let falls = gives_by(&[entry(Two, 2), entry(Two, 1)], b"AACCG", b"AACTCCG");
    assert_eq!(falls, Report { yield_: 1000, ..add(mended, gives(Two, 1, b"AACTCCG", b"AACTCCG")) });
    gives_by(&[entry(Two, 1), entry(Two, 1)], b"AACCG", b"AACCG");
}

#[test]
fn takes_eight_entries() {
    let mut entries = [entry(Two, 1); MAX_ENTRIES];
    gives_by(&entries, b"AACCG", b"AACCG");
    entries[MAX_ENTRIES - 1] = entry(Two, 2);
    gives_by(&entries, b"AACCG", b"AACTCCG");
    let nine = [entry(One, 1); MAX_ENTRIES + 1];
    refused(Job::new(&nine), b"\n", Refusal::EntryCount, 2, 0);
}

#[test]
fn opens() {
    assert_eq!(open(&sample_set()), Ok(Set { k: 3, n: 5 }));
    assert_eq!(open(&set_of(31, &[])), Ok(Set { k: 31, n: 0 }));
}

#[test]
fn counts_solid_k_mers() {
    let set = sample_set();
    let counts = |read: &[u8], kmers: u64, solid: u64| assert_eq!(count_solid(&set, read), Ok(Count { kmers, solid }));
    counts(b"AACTCCG", 5, 5);
    counts(b"AACGC", 3, 1);
    counts(b"AAC", 1, 1);
    counts(b"ACGT", 2, 0);
    counts(b"AA", 0, 0);
    counts(b"", 0, 0);
    counts(&[65; MAX_INPUT], MAX_INPUT as u64 - 2, 0);
    assert_eq!(count_solid(&set, &[65; MAX_INPUT + 1]), Err(Refusal::InputLength));
}

/// By both calls.
#[track_caller]
fn refused(job: Job, input: &[u8], refusal: Refusal, number: u8, place: usize) {
    let set = sample_set();
    Done::read(&set, job, input).refused(refusal, number, place);
    Done::batch(&set, job, input).refused(refusal, number, place);
}

#[track_caller]
fn bytes_refused(job: &[u8], refusal: Refusal, number: u8, place: usize) {
    refused(Job::from_bytes(job), b"\n", refusal, number, place);
}

#[test]
fn refuses_by_input_and_buffers() {
    refused(ONE, &vec![10; MAX_INPUT + 1], Refusal::InputLength, 1, 0);
    refused(ONE, &[10; 33], Refusal::Buffers, 5, 0);
    // 1 is checked before the job, the job before the buffers.
    refused(Job::from_bytes(&[0; 18]), &vec![10; MAX_INPUT + 1], Refusal::InputLength, 1, 0);
    refused(Job::from_bytes(&[1, 0]), &[10; 33], Refusal::ConfirmZero { index: 0 }, 4, 0);
}

#[test]
fn refuses_too_many_entries() {
    bytes_refused(&[1; 18], Refusal::EntryCount, 2, 0);
    bytes_refused(&[1; 17], Refusal::EntryCount, 2, 0);
    bytes_refused(&[0; 18], Refusal::EntryCount, 2, 0);
}

#[test]
fn refuses_an_unknown_method() {
    for place in 0..MAX_ENTRIES {
        let mut job = [1; 2 * MAX_ENTRIES];
        for method in [0, 5, 255] {
            job[2 * place] = method;
            bytes_refused(&job, Refusal::MethodUnknown { index: place }, 3, place);
        }
        // All methods are looked at before any confirm is.
        job[1] = 0;
        bytes_refused(&job, Refusal::MethodUnknown { index: place }, 3, place);
        bytes_refused(&job[..2 * place + 1], Refusal::MethodUnknown { index: place }, 3, place);
    }
}

#[test]
fn refuses_confirm_0() {
    for place in 0..MAX_ENTRIES {
        let mut job = [1; 2 * MAX_ENTRIES];
        job[2 * place + 1] = 0;
        bytes_refused(&job, Refusal::ConfirmZero { index: place }, 4, place);
        job[2 * MAX_ENTRIES - 1] = 0;
        bytes_refused(&job, Refusal::ConfirmZero { index: place }, 4, place);
    }
}

#[test]
fn refuses_half_an_entry() {
    for place in 0..MAX_ENTRIES {
        bytes_refused(&[1; 2 * MAX_ENTRIES][..2 * place + 1], Refusal::ConfirmZero { index: place }, 4, place);
    }
}

#[test]
fn refuses_buffers() {
    let set = sample_set();
    let call = |output: usize, work: usize| Done::of(|output, work| correct_read(&set, None, None, ONE, b"AAC", output, work), output, work);
    call(MAX_OUTPUT + 1, MAX_WORK).refused(Refusal::Buffers, 5, 0);
    call(8, MAX_WORK + 1).refused(Refusal::Buffers, 5, 0);
    call(8, work_length(8, 3) - 1).refused(Refusal::Buffers, 5, 0);
    call(2, work_length(2, 3) - 1).refused(Refusal::Buffers, 5, 0);
    call(8, work_length(8, 3)).gives(b"AAC");
    call(MAX_OUTPUT, MAX_WORK).gives(b"AAC");
}

#[test]
fn refuses_a_batch() {
    let set = sample_set();
    Done::batch(&set, ONE, b"AAC").refused(Refusal::Batch, 6, 0);
    let lines = |count: usize| Done::of(|output, work| correct_batch(&set, None, None, ONE, &vec![10; count], output, work), count, 2 * count);
    lines(MAX_LINES + 1).refused(Refusal::Batch, 6, 0);
    lines(MAX_LINES).gives(&[10; MAX_LINES]);
}

/// By opening and by both calls.
#[track_caller]
fn set_refused(set: &[u8], refusal: Refusal, number: u8, place: usize) {
    assert_eq!(open(set), Err(refusal));
    Done::read(set, ONE, b"AAC").refused(refusal, number, place);
    Done::batch(set, ONE, b"AAC\n").refused(refusal, number, place);
    assert_eq!(count_solid(set, b"AAC"), Err(refusal));
}

#[test]
fn refuses_a_damaged_set() {
    let set = sample_set();
    set_refused(b"", Refusal::SetLength, 7, 0);
    set_refused(&set[..1023], Refusal::SetLength, 7, 0);
    for place in 0..set.len() {
        let mut damaged = set.clone();
        damaged[place] ^= 1;
        set_refused(&damaged, Refusal::SetCheck { block: place / 512 }, 8, place / 512);
    }
    set_refused(&set[..512], Refusal::SetHeader, 9, 0);
}

#[test]
fn refuses_a_set_made_wrongly() {
    set_refused(&set_of(4, &[]), Refusal::SetHeader, 9, 0);
    set_refused(&set_of(33, &[]), Refusal::SetHeader, 9, 0);
    set_refused(&set_of(3, &[6, 7]), Refusal::SetKey { word: 1 }, 10, 1);
    set_refused(&set_of(3, &[6, 6]), Refusal::SetKey { word: 1 }, 10, 1);
    set_refused(&set_of(3, &[65]), Refusal::SetKey { word: 0 }, 10, 0);
}

#[test]
fn refuses_a_result_without_room() {
    let set = sample_set();
    let read = Done::of(|output, work| correct_read(&set, None, None, ONE, b"AACC", output, work), 4, 8);
    assert_eq!(read.answer, Err(Refusal::NoRoom { line: 0 }));
    assert!(read.all(0));
    let batch = Done::of(|output, work| correct_batch(&set, None, None, ONE, b"AA\nAACC\n", output, work), 8, 16);
    assert_eq!(batch.answer, Err(Refusal::NoRoom { line: 1 }));
    assert_eq!(batch.answer.map_err(|refusal| (refusal.number(), refusal.place())), Err((11, 1)));
    assert!(batch.all(0));
}

#[test]
fn refusals_are_told_in_words() {
    assert_eq!(Refusal::ConfirmZero { index: 3 }.to_string(), "the confirm of entry 3 is 0");
    assert_eq!(Refusal::SetCheck { block: 7 }.to_string(), "block 7 of the set is damaged");
    let error: Box<dyn std::error::Error> = Box::new(Refusal::NoRoom { line: 2 });
    assert_eq!(error.to_string(), "the result of line or record 2 does not fit the output");
}
