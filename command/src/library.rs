//! The library's calls as the subcommands make them: a set with what is offered, a job, and buffers kept by each thread.
use crate::cli::Given;
use crate::error::{failed, Result};
use crate::job::Entries;
use crate::lent::{read_counts, read_index, SetFile};
use crate::records::Form;
use crate::words::of_call;
use corrector::{Job, Needs, Refusal, Report, MAX_INPUT, MAX_OUTPUT, MAX_WORK};
use std::cell::RefCell;
use std::time::{Duration, Instant};

pub struct Library {
    pub set: SetFile,
    index: Option<Vec<u8>>,
    counts: Option<Vec<u32>>,
    pub job: Entries,
    /// What a call without a read takes: opening the set, and making it ready.
    pub empty_call: Duration,
}

struct Buffers {
    output: Vec<u8>,
    work: Vec<u8>,
}

thread_local! {
    static BUFFERS: RefCell<Buffers> = RefCell::new(Buffers { output: vec![0; MAX_OUTPUT], work: vec![0; MAX_WORK] });
}

impl Library {
    /// Reads what is given, and makes a call without a read: what is refused whatever the reads are, is refused here.
    pub fn new(given: &Given) -> Result<Self> {
        let set = SetFile::read(&given.set)?;
        let index = given.index.as_deref().map(read_index).transpose()?;
        let counts = given.counts.as_deref().map(read_counts).transpose()?;
        let mut library = Library { set, index, counts, job: given.job.clone(), empty_call: Duration::ZERO };
        let start = Instant::now();
        if let Err(refusal) = library.correct(Form::Lines, b"", |_| ()) {
            let file = match refusal {
                Refusal::Index => given.index.as_ref(),
                Refusal::Counts => given.counts.as_ref(),
                _ => None,
            };
            let file = file.unwrap_or(&given.set).display();
            return failed(format!("{file}: {}", of_call(refusal)));
        }
        library.empty_call = start.elapsed();
        Ok(library)
    }

    /// Corrects records of FASTA, or lines. `take` gets the output.
    pub fn correct<T>(&self, form: Form, text: &[u8], take: impl FnOnce(&[u8]) -> T) -> std::result::Result<(Report, T), Refusal> {
        if text.len() > MAX_INPUT {
            return Err(Refusal::InputLength);
        }
        BUFFERS.with(|buffers| {
            let Buffers { output, work } = &mut *buffers.borrow_mut();
            let (set, index, counts, job) = (self.set.bytes(), self.index.as_deref(), self.counts.as_deref(), Job::new(&self.job.0));
            let report = match form {
                Form::Lines => corrector::correct_batch(set, index, counts, job, text, output, work)?,
                Form::Fasta | Form::Fastq => corrector::correct_fasta(set, index, counts, job, text, output, work)?,
            };
            Ok((report, take(&output[..report.written])))
        })
    }

    /// What lines will need.
    pub fn needs(&self, lines: &[u8]) -> std::result::Result<Needs, Refusal> {
        BUFFERS.with(|buffers| {
            let work = &mut buffers.borrow_mut().work;
            let (set, index, counts, job) = (self.set.bytes(), self.index.as_deref(), self.counts.as_deref(), Job::new(&self.job.0));
            corrector::needs(set, index, counts, job, lines, work)
        })
    }
}
