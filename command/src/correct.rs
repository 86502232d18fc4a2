//! `hatchery correct`.
use crate::cli::Correct;
use crate::error::{failed, say, usage, Error, Result};
use crate::library::Library;
use crate::output::{self, Output};
use crate::parts::{look_through, too_long, Part, Parts};
use crate::pool;
use crate::progress::Progress;
use crate::records::Form;
use crate::report::Report;
use crate::totals::Totals;
use crate::words::{counted, number, of_call};
use corrector::{Refusal, MAX_OUTPUT};
use std::ops::Range;
use std::path::Path;
use std::time::Instant;

/// A part corrected.
struct Done {
    text: Vec<u8>,
    totals: Totals,
}

pub fn run(args: &Correct) -> Result<()> {
    let (given, reads) = (&args.given, &args.reads);
    if args.need && given.job.0.len() != 1 {
        return usage("--need: needs are told of jobs of one entry");
    }
    let inputs = [Some(&given.set), given.index.as_ref(), given.counts.as_ref()].into_iter().flatten().chain(&reads.files);
    let inputs: Vec<&Path> = inputs.map(|path| path.as_path()).collect();
    let outputs: Vec<&Path> = [Some(&args.output), args.report.as_ref()].into_iter().flatten().map(|path| path.as_path()).collect();
    output::apart(&inputs, &outputs)?;
    let start = Instant::now();
    let library = Library::new(given)?;
    if !args.keep_long {
        look_through(&reads.files, reads.lines)?;
    }
    let mut parts = Parts::new(&reads.files, reads.lines);
    let mut output = Output::create(&args.output)?;
    let mut totals = Totals { need: args.need.then_some((0, 0)), ..Totals::default() };
    let threads = pool::threads(reads.threads.map(usize::from));
    {
        let progress = Progress::new(&reads.files, parts.position.clone(), args.quiet);
        let work = |part: Part| Worker { library: &library, part: &part, keep_long: args.keep_long, need: args.need }.whole();
        pool::in_order(threads, &mut parts, work, |done| {
            output.write(&done.text)?;
            if args.output == Path::new("-") {
                output.flush()?;
            }
            totals.add(&done.totals);
            progress.step();
            Ok(())
        })?;
    }
    output.finish()?;
    let report = Report::new(&library, parts.inputs, totals, threads, start.elapsed());
    if let Some(path) = &args.report {
        output::write(path, report.json_text().as_bytes())?;
    }
    if !args.quiet {
        say(report.words().trim_end());
    }
    match report.totals.kept {
        0 => {}
        kept => say(format!("{} came out as it went in: longer than a call takes, or than its result may be", counted(kept, "record", "records"))),
    }
    Ok(())
}

struct Worker<'a> {
    library: &'a Library,
    part: &'a Part,
    keep_long: bool,
    need: bool,
}

impl Worker<'_> {
    fn whole(&self) -> Result<Done> {
        let mut done = Done { text: Vec::with_capacity(self.part.text.len() * 17 / 16), totals: Totals::default() };
        done.totals.need = self.need.then_some((0, 0));
        if self.part.long {
            self.alone(0, too_long(self.part), &mut done)?;
        } else {
            self.correct(self.part.records(), &mut done)?;
        }
        Ok(done)
    }

    /// Some records, in one call if their result fits, else in two halves.
    fn correct(&self, records: Range<usize>, done: &mut Done) -> Result<()> {
        let text = self.part.bytes(&records);
        match self.library.correct(self.part.form, text, |output| done.text.extend_from_slice(output)) {
            Ok((report, ())) => {
                done.totals.call(&report);
                done.totals.reads += records.len() as u64;
                done.totals.bases += self.part.bases(&records);
                done.totals.passes += self.part.with_kmers(&records, self.library.set.header.k) * self.library.job.0.len() as u64;
                self.ask(&records, done)
            }
            Err(Refusal::NoRoom { .. }) if records.len() > 1 => {
                done.totals.calls += 1;
                let middle = records.start + records.len() / 2;
                self.correct(records.start..middle, done)?;
                self.correct(middle..records.end, done)
            }
            Err(refusal @ (Refusal::InputLength | Refusal::Buffers | Refusal::NoRoom { .. })) if records.len() == 1 => {
                let name = self.part.name(records.start);
                let most = number(MAX_OUTPUT as u64);
                let why = match refusal {
                    Refusal::NoRoom { .. } => {
                        format!("{name} is refused (11): its result is longer than {most} bytes; --keep-long lets such records out as they are")
                    }
                    other => format!("{name} is {}", of_call(other)),
                };
                self.alone(records.start, why, done)
            }
            Err(refusal) => Err(self.place(refusal, &records)),
        }
    }

    /// A record that is refused by itself.
    fn alone(&self, record: usize, why: String, done: &mut Done) -> Result<()> {
        if !self.keep_long {
            return failed(why);
        }
        done.text.extend_from_slice(self.part.bytes(&(record..record + 1)));
        done.totals.kept += 1;
        Ok(())
    }

    fn ask(&self, records: &Range<usize>, done: &mut Done) -> Result<()> {
        let Some((turns, lookups)) = &mut done.totals.need else { return Ok(()) };
        let needs = self.library.needs(&self.part.reads(records)).map_err(|refusal| self.place(refusal, records))?;
        *turns += needs.turns;
        *lookups += needs.lookups;
        Ok(())
    }

    /// A refusal with its place in the whole file.
    fn place(&self, refusal: Refusal, records: &Range<usize>) -> Error {
        let name = match (self.part.form, refusal) {
            (Form::Lines, _) => self.part.name(records.start + refusal.place()),
            // A part of a FASTA file has the file's own lines.
            (Form::Fasta, Refusal::Sequence { line }) => {
                let before = self.part.bytes(&(0..records.start)).iter().filter(|byte| **byte == b'\n').count();
                format!("{}: line {}", self.part.file, self.part.first_line + (before + line) as u64 + 1)
            }
            _ => self.part.name(records.start),
        };
        Error::Failed(format!("{name}: {}", of_call(refusal)))
    }
}
