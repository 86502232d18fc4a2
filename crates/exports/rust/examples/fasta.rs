//! Corrects the reads of a FASTA file: `fasta SET JOB < reads.fasta`. The records go to standard output, the counts to standard error.
use corrector::{Job, Refusal, MAX_OUTPUT};
use std::error::Error;
use std::io::{Read, Write};

fn main() -> Result<(), Box<dyn Error>> {
    let arguments: Vec<String> = std::env::args().skip(1).collect();
    let [set, job] = &arguments[..] else { return Err("usage: fasta SET JOB < reads.fasta".into()) };
    let (set, job, mut file) = (std::fs::read(set)?, std::fs::read(job)?, Vec::new());
    std::io::stdin().read_to_end(&mut file)?;
    let (mut output, mut work) = (vec![0; MAX_OUTPUT], vec![0; corrector::work_length(MAX_OUTPUT, file.len())]);
    match corrector::correct_fasta(&set, None, None, Job::from_bytes(&job), &file, &mut output, &mut work) {
        Ok(report) => {
            std::io::stdout().write_all(&output[..report.written])?;
            eprintln!("turns {} lookups {} written {}", report.turns, report.lookups, report.written);
            Ok(())
        }
        // Behind a line of a file that was made on Windows stands byte 13, which is a base here.
        Err(Refusal::Sequence { line }) if file.contains(&13) => Err(format!("line {line}: is this a file with CRLF line ends?").into()),
        Err(refusal) => Err(refusal.into()),
    }
}
