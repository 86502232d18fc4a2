//! Document 02, "FASTA in and out", written from the documents alone.
use super::calls::{entries, passes_of, report, Job, Outcome};
use super::set::{Refusal, Set};

const MOST_RECORDS: usize = 1_024;
const WIDTH: usize = 80;

/// A line starting with `>`, without its end, and its sequence lines joined without their ends.
#[derive(Clone, Debug, PartialEq, Eq)]
pub struct Record {
    pub name: Vec<u8>,
    pub read: Vec<u8>,
}

/// The lines of a file, without their ends.
fn lines(file: &[u8]) -> impl Iterator<Item = &[u8]> {
    file.split_inclusive(|byte| *byte == 10).map(|line| line.strip_suffix(&[10]).unwrap_or(line))
}

/// The records of a file. Lines of no bytes are skipped; what stands before the first name line is 18, or of no bytes.
pub fn records(file: &[u8]) -> Vec<Record> {
    let mut records: Vec<Record> = Vec::new();
    for line in lines(file) {
        if line.starts_with(b">") {
            records.push(Record { name: line.to_vec(), read: Vec::new() });
        } else if let Some(record) = records.last_mut() {
            record.read.extend_from_slice(line);
        }
    }
    records
}

/// Refusal 6, the limit of 1,024 being on records; the file ends with byte 10 or is empty.
pub fn file_refusal(file: &[u8]) -> Option<Refusal> {
    let ended = file.last().is_none_or(|byte| *byte == 10);
    (!ended || records(file).len() > MOST_RECORDS).then_some(Refusal::new(6, 0))
}

/// Refusal 18: a sequence line stands before the first name line or holds `>`. The place is the first such line, skipped lines counted.
pub fn sequence_refusal(file: &[u8]) -> Option<Refusal> {
    let mut named = false;
    for (place, line) in lines(file).enumerate() {
        if line.starts_with(b">") {
            named = true;
        } else if !line.is_empty() && (!named || line.contains(&b'>')) {
            return Some(Refusal::new(18, place));
        }
    }
    None
}

/// A record's text: name line and read lines, each with its byte 10.
pub fn text(name: &[u8], read: &[u8]) -> Vec<u8> {
    let mut text = [name, b"\n"].concat();
    for line in read.chunks(WIDTH) {
        text.extend_from_slice(line);
        text.push(10);
    }
    text
}

/// The records in turn, each read corrected as it would be in a batch of its own; 11 at the first whose text, or one of whose pass results, is longer
/// than what is left before its name line.
pub fn correct(set: &Set, job: &Job) -> Outcome {
    let entries = entries(job);
    let (mut bytes, mut passes) = (Vec::new(), Vec::new());
    for (place, Record { name, read }) in records(&job.input).into_iter().enumerate() {
        let made = passes_of(set, &entries, &read);
        let longest = made.iter().map(|pass| pass.bytes.len()).max().unwrap_or(read.len());
        let text = text(&name, made.last().map_or(&read, |pass| &pass.bytes));
        if text.len().max(longest) > job.output - bytes.len() {
            return Outcome::refused(Refusal::new(11, place));
        }
        bytes.extend(text);
        passes.push(made);
    }
    Outcome { answer: Ok(report(bytes.len(), &passes, &job.counts)), bytes, passes }
}
