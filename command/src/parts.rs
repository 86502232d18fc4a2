//! Input cut at record ends into parts that one call takes.
use crate::error::{failed, say, Result};
use crate::input::Position;
use crate::records::{Form, Found, Records};
use crate::words::number;
use corrector::{MAX_INPUT, MAX_LINES};
use std::collections::VecDeque;
use std::fs;
use std::ops::Range;
use std::path::{Path, PathBuf};
use std::sync::Arc;

/// A part ends before it has more bytes, so that a result which is somewhat longer still fits a call's output.
const FULL: usize = 1_000_000;

/// Records of one file, one behind the other.
pub struct Part {
    pub file: Arc<str>,
    pub form: Form,
    pub text: Vec<u8>,
    /// Where each record ends, and its bases.
    pub ends: Vec<(usize, usize)>,
    /// In the file, from 0.
    pub first_record: u64,
    pub first_line: u64,
    /// The only record is longer than a call takes.
    pub long: bool,
}

impl Part {
    pub fn records(&self) -> Range<usize> {
        0..self.ends.len()
    }

    fn start(&self, record: usize) -> usize {
        record.checked_sub(1).map_or(0, |before| self.ends[before].0)
    }

    /// The bytes of some records.
    pub fn bytes(&self, records: &Range<usize>) -> &[u8] {
        &self.text[self.start(records.start)..self.start(records.end)]
    }

    pub fn bases(&self, records: &Range<usize>) -> u64 {
        self.ends[records.clone()].iter().map(|(_, bases)| *bases as u64).sum()
    }

    /// Records with at least k bases.
    pub fn with_kmers(&self, records: &Range<usize>, k: usize) -> u64 {
        self.ends[records.clone()].iter().filter(|(_, bases)| *bases >= k).count() as u64
    }

    /// The reads of some records, a line each.
    pub fn reads(&self, records: &Range<usize>) -> Vec<u8> {
        if self.form == Form::Lines {
            return self.bytes(records).to_vec();
        }
        let mut lines = Vec::with_capacity(self.bytes(records).len());
        for record in records.clone() {
            let text = self.bytes(&(record..record + 1));
            text.split(|byte| *byte == b'\n').skip(1).for_each(|line| lines.extend_from_slice(line));
            lines.push(b'\n');
        }
        lines
    }

    /// How a record is named.
    pub fn name(&self, record: usize) -> String {
        let (kind, place) = match self.form {
            Form::Lines => ("line", self.first_line + record as u64),
            _ => ("record", self.first_record + record as u64),
        };
        format!("{}: {kind} {}", self.file, place + 1)
    }
}

/// What was read of a file.
pub struct Input {
    pub file: String,
    pub bytes: u64,
    pub check: u32,
    pub records: u64,
}

/// The parts of some files, in order.
pub struct Parts {
    files: VecDeque<PathBuf>,
    lines: bool,
    pub position: Position,
    current: Option<(Records, Arc<str>)>,
    /// A record that was read and belongs to the next part.
    record: Vec<u8>,
    held: Option<Found>,
    /// The files that were read to their end.
    pub inputs: Vec<Input>,
    notices: Notices,
}

#[derive(Default)]
struct Notices {
    qualities: bool,
    crlf: bool,
    quiet: bool,
}

impl Parts {
    pub fn new(files: &[PathBuf], lines: bool) -> Self {
        Parts {
            files: files.iter().cloned().collect(),
            lines,
            position: Position::default(),
            current: None,
            record: Vec::new(),
            held: None,
            inputs: Vec::new(),
            notices: Notices::default(),
        }
    }

    /// The next part, if there is one.
    fn part(&mut self) -> Result<Option<Part>> {
        loop {
            if self.current.is_none() {
                let Some(file) = self.files.pop_front() else { return Ok(None) };
                let records = Records::open(&file, self.lines, false, &self.position)?;
                self.notices.at_start(&records);
                let name = records.source.name.as_str().into();
                self.current = Some((records, name));
            }
            if let Some(part) = self.part_of_file()? {
                return Ok(Some(part));
            }
            if let Some((records, _)) = self.current.take() {
                self.notices.at_end(&records);
                let (bytes, check) = records.source.check();
                self.inputs.push(Input { file: records.source.name, bytes, check, records: records.count });
            }
        }
    }

    fn part_of_file(&mut self) -> Result<Option<Part>> {
        let Some((records, name)) = &mut self.current else { return Ok(None) };
        let mut part: Option<Part> = None;
        loop {
            let found = match self.held.take() {
                Some(found) => found,
                None => {
                    self.record.clear();
                    match records.next(&mut self.record)? {
                        Some(found) => found,
                        None => return Ok(part),
                    }
                }
            };
            let part = part.get_or_insert_with(|| Part {
                file: name.clone(),
                form: records.form,
                text: Vec::new(),
                ends: Vec::new(),
                first_record: found.number,
                first_line: found.line,
                long: self.record.len() > MAX_INPUT,
            });
            let full = part.ends.len() == MAX_LINES || part.text.len() + self.record.len() > FULL;
            if full && !part.ends.is_empty() {
                self.held = Some(found);
                break;
            }
            part.text.extend_from_slice(&self.record);
            part.ends.push((part.text.len(), found.bases));
        }
        Ok(part)
    }
}

impl Iterator for Parts {
    type Item = Result<Part>;

    fn next(&mut self) -> Option<Result<Part>> {
        self.part().transpose()
    }
}

impl Notices {
    fn at_start(&mut self, records: &Records) {
        if records.form == Form::Fastq && !self.qualities && !self.quiet {
            self.qualities = true;
            say(format!("{}: FASTQ; qualities are dropped, what comes out is FASTA", records.source.name));
        }
    }

    fn at_end(&mut self, records: &Records) {
        if records.source.crlf && !self.crlf && !self.quiet {
            self.crlf = true;
            say(format!("{}: lines end with CRLF; byte 13 is taken off", records.source.name));
        }
    }
}

/// What a record that no call takes is told as.
pub fn too_long(part: &Part) -> String {
    let bytes = number(part.text.len() as u64);
    format!(
        "{} is refused (1): it has {bytes} bytes, a call takes {}; --keep-long lets such records out as they are",
        part.name(0),
        number(MAX_INPUT as u64)
    )
}

/// Looks through the regular files for records that no call takes.
pub fn look_through(files: &[PathBuf], lines: bool) -> Result<()> {
    for file in files.iter().filter(|file| is_regular(file)) {
        let mut parts = Parts::new(std::slice::from_ref(file), lines);
        parts.notices.quiet = true;
        for part in parts {
            let part = part?;
            if part.long {
                return failed(too_long(&part));
            }
        }
    }
    Ok(())
}

pub fn is_regular(file: &Path) -> bool {
    file != Path::new("-") && fs::metadata(file).is_ok_and(|found| found.is_file())
}
