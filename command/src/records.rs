//! Records of FASTA, FASTQ, or plain lines. What comes out is FASTA, or lines, each line ended by byte 10.
use crate::error::{failed, Result};
use crate::input::{Position, Source};
use std::path::Path;

#[derive(Clone, Copy, Debug, PartialEq, Eq)]
pub enum Form {
    Fasta,
    Fastq,
    Lines,
}

/// Of a record: its number and first line in the file, both from 0, and its bases.
#[derive(Clone, Copy, Debug)]
pub struct Found {
    pub number: u64,
    pub line: u64,
    pub bases: usize,
}

pub struct Records {
    pub source: Source,
    pub form: Form,
    /// FASTQ comes out as it is, not as FASTA.
    verbatim: bool,
    /// The next record's name line, already read.
    ahead: Option<Vec<u8>>,
    line: Vec<u8>,
    pub count: u64,
}

impl Records {
    pub fn open(path: &Path, lines: bool, verbatim: bool, position: &Position) -> Result<Self> {
        let mut source = Source::open(path, position)?;
        let form = if lines { Form::Lines } else { detect(&mut source)? };
        Ok(Records { source, form, verbatim, ahead: None, line: Vec::new(), count: 0 })
    }

    /// Appends the next record.
    pub fn next(&mut self, into: &mut Vec<u8>) -> Result<Option<Found>> {
        let found = match self.form {
            Form::Fasta => self.fasta(into)?,
            Form::Fastq => self.fastq(into)?,
            Form::Lines => self.plain(into)?,
        };
        self.count += u64::from(found.is_some());
        Ok(found)
    }

    fn plain(&mut self, into: &mut Vec<u8>) -> Result<Option<Found>> {
        let (start, line) = (into.len(), self.source.lines);
        if !self.source.line(into)? {
            return Ok(None);
        }
        let bases = into.len() - start;
        into.push(b'\n');
        Ok(Some(Found { number: self.count, line, bases }))
    }

    /// A name line and what follows up to the next one, empty lines too.
    fn fasta(&mut self, into: &mut Vec<u8>) -> Result<Option<Found>> {
        let line = match self.ahead.take() {
            Some(name) => {
                into.extend_from_slice(&name);
                self.source.lines - 1
            }
            None if self.source.line(into)? => self.source.lines - 1,
            None => return Ok(None),
        };
        into.push(b'\n');
        let mut found = Found { number: self.count, line, bases: 0 };
        loop {
            self.line.clear();
            if !self.source.line(&mut self.line)? {
                return Ok(Some(found));
            }
            if self.line.first() == Some(&b'>') {
                self.ahead = Some(std::mem::take(&mut self.line));
                return Ok(Some(found));
            }
            if self.line.contains(&b'>') {
                return failed(format!("{}: refused (18): line {} holds '>' inside a sequence", self.source.name, self.source.lines));
            }
            found.bases += self.line.len();
            into.extend_from_slice(&self.line);
            into.push(b'\n');
        }
    }

    /// `@name`, sequence, `+`, qualities; sequence and qualities may take several lines.
    fn fastq(&mut self, into: &mut Vec<u8>) -> Result<Option<Found>> {
        match self.source.peek()? {
            None => return Ok(None),
            Some(b'@') => {}
            Some(_) => return self.bad("begins with another byte than '@'", 1),
        }
        let found = Found { number: self.count, line: self.source.lines, bases: 0 };
        let start = into.len();
        self.source.line(into)?;
        if !self.verbatim {
            into[start] = b'>';
        }
        into.push(b'\n');
        let bases = self.sequence(into)?;
        self.qualities(bases, into)?;
        Ok(Some(Found { bases, ..found }))
    }

    fn sequence(&mut self, into: &mut Vec<u8>) -> Result<usize> {
        let mut bases = 0;
        loop {
            self.line.clear();
            if !self.source.line(&mut self.line)? {
                return self.bad("is cut: the file ends before its '+' line", 0);
            }
            match self.line.first() {
                Some(b'+') => break,
                Some(b'@') => return self.bad("lacks its '+' line", 0),
                _ if self.line.contains(&b'>') => return self.bad("holds '>' in its sequence", 0),
                _ => {}
            }
            bases += self.line.len();
            into.extend_from_slice(&self.line);
            if self.verbatim {
                into.push(b'\n');
            }
        }
        match self.verbatim {
            true => into.extend_from_slice(&self.line),
            false if bases == 0 => return Ok(0),
            false => {}
        }
        into.push(b'\n');
        Ok(bases)
    }

    fn qualities(&mut self, bases: usize, into: &mut Vec<u8>) -> Result<()> {
        let mut seen = 0;
        while seen < bases {
            self.line.clear();
            if !self.source.line(&mut self.line)? {
                return self.bad("is cut: the file ends within its qualities", 0);
            }
            seen += self.line.len();
            if self.verbatim {
                into.extend_from_slice(&self.line);
                into.push(b'\n');
            }
        }
        match seen > bases {
            true => self.bad("has more qualities than bases", 0),
            false => Ok(()),
        }
    }

    fn bad<T>(&self, what: &str, behind: u64) -> Result<T> {
        failed(format!("{}: record {} (line {}) {what}", self.source.name, self.count + 1, self.source.lines + behind))
    }
}

fn detect(source: &mut Source) -> Result<Form> {
    let first = source.peek()?;
    let place = format!("{}: line {}", source.name, source.lines + 1);
    match first {
        // No record at all.
        None | Some(b'>') => Ok(Form::Fasta),
        Some(b'@') => Ok(Form::Fastq),
        Some(byte) => {
            let byte = if byte.is_ascii_graphic() { format!("'{}'", byte as char) } else { format!("byte {byte}") };
            failed(format!("{place} starts with {byte}: neither FASTA ('>') nor FASTQ ('@'); plain reads, one a line, are taken with --lines"))
        }
    }
}
