//! A file of reads or counts: plain or gzip with any number of members, `-` for standard input, as lines.
use crate::error::{at, at_path, plain, Error, Result};
use flate2::bufread::MultiGzDecoder;
use flate2::Crc;
use std::fs::File;
use std::io::{self, BufRead, BufReader, Cursor, Read};
use std::path::Path;
use std::sync::atomic::{AtomicU64, Ordering::Relaxed};
use std::sync::Arc;

const BUFFER: usize = 1 << 18;
const GZIP: [u8; 2] = [0x1f, 0x8b];

/// Bytes read so far of the files as they are stored, for progress.
pub type Position = Arc<AtomicU64>;

struct Counted<R> {
    from: R,
    position: Position,
}

impl<R: Read> Read for Counted<R> {
    fn read(&mut self, into: &mut [u8]) -> io::Result<usize> {
        let read = self.from.read(into)?;
        self.position.fetch_add(read as u64, Relaxed);
        Ok(read)
    }
}

struct Checked {
    from: Box<dyn Read + Send>,
    crc: Crc,
    bytes: u64,
}

impl Read for Checked {
    fn read(&mut self, into: &mut [u8]) -> io::Result<usize> {
        let read = self.from.read(into)?;
        self.crc.update(&into[..read]);
        self.bytes += read as u64;
        Ok(read)
    }
}

/// Lines of a file. Their ends are taken off, byte 13 before byte 10 with them.
pub struct Source {
    pub name: String,
    reader: BufReader<Checked>,
    /// Lines taken so far.
    pub lines: u64,
    /// An end with byte 13 was taken off.
    pub crlf: bool,
}

impl Source {
    pub fn open(path: &Path, position: &Position) -> Result<Self> {
        if path == Path::new("-") {
            return Source::of("standard input".into(), Box::new(io::stdin()), position);
        }
        let file = File::open(path).map_err(at_path(path))?;
        if file.metadata().map_err(at_path(path))?.is_dir() {
            return Err(Error::Failed(format!("{}: is a folder", path.display())));
        }
        Source::of(path.display().to_string(), Box::new(file), position)
    }

    fn of(name: String, file: Box<dyn Read + Send>, position: &Position) -> Result<Self> {
        let mut file = Counted { from: file, position: position.clone() };
        let mut first = Vec::with_capacity(2);
        file.by_ref().take(2).read_to_end(&mut first).map_err(at(&name))?;
        let gzip = first == GZIP;
        let whole = Cursor::new(first).chain(file);
        let from: Box<dyn Read + Send> = match gzip {
            true => Box::new(MultiGzDecoder::new(BufReader::with_capacity(BUFFER, whole))),
            false => Box::new(whole),
        };
        let reader = BufReader::with_capacity(BUFFER, Checked { from, crc: Crc::new(), bytes: 0 });
        Ok(Source { name, reader, lines: 0, crlf: false })
    }

    /// An error at the line that would come next.
    fn broken(&self, error: &io::Error) -> Error {
        Error::Failed(format!("{}: line {}: {}", self.name, self.lines + 1, plain(error)))
    }

    /// Appends the next line without its end. None is left: false.
    pub fn line(&mut self, into: &mut Vec<u8>) -> Result<bool> {
        let start = into.len();
        match self.reader.read_until(b'\n', into) {
            Ok(0) => return Ok(false),
            Ok(_) => {}
            Err(error) => return Err(self.broken(&error)),
        }
        let ended = into.last() == Some(&b'\n');
        if ended {
            into.pop();
        }
        if into.len() > start && into.last() == Some(&b'\r') && (ended || self.crlf) {
            into.pop();
            self.crlf = true;
        }
        self.lines += 1;
        Ok(true)
    }

    /// Skips empty lines, and tells the first byte of the line that comes next.
    pub fn peek(&mut self) -> Result<Option<u8>> {
        loop {
            let first = match self.reader.fill_buf() {
                Ok(bytes) => bytes.first().copied(),
                Err(error) => return Err(self.broken(&error)),
            };
            match first {
                Some(b'\n') => self.lines += 1,
                Some(b'\r') => self.crlf = true,
                other => return Ok(other),
            }
            self.reader.consume(1);
        }
    }

    /// Bytes and CRC-32 of the text that was read.
    pub fn check(&self) -> (u64, u32) {
        let checked = self.reader.get_ref();
        (checked.bytes, checked.crc.sum())
    }
}
