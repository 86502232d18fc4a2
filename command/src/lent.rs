//! What calls are lent: the set on huge pages, its index, its counts.
use crate::error::{at, at_path, failed, Result};
use crate::words;
use corrector::{Set, MAX_KEYS};
use flate2::Crc;
use memmap2::{Advice, MmapMut};
use std::fs::File;
use std::io::Read;
use std::path::Path;

/// A huge page of x86-64.
const PAGE: usize = 2 << 20;

/// Memory that starts at a multiple of a huge page, and is advised to be in such.
struct Memory {
    map: MmapMut,
    start: usize,
    length: usize,
}

impl Memory {
    fn new(length: usize, name: &Path) -> Result<Self> {
        let map = MmapMut::map_anon(length + PAGE).map_err(at_path(name))?;
        let start = map.as_ptr().align_offset(PAGE).min(PAGE);
        // A system without huge pages has common ones.
        let _ = map.advise(Advice::HugePage);
        Ok(Memory { map, start, length })
    }

    fn bytes(&self) -> &[u8] {
        &self.map[self.start..self.start + self.length]
    }

    fn bytes_mut(&mut self) -> &mut [u8] {
        &mut self.map[self.start..self.start + self.length]
    }
}

/// A set that opens, shared by all threads.
pub struct SetFile {
    memory: Memory,
    pub name: String,
    pub header: Set,
    /// CRC-32 of its bytes.
    pub check: u32,
}

impl SetFile {
    pub fn read(path: &Path) -> Result<Self> {
        let longest = corrector::set_length(MAX_KEYS);
        let (mut file, length) = open(path, longest, "a set")?;
        let memory = match length {
            Some(length) => {
                let mut memory = Memory::new(length, path)?;
                file.read_exact(memory.bytes_mut()).map_err(at_path(path))?;
                memory
            }
            None => {
                let bytes = rest(&mut file, path, longest, "a set")?;
                let mut memory = Memory::new(bytes.len(), path)?;
                memory.bytes_mut().copy_from_slice(&bytes);
                memory
            }
        };
        let name = path.display().to_string();
        match corrector::open(memory.bytes()) {
            Ok(header) => {
                let mut crc = Crc::new();
                crc.update(memory.bytes());
                Ok(SetFile { check: crc.sum(), memory, name, header })
            }
            Err(refusal) => failed(format!("{name}: {}", words::of_set(refusal))),
        }
    }

    pub fn bytes(&self) -> &[u8] {
        self.memory.bytes()
    }
}

/// An index. Whether it is the set's, the call says.
pub fn read_index(path: &Path) -> Result<Vec<u8>> {
    read_all(path, corrector::index_length(31), "an index")
}

/// A list of counts, 32 bits each, little-endian.
pub fn read_counts(path: &Path) -> Result<Vec<u32>> {
    let bytes = read_all(path, 4 * MAX_KEYS, "a list of counts")?;
    if bytes.len() % 4 != 0 {
        return failed(format!("{}: {} bytes are no list of 32-bit counts: the file is cut", path.display(), bytes.len()));
    }
    Ok(bytes.chunks_exact(4).map(|four| u32::from_le_bytes([four[0], four[1], four[2], four[3]])).collect())
}

fn read_all(path: &Path, longest: usize, what: &str) -> Result<Vec<u8>> {
    let (mut file, _) = open(path, longest, what)?;
    rest(&mut file, path, longest, what)
}

// The file, and its length if it is a regular one.
fn open(path: &Path, longest: usize, what: &str) -> Result<(File, Option<usize>)> {
    let file = File::open(path).map_err(at_path(path))?;
    let found = file.metadata().map_err(at_path(path))?;
    if found.is_dir() {
        return failed(format!("{}: is a folder", path.display()));
    }
    match found.is_file() {
        true if found.len() > longest as u64 => too_long(path, longest, what),
        true => Ok((file, Some(found.len() as usize))),
        false => Ok((file, None)),
    }
}

fn rest(file: &mut File, path: &Path, longest: usize, what: &str) -> Result<Vec<u8>> {
    let mut bytes = Vec::new();
    file.take(longest as u64 + 1).read_to_end(&mut bytes).map_err(at(path.display()))?;
    match bytes.len() > longest {
        true => too_long(path, longest, what),
        false => Ok(bytes),
    }
}

fn too_long<T>(path: &Path, longest: usize, what: &str) -> Result<T> {
    failed(format!("{}: longer than {what} can be ({} bytes)", path.display(), words::number(longest as u64)))
}
