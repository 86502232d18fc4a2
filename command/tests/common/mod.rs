//! A folder for each test, the binary run in it, and reads of a random genome.
#![allow(dead_code)]
use flate2::{write::GzEncoder, Compression};
use std::collections::BTreeMap;
use std::fs;
use std::io::Write;
use std::path::{Path, PathBuf};
use std::process::{Command, Output, Stdio};

pub struct Folder(PathBuf);

impl Folder {
    pub fn new(name: &str) -> Self {
        let path = std::env::temp_dir().join(format!("hatchery-{}-{name}", std::process::id()));
        let _ = fs::remove_dir_all(&path);
        fs::create_dir_all(&path).unwrap();
        Folder(path)
    }

    pub fn path(&self, name: &str) -> PathBuf {
        self.0.join(name)
    }

    pub fn write(&self, name: &str, bytes: impl AsRef<[u8]>) -> PathBuf {
        fs::write(self.path(name), bytes).unwrap();
        self.path(name)
    }

    pub fn read(&self, name: &str) -> Vec<u8> {
        fs::read(self.path(name)).unwrap_or_else(|error| panic!("{name}: {error}"))
    }

    pub fn text(&self, name: &str) -> String {
        String::from_utf8(self.read(name)).unwrap()
    }

    pub fn json(&self, name: &str) -> serde_json::Value {
        serde_json::from_slice(&self.read(name)).unwrap()
    }

    /// Names of all files, sorted.
    pub fn files(&self) -> Vec<String> {
        let mut names: Vec<String> = fs::read_dir(&self.0).unwrap().map(|entry| entry.unwrap().file_name().into_string().unwrap()).collect();
        names.sort();
        names
    }

    pub fn command(&self, words: &str) -> Command {
        let mut command = Command::new(env!("CARGO_BIN_EXE_hatchery"));
        command.current_dir(&self.0).args(words.split_whitespace()).stdin(Stdio::null());
        command
    }

    pub fn run(&self, words: &str) -> Ran {
        Ran::of(self.command(words).output().unwrap(), words)
    }

    pub fn run_with(&self, words: &str, input: &[u8]) -> Ran {
        let mut child = self.command(words).stdin(Stdio::piped()).stdout(Stdio::piped()).stderr(Stdio::piped()).spawn().unwrap();
        let mut stdin = child.stdin.take().unwrap();
        let input = input.to_vec();
        let writer = std::thread::spawn(move || {
            // The command may have ended before it has read all.
            let _ = stdin.write_all(&input);
        });
        let output = child.wait_with_output().unwrap();
        writer.join().unwrap();
        Ran::of(output, words)
    }
}

impl Drop for Folder {
    fn drop(&mut self) {
        let _ = fs::remove_dir_all(&self.0);
    }
}

pub struct Ran {
    pub status: i32,
    pub out: Vec<u8>,
    pub err: String,
    words: String,
}

impl Ran {
    fn of(output: Output, words: &str) -> Self {
        let err = String::from_utf8_lossy(&output.stderr).into_owned();
        assert!(!err.contains("panicked"), "{words}\n{err}");
        Ran { status: output.status.code().unwrap_or(-1), out: output.stdout, err, words: words.into() }
    }

    pub fn accepted(self) -> Self {
        assert_eq!(self.status, 0, "{}\n{}", self.words, self.err);
        self
    }

    /// Ended with this status, and said this.
    pub fn refused(self, status: i32, said: &str) -> Self {
        assert_eq!(self.status, status, "{}\n{}", self.words, self.err);
        assert!(self.err.contains(said), "{}\nsaid {}\nnot  {said}", self.words, self.err);
        self
    }

    pub fn text(&self) -> String {
        String::from_utf8(self.out.clone()).unwrap()
    }
}

pub fn sample(name: &str) -> PathBuf {
    Path::new(env!("CARGO_MANIFEST_DIR")).join("../samples").join(name)
}

pub fn gzip(bytes: &[u8]) -> Vec<u8> {
    let mut encoder = GzEncoder::new(Vec::new(), Compression::default());
    encoder.write_all(bytes).unwrap();
    encoder.finish().unwrap()
}

pub struct Random(u64);

impl Random {
    pub fn new(seed: u64) -> Self {
        Random(seed)
    }

    /// SplitMix64.
    pub fn next(&mut self) -> u64 {
        self.0 = self.0.wrapping_add(0x9e37_79b9_7f4a_7c15);
        let mut z = self.0;
        z = (z ^ z >> 30).wrapping_mul(0xbf58_476d_1ce4_e5b9);
        z = (z ^ z >> 27).wrapping_mul(0x94d0_49bb_1331_11eb);
        z ^ z >> 31
    }

    pub fn below(&mut self, most: usize) -> usize {
        (self.next() % most as u64) as usize
    }

    pub fn bases(&mut self, length: usize) -> Vec<u8> {
        (0..length).map(|_| b"ACGT"[self.below(4)]).collect()
    }
}

/// Counts of the genome's k-mers as `KMER,count` lines.
pub fn counts(genome: &[u8], k: usize) -> String {
    let mut all: BTreeMap<&[u8], u64> = BTreeMap::new();
    genome.windows(k).for_each(|kmer| *all.entry(kmer).or_default() += 1);
    all.iter().map(|(kmer, count)| format!("{},{count}\n", std::str::from_utf8(kmer).unwrap())).collect()
}

/// Reads with an error in every hundred bases or so.
pub fn reads(random: &mut Random, genome: &[u8], number: usize, length: usize) -> Vec<Vec<u8>> {
    let read = |random: &mut Random| {
        let start = random.below(genome.len() - length);
        let mut read = genome[start..start + length].to_vec();
        for base in &mut read {
            if random.below(100) == 0 {
                *base = b"ACGT"[random.below(4)];
            }
        }
        read
    };
    (0..number).map(|_| read(random)).collect()
}

pub fn fasta(reads: &[Vec<u8>]) -> Vec<u8> {
    let mut text = Vec::new();
    for (i, read) in reads.iter().enumerate() {
        text.extend(format!(">read{i} of test\n").into_bytes());
        for line in read.chunks(80) {
            text.extend_from_slice(line);
            text.push(b'\n');
        }
    }
    text
}

/// A folder with `solid.set` of a genome's k-mers, and that genome.
pub fn with_set(name: &str, k: usize) -> (Folder, Vec<u8>, Random) {
    let (folder, mut random) = (Folder::new(name), Random::new(7));
    let genome = random.bases(20_000);
    folder.write("counts", counts(&genome, k));
    folder.run(&format!("set --k {k} --least 1 counts -o solid.set --counts solid.counts --index solid.index")).accepted();
    (folder, genome, random)
}
