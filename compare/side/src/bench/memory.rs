//! Peak memory: each side in a process of its own, which reads the set file, corrects a batch and says the most that it held.
use super::measure::CONFIRM;
use crate::cases::job;
use crate::library::library;
use crate::oracle::{correct, Keys};
use crate::referee::calls::{reads, Call, Job};
use crate::referee::correctors::Method;
use crate::set_file::BLOCK;
use br::set::BoxKmerSet;
use std::fs::File;
use std::io::{BufReader, Read};
use std::path::Path;
use std::process::Command;

/// The bytes held at most, or none where the system does not say.
pub fn peak(side: &str, set: &Path, batch: &Path) -> Option<u64> {
    let child = Command::new(std::env::current_exe().ok()?).arg("--memory").arg(side).arg(set).arg(batch).output().ok()?;
    String::from_utf8(child.stdout).ok()?.trim().parse().ok()
}

/// The child's part.
pub fn run(side: &str, set: &str, batch: &str) -> Result<(), String> {
    let say = |error: std::io::Error| error.to_string();
    let input = std::fs::read(batch).map_err(say)?;
    let output = input.len() * 5 / 4;
    let job = Job { input, output, work: 2 * output, ..job(Call::Batch, &[Method::One.byte(), CONFIRM], &[]) };
    match side {
        "ours" => {
            let set = std::fs::read(set).map_err(say)?;
            let (mut output, mut work) = (vec![0; job.output], vec![0; job.work]);
            library().correct(&set, &job, &mut output, &mut work).map_err(|refusal| format!("refused {}", refusal.number))?;
        }
        _ => {
            let keys = stream(set).map_err(say)?;
            let set: BoxKmerSet = Box::new(&keys);
            for read in reads(&job) {
                correct(&set, Method::One, CONFIRM, &read);
            }
        }
    }
    println!("{}", told("/proc/self/status", "VmHWM:").ok_or("no VmHWM")?);
    Ok(())
}

/// Bytes that can still be had, or none where the system does not say.
pub fn available() -> Option<u64> {
    told("/proc/meminfo", "MemAvailable:")
}

/// A number of bytes that the system tells in kB.
fn told(file: &str, name: &str) -> Option<u64> {
    let text = std::fs::read_to_string(file).ok()?;
    let rest = text.lines().find_map(|line| line.strip_prefix(name))?;
    let kilobytes: u64 = rest.trim().strip_suffix(" kB")?.trim().parse().ok()?;
    Some(kilobytes * 1024)
}

/// The Rust's set, filled block by block.
fn stream(set: &str) -> std::io::Result<Keys> {
    let mut file = BufReader::new(File::open(set)?);
    let mut block = [0; BLOCK];
    let word = |at: usize, block: &[u8; BLOCK]| u64::from_le_bytes(std::array::from_fn(|byte| block[8 * at + byte]));
    file.read_exact(&mut block)?;
    let (k, n) = (word(0, &block), word(1, &block));
    let keys = (0..n as usize).map(|at| {
        if at % 63 == 0 {
            file.read_exact(&mut block).expect("as many blocks as the header says");
        }
        word(at % 63, &block)
    });
    Ok(Keys::from_iter(k as u8, keys))
}
