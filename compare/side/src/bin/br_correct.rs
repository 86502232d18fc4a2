//! natir/br's `correct` over files, for command/test: `br_correct SET JOB < FASTA > FASTA`, a job as `two:7,one:3`. Tells the seconds of correcting on standard
//! error; the set is filled before.
use br::set::BoxKmerSet;
use side::oracle::{correct, Keys};
use side::referee::correctors::Method;
use std::error::Error;
use std::io::{self, BufWriter, Read, Write};
use std::time::Instant;

fn entry(text: &str) -> Result<(Method, u8), Box<dyn Error>> {
    let (name, confirm) = text.split_once(':').unwrap_or((text, "1"));
    let method = match name {
        "one" => Method::One,
        "two" => Method::Two,
        "graph" => Method::Graph,
        "gapsize" => Method::GapSize,
        _ => return Err("no such method".into()),
    };
    Ok((method, confirm.parse()?))
}

/// k and the keys of a set file, as it stands.
fn keys(set: &[u8]) -> Option<Keys> {
    let words: Vec<u64> = set.chunks_exact(8).map(|word| u64::from_le_bytes(word.try_into().unwrap_or_default())).collect();
    let (k, n) = (*words.first()?, *words.get(1)? as usize);
    let keys = words.get(64..)?.chunks(64).flat_map(|block| block.iter().take(63)).copied().take(n);
    Some(Keys::from_iter(k as u8, keys))
}

fn main() -> Result<(), Box<dyn Error>> {
    let words: Vec<String> = std::env::args().skip(1).collect();
    let [set, job] = &words[..] else { return Err("usage: br_correct SET JOB < FASTA > FASTA".into()) };
    let keys = keys(&std::fs::read(set)?).ok_or("no set")?;
    let job = job.split(',').map(entry).collect::<Result<Vec<_>, _>>()?;
    let mut text = String::new();
    io::stdin().read_to_string(&mut text)?;
    let mut to = BufWriter::new(io::stdout().lock());
    let set: BoxKmerSet = Box::new(&keys);
    let mut seconds = 0.0;
    for record in text.split('>').skip(1) {
        let (name, lines) = record.split_once('\n').unwrap_or((record, ""));
        let mut read: Vec<u8> = lines.split_whitespace().collect::<String>().into_bytes();
        let start = Instant::now();
        for (method, confirm) in &job {
            read = correct(&set, *method, *confirm, &read);
        }
        seconds += start.elapsed().as_secs_f64();
        writeln!(to, ">{name}")?;
        for line in read.chunks(80) {
            to.write_all(line)?;
            to.write_all(b"\n")?;
        }
    }
    to.flush()?;
    eprintln!("{seconds}");
    Ok(())
}
